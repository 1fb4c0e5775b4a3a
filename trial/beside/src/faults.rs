//! Faults of an input, one by one and any two at once.

use crate::lent::Answered;
use crate::lives::{count_anew, BY_PAIR};
use crate::plans::Input;
use crate::sheets::{Lengths, TABLES};
use crate::Cases;
use reference::points::COUNT;
use reference::pool::{MOST_AGE, MOST_BLOOD, MOST_PAIRS};
use reference::random::move_points;
use reference::sheet::{
    length, offset_of_pair, offset_of_shuffle, offsets, points_field, OFFSET_OF_POINTS, START,
};
use reference::{Live, Pair, Points, Pool, MOST_FLOOR};

/// Something that makes an input faulty, unless another fault undoes it.
pub struct Fault<T> {
    name: String,
    apply: Box<dyn Fn(&mut T)>,
}

/// The faults of some input.
pub struct Faults<T>(Vec<Fault<T>>);

impl<T: Clone + 'static> Faults<T> {
    fn add(&mut self, name: String, apply: impl Fn(&mut T) + 'static) {
        let apply = Box::new(apply);
        self.0.push(Fault { name, apply });
    }

    /// Adds the faults of a part of the input.
    fn add_of<P: 'static>(&mut self, whose: &str, part: fn(&mut T) -> &mut P, faults: Faults<P>) {
        for Fault { name, apply } in faults.0 {
            self.add(format!("{whose}{name}"), move |input| apply(part(input)));
        }
    }

    /// Tries a sound input, and then with any two faults after each other.
    pub fn any_two(
        &self,
        sound: &T,
        cases: &mut Cases,
        answered: impl FnMut(&T) -> Answered,
    ) -> Result<(), String> {
        self.some_two(sound, 1, cases, answered)
    }

    /// Tries a sound input, then with each fault by itself, which is put in
    /// twice, and with two different ones, of which every `one_of`th couple is
    /// tried.
    pub fn some_two(
        &self,
        sound: &T,
        one_of: usize,
        cases: &mut Cases,
        mut answered: impl FnMut(&T) -> Answered,
    ) -> Result<(), String> {
        cases.add(answered(sound)?);
        for (i, first) in self.0.iter().enumerate() {
            for (j, second) in self.0.iter().enumerate() {
                if i != j && (i + j * j) % one_of != 0 {
                    continue;
                }
                let mut input = sound.clone();
                (first.apply)(&mut input);
                (second.apply)(&mut input);
                let number = answered(&input)
                    .map_err(|what| format!("{}, then {}: {what}", first.name, second.name))?;
                cases.add(number);
            }
        }
        Ok(())
    }
}

/// Numbers of pairs that are too great, some of them so that a square wraps.
pub const TOO_MANY: [usize; 5] = [MOST_PAIRS + 1, 1 << 16, 1 << 32, 1 << 63, usize::MAX];

/// Floors that are too high: by one; such as would pass if bits were lost or a
/// sign were seen; and the greatest numbers.
pub const TOO_HIGH: [u32; 5] = [
    MOST_FLOOR + 1,
    (1 << 18) + 1,
    1 << 31,
    u32::MAX - 1,
    u32::MAX,
];

/// Versions that are neither 1 nor 2: the nearest, such as would pass if bits
/// were lost, and the greatest.
const NO_VERSION: [u16; 5] = [0, 3, 256 + 1, 512 + 2, u16::MAX];

/// Points that do not pass: with a base of 0; just one too much together, with
/// the largest steps in every place; and so much that it would wrap.
pub const WRONG_POINTS: [[u16; COUNT]; 15] = [
    [0, 0, 0, 0, 0, 0],
    [0, 400, 250, 100, 50, 30],
    [2, 65_534, 0, 0, 0, 0],
    [2, 0, 65_534, 0, 0, 0],
    [2, 0, 0, 65_534, 0, 0],
    [2, 0, 0, 0, 65_534, 0],
    [2, 0, 0, 0, 0, 65_534],
    [30_001, 20_000, 0, 0, 15_535, 0],
    [30_001, 20_000, 0, 0, 0, 15_535],
    [30_001, 0, 20_000, 0, 15_535, 0],
    [30_001, 0, 20_000, 0, 0, 15_535],
    [30_001, 0, 0, 20_000, 15_535, 0],
    [30_001, 0, 0, 20_000, 0, 15_535],
    [65_535, 1, 2, 3, 4, 5],
    [65_535; COUNT],
];

/// Points that pass, just so.
pub const LAST_POINTS: [[u16; COUNT]; 9] = [
    [1, 0, 0, 0, 0, 0],
    [1, 0, 0, 65_534, 0, 0],
    [65_535, 0, 0, 0, 0, 0],
    [30_000, 20_000, 0, 0, 15_535, 0],
    [30_000, 20_000, 0, 0, 0, 15_535],
    [30_000, 0, 20_000, 0, 15_535, 0],
    [30_000, 0, 20_000, 0, 0, 15_535],
    [30_000, 0, 0, 20_000, 15_535, 0],
    [30_000, 0, 0, 20_000, 0, 15_535],
];

/// Shorter lengths: one less, and none.
fn shorter(length: usize) -> Vec<usize> {
    match length {
        0 => vec![],
        1 => vec![0],
        _ => vec![length - 1, 0],
    }
}

/// The first, a middle and the last of `n`.
fn some_of(n: usize) -> Vec<usize> {
    let mut some = match n {
        0 => vec![],
        _ => vec![0, n / 2, n - 1],
    };
    some.dedup();
    some
}

/// Puts an entry, if the table reaches so far.
pub fn put<T>(table: &mut [T], at: usize, entry: T) {
    if let Some(old) = table.get_mut(at) {
        *old = entry;
    }
}

/// Puts the id at an offset of one sheet over that at an offset of another, as
/// far as they reach.
fn put_id(from: &[u8], at: usize, to: &mut [u8], there: usize) {
    for byte in 0..4 {
        if let Some(&id) = from.get(at + byte) {
            put(to, there + byte, id);
        }
    }
}

/// Puts these points, as the field of a sheet of version 2 has them, as far as
/// the sheet reaches.
fn put_points(sheet: &mut [u8], points: [u16; COUNT]) {
    let field = points_field(points);
    for (at, &byte) in field.iter().enumerate().skip(START) {
        put(sheet, OFFSET_OF_POINTS + at, byte);
    }
}

/// Makes a sheet of that version one of the other: without its points, or with
/// document 01's.
fn turn(version: u16, sheet: &mut Vec<u8>) {
    move_points(version, sheet, Points::DOCUMENT);
    put(sheet, START + 1, 3 - version as u8);
}

/// Where the id of pair `i` stands.
fn offset_of_id(version: u16, i: usize) -> usize {
    offset_of_pair(version, i) + START
}

/// A sheet's own faults, where it is of that version and has `n` pairs.
fn of_sheet(version: u16, n: usize) -> Faults<Vec<u8>> {
    let mut faults = Faults(Vec::new());
    for end in 0..length(version, n) {
        faults.add(format!("cut at {end}"), move |sheet: &mut Vec<u8>| {
            sheet.truncate(end)
        });
    }
    for more in [1, 3, 40] {
        faults.add(format!("{more} bytes more"), move |sheet| {
            sheet.extend(vec![3; more])
        });
    }
    let mut set = |name: &str, at: usize, byte: u8| {
        faults.add(format!("{name} at {at} is {byte}"), move |sheet| {
            put(sheet, at, byte)
        });
    };
    for field in offsets(version, n) {
        for at in field..field + START {
            set("start", at, 0x7F);
        }
    }
    for (at, byte) in [(3, 1), (4, 0), (4, 1), (4, 2), (4, 3)] {
        set("version", at, byte);
    }
    for (at, byte) in [(5, 1), (6, 200), (6, 201), (6, n as u8 + 1)] {
        set("N", at, byte);
    }
    for i in 0..n {
        let groups = offset_of_pair(version, i) + START + 4;
        set("blood", groups, MOST_BLOOD + 1);
        set("blood", groups + 1, 255);
        set("age", groups + 2, MOST_AGE + 1);
        set("age", groups + 3, 255);
    }
    let numbers = offset_of_shuffle(version, n) + START;
    for i in 0..n {
        set("shuffle", numbers + 2 * i + 1, n as u8);
        set("shuffle", numbers + 2 * i, 1);
    }
    // A field of points too many, or missing, and with it the other version:
    // the last is no fault, and must hide none.
    faults.add("points moved".to_string(), move |sheet| {
        move_points(version, sheet, Points::DOCUMENT)
    });
    faults.add("the other version".to_string(), move |sheet| {
        turn(version, sheet)
    });
    if version == 2 {
        // The last of these are no faults, and must hide none.
        for points in WRONG_POINTS.into_iter().chain(LAST_POINTS) {
            faults.add(format!("points are {points:?}"), move |sheet| {
                put_points(sheet, points)
            });
        }
    }
    for i in 0..n {
        for j in i + 1..n {
            let (from, to) = (offset_of_id(version, i), offset_of_id(version, j));
            faults.add(format!("pair {j} has the id of {i}"), move |sheet| {
                put_id(&sheet.clone(), from, sheet, to)
            });
            let (from, to) = (numbers + 2 * i + 1, numbers + 2 * j + 1);
            faults.add(format!("place {j} has the number of {i}"), move |sheet| {
                if let Some(&number) = sheet.get(from) {
                    put(sheet, to, number);
                }
            });
        }
    }
    faults
}

/// What a sheet of `n` pairs is read from and into.
#[derive(Clone)]
pub struct Reading {
    /// The sheet.
    pub sheet: Vec<u8>,
    /// The lengths of the lent tables.
    pub lengths: Lengths,
}

/// Faults of reading a sheet of `n` pairs in that version.
pub fn of_reading(version: u16, n: usize) -> Faults<Reading> {
    let mut faults = Faults(Vec::new());
    faults.add_of(
        "",
        |input: &mut Reading| &mut input.sheet,
        of_sheet(version, n),
    );
    for table in 0..TABLES {
        for short in shorter(n) {
            faults.add(format!("table {table} has {short}"), move |input| {
                input.lengths.tables[table] = short
            });
        }
    }
    for short in shorter(COUNT) {
        faults.add(format!("points have {short}"), move |input| {
            input.lengths.points = short
        });
    }
    faults
}

/// What two sheets are joined from and into.
#[derive(Clone)]
pub struct Joining {
    /// The first sheet.
    pub first: Vec<u8>,
    /// The second sheet.
    pub second: Vec<u8>,
    /// The length of the buffer.
    pub room: usize,
}

/// Faults of joining that sheet of `m` pairs and that of `n`, both of that
/// version. So that there are too many together, the first gives way to `one`,
/// or the second to `other`.
pub fn of_joining(
    version: u16,
    [m, n]: [usize; 2],
    sound: &Joining,
    [one, other]: [Vec<u8>; 2],
) -> Faults<Joining> {
    let mut faults = Faults(Vec::new());
    faults.add_of(
        "first: ",
        |input: &mut Joining| &mut input.first,
        of_sheet(version, m),
    );
    faults.add_of("second: ", |input| &mut input.second, of_sheet(version, n));
    // No fault, and it must hide none.
    faults.add("both in the other version".to_string(), move |input| {
        turn(version, &mut input.first);
        turn(version, &mut input.second);
        input.room = length(3 - version, m + n);
    });
    if version == 2 {
        // Any point of the second becomes another, and mostly still passes.
        for point in 0..COUNT {
            let at = OFFSET_OF_POINTS + START + 2 * point + 1;
            let low = sound.second[at] ^ 1;
            faults.add(format!("second's point {point} is another"), move |input| {
                put(&mut input.second, at, low)
            });
        }
    }
    for i in 0..m {
        for j in 0..n {
            let (from, to) = (offset_of_id(version, i), offset_of_id(version, j));
            faults.add(
                format!("second's pair {j} has the id of first's {i}"),
                move |input| put_id(&input.first, from, &mut input.second, to),
            );
        }
    }
    // The buffer would hold all their pairs.
    let room = length(version, 2 * MOST_PAIRS);
    faults.add("first has many pairs".to_string(), move |input| {
        input.first = one.clone();
        input.room = room;
    });
    faults.add("second has many pairs".to_string(), move |input| {
        input.second = other.clone();
        input.room = room;
    });
    for short in shorter(length(version, m + n)) {
        faults.add(format!("room is {short}"), move |input| input.room = short);
    }
    faults
}

/// What a pool of `n` pairs is written from, or built from, and into.
#[derive(Clone)]
pub struct Fields {
    /// The number of pairs.
    pub n: usize,
    /// The version, and the lent points and fields, whatever their lengths.
    pub pool: Pool,
    /// The lengths of what is to be filled: the sheet, or M and W.
    pub room: [usize; 2],
}

/// Cuts one of a pool's tables off at an end.
type Cut = fn(&mut Pool, usize);

/// Faults of writing or building `n` pairs into that much room.
pub fn of_fields(n: usize, room: [usize; 2]) -> Faults<Fields> {
    let mut faults = Faults(Vec::new());
    for many in TOO_MANY {
        faults.add(format!("{many} pairs"), move |input: &mut Fields| {
            input.n = many
        });
    }
    // The other of the two versions is no fault if what it needs is there.
    for version in NO_VERSION.into_iter().chain([1, 2]) {
        faults.add(format!("version {version}"), move |input| {
            input.pool.version = version
        });
    }
    for short in shorter(COUNT) {
        faults.add(format!("points have {short}"), move |input| {
            input.pool.points.truncate(short)
        });
    }
    // The last of these are no faults, and must hide none.
    for points in WRONG_POINTS.into_iter().chain(LAST_POINTS) {
        faults.add(format!("points are {points:?}"), move |input| {
            for (point, entry) in points.into_iter().enumerate() {
                put(&mut input.pool.points, point, entry);
            }
        });
    }
    for short in shorter(n) {
        let cuts: [(&str, Cut); TABLES] = [
            ("ids", |pool, end| pool.ids.truncate(end)),
            ("donor_blood", |pool, end| pool.donor_bloods.truncate(end)),
            ("patient_blood", |pool, end| {
                pool.patient_bloods.truncate(end)
            }),
            ("donor_age", |pool, end| pool.donor_ages.truncate(end)),
            ("patient_age", |pool, end| pool.patient_ages.truncate(end)),
            ("donor_antigens", |pool, end| {
                pool.donor_antigens.truncate(end)
            }),
            ("patient_antigens", |pool, end| {
                pool.patient_antigens.truncate(end)
            }),
            ("patient_antibodies", |pool, end| {
                pool.patient_antibodies.truncate(end)
            }),
            ("shuffle", |pool, end| pool.shuffle.truncate(end)),
        ];
        for (table, cut) in cuts {
            faults.add(format!("{table} has {short}"), move |input| {
                cut(&mut input.pool, short)
            });
        }
    }
    for i in some_of(n) {
        for above in [1, 200] {
            let (blood, age) = (MOST_BLOOD + above, MOST_AGE + above);
            faults.add(format!("donor {i} has blood {blood}"), move |input| {
                put(&mut input.pool.donor_bloods, i, blood)
            });
            faults.add(format!("patient {i} has blood {blood}"), move |input| {
                put(&mut input.pool.patient_bloods, i, blood)
            });
            faults.add(format!("donor {i} has age {age}"), move |input| {
                put(&mut input.pool.donor_ages, i, age)
            });
            faults.add(format!("patient {i} has age {age}"), move |input| {
                put(&mut input.pool.patient_ages, i, age)
            });
        }
        for number in [n as u16, u16::MAX] {
            faults.add(format!("place {i} has {number}"), move |input| {
                put(&mut input.pool.shuffle, i, number)
            });
        }
        for j in some_of(n).into_iter().filter(move |&j| j > i) {
            faults.add(format!("pair {j} has the id of {i}"), move |input| {
                if let Some(&id) = input.pool.ids.get(i) {
                    put(&mut input.pool.ids, j, id);
                }
            });
            faults.add(format!("place {j} has the number of {i}"), move |input| {
                if let Some(&number) = input.pool.shuffle.get(i) {
                    put(&mut input.pool.shuffle, j, number);
                }
            });
        }
    }
    for (which, length) in room.into_iter().enumerate() {
        for short in shorter(length) {
            faults.add(format!("room {which} is {short}"), move |input| {
                input.room[which] = short
            });
        }
    }
    faults
}

/// Faults of planning that input, all of whose tables are just long enough.
pub fn of_planning(sound: &Input) -> Faults<Input> {
    let n = sound.n;
    let mut faults = Faults(Vec::new());
    for many in TOO_MANY {
        faults.add(format!("{many} pairs"), move |input: &mut Input| {
            input.n = many
        });
    }
    for high in TOO_HIGH {
        faults.add(format!("floor {high}"), move |input| input.floor = high);
    }
    // No fault, and it must hide none.
    faults.add(format!("floor {MOST_FLOOR}"), |input| {
        input.floor = MOST_FLOOR
    });
    for short in shorter(n * n) {
        faults.add(format!("M has {short}"), move |input| {
            input.m.truncate(short)
        });
        faults.add(format!("W has {short}"), move |input| {
            input.w.truncate(short)
        });
    }
    for short in shorter(n) {
        faults.add(format!("shuffle has {short}"), move |input| {
            input.shuffle.truncate(short)
        });
        faults.add(format!("donors has {short}"), move |input| {
            input.room.donors = short
        });
        faults.add(format!("recipients has {short}"), move |input| {
            input.room.recipients = short
        });
    }
    for short in shorter(sound.room.weights) {
        faults.add(format!("weights has {short}"), move |input| {
            input.room.weights = short
        });
    }
    for short in shorter(n / 2) {
        faults.add(format!("choices has {short}"), move |input| {
            input.room.choices = short
        });
        faults.add(format!("records has {short}"), move |input| {
            input.room.records = short
        });
    }
    for i in some_of(n) {
        for number in [n as u16, u16::MAX] {
            faults.add(format!("place {i} has {number}"), move |input| {
                put(&mut input.shuffle, i, number)
            });
        }
        for j in some_of(n).into_iter().filter(move |&j| j > i) {
            faults.add(format!("place {j} has the number of {i}"), move |input| {
                if let Some(&number) = input.shuffle.get(i) {
                    put(&mut input.shuffle, j, number);
                }
            });
        }
        for j in some_of(n) {
            for entry in [2, 255] {
                faults.add(format!("M({i}, {j}) is {entry}"), move |input| {
                    put(&mut input.m, i * n + j, entry)
                });
            }
            // Each of these is 17 beside the other, or where the other stands
            // already; on the diagonal the first is 10, and the second none.
            faults.add(format!("M({i}, {j}) is 1"), move |input| {
                put(&mut input.m, i * n + j, 1)
            });
            faults.add(format!("W({i}, {j}) is 0"), move |input| {
                put(&mut input.w, i * n + j, 0)
            });
        }
    }
    // A weightless edge at every place, in the last row and column too.
    for (i, j) in (0..n).flat_map(|i| (0..n).map(move |j| (i, j))) {
        if i != j {
            faults.add(format!("({i}, {j}) is weightless"), move |input| {
                make_weightless(input, i * n + j)
            });
        }
    }
    // No faults, and they must hide none: entries past the rows that would be a
    // weightless edge, and weights of 0 where no edge is.
    faults.add("past the rows a weightless edge".to_string(), |input| {
        input.m.push(1);
        input.w.push(0);
    });
    faults.add("0 for W where no edge is".to_string(), |input| {
        for (w, _) in input.w.iter_mut().zip(&input.m).filter(|(_, &m)| m == 0) {
            *w = 0;
        }
    });
    faults
}

/// Lays an edge that weighs nothing at that entry, if the tables reach so far.
pub fn make_weightless(input: &mut Input, entry: usize) {
    put(&mut input.m, entry, 1);
    put(&mut input.w, entry, 0);
}

/// A live pool that is to be started, and with what.
#[derive(Clone)]
pub struct Starting {
    /// The pool.
    pub live: Live,
    /// The points.
    pub given: Points,
}

/// Faults of starting a live pool. What it held before is none, whatever it
/// was.
pub fn of_starting() -> Faults<Starting> {
    let mut faults = Faults(Vec::new());
    // The last of these are no faults, and must hide none.
    for points in WRONG_POINTS.into_iter().chain(LAST_POINTS) {
        faults.add(
            format!("{points:?} are given"),
            move |input: &mut Starting| input.given = Points::of(&points),
        );
        faults.add(format!("{points:?} are stored"), move |input| {
            for (stored, point) in input.live.points.iter_mut().zip(points) {
                *stored = point;
            }
        });
    }
    for length in 0..COUNT + 3 {
        faults.add(format!("points have {length}"), move |input| {
            input.live.points.resize(length, 77)
        });
    }
    for count in TOO_MANY.into_iter().chain([0, 1, MOST_PAIRS]) {
        faults.add(format!("a count of {count}"), move |input| {
            input.live.count = count
        });
    }
    faults
}

/// Cuts off at an end one of the tables of a live pool that have an entry for
/// each pair.
type CutLive = fn(&mut Live, usize);

const CUTS: [(&str, CutLive); BY_PAIR] = [
    ("ids", |live, end| live.ids.truncate(end)),
    ("donor_blood", |live, end| live.donor_bloods.truncate(end)),
    ("patient_blood", |live, end| {
        live.patient_bloods.truncate(end)
    }),
    ("donor_age", |live, end| live.donor_ages.truncate(end)),
    ("patient_age", |live, end| live.patient_ages.truncate(end)),
    ("donor_antigens", |live, end| {
        live.donor_antigens.truncate(end)
    }),
    ("patient_antigens", |live, end| {
        live.patient_antigens.truncate(end)
    }),
    ("patient_antibodies", |live, end| {
        live.patient_antibodies.truncate(end)
    }),
    ("suitable", |live, end| live.suitable.truncate(end)),
];

/// Lengths that are too short for `one_more` entries, some of them for `least`
/// too: none, one less than `least`, `least`, and one less than `one_more`.
fn about(least: usize, one_more: usize) -> Vec<usize> {
    let mut lengths = vec![0, least.saturating_sub(1), least, one_more - 1];
    lengths.sort();
    lengths.dedup();
    lengths
}

/// Faults of a live pool of `n` pairs, whose tables just hold one more. Some are
/// none, or none for one of the calls, and must hide none.
fn of_live(n: usize) -> Faults<Live> {
    let mut faults = Faults(Vec::new());
    let near = [0, n.saturating_sub(1), n + 1, n + 2, MOST_PAIRS];
    for count in TOO_MANY.into_iter().chain(near) {
        faults.add(format!("a count of {count}"), move |live: &mut Live| {
            live.count = count
        });
    }
    for count in near {
        faults.add(format!("a count of {count}, counted anew"), move |live| {
            live.count = count;
            count_anew(live);
        });
    }
    for (table, cut) in CUTS {
        for short in about(n, n + 1) {
            faults.add(format!("{table} has {short}"), move |live| cut(live, short));
        }
    }
    for short in about(n * n, (n + 1) * (n + 1)) {
        faults.add(format!("M has {short}"), move |live| live.m.truncate(short));
        faults.add(format!("W has {short}"), move |live| live.w.truncate(short));
    }
    for length in shorter(COUNT).into_iter().chain([COUNT + 2]) {
        faults.add(format!("points have {length}"), move |live| {
            live.points.resize(length, 0)
        });
    }
    for points in WRONG_POINTS.into_iter().chain(LAST_POINTS) {
        faults.add(format!("points are {points:?}"), move |live| {
            for (stored, point) in live.points.iter_mut().zip(points) {
                *stored = point;
            }
        });
    }
    // The first past the count too, which is not looked at.
    for i in some_of(n).into_iter().chain([n]) {
        for above in [1, 200] {
            let (blood, age) = (MOST_BLOOD + above, MOST_AGE + above);
            faults.add(format!("donor {i} has blood {blood}"), move |live| {
                put(&mut live.donor_bloods, i, blood)
            });
            faults.add(format!("patient {i} has blood {blood}"), move |live| {
                put(&mut live.patient_bloods, i, blood)
            });
            faults.add(format!("donor {i} has age {age}"), move |live| {
                put(&mut live.donor_ages, i, age)
            });
            faults.add(format!("patient {i} has age {age}"), move |live| {
                put(&mut live.patient_ages, i, age)
            });
        }
        for j in some_of(n).into_iter().chain([n]).filter(move |&j| j > i) {
            faults.add(format!("pair {j} has the id of {i}"), move |live| {
                if let Some(&id) = live.ids.get(i) {
                    put(&mut live.ids, j, id);
                }
            });
        }
    }
    faults.add("W is full".to_string(), |live| live.w.fill(u16::MAX));
    faults.add_of("", |live| live, of_numbers(n));
    faults
}

/// Faults of the numbers of a live pool of `n` pairs: they become others, or M
/// does. Some are none, since both change alike.
fn of_numbers(n: usize) -> Faults<Live> {
    let mut faults = Faults(Vec::new());
    // The first past the count too, which is not looked at.
    for j in some_of(n).into_iter().chain([n]) {
        // One too high and one too low, and so that the low byte is the same.
        for by in [1, u16::MAX, 256] {
            let name = format!("{by} is added to the number of {j}");
            faults.add(name, move |live: &mut Live| {
                if let Some(number) = live.suitable.get_mut(j) {
                    *number = number.wrapping_add(by);
                }
            });
        }
        faults.add(format!("the number of {j} is 65535"), move |live| {
            put(&mut live.suitable, j, u16::MAX)
        });
    }
    // Each patient's column, with another donor, and the middle one's own.
    for (i, j) in some_of(n).into_iter().zip(some_of(n).into_iter().rev()) {
        for entry in [0, 1, 2] {
            faults.add(format!("M({i}, {j}) is {entry}"), move |live| {
                put(&mut live.m, i * n + j, entry)
            });
            let name = format!("M({i}, {j}) is {entry}, counted anew");
            faults.add(name, move |live| {
                put(&mut live.m, i * n + j, entry);
                count_anew(live);
            });
        }
    }
    for entry in [1, u8::MAX] {
        faults.add(format!("M is full of {entry}"), move |live| {
            live.m.fill(entry)
        });
        let name = format!("M is full of {entry}, counted anew");
        faults.add(name, move |live| {
            live.m.fill(entry);
            count_anew(live);
        });
    }
    faults
}

/// A live pool, and a pair that is to be registered there.
#[derive(Clone)]
pub struct Registering {
    /// The pool.
    pub live: Live,
    /// The pair.
    pub pair: Pair,
}

/// Faults of registering in a live pool of `n` pairs, whose tables just hold one
/// more.
pub fn of_registering(n: usize) -> Faults<Registering> {
    let mut faults = Faults(Vec::new());
    faults.add_of("", |input: &mut Registering| &mut input.live, of_live(n));
    for above in [1, 200] {
        let (blood, age) = (MOST_BLOOD + above, MOST_AGE + above);
        faults.add(format!("the donor has blood {blood}"), move |input| {
            input.pair.donor_blood = blood
        });
        faults.add(format!("the patient has blood {blood}"), move |input| {
            input.pair.patient_blood = blood
        });
        faults.add(format!("the donor has age {age}"), move |input| {
            input.pair.donor_age = age
        });
        faults.add(format!("the patient has age {age}"), move |input| {
            input.pair.patient_age = age
        });
    }
    for i in some_of(n) {
        faults.add(format!("the id is that of {i}"), move |input| {
            if let Some(&id) = input.live.ids.get(i) {
                input.pair.id = id;
            }
        });
    }
    // No fault: the count does not reach so far.
    faults.add(format!("the id stands at {n} already"), move |input| {
        put(&mut input.live.ids, n, input.pair.id)
    });
    faults
}

/// A live pool, and an id that is to be withdrawn.
#[derive(Clone)]
pub struct Withdrawing {
    /// The pool.
    pub live: Live,
    /// The id.
    pub id: u32,
}

/// Faults of withdrawing from a live pool of `n` pairs, whose tables just hold
/// one more and have that id past the count. `strange` is no pair's.
pub fn of_withdrawing(n: usize, strange: u32) -> Faults<Withdrawing> {
    let mut faults = Faults(Vec::new());
    faults.add_of("", |input: &mut Withdrawing| &mut input.live, of_live(n));
    faults.add("the id is no pair's".to_string(), move |input| {
        input.id = strange
    });
    for i in some_of(n).into_iter().chain([n]) {
        faults.add(format!("the id is that of {i}"), move |input| {
            if let Some(&id) = input.live.ids.get(i) {
                input.id = id;
            }
        });
    }
    faults
}
