//! Random pools, tables and damaged sheets.
//!
//! Everything comes from a seed and from nothing else, so that whatever goes
//! wrong can be run again.

use crate::best::cycle_weight;
use crate::planner::MOST_FLOOR;
use crate::points::{self, Points, MOST_TOGETHER};
use crate::pool::{Pool, MOST_PAIRS};
use crate::sheet;
use crate::tables::Tables;

/// A generator of random numbers: splitmix64.
#[derive(Clone, Debug)]
pub struct Random {
    state: u64,
}

impl Random {
    /// The generator that starts from this seed.
    pub fn new(seed: u64) -> Random {
        Random { state: seed }
    }

    /// Any 64 bits.
    pub fn bits(&mut self) -> u64 {
        self.state = self.state.wrapping_add(0x9E37_79B9_7F4A_7C15);
        let mut bits = self.state;
        bits = (bits ^ bits >> 30).wrapping_mul(0xBF58_476D_1CE4_E5B9);
        bits = (bits ^ bits >> 27).wrapping_mul(0x94D0_49BB_1331_11EB);
        bits ^ bits >> 31
    }

    /// A byte.
    pub fn byte(&mut self) -> u8 {
        self.bits() as u8
    }

    /// A number from 0 to one less than `end`, which is not 0.
    pub fn below(&mut self, end: usize) -> usize {
        assert!(end > 0, "there is no number below 0");
        ((u128::from(self.bits()) * end as u128) >> 64) as usize
    }

    /// A number from `first` to `last`, both among them.
    pub fn between(&mut self, first: usize, last: usize) -> usize {
        first + self.below(last - first + 1)
    }

    /// True `times` times out of `of`.
    pub fn chance(&mut self, times: usize, of: usize) -> bool {
        self.below(of) < times
    }

    /// One of these.
    pub fn one_of<T: Copy>(&mut self, choices: &[T]) -> T {
        choices[self.below(choices.len())]
    }

    /// The numbers from 0 to `n` − 1 in any order.
    pub fn shuffle(&mut self, n: usize) -> Vec<u16> {
        let mut numbers: Vec<u16> = (0..n as u16).collect();
        for last in (1..n).rev() {
            numbers.swap(last, self.below(last + 1));
        }
        numbers
    }

    /// A word in which each bit is set `times` times out of `of`.
    fn some_bits(&mut self, times: usize, of: usize) -> u64 {
        (0..64).fold(0, |bits, _| bits << 1 | u64::from(self.chance(times, of)))
    }

    /// Numbers of which no two are alike, some of them at the very ends.
    fn ids(&mut self, n: usize) -> Vec<u32> {
        let mut ids = Vec::with_capacity(n);
        while ids.len() < n {
            let id = match self.below(10) {
                0 => self.one_of(&[0, 1, u32::MAX, u32::MAX - 1]),
                1 => self.below(1_000) as u32,
                _ => self.bits() as u32,
            };
            if !ids.contains(&id) {
                ids.push(id);
            }
        }
        ids
    }
}

/// What tables of a caller's own are like.
#[derive(Clone, Copy, Debug, PartialEq, Eq, Hash)]
pub enum TableKind {
    /// Most edges are there, with weights of all sizes.
    Dense,
    /// A few edges for each pair, with weights of all sizes.
    Sparse,
    /// No edge is there, whatever the weights.
    Empty,
    /// Many edges, of three weights only.
    Ties,
    /// Many edges, or a few, of which most weigh 1; but one of them, at any
    /// place, or most, weigh 0. Planning refuses these by 17 (W-209), and plans
    /// what [`mended`] makes of them.
    Weightless,
    /// The heaviest edges there can be, and some that are nearly so.
    Heavy,
    /// Pool k8, or twos in a row, laid over the pairs again and again: plans may
    /// fall to a third or to a half of what could be had.
    Traps,
}

impl TableKind {
    /// All kinds.
    pub const ALL: [TableKind; 7] = [
        TableKind::Dense,
        TableKind::Sparse,
        TableKind::Empty,
        TableKind::Ties,
        TableKind::Weightless,
        TableKind::Heavy,
        TableKind::Traps,
    ];
}

/// Tables of `n` pairs as a caller might lend them. W(i, i) is not read, so
/// it holds anything; so does W where there is no edge. Both are often 0, so
/// that one who looks for weightless edges there finds some.
///
/// Every edge weighs at least 1, but in tables of kind
/// [`Weightless`](TableKind::Weightless), which have a weightless one wherever
/// there are two pairs. So 17 is one answer of several, at every size: were any
/// edge weightless by chance, few large tables would be planned.
pub fn tables(random: &mut Random, n: usize, kind: TableKind) -> Tables {
    match kind {
        TableKind::Dense => laid(random, n, |random| {
            (random.chance(9, 10), any_weight(random))
        }),
        TableKind::Sparse => laid(random, n, |random| {
            (random.chance(3, n), any_weight(random))
        }),
        TableKind::Empty => laid(random, n, |random| (false, any_weight(random))),
        TableKind::Ties => laid(random, n, |random| {
            (random.chance(2, 3), random.between(1, 3) as u16)
        }),
        TableKind::Weightless => weightless(random, n),
        TableKind::Heavy => laid(random, n, |random| {
            let weight = u16::MAX - random.below(2) as u16;
            (random.chance(2, 3), weight)
        }),
        TableKind::Traps => traps(random, n),
    }
}

/// Any weight that an edge may have.
fn any_weight(random: &mut Random) -> u16 {
    random.between(1, usize::from(u16::MAX)) as u16
}

/// Tables of `n` pairs, by whether each edge is there and what it weighs then.
fn laid(random: &mut Random, n: usize, edge: impl Fn(&mut Random) -> (bool, u16)) -> Tables {
    let mut tables = Tables::empty(n);
    for entry in 0..n * n {
        let (present, weight) = edge(random);
        let diagonal = entry / n == entry % n;
        if present && !diagonal {
            tables.m[entry] = 1;
            tables.w[entry] = weight;
        } else {
            let any = any_weight(random);
            tables.w[entry] = random.one_of(&[0, weight, any]);
        }
    }
    tables
}

/// Tables of light edges, of which one weighs 0, which is laid if it was not
/// there; and half of the time most others do so too.
fn weightless(random: &mut Random, n: usize) -> Tables {
    let (times, of) = random.one_of(&[(4, 5), (1, 4)]);
    let mut tables = laid(random, n, |random| {
        let weight = random.one_of(&[1, 1, 1, 1, 1, 1, 2, 3]);
        (random.chance(times, of), weight)
    });
    if random.chance(1, 2) {
        for (&m, w) in tables.m.iter().zip(&mut tables.w) {
            if m == 1 && random.chance(7, 8) {
                *w = 0;
            }
        }
    }
    if n >= 2 {
        let (donor, patient) = place_of_edge(random, n);
        tables.m[donor * n + patient] = 1;
        tables.w[donor * n + patient] = 0;
    }
    tables
}

/// Where an edge of `n` pairs may stand: the numbers of a donor and a patient,
/// not of one pair, often the last. There must be two pairs.
pub fn place_of_edge(random: &mut Random, n: usize) -> (usize, usize) {
    loop {
        let mut pair = || match random.below(4) {
            0 => n - 1,
            _ => random.below(n),
        };
        let (donor, patient) = (pair(), pair());
        if donor != patient {
            return (donor, patient);
        }
    }
}

/// W of `n` pairs with 1 for every weightless edge. `None` if there is none:
/// then 17 lets the tables pass as they are.
pub fn mended(n: usize, m: &[u8], w: &[u16]) -> Option<Vec<u16>> {
    let mut mended = w.to_vec();
    for donor in 0..n {
        for patient in 0..n {
            let entry = donor * n + patient;
            if m[entry] == 1 && w[entry] == 0 {
                mended[entry] = 1;
            }
        }
    }
    (mended != w).then_some(mended)
}

/// k8 over any six pairs, or three twos in a row over any four, of which the
/// middle one may be planned; then over others, and so on.
fn traps(random: &mut Random, n: usize) -> Tables {
    let mut tables = Tables::empty(n);
    let pairs = random.shuffle(n);
    let mut left = &pairs[..];
    while left.len() >= 4 {
        let triple = left.len() >= 6 && random.chance(1, 2);
        let (now, later) = left.split_at(if triple { 6 } else { 4 });
        left = later;
        let scale = random.between(1, 1_000) as u16;
        let mut lay = |from: usize, to: usize, weight: u16| {
            let entry = usize::from(now[from]) * n + usize::from(now[to]);
            tables.m[entry] = 1;
            tables.w[entry] = scale * weight;
        };
        if triple {
            for i in 0..3 {
                lay(i, (i + 1) % 3, 2);
                lay(i, i + 3, 3);
                lay(i + 3, i, 3);
            }
        } else {
            for i in 0..3 {
                lay(i, i + 1, 3);
                lay(i + 1, i, 3);
            }
        }
    }
    tables
}

/// The greatest weight that a cycle can have.
pub const GREATEST_WEIGHT: u32 = 3 * u16::MAX as u32;

/// A floor that planning accepts, for these tables of `n` pairs: 0 more often
/// than any other; else a small one, or the weight of some cycle or one less, or
/// one near the greatest weight, or near the greatest floor, or any.
pub fn floor(random: &mut Random, n: usize, tables: &Tables) -> u32 {
    match random.below(12) {
        0 => random.between(1, 10) as u32,
        1 | 2 => weight_of_some_cycle(random, n, tables),
        3 => weight_of_some_cycle(random, n, tables).saturating_sub(1),
        4 => random.between(0, 2) as u32 + GREATEST_WEIGHT - 1,
        5 => MOST_FLOOR - random.below(2) as u32,
        6 => random.below(MOST_FLOOR as usize + 1) as u32,
        _ => 0,
    }
}

/// The weight of an executable cycle, if a few draws come upon one; else 0.
fn weight_of_some_cycle(random: &mut Random, n: usize, tables: &Tables) -> u32 {
    for _ in 0..if n < 2 { 0 } else { 30 } {
        let length = random.between(2, n.min(3));
        let pairs = random.shuffle(n);
        let cycle: Vec<usize> = pairs[..length].iter().map(|&pair| pair.into()).collect();
        if let Some(weight) = cycle_weight(&cycle, n, &tables.m, &tables.w) {
            return weight;
        }
    }
    0
}

/// Points that pass, and with which the weighing goes to its ends.
pub const EXTREME_POINTS: [[u16; points::COUNT]; 8] = [
    [1, 0, 0, 0, 0, 0],
    [1, 65_534, 0, 0, 0, 0],
    [1, 0, 0, 65_534, 0, 0],
    [1, 0, 0, 0, 65_534, 0],
    [1, 0, 0, 0, 0, 65_534],
    [1, 32_767, 32_767, 32_767, 32_767, 32_767],
    [65_534, 0, 1, 0, 0, 0],
    [65_535, 0, 0, 0, 0, 0],
];

/// Points of which base, largest mismatch step and larger age step are just so
/// much together. The largest stand in any place; steps fall or rise.
fn points_together(random: &mut Random, together: usize) -> [u16; points::COUNT] {
    const MOST: usize = u16::MAX as usize;
    let base = random.between(together.saturating_sub(2 * MOST).max(1), together.min(MOST));
    let rest = together - base;
    let largest = random.between(rest.saturating_sub(MOST), rest.min(MOST));
    let mut table = [0; points::COUNT];
    table[0] = base as u16;
    for (steps, greatest) in [(1..4, largest), (4..6, rest - largest)] {
        for step in &mut table[steps.clone()] {
            *step = random.between(0, greatest) as u16;
        }
        table[random.between(steps.start, steps.end - 1)] = greatest as u16;
    }
    table
}

/// Points of any sort that pass: document 01's, those at the ends, small ones,
/// and such as are just so much together as may be, or less.
pub fn points(random: &mut Random) -> Points {
    let most = MOST_TOGETHER as usize;
    let table = match random.below(6) {
        0 => Points::DOCUMENT.table(),
        1 => random.one_of(&EXTREME_POINTS),
        2 => {
            let together = random.between(1, 9);
            points_together(random, together)
        }
        3 => points_together(random, most),
        _ => {
            let together = random.between(1, most);
            points_together(random, together)
        }
    };
    Points::of(&table)
}

/// Points that do not pass: with a base of 0, or just one too much together, or
/// so much that it would wrap, or any more.
pub fn wrong_points(random: &mut Random) -> Points {
    let most = MOST_TOGETHER as usize;
    let table = match random.below(4) {
        0 => Points {
            base: 0,
            ..points(random)
        }
        .table(),
        1 => points_together(random, most + 1),
        2 => random.one_of(&[[0; points::COUNT], [u16::MAX; points::COUNT]]),
        _ => {
            let together = random.between(most + 2, 3 * most);
            points_together(random, together)
        }
    };
    Points::of(&table)
}

/// What a registry sets: points of any sort that pass; or nothing, as in
/// version 1.
pub fn registry(random: &mut Random) -> Option<Points> {
    if random.chance(1, 3) {
        return None;
    }
    Some(points(random))
}

/// What a pool in its fields is like.
#[derive(Clone, Copy, Debug, PartialEq, Eq, Hash)]
pub enum PoolKind {
    /// Easy bloods and few antibodies: most edges are there.
    Dense,
    /// Any bloods and many antibodies: few edges are there.
    Sparse,
    /// No donor suits any patient.
    Empty,
    /// Bloods differ, but all edges weigh the same.
    Ties,
    /// All fields are any bits that the sheet allows.
    Any,
}

impl PoolKind {
    /// All kinds.
    pub const ALL: [PoolKind; 5] = [
        PoolKind::Dense,
        PoolKind::Sparse,
        PoolKind::Empty,
        PoolKind::Ties,
        PoolKind::Any,
    ];
}

/// A pool of `n` pairs in its fields, with a random shuffle, of either version
/// and with any points that pass.
pub fn pool(random: &mut Random, n: usize, kind: PoolKind) -> Pool {
    let pool = plain_pool(random, n, kind);
    let registry = registry(random);
    pool.weighed_by(registry)
}

/// A pool of `n` pairs in version 1, with a random shuffle.
pub fn plain_pool(random: &mut Random, n: usize, kind: PoolKind) -> Pool {
    let mut pool = Pool {
        ids: random.ids(n),
        shuffle: random.shuffle(n),
        ..Pool::default()
    };
    // Antigens near to a common pattern have mismatches of every step.
    let common = random.some_bits(1, 8) | 1;
    for _ in 0..n {
        let blood = |random: &mut Random| random.below(4) as u8;
        let (donor_blood, patient_blood) = match kind {
            PoolKind::Dense => (random.one_of(&[0, 0, 0, 1]), random.one_of(&[1, 3, 3])),
            PoolKind::Empty => (3, random.one_of(&[0, 1, 2])),
            _ => (blood(random), blood(random)),
        };
        pool.donor_bloods.push(donor_blood);
        pool.patient_bloods.push(patient_blood);

        let age = |random: &mut Random| match kind {
            PoolKind::Ties => 1,
            _ => random.below(2) as u8,
        };
        pool.donor_ages.push(age(random));
        pool.patient_ages.push(age(random));

        let antigens = |random: &mut Random| match kind {
            PoolKind::Ties => common,
            PoolKind::Any => random.bits(),
            _ => (0..random.below(5)).fold(common, |bits, _| bits ^ 1 << random.below(64)),
        };
        pool.donor_antigens.push(antigens(random));
        pool.patient_antigens.push(antigens(random));

        let antibodies = match kind {
            PoolKind::Dense => random.some_bits(1, 64) & !common,
            PoolKind::Sparse => random.some_bits(1, 16),
            PoolKind::Empty => random.bits(),
            PoolKind::Ties => u64::from(random.chance(1, 4)),
            PoolKind::Any => random.some_bits(1, 40),
        };
        pool.patient_antibodies.push(antibodies);
    }
    pool
}

/// Pools of these sizes, no id being in two of them, all of one version and with
/// the same points.
pub fn pools_apart<const POOLS: usize>(
    random: &mut Random,
    sizes: [usize; POOLS],
    kind: PoolKind,
) -> [Pool; POOLS] {
    let mut ids = random.ids(sizes.iter().sum());
    let pools = sizes.map(|n| Pool {
        ids: ids.split_off(ids.len() - n),
        ..plain_pool(random, n, kind)
    });
    let registry = registry(random);
    pools.map(|pool| pool.weighed_by(registry))
}

/// A way to damage a sheet.
#[derive(Clone, Copy, Debug, PartialEq, Eq, Hash)]
pub enum Damage {
    /// The end is cut off.
    Cut,
    /// Bytes are put at the end.
    Grown,
    /// Bytes anywhere become others.
    BytesChanged,
    /// A tag or length becomes another.
    StartChanged,
    /// Version or N becomes another.
    HeadChanged,
    /// A point becomes another, or all become such as do not pass.
    PointsChanged,
    /// The points' field is taken out, or one is put in; at times the version
    /// becomes the other one as well, which does no harm.
    PointsMoved,
    /// A blood or an age group becomes another, which may be allowed.
    GroupChanged,
    /// Two fields change places, which may do no harm.
    FieldsSwapped,
    /// A pair gets the id of another.
    IdRepeated,
    /// A number of the shuffle becomes another's, or too great.
    ShuffleBroken,
    /// A byte is taken out, or one is put in, anywhere.
    Shifted,
    /// Nothing of the sheet is left: bytes of any kind in its stead.
    Noise,
}

impl Damage {
    /// All ways.
    pub const ALL: [Damage; 13] = [
        Damage::Cut,
        Damage::Grown,
        Damage::BytesChanged,
        Damage::StartChanged,
        Damage::HeadChanged,
        Damage::PointsChanged,
        Damage::PointsMoved,
        Damage::GroupChanged,
        Damage::FieldsSwapped,
        Damage::IdRepeated,
        Damage::ShuffleBroken,
        Damage::Shifted,
        Damage::Noise,
    ];
}

/// Damages what was the sheet of this pool and may have been damaged before.
/// Where there is nothing to do the damage to, the sheet stays as it is.
pub fn damage(random: &mut Random, pool: &Pool, sheet: &mut Vec<u8>, damage: Damage) {
    let (version, n) = (pool.version, pool.len());
    let shuffle = sheet::offset_of_shuffle(version, n);
    let pair = |i| sheet::offset_of_pair(version, i);
    match damage {
        Damage::Cut => {
            if !sheet.is_empty() {
                sheet.truncate(random.below(sheet.len()));
            }
        }
        Damage::Grown => {
            for _ in 0..random.between(1, 5) {
                let byte = random.one_of(&[0, 1, 2, 3, 255]);
                sheet.push(byte);
            }
        }
        Damage::BytesChanged => {
            if !sheet.is_empty() {
                for _ in 0..random.between(1, 4) {
                    let at = random.below(sheet.len());
                    sheet[at] ^= random.byte();
                }
            }
        }
        Damage::StartChanged => {
            let field = random.one_of(&sheet::offsets(version, n));
            let at = field + random.below(sheet::START);
            let value = random.byte() >> random.below(8);
            put(sheet, at, &[value]);
        }
        Damage::HeadChanged => {
            let near = [n.wrapping_sub(1), n, n + 1, MOST_PAIRS, MOST_PAIRS + 1];
            match random.below(4) {
                0 => put(sheet, sheet::START + random.below(2), &[random.byte()]),
                1 => put(sheet, sheet::START + 1, &[random.below(4) as u8]),
                2 => put(
                    sheet,
                    sheet::START + 2,
                    &(random.bits() as u16).to_be_bytes(),
                ),
                _ => put(
                    sheet,
                    sheet::START + 2,
                    &(random.one_of(&near) as u16).to_be_bytes(),
                ),
            }
        }
        Damage::PointsChanged => {
            if version == 2 {
                let value = sheet::OFFSET_OF_POINTS + sheet::START;
                if random.chance(1, 2) {
                    let any = random.bits() as u16;
                    let point = random.one_of(&[0, 1, u16::MAX, any]);
                    let at = value + 2 * random.below(points::COUNT);
                    put(sheet, at, &point.to_be_bytes());
                } else {
                    let field = sheet::points_field(wrong_points(random).table());
                    put(sheet, value, &field[sheet::START..]);
                }
            }
        }
        Damage::PointsMoved => {
            let points = if random.chance(1, 2) {
                points(random)
            } else {
                wrong_points(random)
            };
            move_points(version, sheet, points);
            if random.chance(1, 2) {
                put(sheet, sheet::START + 1, &[3 - version as u8]);
            }
        }
        Damage::GroupChanged => {
            if n > 0 {
                let groups = pair(random.below(n)) + sheet::START + 4;
                let group = random.one_of(&[0, 1, 2, 3, 4, 128, 255]);
                put(sheet, groups + random.below(4), &[group]);
            }
        }
        Damage::FieldsSwapped => {
            if sheet.len() == sheet::length(version, n) {
                swap_fields(random, version, n, sheet);
            }
        }
        Damage::IdRepeated => {
            if n > 1 {
                let from = pair(random.below(n)) + sheet::START;
                let to = pair(random.below(n)) + sheet::START;
                if let Some(id) = sheet.get(from..from + 4).map(<[u8]>::to_vec) {
                    put(sheet, to, &id);
                }
            }
        }
        Damage::ShuffleBroken => {
            if n > 0 {
                let at = shuffle + sheet::START + 2 * random.below(n);
                let wrong = [random.below(n), n, random.below(1 << 16)];
                let number = random.one_of(&wrong) as u16;
                put(sheet, at, &number.to_be_bytes());
            }
        }
        Damage::Shifted => {
            if !sheet.is_empty() {
                let at = random.below(sheet.len());
                if random.chance(1, 2) {
                    sheet.remove(at);
                } else {
                    sheet.insert(at, random.byte() & 3);
                }
            }
        }
        Damage::Noise => {
            let length = random.below(sheet.len() + 10);
            *sheet = (0..length)
                .map(|_| random.byte() >> random.below(8))
                .collect();
        }
    }
}

/// A copy of this pool's sheet with one to three damages of any kind.
pub fn damaged(random: &mut Random, pool: &Pool, sheet: &[u8]) -> Vec<u8> {
    let mut copy = sheet.to_vec();
    for _ in 0..random.one_of(&[1, 1, 1, 2, 3]) {
        let kind = random.one_of(&Damage::ALL);
        damage(random, pool, &mut copy, kind);
    }
    copy
}

/// Puts bytes over those of the sheet, as far as it reaches.
fn put(sheet: &mut [u8], at: usize, bytes: &[u8]) {
    for (old, &new) in sheet.iter_mut().skip(at).zip(bytes) {
        *old = new;
    }
}

/// Takes the points' field out of what was a sheet of version 2, and puts one
/// with these points into what was a sheet of version 1, if it reaches so far.
/// Where that is done already, the sheet stays as it is.
pub fn move_points(version: u16, sheet: &mut Vec<u8>, points: Points) {
    let at = sheet::OFFSET_OF_POINTS;
    let field = sheet::points_field(points.table());
    let there = sheet.get(at) == field.first();
    if version == 2 && there && sheet.len() >= at + field.len() {
        sheet.drain(at..at + field.len());
    } else if version == 1 && !there && sheet.len() >= at {
        sheet.splice(at..at, field);
    }
}

/// Lets two of the fields of a sheet of `n` pairs change places.
fn swap_fields(random: &mut Random, version: u16, n: usize, sheet: &mut Vec<u8>) {
    let mut bounds = sheet::offsets(version, n);
    bounds.push(sheet.len());
    let mut fields: Vec<&[u8]> = bounds
        .windows(2)
        .map(|two| &sheet[two[0]..two[1]])
        .collect();
    let (a, b) = (random.below(fields.len()), random.below(fields.len()));
    fields.swap(a, b);
    *sheet = fields.concat();
}

/// The environment variable that names the first seed of all [`trials`].
pub const SEED: &str = "TRIAL_SEED";

/// Runs a trial `count` times, with seeds from `seed` upward.
///
/// The first seed is printed, and that of a trial that panics as well. To run
/// that one again, set the environment variable [`SEED`] to it.
pub fn trials(name: &str, seed: u64, count: u64, mut trial: impl FnMut(&mut Random)) {
    let first = match std::env::var(SEED) {
        Ok(text) => text.parse().expect("the seed is a number"),
        Err(_) => seed,
    };
    println!("{name}: {count} trials from seed {first}");
    for number in 0..count {
        let seed = first.wrapping_add(number);
        let _witness = Witness { name, seed };
        trial(&mut Random::new(seed));
    }
}

/// Tells the seed of a trial that panics.
struct Witness<'a> {
    name: &'a str,
    seed: u64,
}

impl Drop for Witness<'_> {
    fn drop(&mut self) {
        if std::thread::panicking() {
            eprintln!("{}: failed; again with {SEED}={}", self.name, self.seed);
        }
    }
}

#[cfg(test)]
mod tests {
    use super::*;
    use crate::pool::is_shuffle;
    use crate::refusal::Reason;
    use crate::tables::build_pool;

    #[test]
    fn a_seed_always_gives_the_same() {
        let mut random = Random::new(1_234_567);
        // The first outputs of splitmix64 as its authors publish them.
        assert_eq!(random.bits(), 6_457_827_717_110_365_317);
        assert_eq!(random.bits(), 3_203_168_211_198_807_973);
        assert_eq!(
            pool(&mut Random::new(5), 9, PoolKind::Any),
            pool(&mut Random::new(5), 9, PoolKind::Any)
        );
    }

    #[test]
    fn pools_and_tables_have_no_fault_but_weightless_edges() {
        trials("faultless", 1, 1_000, |random| {
            let n = random.below(30);
            let kind = random.one_of(&PoolKind::ALL);
            let pool = pool(random, n, kind);
            assert!(is_shuffle(&pool.shuffle));
            build_pool(&pool).expect("no fault in the fields");
            let kind = random.one_of(&TableKind::ALL);
            let tables = tables(random, n, kind);
            let floor = floor(random, n, &tables);
            let Tables { m, w } = tables;
            let weightless = kind == TableKind::Weightless && n >= 2;
            let (shuffle, room) = (&pool.shuffle, crate::Room::due(n));
            let check = |w: &[u16]| crate::planner::check(n, floor, &m, w, shuffle, room);
            let due = if weightless {
                Err(Reason::WeightlessEdge)
            } else {
                Ok(())
            };
            assert_eq!(check(&w), due, "{kind:?}");
            let mended = mended(n, &m, &w);
            assert_eq!(mended.is_some(), weightless, "{kind:?}");
            assert_eq!(check(&mended.unwrap_or(w)), Ok(()), "{kind:?}");
        });
    }

    #[test]
    fn one_table_of_several_is_weightless() {
        let n = 6;
        let mut random = Random::new(209);
        let all: Vec<Tables> = (0..5_000)
            .map(|_| {
                let kind = random.one_of(&TableKind::ALL);
                tables(&mut random, n, kind)
            })
            .collect();
        let at = |tables: &Tables, entry: usize| (tables.m[entry], tables.w[entry]);
        let edges = |tables: &Tables| (0..n * n).filter(|&e| at(tables, e) == (1, 0)).count();
        let counts: Vec<usize> = all.iter().map(edges).collect();
        let weightless = counts.iter().filter(|&&count| count > 0).count();
        assert!((500..1_000).contains(&weightless), "{weightless} of 5,000");
        // Just one, and many.
        let ones = counts.iter().filter(|&&count| count == 1).count();
        assert!((250..500).contains(&ones), "{ones} with just one");
        let many = counts.iter().filter(|&&count| count > n * n / 2).count();
        assert!(many > 100, "{many} with many");
        for entry in 0..n * n {
            // That one is everywhere but on the diagonal.
            let alone =
                |(tables, &count): &(&Tables, &usize)| count == 1 && at(tables, entry) == (1, 0);
            let diagonal = entry % (n + 1) == 0;
            let there = all.iter().zip(&counts).filter(alone).count();
            assert_eq!(there == 0, diagonal, "entry {entry}");
            // Elsewhere W is often 0 where there is no edge, and often 1 where
            // there is one.
            let often = |what| {
                all.iter()
                    .filter(|tables| at(tables, entry) == what)
                    .count()
            };
            assert!(often((0, 0)) > 500, "entry {entry}");
            assert!(diagonal || often((1, 1)) > 200, "entry {entry}");
        }
    }

    #[test]
    fn mending_is_of_edges_alone() {
        let m = [0, 1, 1, 0, 0, 1, 1, 2, 0, 1];
        let w = [0, 0, 5, 0, 0, 0, 7, 0, 0, 0];
        let mended_w = [0, 1, 5, 0, 0, 1, 7, 0, 0, 0];
        assert_eq!(mended(3, &m, &w).as_deref(), Some(&mended_w[..]));
        assert_eq!(mended(3, &m, &mended_w), None);
        assert_eq!(mended(0, &m, &w), None);
        assert_eq!(mended(1, &m, &w), None);
    }

    #[test]
    fn floors_are_where_they_tell() {
        let n = 9;
        let mut random = Random::new(202);
        let tables = tables(&mut random, n, TableKind::Ties);
        let floors: Vec<u32> = (0..2_000).map(|_| floor(&mut random, n, &tables)).collect();
        // Cycles of ties weigh 2 to 9.
        for floor in (0..=10).chain([196_604, 196_605, 196_606, 199_999, 200_000]) {
            assert!(floors.contains(&floor), "{floor}");
        }
        let zeros = floors.iter().filter(|&&floor| floor == 0).count();
        assert!((500..1_500).contains(&zeros), "{zeros} zeros");
        // Where there is no cycle, and where there cannot be one.
        for n in [0, 1, 2] {
            let none = Tables::empty(n);
            assert_eq!(weight_of_some_cycle(&mut random, n, &none), 0);
        }
    }

    /// Base, largest mismatch step and larger age step together.
    fn together(points: [u16; points::COUNT]) -> u32 {
        let greatest = |steps: &[u16]| u32::from(*steps.iter().max().unwrap());
        u32::from(points[0]) + greatest(&points[1..4]) + greatest(&points[4..])
    }

    /// Where the greatest of these steps stands.
    fn greatest(steps: &[u16]) -> usize {
        (0..steps.len()).max_by_key(|&at| steps[at]).unwrap()
    }

    #[test]
    fn points_of_every_sort_pass() {
        let mut random = Random::new(205);
        let drawn: Vec<[u16; points::COUNT]> = (0..5_000)
            .map(|_| {
                let points = points(&mut random);
                assert_eq!(points.check(), Ok(()));
                points.table()
            })
            .collect();
        for table in EXTREME_POINTS.into_iter().chain([Points::DOCUMENT.table()]) {
            assert!(drawn.contains(&table), "{table:?}");
        }
        // Just so much as may be, the greatest in every place.
        for place in 0..6 {
            let there = |points: &&[u16; points::COUNT]| {
                together(**points) == MOST_TOGETHER
                    && greatest(&points[1..4]) == place % 3
                    && greatest(&points[4..]) == place / 3
                    && points[1..].iter().all(|&step| step > 0)
            };
            assert!(drawn.iter().filter(there).count() > 20, "{place}");
        }
        let rising = |points: &&[u16; points::COUNT]| points[1..4].is_sorted();
        assert!(drawn.iter().filter(rising).count() > 200);

        let versions: Vec<_> = (0..300).map(|_| registry(&mut random)).collect();
        let ones = versions.iter().filter(|points| points.is_none()).count();
        assert!((50..150).contains(&ones), "{ones} of version 1");
    }

    #[test]
    fn wrong_points_do_not_pass() {
        let mut random = Random::new(14);
        let drawn: Vec<[u16; points::COUNT]> = (0..5_000)
            .map(|_| {
                let points = wrong_points(&mut random);
                assert!(points.check().is_err());
                points.table()
            })
            .collect();
        let zero =
            |points: &&[u16; points::COUNT]| points[0] == 0 && together(**points) <= MOST_TOGETHER;
        assert!(drawn.iter().filter(zero).count() > 500);
        for place in 0..6 {
            let there = |points: &&[u16; points::COUNT]| {
                together(**points) == MOST_TOGETHER + 1
                    && points[0] > 0
                    && greatest(&points[1..4]) == place % 3
                    && greatest(&points[4..]) == place / 3
            };
            assert!(drawn.iter().filter(there).count() > 50, "{place}");
        }
        assert!(drawn.contains(&[u16::MAX; points::COUNT]));
    }

    #[test]
    fn points_move_in_and_out() {
        let n = 3;
        let one = plain_pool(&mut Random::new(6), n, PoolKind::Any);
        let two = one.clone().with_points(Points::DOCUMENT);
        let sheet = |pool: &Pool| sheet::write_pool(pool, sheet::LONGEST).unwrap();
        let (one, two) = (sheet(&one), sheet(&two));
        let mut moved = one.clone();
        for _ in 0..2 {
            move_points(1, &mut moved, Points::DOCUMENT);
            put(&mut moved, sheet::START + 1, &[2]);
            assert_eq!(moved, two);
        }
        for _ in 0..2 {
            move_points(2, &mut moved, Points::DOCUMENT);
            put(&mut moved, sheet::START + 1, &[1]);
            assert_eq!(moved, one);
        }
    }

    #[test]
    fn pools_apart_share_no_id() {
        let pools = pools_apart(&mut Random::new(4), [100, 0, 150], PoolKind::Any);
        assert_eq!(pools.each_ref().map(Pool::len), [100, 0, 150]);
        for pool in &pools {
            assert_eq!(pool.version, pools[0].version);
            assert_eq!(pool.points, pools[0].points);
        }
        let mut ids: Vec<u32> = pools.into_iter().flat_map(|pool| pool.ids).collect();
        ids.sort();
        ids.dedup();
        assert_eq!(ids.len(), 250);
    }

    #[test]
    fn kinds_are_what_they_say() {
        let n = 40;
        let mut random = Random::new(2);
        let mut edges = |kind| -> usize {
            let pool = pool(&mut random, n, kind);
            let tables = build_pool(&pool).unwrap();
            tables.m.iter().map(|&m| usize::from(m)).sum()
        };
        assert!(edges(PoolKind::Dense) > n * n * 2 / 3);
        assert!((1..n * n / 3).contains(&edges(PoolKind::Sparse)));
        assert_eq!(edges(PoolKind::Empty), 0);

        let ties = plain_pool(&mut random, n, PoolKind::Ties);
        let tables = build_pool(&ties).unwrap();
        let off_diagonal = (0..n * n).filter(|entry| entry % (n + 1) != 0);
        assert!(off_diagonal.clone().all(|entry| tables.w[entry] == 1_450));
    }

    #[test]
    fn every_mismatch_step_comes_up() {
        let mut random = Random::new(3);
        let pool = plain_pool(&mut random, 60, PoolKind::Dense);
        let tables = build_pool(&pool).unwrap();
        for age in [0, 30, 50] {
            for mismatch in [0, 100, 250, 400] {
                assert!(tables.w.contains(&(1_000 + mismatch + age)));
            }
        }
    }
}
