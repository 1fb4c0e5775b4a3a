//! Prints what becomes of a live pool: a run of W-206 and W-207 call by call, with
//! W-207's numbers, each refusal, tables changed by hand, and two hundred pairs,
//! in the words of the program `try_lives` of the proved library: what the two
//! print is compared.

use reference::live::{self, Call};
use reference::{Live, Pair, Points, Reason};
use std::fmt::Display;

/// A pair of which everything but the id is 0.
const fn pair(id: u32) -> Pair {
    Pair {
        id,
        donor_blood: 0,
        patient_blood: 0,
        donor_age: 0,
        patient_age: 0,
        donor_antigens: 0,
        patient_antigens: 0,
        patient_antibodies: 0,
    }
}

/// Document 01's pairs: A to B, and B to A.
const ELEVEN: Pair = Pair {
    donor_blood: 1,
    patient_blood: 2,
    ..pair(11)
};
const TWELVE: Pair = Pair {
    donor_blood: 2,
    patient_blood: 1,
    ..pair(12)
};

/// O to O, with a senior donor who has three antigens.
const THIRTEEN: Pair = Pair {
    donor_age: 1,
    donor_antigens: 7,
    ..pair(13)
};

/// O to AB.
const FOURTEEN: Pair = Pair {
    patient_blood: 3,
    ..pair(14)
};

/// How many pairs the tables of the first runs have room for.
const ROOM: usize = 8;

/// A pool that lives from call to call.
struct Pool(Live);

impl Pool {
    /// Tables of zeros, started with document 01's points.
    fn started(room: usize) -> (Pool, String) {
        let mut pool = Pool(Live::zeros(room));
        let left = live::start(&pool.0, Points::DOCUMENT);
        let line = pool.answered("start", left);
        (pool, line)
    }

    /// Makes a call, and tells it.
    fn call(&mut self, call: Call) -> String {
        let name = match call {
            Call::Register(pair) => format!("register {}", pair.id),
            Call::Withdraw(id) => format!("withdraw {id}"),
        };
        let left = call.on(&self.0);
        self.answered(&name, left)
    }

    /// Takes what a call left, if it finished, and tells the call.
    fn answered(&mut self, name: &str, left: Result<Live, Reason>) -> String {
        let answer = told(&left);
        if let Ok(left) = left {
            self.0 = left;
        }
        format!("{name}: {answer}, {} pairs", self.0.count)
    }

    /// The ids that are held, and their tables.
    fn shown(&self) {
        let n = self.0.count;
        println!("{}", line("ids", &self.0.ids[..n]));
        println!("{}", line("M", &self.0.m[..n * n]));
        println!("{}", line("W", &self.0.w[..n * n]));
        println!("{}", line("suitable", &self.0.suitable[..n]));
    }

    /// What lies past them, as far as a pool of one more would reach.
    fn past(&self) {
        let n = self.0.count;
        let (from, to) = (n * n, (n + 1) * (n + 1));
        let ids = line("past", &self.0.ids[n..=n]);
        let m = line(&ids, &self.0.m[from..to]);
        let w = line(&m, &self.0.w[from..to]);
        println!("{}", line(&w, &self.0.suitable[n..=n]));
    }

    /// The sums of M, of W and of the numbers.
    fn sums(&self) -> String {
        let (n, square) = (self.0.count, self.0.count * self.0.count);
        let m = sum(&self.0.m[..square]);
        let w = sum(&self.0.w[..square]);
        format!("{m} {w} {}", sum(&self.0.suitable[..n]))
    }
}

fn sum<T: Copy + Into<u64>>(entries: &[T]) -> u64 {
    entries.iter().map(|&entry| entry.into()).sum()
}

/// A name and entries, with a space before each.
fn line<T: Display>(name: &str, entries: &[T]) -> String {
    let entries = entries.iter().map(|entry| format!(" {entry}"));
    name.to_string() + &entries.collect::<String>()
}

/// An answer in a word or two.
fn told(answer: &Result<Live, Reason>) -> String {
    match answer {
        Ok(_) => "done".to_string(),
        Err(reason) => format!("refused {}", reason.number()),
    }
}

/// A run, with the tables after each call.
fn run() {
    println!("# A run");
    let (mut pool, line) = Pool::started(ROOM);
    println!("{line}");
    pool.shown();
    for call in [
        Call::Register(ELEVEN),
        Call::Register(TWELVE),
        Call::Register(THIRTEEN),
        Call::Withdraw(12),
        Call::Withdraw(12),
        Call::Register(TWELVE),
        Call::Withdraw(11),
        Call::Withdraw(13),
        Call::Withdraw(12),
        Call::Withdraw(12),
    ] {
        println!("{}", pool.call(call));
        pool.shown();
        if let Call::Withdraw(_) = call {
            pool.past();
        }
    }
}

/// Prints what comes of a change to a pool of two and a call on it, and gives
/// what the call left, if it finished.
fn tried(
    name: &str,
    change: impl Fn(&mut Live),
    call: impl Fn(&Live) -> Result<Live, Reason>,
) -> Option<Live> {
    let (mut pool, _) = Pool::started(ROOM);
    pool.call(Call::Register(ELEVEN));
    pool.call(Call::Register(TWELVE));
    change(&mut pool.0);
    let left = call(&pool.0);
    println!("{name}: {}", told(&left));
    left.ok()
}

/// Starting with these points.
fn starting(name: &str, given: [u16; 6], change: fn(&mut Live)) {
    let given = Points::of(&given);
    tried(&format!("start with {name}"), change, |live| {
        live::start(live, given)
    });
}

/// Registering this pair.
fn registering(name: &str, pair: Pair, change: fn(&mut Live)) {
    tried(&format!("register {name}"), change, |live| {
        live::register(live, pair)
    });
}

/// Withdrawing this id.
fn withdrawing(name: &str, id: u32, change: fn(&mut Live)) -> Option<Live> {
    tried(&format!("withdraw {name}"), change, |live| {
        live::withdraw(live, id)
    })
}

/// No change to a pool.
fn none(_: &mut Live) {}

/// The second patient's number is 2, or 0, and not 1.
fn too_high(live: &mut Live) {
    live.suitable[1] = 2;
}
fn too_low(live: &mut Live) {
    live.suitable[1] = 0;
}

/// Starting with what is refused, and with what is just not.
fn refused_starts() {
    let document = Points::DOCUMENT.table();
    let mut no_base = document;
    no_base[0] = 0;
    starting("base 0", no_base, none);
    let step = [65_535, 1, 0, 0, 0, 0];
    starting("base 65535 and a step of 1", step, none);
    starting("base 65535 alone", [65_535, 0, 0, 0, 0, 0], none);
    let five = |live: &mut Live| live.points.truncate(5);
    starting("a table of five", document, five);
    starting("base 0 and a table of five", no_base, five);
}

/// Registering in a pool that is refused, and a pair that is.
fn refused_registrations() {
    let new = THIRTEEN;
    registering("with a count of 201", new, |live| live.count = 201);
    registering("with a count of 9", new, |live| live.count = 9);
    registering("with a points table of five", new, |live| {
        live.points.truncate(5)
    });
    registering("with M of 3", new, |live| live.m.truncate(3));
    registering("with W of 3", new, |live| live.w.truncate(3));
    registering("with suitable of 1", new, |live| live.suitable.truncate(1));
    registering("with stored base 0", new, |live| live.points[0] = 0);
    registering("with stored base 0 and M of 3", new, |live| {
        live.points[0] = 0;
        live.m.truncate(3);
    });
    registering("with a number too high", new, too_high);
    registering("with a number too low", new, too_low);
    registering("with a number too high and stored base 0", new, |live| {
        too_high(live);
        live.points[0] = 0;
    });
    registering("with a number too high and suitable of 1", new, |live| {
        too_high(live);
        live.suitable.truncate(1);
    });
    let mut blood = new;
    blood.donor_blood = 4;
    registering("with a number too high and blood 4", blood, too_high);

    registering("with blood 4", blood, none);
    let mut age = new;
    age.patient_age = 2;
    registering("with age 2", age, none);
    registering("11 again", ELEVEN, none);
    let mut again = ELEVEN;
    again.donor_blood = 4;
    registering("11 again with blood 4", again, none);
    let twice = |live: &mut Live| live.ids[1] = 11;
    registering("with a stored id twice", new, twice);
    registering("with a stored id twice and blood 4", blood, twice);
    registering("with stored blood 4", new, |live| live.donor_bloods[1] = 4);
    registering("with stored blood 4 and a stored id twice", new, |live| {
        live.donor_bloods[1] = 4;
        live.ids[1] = 11;
    });

    registering("with room for two", new, |live| live.ids.truncate(2));
    registering("with M of 8", new, |live| live.m.truncate(8));
    registering("with W of 8", new, |live| live.w.truncate(8));
    registering("with suitable of 2", new, |live| live.suitable.truncate(2));
    registering("with M of 9, W of 9 and suitable of 3", new, |live| {
        live.m.truncate(9);
        live.w.truncate(9);
        live.suitable.truncate(3);
    });
}

/// Withdrawing from a pool that is refused, and an id that is.
fn refused_withdrawals() {
    withdrawing("with a count of 201", 11, |live| live.count = 201);
    withdrawing("with a count of 9", 11, |live| live.count = 9);
    withdrawing("with a points table of five", 11, |live| {
        live.points.truncate(5)
    });
    withdrawing("with W of 3", 11, |live| live.w.truncate(3));
    withdrawing("with suitable of 1", 11, |live| live.suitable.truncate(1));
    withdrawing("with stored base 0", 11, |live| live.points[0] = 0);
    withdrawing("with a number too high", 11, too_high);
    withdrawing("with a number too low", 11, too_low);
    withdrawing("with a number too high and stored base 0", 11, |live| {
        too_high(live);
        live.points[0] = 0;
    });
    withdrawing("13", 13, none);
    withdrawing("13 with stored base 0", 13, |live| live.points[0] = 0);
    withdrawing("13 with a number too high", 13, too_high);
    withdrawing("11 with stored blood 4", 11, |live| {
        live.donor_bloods[1] = 4
    });
    let left = withdrawing("11 where it stands twice", 11, |live| live.ids[1] = 11);
    if let Some(left) = left {
        println!("{}", line("ids", &left.ids[..left.count]));
        // The donor's blood tells the second from the first.
        println!("{}", line("blood", &left.donor_bloods[..left.count]));
    }
}

/// The run's three pairs, with M and the numbers put in by hand: some entries
/// are above 1, and some ones stand on the diagonal.
fn by_hand() -> Pool {
    let (mut pool, _) = Pool::started(ROOM);
    for pair in [ELEVEN, TWELVE, THIRTEEN] {
        pool.call(Call::Register(pair));
    }
    pool.0.m[..9].copy_from_slice(&[0, 1, 5, 1, 1, 2, 0, 1, 1]);
    pool.0.suitable[..3].copy_from_slice(&[1, 3, 1]);
    pool
}

/// Calls on the pool by hand, and then with each number wrong.
fn changed_by_hand() {
    println!("# Tables changed by hand");
    let mut pool = by_hand();
    println!("{}", pool.call(Call::Withdraw(12)));
    pool.shown();
    pool.past();
    let mut pool = by_hand();
    println!("{}", pool.call(Call::Register(FOURTEEN)));
    pool.shown();
    for j in 0..3 {
        let right = by_hand().0.suitable[j];
        for (how, number) in [("high", right + 1), ("low", right - 1)] {
            let mut live = by_hand().0;
            live.suitable[j] = number;
            let registered = told(&live::register(&live, FOURTEEN));
            let withdrawn = told(&live::withdraw(&live, 12));
            println!("number {j} too {how}: register {registered}, withdraw {withdrawn}");
        }
    }
}

/// The pair of that number, from 0, of many.
fn one_of_many(i: u32) -> Pair {
    let i_wide = u64::from(i);
    Pair {
        id: i + 1,
        donor_blood: (i % 4) as u8,
        patient_blood: (i / 4 % 4) as u8,
        donor_age: (i % 2) as u8,
        patient_age: (i / 2 % 2) as u8,
        donor_antigens: i_wide * i_wide % 1_009,
        patient_antigens: 7 * i_wide % 509,
        patient_antibodies: i_wide % 13,
    }
}

/// As many as there may be, one more, and one that withdraws and returns.
fn many() {
    println!("# Two hundred pairs");
    let (started, _) = Pool::started(200);
    let calls: Vec<Call> = (0..200).map(|i| Call::Register(one_of_many(i))).collect();
    let (left, answers) = live::after(started.0, &calls);
    let mut pool = Pool(left);
    let finished = answers.iter().filter(|answer| answer.is_ok()).count();
    println!("200 registered: {finished} {}", pool.sums());
    println!("{}", pool.call(Call::Register(one_of_many(200))));
    println!("{}", pool.call(Call::Withdraw(100)));
    println!("sums {}", pool.sums());
    println!("{}", pool.call(Call::Register(one_of_many(99))));
    println!("sums {}", pool.sums());
}

fn main() {
    run();
    println!("# Each refusal");
    refused_starts();
    refused_registrations();
    refused_withdrawals();
    changed_by_hand();
    many();
}
