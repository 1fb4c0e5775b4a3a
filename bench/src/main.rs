//! Times reading, building, planning, joining, registering and withdrawing by
//! the proved library; beside its planning the same gates in plain Rust, and a
//! planner that counts nothing; and beside its joining, and its live pool, the
//! same in plain Rust. Planning is timed with floor 0, and once more with a
//! floor that leaves about half the cycles; reading and building in version 1,
//! and once more in version 2. A refresh of the desk's screen is timed by a live
//! pool's stored numbers, and by counting suitable donors anew.
//!
//! `cargo run --release [-- SIZE..]` prints Markdown.

mod live;

use live::{count_ones, Lent, Plain};
use reference::best::cycle_weight;
use reference::random::{plain_pool, pools_apart, PoolKind, Random};
use reference::{gates, sheet, straight, subsets, Plan, Points, Pool, Room, Tally};
use std::fs;
use std::hint::black_box;
use std::time::Duration;
use vadivuzhen::raw::{self, PlanAnswer};
use vadivuzhen::Cycle;

/// The seed of every pool.
const SEED: u64 = 20_230_227;

/// The sizes, if none are named.
const SIZES: [usize; 4] = [10, 40, 100, 200];

/// A size is timed for about so long, and at least so often.
const LONG_ENOUGH: Duration = Duration::from_secs(10);
const OFTEN_ENOUGH: usize = 7;
const TOO_OFTEN: usize = 2_000;

/// Work on few pairs is repeated between two looks at the clock, about as many
/// times as work on this many pairs takes longer.
const PAIRS_TO_TIME: usize = 50;

/// Joining, registering and withdrawing take so little at any size that they are
/// repeated at least so often.
const CALLS_TO_TIME: u32 = 20;

/// So many refreshes of the screen are timed as one piece of work.
const REFRESHES: usize = 1_000;

fn main() {
    let mut sizes: Vec<usize> = std::env::args()
        .skip(1)
        .map(|size| size.parse().expect("sizes are numbers"))
        .collect();
    if sizes.is_empty() {
        sizes = SIZES.to_vec();
    }
    let timed: Vec<Timed> = sizes.into_iter().map(timed).collect();
    println!("Machine: {}, {} cores.", cpu(), cores());
    println!("Pools: dense, from seed {SEED}. The library's buffers are made once and not cleared between runs; (a), (b) and (c) make theirs anew in each run, and (d) keeps its tables from call to call. Times are the thread's processor time in milliseconds: the median of all runs, and in brackets the least.");
    println!();
    print_times(&timed);
    println!();
    print_joins(&timed);
    println!();
    print_lives(&timed);
    println!();
    print_refreshes(&timed);
    println!();
    print_floors(&timed);
    println!();
    print_versions(&timed);
    println!();
    print_gates(&timed);
}

/// The times of one piece of work.
#[derive(Default)]
struct Times(Vec<Duration>);

impl Times {
    /// Does the work so often between two looks at the clock, and gives the
    /// last outcome.
    fn add<T>(&mut self, often: u32, mut work: impl FnMut() -> T) -> T {
        let start = processor_time();
        for _ in 1..often {
            black_box(work());
        }
        let outcome = black_box(work());
        self.0.push((processor_time() - start) / often);
        outcome
    }

    fn least(&self) -> Duration {
        *self.0.iter().min().expect("a time")
    }

    fn median(&self) -> Duration {
        let mut times = self.0.clone();
        times.sort();
        times[times.len() / 2]
    }

    /// Median and least, for a cell of a table.
    fn cell(&self) -> String {
        let milliseconds = |time: Duration| time.as_secs_f64() * 1e3;
        let (median, least) = (milliseconds(self.median()), milliseconds(self.least()));
        format!("{median:.4} ({least:.4})")
    }
}

/// The times of all work on one pool.
struct Timed {
    n: usize,
    read: Times,
    build: Times,
    plan: Times,
    gates: Times,
    straight: Times,
    join: Times,
    plain_join: Times,
    live: LiveTimes,
    /// A floor in the middle of the planned cycles' weights, how many of how
    /// many cycles are planned with it, and planning with it.
    floor: u32,
    cycles: [usize; 2],
    plan_above: Times,
    gates_above: Times,
    /// The same pairs in version 2, with document 01's points.
    read_2: Times,
    build_2: Times,
}

/// The times of a live pool's calls, and of refreshes by its stored numbers and
/// by counting anew; none where there are no pairs.
#[derive(Default)]
struct LiveTimes {
    register: Times,
    plain_register: Times,
    withdraw: Times,
    plain_withdraw: Times,
    stored: Times,
    counted: Times,
}

impl Timed {
    /// How many gates a plan goes through.
    fn gates_in_plan(&self) -> u64 {
        let tally = Tally::demanded(self.n);
        tally.comparisons + tally.products
    }
}

/// The sheet of a sound pool.
fn sheet_of(pool: &Pool) -> Vec<u8> {
    reference::write_pool(pool, sheet::LONGEST).expect("a sound pool is written")
}

/// The tables that planning fills.
struct Filled {
    weights: Vec<u32>,
    choices: Vec<u32>,
    donors: Vec<u16>,
    recipients: Vec<u16>,
    records: Vec<Cycle>,
}

impl Filled {
    fn new(n: usize) -> Filled {
        Filled {
            weights: vec![0; subsets::count(n)],
            choices: vec![0; n / 2],
            donors: vec![0; n],
            recipients: vec![0; n],
            records: vec![Cycle::default(); n / 2],
        }
    }

    fn lent(&mut self) -> raw::Planned<'_> {
        raw::Planned {
            weights: &mut self.weights,
            choices: &mut self.choices,
            donors: &mut self.donors,
            recipients: &mut self.recipients,
            records: &mut self.records,
        }
    }

    /// What was planned here is that plan with that tally.
    fn assert_is(&self, answer: PlanAnswer, plan: &Plan, tally: Tally) {
        assert_eq!(answer.refusal, 0);
        assert_eq!(
            (&self.weights, &self.choices),
            (&plan.weights, &plan.choices)
        );
        assert_eq!(self.donors, plan.donors);
        assert_eq!(self.recipients, plan.recipients);
        assert_eq!(answer.cycles, plan.cycles());
        let cycle = |record: &Cycle| [record.first, record.second, record.third];
        let cycles: Vec<[u16; 3]> = self.records[..answer.cycles].iter().map(cycle).collect();
        assert_eq!(cycles, plan.records);
        assert_eq!(answer.weight, u64::from(plan.weight));
        let counted = Tally {
            comparisons: answer.comparisons,
            products: answer.products,
            rounds: answer.rounds,
        };
        assert_eq!(counted, tally);
    }
}

/// The weight of the middle one of the planned cycles; 0 where there is none.
fn middle_weight(n: usize, m: &[u8], w: &[u16], plan: &Plan) -> u32 {
    let Some(record) = plan.records.get(plan.cycles() / 2) else {
        return 0;
    };
    let pairs = record.iter().map(|&pair| usize::from(pair));
    let cycle: Vec<usize> = pairs.filter(|&pair| pair < n).collect();
    cycle_weight(&cycle, n, m, w).expect("a planned cycle is executable")
}

/// Times all work on a pool of `n` pairs, taking turns, so that whatever else
/// the machine does falls on all alike.
fn timed(n: usize) -> Timed {
    let pool = plain_pool(&mut Random::new(SEED), n, PoolKind::Dense);
    let sheet = sheet_of(&pool);
    let sheet_2 = sheet_of(&pool.clone().with_points(Points::DOCUMENT));
    let halves = [n / 2, n - n / 2];
    let [first, second] = pools_apart(&mut Random::new(SEED), halves, PoolKind::Dense)
        .map(|half| sheet_of(&half.of_version_1()));
    let mut joined = vec![0; sheet.len()];

    let mut points = [0; 6];
    let mut ids = vec![0; n];
    let [mut donor_blood, mut patient_blood, mut donor_age, mut patient_age] =
        [(); 4].map(|()| vec![0; n]);
    let [mut donor_antigens, mut patient_antigens, mut patient_antibodies] =
        [(); 3].map(|()| vec![0; n]);
    let mut shuffle = vec![0; n];
    let (mut m, mut w) = (vec![0; n * n], vec![0; n * n]);
    let (mut m_2, mut w_2) = (m.clone(), w.clone());
    let mut filled = Filled::new(n);

    let mut timed = Timed {
        n,
        read: Times::default(),
        build: Times::default(),
        plan: Times::default(),
        gates: Times::default(),
        straight: Times::default(),
        join: Times::default(),
        plain_join: Times::default(),
        live: LiveTimes::default(),
        floor: 0,
        cycles: [0; 2],
        plan_above: Times::default(),
        gates_above: Times::default(),
        read_2: Times::default(),
        build_2: Times::default(),
    };
    let often = 1 + (PAIRS_TO_TIME / n.max(1)).pow(3) as u32;
    let start = processor_time();
    let mut runs = 0;
    while runs < OFTEN_ENOUGH || runs < TOO_OFTEN && processor_time() - start < LONG_ENOUGH {
        let mut read = |sheet: &[u8]| {
            raw::read(
                black_box(sheet),
                raw::LentPool {
                    points: &mut points,
                    ids: &mut ids,
                    donor_blood: &mut donor_blood,
                    patient_blood: &mut patient_blood,
                    donor_age: &mut donor_age,
                    patient_age: &mut patient_age,
                    donor_antigens: &mut donor_antigens,
                    patient_antigens: &mut patient_antigens,
                    patient_antibodies: &mut patient_antibodies,
                    shuffle: &mut shuffle,
                },
            )
        };
        // What comes second finds the tables in the caches, so the versions take
        // turns.
        let order = [runs % 2, 1 - runs % 2];
        for turn in order {
            let read = match turn {
                0 => timed.read.add(often, || read(&sheet)),
                _ => timed.read_2.add(often, || read(&sheet_2)),
            };
            assert_eq!((read.refusal, usize::from(read.version)), (0, 1 + turn));
        }
        let fields = raw::Fields {
            ids: &ids,
            donor_blood: &donor_blood,
            patient_blood: &patient_blood,
            donor_age: &donor_age,
            patient_age: &patient_age,
            donor_antigens: &donor_antigens,
            patient_antigens: &patient_antigens,
            patient_antibodies: &patient_antibodies,
        };
        for turn in order {
            let build = match turn {
                0 => timed
                    .build
                    .add(often, || raw::build(1, n, &points, fields, &mut m, &mut w)),
                _ => timed.build_2.add(often, || {
                    raw::build(2, n, &points, fields, &mut m_2, &mut w_2)
                }),
            };
            assert_eq!(build.refusal, 0);
        }
        // The points are document 01's, so the tables are the same.
        assert_eq!((&m_2, &w_2), (&m, &w));

        // All make the same plan, and those that count count alike.
        let room = Room::due(n);
        let plan = timed.plan.add(often, || {
            raw::plan(n, black_box(0), &m, &w, &shuffle, filled.lent())
        });
        let (by_gates, tally) = timed
            .gates
            .add(often, || {
                gates::plan(n, black_box(0), &m, &w, &shuffle, room)
            })
            .expect("a plan by gates");
        let by_straight = timed
            .straight
            .add(often, || {
                straight::plan(n, black_box(0), &m, &w, &shuffle, room)
            })
            .expect("a straight plan");
        filled.assert_is(plan, &by_gates, tally);
        assert_eq!(by_gates, by_straight);

        // The same with a floor.
        let floor = middle_weight(n, &m, &w, &by_gates);
        let above = timed.plan_above.add(often, || {
            raw::plan(n, black_box(floor), &m, &w, &shuffle, filled.lent())
        });
        let (gates_above, tally_above) = timed
            .gates_above
            .add(often, || {
                gates::plan(n, black_box(floor), &m, &w, &shuffle, room)
            })
            .expect("a plan by gates, with a floor");
        filled.assert_is(above, &gates_above, tally_above);
        assert_eq!(tally_above, tally);
        timed.floor = floor;
        timed.cycles = [above.cycles, plan.cycles];

        let calls = often.max(CALLS_TO_TIME);
        let join = timed.join.add(calls, || {
            raw::join(black_box(&first), black_box(&second), &mut joined)
        });
        let plainly_joined = timed
            .plain_join
            .add(calls, || {
                reference::join(black_box(&first), black_box(&second), sheet.len())
            })
            .expect("two sheets joined");
        assert_eq!((join.refusal, join.length), (0, joined.len()));
        assert_eq!(joined, plainly_joined);
        if n > 0 {
            time_live(&mut timed.live, calls, &pool, (&m, &w));
        }
        runs += 1;
    }
    timed
}

/// Times registering the last pair of a pool, and withdrawing the middle one,
/// whose tables with document 01's points are `built`.
///
/// Each call is made on a pool of the same count, M and numbers, which are
/// copied back before it: N² entries and N, and the time has that in it. W is
/// built anew, or moved, whatever it holds. Of the library's pool the fields
/// are not copied back. To withdraw again, the last pair is there twice, and
/// whichever pair has come to the middle goes, which is the same work.
fn time_live(times: &mut LiveTimes, calls: u32, pool: &Pool, built: (&Vec<u8>, &Vec<u16>)) {
    let n = pool.len();
    let mut lent = Lent::new(Points::DOCUMENT, pool);
    let pairs = lent.pairs();
    let (last, middle) = (pairs[n - 1], n / 2);
    let without_last = Plain::new(Points::DOCUMENT, pairs[..n - 1].to_vec());
    let mut plain = without_last.clone();

    let registered = times.register.add(calls, || {
        lent.set_to(&without_last);
        lent.register(black_box(last))
    });
    let plainly_registered = times.plain_register.add(calls, || {
        plain.set_to(&without_last);
        plain.register(black_box(last))
    });
    assert_eq!((registered.refusal, plainly_registered), (0, Ok(())));
    lent.assert_is(&plain);
    assert_eq!((&plain.m, &plain.w), built);
    time_refreshes(times, &lent);

    // Once on copies, to be looked at.
    let (mut shorter, mut plainly_shorter) = (lent.clone(), plain.clone());
    let id = lent.ids[middle];
    assert_eq!(shorter.withdraw(id).refusal, 0);
    assert_eq!(
        (plainly_shorter.withdraw(id), shorter.count),
        (Ok(()), n - 1)
    );
    shorter.assert_is(&plainly_shorter);

    let whole = plain.clone();
    let withdrawn = times.withdraw.add(calls, || {
        lent.set_to(&whole);
        lent.withdraw(black_box(lent.ids[middle]))
    });
    let plainly_withdrawn = times.plain_withdraw.add(calls, || {
        plain.set_to(&whole);
        plain.withdraw(black_box(id))
    });
    assert_eq!((withdrawn.refusal, plainly_withdrawn), (0, Ok(())));
    assert_eq!((lent.count, plain.pairs.len()), (n - 1, n - 1));
}

/// Times what the screen does at a refresh, many times over: it takes the number
/// of suitable donors of each patient from the live pool, or counts them in the
/// columns of its M.
fn time_refreshes(times: &mut LiveTimes, lent: &Lent) {
    let n = lent.count;
    let (mut stored, mut counted) = (vec![0; n], vec![0; n]);
    times.stored.add(1, || {
        for _ in 0..REFRESHES {
            black_box(&mut stored).copy_from_slice(black_box(&lent.suitable[..n]));
        }
    });
    times.counted.add(1, || {
        for _ in 0..REFRESHES {
            count_ones(black_box(&lent.m[..n * n]), black_box(&mut counted));
        }
    });
    assert_eq!(stored, counted);
}

fn print_times(timed: &[Timed]) {
    println!("| pairs | runs | read | build | plan | (a) the same gates in plain Rust | (b) a planner that counts nothing | plan / (a) | plan / (b) |");
    println!("|--:|--:|--:|--:|--:|--:|--:|--:|--:|");
    for t in timed {
        println!(
            "| {} | {} | {} | {} | {} | {} | {} | {} | {} |",
            t.n,
            t.plan.0.len(),
            t.read.cell(),
            t.build.cell(),
            t.plan.cell(),
            t.gates.cell(),
            t.straight.cell(),
            ratio(&t.plan, &t.gates),
            ratio(&t.plan, &t.straight),
        );
    }
}

fn print_joins(timed: &[Timed]) {
    println!("| pairs | join, two sheets of half the pairs each | (c) the same in plain Rust | join / (c) |");
    println!("|--:|--:|--:|--:|");
    for t in timed {
        println!(
            "| {} | {} | {} | {} |",
            t.n,
            t.join.cell(),
            t.plain_join.cell(),
            ratio(&t.join, &t.plain_join),
        );
    }
}

fn print_lives(timed: &[Timed]) {
    println!("| pairs | register the last of them | (d) the same in plain Rust | register / (d) | withdraw the middle one | (d) the same in plain Rust | withdraw / (d) |");
    println!("|--:|--:|--:|--:|--:|--:|--:|");
    for t in timed.iter().filter(|t| t.n > 0) {
        println!(
            "| {} | {} | {} | {} | {} | {} | {} |",
            t.n,
            t.live.register.cell(),
            t.live.plain_register.cell(),
            ratio(&t.live.register, &t.live.plain_register),
            t.live.withdraw.cell(),
            t.live.plain_withdraw.cell(),
            ratio(&t.live.withdraw, &t.live.plain_withdraw),
        );
    }
}

/// What the screen's refreshes cost, by stored numbers and by counting anew.
fn print_refreshes(timed: &[Timed]) {
    println!("| pairs | {REFRESHES} refreshes by the stored numbers | by counting the columns of M anew | counting / stored |");
    println!("|--:|--:|--:|--:|");
    for t in timed.iter().filter(|t| t.n > 0) {
        println!(
            "| {} | {} | {} | {} |",
            t.n,
            t.live.stored.cell(),
            t.live.counted.cell(),
            ratio(&t.live.counted, &t.live.stored),
        );
    }
}

/// Planning with a floor, beside planning with 0 and beside the same gates.
fn print_floors(timed: &[Timed]) {
    println!("| pairs | floor | cycles of those with floor 0 | plan with the floor | (a) with the floor | plan with the floor / with 0 | plan / (a), with the floor |");
    println!("|--:|--:|--:|--:|--:|--:|--:|");
    for t in timed {
        let [some, all] = t.cycles;
        println!(
            "| {} | {} | {some} of {all} | {} | {} | {} | {} |",
            t.n,
            t.floor,
            t.plan_above.cell(),
            t.gates_above.cell(),
            ratio(&t.plan_above, &t.plan),
            ratio(&t.plan_above, &t.gates_above),
        );
    }
}

/// Reading and building in version 2, beside version 1.
fn print_versions(timed: &[Timed]) {
    println!("| pairs | read, version 2 | build, version 2 | read, version 2 / 1 | build, version 2 / 1 |");
    println!("|--:|--:|--:|--:|--:|");
    for t in timed {
        println!(
            "| {} | {} | {} | {} | {} |",
            t.n,
            t.read_2.cell(),
            t.build_2.cell(),
            ratio(&t.read_2, &t.read),
            ratio(&t.build_2, &t.build),
        );
    }
}

/// The ratios of medians and of least times.
fn ratio(times: &Times, to: &Times) -> String {
    format!(
        "{:.2} ({:.2})",
        times.median().div_duration_f64(to.median()),
        times.least().div_duration_f64(to.least())
    )
}

/// Gates by the second, and how the least time of planning grows: the power of
/// N that it follows from the size before.
fn print_gates(timed: &[Timed]) {
    println!("| pairs | gates in a plan | million gates a second: library | (a) | growth: library | (a) | gates |");
    println!("|--:|--:|--:|--:|--:|--:|--:|");
    let mut before: Option<&Timed> = None;
    for t in timed {
        let gates = t.gates_in_plan();
        let speed = |times: &Times| gates as f64 / times.least().as_secs_f64() / 1e6;
        let power = |of: &dyn Fn(&Timed) -> f64| match before {
            Some(before) => {
                let growth = of(t).ln() - of(before).ln();
                format!("N^{:.2}", growth / (t.n as f64 / before.n as f64).ln())
            }
            None => String::new(),
        };
        println!(
            "| {} | {gates} | {:.0} | {:.0} | {} | {} | {} |",
            t.n,
            speed(&t.plan),
            speed(&t.gates),
            power(&|t| t.plan.least().as_secs_f64()),
            power(&|t| t.gates.least().as_secs_f64()),
            power(&|t| t.gates_in_plan() as f64),
        );
        before = Some(t);
    }
}

/// How long this thread has been running on a processor: what else the machine
/// does counts for little.
fn processor_time() -> Duration {
    let mut time = Timespec {
        seconds: 0,
        nanoseconds: 0,
    };
    // SAFETY: the pointer is a live struct's, laid out as the C library's.
    let status = unsafe { clock_gettime(THREAD_CPUTIME, &mut time) };
    assert_eq!(status, 0, "there is no clock of the thread");
    Duration::new(time.seconds as u64, time.nanoseconds as u32)
}

/// The C library's `timespec` on x86-64 Linux, for which the archive is built.
#[repr(C)]
struct Timespec {
    seconds: i64,
    nanoseconds: i64,
}

/// `CLOCK_THREAD_CPUTIME_ID`.
const THREAD_CPUTIME: i32 = 3;

extern "C" {
    fn clock_gettime(clock: i32, time: *mut Timespec) -> i32;
}

/// The processor's name.
fn cpu() -> String {
    let info = fs::read_to_string("/proc/cpuinfo").unwrap_or_default();
    let line = info.lines().find(|line| line.starts_with("model name"));
    let name = line.and_then(|line| line.split_once(':'));
    name.map_or("an unnamed processor", |(_, name)| name.trim())
        .to_string()
}

fn cores() -> usize {
    std::thread::available_parallelism().map_or(1, usize::from)
}
