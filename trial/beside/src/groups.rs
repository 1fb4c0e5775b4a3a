//! The groups of trials. A trial has its seed and nothing else to go by; its
//! size and kind are taken from the seed too, so that seeds in a row go
//! through all of them.

use crate::faults::{
    make_weightless, of_fields, of_joining, of_planning, of_reading, of_registering, of_starting,
    of_withdrawing, Fields, Joining, Reading, Registering, Starting, Withdrawing, LAST_POINTS,
    TOO_HIGH, WRONG_POINTS,
};
use crate::lent::{same, Answered, Outcome};
use crate::lists::listed;
use crate::lives::{sound, Kept};
use crate::plans::{made, plans, prints, prints_refusal, weights, Input};
use crate::sheets::{
    builds, enough, joins, lend, more, reads, there_and_back, writes, Lengths, TABLES,
};
use crate::Cases;
use reference::live;
use reference::points::COUNT;
use reference::pool::MOST_PAIRS;
use reference::printout::{self, Printed};
use reference::random::{
    damaged, floor, mended, place_of_edge, plain_pool, points, pool, pools_apart, registry, tables,
    wrong_points, PoolKind, Random, TableKind,
};
use reference::sheet::{self, length};
use reference::{
    best, best_above, build_pool, credit, Live, Pair, Plan, Points, Pool, Reason, Room, Tables,
    Tally, MOST_FLOOR,
};

/// Trials of one sort.
pub struct Group {
    /// Its name.
    pub name: &'static str,
    /// How many trials a whole run makes.
    pub trials: u64,
    /// The refusals that must come up in a whole run, 0 for none.
    pub due: &'static [u8],
    /// One trial.
    pub run: fn(u64, &mut Random, &mut Cases) -> Result<(), String>,
}

/// All groups.
pub const ALL: [Group; 22] = [
    Group {
        name: "plans",
        trials: SIZES * KINDS * 3,
        due: &[0, 13, 17],
        run: |seed, random, cases| {
            let (n, kind) = ((seed % SIZES) as usize, seed / SIZES);
            plan(random, n, kind, cases)?;
            if random.chance(1, 4) {
                cases.add(too_high(random, n, kind)?);
            }
            Ok(())
        },
    },
    Group {
        name: "plans-of-100",
        trials: KINDS,
        due: &[0, 17],
        run: |seed, random, cases| large_plan(random, 100, seed, cases),
    },
    Group {
        name: "plans-of-200",
        trials: 3,
        due: &[0, 4, 17],
        run: |seed, random, cases| {
            large_plan(random, 200, seed, cases)?;
            cases.add(one_too_many(random)?);
            Ok(())
        },
    },
    Group {
        name: "bound",
        trials: 20_000,
        due: &[0, 17],
        run: bound,
    },
    Group {
        name: "floors",
        trials: FLOOR_SIZES * KINDS * 10,
        due: &[0, 13, 17],
        run: floors,
    },
    Group {
        name: "tallies",
        trials: SIZES * 3,
        due: &[0, 17],
        run: tallies,
    },
    Group {
        name: "sheets",
        trials: 201 * 5,
        due: &[0],
        run: sheets,
    },
    Group {
        name: "points",
        trials: 5_000,
        due: &[0, 9, 14, 15],
        run: points_of_registries,
    },
    Group {
        name: "damaged-sheets",
        trials: 200_000,
        due: &[0, 1, 2, 3, 4, 5, 6, 7, 8, 9, 14],
        run: damaged_sheets,
    },
    Group {
        name: "joins",
        trials: 201 * 50,
        due: &[0, 1, 2, 3, 4, 5, 6, 7, 8, 9, 11, 12, 14, 15],
        run: joined_sheets,
    },
    Group {
        name: "live-pools",
        trials: 4_000,
        due: &[0, 4, 6, 7, 9, 10, 12, 14, 16],
        run: listed,
    },
    Group {
        name: "faults-of-reading",
        trials: 4 * REGISTRIES,
        due: &[0, 1, 2, 3, 4, 5, 6, 7, 8, 9, 14],
        run: faults_of_reading,
    },
    Group {
        name: "faults-of-writing",
        trials: FAULTY.len() as u64 * REGISTRIES,
        due: &[0, 3, 4, 6, 7, 8, 9, 14],
        run: faults_of_writing,
    },
    Group {
        name: "faults-of-joining",
        trials: FAULTY_TWO.len() as u64 * REGISTRIES,
        due: &[0, 1, 2, 3, 4, 5, 6, 7, 8, 9, 11, 12, 14, 15],
        run: faults_of_joining,
    },
    Group {
        name: "faults-of-building",
        trials: FAULTY.len() as u64 * REGISTRIES,
        due: &[0, 3, 4, 6, 7, 9, 14],
        run: faults_of_building,
    },
    Group {
        name: "faults-of-planning",
        trials: 14,
        due: &[0, 4, 8, 9, 10, 13, 17],
        run: faults_of_planning,
    },
    Group {
        name: "faults-of-starting",
        trials: 3,
        due: &[0, 9, 14],
        run: faults_of_starting,
    },
    Group {
        name: "faults-of-registering",
        trials: FAULTY_LIVE.len() as u64 * 2,
        due: &[0, 4, 6, 7, 9, 10, 12, 14],
        run: faults_of_registering,
    },
    Group {
        name: "faults-of-withdrawing",
        trials: FAULTY_LIVE.len() as u64 * 2,
        due: &[0, 4, 9, 10, 14, 16],
        run: faults_of_withdrawing,
    },
    Group {
        name: "printed-plans",
        trials: 600,
        due: &[0, 9],
        run: printed_plans,
    },
    Group {
        name: "printed-refusals",
        trials: 3_000,
        due: &[0, 9],
        run: printed_refusals,
    },
    Group {
        name: "safe-crate",
        trials: 2_000,
        due: &[0, 1, 2, 3, 4, 5, 6, 7, 8, 11, 12, 13, 14, 15, 16, 17],
        run: safe_crate,
    },
];

/// Sizes from 0 to 60.
const SIZES: u64 = 61;

/// Sizes from 0 to 16, with many floors each.
const FLOOR_SIZES: u64 = 17;

/// Kinds of tables: a caller's own, and built ones.
const KINDS: u64 = (TableKind::ALL.len() + PoolKind::ALL.len()) as u64;

/// Tables of that kind. Those of a pool are built by both first, and have no
/// weightless edge.
fn tables_of(random: &mut Random, n: usize, kind: u64) -> Result<Tables, String> {
    let kind = (kind % KINDS) as usize;
    if let Some(&own) = TableKind::ALL.get(kind) {
        return Ok(tables(random, n, own));
    }
    let pool = pool(random, n, PoolKind::ALL[kind - TableKind::ALL.len()]);
    let (m, w) = (n * n + more(random), n * n + more(random));
    let lent = lend(random, &pool);
    builds(random, n, &lent, m, w)?;
    let built = build_pool(&pool).map_err(|reason| format!("{reason:?} in a sound pool"))?;
    match mended(n, &built.m, &built.w) {
        Some(_) => Err(format!("a weightless edge of points {:?}", pool.points)),
        None => Ok(built),
    }
}

/// Tables of that kind and a shuffle, in tables that are often longer than
/// they need be; and a floor, 0 or any that is not too high. Of the entries past
/// N rows of N many are such as would be a weightless edge.
fn input(random: &mut Random, n: usize, kind: u64) -> Result<Input, String> {
    let tables = tables_of(random, n, kind)?;
    let floor = floor(random, n, &tables);
    let Tables { mut m, mut w } = tables;
    let mut shuffle = random.shuffle(n);
    let (any_m, any_w) = (random.byte(), random.bits() as u16);
    m.extend((0..more(random)).map(|_| random.one_of(&[1, 1, any_m])));
    w.extend((0..more(random)).map(|_| random.one_of(&[0, 0, any_w])));
    shuffle.extend((0..more(random)).map(|_| random.bits() as u16));
    let due = Room::due(n);
    let room = Room {
        weights: due.weights + more(random),
        choices: due.choices + more(random),
        donors: due.donors + more(random),
        recipients: due.recipients + more(random),
        records: due.records + more(random),
    };
    Ok(Input {
        n,
        floor,
        m,
        w,
        shuffle,
        room,
    })
}

/// An input of that kind that is planned. If it has weightless edges, it is tried
/// as it is first, and then has 1 for their weight, and a floor for these weights.
fn accepted(random: &mut Random, n: usize, kind: u64, cases: &mut Cases) -> Result<Input, String> {
    let mut input = input(random, n, kind)?;
    if let Some(w) = mended(n, &input.m, &input.w) {
        cases.add(weightless(random, &input)?);
        let m = input.m.clone();
        let tables = Tables { m, w };
        input.floor = floor(random, n, &tables);
        input.w = tables.w;
    }
    Ok(input)
}

/// Tables that are sound but for weightless edges, by the safe crate too.
fn weightless(random: &mut Random, input: &Input) -> Answered {
    let number = Reason::WeightlessEdge.number();
    match plans(random, input)? {
        Err(Reason::WeightlessEdge) => (),
        other => return Err(format!("a weightless edge: {other:?}")),
    }
    let safely = safe_tables(input)?.plan_above(input.floor, &input.shuffle);
    let why = safely.map_err(|refused| (refused.why.number(), refused.place));
    same("a weightless edge, safely", why, Err((number.into(), 0)))?;
    Ok(number)
}

fn plan(random: &mut Random, n: usize, kind: u64, cases: &mut Cases) -> Result<(), String> {
    let input = accepted(random, n, kind, cases)?;
    made(random, &input)?;
    cases.add(0);
    Ok(())
}

/// One of few large plans. Of any three seeds in a row at least one has floor 0,
/// and of the seeds of one kind every other has. Then the same with one weightless
/// edge: at the last places, (199, 198) among 200, at the first and at any.
fn large_plan(random: &mut Random, n: usize, seed: u64, cases: &mut Cases) -> Result<(), String> {
    let mut input = accepted(random, n, seed, cases)?;
    if (seed % 2 + seed / KINDS % 2) % 2 == 0 {
        input.floor = 0;
    }
    made(random, &input)?;
    cases.add(0);
    let any = place_of_edge(random, n);
    for (donor, patient) in [(n - 1, n - 2), (n - 2, n - 1), (0, 1), any] {
        let mut input = input.clone();
        make_weightless(&mut input, donor * n + patient);
        let number = weightless(random, &input);
        cases.add(number.map_err(|what| format!("({donor}, {patient}): {what}"))?);
    }
    Ok(())
}

/// One pair more than may be, in tables that would hold them, with weightless
/// edges.
fn one_too_many(random: &mut Random) -> Answered {
    let n = MOST_PAIRS + 1;
    let Tables { m, w } = tables(random, n, TableKind::Weightless);
    let input = Input {
        n,
        floor: 0,
        m,
        w,
        shuffle: random.shuffle(n),
        room: Room::due(n),
    };
    match plans(random, &input)? {
        Err(Reason::TooManyPairs) => Ok(Reason::TooManyPairs.number()),
        other => Err(format!("{n} pairs: {other:?}")),
    }
}

/// Tables that are sound, or have weightless edges, with a floor that is too high.
fn too_high(random: &mut Random, n: usize, kind: u64) -> Answered {
    let mut input = input(random, n, kind)?;
    input.floor = random.one_of(&TOO_HIGH);
    match plans(random, &input)? {
        Err(Reason::FloorTooHigh) => Ok(Reason::FloorTooHigh.number()),
        other => Err(format!("floor {}: {other:?}", input.floor)),
    }
}

/// The caller's own tables of the safe crate, with the entries of N pairs.
fn safe_tables(input: &Input) -> Result<vadivuzhen::Tables, String> {
    let n = input.n;
    let ids = (0..n as u32).collect();
    let (m, w) = (input.m[..n * n].to_vec(), input.w[..n * n].to_vec());
    vadivuzhen::Tables::new(ids, m, w).map_err(|refused| refused.to_string())
}

/// Three times the plan's weight, and the sum of each planned cycle's weight
/// times its number of pairs, are at least the weight of the best set whose
/// cycles all weigh more than the floor; with floor 0, of the best set there is.
/// The sum and the planned twos together are three times the weight, and the
/// safe crate adds up the same sum.
fn bound(seed: u64, random: &mut Random, cases: &mut Cases) -> Result<(), String> {
    let n = (seed % 9) as usize;
    let mut input = accepted(random, n, seed / 9, cases)?;
    let tables = safe_tables(&input)?;
    let rival = best_above(n, input.floor, &input.m, &input.w);
    let every = best(n, &input.m, &input.w);
    for (floor, best) in [(input.floor, rival), (0, every)] {
        input.floor = floor;
        let (plan, _) = made(random, &input)?;
        let weight = plan.weight;
        if weight > best.weight || 3 * weight < best.weight {
            return Err(format!("floor {floor}: weight {weight} beside {best:?}"));
        }
        let sum = credit(n, &input.m, &input.w, &plan);
        if sum < best.weight {
            return Err(format!("floor {floor}: sum {sum} beside {best:?}"));
        }
        let twos = plan.records.iter().zip(weights(&input, &plan));
        let twos = twos.filter(|(record, _)| usize::from(record[2]) == n);
        let twos: u32 = twos.map(|(_, weight)| weight).sum();
        same("the sum with the twos", sum + twos, 3 * weight)?;
        let safely = tables.plan_above(floor, &input.shuffle);
        let safely = safely.map_err(|refused| refused.to_string())?;
        same("the credit", safely.credit(), sum.into())?;
        cases.add(0);
    }
    Ok(())
}

/// Floors at which plans of cycles of these weights differ: at each weight,
/// directly below it and above it; and the ends.
fn telling_floors(weights: &[u32]) -> Vec<u32> {
    let near = |&weight: &u32| [weight.saturating_sub(1), weight, weight + 1];
    let mut floors: Vec<u32> = weights.iter().flat_map(near).collect();
    floors.extend([0, 1, MOST_FLOOR - 1, MOST_FLOOR]);
    floors.sort();
    floors.dedup();
    floors
}

/// One pool with many floors: the cycles planned with a floor are the first of
/// those planned with 0, just those above it, and all tallies are the same. The
/// safe crate's plans are those too, by the library's own answers alone.
fn floors(seed: u64, random: &mut Random, cases: &mut Cases) -> Result<(), String> {
    let n = (seed % FLOOR_SIZES) as usize;
    let mut input = accepted(random, n, seed / FLOOR_SIZES, cases)?;
    input.floor = 0;
    let (whole, tally) = made(random, &input)?;
    let weights = weights(&input, &whole);

    let tables = safe_tables(&input)?;
    let safely = |floor| tables.plan_above(floor, &input.shuffle);
    let safely_whole = tables.plan(&input.shuffle);
    same("the plan with floor 0", safely(0), safely_whole.clone())?;
    let safely_whole = safely_whole.map_err(|refused| refused.to_string())?;

    for floor in telling_floors(&weights) {
        let above = weights.iter().filter(|&&weight| weight > floor).count();
        let told = |what: &str| format!("{what} with floor {floor}, and the first with 0");
        let higher = Input {
            floor,
            ..input.clone()
        };
        let (plan, counted) = made(random, &higher)?;
        same(&told("records"), &plan.records[..], &whole.records[..above])?;
        same(&told("the tally"), counted, tally)?;
        same(&told("choices"), &plan.choices, &chosen(&whole, above))?;

        let plan = safely(floor).map_err(|refused| refused.to_string())?;
        let first = &safely_whole.records()[..above];
        same(&told("records, safely"), plan.records(), first)?;
        let weight = weights[..above]
            .iter()
            .map(|&weight| u64::from(weight))
            .sum();
        same(&told("the weight, safely"), plan.weight(), weight)?;
        same(
            &told("the tally, safely"),
            plan.tally(),
            safely_whole.tally(),
        )?;
        cases.add(0);
    }
    for floor in TOO_HIGH {
        let why = safely(floor).map_err(|refused| (refused.why, refused.place));
        let high = Err((vadivuzhen::Refusal::FloorTooHigh, 0));
        same(&format!("floor {floor}"), why, high)?;
        cases.add(Reason::FloorTooHigh.number());
    }
    Ok(())
}

/// The first choices of a plan, so many, and then none.
fn chosen(plan: &Plan, count: usize) -> Vec<u32> {
    let mut choices = plan.choices[..count].to_vec();
    choices.resize(plan.choices.len(), plan.weights.len() as u32);
    choices
}

/// Two pools of equally many pairs have the same tally, demand 3's, each with a
/// floor of its own.
fn tallies(seed: u64, random: &mut Random, cases: &mut Cases) -> Result<(), String> {
    let n = (seed % SIZES) as usize;
    let kinds = [random.bits(), random.bits()];
    let [one, other] = kinds.map(|kind| -> Result<Tally, String> {
        let input = accepted(random, n, kind, cases)?;
        Ok(made(random, &input)?.1)
    });
    let (one, other) = (one?, other?);
    same("the tally of another pool", one, other)?;
    same("the tally, by demand 3", one, Tally::demanded(n))?;
    cases.add(0);
    Ok(())
}

/// A pool of any kind.
fn any_pool(random: &mut Random, n: usize) -> Pool {
    let kind = random.one_of(&PoolKind::ALL);
    pool(random, n, kind)
}

/// The sheet of a sound pool.
fn sheet_of(pool: &Pool) -> Vec<u8> {
    reference::write_pool(pool, sheet::LONGEST).expect("a sound pool is written")
}

fn sheets(seed: u64, random: &mut Random, cases: &mut Cases) -> Result<(), String> {
    let n = (seed % 201) as usize;
    let pool = any_pool(random, n);
    let lengths = enough(random, &pool);
    cases.add(reads(random, &sheet_of(&pool), lengths)?);
    let room = length(pool.version, n) + more(random);
    let lent = lend(random, &pool);
    cases.add(writes(random, n, &lent, room)?);
    // Of longer tables the first pairs are written.
    let fewer = random.between(0, n);
    let mut first = lend(random, &pool);
    first.shuffle = random.shuffle(fewer);
    first.shuffle.resize(n, u16::MAX);
    cases.add(writes(random, fewer, &first, room)?);
    cases.add(builds(random, fewer, &first, n * n, n * n)?);
    there_and_back(random, &pool)?;
    cases.add(0);
    Ok(())
}

/// The sheet in version 2 of a sound pool of version 1, with these points,
/// whether they pass or not.
fn sheet_with(pool: &Pool, points: Points) -> Vec<u8> {
    let mut sheet = sheet_of(&pool.clone().with_points(Points::DOCUMENT));
    let field = sheet::points_field(points.table());
    sheet[sheet::OFFSET_OF_POINTS..][..field.len()].copy_from_slice(&field);
    sheet
}

/// Points that pass or do not, often at their limits.
pub fn any_points(random: &mut Random) -> Points {
    match random.below(4) {
        0 => Points::of(&random.one_of(&WRONG_POINTS)),
        1 => Points::of(&random.one_of(&LAST_POINTS)),
        2 => wrong_points(random),
        _ => points(random),
    }
}

/// Points near to these: one of them is one more or one less, at times none.
fn near_points(random: &mut Random, points: Points) -> Points {
    let mut table = points.table();
    let point = random.below(COUNT);
    table[point] = match random.below(3) {
        0 => table[point].saturating_add(1),
        1 => table[point].saturating_sub(1),
        _ => table[point],
    };
    Points::of(&table)
}

/// Points through every call that looks at them, from tables of every length
/// up to six and beyond; and version 1, to which no such table makes any
/// difference.
fn points_of_registries(seed: u64, random: &mut Random, cases: &mut Cases) -> Result<(), String> {
    let n = (seed % 5) as usize;
    let kind = random.one_of(&PoolKind::ALL);
    let [one, other] = pools_apart(random, [n, 2], kind).map(Pool::of_version_1);
    let points = any_points(random);
    let two = sheet_with(&one, points);
    for length in 0..COUNT + 3 {
        let mut lent = one.clone().with_points(points);
        lent.points.resize_with(length, || random.bits() as u16);
        let lengths = Lengths {
            points: length,
            tables: [n; TABLES],
        };
        cases.add(reads(random, &two, lengths)?);
        cases.add(writes(random, n, &lent, sheet::length(2, n))?);
        cases.add(builds(random, n, &lent, n * n, n * n)?);

        lent.version = 1;
        let answers = [
            reads(random, &sheet_of(&one), lengths)?,
            writes(random, n, &lent, sheet::length(1, n))?,
            builds(random, n, &lent, n * n, n * n)?,
        ];
        same("version 1 with any points", answers, [0; 3])?;
        cases.add(0);
    }

    let near = near_points(random, points);
    let any = any_points(random);
    for second in [
        sheet_with(&other, points),
        sheet_with(&other, near),
        sheet_with(&other, any),
        sheet_of(&other),
    ] {
        for (first, second) in [(&two, &second), (&second, &two)] {
            let joined = joins(random, first, second, sheet::LONGEST)?;
            cases.add(joined.err().map_or(0, Reason::number));
        }
    }
    Ok(())
}

/// The sheet of a pool of a few pairs, seldom of many, sound or with damages;
/// and that pool.
fn any_sheet(random: &mut Random) -> (Pool, Vec<u8>) {
    let most = if random.chance(1, 100) { 200 } else { 12 };
    let n = random.between(0, most);
    let pool = any_pool(random, n);
    let sheet = sheet_of(&pool);
    if random.chance(1, 10) {
        return (pool, sheet);
    }
    let damaged = damaged(random, &pool, &sheet);
    (pool, damaged)
}

fn damaged_sheets(_: u64, random: &mut Random, cases: &mut Cases) -> Result<(), String> {
    let (pool, sheet) = any_sheet(random);
    let n = pool.len();
    let mut lengths = enough(random, &pool);
    if random.chance(1, 8) {
        match random.below(TABLES + 1) {
            table if table < TABLES && n > 0 => lengths.tables[table] = random.below(n),
            _ => lengths.points = random.below(COUNT),
        }
    }
    cases.add(reads(random, &sheet, lengths)?);
    Ok(())
}

/// A sheet of `n` pairs and another, sound or with damages. Often they have
/// just 200 pairs together, or one more; at times they share an id; at times
/// their versions or points differ.
fn two_sheets(random: &mut Random, n: usize) -> [Vec<u8>; 2] {
    let rest = MOST_PAIRS - n;
    let other = match random.below(4) {
        0 => random.between(0, 3),
        1 => rest,
        2 => (rest + 1).min(MOST_PAIRS),
        _ => random.between(0, MOST_PAIRS),
    };
    let kind = random.one_of(&PoolKind::ALL);
    let mut pools = pools_apart(random, [n, other], kind);
    if random.chance(1, 4) {
        share_id(random, &mut pools);
    }
    if random.chance(1, 8) {
        let [first, second] = pools;
        pools = [first, of_another_registry(random, second)];
    }
    pools.map(|pool| {
        let sheet = sheet_of(&pool);
        match random.below(6) {
            0 => damaged(random, &pool, &sheet),
            _ => sheet,
        }
    })
}

/// A sound pool's pairs with points of any sort, or with none, or with points
/// of which one at most is another, if that passes.
fn of_another_registry(random: &mut Random, pool: Pool) -> Pool {
    if pool.version == 2 && random.chance(1, 2) {
        let near = near_points(random, Points::of(&pool.points));
        return match near.check() {
            Ok(()) => pool.with_points(near),
            Err(_) => pool,
        };
    }
    let registry = registry(random);
    pool.weighed_by(registry)
}

/// Gives a pair of the last pool the id of one of the first, if both have any.
fn share_id(random: &mut Random, pools: &mut [Pool]) {
    if let [first, .., last] = pools {
        if !first.is_empty() && !last.is_empty() {
            let (from, to) = (random.below(first.len()), random.below(last.len()));
            last.ids[to] = first.ids[from];
        }
    }
}

/// Two sheets joined into buffers of many lengths, and read back; and three of
/// them in both groupings.
fn joined_sheets(seed: u64, random: &mut Random, cases: &mut Cases) -> Result<(), String> {
    let n = (seed % 201) as usize;
    let [first, second] = two_sheets(random, n);
    let joined = joins(random, &first, &second, sheet::LONGEST)?;
    if let Ok(sheet) = &joined {
        let lengths = Lengths {
            points: COUNT,
            tables: [MOST_PAIRS; TABLES],
        };
        same("the joined sheet, read", reads(random, sheet, lengths)?, 0)?;
    }
    cases.add(joined.err().map_or(0, Reason::number));

    // What the joined sheet would have, if both are sound and not too long.
    let version = first.get(4).map_or(1, |&version| version.into());
    let due = (first.len() + second.len()).saturating_sub(length(version, 0));
    let fewer = random.below(due + 1);
    for room in [due + more(random), due, due.saturating_sub(1), fewer, 0] {
        let answer = joins(random, &first, &second, room)?;
        cases.add(answer.err().map_or(0, Reason::number));
    }
    cases.add(regrouped(random)?);
    Ok(())
}

/// Three sheets joined in both groupings: where one is made so is the other,
/// and they are the same sheet. Which refusal is told may differ.
fn regrouped(random: &mut Random) -> Answered {
    let most = random.one_of(&[3, 66, 90]);
    let sizes = [(); 3].map(|()| random.between(0, most));
    let mut pools = pools_apart(random, sizes, PoolKind::Any);
    if random.chance(1, 6) {
        let two = random.one_of(&[(0, 2), (1, 3), (0, 3)]);
        share_id(random, &mut pools[two.0..two.1]);
    }
    if random.chance(1, 6) {
        let one = random.below(3);
        pools[one] = of_another_registry(random, pools[one].clone());
    }
    let [a, b, c] = pools.map(|pool| sheet_of(&pool));
    let mut joined = |first: &[u8], second: &[u8]| joins(random, first, second, sheet::LONGEST);
    let left = match joined(&a, &b)? {
        Ok(ab) => joined(&ab, &c)?,
        refused => refused,
    };
    let right = match joined(&b, &c)? {
        Ok(bc) => joined(&a, &bc)?,
        refused => refused,
    };
    same(
        "a sheet of three, regrouped",
        left.as_ref().ok(),
        right.as_ref().ok(),
    )?;
    Ok(left.err().map_or(0, Reason::number))
}

/// For any two faults: version 1, version 2 with document 01's points, and
/// version 2 with any that pass.
const REGISTRIES: u64 = 3;

/// What the registry of that number sets.
fn registry_of(random: &mut Random, number: u64) -> Option<Points> {
    match number % REGISTRIES {
        0 => None,
        1 => Some(Points::DOCUMENT),
        _ => Some(points(random)),
    }
}

/// A pool of that registry.
fn pool_of(random: &mut Random, n: usize, number: u64) -> Pool {
    let kind = random.one_of(&PoolKind::ALL);
    let pool = plain_pool(random, n, kind);
    let registry = registry_of(random, number);
    pool.weighed_by(registry)
}

/// A pool of that registry, to be written or built. In version 1 the points
/// that are lent are any six, so that another version finds them.
fn lent_of(random: &mut Random, n: usize, number: u64) -> Pool {
    let mut lent = pool_of(random, n, number);
    lent.points.resize_with(COUNT, || random.bits() as u16);
    lent
}

fn faults_of_reading(seed: u64, random: &mut Random, cases: &mut Cases) -> Result<(), String> {
    let n = (seed % 4) as usize;
    let pool = pool_of(random, n, seed / 4);
    let sound = Reading {
        sheet: sheet_of(&pool),
        lengths: Lengths {
            points: COUNT,
            tables: [n; TABLES],
        },
    };
    of_reading(pool.version, n).any_two(&sound, cases, |input| {
        reads(random, &input.sheet, input.lengths)
    })
}

/// Sizes for any two faults; the greatest is the document's.
const FAULTY: [usize; 7] = [0, 1, 2, 3, 4, 7, 200];

fn faulty(seed: u64) -> usize {
    FAULTY[(seed % FAULTY.len() as u64) as usize]
}

fn faults_of_writing(seed: u64, random: &mut Random, cases: &mut Cases) -> Result<(), String> {
    let n = faulty(seed);
    let pool = lent_of(random, n, seed / FAULTY.len() as u64);
    let room = [length(pool.version, n), 0];
    let sound = Fields { n, pool, room };
    of_fields(n, room).any_two(&sound, cases, |input| {
        writes(random, input.n, &input.pool, input.room[0])
    })
}

/// Sizes of two sheets for any two faults.
const FAULTY_TWO: [[usize; 2]; 10] = [
    [0, 0],
    [0, 1],
    [1, 0],
    [1, 1],
    [0, 2],
    [2, 0],
    [2, 1],
    [1, 2],
    [2, 2],
    [3, 3],
];

fn faults_of_joining(seed: u64, random: &mut Random, cases: &mut Cases) -> Result<(), String> {
    let sizes = FAULTY_TWO.len() as u64;
    let [m, n] = FAULTY_TWO[(seed % sizes) as usize];
    let registry = registry_of(random, seed / sizes);
    let version = if registry.is_some() { 2 } else { 1 };
    // Beside one pair 200 are too many, beside none those of another sheet.
    let sizes = [m, n, MOST_PAIRS, MOST_PAIRS];
    let kind = random.one_of(&PoolKind::ALL);
    let pools = pools_apart(random, sizes, kind).map(|pool| pool.weighed_by(registry));
    let [first, second, one, other] = pools.map(|pool| sheet_of(&pool));
    let sound = Joining {
        first,
        second,
        room: length(version, m + n),
    };
    of_joining(version, [m, n], &sound, [one, other]).any_two(&sound, cases, |input| {
        let answer = joins(random, &input.first, &input.second, input.room)?;
        Ok(answer.err().map_or(0, Reason::number))
    })
}

fn faults_of_building(seed: u64, random: &mut Random, cases: &mut Cases) -> Result<(), String> {
    // Of 200 pairs there would be too many tables to build.
    let n = faulty(seed).min(20);
    let room = [n * n; 2];
    let pool = lent_of(random, n, seed / FAULTY.len() as u64);
    let sound = Fields { n, pool, room };
    of_fields(n, room).any_two(&sound, cases, |input| {
        builds(random, input.n, &input.pool, input.room[0], input.room[1])
    })
}

fn faults_of_planning(seed: u64, random: &mut Random, cases: &mut Cases) -> Result<(), String> {
    // Of 200 pairs there would be too many plans to make.
    let n = faulty(seed).min(9);
    let kind = random.bits();
    let mut tables = tables_of(random, n, kind)?;
    if let Some(w) = mended(n, &tables.m, &tables.w) {
        tables.w = w;
    }
    let floor = floor(random, n, &tables);
    let Tables { m, w } = tables;
    let sound = Input {
        n,
        floor,
        m,
        w,
        shuffle: random.shuffle(n),
        room: Room::due(n),
    };
    of_planning(&sound).any_two(&sound, cases, |input| {
        let answer = plans(random, input)?;
        Ok(answer.err().map_or(0, Reason::number))
    })
}

/// Sizes of live pools for any two faults. With the greatest only every so many
/// couples of faults are tried, as there are many entries.
const FAULTY_LIVE: [usize; 7] = [0, 1, 2, 3, 4, 7, MOST_PAIRS];
const ONE_OF_THE_GREATEST: usize = 11;

/// The size of that trial's pool, and of how many couples of faults it tries one.
fn faulty_live(seed: u64) -> (usize, usize) {
    match FAULTY_LIVE[(seed % FAULTY_LIVE.len() as u64) as usize] {
        MOST_PAIRS => (MOST_PAIRS, ONE_OF_THE_GREATEST),
        n => (n, 1),
    }
}

fn faults_of_starting(_: u64, random: &mut Random, cases: &mut Cases) -> Result<(), String> {
    let n = random.below(4);
    let sound = Starting {
        live: sound_live(random, n).0,
        given: points(random),
    };
    of_starting().any_two(&sound, cases, |input| {
        Kept::of(random, input.live.clone()).start(input.given)
    })
}

/// A live pool of `n` pairs in tables for one more, and two pairs that it does
/// not hold. What lies past the count is any.
fn sound_live(random: &mut Random, n: usize) -> (Live, [Pair; 2]) {
    let kind = random.one_of(&PoolKind::ALL);
    let pool = plain_pool(random, n + 2, kind);
    let pair = |i| Pair::of(&pool, i);
    let pairs: Vec<Pair> = (0..n).map(pair).collect();
    let registry = points(random);
    let live = sound(random, registry, &pairs);
    (live, [pair(n), pair(n + 1)])
}

fn faults_of_registering(seed: u64, random: &mut Random, cases: &mut Cases) -> Result<(), String> {
    let (n, one_of) = faulty_live(seed);
    let (live, [pair, _]) = sound_live(random, n);
    let sound = Registering { live, pair };
    of_registering(n).some_two(&sound, one_of, cases, |input| {
        Kept::of(random, input.live.clone()).register(input.pair)
    })
}

fn faults_of_withdrawing(seed: u64, random: &mut Random, cases: &mut Cases) -> Result<(), String> {
    let (n, one_of) = faulty_live(seed);
    let (mut live, [stale, strange]) = sound_live(random, n);
    live.ids[n] = stale.id;
    let id = live.ids[random.below(n.max(1))];
    let sound = Withdrawing { live, id };
    of_withdrawing(n, strange.id).some_two(&sound, one_of, cases, |input| {
        Kept::of(random, input.live.clone()).withdraw(input.id)
    })
}

/// A number with any number of bits.
fn any_number(random: &mut Random) -> u64 {
    random.bits() >> random.below(64)
}

/// Any numbers and tables of a plan, printed into buffers of every length.
fn printed_plans(seed: u64, random: &mut Random, cases: &mut Cases) -> Result<(), String> {
    let n = (seed % 25) as usize;
    let longer = n + more(random);
    let ids: Vec<u32> = (0..longer).map(|_| any_number(random) as u32).collect();
    let mut partners = || -> Vec<u16> {
        let none = n as u16;
        let entry = |random: &mut Random| match random.below(4) {
            0 => random.one_of(&[none, none + 1, u16::MAX]),
            _ => random.below(n + 1) as u16,
        };
        (0..longer).map(|_| entry(random)).collect()
    };
    let (donors, recipients) = (partners(), partners());
    let printed = Printed {
        pairs: n,
        cycles: any_number(random) as usize,
        weight: any_number(random),
        ids: &ids,
        donors: &donors,
        recipients: &recipients,
        tally: Tally {
            comparisons: any_number(random),
            products: any_number(random),
            rounds: any_number(random),
        },
    };
    let text = printed
        .fitted(usize::MAX)
        .map_err(|reason| format!("{reason:?} with all the room there is"))?;
    for room in 0..text.len() + 4 {
        cases.add(prints(random, printed, room)?);
    }

    // Each table too short, for the buffer's length and for none.
    for pairs in [longer + 1, MANY, usize::MAX] {
        let many = Printed { pairs, ..printed };
        cases.add(prints(random, many, text.len())?);
    }
    if n > 0 {
        let (ids, donors, recipients) = (&ids[..n - 1], &donors[..n - 1], &recipients[..n - 1]);
        for short in [
            Printed { ids, ..printed },
            Printed { donors, ..printed },
            Printed {
                recipients,
                ..printed
            },
        ] {
            for room in [0, text.len() - 1, text.len(), text.len() + 100] {
                cases.add(prints(random, short, room)?);
            }
        }
    }
    Ok(())
}

/// So many pairs that no table has them and their lines have no length.
const MANY: usize = 1 << 62;

/// The refusals that there are, and other numbers.
fn printed_refusals(seed: u64, random: &mut Random, cases: &mut Cases) -> Result<(), String> {
    let number = match seed % 20 {
        number @ 0..=17 => number as u32,
        18 => u32::MAX,
        _ => any_number(random) as u32,
    };
    let place = match random.below(4) {
        0 => random.one_of(&[0, 9, 10, usize::MAX]),
        _ => any_number(random) as usize,
    };
    for room in 0..printout::refused_by(number, place).len() + 4 {
        cases.add(prints_refusal(random, number, place, room)?);
    }
    Ok(())
}

/// Two sheets joined by the safe crate, which lends the room itself.
fn safely_joined(random: &mut Random, cases: &mut Cases) -> Outcome {
    let n = random.between(0, MOST_PAIRS);
    let [first, second] = two_sheets(random, n);
    let joined = reference::join(&first, &second, sheet::LONGEST);
    let refusal = joined.as_ref().err();
    cases.add(refusal.map_or(0, |refusal| refusal.reason.number()));
    let safely = vadivuzhen::join(&first, &second);
    same(
        "the joined sheet",
        safely.map_err(|refused| (refused.why.number(), refused.place)),
        joined.map_err(|refusal| (refusal.reason.number().into(), refusal.place)),
    )
}

/// A pool planned by the safe crate with a floor, at times one too high.
fn safely_above(random: &mut Random, pool: &vadivuzhen::Pool) -> Answered {
    let (n, tables) = (pool.len(), pool.tables());
    let tables = Tables {
        m: tables.compatibilities().to_vec(),
        w: tables.weights().to_vec(),
    };
    let floor = match random.below(4) {
        0 => random.one_of(&TOO_HIGH),
        _ => floor(random, n, &tables),
    };
    let plan = reference::plan(n, floor, &tables.m, &tables.w, pool.shuffle(), Room::due(n));
    let number = plan.as_ref().err().map_or(0, |reason| reason.number());
    let text = match plan {
        Ok((plan, tally)) => printout::printed(pool.ids(), &plan, tally),
        Err(reason) => printout::refused(reason.at(0)),
    };
    let safely = match pool.plan_above(floor) {
        Ok(plan) => plan.print(),
        Err(refused) => refused.print(),
    };
    same(&format!("the printout with floor {floor}"), safely, text)?;
    Ok(number)
}

/// A caller's own tables planned by the safe crate, from M and W to the printout;
/// at times with weightless edges.
fn safely_own(random: &mut Random) -> Answered {
    let n = random.between(0, 8);
    let kind = random.one_of(&TableKind::ALL);
    let tables = tables(random, n, kind);
    let (floor, shuffle) = (floor(random, n, &tables), random.shuffle(n));
    let ids: Vec<u32> = (0..n).map(|_| random.bits() as u32).collect();
    let Tables { m, w } = tables;
    let plan = reference::plan(n, floor, &m, &w, &shuffle, Room::due(n));
    let number = plan.as_ref().err().map_or(0, |reason| reason.number());
    let text = match plan {
        Ok((plan, tally)) => printout::printed(&ids, &plan, tally),
        Err(reason) => printout::refused(reason.at(0)),
    };
    let tables = vadivuzhen::Tables::new(ids, m, w).map_err(|refused| refused.to_string())?;
    let safely = match tables.plan_above(floor, &shuffle) {
        Ok(plan) => plan.print(),
        Err(refused) => refused.print(),
    };
    same("the printout of own tables", safely, text)?;
    Ok(number)
}

/// A live pool kept by the safe crate, which lends the tables itself: a few
/// pairs come and go, and at last it is written and planned.
fn safely_lived(random: &mut Random, cases: &mut Cases) -> Outcome {
    let pool = any_pool(random, 8);
    let read = vadivuzhen::Pool::read(&sheet_of(&pool)).map_err(|refused| refused.to_string())?;
    let pairs: Vec<vadivuzhen::Pair> = read.pairs().collect();
    let given = any_points(random);
    let safely = vadivuzhen::LivePool::start(given.table().into());
    let started = live::start(&Live::zeros(pool.len()), given);
    let answer = safely.as_ref().map(|_| ()).map_err(|refused| *refused);
    cases.add(safely_answered(answer, started.as_ref().err())?);
    let (Ok(mut safely), Ok(mut state)) = (safely, started) else {
        return Ok(());
    };

    for _ in 0..20 {
        let i = random.below(pool.len());
        let (answer, left) = if random.chance(1, 3) {
            let id = pool.ids[i];
            (safely.withdraw(id), live::withdraw(&state, id))
        } else {
            let pair = Pair::of(&pool, i);
            (safely.register(pairs[i]), live::register(&state, pair))
        };
        cases.add(safely_answered(answer, left.as_ref().err())?);
        state = left.unwrap_or(state);
        let (n, square) = (state.count, state.count * state.count);
        same("ids, safely", safely.ids(), &state.ids[..n])?;
        same("M, safely", safely.compatibilities(), &state.m[..square])?;
        same("W, safely", safely.weights(), &state.w[..square])?;
        let numbers = live::suitable(&state.pairs());
        same("the numbers, safely", safely.suitable_donors(), &numbers)?;
    }

    let mut held = live::pool_of(given, &state.pairs());
    held.shuffle = random.shuffle(state.count);
    let sheet = sheet_of(&held);
    let printed = safely.plan(&held.shuffle).map(|plan| plan.print());
    same("the printout", printed, Ok(printout::program(&sheet)))?;
    same("the sheet", safely.write(&held.shuffle), Ok(sheet))
}

/// The number of the refusal that a call of the safe crate gives, 0 for none,
/// which must be this one, with place 0.
fn safely_answered(answer: Result<(), vadivuzhen::Refused>, due: Option<&Reason>) -> Answered {
    let refused = answer
        .err()
        .map(|refused| (refused.why.number(), refused.place));
    same(
        "the answer",
        refused,
        due.map(|reason| (reason.number().into(), 0)),
    )?;
    Ok(due.map_or(0, |reason| reason.number()))
}

/// Sheets through the safe crate, from the bytes to the printout; live pools; and
/// own tables.
fn safe_crate(_: u64, random: &mut Random, cases: &mut Cases) -> Result<(), String> {
    safely_joined(random, cases)?;
    safely_lived(random, cases)?;
    cases.add(safely_own(random)?);
    let (_, sheet) = any_sheet(random);
    let (number, text) = match reference::read(&sheet) {
        Ok(pool) if pool.len() > 40 => return Ok(()),
        // The reference's program has room for forty pairs.
        Ok(_) => (0, printout::program(&sheet)),
        Err(refusal) => (refusal.pair().0, printout::refused(refusal)),
    };
    let printed = match vadivuzhen::Pool::read(&sheet) {
        Ok(pool) => {
            let pairs: Vec<vadivuzhen::Pair> = pool.pairs().collect();
            let again = match pool.points() {
                Some(points) => vadivuzhen::Pool::with_points(points, &pairs, pool.shuffle()),
                None => vadivuzhen::Pool::new(&pairs, pool.shuffle()),
            };
            same("the pool, from its pairs", again.as_ref(), Ok(&pool))?;
            same("the sheet, written again", pool.write(), sheet)?;
            cases.add(safely_above(random, &pool)?);
            pool.plan().print()
        }
        Err(refused) => refused.print(),
    };
    same("the printout", printed, text)?;
    cases.add(number);
    Ok(())
}
