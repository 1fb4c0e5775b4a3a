//! Plans with a floor, as request W-202 has it: "a subset is chosen only if its
//! weight is above the floor". Pools with their numbers, the refusal of a floor
//! too high in its order, and what holds for random pools at any floor.

use reference::best::cycle_weight;
use reference::random::{
    floor, mended, plain_pool, pool, tables, trials, PoolKind, Random, TableKind, GREATEST_WEIGHT,
};
use reference::{
    algorithm1, best, best_above, build_pool, gates, plan, printed, printout, read, straight, Plan,
    Reason, Room, Tables, Tally, MOST_FLOOR,
};

/// Edges, as donor, patient, weight.
type Edges = Vec<(usize, usize, u16)>;

/// The numbers from 0 to `n` − 1 in their order.
fn identity(n: usize) -> Vec<u16> {
    (0..n as u16).collect()
}

/// Edges of one weight both ways between two pairs.
fn both_ways(a: usize, b: usize, weight: u16) -> Edges {
    vec![(a, b, weight), (b, a, weight)]
}

/// Document 01's k3.
fn k3() -> Tables {
    Tables::of_edges(2, &[(0, 1, 5), (1, 0, 7)])
}

/// Document 01's k8.
fn k8() -> Tables {
    let mut edges = vec![(0, 1, 2), (1, 2, 2), (2, 0, 2)];
    for a in 0..3 {
        edges.extend(both_ways(a, a + 3, 3));
    }
    Tables::of_edges(6, &edges)
}

/// A plan by rounds. All planners agree on it, and its tally is demand 3's.
fn planned(n: usize, floor: u32, tables: &Tables, shuffle: &[u16]) -> Plan {
    let (m, w, room) = (&tables.m, &tables.w, Room::due(n));
    let (plan, tally) = plan(n, floor, m, w, shuffle, room).expect("sound tables");
    assert_eq!(tally, Tally::demanded(n), "floor {floor}");
    assert_eq!(
        gates::plan(n, floor, m, w, shuffle, room),
        Ok((plan.clone(), tally))
    );
    assert_eq!(
        straight::plan(n, floor, m, w, shuffle, room),
        Ok(plan.clone())
    );
    assert_eq!(
        algorithm1(n, floor, m, w, shuffle),
        (plan.donors.clone(), plan.recipients.clone())
    );
    plan
}

/// Plans with the identity shuffle: the choices, the weight, and the weights
/// left that are not 0, each with its number.
fn run(n: usize, floor: u32, tables: &Tables) -> (Vec<u32>, u32, Vec<(usize, u32)>) {
    let plan = planned(n, floor, tables, &identity(n));
    let left = plan.weights.into_iter().enumerate();
    let left = left.filter(|&(_, weight)| weight > 0).collect();
    (plan.choices, plan.weight, left)
}

/// The tally of a plan with the identity shuffle.
fn tally(n: usize, floor: u32, tables: &Tables) -> [u64; 3] {
    let (m, w) = (&tables.m, &tables.w);
    let (_, tally) = plan(n, floor, m, w, &identity(n), Room::due(n)).expect("sound tables");
    [tally.comparisons, tally.products, tally.rounds]
}

fn refused(n: usize, floor: u32, tables: &Tables, shuffle: &[u16], room: Room) -> Option<Reason> {
    let (m, w) = (&tables.m, &tables.w);
    let answer = plan(n, floor, m, w, shuffle, room);
    let by_gates = gates::plan(n, floor, m, w, shuffle, room);
    assert_eq!(by_gates, answer);
    let straight = straight::plan(n, floor, m, w, shuffle, room);
    assert_eq!(straight.err(), by_gates.err());
    answer.err()
}

// ---- Pools with their numbers

#[test]
fn k3_at_11_and_12() {
    assert_eq!(run(2, 11, &k3()), (vec![0], 12, vec![(0, 12)]));
    let plan = planned(2, 11, &k3(), &[0, 1]);
    assert_eq!(plan.records, [[0, 1, 2]]);
    assert_eq!((plan.donors, plan.recipients), (vec![1, 0], vec![1, 0]));

    // "Above" is strict. The weight stands as it was evaluated.
    assert_eq!(run(2, 12, &k3()), (vec![1], 0, vec![(0, 12)]));
    let plan = planned(2, 12, &k3(), &[0, 1]);
    assert_eq!(plan.cycles(), 0);
    assert_eq!((plan.donors, plan.recipients), (vec![2, 2], vec![2, 2]));
    for floor in [11, 12] {
        assert_eq!(tally(2, floor, &k3()), [1, 6, 1]);
    }
}

#[test]
fn k8_at_5_and_6() {
    assert_eq!(run(6, 5, &k8()), (vec![0, 35, 35], 6, vec![]));
    // Nothing is chosen, so nothing is cleared.
    let left = vec![(0, 6), (22, 6), (27, 6), (31, 6)];
    assert_eq!(run(6, 6, &k8()), (vec![35, 35, 35], 0, left));
    for floor in [5, 6] {
        assert_eq!(tally(6, floor, &k8()), [125, 872, 3]);
    }
    // With 6 no rival is left; with 5 there is one of 18.
    let Tables { m, w } = k8();
    assert_eq!(best_above(6, 5, &m, &w).weight, 18);
    assert_eq!(best_above(6, 6, &m, &w).weight, 0);
}

#[test]
fn twos_of_6_and_8() {
    let tables = Tables::of_edges(4, &[both_ways(0, 1, 3), both_ways(2, 3, 4)].concat());
    // The last round clears nothing.
    assert_eq!(run(4, 5, &tables), (vec![9, 4], 14, vec![(4, 6)]));
    assert_eq!(run(4, 6, &tables), (vec![9, 10], 8, vec![(4, 6)]));
    let both = vec![(4, 6), (9, 8)];
    assert_eq!(run(4, 8, &tables), (vec![10, 10], 0, both));
    for floor in [5, 6, 8] {
        assert_eq!(tally(4, floor, &tables), [24, 162, 2]);
    }
}

#[test]
fn a_weight_below_the_floor_is_cleared_like_any_other() {
    let tables = Tables::of_edges(4, &[both_ways(0, 1, 5), both_ways(0, 2, 1)].concat());
    assert_eq!(run(4, 5, &tables), (vec![4, 10], 10, vec![]));
}

#[test]
fn the_heaviest_triple() {
    let edges = [(0, 1, 65_535), (1, 2, 65_535), (2, 0, 65_535)];
    let tables = Tables::of_edges(3, &edges);
    assert_eq!(GREATEST_WEIGHT, 196_605);
    let left = vec![(0, 196_605)];
    assert_eq!(run(3, 196_604, &tables), (vec![0], 196_605, left.clone()));
    for floor in [196_605, 196_606, 199_999, 200_000] {
        assert_eq!(run(3, floor, &tables), (vec![4], 0, left.clone()));
    }
}

#[test]
fn the_eight_pairs_of_the_examples() {
    let pool = read(include_bytes!("../../examples/eight.sheet")).expect("a sound sheet");
    let tables = build_pool(&pool).expect("a sound pool");
    let planned = |floor| planned(8, floor, &tables, &pool.shuffle);
    let plan = planned(2_700);
    assert_eq!((plan.choices, plan.weight), (vec![6, 84, 84, 84], 3_250));
    let plan = planned(4_000);
    assert_eq!((plan.choices, plan.weight), (vec![84; 4], 0));

    // Floor 0 is what the program uses.
    let text = include_str!("../../examples/eight.plan");
    assert_eq!(printed(&pool.ids, &planned(0), Tally::demanded(8)), text);
    assert_eq!(printout::FLOOR, 0);
}

#[test]
fn no_pair_or_one_at_any_floor() {
    for n in [0, 1] {
        for floor in [0, 1, 200_000] {
            assert_eq!(run(n, floor, &Tables::empty(n)), (vec![], 0, vec![]));
            assert_eq!(tally(n, floor, &Tables::empty(n)), [0, 0, 0]);
        }
    }
}

#[test]
fn the_rounds_after_a_choice_of_none_run_and_count() {
    // A heavy two, and three light ones that share no place with it.
    let twos = [both_ways(6, 7, 50), both_ways(0, 1, 3), both_ways(2, 3, 2)];
    let tables = Tables::of_edges(8, &[twos.concat(), both_ways(4, 5, 1)].concat());
    let chosen = |floor| {
        let plan = planned(8, floor, &tables, &identity(8));
        (plan.choices, plan.weight)
    };
    assert_eq!(chosen(0), (vec![83, 56, 69, 78], 112));
    assert_eq!(chosen(1), (vec![83, 56, 69, 78], 112));
    assert_eq!(chosen(2), (vec![83, 56, 69, 84], 110));
    assert_eq!(chosen(4), (vec![83, 56, 84, 84], 106));
    assert_eq!(chosen(6), (vec![83, 84, 84, 84], 100));
    assert_eq!(chosen(100), (vec![84, 84, 84, 84], 0));
    let Tally {
        comparisons,
        products,
        rounds,
    } = Tally::demanded(8);
    for floor in [0, 1, 2, 4, 6, 100] {
        assert_eq!(tally(8, floor, &tables), [comparisons, products, rounds]);
    }
}

// ---- Refusals

/// Floors that are too high.
const TOO_HIGH: [u32; 4] = [200_001, 200_002, 1 << 31, u32::MAX];

#[test]
fn thirteen_after_four_and_before_nine() {
    assert_eq!(MOST_FLOOR, 200_000);
    let (none, no_room) = (Tables::empty(0), Room::due(0));
    let by = Some;
    let short = refused(2, 200_000, &none, &[], no_room);
    assert_eq!(short, by(Reason::TooShort));
    for floor in TOO_HIGH {
        let high = refused(2, floor, &none, &[], no_room);
        assert_eq!(high, by(Reason::FloorTooHigh));
        for n in [201, usize::MAX] {
            let many = refused(n, floor, &none, &[], no_room);
            assert_eq!(many, by(Reason::TooManyPairs));
        }
    }
    assert_eq!(Reason::FloorTooHigh.number(), 13);
}

#[test]
fn thirteen_before_all_but_four_whatever_is_wrong() {
    let sound = k3();
    let (shuffle, due) = ([0, 1], Room::due(2));
    let mut entry = sound.clone();
    entry.m[1] = 2;
    for floor in [0, 1, 12, 199_999, 200_000] {
        assert_eq!(refused(2, floor, &sound, &shuffle, due), None);
        let wrong = refused(2, floor, &sound, &[1, 1], due);
        assert_eq!(wrong, Some(Reason::Shuffle));
        let wrong = refused(2, floor, &entry, &shuffle, due);
        assert_eq!(wrong, Some(Reason::Entry));
    }
    for floor in TOO_HIGH {
        for tables in [&sound, &entry, &Tables::empty(1)] {
            for shuffle in [&[0, 1][..], &[1, 1], &[0]] {
                for room in [due, Room::due(0)] {
                    let high = refused(2, floor, tables, shuffle, room);
                    assert_eq!(high, Some(Reason::FloorTooHigh));
                }
            }
        }
    }
}

// ---- What holds at any floor

/// Tables of any kind, a caller's own or built from fields, that planning
/// accepts. Those with weightless edges are refused at any floor, and mended.
fn any_tables(random: &mut Random, n: usize) -> Tables {
    if random.chance(2, 3) {
        let kind = random.one_of(&TableKind::ALL);
        let mut tables = tables(random, n, kind);
        if let Some(mended) = mended(n, &tables.m, &tables.w) {
            let floor = floor(random, n, &tables);
            let why = refused(n, floor, &tables, &random.shuffle(n), Room::due(n));
            assert_eq!(why, Some(Reason::WeightlessEdge), "floor {floor}");
            tables.w = mended;
        }
        tables
    } else {
        let kind = random.one_of(&PoolKind::ALL);
        let pool = pool(random, n, kind);
        build_pool(&pool).expect("a sound pool")
    }
}

/// The pairs of a record, in giving order.
fn pairs(record: &[u16; 3], n: usize) -> Vec<usize> {
    let pairs = record.iter().map(|&pair| usize::from(pair));
    pairs.filter(|&pair| pair < n).collect()
}

/// The weight of each planned cycle, in order of choice.
fn cycle_weights(n: usize, tables: &Tables, plan: &Plan) -> Vec<u32> {
    let weigh = |record| cycle_weight(&pairs(record, n), n, &tables.m, &tables.w);
    let weights = plan.records.iter().map(weigh);
    weights.map(|w| w.expect("an executable cycle")).collect()
}

/// Floors at which plans of these cycles differ: at each one's weight, directly
/// below it and above it; and the two ends.
fn telling_floors(weights: &[u32]) -> Vec<u32> {
    let near = |&weight: &u32| [weight.saturating_sub(1), weight, weight + 1];
    let mut floors: Vec<u32> = weights.iter().flat_map(near).collect();
    floors.extend([0, MOST_FLOOR]);
    floors.sort();
    floors.dedup();
    floors
}

/// What is left of the weights, by the records: a subset has the weight of its
/// heavier cycle, and 0 where a pair of it is in a cycle that was chosen before
/// the last round. No floor is asked.
fn left_by(n: usize, tables: &Tables, shuffle: &[u16], plan: &Plan) -> Vec<u32> {
    let before_last = plan.records.iter().take((n / 2).saturating_sub(1));
    let cleared: Vec<usize> = before_last.flat_map(|record| pairs(record, n)).collect();
    let at = |place: usize| usize::from(shuffle[place]);
    let weigh = |cycle: &[usize]| cycle_weight(cycle, n, &tables.m, &tables.w).unwrap_or(0);
    let left = |subset: &[usize]| {
        if subset.iter().any(|pair| cleared.contains(pair)) {
            return 0;
        }
        let turned: Vec<usize> = subset.iter().rev().copied().collect();
        weigh(subset).max(weigh(&turned))
    };
    let mut weights = Vec::new();
    for u in 0..n {
        for v in u + 1..n {
            weights.extend((v + 1..n).map(|w| left(&[at(u), at(v), at(w)])));
        }
    }
    for u in 0..n {
        weights.extend((u + 1..n).map(|v| left(&[at(u), at(v)])));
    }
    weights
}

/// Of the cycles planned with the lower floor, those planned with the higher
/// one are the first, just those above it.
fn assert_cut_off(n: usize, tables: &Tables, lower: &Plan, higher: &Plan, floor: u32) {
    let weights = cycle_weights(n, tables, lower);
    let above = weights.iter().filter(|&&weight| weight > floor).count();
    assert_eq!(higher.records, lower.records[..above], "floor {floor}");
    assert_eq!(higher.weight, weights[..above].iter().sum::<u32>());
    assert_eq!(higher.choices[..above], lower.choices[..above]);
    let none = higher.weights.len() as u32;
    assert!(higher.choices[above..].iter().all(|&choice| choice == none));
}

#[test]
fn a_floor_cuts_the_plan_off() {
    let mut cut = 0;
    trials("cut off", 3_000_000, 600, |random| {
        let n = random.between(0, 16);
        let tables = any_tables(random, n);
        let shuffle = random.shuffle(n);
        let whole = planned(n, 0, &tables, &shuffle);
        let weights = cycle_weights(n, &tables, &whole);
        assert!(weights.windows(2).all(|two| two[0] >= two[1]));
        let floors = telling_floors(&weights);
        let plans: Vec<Plan> = floors
            .iter()
            .map(|&floor| planned(n, floor, &tables, &shuffle))
            .collect();
        assert_eq!(plans[0], whole);
        for (i, lower) in plans.iter().enumerate() {
            for (higher, &floor) in plans.iter().zip(&floors).skip(i) {
                assert_cut_off(n, &tables, lower, higher, floor);
                cut += u32::from(0 < higher.cycles() && higher.cycles() < lower.cycles());
            }
        }
    });
    assert!(cut > 1_000, "only {cut} plans were cut off in the middle");
}

#[test]
fn every_planned_cycle_is_above_the_floor_and_what_is_left_is_not() {
    let (mut chosen, mut light) = (0, 0);
    trials("above the floor", 4_000_000, 4_000, |random| {
        let n = random.between(0, 20);
        let tables = any_tables(random, n);
        let shuffle = random.shuffle(n);
        let floor = floor(random, n, &tables);
        let plan = planned(n, floor, &tables, &shuffle);
        let weights = cycle_weights(n, &tables, &plan);
        assert!(weights.iter().all(|&weight| weight > floor));
        let left = left_by(n, &tables, &shuffle, &plan);
        assert_eq!(plan.weights, left, "floor {floor}");
        light += u32::from(left.iter().any(|&weight| 0 < weight && weight <= floor));
        chosen += u32::from(floor > 0 && plan.cycles() > 0);
        // Where fewer were chosen than there are rounds, nothing is left that
        // could have been chosen.
        if plan.cycles() < n / 2 {
            assert!(left.iter().all(|&weight| weight <= floor));
        }
    });
    assert!(chosen > 100, "only {chosen} plans above a floor had cycles");
    assert!(
        light > 100,
        "only {light} plans left a weight below the floor"
    );
}

#[test]
fn tallies_are_the_same_at_every_floor() {
    let mut random = Random::new(13);
    for n in 0..=30 {
        let tables = tables(&mut random, n, TableKind::Dense);
        let shuffle = random.shuffle(n);
        let (m, w) = (&tables.m, &tables.w);
        for floor in [0, 1, 60_000, 130_000, 196_605, 200_000] {
            let (_, tally) = plan(n, floor, m, w, &shuffle, Room::due(n)).expect("sound tables");
            assert_eq!(tally, Tally::demanded(n), "{n} pairs, floor {floor}");
        }
    }
}

#[test]
fn three_times_the_plan_is_at_least_the_best_above_the_floor() {
    let (mut thirds, mut more_below) = (0, 0);
    trials("factor three above a floor", 5_000_000, 6_000, |random| {
        let n = random.between(0, 8);
        let tables = any_tables(random, n);
        let shuffle = random.shuffle(n);
        let (m, w) = (&tables.m, &tables.w);
        let every = best(n, m, w);
        let floor = floor(random, n, &tables);
        let weight = planned(n, floor, &tables, &shuffle).weight;
        let rival = best_above(n, floor, m, w);
        assert!(weight <= rival.weight, "{rival:?} is not the best");
        assert!(3 * weight >= rival.weight, "floor {floor}: {rival:?}");
        thirds += u32::from(floor > 0 && weight > 0 && 3 * weight == rival.weight);
        // Against sets with cycles below the floor there is no such bound.
        more_below += u32::from(3 * weight < every.weight);

        // With floor 0 every set is a rival, as every executable cycle weighs
        // more than 0.
        let weight = planned(n, 0, &tables, &shuffle).weight;
        assert!(3 * weight >= every.weight, "{every:?}");
        assert_eq!(best_above(n, 0, m, w), every);
    });
    assert!(thirds > 10, "only {thirds} plans were a third of the best");
    assert!(more_below > 10, "only {more_below} plans were less of all");
}

#[test]
fn two_hundred_pairs_with_a_floor() {
    let n = 200;
    let pool = plain_pool(&mut Random::new(202), n, PoolKind::Dense);
    let tables = build_pool(&pool).expect("a sound pool");
    let (m, w, room) = (&tables.m, &tables.w, Room::due(n));
    let whole = straight::plan(n, 0, m, w, &pool.shuffle, room).expect("a plan");
    let weights = cycle_weights(n, &tables, &whole);
    let floor = weights[weights.len() / 2];
    let plan = planned(n, floor, &tables, &pool.shuffle);
    assert_cut_off(n, &tables, &whole, &plan, floor);
    assert!(0 < plan.cycles() && plan.cycles() < whole.cycles());
}
