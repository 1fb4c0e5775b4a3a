//! A bound that credits the twos, as request W-208 has it: the sum of each
//! planned cycle's weight times its number of pairs "is at least the weight of
//! every rival set of executable 2- and 3-cycles that share no pair and each
//! weigh above the floor". Pools in which it is tight, with their numbers, and
//! random pools beside the heaviest set there is.

use reference::best::planned_cycles;
use reference::random::{floor, mended, pool, tables, trials, PoolKind, Random, TableKind};
use reference::{best, best_above, build_pool, credit, plan, Plan, Reason, Room, Tables};

/// Edges, as donor, patient, weight.
type Edges = Vec<(usize, usize, u16)>;

/// Edges of one weight both ways between two pairs.
fn both_ways(a: usize, b: usize, weight: u16) -> Edges {
    vec![(a, b, weight), (b, a, weight)]
}

/// Edges of one weight from each of three pairs in a row to the next.
fn round(a: usize, weight: u16) -> Edges {
    vec![
        (a, a + 1, weight),
        (a + 1, a + 2, weight),
        (a + 2, a, weight),
    ]
}

fn planned(n: usize, floor: u32, tables: &Tables, shuffle: &[u16]) -> Plan {
    let (m, w) = (&tables.m, &tables.w);
    let (plan, _) = plan(n, floor, m, w, shuffle, Room::due(n)).expect("sound tables");
    plan
}

/// The choices, the plan's weight, the sum, and the weight of the heaviest rival
/// set.
fn run_shuffled(
    n: usize,
    floor: u32,
    tables: &Tables,
    shuffle: &[u16],
) -> (Vec<u32>, u32, u32, u32) {
    let plan = planned(n, floor, tables, shuffle);
    let (m, w) = (&tables.m, &tables.w);
    let sum = credit(n, m, w, &plan);
    let rival = best_above(n, floor, m, w).weight;
    (plan.choices, plan.weight, sum, rival)
}

/// The same with the identity shuffle.
fn run(n: usize, floor: u32, tables: &Tables) -> (Vec<u32>, u32, u32, u32) {
    let identity: Vec<u16> = (0..n as u16).collect();
    run_shuffled(n, floor, tables, &identity)
}

/// Document 01's k8.
fn k8() -> Tables {
    let edges = [
        round(0, 2),
        both_ways(0, 3, 3),
        both_ways(1, 4, 3),
        both_ways(2, 5, 3),
    ];
    Tables::of_edges(6, &edges.concat())
}

#[test]
fn tight_for_triples() {
    assert_eq!(run(6, 0, &k8()), (vec![0, 35, 35], 6, 18, 18));
    assert_eq!(run(6, 5, &k8()), (vec![0, 35, 35], 6, 18, 18));
    // The floor is for rivals too: of all sets the best still weighs 18.
    assert_eq!(run(6, 6, &k8()), (vec![35, 35, 35], 0, 0, 0));
    assert_eq!(best(6, &k8().m, &k8().w).weight, 18);
}

#[test]
fn tight_for_twos() {
    let edges = [both_ways(0, 1, 5), both_ways(0, 2, 5), both_ways(1, 3, 5)];
    let tables = Tables::of_edges(4, &edges.concat());
    // Three times the weight is 30.
    assert_eq!(run(4, 0, &tables), (vec![4, 10], 10, 20, 20));
}

#[test]
fn tight_beside_rivals_of_both_sizes() {
    let edges = [
        round(0, 4),
        vec![(0, 3, 4), (3, 4, 4), (4, 0, 4)],
        both_ways(1, 5, 6),
        both_ways(2, 6, 6),
    ];
    let tables = Tables::of_edges(7, &edges.concat());
    let shuffle = [2, 0, 1, 6, 5, 4, 3];
    assert_eq!(
        run_shuffled(7, 0, &tables, &shuffle),
        (vec![0, 56, 56], 12, 36, 36)
    );
}

#[test]
fn tight_with_both() {
    let edges = [
        round(0, 4),
        both_ways(3, 4, 4),
        both_ways(0, 5, 6),
        both_ways(1, 6, 6),
        both_ways(2, 7, 6),
        both_ways(3, 8, 4),
        both_ways(4, 9, 4),
    ];
    let tables = Tables::of_edges(10, &edges.concat());
    let choices = vec![0, 144, 165, 165, 165];
    // Three times the weight is 60.
    assert_eq!(run(10, 0, &tables), (choices, 20, 52, 52));
}

/// The sum a second time: over the pairs that have a partner, what their cycle
/// weighs, from each pair to the one that its donor gives to.
fn pair_by_pair(n: usize, tables: &Tables, plan: &Plan) -> u32 {
    let of_pair = |pair: usize| {
        let (mut at, mut weight) = (pair, 0);
        loop {
            let next = usize::from(plan.recipients[at]);
            if next == n {
                return weight;
            }
            weight += u32::from(tables.w[at * n + next]);
            at = next;
            if at == pair {
                return weight;
            }
        }
    };
    (0..n).map(of_pair).sum()
}

/// Tables of up to 8 pairs of any kind; or of up to 10 pairs with few cycles.
/// Those with weightless edges, which planning refuses by 17, are mended.
fn any_tables(random: &mut Random) -> (usize, Tables) {
    let n = random.between(0, 8);
    match random.below(4) {
        0 => {
            let kind = random.one_of(&PoolKind::ALL);
            let pool = pool(random, n, kind);
            (n, build_pool(&pool).expect("a sound pool"))
        }
        1 => {
            let n = random.between(4, 10);
            (n, tables(random, n, TableKind::Traps))
        }
        _ => {
            let kind = random.one_of(&TableKind::ALL);
            let mut tables = tables(random, n, kind);
            if let Some(mended) = mended(n, &tables.m, &tables.w) {
                let (m, w, shuffle) = (&tables.m, &tables.w, random.shuffle(n));
                let answer = plan(n, 0, m, w, &shuffle, Room::due(n));
                assert_eq!(answer, Err(Reason::WeightlessEdge));
                tables.w = mended;
            }
            (n, tables)
        }
    }
}

#[test]
fn the_sum_is_at_least_the_best_above_the_floor() {
    let (mut tight_twos, mut tight_both, mut tight_above, mut below) = (0, 0, 0, 0);
    trials("credited twos", 6_000_000, 10_000, |random| {
        let (n, tables) = any_tables(random);
        let shuffle = random.shuffle(n);
        let (m, w) = (&tables.m, &tables.w);
        let every = best(n, m, w).weight;
        for floor in [0, floor(random, n, &tables)] {
            let plan = planned(n, floor, &tables, &shuffle);
            let sum = credit(n, m, w, &plan);
            let rival = best_above(n, floor, m, w);
            assert!(sum >= rival.weight, "floor {floor}: {sum}, {rival:?}");
            // With floor 0 every set is a rival, as every executable cycle
            // weighs more than 0.
            assert!(floor > 0 || sum >= every, "{sum} beside {every}");
            below += u32::from(sum < every);

            // What it credits are the twos.
            let cycles = planned_cycles(n, m, w, &plan);
            let twos = cycles.iter().filter(|(cycle, _)| cycle.len() == 2);
            let twos: u32 = twos.map(|(_, weight)| weight).sum();
            assert_eq!(sum + twos, 3 * plan.weight);
            assert_eq!(sum, pair_by_pair(n, &tables, &plan));

            let tight = sum == rival.weight && twos > 0;
            tight_twos += u32::from(tight && twos == plan.weight);
            tight_both += u32::from(tight && twos < plan.weight);
            tight_above += u32::from(tight && floor > 0);
        }
    });
    // The bound is met by plans of twos, of both sizes, and with floors; and
    // against sets with cycles below the floor there is no such bound.
    for (count, what) in [
        (tight_twos, "of twos were as much as their rivals"),
        (tight_both, "of both sizes were as much as their rivals"),
        (tight_above, "with a floor were as much as their rivals"),
        (below, "were less than the best of all"),
    ] {
        assert!(count > 10, "only {count} sums {what}");
    }
}
