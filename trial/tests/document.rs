//! The examples of document 01, each as it is written there.

use reference::random::{plain_pool, PoolKind, Random};
use reference::sheet::{self, EXAMPLE};
use reference::{
    algorithm1, best, build, gates, plan, printout, read, straight, write, write_pool, Plan,
    Reason, Room, Tables, Tally,
};

/// Plans with all planners, which must agree, and gives what they say.
fn planned(tables: &Tables, shuffle: &[u16]) -> (Plan, Tally) {
    let n = shuffle.len();
    let (m, w, room) = (&tables.m, &tables.w, Room::due(n));
    let (plan, tally) = plan(n, 0, m, w, shuffle, room).unwrap();
    assert_eq!(
        gates::plan(n, 0, m, w, shuffle, room),
        Ok((plan.clone(), tally))
    );
    assert_eq!(straight::plan(n, 0, m, w, shuffle, room), Ok(plan.clone()));
    assert_eq!(
        algorithm1(n, 0, m, w, shuffle),
        (plan.donors.clone(), plan.recipients.clone())
    );
    (plan, tally)
}

/// Plans edges, written as donor, patient, weight, with the identity shuffle.
fn planned_edges(n: u16, edges: &[(usize, usize, u16)]) -> (Plan, Tally) {
    let shuffle: Vec<u16> = (0..n).collect();
    planned(&Tables::of_edges(usize::from(n), edges), &shuffle)
}

/// Edges of one weight both ways between each two pairs.
fn both_ways(twos: &[(usize, usize)], weight: u16) -> Vec<(usize, usize, u16)> {
    twos.iter()
        .flat_map(|&(a, b)| [(a, b, weight), (b, a, weight)])
        .collect()
}

fn counts(comparisons: u64, products: u64, rounds: u64) -> Tally {
    Tally {
        comparisons,
        products,
        rounds,
    }
}

#[test]
fn k1_and_k2() {
    for n in [0, 1] {
        let (plan, tally) = planned_edges(n, &[]);
        assert_eq!(plan.weight, 0);
        assert!(plan.choices.is_empty());
        assert!(plan.weights.is_empty());
        assert!(plan.records.is_empty());
        assert_eq!(plan.recipients, vec![n; usize::from(n)]);
        assert_eq!(tally, counts(0, 0, 0));
    }
}

#[test]
fn k3() {
    let (plan, tally) = planned_edges(2, &[(0, 1, 5), (1, 0, 7)]);
    assert_eq!(plan.choices, [0]);
    assert_eq!(plan.weight, 12);
    assert_eq!(plan.recipients, [1, 0]);
    assert_eq!(plan.donors, [1, 0]);
    assert_eq!(plan.records, [[0, 1, 2]]);
    // Nothing is cleared after the last round.
    assert_eq!(plan.weights, [12]);
    assert_eq!(tally, counts(1, 6, 1));
}

#[test]
fn k4() {
    let (plan, _) = planned_edges(2, &[(0, 1, 5)]);
    assert_eq!(plan.choices, [1]);
    assert_eq!(plan.recipients, [2, 2]);
    assert_eq!(plan.donors, [2, 2]);
}

#[test]
fn k5() {
    // "Pool k5 becomes a refused pool" (W-209).
    let Tables { m, w } = Tables::of_edges(2, &[(0, 1, 0), (1, 0, 0)]);
    let (shuffle, room) = ([0, 1], Room::due(2));
    let refused = Reason::WeightlessEdge;
    assert_eq!(refused.number(), 17);
    assert_eq!(plan(2, 0, &m, &w, &shuffle, room), Err(refused));
    assert_eq!(gates::plan(2, 0, &m, &w, &shuffle, room), Err(refused));
    assert_eq!(straight::plan(2, 0, &m, &w, &shuffle, room), Err(refused));
}

#[test]
fn k6() {
    let (plan, tally) = planned_edges(3, &both_ways(&[(0, 1), (0, 2), (1, 2)], 4));
    assert_eq!(plan.weight, 12);
    assert_eq!(plan.recipients, [1, 2, 0]);
    assert_eq!(plan.donors, [2, 0, 1]);
    assert_eq!(plan.records, [[0, 1, 2]]);
    assert_eq!(plan.weights, [12, 8, 8, 8]);
    assert_eq!(tally, counts(5, 32, 1));
}

#[test]
fn k7() {
    let edges = [
        (0, 1, 1),
        (1, 2, 1),
        (2, 0, 1),
        (1, 0, 2),
        (2, 1, 2),
        (0, 2, 2),
    ];
    let (plan, _) = planned_edges(3, &edges);
    assert_eq!(plan.weight, 6);
    assert_eq!(plan.recipients, [2, 0, 1]);
    assert_eq!(plan.records, [[0, 2, 1]]);
}

#[test]
fn k8() {
    let mut edges = vec![(0, 1, 2), (1, 2, 2), (2, 0, 2)];
    edges.extend(both_ways(&[(0, 3), (1, 4), (2, 5)], 3));
    let (plan, tally) = planned_edges(6, &edges);
    assert_eq!(plan.choices, [0, 35, 35]);
    assert_eq!(plan.weight, 6);
    assert_eq!(plan.records, [[0, 1, 2]]);
    assert_eq!(plan.weights, [0; 35]);
    assert_eq!(tally, counts(125, 872, 3));

    let tables = Tables::of_edges(6, &edges);
    assert_eq!(best(6, &tables.m, &tables.w).weight, 18);
}

#[test]
fn k9() {
    let (plan, tally) = planned_edges(4, &both_ways(&[(0, 1), (2, 3)], 3));
    assert_eq!(plan.choices, [4, 9]);
    assert_eq!(plan.weight, 12);
    assert_eq!(plan.records, [[0, 1, 4], [2, 3, 4]]);
    // After the first round the two of 2 and 3 stands; the second is the last.
    assert_eq!(plan.weights, [0, 0, 0, 0, 0, 0, 0, 0, 0, 6]);
    assert_eq!(tally, counts(24, 162, 2));
}

#[test]
fn k10() {
    let tables = Tables::of_edges(3, &both_ways(&[(0, 1), (0, 2)], 5));
    let (plan, _) = planned(&tables, &[0, 1, 2]);
    assert_eq!(plan.recipients, [1, 0, 3]);
    let (plan, _) = planned(&tables, &[2, 0, 1]);
    assert_eq!(plan.recipients, [2, 3, 0]);
    assert_eq!(plan.records, [[2, 0, 3]]);
}

#[test]
fn k11_and_k12() {
    let tables = Tables::empty(2);
    let room = Room::due(2);
    assert_eq!(
        plan(2, 0, &tables.m, &tables.w, &[0, 0], room),
        Err(Reason::Shuffle)
    );
    let mut tables = Tables::of_edges(2, &[(0, 1, 5), (1, 0, 7)]);
    tables.m[1] = 2;
    assert_eq!(
        plan(2, 0, &tables.m, &tables.w, &[0, 1], room),
        Err(Reason::Entry)
    );
}

#[test]
fn the_example_sheet_is_printed_and_written_again() {
    assert_eq!(
        printout::program(&EXAMPLE),
        "PLAN 2 1 2900\n11 12 12\n12 11 11\nCOUNTS 1 6 1\n"
    );
    let pool = read(&EXAMPLE).unwrap();
    let written = write_pool(&pool, EXAMPLE.len());
    assert_eq!(written.unwrap(), EXAMPLE);
}

#[test]
fn a_printout_with_pairs_that_sit_out_and_ids_of_every_length() {
    // Donor AB suits patient AB only: 1 and 2 exchange, 0 and 3 sit out.
    let mut pool = plain_pool(&mut Random::new(0), 4, PoolKind::Ties);
    pool.ids = vec![0, 4_294_967_295, 10, 7];
    pool.donor_bloods = vec![3, 1, 2, 3];
    pool.patient_bloods = vec![0, 2, 1, 0];
    pool.patient_antibodies = vec![0; 4];
    pool.shuffle = vec![3, 1, 0, 2];
    let sheet = write_pool(&pool, sheet::LONGEST).unwrap();
    assert_eq!(
        printout::program(&sheet),
        "PLAN 4 1 2900\n0 - -\n4294967295 10 10\n10 4294967295 4294967295\n7 - -\nCOUNTS 24 162 2\n"
    );
}

#[test]
fn two_hundred_pairs_are_read_and_one_more_is_not() {
    let pool = plain_pool(&mut Random::new(200), 200, PoolKind::Any);
    let sheet = write_pool(&pool, sheet::LONGEST).unwrap();
    assert_eq!(sheet.len(), 7_410);
    assert_eq!(read(&sheet).as_ref(), Ok(&pool));

    let mut more = sheet.clone();
    more[6] = 201;
    assert_eq!(read(&more), Err(Reason::TooManyPairs.at(0)));
    assert_eq!(
        write(1, 201, &[], pool.fields(), &pool.shuffle, sheet::LONGEST),
        Err(Reason::TooManyPairs.at(0))
    );
    assert_eq!(
        build(1, 201, &[], pool.fields(), 50_000, 50_000),
        Err(Reason::TooManyPairs)
    );

    // The program has room for forty pairs.
    assert_eq!(printout::program(&sheet), "REFUSED 9 0\n");
    let sheet_of = |n| {
        let pool = plain_pool(&mut Random::new(n as u64), n, PoolKind::Dense);
        write_pool(&pool, sheet::LONGEST).unwrap()
    };
    assert!(printout::program(&sheet_of(40)).starts_with("PLAN 40 "));
    assert_eq!(printout::program(&sheet_of(41)), "REFUSED 9 0\n");
}

#[test]
fn bytes_past_those_that_the_program_reads_change_nothing() {
    let pool = plain_pool(&mut Random::new(7), 200, PoolKind::Any);
    let mut sheet = write_pool(&pool, sheet::LONGEST).unwrap();
    sheet.push(0);
    assert_eq!(printout::program(&sheet), "REFUSED 5 7410\n");
    sheet.extend([0; 100]);
    assert_eq!(printout::program(&sheet), "REFUSED 5 7410\n");
}
