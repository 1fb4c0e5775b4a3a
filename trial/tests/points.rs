//! Points set by each registry, as request W-205 has it: the runs of sheet
//! version 2 with their numbers, by the program and by the calls.

use reference::printout::program;
use reference::random::{
    floor, plain_pool, points, trials, wrong_points, PoolKind, Random, EXTREME_POINTS,
};
use reference::sheet::{self, length, points_field, EXAMPLE, LONGEST};
use reference::{
    build, build_pool, plan, read, write, write_pool, Fields, Points, Pool, Reason, Room,
};

/// What document 01's sheet prints.
const PRINTED: &str = "PLAN 2 1 2900\n11 12 12\n12 11 11\nCOUNTS 1 6 1\n";

/// Document 01's sheet in version 2, with these points, whether they pass or
/// not.
fn example(points: [u16; 6]) -> Vec<u8> {
    let mut sheet = EXAMPLE.to_vec();
    sheet[4] = 2;
    sheet.splice(7..7, points_field(points));
    sheet
}

/// Document 01's points with another base.
fn with_base(base: u16) -> [u16; 6] {
    Points {
        base,
        ..Points::DOCUMENT
    }
    .table()
}

/// Sheets of `n` pairs in both versions, the second with document 01's points.
fn both(n: usize) -> [Vec<u8>; 2] {
    let pool = plain_pool(&mut Random::new(n as u64), n, PoolKind::Any);
    let two = pool.clone().with_points(Points::DOCUMENT);
    [pool, two].map(|pool| write_pool(&pool, LONGEST).expect("a sound pool"))
}

#[test]
fn document_01s_points_print_the_same() {
    let sheet = example(Points::DOCUMENT.table());
    assert_eq!(sheet.len(), 99);
    assert_eq!(program(&sheet), PRINTED);
    assert_eq!(program(&EXAMPLE), PRINTED);
}

#[test]
fn another_base_and_steps_of_0() {
    let weighs = |points, weight: u32| {
        let printed = program(&example(points));
        assert_eq!(printed, PRINTED.replace("2900", &weight.to_string()));
    };
    weighs(with_base(2_000), 4_900);
    weighs([65_535, 0, 0, 0, 0, 0], 131_070);
    weighs([1, 0, 0, 0, 0, 0], 2);
    // No mismatch and equal ages: two of six points beside the base.
    weighs([1, 65_533, 0, 0, 1, 0], 131_070);
    weighs([1, 0, 65_534, 65_534, 0, 0], 2);
    weighs([1, 0, 0, 0, 0, 65_534], 2);
}

#[test]
fn cut_at_every_byte_of_the_points() {
    let sheet = example(Points::DOCUMENT.table());
    for end in 7..22 {
        assert_eq!(program(&sheet[..end]), "REFUSED 1 7\n");
    }
    assert_eq!(program(&sheet[..22]), "REFUSED 1 22\n");
    assert_eq!(program(&sheet[..6]), "REFUSED 1 0\n");
}

#[test]
fn a_field_of_points_is_due_in_version_2_and_in_no_other() {
    let two = example(Points::DOCUMENT.table());
    let mut with = two.clone();
    with[4] = 1;
    assert_eq!(program(&with), "REFUSED 2 7\n");
    let mut without = EXAMPLE;
    without[4] = 2;
    assert_eq!(program(&without), "REFUSED 2 7\n");
    for version in [0, 3, 4, 255] {
        let mut other = two.clone();
        other[4] = version;
        assert_eq!(program(&other), "REFUSED 3 0\n");
    }
    // A length of 11 or 13, and a second field of points.
    for length in [0, 11, 13] {
        let mut other = two.clone();
        other[9] = length;
        assert_eq!(program(&other), "REFUSED 2 7\n");
    }
    let mut twice = two.clone();
    twice.splice(22..22, points_field(Points::DOCUMENT.table()));
    assert_eq!(program(&twice), "REFUSED 2 22\n");
}

#[test]
fn fourteen_at_the_points() {
    let mut sheet = example(with_base(0));
    assert_eq!(program(&sheet), "REFUSED 14 7\n");
    // Also with the first pair's tag wrong, and where the sheet ends there.
    sheet[22] = 9;
    assert_eq!(program(&sheet), "REFUSED 14 7\n");
    assert_eq!(program(&sheet[..22]), "REFUSED 14 7\n");
    assert_eq!(program(&sheet[..21]), "REFUSED 1 7\n");
    // The field's own start comes first, and the head.
    let mut start = sheet.clone();
    start[7] = 2;
    assert_eq!(program(&start), "REFUSED 2 7\n");
    sheet[6] = 201;
    assert_eq!(program(&sheet), "REFUSED 4 0\n");
    sheet[4] = 3;
    assert_eq!(program(&sheet), "REFUSED 3 0\n");
    // With no pairs too.
    let none = [
        &[1, 0, 4, 0, 2, 0, 0][..],
        &points_field([0; 6]),
        &[3, 0, 0],
    ]
    .concat();
    assert_eq!(program(&none), "REFUSED 14 7\n");
}

#[test]
fn sums_at_the_limit_and_one_above() {
    for largest in 1..=3 {
        for larger in 4..=5 {
            let mut points = [40_000, 0, 0, 0, 0, 0];
            (points[largest], points[larger]) = (25_000, 535);
            assert!(program(&example(points)).starts_with("PLAN 2 1 "));
            for point in [0, largest, larger] {
                let mut above = points;
                above[point] += 1;
                assert_eq!(program(&example(above)), "REFUSED 14 7\n");
            }
        }
    }
    assert!(program(&example([1, 0, 0, 65_534, 0, 0])).starts_with("PLAN "));
    assert_eq!(program(&example([2, 0, 0, 65_534, 0, 0])), "REFUSED 14 7\n");
}

#[test]
fn two_hundred_and_one_pairs_come_before_the_points() {
    let [_, mut sheet] = both(200);
    sheet[6] = 201;
    sheet[10..12].fill(0);
    assert_eq!(program(&sheet), "REFUSED 4 0\n");
}

#[test]
fn the_longest_sheets_and_what_the_program_reads() {
    let [one, two] = both(200);
    assert_eq!((one.len(), two.len()), (7_410, 7_425));
    let longer = |sheet: &[u8], length: usize| {
        let mut longer = sheet.to_vec();
        longer.resize(length, 0);
        program(&longer)
    };
    assert_eq!(longer(&two, 7_425), "REFUSED 9 0\n");
    assert_eq!(longer(&two, 7_426), "REFUSED 5 7425\n");
    assert_eq!(longer(&two, 10_000), "REFUSED 5 7425\n");
    assert_eq!(longer(&one, 7_410), "REFUSED 9 0\n");
    for length in [7_411, 7_425, 7_426, 7_427, 10_000] {
        assert_eq!(longer(&one, length), "REFUSED 5 7410\n");
    }
    let [_, forty] = both(40);
    assert!(program(&forty).starts_with("PLAN 40 "));
    let [_, more] = both(41);
    assert_eq!(program(&more), "REFUSED 9 0\n");
}

#[test]
fn a_table_of_five_points() {
    let short = Reason::TooShort;
    let two = read(&example(Points::DOCUMENT.table())).unwrap();
    for pool in [two, Pool::default().with_points(Points::DOCUMENT)] {
        let (n, fields, shuffle) = (pool.len(), pool.fields(), &pool.shuffle);
        let five = &pool.points[..5];
        assert_eq!(sheet::fits(&pool, 5, &[n; 9]), Err(short.at(0)));
        assert_eq!(sheet::fits(&pool, 6, &[n; 9]), Ok(()));
        let room = length(2, n);
        assert_eq!(write(2, n, five, fields, shuffle, room), Err(short.at(0)));
        assert_eq!(build(2, n, five, fields, n * n, n * n), Err(short));

        // In version 1 it is neither read nor missed.
        let one = pool.clone().of_version_1();
        assert_eq!(sheet::fits(&one, 5, &[n; 9]), Ok(()));
        assert_eq!(sheet::fits(&one, 0, &[n; 9]), Ok(()));
        let sheet = write_pool(&one, room);
        assert_eq!(write(1, n, five, fields, shuffle, room), sheet);
        assert_eq!(build(1, n, five, fields, n * n, n * n), build_pool(&one));
    }
}

#[test]
fn document_01s_points_build_the_same_tables() {
    trials("the same tables", 800_000, 300, |random| {
        let n = random.between(0, 20);
        let kind = random.one_of(&PoolKind::ALL);
        let one = plain_pool(random, n, kind);
        let two = one.clone().with_points(Points::DOCUMENT);
        assert_eq!(build_pool(&two), build_pool(&one));
    });
}

#[test]
fn no_present_edge_is_weightless_and_none_is_too_heavy() {
    trials("weights of any points", 900_000, 1_000, |random| {
        let n = random.between(0, 12);
        let points = points(random);
        let pool = plain_pool(random, n, PoolKind::Any).with_points(points);
        let tables = build_pool(&pool).expect("a sound pool");
        let steps = points.table();
        let greatest = |steps: &[u16]| u32::from(*steps.iter().max().unwrap());
        let most = u32::from(steps[0]) + greatest(&steps[1..4]) + greatest(&steps[4..]);
        for (entry, &w) in tables.w.iter().enumerate() {
            if entry % (n + 1) == 0 {
                assert_eq!(w, 0);
            } else {
                assert!(points.base <= w && u32::from(w) <= most && most <= 65_535);
            }
        }
    });
}

#[test]
fn built_tables_are_planned_whatever_the_points() {
    // Points with which all edges weigh 1, the least that 14 lets pass.
    assert!(EXTREME_POINTS.contains(&[1, 0, 0, 0, 0, 0]));
    let mut lightest = 0;
    trials("built tables are planned", 1_100_000, 500, |random| {
        let n = random.between(0, 12);
        let kind = random.one_of(&PoolKind::ALL);
        let one = plain_pool(random, n, kind);
        let extreme = EXTREME_POINTS.map(|table| Points::of(&table));
        let registries = extreme.into_iter().chain([points(random)]);
        let twos = registries.map(|points| one.clone().with_points(points));
        for pool in [one.clone()].into_iter().chain(twos) {
            let tables = build_pool(&pool).expect("a sound pool");
            let sheet = write_pool(&pool, LONGEST).expect("a sound pool");
            let of_sheet = build_pool(&read(&sheet).expect("a sound sheet"));
            assert_eq!(of_sheet.as_ref(), Ok(&tables));
            let floor = floor(random, n, &tables);
            let (m, w) = (&tables.m, &tables.w);
            let answer = plan(n, floor, m, w, &pool.shuffle, Room::due(n));
            assert_eq!(answer.err(), None, "{:?}", pool.points);
            lightest += m.iter().zip(w).filter(|&edge| edge == (&1, &1)).count();
        }
    });
    assert!(lightest > 10_000, "only {lightest} edges weighed 1");
}

#[test]
fn wrong_points_are_refused_in_every_call() {
    trials("wrong points", 1_000_000, 1_000, |random| {
        let n = random.between(0, 4);
        let wrong = wrong_points(random);
        let mut pool = plain_pool(random, n, PoolKind::Any).with_points(wrong);
        assert_eq!(write_pool(&pool, LONGEST), Err(Reason::WrongPoints.at(0)));
        assert_eq!(build_pool(&pool), Err(Reason::WrongPoints));
        // Version 1 does not look at them.
        pool.version = 1;
        assert!(write_pool(&pool, LONGEST).is_ok() && build_pool(&pool).is_ok());

        let mut sheet = write_pool(&pool, LONGEST).unwrap();
        sheet[4] = 2;
        sheet.splice(7..7, points_field(wrong.table()));
        assert_eq!(read(&sheet), Err(Reason::WrongPoints.at(7)));
    });
    let none = Fields::default();
    assert_eq!(build(2, 0, &[0; 6], none, 0, 0), Err(Reason::WrongPoints));
}

#[test]
fn other_points_make_another_plan() {
    let pool = read(include_bytes!("../../examples/eight.sheet")).expect("a sound sheet");
    let two = read(include_bytes!("../../examples/eight_by_age.sheet")).expect("a sound sheet");
    assert_eq!((pool.version, two.version), (1, 2));
    assert_eq!(two.clone().of_version_1(), pool);
    let sheet = write_pool(&two, LONGEST).unwrap();
    assert_eq!(
        program(&sheet),
        include_str!("../../examples/eight_by_age.plan")
    );
    // Not only the weight is another.
    let pairs = |text: &str| -> Vec<String> {
        let lines = text.lines().skip(1);
        lines.map(str::to_string).collect()
    };
    let one = include_str!("../../examples/eight.plan");
    assert_ne!(pairs(&program(&sheet)), pairs(one));
}
