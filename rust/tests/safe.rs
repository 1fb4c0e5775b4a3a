//! The safe types: what they refuse, and that a refusal says what to do.

use vadivuzhen::{
    join, raw, Age, Blood, Cycle, LivePool, Pair, Plan, Points, Pool, Refusal, Refused, Tables,
    UnknownRefusal, LONGEST_SHEET, MOST_FLOOR, MOST_PAIRS,
};

/// The pair of that id; any two of these suit each other.
fn pair(id: u32) -> Pair {
    Pair {
        id,
        donor_blood: Blood::O,
        patient_blood: Blood::Ab,
        donor_age: Age::Senior,
        patient_age: Age::Young,
        donor_antigens: 1 << 63,
        patient_antigens: u64::from(id),
        patient_antibodies: 2,
    }
}

fn pool(n: u16) -> Pool {
    pool_from(0, n)
}

/// A pool of `n` pairs with ids from `id` on; the shuffle is from the last to
/// the first.
fn pool_from(id: u32, n: u16) -> Pool {
    let pairs: Vec<Pair> = (id..).take(n.into()).map(pair).collect();
    let shuffle: Vec<u16> = (0..n).rev().collect();
    Pool::new(&pairs, &shuffle).expect("a sound pool")
}

fn refused(why: Refusal, place: usize) -> Refused {
    Refused { why, place }
}

#[test]
fn a_pool_is_what_it_was_made_of() {
    for n in [0, 1, 2, 40, 200] {
        let pool = pool(n);
        let pairs: Vec<Pair> = pool.pairs().collect();
        assert_eq!(pairs.len(), pool.len());
        assert_eq!(Pool::new(&pairs, pool.shuffle()), Ok(pool.clone()));
        assert_eq!((pool.version(), pool.points()), (1, None));
        assert_eq!(Pool::read(&pool.write()), Ok(pool));
    }
    assert_eq!(pool(200).write().len(), 7_410);
}

/// The pairs of a pool in version 2, with these points.
fn with_points(pool: &Pool, points: [u16; 6]) -> Result<Pool, Refused> {
    let pairs: Vec<Pair> = pool.pairs().collect();
    Pool::with_points(points.into(), &pairs, pool.shuffle())
}

/// Document 01's points in the sheet's order.
const DOCUMENT: [u16; 6] = [1_000, 400, 250, 100, 50, 30];

#[test]
fn a_pool_with_points_is_what_it_was_made_of() {
    assert_eq!(<[u16; 6]>::from(Points::DOCUMENT), DOCUMENT);
    for n in [0, 1, 2, 40, 200] {
        let one = pool(n);
        for points in [
            DOCUMENT,
            [1, 2, 3, 4, 5, 6],
            [1, 0, 0, 65_534, 0, 0],
            [65_535, 0, 0, 0, 0, 0],
        ] {
            let two = with_points(&one, points).expect("a sound pool");
            assert_eq!((two.version(), two.points()), (2, Some(points.into())));
            assert!(two.pairs().eq(one.pairs()));
            assert_eq!(two.shuffle(), one.shuffle());
            let sheet = two.write();
            assert_eq!(sheet.len(), one.write().len() + 15);
            assert_eq!(sheet[..5], [1, 0, 4, 0, 2]);
            assert_eq!(sheet[7..10], [4, 0, 12]);
            for (point, two) in points.iter().zip(sheet[10..22].chunks(2)) {
                assert_eq!(two, point.to_be_bytes());
            }
            assert_eq!(sheet[22..], one.write()[7..]);
            assert_eq!(Pool::read(&sheet).as_ref(), Ok(&two));
            assert_ne!(two, one);
        }
    }
    let longest = with_points(&pool(200), DOCUMENT).expect("a sound pool");
    assert_eq!((longest.write().len(), LONGEST_SHEET), (7_425, 7_425));
}

#[test]
fn points_weigh_a_pool() {
    let one = pool(40);
    let two = with_points(&one, DOCUMENT).expect("a sound pool");
    assert_eq!(two.tables(), one.tables());
    assert_eq!(two.plan(), one.plan());
    // Each step is another power of ten: the sum says which ones it has.
    let weight = |bits: u32, donor_age, patient_age| {
        let donor = Pair {
            donor_antigens: (1 << bits) - 1,
            donor_age,
            ..pair(1)
        };
        let patient = Pair {
            patient_antigens: 0,
            patient_age,
            ..pair(2)
        };
        let points = Points::from([10_000, 1_000, 200, 30, 4, 5]);
        let pool = Pool::with_points(points, &[donor, patient], &[0, 1]);
        pool.expect("a sound pool").tables().weights()[1]
    };
    for (bits, step) in (0..).zip([1_000, 200, 200, 30, 30, 0, 0]) {
        assert_eq!(weight(bits, Age::Young, Age::Young), 10_004 + step);
        assert_eq!(weight(bits, Age::Senior, Age::Senior), 10_004 + step);
        assert_eq!(weight(bits, Age::Young, Age::Senior), 10_005 + step);
        assert_eq!(weight(bits, Age::Senior, Age::Young), 10_000 + step);
    }
}

#[test]
fn points_that_may_not_be_are_refused() {
    let wrong = Err(refused(Refusal::WrongPoints, 0));
    for n in [0, 2] {
        for points in [
            [0; 6],
            [0, 400, 250, 100, 50, 30],
            [2, 0, 0, 65_534, 0, 0],
            [2, 65_534, 0, 0, 0, 0],
            [2, 0, 0, 0, 65_534, 0],
            [2, 0, 0, 0, 0, 65_534],
            [30_001, 1, 20_000, 2, 3, 15_535],
            [65_535; 6],
        ] {
            assert_eq!(with_points(&pool(n), points), wrong);
        }
        let last = [30_000, 1, 20_000, 2, 3, 15_535];
        assert!(with_points(&pool(n), last).is_ok());
    }
    // Before the pairs' own faults, and after too many of them.
    let points = Points::from([0; 6]);
    let twice = Pool::with_points(points, &[pair(7), pair(7)], &[0, 0]);
    assert_eq!(twice, wrong);
    let many: Vec<Pair> = (0..201).map(pair).collect();
    let many = Pool::with_points(points, &many, &[]);
    assert_eq!(many, Err(refused(Refusal::TooManyPairs, 0)));

    // In a sheet it is said where.
    let mut sheet = with_points(&pool(2), DOCUMENT).expect("a pool").write();
    sheet[10..12].fill(0);
    let at = Err(refused(Refusal::WrongPoints, 7));
    assert_eq!(Pool::read(&sheet), at);
    assert_eq!(Pool::read(&sheet[..22]), at);
    assert_eq!(Pool::read(&sheet[..21]), Err(refused(Refusal::CutOff, 7)));
    sheet[4] = 1;
    assert_eq!(Pool::read(&sheet), Err(refused(Refusal::WrongField, 7)));
    sheet[4] = 3;
    assert_eq!(Pool::read(&sheet), Err(refused(Refusal::WrongVersion, 0)));
}

#[test]
fn the_bare_calls_with_points() {
    let pool = pool(2);
    let points = [2_000, 1, 2, 3, 4, 5, 77];
    let write = |version, points: &[u16]| {
        let mut sheet = [99; 110];
        let answer = raw::write(
            version,
            2,
            points,
            pool.fields(),
            pool.shuffle(),
            &mut sheet,
        );
        (answer.refusal, answer.length, sheet)
    };
    let build = |version, points: &[u16]| {
        let (mut m, mut w) = ([99; 5], [99; 5]);
        let answer = raw::build(version, 2, points, pool.fields(), &mut m, &mut w);
        (answer.refusal, m, w)
    };
    for version in [0, 3, u16::MAX] {
        assert_eq!(write(version, &points), (3, 0, [99; 110]));
        assert_eq!(build(version, &points), (3, [99; 5], [99; 5]));
    }
    assert_eq!(write(2, &points[..5]), (9, 0, [99; 110]));
    assert_eq!(build(2, &points[..5]), (9, [99; 5], [99; 5]));
    // Version 1 looks at none.
    let (one, tables) = (write(1, &points), build(1, &points));
    assert_eq!((one.0, one.1, tables.0), (0, 84, 0));
    for other in [&[][..], &[0; 6], &[u16::MAX; 8]] {
        assert_eq!(write(1, other), one);
        assert_eq!(build(1, other), tables);
    }

    // Reading fills six for version 2 and none for version 1.
    let (refusal, length, two) = write(2, &points);
    assert_eq!((refusal, length), (0, 99));
    let read = |sheet: &[u8], points: &mut [u16]| {
        let mut bytes = [[0; 2]; 4];
        let mut words = [[0; 2]; 3];
        let [donor_blood, patient_blood, donor_age, patient_age] = &mut bytes;
        let [donor_antigens, patient_antigens, patient_antibodies] = &mut words;
        raw::read(
            sheet,
            raw::LentPool {
                points,
                ids: &mut [0; 2],
                donor_blood,
                patient_blood,
                donor_age,
                patient_age,
                donor_antigens,
                patient_antigens,
                patient_antibodies,
                shuffle: &mut [0; 2],
            },
        )
    };
    let mut table = [99; 8];
    let answer = read(&two[..99], &mut table);
    assert_eq!((answer.refusal, answer.version, answer.pairs), (0, 2, 2));
    assert_eq!(table, [2_000, 1, 2, 3, 4, 5, 99, 99]);
    let mut five = [99; 5];
    let answer = read(&two[..99], &mut five);
    assert_eq!((answer.refusal, answer.version, answer.place), (9, 0, 0));
    assert_eq!(five, [99; 5]);
    for length in 0..8 {
        let mut table = [99; 8];
        let answer = read(&one.2[..84], &mut table[..length]);
        assert_eq!((answer.refusal, answer.version, answer.pairs), (0, 1, 2));
        assert_eq!(table, [99; 8]);
    }
}

#[test]
fn a_mismatch_is_a_donor_antigen_that_the_patient_does_not_have() {
    // What a senior donor weighs for a young patient.
    let weight = |donor_antigens, patient_antigens| {
        let donor = Pair {
            donor_antigens,
            ..pair(1)
        };
        let patient = Pair {
            patient_antigens,
            ..pair(2)
        };
        let pool = Pool::new(&[donor, patient], &[0, 1]).expect("a sound pool");
        pool.tables().weights()[1]
    };
    let weighed = [
        (0, 1_400),
        (0b1, 1_250),
        (0b11, 1_250),
        (0b111, 1_100),
        (0b1111, 1_100),
        (0b11111, 1_000),
        (u64::MAX, 1_000),
        (1 << 63, 1_250),
    ];
    let shared = 0xFF << 32;
    for (lacking, expected) in weighed {
        assert_eq!(weight(lacking, 0), expected);
        // What only the patient has does not count.
        assert_eq!(weight(lacking, !lacking), expected);
        // What both have is no mismatch.
        assert_eq!(weight(lacking | shared, shared & !lacking), expected);
        assert_eq!(weight(0, lacking), 1_400);
        assert_eq!(weight(lacking, lacking), 1_400);
    }
}

#[test]
fn a_faulty_pool_is_not_made() {
    let two = [pair(7), pair(8)];
    let made = |shuffle: &[u16]| Pool::new(&two, shuffle).map(|pool| pool.len());
    assert_eq!(made(&[1, 0]), Ok(2));
    let no_shuffle = Err(refused(Refusal::NotAShuffle, 0));
    for shuffle in [
        &[][..],
        &[0],
        &[1],
        &[0, 0],
        &[0, 2],
        &[0, 1, 2],
        &[1, 0, 0],
    ] {
        assert_eq!(made(shuffle), no_shuffle);
    }
    let twice = Pool::new(&[pair(7), pair(7)], &[0, 0]);
    assert_eq!(twice, Err(refused(Refusal::RepeatedId, 0)));
    let many: Vec<Pair> = (0..201).map(pair).collect();
    let many = Pool::new(&many, &[]);
    assert_eq!(many, Err(refused(Refusal::TooManyPairs, 0)));
}

#[test]
fn a_sheet_is_refused_at_its_field() {
    let sheet = pool(2).write();
    let read = |sheet: &[u8]| Pool::read(sheet).expect_err("a faulty sheet");
    assert_eq!(read(&sheet[..8]), refused(Refusal::CutOff, 7));
    let mut longer = sheet.clone();
    longer.push(0);
    assert_eq!(read(&longer), refused(Refusal::LeftOver, 84));
    let mut blood = sheet;
    blood[42 + 7] = 4;
    assert_eq!(read(&blood), refused(Refusal::OutOfRange, 42));
}

#[test]
fn two_sheets_are_joined() {
    for (m, n) in [(0, 0), (0, 3), (3, 0), (2, 1), (2, 2), (100, 100), (1, 199)] {
        let (first, second) = (pool(m), pool_from(1_000, n));
        let sheet = join(&first.write(), &second.write()).expect("two sound sheets");
        let joined = Pool::read(&sheet).expect("a joined sheet");
        assert!(joined.pairs().eq(first.pairs().chain(second.pairs())));
        let raised = second.shuffle().iter().map(|number| m + number);
        let shuffle: Vec<u16> = first.shuffle().iter().copied().chain(raised).collect();
        assert_eq!(joined.shuffle(), shuffle);
        assert_eq!(joined.write(), sheet);
    }
    let (sheet, none) = (pool(5).write(), pool(0).write());
    assert_eq!(join(&sheet, &none), Ok(sheet.clone()));
    assert_eq!(join(&none, &sheet), Ok(sheet));
    assert_eq!(join(&none, &none), Ok(none));
}

#[test]
fn the_first_fault_of_joining_is_told() {
    let (sheet, addendum) = (pool(2).write(), pool_from(2, 1).write());
    let refusal = |first: &[u8], second: &[u8]| join(first, second).expect_err("a fault");
    // The first sheet's own, whatever the second is; then the second's own.
    let mut longer = sheet.clone();
    longer.push(0);
    let left_over = refused(Refusal::LeftOver, 84);
    assert_eq!(refusal(&longer, &[]), left_over);
    assert_eq!(refusal(&addendum, &longer), left_over);
    assert_eq!(
        refusal(&sheet, &addendum[..46]),
        refused(Refusal::CutOff, 42)
    );

    let shared = refused(Refusal::SharedId, 0);
    assert_eq!(refusal(&sheet, &sheet), shared);
    // The last pair's id in the one, the first's in the other.
    let (low, high) = (pool_from(10, 4).write(), pool_from(13, 3).write());
    assert_eq!(refusal(&low, &high), shared);
    assert_eq!(refusal(&high, &low), shared);
    // Before too many pairs comes an id in both.
    assert_eq!(refusal(&sheet, &pool_from(1, 199).write()), shared);
    let together = refused(Refusal::TooManyTogether, 0);
    assert_eq!(refusal(&sheet, &pool_from(2, 199).write()), together);
    let whole = join(&sheet, &pool_from(2, 198).write());
    assert_eq!(whole.map(|whole| whole.len()), Ok(7_410));
}

#[test]
fn sheets_of_one_version_and_the_same_points_are_joined() {
    let two = |pool: &Pool, points| with_points(pool, points).expect("a pool").write();
    let points = [2_000, 6, 5, 4, 3, 2];
    let (first, second) = (pool_from(0, 1), pool_from(1, 1));
    let sheet = join(&two(&first, points), &two(&second, points)).expect("two sound sheets");
    assert_eq!(sheet.len(), 62 + 62 - 25);
    let joined = Pool::read(&sheet).expect("a joined sheet");
    assert_eq!(
        (joined.version(), joined.points()),
        (2, Some(points.into()))
    );
    assert!(joined.pairs().eq(first.pairs().chain(second.pairs())));
    let whole = join(&two(&pool(100), points), &two(&pool_from(100, 100), points));
    assert_eq!(whole.map(|whole| whole.len()), Ok(LONGEST_SHEET));

    let different = Err(refused(Refusal::DifferentPoints, 0));
    for (m, n) in [(0, 0), (0, 1), (1, 0), (2, 2)] {
        // Before an id in both.
        let (first, second) = (pool(m), pool(n));
        for point in 0..6 {
            let mut other = points;
            other[point] += 1;
            let (a, b) = (two(&first, points), two(&second, other));
            assert_eq!(join(&a, &b), different);
            assert_eq!(join(&b, &a), different);
        }
        // Version 1 has the same points, and is another version.
        let (a, b) = (first.write(), two(&second, DOCUMENT));
        assert_eq!(join(&a, &b), different);
        assert_eq!(join(&b, &a), different);
    }
}

fn live(points: [u16; 6], pairs: &[Pair]) -> LivePool {
    let mut live = LivePool::start(points.into()).expect("points that pass");
    for &pair in pairs {
        live.register(pair).expect("a pair of its own id");
    }
    live
}

/// The ones in each column of `n` rows of `n`.
fn ones_in_columns(m: &[u8], n: usize) -> Vec<u16> {
    let ones = |j| (0..n).filter(|i| m[i * n + j] == 1).count();
    (0..n).map(|j| ones(j) as u16).collect()
}

/// Is the live pool that of these pairs, are its tables those that building
/// gives for them, at first hand and by its sheet, and are as many donors said
/// to suit as there are in them?
fn assert_holds(live: &LivePool, points: [u16; 6], pairs: &[Pair]) {
    assert_eq!(live.points(), points.into());
    assert_eq!(
        (live.len(), live.is_empty()),
        (pairs.len(), pairs.is_empty())
    );
    assert!(live.pairs().eq(pairs.iter().copied()));
    assert!(live.ids().iter().eq(pairs.iter().map(|pair| &pair.id)));
    let shuffle: Vec<u16> = (0..).take(pairs.len()).collect();
    let pool = Pool::with_points(points.into(), pairs, &shuffle).expect("a sound pool");
    let tables = pool.tables();
    assert_eq!(live.compatibilities(), tables.compatibilities());
    assert_eq!(live.weights(), tables.weights());
    assert_eq!(live.tables(), tables);
    let counted = ones_in_columns(tables.compatibilities(), pairs.len());
    assert_eq!(live.suitable_donors(), counted);
    assert_eq!(live.pool(&shuffle).as_ref(), Ok(&pool));
    let sheet = live.write(&shuffle).expect("a sheet");
    assert_eq!((sheet[4], &sheet), (2, &pool.write()));
    assert_eq!(Pool::read(&sheet), Ok(pool));
}

/// Document 01's two pairs, 11 and 12, and a third, 13: O to O, with a senior
/// donor who has three antigens.
fn three() -> [Pair; 3] {
    let bare = |id, donor_blood, patient_blood| Pair {
        id,
        donor_blood,
        patient_blood,
        donor_age: Age::Young,
        patient_age: Age::Young,
        donor_antigens: 0,
        patient_antigens: 0,
        patient_antibodies: 0,
    };
    let third = Pair {
        donor_age: Age::Senior,
        donor_antigens: 7,
        ..bare(13, Blood::O, Blood::O)
    };
    [
        bare(11, Blood::A, Blood::B),
        bare(12, Blood::B, Blood::A),
        third,
    ]
}

#[test]
fn pairs_register_and_withdraw() {
    let [first, second, third] = three();
    let mut pool = live(DOCUMENT, &[first, second, third]);
    assert_holds(&pool, DOCUMENT, &[first, second, third]);
    assert_eq!(pool.compatibilities(), [0, 1, 0, 1, 0, 0, 1, 1, 0]);
    let weights = [0, 1_450, 1_450, 1_450, 0, 1_450, 1_100, 1_100, 0];
    assert_eq!(pool.weights(), weights);
    assert_eq!(pool.suitable_donors(), [2, 2, 0]);

    assert_eq!(pool.withdraw(12), Ok(()));
    assert_holds(&pool, DOCUMENT, &[first, third]);
    assert_eq!(pool.compatibilities(), [0, 0, 1, 0]);
    assert_eq!(pool.weights(), [0, 1_450, 1_100, 0]);
    assert_eq!(pool.suitable_donors(), [1, 0]);
    assert_eq!(pool.withdraw(12), Err(refused(Refusal::UnknownId, 0)));
    assert_holds(&pool, DOCUMENT, &[first, third]);

    assert_eq!(pool.register(second), Ok(()));
    assert_eq!(pool.ids(), [11, 13, 12]);
    assert_eq!(pool.suitable_donors(), [2, 0, 2]);
    assert_holds(&pool, DOCUMENT, &[first, third, second]);
}

#[test]
fn any_pair_withdraws() {
    let points = [10_000, 1_000, 200, 30, 4, 5];
    for n in 1..=8 {
        let pairs: Vec<Pair> = (0..n).map(varied).collect();
        let all = live(points, &pairs);
        assert_holds(&all, points, &pairs);
        for gone in 0..pairs.len() {
            let mut rest = pairs.clone();
            let gone = rest.remove(gone);
            let mut pool = all.clone();
            assert_eq!(pool.withdraw(gone.id), Ok(()));
            assert_holds(&pool, points, &rest);
            // One that never had the pair is equal, whatever lies past it.
            assert_eq!(pool, live(points, &rest));
            assert_ne!(pool, all);
            assert_eq!(pool.register(gone), Ok(()));
            rest.push(gone);
            assert_holds(&pool, points, &rest);
        }
    }
}

/// A pair of that id whose other fields are drawn from it.
fn varied(id: u32) -> Pair {
    let drawn = (u64::from(id) + 1).wrapping_mul(0x9E37_79B9_7F4A_7C15);
    let bit = |at: u32| drawn >> at & 1 == 1;
    let blood = |at| match (bit(at), bit(at + 1)) {
        (false, false) => Blood::O,
        (false, true) => Blood::A,
        (true, false) => Blood::B,
        (true, true) => Blood::Ab,
    };
    let age = |at| if bit(at) { Age::Senior } else { Age::Young };
    Pair {
        id,
        donor_blood: blood(20),
        patient_blood: blood(24),
        donor_age: age(28),
        patient_age: age(30),
        donor_antigens: drawn >> 32 & 0xFF,
        patient_antigens: drawn >> 40 & 0xFF,
        patient_antibodies: drawn >> 48 & drawn >> 56 & 0x0F,
    }
}

#[test]
fn a_live_pool_is_its_calls_whatever_they_are() {
    let points = [2_000, 600, 500, 400, 3, 2];
    let mut pool = live(points, &[]);
    let mut pairs: Vec<Pair> = Vec::new();
    let mut drawn: u32 = 206;
    let mut answers = [0; 4];
    for _ in 0..600 {
        drawn = drawn.wrapping_mul(1_664_525).wrapping_add(1_013_904_223);
        let (id, registers) = (drawn >> 16 & 0x1F, drawn >> 28 < 9);
        let held = pairs.iter().position(|pair| pair.id == id);
        let (answer, due) = match (registers, held) {
            (true, None) => {
                pairs.push(varied(id));
                (pool.register(varied(id)), Ok(()))
            }
            (true, Some(_)) => (pool.register(varied(id)), Err(Refusal::RepeatedId)),
            (false, Some(number)) => {
                pairs.remove(number);
                (pool.withdraw(id), Ok(()))
            }
            (false, None) => (pool.withdraw(id), Err(Refusal::UnknownId)),
        };
        assert_eq!(
            answer.map_err(|refused| (refused.why, refused.place)),
            due.map_err(|why| (why, 0))
        );
        assert_holds(&pool, points, &pairs);
        answers[usize::from(registers) * 2 + usize::from(held.is_some())] += 1;
    }
    assert!(answers.iter().all(|&often| often > 50), "{answers:?}");
}

#[test]
fn two_hundred_pairs_live_and_no_more() {
    let pairs: Vec<Pair> = (0..200).map(varied).collect();
    let mut pool = live(DOCUMENT, &pairs);
    assert_holds(&pool, DOCUMENT, &pairs);
    let full = Err(refused(Refusal::TooManyTogether, 0));
    assert_eq!(pool.register(varied(200)), full);
    // An id in the pool comes first.
    let repeated = Err(refused(Refusal::RepeatedId, 0));
    assert_eq!(pool.register(varied(199)), repeated);
    assert_holds(&pool, DOCUMENT, &pairs);

    assert_eq!(pool.withdraw(77), Ok(()));
    assert_eq!(pool.register(varied(200)), Ok(()));
    let due = pairs.iter().copied().filter(|pair| pair.id != 77);
    let due: Vec<Pair> = due.chain([varied(200)]).collect();
    assert_holds(&pool, DOCUMENT, &due);
    assert_eq!(pool.register(varied(77)), full);
    for pair in due {
        assert_eq!(pool.withdraw(pair.id), Ok(()));
    }
    assert_holds(&pool, DOCUMENT, &[]);
}

#[test]
fn a_live_pool_starts_with_points_that_pass() {
    let wrong = Err(refused(Refusal::WrongPoints, 0));
    for points in [
        [0; 6],
        [0, 400, 250, 100, 50, 30],
        [2, 0, 0, 65_534, 0, 0],
        [2, 65_534, 0, 0, 0, 0],
        [2, 0, 65_534, 0, 0, 0],
        [2, 0, 0, 0, 65_534, 0],
        [2, 0, 0, 0, 0, 65_534],
        [30_001, 1, 20_000, 2, 3, 15_535],
        [65_535; 6],
    ] {
        assert_eq!(LivePool::start(points.into()), wrong);
    }
    for points in [
        DOCUMENT,
        [1, 2, 3, 4, 5, 6],
        [30_000, 1, 20_000, 2, 3, 15_535],
    ] {
        assert_holds(&live(points, &[]), points, &[]);
        assert_holds(&live(points, &three()), points, &three());
    }
    assert_ne!(live(DOCUMENT, &three()), live([1, 2, 3, 4, 5, 6], &three()));
}

#[test]
fn a_live_pool_is_planned_with_the_shuffle_of_the_match() {
    let pool = live(DOCUMENT, &three());
    for shuffle in [[0, 1, 2], [2, 0, 1], [1, 2, 0]] {
        let whole = pool.pool(&shuffle).expect("a shuffle");
        assert_eq!(pool.plan(&shuffle), Ok(whole.plan()));
        assert_eq!(pool.plan_above(2_899, &shuffle), Ok(whole.plan()));
        assert_eq!(pool.plan_above(2_900, &shuffle), whole.plan_above(2_900));
        assert_eq!(pool.write(&shuffle), Ok(whole.write()));
    }
    let printed = "PLAN 3 1 2900\n11 12 12\n12 11 11\n13 - -\nCOUNTS 5 32 1\n";
    assert_eq!(pool.plan(&[2, 0, 1]).expect("a plan").print(), printed);

    let no_shuffle = refused(Refusal::NotAShuffle, 0);
    let none = live(DOCUMENT, &[]);
    let wrong = [
        (&pool, &[][..]),
        (&pool, &[0, 1]),
        (&pool, &[0, 1, 1]),
        (&pool, &[0, 1, 3]),
        (&pool, &[0, 1, 2, 3]),
        (&none, &[0]),
    ];
    for (pool, shuffle) in wrong {
        assert_eq!(pool.plan(shuffle), Err(no_shuffle));
        assert_eq!(pool.plan_above(MOST_FLOOR, shuffle), Err(no_shuffle));
        assert_eq!(pool.write(shuffle), Err(no_shuffle));
        assert_eq!(pool.pool(shuffle), Err(no_shuffle));
        let high = Err(refused(Refusal::FloorTooHigh, 0));
        assert_eq!(pool.plan_above(MOST_FLOOR + 1, shuffle), high);
    }
    assert_eq!(
        none.plan(&[]).expect("a plan").print(),
        "PLAN 0 0 0\nCOUNTS 0 0 0\n"
    );
}

#[test]
fn a_live_pool_shows_its_pairs() {
    let mut pool = live(DOCUMENT, &three());
    pool.withdraw(12).expect("a pair of the pool");
    let shown = format!("{pool:?}");
    assert!(
        shown.contains("id: 11") && shown.contains("id: 13"),
        "{shown}"
    );
    assert!(
        !shown.contains("id: 12") && shown.contains("base: 1000"),
        "{shown}"
    );
}

/// The tables of a live pool as a caller of the bare calls has them, each with
/// an entry more than is lent.
#[derive(Clone, Debug, PartialEq)]
struct Bare {
    count: usize,
    points: Vec<u16>,
    ids: Vec<u32>,
    bytes: [Vec<u8>; 4],
    words: [Vec<u64>; 3],
    m: Vec<u8>,
    w: Vec<u16>,
    suitable: Vec<u16>,
}

impl Bare {
    /// Tables with room for `room` pairs, filled with 99.
    fn new(room: usize) -> Bare {
        Bare {
            count: 99,
            points: vec![99; 7],
            ids: vec![99; room + 1],
            bytes: [(); 4].map(|()| vec![99; room + 1]),
            words: [(); 3].map(|()| vec![99; room + 1]),
            m: vec![99; room * room + 1],
            w: vec![99; room * room + 1],
            suitable: vec![99; room + 1],
        }
    }

    fn lent(&mut self) -> raw::LentLive<'_> {
        let room = self.ids.len() - 1;
        let [donor_blood, patient_blood, donor_age, patient_age] = &mut self.bytes;
        let [donor_antigens, patient_antigens, patient_antibodies] = &mut self.words;
        raw::LentLive {
            count: &mut self.count,
            points: &self.points[..6],
            ids: &mut self.ids[..room],
            donor_blood: &mut donor_blood[..room],
            patient_blood: &mut patient_blood[..room],
            donor_age: &mut donor_age[..room],
            patient_age: &mut patient_age[..room],
            donor_antigens: &mut donor_antigens[..room],
            patient_antigens: &mut patient_antigens[..room],
            patient_antibodies: &mut patient_antibodies[..room],
            m: &mut self.m[..room * room],
            w: &mut self.w[..room * room],
            suitable: &mut self.suitable[..room],
        }
    }

    fn start(&mut self, points: [u16; 6]) -> u32 {
        let given = Points::from(points).into();
        raw::start(given, &mut self.points, &mut self.count).refusal
    }

    fn register(&mut self, pair: Pair) -> u32 {
        raw::register(self.lent(), pair.into()).refusal
    }

    fn withdraw(&mut self, id: u32) -> u32 {
        raw::withdraw(self.lent(), id).refusal
    }
}

#[test]
fn the_bare_calls_of_a_live_pool() {
    let [first, second, third] = three();
    let mut pool = Bare::new(3);
    assert_eq!(pool.start(DOCUMENT), 0);
    let mut due = Bare::new(3);
    (due.count, due.points) = (0, [&DOCUMENT[..], &[99]].concat());
    assert_eq!(pool, due);

    for pair in [first, second, third] {
        assert_eq!(pool.register(pair), 0);
    }
    (due.count, due.ids) = (3, vec![11, 12, 13, 99]);
    due.bytes = [[1, 2, 0, 99], [2, 1, 0, 99], [0, 0, 1, 99], [0, 0, 0, 99]].map(Vec::from);
    due.words = [[0, 0, 7, 99], [0, 0, 0, 99], [0, 0, 0, 99]].map(Vec::from);
    due.m = vec![0, 1, 0, 1, 0, 0, 1, 1, 0, 99];
    due.w = vec![0, 1_450, 1_450, 1_450, 0, 1_450, 1_100, 1_100, 0, 99];
    due.suitable = vec![2, 2, 0, 99];
    assert_eq!(pool, due);
    let fourth = Pair { id: 14, ..first };
    assert_eq!((pool.register(fourth), pool.register(third)), (9, 7));
    let mut unsound = raw::Pair::from(third);
    unsound.patient_age = 2;
    assert_eq!(raw::register(pool.lent(), unsound).refusal, 6);
    assert_eq!((pool.withdraw(14), pool.start([0; 6])), (16, 14));
    let five = |pool: &mut Bare, given: raw::Six| {
        raw::start(given, &mut pool.points[..5], &mut pool.count).refusal
    };
    assert_eq!(five(&mut pool, raw::Six::default()), 14);
    assert_eq!(five(&mut pool, Points::DOCUMENT.into()), 9);
    assert_eq!(pool, due);

    // What lies past the new count's entries is as it was.
    assert_eq!(pool.withdraw(12), 0);
    (due.count, due.ids) = (2, vec![11, 13, 13, 99]);
    due.bytes = [[1, 0, 0, 99], [2, 0, 0, 99], [0, 1, 1, 99], [0, 0, 0, 99]].map(Vec::from);
    due.words[0] = vec![0, 7, 7, 99];
    due.m[..4].copy_from_slice(&[0, 0, 1, 0]);
    due.w[..4].copy_from_slice(&[0, 1_450, 1_100, 0]);
    due.suitable[..2].copy_from_slice(&[1, 0]);
    assert_eq!(pool, due);
    assert_eq!(pool.withdraw(12), 16);
    assert_eq!(pool, due);

    // A count above 200, then stored points, then stored numbers, in either
    // call; nothing changes.
    due.points[0] = 0;
    due.count = MOST_PAIRS + 1;
    pool = due.clone();
    assert_eq!((pool.register(second), pool.withdraw(11)), (4, 4));
    assert_eq!(pool, due);
    due.count = 4;
    pool = due.clone();
    assert_eq!((pool.register(second), pool.withdraw(11)), (9, 9));
    due.count = 3;
    pool = due.clone();
    assert_eq!((pool.register(second), pool.withdraw(12)), (14, 14));
    assert_eq!(pool, due);
    due.points[0] = 1_000;
    pool = due.clone();
    assert_eq!((pool.register(second), pool.withdraw(12)), (10, 10));
    assert_eq!(pool, due);
    // An id twice is 7, after a blood of 4; withdrawn is the first of the two.
    pool.suitable[..3].copy_from_slice(&[1, 1, 1]);
    assert_eq!(pool.register(second), 7);
    pool.bytes[0][0] = 4;
    assert_eq!(pool.register(second), 6);
    assert_eq!(pool.withdraw(13), 0);
    assert_eq!((pool.count, &pool.ids[..2]), (2, &[11, 13][..]));
    // Of what M and W hold, the middle row and column are taken out.
    assert_eq!(pool.m[..4], [0, 1, 1, 0]);
    assert_eq!(pool.w[..4], [0, 1_100, 1_100, 0]);
    assert_eq!(pool.suitable, [1, 1, 1, 99]);
}

/// The live pool of these pairs by the bare calls, with room for four.
fn bare(pairs: &[Pair]) -> Bare {
    let mut pool = Bare::new(4);
    assert_eq!(pool.start(DOCUMENT), 0);
    for &pair in pairs {
        assert_eq!(pool.register(pair), 0);
    }
    pool
}

/// Three pairs, with an M put in by hand, and the numbers that it has: an entry
/// above 1 is not a one, and a pair's own counts.
fn by_hand() -> Bare {
    let mut pool = bare(&three());
    pool.m[..9].copy_from_slice(&[0, 1, 5, 1, 1, 2, 0, 1, 1]);
    pool.suitable[..3].copy_from_slice(&[1, 3, 1]);
    pool
}

#[test]
fn a_live_pool_with_m_and_numbers_changed_alike() {
    let mut pool = by_hand();
    assert_eq!(pool.withdraw(12), 0);
    assert_eq!(pool.m[..4], [0, 5, 0, 1]);
    assert_eq!(pool.suitable, [0, 1, 1, 99, 99]);

    let mut pool = by_hand();
    let [first, second, third] = three();
    assert_eq!(pool.register(pair(14)), 0);
    assert_eq!(pool, bare(&[first, second, third, pair(14)]));
}

#[test]
fn a_stored_number_is_the_ones_in_its_column() {
    let [first, ..] = three();
    let mut unsound = raw::Pair::from(pair(14));
    unsound.donor_blood = 4;
    for patient in 0..3 {
        let number = by_hand().suitable[patient];
        for wrong in [number + 1, number - 1] {
            let mut pool = by_hand();
            pool.suitable[patient] = wrong;
            let due = pool.clone();
            assert_eq!((pool.register(pair(14)), pool.withdraw(12)), (10, 10));
            // Before a pair out of range, an id of the pool and one that is not.
            assert_eq!(raw::register(pool.lent(), unsound).refusal, 10);
            assert_eq!((pool.register(first), pool.withdraw(14)), (10, 10));
            assert_eq!(pool, due);
            // After the points.
            pool.points[0] = 0;
            assert_eq!((pool.register(pair(14)), pool.withdraw(12)), (14, 14));
            assert_eq!(pool.suitable, due.suitable);
        }
    }
}

/// The first entries of a lent table.
fn first<T>(table: &mut &mut [T], length: usize) {
    *table = &mut std::mem::take(table)[..length];
}

#[test]
fn a_live_pool_needs_all_its_tables() {
    // Of each table as many entries as a number of pairs and one of entries say.
    let shorten: [fn(&mut raw::LentLive<'_>, usize, usize); 11] = [
        |lent, n, _| first(&mut lent.ids, n),
        |lent, n, _| first(&mut lent.donor_blood, n),
        |lent, n, _| first(&mut lent.patient_blood, n),
        |lent, n, _| first(&mut lent.donor_age, n),
        |lent, n, _| first(&mut lent.patient_age, n),
        |lent, n, _| first(&mut lent.donor_antigens, n),
        |lent, n, _| first(&mut lent.patient_antigens, n),
        |lent, n, _| first(&mut lent.patient_antibodies, n),
        |lent, _, entries| first(&mut lent.m, entries),
        |lent, _, entries| first(&mut lent.w, entries),
        |lent, n, _| first(&mut lent.suitable, n),
    ];
    let mut pool = bare(&three());
    let due = pool.clone();
    for shorten in shorten {
        // Too short for the three, and for one more.
        for (n, entries, withdrawn) in [(2, 8, 9), (3, 15, 16)] {
            let mut lent = pool.lent();
            shorten(&mut lent, n, entries);
            assert_eq!(raw::register(lent, pair(14).into()).refusal, 9);
            let mut lent = pool.lent();
            shorten(&mut lent, n, entries);
            assert_eq!(raw::withdraw(lent, 14).refusal, withdrawn);
            assert_eq!(pool, due);
        }
    }
    let mut lent = pool.lent();
    lent.points = &lent.points[..5];
    assert_eq!(raw::register(lent, pair(14).into()).refusal, 9);
    let mut lent = pool.lent();
    lent.points = &lent.points[..5];
    assert_eq!(raw::withdraw(lent, 11).refusal, 9);
    assert_eq!(pool, due);
    assert_eq!((pool.register(pair(14)), pool.withdraw(14)), (0, 0));
}

#[test]
fn own_tables_are_planned_or_refused() {
    let made = |n: u32, m, w| Tables::new((0..n).collect(), vec![0; m], vec![0; w]);
    let too_short = Err(refused(Refusal::TooShort, 0));
    for (m, w) in [(3, 4), (4, 3), (5, 4), (4, 5), (9, 9)] {
        assert_eq!(made(2, m, w), too_short);
    }
    assert_eq!(made(200, 40_000, 40_000).map(|made| made.pairs()), Ok(200));
    let too_many = Err(refused(Refusal::TooManyPairs, 0));
    assert_eq!(made(201, 0, 0), too_many);

    // k10 of document 01.
    let m = vec![0, 1, 1, 1, 0, 0, 1, 0, 0];
    let tables = Tables::new(vec![7, 8, u32::MAX], m, vec![5; 9]).expect("tables for three");
    let plan = tables.plan(&[2, 0, 1]).expect("a plan");
    assert_eq!((plan.weight(), plan.cycles()), (10, 1));
    let cycle = Cycle {
        first: 2,
        second: 0,
        third: 3,
    };
    assert_eq!(plan.records(), [cycle]);
    assert_eq!(plan.recipients(), [2, 3, 0]);
    assert_eq!(plan.donor_of(0), Some(2));
    assert_eq!(plan.recipient_of(1), None);
    assert_eq!(plan.recipient_of(3), None);
    assert_eq!((plan.choices().len(), plan.weights().len()), (1, 4));
    let printed = "PLAN 3 1 10\n7 4294967295 4294967295\n8 - -\n4294967295 7 7\nCOUNTS 5 32 1\n";
    assert_eq!(plan.print(), printed);

    let why = |shuffle: &[u16]| tables.plan(shuffle).expect_err("no shuffle").why;
    assert_eq!(why(&[0, 1]), Refusal::TooShort);
    assert_eq!(why(&[0, 1, 1]), Refusal::NotAShuffle);
    let own = Tables::new(vec![7], vec![1], vec![0]).expect("tables for one");
    let own = own.plan(&[0]).expect_err("a donor for the own patient");
    assert_eq!(own.why, Refusal::NotCompatibility);
}

/// Document 01's k3: the exchange of the two pairs weighs 12.
fn k3() -> Tables {
    Tables::new(vec![7, 8], vec![0, 1, 1, 0], vec![0, 5, 7, 0]).expect("tables for two")
}

/// What an exchange weighs by these tables, each pair's donor giving to the next
/// one's patient; 0 if it can't be carried out.
fn exchange(tables: &Tables, pairs: &[usize]) -> u32 {
    let n = tables.pairs();
    let next = pairs.iter().cycle().skip(1);
    let edges: Vec<usize> = pairs.iter().zip(next).map(|(a, b)| a * n + b).collect();
    if edges
        .iter()
        .any(|&edge| tables.compatibilities()[edge] != 1)
    {
        return 0;
    }
    let weights = edges.iter().map(|&edge| u32::from(tables.weights()[edge]));
    weights.sum()
}

/// What each planned cycle weighs by these tables, in order of choice.
fn cycle_weights(tables: &Tables, plan: &Plan) -> Vec<u32> {
    let weigh = |cycle: &Cycle| {
        let pairs = [cycle.first, cycle.second, cycle.third].map(usize::from);
        let two = pairs[2] == tables.pairs();
        exchange(tables, &pairs[..if two { 2 } else { 3 }])
    };
    plan.records().iter().map(weigh).collect()
}

#[test]
fn only_what_is_above_the_floor_is_planned() {
    let tables = k3();
    let plan = tables.plan(&[0, 1]).expect("a plan");
    for floor in [0, 1, 11] {
        assert_eq!(tables.plan_above(floor, &[0, 1]).as_ref(), Ok(&plan));
    }
    assert_eq!((plan.weight(), plan.choices()), (12, &[0][..]));
    for floor in [12, 13, 196_605, 199_999, MOST_FLOOR] {
        let none = tables
            .plan_above(floor, &[0, 1])
            .expect("a plan of nothing");
        assert_eq!((none.weight(), none.cycles()), (0, 0));
        assert_eq!((none.choices(), none.records()), (&[1][..], &[][..]));
        assert_eq!((none.donor_of(0), none.recipient_of(1)), (None, None));
        // The weight stands as it was evaluated, and what was done is the same.
        assert_eq!(none.weights(), [12]);
        assert_eq!(none.tally(), plan.tally());
    }
}

#[test]
fn a_floor_cuts_a_plan_off() {
    let pool = Pool::read(include_bytes!("../../examples/thirty_six.sheet")).expect("a sheet");
    let (tables, whole) = (pool.tables(), pool.plan());
    let weights = cycle_weights(&tables, &whole);
    assert_eq!(
        weights.iter().map(|&w| u64::from(w)).sum::<u64>(),
        whole.weight()
    );
    let near = weights.iter().flat_map(|&weight| [weight - 1, weight]);
    let mut counts: Vec<usize> = Vec::new();
    for floor in near.chain([0, MOST_FLOOR]) {
        let plan = pool
            .plan_above(floor)
            .expect("a floor that is not too high");
        assert_eq!(tables.plan_above(floor, pool.shuffle()).as_ref(), Ok(&plan));
        let above = weights.iter().filter(|&&weight| weight > floor).count();
        assert_eq!(plan.records(), &whole.records()[..above]);
        assert!(cycle_weights(&tables, &plan).iter().all(|&w| w > floor));
        assert_eq!(plan.ids(), pool.ids());
        assert_eq!(plan.tally(), whole.tally());
        counts.push(above);
    }
    assert_eq!(pool.plan_above(0), Ok(whole));
    counts.sort();
    counts.dedup();
    assert!(counts.len() > 3, "floors make only {counts:?} cycles");
}

#[test]
fn the_eight_pairs_of_the_examples_with_floors() {
    let pool = Pool::read(include_bytes!("../../examples/eight.sheet")).expect("a sheet");
    assert_eq!(pool.plan().weight(), 5_450);
    let plan = pool.plan_above(2_700).expect("a plan");
    assert_eq!(
        (plan.weight(), plan.choices()),
        (3_250, &[6, 84, 84, 84][..])
    );
    let none = pool.plan_above(4_000).expect("a plan");
    assert_eq!((none.weight(), none.choices()), (0, &[84; 4][..]));
    assert_eq!(none.tally(), plan.tally());
}

/// Tables of so many pairs, from edges: donor, patient, weight.
fn tables_of(n: usize, edges: &[(usize, usize, u16)]) -> Tables {
    let (mut m, mut w) = (vec![0; n * n], vec![0; n * n]);
    for &(from, to, weight) in edges {
        m[from * n + to] = 1;
        w[from * n + to] = weight;
    }
    Tables::new((0..n as u32).collect(), m, w).expect("n rows of n")
}

/// Edges of one weight both ways between two pairs.
fn both_ways(a: usize, b: usize, weight: u16) -> [(usize, usize, u16); 2] {
    [(a, b, weight), (b, a, weight)]
}

/// The sum over the pairs that have a partner of what their cycle weighs, going
/// from each to the pair that its donor gives to, until it is back.
fn weights_of_pairs(tables: &Tables, plan: &Plan) -> u64 {
    let n = tables.pairs();
    let of_pair = |pair: usize| {
        let (mut at, mut weight) = (pair, 0);
        while let Some(next) = plan.recipient_of(at) {
            weight += u64::from(tables.weights()[at * n + next]);
            at = next;
            if at == pair {
                break;
            }
        }
        weight
    };
    (0..n).map(of_pair).sum()
}

#[test]
fn no_rival_weighs_more_than_the_credit() {
    let identity: Vec<u16> = (0..10).collect();
    let forward =
        |a: usize, b: usize, c: usize, weight| [(a, b, weight), (b, c, weight), (c, a, weight)];
    let k8 = [
        &forward(0, 1, 2, 2)[..],
        &both_ways(0, 3, 3),
        &both_ways(1, 4, 3),
        &both_ways(2, 5, 3),
    ];
    let four = [both_ways(0, 1, 5), both_ways(0, 2, 5), both_ways(1, 3, 5)];
    let seven = [
        &forward(0, 1, 2, 4)[..],
        &forward(0, 3, 4, 4),
        &both_ways(1, 5, 6),
        &both_ways(2, 6, 6),
    ];
    let ten = [
        &forward(0, 1, 2, 4)[..],
        &both_ways(3, 4, 4),
        &both_ways(0, 5, 6),
        &both_ways(1, 6, 6),
        &both_ways(2, 7, 6),
        &both_ways(3, 8, 4),
        &both_ways(4, 9, 4),
    ];
    let k8 = tables_of(6, &k8.concat());
    // The rivals share no pair, and weigh just the credit.
    let pools: [(&Tables, &[u16], u64, u64, &[&[usize]]); 4] = [
        (&k8, &identity, 6, 18, &[&[0, 3], &[1, 4], &[2, 5]]),
        (
            &tables_of(4, &four.concat()),
            &identity,
            10,
            20,
            &[&[0, 2], &[1, 3]],
        ),
        (
            &tables_of(7, &seven.concat()),
            &[2, 0, 1, 6, 5, 4, 3],
            12,
            36,
            &[&[0, 3, 4], &[1, 5], &[2, 6]],
        ),
        (
            &tables_of(10, &ten.concat()),
            &identity,
            20,
            52,
            &[&[0, 5], &[1, 6], &[2, 7], &[3, 8], &[4, 9]],
        ),
    ];
    for (tables, shuffle, weight, credit, rivals) in pools {
        let plan = tables.plan(shuffle).expect("a plan");
        assert_eq!((plan.weight(), plan.credit()), (weight, credit));
        let rivals = rivals
            .iter()
            .map(|rival| u64::from(exchange(tables, rival)));
        assert_eq!(plan.credit(), rivals.sum());
        assert_eq!(plan.credit(), weights_of_pairs(tables, &plan));
    }
    // A floor is for rivals too: with 6 nothing of k8 is planned.
    let credit = |floor| k8.plan_above(floor, &identity).expect("a plan").credit();
    assert_eq!((credit(5), credit(6)), (18, 0));
}

#[test]
fn the_credit_of_the_examples() {
    // The third has no two.
    for (sheet, weight, credit) in [
        (
            &include_bytes!("../../examples/eight.sheet")[..],
            5_450,
            14_150,
        ),
        (
            include_bytes!("../../examples/eight_by_age.sheet"),
            4_720,
            12_480,
        ),
        (
            include_bytes!("../../examples/thirty_six.sheet"),
            16_710,
            3 * 16_710,
        ),
    ] {
        let pool = Pool::read(sheet).expect("a sheet");
        let (tables, n) = (pool.tables(), pool.len());
        let whole = pool.plan();
        assert_eq!((whole.weight(), whole.credit()), (weight, credit));
        for floor in [0, 2_700, 3_000, 3_300, MOST_FLOOR] {
            let plan = pool.plan_above(floor).expect("a plan");
            let weights = cycle_weights(&tables, &plan);
            let cycles = plan.records().iter().zip(&weights);
            let twos = cycles.filter(|(cycle, _)| usize::from(cycle.third) == n);
            let twos: u64 = twos.map(|(_, &weight)| u64::from(weight)).sum();
            assert_eq!(plan.credit() + twos, 3 * plan.weight());
            assert_eq!(plan.credit(), weights_of_pairs(&tables, &plan));
        }
    }
}

#[test]
fn a_floor_too_high_is_refused_before_the_tables() {
    let high = Err(refused(Refusal::FloorTooHigh, 0));
    let wrong = Tables::new(vec![7, 8], vec![1, 1, 1, 0], vec![0, 5, 7, 0]);
    let wrong = wrong.expect("tables for two");
    for floor in [MOST_FLOOR + 1, u32::MAX] {
        assert_eq!(pool(3).plan_above(floor), high);
        assert_eq!(pool(0).plan_above(floor), high);
        for shuffle in [&[0, 1][..], &[0, 0], &[0], &[]] {
            assert_eq!(k3().plan_above(floor, shuffle), high);
            assert_eq!(wrong.plan_above(floor, shuffle), high);
        }
    }
    // The highest floor is none too high, and hides no other fault.
    let why = |tables: &Tables, shuffle: &[u16]| {
        let refused = tables.plan_above(MOST_FLOOR, shuffle);
        refused.expect_err("a fault").why
    };
    assert_eq!(why(&k3(), &[0]), Refusal::TooShort);
    assert_eq!(why(&k3(), &[0, 0]), Refusal::NotAShuffle);
    assert_eq!(why(&wrong, &[0, 1]), Refusal::NotCompatibility);
    // No tables have more than 200 pairs; of the bare call that comes first.
    let refusal = |n, floor| raw::plan(n, floor, &[], &[], &[], raw::Planned::default()).refusal;
    assert_eq!(refusal(201, MOST_FLOOR + 1), 4);
    assert_eq!(refusal(200, MOST_FLOOR + 1), 13);
    assert_eq!(refusal(200, MOST_FLOOR), 9);
    assert_eq!(refusal(0, MOST_FLOOR), 0);
}

/// Document 01's k5, which W-209 refuses: both edges weigh 0.
fn k5() -> Tables {
    tables_of(2, &both_ways(0, 1, 0))
}

/// An edge of that weight from any of the pairs to any other.
fn all_edges(n: usize, weight: u16) -> Vec<(usize, usize, u16)> {
    let entries = (0..n * n).map(|entry| (entry / n, entry % n, weight));
    entries.filter(|(from, to, _)| from != to).collect()
}

/// A shuffle of so many pairs, from the last to the first.
fn backward(n: usize) -> Vec<u16> {
    (0..n as u16).rev().collect()
}

#[test]
fn own_tables_with_a_weightless_edge_are_refused() {
    let weightless = Err(refused(Refusal::WeightlessEdge, 0));
    for shuffle in [[0, 1], [1, 0]] {
        assert_eq!(k5().plan(&shuffle), weightless);
        for floor in [0, 1, 5, MOST_FLOOR] {
            assert_eq!(k5().plan_above(floor, &shuffle), weightless);
        }
        // One edge alone, which is in no exchange, and one way of two.
        for edges in [
            &[(0, 1, 0)][..],
            &[(1, 0, 0)],
            &[(0, 1, 0), (1, 0, 7)],
            &[(0, 1, 5), (1, 0, 0)],
        ] {
            assert_eq!(tables_of(2, edges).plan(&shuffle), weightless);
        }
    }

    // What else is wrong is told before.
    let why = |tables: &Tables, floor, shuffle: &[u16]| {
        let refused = tables.plan_above(floor, shuffle).expect_err("a fault");
        assert_eq!(refused.place, 0);
        refused.why
    };
    assert_eq!(why(&k5(), MOST_FLOOR + 1, &[0, 1]), Refusal::FloorTooHigh);
    assert_eq!(why(&k5(), 0, &[0]), Refusal::TooShort);
    assert_eq!(why(&k5(), 0, &[0, 0]), Refusal::NotAShuffle);
    for m in [[0, 1, 2, 0], [0, 2, 1, 0], [1, 1, 1, 0], [0, 1, 0, 1]] {
        let tables = Tables::new(vec![7, 8], m.to_vec(), vec![0; 4]).expect("tables for two");
        assert_eq!(why(&tables, 0, &[0, 1]), Refusal::NotCompatibility);
    }
    let own = Tables::new(vec![7, 8], vec![0, 0, 0, 1], vec![0; 4]).expect("tables for two");
    assert_eq!(why(&own, 0, &[0, 1]), Refusal::NotCompatibility);
}

#[test]
fn a_weightless_edge_is_refused_wherever_it_is() {
    let weightless = Err(refused(Refusal::WeightlessEdge, 0));
    for n in 2..=6 {
        let (edges, shuffle) = (all_edges(n, 1), backward(n));
        assert!(tables_of(n, &edges).plan(&shuffle).is_ok());
        for at in 0..edges.len() {
            let mut one = edges.clone();
            one[at].2 = 0;
            assert_eq!(tables_of(n, &one).plan(&shuffle), weightless);
            assert_eq!(tables_of(n, &one[at..=at]).plan(&shuffle), weightless);
            // Where there is no edge the weight may be 0.
            one.remove(at);
            assert!(tables_of(n, &one).plan(&shuffle).is_ok());
        }
    }
}

#[test]
fn the_lightest_edge_is_none_too_light() {
    // k4: one edge, and 0 beside it.
    let plan = tables_of(2, &[(0, 1, 5)]).plan(&[0, 1]).expect("a plan");
    assert_eq!((plan.choices(), plan.weights()), (&[1][..], &[0][..]));
    assert_eq!((plan.cycles(), plan.recipients()), (0, &[2, 2][..]));

    // A floor above it is another matter.
    let tables = tables_of(2, &both_ways(0, 1, 1));
    for (floor, cycles) in [(0, 1), (1, 1), (2, 0), (5, 0), (MOST_FLOOR, 0)] {
        let plan = tables.plan_above(floor, &[0, 1]).expect("a plan");
        assert_eq!((plan.cycles(), plan.weights()), (cycles, &[2][..]));
    }

    // Where there is no edge a weight plays no part.
    let edges = [(0, 1, 3), (1, 2, 1), (2, 0, 2), (2, 1, 1)];
    let due = tables_of(3, &edges).plan(&[2, 0, 1]).expect("a plan");
    assert_eq!((due.weight(), due.cycles()), (6, 1));
    for weight in [1, 7, u16::MAX] {
        let tables = tables_of(3, &edges);
        let (m, mut w) = (tables.compatibilities().to_vec(), tables.weights().to_vec());
        for (entry, weigh) in m.iter().zip(&mut w) {
            *weigh = if *entry == 0 { weight } else { *weigh };
        }
        let tables = Tables::new(tables.ids().to_vec(), m, w).expect("tables for three");
        assert_eq!(tables.plan(&[2, 0, 1]).as_ref(), Ok(&due));
    }
}

/// The tables with these weights of the pairs' own.
fn with_own(tables: &Tables, own: impl Fn(usize) -> u16) -> Tables {
    let n = tables.pairs();
    let (m, mut w) = (tables.compatibilities().to_vec(), tables.weights().to_vec());
    for i in 0..n {
        w[i * n + i] = own(i);
    }
    Tables::new(tables.ids().to_vec(), m, w).expect("n rows of n")
}

#[test]
fn a_pairs_own_weight_plays_no_part() {
    let one = Tables::new(vec![7], vec![0], vec![0]).expect("tables for one");
    let own_edge = Tables::new(vec![7, 8], vec![0, 1, 1, 1], vec![0, 5, 7, 0]);
    let own_edge = own_edge.expect("tables for two");
    let light = [&both_ways(0, 2, 5)[..], &[(1, 2, 0)]].concat();
    let pools = [
        (&one, None),
        (&k3(), None),
        (&tables_of(2, &[(0, 1, 5)]), None),
        (&tables_of(5, &all_edges(5, 3)), None),
        (&k5(), Some(Refusal::WeightlessEdge)),
        (&tables_of(3, &light), Some(Refusal::WeightlessEdge)),
        (&own_edge, Some(Refusal::NotCompatibility)),
    ];
    let own: [fn(usize) -> u16; 6] = [
        |_| 0,
        |_| 1,
        |_| 7,
        |_| u16::MAX,
        |i| i as u16,
        |i| u16::from(i == 0),
    ];
    for (tables, why) in pools {
        let shuffle = backward(tables.pairs());
        // The second is too short.
        for shuffle in [&shuffle[..], &shuffle[1..]] {
            for floor in [0, 9, 12, MOST_FLOOR, MOST_FLOOR + 1] {
                let due = tables.plan_above(floor, shuffle);
                let told = due.as_ref().err().map(|refused| refused.why);
                let first = match floor {
                    0..=MOST_FLOOR if shuffle.len() == tables.pairs() => why,
                    0..=MOST_FLOOR => Some(Refusal::TooShort),
                    _ => Some(Refusal::FloorTooHigh),
                };
                assert_eq!(told, first);
                for own in own {
                    assert_eq!(with_own(tables, own).plan_above(floor, shuffle), due);
                }
            }
        }
    }
    assert_eq!(k3().plan(&[0, 1]).expect("a plan").weight(), 12);
}

#[test]
fn built_tables_have_no_weightless_edge() {
    // The lightest points: any two of these pairs suit each other, at 1.
    let least = [1, 0, 0, 0, 0, 0];
    let forty = with_points(&pool(40), least).expect("a sound pool");
    assert_eq!(forty.tables(), tables_of(40, &all_edges(40, 1)));
    let plan = forty.plan();
    assert_eq!((plan.cycles(), plan.weight(), plan.credit()), (13, 39, 117));
    assert_eq!(forty.tables().plan(forty.shuffle()), Ok(plan));

    for points in [
        least,
        [1, 65_534, 0, 0, 0, 0],
        [1, 0, 65_534, 0, 0, 0],
        [1, 0, 0, 65_534, 0, 0],
        [1, 0, 0, 0, 65_534, 0],
        [1, 0, 0, 0, 0, 65_534],
        [65_535, 0, 0, 0, 0, 0],
        DOCUMENT,
    ] {
        for n in [0, 1, 2, 7, 30] {
            let pairs: Vec<Pair> = (0..n).map(varied).collect();
            let shuffle = backward(pairs.len());
            let pool = Pool::with_points(points.into(), &pairs, &shuffle).expect("a pool");
            let tables = pool.tables();
            let mut edges = tables.compatibilities().iter().zip(tables.weights());
            assert!(edges.all(|(&m, &w)| m == 0 || w >= points[0]));
            let plan = tables.plan(&shuffle);
            assert_eq!(plan.as_ref(), Ok(&pool.plan()));
            assert_eq!(live(points, &pairs).plan(&shuffle), plan);
        }
    }
}

/// What the bare call of planning is given, and lent: each table with an entry
/// more than is lent.
#[derive(Clone, Debug, PartialEq)]
struct BarePlan {
    n: usize,
    floor: u32,
    m: Vec<u8>,
    w: Vec<u16>,
    shuffle: Vec<u16>,
    weights: Vec<u32>,
    choices: Vec<u32>,
    donors: Vec<u16>,
    recipients: Vec<u16>,
    records: Vec<Cycle>,
}

impl BarePlan {
    /// These tables, with floor 0, and tables that just hold the plan, filled
    /// with 99.
    fn new(tables: &Tables, shuffle: &[u16]) -> BarePlan {
        let n = tables.pairs();
        let cycle = Cycle {
            first: 99,
            second: 99,
            third: 99,
        };
        BarePlan {
            n,
            floor: 0,
            m: [tables.compatibilities(), &[99]].concat(),
            w: [tables.weights(), &[99]].concat(),
            shuffle: [shuffle, &[99]].concat(),
            weights: vec![99; (n * n * n - n) / 6 + 1],
            choices: vec![99; n / 2 + 1],
            donors: vec![99; n + 1],
            recipients: vec![99; n + 1],
            records: vec![cycle; n / 2 + 1],
        }
    }

    fn plan(&mut self) -> raw::PlanAnswer {
        raw::plan(
            self.n,
            self.floor,
            lent(&mut self.m),
            lent(&mut self.w),
            lent(&mut self.shuffle),
            raw::Planned {
                weights: lent(&mut self.weights),
                choices: lent(&mut self.choices),
                donors: lent(&mut self.donors),
                recipients: lent(&mut self.recipients),
                records: lent(&mut self.records),
            },
        )
    }

    /// Is it refused by that number, with everything as it was?
    fn assert_refused(&mut self, refusal: u32) {
        let due = self.clone();
        let refused = raw::PlanAnswer {
            refusal,
            ..raw::PlanAnswer::default()
        };
        assert_eq!(self.plan(), refused);
        // What is printed of 200 pairs would be too much.
        assert!(*self == due, "{refusal} leaves something changed");
    }
}

/// All entries but the last.
fn lent<T>(table: &mut [T]) -> &mut [T] {
    let last = table.len() - 1;
    &mut table[..last]
}

/// One entry less is lent.
fn shorten<T>(table: &mut Vec<T>) {
    table.pop();
}

/// A refusal's number, and what makes it due.
type Fault = (u32, fn(&mut BarePlan));

#[test]
fn a_weightless_edge_is_told_after_all_else() {
    let faults: [Fault; 17] = [
        (4, |lent| lent.n = MOST_PAIRS + 1),
        (13, |lent| lent.floor = MOST_FLOOR + 1),
        (13, |lent| lent.floor = u32::MAX),
        (9, |lent| shorten(&mut lent.m)),
        (9, |lent| shorten(&mut lent.w)),
        (9, |lent| shorten(&mut lent.shuffle)),
        (9, |lent| shorten(&mut lent.weights)),
        (9, |lent| shorten(&mut lent.choices)),
        (9, |lent| shorten(&mut lent.donors)),
        (9, |lent| shorten(&mut lent.recipients)),
        (9, |lent| shorten(&mut lent.records)),
        (8, |lent| lent.shuffle[1] = 0),
        (8, |lent| lent.shuffle[0] = 2),
        (10, |lent| lent.m[1] = 2),
        (10, |lent| lent.m[2] = u8::MAX),
        (10, |lent| lent.m[0] = 1),
        (10, |lent| lent.m[3] = 1),
    ];
    let one_way = [(0, 1, 0), (1, 0, 7)];
    let other_way = [(0, 1, 5), (1, 0, 0)];
    let weightless = [k5(), tables_of(2, &one_way), tables_of(2, &other_way)];
    for tables in &weightless {
        BarePlan::new(tables, &[0, 1]).assert_refused(17);
        BarePlan::new(tables, &[1, 0]).assert_refused(17);
    }
    for (number, fault) in faults {
        for tables in weightless.iter().chain([&k3()]) {
            let mut lent = BarePlan::new(tables, &[0, 1]);
            fault(&mut lent);
            lent.assert_refused(number);
        }
    }
    // It is the same at every floor that passes.
    for floor in [0, 5, MOST_FLOOR] {
        let mut lent = BarePlan::new(&k5(), &[0, 1]);
        lent.floor = floor;
        lent.assert_refused(17);
    }

    // The first entry, the last and some between, of 200 pairs.
    let mut edges = all_edges(MOST_PAIRS, 1);
    for (from, to) in [(199, 198), (0, 1), (0, 199), (199, 0), (100, 99)] {
        edges.push((from, to, 0));
        let tables = tables_of(MOST_PAIRS, &edges);
        BarePlan::new(&tables, &backward(MOST_PAIRS)).assert_refused(17);
        edges.pop();
    }
}

#[test]
fn past_the_rows_no_edge_is_looked_at() {
    let planned = |lent: &mut BarePlan| {
        let mut due = lent.clone();
        let answer = raw::PlanAnswer {
            refusal: 0,
            cycles: 1,
            weight: 12,
            comparisons: 1,
            products: 6,
            rounds: 1,
        };
        assert_eq!(lent.plan(), answer);
        (due.weights[0], due.choices[0]) = (12, 0);
        due.donors[..2].copy_from_slice(&[1, 0]);
        due.recipients[..2].copy_from_slice(&[1, 0]);
        due.records[0] = Cycle {
            first: 0,
            second: 1,
            third: 2,
        };
        assert_eq!(*lent, due);
    };
    planned(&mut BarePlan::new(&k3(), &[0, 1]));
    // A fifth entry, and a sixth, which would be a weightless edge or none.
    for past in [&[1][..], &[1, 1], &[2], &[0, 1]] {
        let mut lent = BarePlan::new(&k3(), &[0, 1]);
        lent.m.splice(4..4, past.iter().copied());
        lent.w.splice(4..4, past.iter().map(|_| 0));
        planned(&mut lent);
    }
}

#[test]
fn in_a_planned_pool_what_can_be_carried_out_weighs_something() {
    let mut drawn: u32 = 209;
    let mut draw = |end: u32| {
        drawn = drawn.wrapping_mul(1_664_525).wrapping_add(1_013_904_223);
        (drawn >> 16) % end
    };
    let mut answers = [0; 2];
    for i in 0..1_000 {
        let n = 2 + i % 5;
        let mut edges = all_edges(n, 0);
        edges.retain(|_| draw(2) == 0);
        for edge in &mut edges {
            edge.2 = draw(16) as u16;
        }
        let tables = tables_of(n, &edges);
        let shuffle: Vec<u16> = (0..n as u16).collect();
        // So nothing is chosen, and every weight stays as it was evaluated.
        let plan = tables.plan_above(MOST_FLOOR, &shuffle);

        let weightless = edges.iter().any(|&(_, _, weight)| weight == 0);
        answers[usize::from(weightless)] += 1;
        if weightless {
            assert_eq!(plan, Err(refused(Refusal::WeightlessEdge, 0)));
            continue;
        }
        let suits = |from: usize, to: usize| tables.compatibilities()[from * n + to] == 1;
        let around = |u, v, w| suits(u, v) && suits(v, w) && suits(w, u);
        let mut carried: Vec<bool> = Vec::new();
        for u in 0..n {
            for v in u + 1..n {
                carried.extend((v + 1..n).map(|w| around(u, v, w) || around(u, w, v)));
            }
        }
        for u in 0..n {
            carried.extend((u + 1..n).map(|v| suits(u, v) && suits(v, u)));
        }
        let plan = plan.expect("no edge weighs 0");
        assert!(plan.weights().iter().map(|&weight| weight > 0).eq(carried));
    }
    assert!(answers.iter().all(|&often| often > 200), "{answers:?}");
}

#[test]
fn a_plan_is_printed_with_its_own_pairs_ids() {
    let examples = [
        (
            &include_bytes!("../../examples/two.sheet")[..],
            include_str!("../../examples/two.plan"),
        ),
        (
            include_bytes!("../../examples/eight.sheet"),
            include_str!("../../examples/eight.plan"),
        ),
        (
            include_bytes!("../../examples/eight_by_age.sheet"),
            include_str!("../../examples/eight_by_age.plan"),
        ),
    ];
    for (sheet, printed) in examples {
        let pool = Pool::read(sheet).expect("a sound sheet");
        let plan = pool.plan();
        assert_eq!(plan.ids(), pool.ids());
        assert_eq!(plan.print(), printed);
        assert_eq!(plan.to_string(), printed);
        // A pool's tables have its ids too.
        assert_eq!(pool.tables().plan(pool.shuffle()), Ok(plan));
    }

    assert_eq!(pool(0).plan().print(), "PLAN 0 0 0\nCOUNTS 0 0 0\n");
    // Lines of ids as long as can be.
    let pairs: Vec<Pair> = (0..60).map(|i| pair(u32::MAX - i)).collect();
    let shuffle: Vec<u16> = (0..60).collect();
    let pool = Pool::new(&pairs, &shuffle).expect("a sound pool");
    let printed = pool.plan().print();
    let lines: Vec<&str> = printed.lines().collect();
    assert_eq!(lines.len(), 62);
    for (line, pair) in lines[1..61].iter().zip(&pairs) {
        assert!(line.starts_with(&format!("{} ", pair.id)));
        assert_eq!(line.len(), 32);
    }
}

#[test]
fn every_refusal_has_its_number_and_says_what_to_do() {
    assert_eq!(Refusal::ALL.len(), 17);
    for (&why, number) in Refusal::ALL.iter().zip(1..) {
        assert_eq!(why.number(), number);
        assert_eq!(Refusal::try_from(number), Ok(why));
        let refused = refused(why, 42);
        assert_eq!(refused.print(), format!("REFUSED {number} 42\n"));
        let told = refused.to_string();
        assert!(told.starts_with(&format!("refusal {number}: ")));
        assert!(told.contains("; "), "{told}");
    }
    let longest = refused(Refusal::WeightlessEdge, usize::MAX);
    assert_eq!(longest.print(), format!("REFUSED 17 {}\n", usize::MAX));
}

#[test]
fn a_number_of_no_refusal_is_said_to_be_unknown() {
    // 0 is a call that finished; later requests go up to 22.
    for number in (18..=22).chain([0, 23, 256 + 1, u32::MAX]) {
        let unknown = Refusal::try_from(number).expect_err("no refusal");
        assert_eq!(unknown, UnknownRefusal(number));
        assert!(unknown.to_string().starts_with(&format!("{number} is ")));
    }
}
