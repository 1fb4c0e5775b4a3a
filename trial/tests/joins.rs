//! Two sheets made into one, as requests W-201 and W-205 have it: the joined
//! sheet byte by byte, and what is refused in its order.

use reference::random::{
    damaged, plain_pool, points, pools_apart, trials, PoolKind, Random, EXTREME_POINTS,
};
use reference::sheet::{length, offset_of_pair, offset_of_shuffle, EXAMPLE, LONGEST, START};
use reference::{join, read, write_pool, Points, Pool, Reason, Refusal};

/// The sheet of a pool.
fn sheet(pool: &Pool) -> Vec<u8> {
    write_pool(pool, LONGEST).expect("a sound pool")
}

/// A pool of `n` pairs with ids from `id` on, of version 1.
fn pool_from(id: u32, n: usize) -> Pool {
    let mut pool = plain_pool(&mut Random::new(id.into()), n, PoolKind::Any);
    pool.ids = (id..).take(n).collect();
    pool
}

/// Its sheet.
fn sheet_from(id: u32, n: usize) -> Vec<u8> {
    sheet(&pool_from(id, n))
}

/// Its sheet in version 2, with these points.
fn sheet_with(points: Points, id: u32, n: usize) -> Vec<u8> {
    sheet(&pool_from(id, n).with_points(points))
}

/// A sheet's shuffle.
fn shuffle(sheet: &[u8]) -> Vec<u16> {
    read(sheet).expect("a sound sheet").shuffle
}

/// The sheet of no pairs.
const NONE: [u8; 10] = [1, 0, 4, 0, 1, 0, 0, 3, 0, 0];

/// An addendum of one pair, with id 13.
fn addendum() -> Vec<u8> {
    let mut one = vec![1, 0, 4, 0, 1, 0, 1, 2, 0, 32, 0, 0, 0, 13, 1, 2, 0, 0];
    one.resize(offset_of_shuffle(1, 1), 0);
    one.extend([3, 0, 2, 0, 0]);
    one
}

fn refused(first: &[u8], second: &[u8], room: usize) -> Refusal {
    join(first, second, room).expect_err("sheets that are not joined")
}

#[test]
fn an_addendum_of_one_pair() {
    let (first, second) = (EXAMPLE, addendum());
    assert_eq!((first.len(), second.len()), (84, 47));
    let joined = join(&first, &second, LONGEST).unwrap();
    assert_eq!(joined.len(), 121);
    assert_eq!(joined[..7], [1, 0, 4, 0, 1, 0, 3]);
    assert_eq!(joined[7..77], first[7..77]);
    assert_eq!(joined[77..112], second[7..42]);
    assert_eq!(joined[112..], [3, 0, 6, 0, 0, 0, 1, 0, 2]);

    // The other way round the addendum's pair comes first.
    let turned = read(&join(&second, &first, LONGEST).unwrap()).unwrap();
    assert_eq!(turned.ids, [13, 11, 12]);
    assert_eq!(turned.shuffle, [0, 1, 2]);
}

#[test]
fn an_addendum_of_two_pairs_that_change_places() {
    let mut second = sheet_from(13, 2);
    let numbers = offset_of_shuffle(1, 2) + START;
    second[numbers..].copy_from_slice(&[0, 1, 0, 0]);
    let joined = join(&EXAMPLE, &second, LONGEST).unwrap();
    assert_eq!(joined.len(), 158);
    let pairs = offset_of_pair(1, 2)..offset_of_pair(1, 4);
    assert_eq!(joined[pairs], second[7..77]);
    assert_eq!(shuffle(&joined), [0, 1, 3, 2]);
}

#[test]
fn a_sheet_of_no_pairs_gives_the_other() {
    for n in [0, 1, 2, 200] {
        let sheet = sheet_from(7, n);
        let room = length(1, n);
        assert_eq!(join(&sheet, &NONE, room).as_ref(), Ok(&sheet));
        assert_eq!(join(&NONE, &sheet, room).as_ref(), Ok(&sheet));
    }
    assert_eq!(join(&NONE, &NONE, 10).unwrap(), NONE);
    assert_eq!(refused(&NONE, &NONE, 9), Reason::TooShort.at(0));
}

#[test]
fn two_hundred_pairs_together_and_no_more() {
    let first = sheet_from(0, 100);
    let joined = join(&first, &sheet_from(100, 100), LONGEST).unwrap();
    assert_eq!(joined.len(), 7_410);
    assert_eq!(read(&joined).unwrap().ids, Vec::from_iter(0..200));

    let many = Reason::TooManyTogether.at(0);
    let shared = Reason::SharedId.at(0);
    for room in [0, LONGEST, usize::MAX] {
        assert_eq!(refused(&first, &sheet_from(100, 101), room), many);
        assert_eq!(refused(&first, &sheet_from(99, 101), room), shared);
        assert_eq!(refused(&first, &first, room), shared);
    }
    // 200 pairs are those of one sheet as well.
    assert_eq!(refused(&sheet_from(0, 200), &addendum(), 0), shared);
    assert_eq!(refused(&sheet_from(14, 200), &addendum(), 0), many);
}

#[test]
fn an_id_in_both_wherever_it_is() {
    let first = sheet_from(0, 5);
    for i in 0..5 {
        for j in 0..4 {
            let mut second = sheet_from(10, 4);
            second[offset_of_pair(1, j) + START + 3] = i;
            let shared = Reason::SharedId.at(0);
            assert_eq!(refused(&first, &second, LONGEST), shared);
            assert_eq!(refused(&second, &first, 0), shared);
        }
    }
}

#[test]
fn a_buffer_just_long_enough_and_one_byte_short() {
    let second = addendum();
    assert!(join(&EXAMPLE, &second, 121).is_ok());
    for short in [0, 84, 120] {
        let too_short = Reason::TooShort.at(0);
        assert_eq!(refused(&EXAMPLE, &second, short), too_short);
    }
}

#[test]
fn the_first_sheet_is_read_before_the_second() {
    let mut longer = EXAMPLE.to_vec();
    longer.push(0);
    let left_over = Reason::LeftOver.at(84);
    assert_eq!(refused(&longer, &[], 0), left_over);
    assert_eq!(refused(&[], &longer, 0), Reason::CutOff.at(0));
    // Its last fault comes before the second's first, and all of a sheet's
    // own before what is wrong with the two together.
    assert_eq!(refused(&NONE, &longer, 0), left_over);
    assert_eq!(refused(&EXAMPLE, &longer, 0), left_over);
    assert_eq!(refused(&sheet_from(0, 200), &longer, 0), left_over);
    let mut second = EXAMPLE;
    second[offset_of_shuffle(1, 2) + START + 1] = 1;
    let shuffle = Reason::Shuffle.at(offset_of_shuffle(1, 2));
    assert_eq!(refused(&EXAMPLE, &second, 0), shuffle);
}

/// A sheet's number of pairs and its fields: the points' of version 2, those of
/// the pairs in a row, and the shuffle's numbers.
fn parts(sheet: &[u8]) -> (usize, &[u8], &[u8], &[u8]) {
    let n = usize::from(sheet[6]);
    let (points, rest) = sheet[7..].split_at(if sheet[4] == 2 { 15 } else { 0 });
    let (pairs, last) = rest.split_at(35 * n);
    (n, points, pairs, &last[3..])
}

/// The joined sheet, put together from the bytes of the two.
fn put_together(first: &[u8], second: &[u8]) -> Vec<u8> {
    let (m, points, first_pairs, first_shuffle) = parts(first);
    let (n, _, second_pairs, second_shuffle) = parts(second);
    let mut sheet = vec![1, 0, 4, 0, first[4], 0, (m + n) as u8];
    sheet.extend(points);
    sheet.extend(first_pairs);
    sheet.extend(second_pairs);
    sheet.push(3);
    sheet.extend((2 * (m + n) as u16).to_be_bytes());
    sheet.extend(first_shuffle);
    for two in second_shuffle.chunks(2) {
        // Numbers below 200 have a high byte of 0.
        sheet.extend([0, two[1] + m as u8]);
    }
    sheet
}

#[test]
fn a_joined_sheet_is_put_together_from_the_bytes_of_both() {
    trials("joined sheets", 400_000, 2_000, |random| {
        let m = random.between(0, 200);
        let n = random.between(0, 200 - m);
        let [first, second] = pools_apart(random, [m, n], PoolKind::Any);
        let version = first.version;
        let (first, second) = (sheet(&first), sheet(&second));
        let joined = join(&first, &second, length(version, m + n)).unwrap();
        let fewer = if version == 2 { 25 } else { 10 };
        assert_eq!(joined.len(), first.len() + second.len() - fewer);
        assert_eq!(joined, put_together(&first, &second));
        assert_eq!(read(&joined).map(|pool| sheet(&pool)), Ok(joined));
    });
}

#[test]
fn regrouped_sheets_are_joined_alike() {
    trials("regrouped sheets", 500_000, 1_000, |random| {
        let sizes = [(); 3].map(|()| random.between(0, 66));
        let [a, b, c] = pools_apart(random, sizes, PoolKind::Any).map(|pool| sheet(&pool));
        let joined = |first: &[u8], second: &[u8]| join(first, second, LONGEST).unwrap();
        assert_eq!(joined(&joined(&a, &b), &c), joined(&a, &joined(&b, &c)));
    });
    // Which refusal is told may differ.
    let (a, b, c) = (sheet_from(0, 120), sheet_from(200, 90), sheet_from(289, 1));
    assert_eq!(refused(&a, &b, LONGEST), Reason::TooManyTogether.at(0));
    assert_eq!(refused(&b, &c, LONGEST), Reason::SharedId.at(0));
}

#[test]
fn a_damaged_sheet_is_refused_as_in_reading() {
    trials("damaged addenda", 600_000, 5_000, |random| {
        let pools = pools_apart(random, [3, 2], PoolKind::Any);
        let [first, second] = pools.each_ref().map(sheet);
        let hurt_first = damaged(random, &pools[0], &first);
        let hurt_second = damaged(random, &pools[1], &second);
        let room = random.between(0, length(2, 5));
        if let Err(own) = read(&hurt_first) {
            assert_eq!(refused(&hurt_first, &second, room), own);
            assert_eq!(refused(&hurt_first, &hurt_second, room), own);
        }
        if let Err(own) = read(&hurt_second) {
            assert_eq!(refused(&first, &hurt_second, room), own);
        }
    });
}

// ---- Versions and points

#[test]
fn sheets_of_version_2_with_the_same_points() {
    let points = Points::of(&[2_000, 9, 8, 7, 6, 5]);
    let (first, second) = (sheet_with(points, 11, 1), sheet_with(points, 13, 1));
    assert_eq!((first.len(), second.len()), (62, 62));
    let joined = join(&first, &second, 99).unwrap();
    assert_eq!(joined.len(), 99);
    assert_eq!(joined[..7], [1, 0, 4, 0, 2, 0, 2]);
    assert_eq!(joined[7..22], first[7..22]);
    assert_eq!(joined[22..57], first[22..57]);
    assert_eq!(joined[57..92], second[22..57]);
    assert_eq!(joined[92..], [3, 0, 4, 0, 0, 0, 1]);
    assert_eq!(refused(&first, &second, 98), Reason::TooShort.at(0));
    let pool = read(&joined).unwrap();
    assert_eq!((pool.version, Points::of(&pool.points)), (2, points));

    // None on either side, with the same points, gives the other.
    let none = sheet_with(points, 0, 0);
    assert_eq!(join(&first, &none, 62).as_ref(), Ok(&first));
    assert_eq!(join(&none, &first, 62).as_ref(), Ok(&first));
    assert_eq!(join(&none, &none, 25).as_ref(), Ok(&none));

    let whole = join(
        &sheet_with(points, 0, 100),
        &sheet_with(points, 100, 100),
        LONGEST,
    );
    assert_eq!(whole.map(|whole| whole.len()), Ok(7_425));
}

#[test]
fn fifteen_where_versions_or_points_differ() {
    let different = Reason::DifferentPoints.at(0);
    // Version 1 beside version 2 with document 01's points, with no pairs too.
    for (m, n) in [(0, 0), (0, 2), (2, 0), (2, 2)] {
        let (one, two) = (sheet_from(0, m), sheet_with(Points::DOCUMENT, 7, n));
        assert_eq!(refused(&one, &two, LONGEST), different);
        assert_eq!(refused(&two, &one, LONGEST), different);
    }
    // Each of the six points by itself.
    for point in 0..6 {
        for (m, n) in [(0, 0), (0, 1), (1, 0), (3, 2)] {
            let mut other = Points::DOCUMENT.table();
            other[point] += 1;
            let first = sheet_with(Points::DOCUMENT, 0, m);
            let second = sheet_with(Points::of(&other), 7, n);
            assert_eq!(refused(&first, &second, LONGEST), different, "{point}");
            assert_eq!(refused(&second, &first, LONGEST), different, "{point}");
        }
    }
}

#[test]
fn fifteen_comes_after_both_sheets_and_before_the_rest() {
    let different = Reason::DifferentPoints.at(0);
    let [low, high] = [Points::DOCUMENT, Points::of(&EXTREME_POINTS[1])];
    // Before an id in both, too many together and a buffer too short.
    for room in [0, LONGEST] {
        assert_eq!(
            refused(&sheet_with(low, 0, 150), &sheet_with(high, 0, 150), room),
            different
        );
        assert_eq!(
            refused(&sheet_from(0, 200), &sheet_with(low, 0, 200), room),
            different
        );
    }
    // After either sheet's own, 14 among them.
    let mut wrong = sheet_with(low, 0, 2);
    wrong[10..12].fill(0);
    assert_eq!(refused(&wrong, &[], 0), Reason::WrongPoints.at(7));
    let other = sheet_with(high, 7, 2);
    assert_eq!(refused(&other, &wrong, 0), Reason::WrongPoints.at(7));
    assert_eq!(refused(&other[..98], &wrong, 0), Reason::CutOff.at(92));
    let mut longer = sheet_from(7, 2);
    longer.push(0);
    assert_eq!(refused(&longer, &wrong, 0), Reason::LeftOver.at(84));
    assert_eq!(refused(&other, &longer, 0), Reason::LeftOver.at(84));
}

#[test]
fn random_sheets_of_other_points_are_not_joined() {
    let mut joined = 0;
    trials("other points", 700_000, 2_000, |random| {
        let [first, second] = pools_apart(random, [2, 3], PoolKind::Any);
        let other = second.clone().with_points(points(random));
        let alike = (first.version, &first.points) == (other.version, &other.points);
        let answer = join(&sheet(&first), &sheet(&other), LONGEST);
        let different = Reason::DifferentPoints.at(0);
        assert_eq!(answer.err(), (!alike).then_some(different));
        joined += u32::from(alike);
    });
    assert!(joined > 10, "only {joined} had the same points");
}
