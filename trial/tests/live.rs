//! A pool that lives between matches, as requests W-206 and W-207 have it: what
//! each call leaves, what is refused in its order, and what a list of calls
//! holds.

use reference::live::{after, held, pool_of, register, start, suitable, withdraw};
use reference::planner::check;
use reference::random::{plain_pool, points, trials, wrong_points, PoolKind, Random};
use reference::sheet::LONGEST;
use reference::{build, build_pool, read, write_pool, Call, Live, Pair, Points, Reason, Room};
use std::collections::BTreeSet;

/// The pairs of document 01's sheet, and a third: O to O, with a senior donor
/// who has three antigens.
const ELEVEN: Pair = Pair {
    id: 11,
    donor_blood: 1,
    patient_blood: 2,
    ..NOUGHT
};
const TWELVE: Pair = Pair {
    id: 12,
    donor_blood: 2,
    patient_blood: 1,
    ..NOUGHT
};
const THIRTEEN: Pair = Pair {
    id: 13,
    donor_age: 1,
    donor_antigens: 7,
    ..NOUGHT
};
const NOUGHT: Pair = Pair {
    id: 0,
    donor_blood: 0,
    patient_blood: 0,
    donor_age: 0,
    patient_age: 0,
    donor_antigens: 0,
    patient_antigens: 0,
    patient_antibodies: 0,
};

/// A pool that was started with document 01's points in tables of zeros.
fn started(room: usize) -> Live {
    start(&Live::zeros(room), Points::DOCUMENT).expect("points that pass")
}

/// A pool in which these registered.
fn holding(room: usize, pairs: &[Pair]) -> Live {
    let calls: Vec<Call> = pairs.iter().map(|&pair| Call::Register(pair)).collect();
    let (live, answers) = after(started(room), &calls);
    assert!(answers.iter().all(Result::is_ok), "{answers:?}");
    live
}

/// A pool of `n` pairs of any kind, with ids from 0 on.
fn pool_with(room: usize, n: usize) -> Live {
    holding(room, &pairs_of(n))
}

fn pairs_of(n: usize) -> Vec<Pair> {
    let pool = plain_pool(&mut Random::new(n as u64), n, PoolKind::Dense);
    let pair = |i: usize| Pair {
        id: i as u32,
        ..Pair::of(&pool, i)
    };
    (0..n).map(pair).collect()
}

/// The run's three pairs with M and the numbers put in by hand: entries above 1,
/// and ones on the diagonal.
fn by_hand() -> Live {
    let mut live = holding(4, &[ELEVEN, TWELVE, THIRTEEN]);
    live.m[..9].copy_from_slice(&[0, 1, 5, 1, 1, 2, 0, 1, 1]);
    live.suitable[..3].copy_from_slice(&[1, 3, 1]);
    live
}

/// The ids that the count reaches.
fn ids(live: &Live) -> &[u32] {
    &live.ids[..live.count]
}

/// The numbers that the count reaches.
fn numbers(live: &Live) -> &[u16] {
    &live.suitable[..live.count]
}

/// Puts an entry, if the table reaches so far.
fn put<T>(table: &mut [T], at: usize, entry: T) {
    if let Some(old) = table.get_mut(at) {
        *old = entry;
    }
}

// ---- A run

#[test]
fn three_register_and_the_second_withdraws() {
    let one = register(&started(8), ELEVEN).unwrap();
    assert_eq!((one.count, ids(&one)), (1, &[11][..]));
    assert_eq!((one.m[0], one.w[0], one.suitable[0]), (0, 0, 0));
    let two = register(&one, TWELVE).unwrap();
    assert_eq!(two.m[..4], [0, 1, 1, 0]);
    assert_eq!(two.suitable, [1, 1, 0, 0, 0, 0, 0, 0]);
    assert_eq!(two.w[..4], [0, 1_450, 1_450, 0]);
    let three = register(&two, THIRTEEN).unwrap();
    assert_eq!((three.count, ids(&three)), (3, &[11, 12, 13][..]));
    let m = [0, 1, 0, 1, 0, 0, 1, 1, 0];
    assert_eq!(three.m[..9], m);
    let w = [0, 1_450, 1_450, 1_450, 0, 1_450, 1_100, 1_100, 0];
    assert_eq!(three.w[..9], w);
    assert_eq!(numbers(&three), [2, 2, 0]);

    let left = withdraw(&three, 12).unwrap();
    assert_eq!((left.count, ids(&left)), (2, &[11, 13][..]));
    assert_eq!(left.m[..4], [0, 0, 1, 0]);
    assert_eq!(left.w[..4], [0, 1_450, 1_100, 0]);
    assert_eq!(numbers(&left), [1, 0]);
    // Past them stand the old entries, and past those the zeros.
    assert_eq!(left.ids[2..], [13, 0, 0, 0, 0, 0]);
    assert_eq!(left.suitable[2..], [0; 6]);
    assert_eq!(left.donor_antigens[..4], [0, 7, 7, 0]);
    assert_eq!((&left.m[4..9], &left.w[4..9]), (&m[4..], &w[4..]));
    assert!(left.m[9..].iter().all(|&entry| entry == 0));

    assert_eq!(withdraw(&left, 12), Err(Reason::UnknownId));
    let again = register(&left, TWELVE).unwrap();
    assert_eq!(ids(&again), [11, 13, 12]);
    assert_eq!(numbers(&again), [2, 0, 2]);
    let none = [11, 13, 12].into_iter().fold(again, |live, id| {
        withdraw(&live, id).expect("an id that is held")
    });
    assert_eq!(none.count, 0);
    // The last number of each of the three is left where it stood.
    assert_eq!(none.suitable[..3], [0, 1, 2]);
    assert_eq!(withdraw(&none, 12), Err(Reason::UnknownId));
}

#[test]
fn tables_put_in_by_hand_are_counted_as_they_stand() {
    let live = by_hand();
    let left = withdraw(&live, 12).unwrap();
    assert_eq!(left.m[..4], [0, 5, 0, 1]);
    assert_eq!(left.suitable, [0, 1, 1, 0]);
    let left = withdraw(&live, 11).unwrap();
    assert_eq!(left.m[..4], [1, 2, 1, 1]);
    assert_eq!(left.suitable, [2, 1, 1, 0]);
    let left = withdraw(&live, 13).unwrap();
    assert_eq!(left.m[..4], [0, 1, 1, 1]);
    assert_eq!(left.suitable, [1, 2, 1, 0]);

    // Registering builds anew, and counts in what it built.
    let universal = Pair {
        id: 14,
        patient_blood: 3,
        ..NOUGHT
    };
    let left = register(&live, universal).unwrap();
    assert_eq!(left, holding(4, &[ELEVEN, TWELVE, THIRTEEN, universal]));
    assert_eq!(left.suitable, [3, 3, 1, 3]);
}

#[test]
fn the_registry_weighs_and_not_the_document() {
    let points = Points::of(&[500, 3_000, 1_000, 200, 7, 90]);
    let mut live = start(&Live::zeros(3), points).unwrap();
    for pair in [ELEVEN, TWELVE, THIRTEEN] {
        live = register(&live, pair).unwrap();
    }
    let w = [0, 3_507, 3_507, 3_507, 0, 3_507, 700, 700, 0];
    assert_eq!(live.w, w);
}

// ---- Starting

#[test]
fn starting_stores_six_points_and_sets_the_count() {
    for count in [0, 3, 200, 201, usize::MAX] {
        let mut before = pool_with(4, 3);
        before.count = count;
        before.points = vec![0, 65_535, 1, 2, 3, 4, 77, 78];
        let after = start(&before, Points::DOCUMENT).unwrap();
        let due = Live {
            count: 0,
            points: vec![1_000, 400, 250, 100, 50, 30, 77, 78],
            ..before
        };
        assert_eq!(after, due);
    }
    // No other table is looked at.
    let bare = Live {
        points: vec![0; 6],
        ..Live::default()
    };
    let bare = start(&bare, Points::DOCUMENT).unwrap();
    assert_eq!(bare.points, Points::DOCUMENT.table());
    assert_eq!(register(&bare, ELEVEN), Err(Reason::TooShort));
    assert_eq!(withdraw(&bare, 11), Err(Reason::UnknownId));
}

#[test]
fn starting_refuses_14_and_then_9() {
    let six = Live::zeros(0);
    let five = Live {
        points: vec![0; 5],
        ..Live::default()
    };
    let reason = |live: &Live, points: [u16; 6]| start(live, Points::of(&points)).err();
    for wrong in [
        [0, 400, 250, 100, 50, 30],
        [65_535, 1, 0, 0, 0, 0],
        [65_534, 0, 0, 1, 0, 1],
        [65_535; 6],
    ] {
        for live in [&six, &five, &Live::default()] {
            assert_eq!(reason(live, wrong), Some(Reason::WrongPoints), "{wrong:?}");
        }
    }
    for last in [
        [65_535, 0, 0, 0, 0, 0],
        [65_534, 0, 0, 1, 0, 0],
        [1, 0, 0, 0, 0, 0],
    ] {
        assert_eq!(reason(&six, last), None, "{last:?}");
        assert_eq!(reason(&five, last), Some(Reason::TooShort), "{last:?}");
    }
}

// ---- Registering and withdrawing refuse each fault, the earliest first

/// A pool, and a pair to be registered there.
#[derive(Clone)]
struct Asked {
    live: Live,
    pair: Pair,
}

/// A fault: the number by which registering refuses it, where that number
/// stands in the order, and the fault itself.
struct Fault {
    reason: Reason,
    rank: usize,
    apply: Box<dyn Fn(&mut Asked)>,
}

/// What registering refuses, in order; 9 is there for what there is, and again
/// for one more.
const ORDER: [Reason; 8] = [
    Reason::TooManyPairs,
    Reason::TooShort,
    Reason::WrongPoints,
    Reason::Entry,
    Reason::Group,
    Reason::RepeatedId,
    Reason::TooManyTogether,
    Reason::TooShort,
];

/// How many of them withdrawing refuses too.
const SHARED: usize = 4;

/// Where 12 and the last 9 stand.
const FULL: usize = 6;
const NO_ROOM: usize = 7;

/// Faults of a pool of `n` pairs, more than one, in tables for one more.
fn faults(n: usize) -> Vec<Fault> {
    let mut all = Vec::new();
    let mut add = |rank: usize, apply: Box<dyn Fn(&mut Asked)>| {
        let reason = ORDER[rank];
        all.push(Fault {
            reason,
            rank,
            apply,
        })
    };
    for many in [201, 1 << 16, 1 << 32, 1 << 63, usize::MAX] {
        add(0, Box::new(move |asked| asked.live.count = many));
    }
    for (rank, most) in [(1, n - 1), (NO_ROOM, n)] {
        for cut in CUTS {
            add(rank, Box::new(move |asked| cut(&mut asked.live, most)));
        }
        let square = (most + 1) * (most + 1) - 1;
        add(rank, Box::new(move |asked| asked.live.m.truncate(square)));
        add(rank, Box::new(move |asked| asked.live.w.truncate(square)));
    }
    add(1, Box::new(|asked| asked.live.points.truncate(5)));
    add(2, Box::new(|asked| put(&mut asked.live.points, 0, 0)));
    add(2, Box::new(|asked| put(&mut asked.live.points, 5, 65_535)));
    for j in [0, n / 2, n - 1] {
        // Numbers that no column has, and in a column one more than counted.
        for number in [201, u16::MAX] {
            add(
                3,
                Box::new(move |asked| put(&mut asked.live.suitable, j, number)),
            );
        }
        add(
            3,
            Box::new(move |asked| put(&mut asked.live.m, j * n + j, 1)),
        );
    }
    for i in [0, n - 1] {
        for spoil in SPOILS {
            add(4, Box::new(move |asked| spoil(&mut asked.live, i)));
        }
        let shared = move |asked: &mut Asked| {
            if let Some(&id) = asked.live.ids.get(i) {
                asked.pair.id = id;
            }
        };
        add(5, Box::new(shared));
    }
    add(4, Box::new(|asked| asked.pair.donor_blood = 4));
    add(4, Box::new(|asked| asked.pair.patient_blood = 255));
    add(4, Box::new(|asked| asked.pair.donor_age = 2));
    add(4, Box::new(|asked| asked.pair.patient_age = 255));
    add(5, Box::new(move |asked| put(&mut asked.live.ids, n - 1, 0)));
    all
}

/// Cuts one of a pool's field tables, or that of its numbers, off at an end.
const CUTS: [fn(&mut Live, usize); 9] = [
    |live, end| live.ids.truncate(end),
    |live, end| live.donor_bloods.truncate(end),
    |live, end| live.patient_bloods.truncate(end),
    |live, end| live.donor_ages.truncate(end),
    |live, end| live.patient_ages.truncate(end),
    |live, end| live.donor_antigens.truncate(end),
    |live, end| live.patient_antigens.truncate(end),
    |live, end| live.patient_antibodies.truncate(end),
    |live, end| live.suitable.truncate(end),
];

/// Spoils a group of a stored pair.
const SPOILS: [fn(&mut Live, usize); 4] = [
    |live, i| put(&mut live.donor_bloods, i, 4),
    |live, i| put(&mut live.patient_bloods, i, 255),
    |live, i| put(&mut live.donor_ages, i, 2),
    |live, i| put(&mut live.patient_ages, i, 255),
];

/// Tries a pool of `n` pairs, in tables for one more, as it is and with any two
/// faults in either order, or twice the same. Of those that are before `end` in
/// the order the earlier one is due; where there is none, `else_due`.
fn any_two(
    n: usize,
    end: usize,
    else_due: Option<Reason>,
    refused: impl Fn(&Asked) -> Option<Reason>,
) {
    let pair = Pair {
        id: 1_000,
        ..TWELVE
    };
    let live = pool_with(n + 1, n);
    let sound = Asked { live, pair };
    assert_eq!(refused(&sound), else_due);
    let faults = faults(n);
    for first in &faults {
        for second in &faults {
            let mut asked = sound.clone();
            (first.apply)(&mut asked);
            (second.apply)(&mut asked);
            let both = [first, second].into_iter();
            let looked_for = both.filter(|fault| fault.rank < end);
            let earlier = looked_for.min_by_key(|fault| fault.rank);
            let due = earlier.map_or(else_due, |fault| Some(fault.reason));
            let (one, other) = (first.rank, second.rank);
            assert_eq!(refused(&asked), due, "{n} pairs, faults {one} and {other}");
        }
    }
}

#[test]
fn registering_refuses_any_two_faults_in_their_order() {
    let refused = |asked: &Asked| register(&asked.live, asked.pair).err();
    for n in [2, 3, 7] {
        any_two(n, ORDER.len(), None, refused);
    }
    any_two(200, FULL, Some(Reason::TooManyTogether), refused);
}

#[test]
fn withdrawing_refuses_any_two_faults_in_their_order() {
    for n in [2, 3, 200] {
        for id in [0, n as u32 - 2] {
            any_two(n, SHARED, None, |asked| withdraw(&asked.live, id).err());
        }
        let unknown = Some(Reason::UnknownId);
        any_two(n, SHARED, unknown, |asked| {
            withdraw(&asked.live, 2_000).err()
        });
    }
}

/// What both calls say of a pool, registering `pair` and withdrawing `id`.
fn both(live: &Live, pair: Pair, id: u32) -> [Option<Reason>; 2] {
    [register(live, pair).err(), withdraw(live, id).err()]
}

#[test]
fn every_number_is_looked_at_and_may_be_neither_higher_nor_lower() {
    let more = Pair { id: 700, ..TWELVE };
    let bad = Pair {
        donor_blood: 4,
        ..more
    };
    let ten = Some(Reason::Entry);
    for sound in [
        by_hand(),
        pool_with(4, 3),
        pool_with(9, 8),
        pool_with(31, 30),
    ] {
        let n = sound.count;
        let held = sound.ids[0];
        assert_eq!(both(&sound, more, held), [None; 2]);
        for (j, by) in (0..n).flat_map(|j| [(j, 1), (j, u16::MAX)]) {
            let mut live = sound.clone();
            live.suitable[j] = live.suitable[j].wrapping_add(by);
            let told = format!("{n} pairs, the number of {j} and {by}");
            assert_eq!(both(&live, more, held), [ten; 2], "{told}");
            // Neither the pairs nor the id nor what one more needs is looked at.
            assert_eq!(both(&live, bad, 5_000), [ten; 2], "{told}");
            assert_eq!(register(&live, live.pairs()[0]).err(), ten, "{told}");
            let mut narrow = live.clone();
            narrow.suitable.truncate(n);
            assert_eq!(both(&narrow, more, held), [ten; 2], "{told}");
            // Lengths and points are looked at first.
            live.points[0] = 0;
            let points = Some(Reason::WrongPoints);
            assert_eq!(both(&live, bad, 5_000), [points; 2], "{told}");
            live.suitable.truncate(n - 1);
            let short = Some(Reason::TooShort);
            assert_eq!(both(&live, bad, 5_000), [short; 2], "{told}");
        }
    }
}

#[test]
fn ten_at_two_hundred_and_not_twelve() {
    let mut full = pool_with(200, 200);
    let more = Pair { id: 200, ..TWELVE };
    for j in [0, 99, 199] {
        full.suitable[j] ^= 1;
        assert_eq!(both(&full, more, 7), [Some(Reason::Entry); 2], "{j}");
        full.suitable[j] ^= 1;
    }
    assert_eq!(both(&full, more, 7), [Some(Reason::TooManyTogether), None]);
}

#[test]
fn a_column_that_the_caller_changed_has_another_number() {
    let sound = pool_with(5, 4);
    let n = sound.count;
    for entry in 0..n * n {
        let (was, j) = (sound.m[entry], entry % n);
        for becomes in [0, 1, 2, 255] {
            let mut live = sound.clone();
            live.m[entry] = becomes;
            let told = format!("entry {entry} becomes {becomes} from {was}");
            let as_counted = (becomes == 1) == (was == 1);
            let due = (!as_counted).then_some(Reason::Entry);
            assert_eq!(both(&live, TWELVE, 0), [due; 2], "{told}");
            // With the number changed alike it passes.
            live.suitable[j] += u16::from(becomes == 1);
            live.suitable[j] -= u16::from(was == 1);
            assert_eq!(both(&live, TWELVE, 0), [None; 2], "{told}");
            assert_eq!(register(&live, TWELVE), register(&sound, TWELVE), "{told}");
        }
    }
}

#[test]
fn ten_asks_nothing_else_of_m() {
    let n = 5;
    for (entry, number) in [(1, n), (2, 0), (255, 0)] {
        let mut live = pool_with(n + 1, n);
        live.m.fill(entry);
        live.suitable.fill(number as u16);
        let left = withdraw(&live, 2).unwrap();
        assert_eq!(numbers(&left), [number.saturating_sub(1) as u16; 4]);
        assert_eq!(left.suitable[4..], live.suitable[4..]);
        let built = register(&live, TWELVE).unwrap();
        assert_eq!(numbers(&built), suitable(&built.pairs()));
    }
}

#[test]
fn six_over_all_pairs_and_only_then_seven() {
    let mut live = pool_with(8, 4);
    live.ids[1] = 0;
    let bad = Pair {
        patient_age: 2,
        ..TWELVE
    };
    assert_eq!(register(&live, TWELVE), Err(Reason::RepeatedId));
    assert_eq!(register(&live, bad), Err(Reason::Group));
    live.donor_bloods[3] = 4;
    assert_eq!(register(&live, TWELVE), Err(Reason::Group));
    // Building goes pair by pair, and comes upon the id first.
    let pool = pool_of(Points::DOCUMENT, &live.pairs());
    assert_eq!(build_pool(&pool), Err(Reason::RepeatedId));
}

#[test]
fn twelve_at_two_hundred_whatever_the_lengths() {
    let full = pool_with(200, 200);
    let more = Pair { id: 200, ..TWELVE };
    assert_eq!(register(&full, more), Err(Reason::TooManyTogether));
    assert_eq!(
        register(&pool_with(203, 200), more),
        Err(Reason::TooManyTogether)
    );
    assert_eq!(register(&full, full.pairs()[77]), Err(Reason::RepeatedId));
    let bad = Pair {
        donor_age: 2,
        ..more
    };
    assert_eq!(register(&full, bad), Err(Reason::Group));
    // One of them is not too many, where there is room.
    let fewer = withdraw(&full, 77).unwrap();
    assert_eq!(fewer.count, 199);
    let again = register(&fewer, more).unwrap();
    assert_eq!(
        (again.count, again.ids[198..].to_vec()),
        (200, vec![199, 200])
    );
    let narrow = pool_with(199, 199);
    assert_eq!(register(&narrow, more), Err(Reason::TooShort));
}

#[test]
fn room_for_the_count_and_not_for_one_more() {
    for n in [0, 1, 2, 5] {
        let live = pool_with(n, n);
        assert_eq!(register(&live, TWELVE), Err(Reason::TooShort), "{n}");
        let wide = pool_with(n + 1, n);
        assert_eq!(register(&wide, THIRTEEN).map(|live| live.count), Ok(n + 1));
        if n > 0 {
            let left = withdraw(&live, 0).unwrap();
            assert_eq!(register(&left, THIRTEEN).map(|live| live.count), Ok(n));
        }
    }
}

// ---- States that no list of calls leaves

#[test]
fn registering_builds_anew_whatever_there_was() {
    let mut live = pool_with(6, 4);
    let due = register(&live, THIRTEEN).unwrap();
    live.m[..25].fill(255);
    live.w[..25].fill(65_535);
    live.suitable[..5].copy_from_slice(&[0, 0, 0, 0, 77]);
    assert_eq!(register(&live, THIRTEEN), Ok(due.clone()));
    // Past them there may be anything, and it stays.
    live.m[25..].fill(77);
    live.w[25..].fill(777);
    live.suitable[5] = 7_777;
    let left = register(&live, THIRTEEN).unwrap();
    assert_eq!((&left.m[..25], &left.w[..25]), (&due.m[..25], &due.w[..25]));
    assert_eq!(numbers(&left), numbers(&due));
    assert_eq!(left.suitable[5], 7_777);
    assert_eq!(
        (&left.m[25..], &left.w[25..]),
        (&live.m[25..], &live.w[25..])
    );
}

#[test]
fn withdrawing_takes_out_what_stands_there() {
    let n = 5;
    for id in 0..5 {
        let mut live = pool_with(6, n);
        live.m = (0..36).map(|entry| 100 + entry).collect();
        live.w = (0..36).map(|entry| 1_000 * entry).collect();
        live.suitable = vec![0, 0, 0, 0, 0, 77];
        let left = withdraw(&live, id).unwrap();
        let up = |i: usize| if i < id as usize { i } else { i + 1 };
        for entry in 0..36 {
            let (i, j) = (entry / (n - 1), entry % (n - 1));
            let from = if i < n - 1 { up(i) * n + up(j) } else { entry };
            assert_eq!(left.m[entry], live.m[from], "M({i}, {j})");
            assert_eq!(left.w[entry], live.w[from], "W({i}, {j})");
        }
        let kept: Vec<u32> = (0..5).filter(|&other| other != id).collect();
        assert_eq!(ids(&left), kept);
        assert_eq!(left.ids[4..], live.ids[4..]);
        assert_eq!(left.suitable, live.suitable);
    }
}

#[test]
fn stale_entries_are_not_looked_at() {
    let live = pool_with(6, 3);
    let mut stale = live.clone();
    stale.ids[3..].copy_from_slice(&[12, 0, 0]);
    stale.donor_bloods[3..].fill(4);
    stale.patient_ages[3..].fill(255);
    stale.m[9..].fill(9);
    stale.suitable[3..].fill(99);
    assert_eq!(withdraw(&stale, 12), Err(Reason::UnknownId));
    let left = register(&stale, TWELVE).unwrap();
    let due = register(&live, TWELVE).unwrap();
    assert_eq!(left.pairs(), due.pairs());
    assert_eq!(left.m[..16], due.m[..16]);
    assert_eq!(numbers(&left), numbers(&due));
    assert_eq!(
        (&left.ids[4..], &left.donor_bloods[4..]),
        (&[0; 2][..], &[4; 2][..])
    );
    assert_eq!(left.m[16..], [9; 20]);
    assert_eq!(left.suitable[4..], [99; 2]);

    // The last entry of each table is as it was when one withdraws.
    let left = withdraw(&due, 0).unwrap();
    assert_eq!(ids(&left), [1, 2, 12]);
    assert_eq!(left.ids[3], 12);
    assert_eq!((left.donor_bloods[3], left.patient_bloods[3]), (2, 1));
    assert_eq!(left.suitable[3..], due.suitable[3..]);
    assert_eq!((&left.m[9..], &left.w[9..]), (&due.m[9..], &due.w[9..]));
}

#[test]
fn of_an_id_that_stands_twice_the_first_goes() {
    let mut live = pool_with(6, 5);
    live.ids[..5].copy_from_slice(&[8, 7, 9, 7, 6]);
    let pairs = live.pairs();
    assert_eq!(register(&live, TWELVE), Err(Reason::RepeatedId));
    let once = withdraw(&live, 7).unwrap();
    assert_eq!(once.pairs(), [pairs[0], pairs[2], pairs[3], pairs[4]]);
    let twice = withdraw(&once, 7).unwrap();
    assert_eq!(twice.pairs(), [pairs[0], pairs[2], pairs[4]]);
    assert_eq!(withdraw(&twice, 7), Err(Reason::UnknownId));
    assert!(register(&once, TWELVE).is_ok());
}

#[test]
fn a_faulty_stored_pair_can_be_withdrawn() {
    for spoil in SPOILS {
        for (i, other) in [(0, 2), (1, 0), (2, 1)] {
            let sound = pool_with(4, 3);
            let mut live = sound.clone();
            spoil(&mut live, i);
            assert_eq!(register(&live, TWELVE), Err(Reason::Group));
            // Others can be as well, and it stays.
            let left = withdraw(&live, other).unwrap();
            assert_eq!(register(&left, TWELVE), Err(Reason::Group));
            let left = withdraw(&live, i as u32).unwrap();
            assert_eq!(left.pairs(), withdraw(&sound, i as u32).unwrap().pairs());
            assert!(register(&left, TWELVE).is_ok());
        }
    }
}

#[test]
fn another_count_has_other_rows() {
    // With a count of 2 the rows of 3 are taken for rows of 2, as they stand.
    let mut live = holding(4, &[ELEVEN, TWELVE, THIRTEEN]);
    live.count = 2;
    // Their columns have other ones.
    assert_eq!(both(&live, THIRTEEN, 11), [Some(Reason::Entry); 2]);
    live.suitable[..2].copy_from_slice(&[0, 2]);
    let left = withdraw(&live, 11).unwrap();
    assert_eq!(
        (left.count, left.m[0], left.w[0]),
        (1, live.m[3], live.w[3])
    );
    assert_eq!((left.m[0], left.w[0]), (1, 1_450));
    assert_eq!(left.suitable[..3], [1, 2, 0]);
    // The third is past the count: its id is free, and its entry is filled.
    assert_eq!(withdraw(&live, 13), Err(Reason::UnknownId));
    let again = register(&live, THIRTEEN).unwrap();
    assert_eq!(again, holding(4, &[ELEVEN, TWELVE, THIRTEEN]));
}

// ---- Lists of calls

#[test]
fn an_id_that_returns_comes_last() {
    let live = holding(3, &[ELEVEN, TWELVE, THIRTEEN]);
    let other = Pair {
        donor_blood: 3,
        ..ELEVEN
    };
    assert_eq!(register(&live, other), Err(Reason::RepeatedId));
    let calls = [Call::Withdraw(11), Call::Register(other)];
    let (left, answers) = after(live, &calls);
    assert_eq!(answers, [Ok(()); 2]);
    assert_eq!(left.pairs(), [TWELVE, THIRTEEN, other]);
    assert_eq!(left.m, holding(3, &[TWELVE, THIRTEEN, other]).m);
}

#[test]
fn a_list_goes_on_after_a_refusal() {
    let bad = Pair {
        donor_blood: 4,
        ..THIRTEEN
    };
    let calls = [
        Call::Withdraw(11),
        Call::Register(ELEVEN),
        Call::Register(ELEVEN),
        Call::Register(bad),
        Call::Register(TWELVE),
        Call::Register(THIRTEEN),
        Call::Withdraw(11),
        Call::Register(THIRTEEN),
    ];
    let (left, answers) = after(started(2), &calls);
    let due = [
        Err(Reason::UnknownId),
        Ok(()),
        Err(Reason::RepeatedId),
        Err(Reason::Group),
        Ok(()),
        Err(Reason::TooShort),
        Ok(()),
        Ok(()),
    ];
    assert_eq!(answers, due);
    assert_eq!(left.pairs(), [TWELVE, THIRTEEN]);
    assert_eq!(held(&calls, &answers), left.pairs());
}

/// M and W of a pool's first pairs.
fn tables(live: &Live) -> (&[u8], &[u16]) {
    let square = live.count * live.count;
    (&live.m[..square], &live.w[..square])
}

/// What planning refuses the tables of a live pool by, as they stand, with
/// this shuffle.
fn unplanned(live: &Live, shuffle: &[u16]) -> Option<Reason> {
    let (n, m, w) = (live.count, &live.m, &live.w);
    check(n, 0, m, w, shuffle, Room::due(n)).err()
}

/// The tables are those of a sheet with these pairs and points: written, read
/// and built, and built from the pool's own tables. So planning accepts them,
/// whatever lies past them. The numbers are those of the donors that suit.
fn is_of_a_sheet(random: &mut Random, live: &Live) {
    let mut pool = pool_of(Points::of(&live.points), &live.pairs());
    pool.shuffle = random.shuffle(live.count);
    let sheet = write_pool(&pool, LONGEST).expect("a live pool is written");
    let built = build_pool(&read(&sheet).expect("its sheet is read")).unwrap();
    assert_eq!(tables(live), (&built.m[..], &built.w[..]));
    let fields = reference::Fields {
        ids: &live.ids,
        donor_bloods: &live.donor_bloods,
        patient_bloods: &live.patient_bloods,
        donor_ages: &live.donor_ages,
        patient_ages: &live.patient_ages,
        donor_antigens: &live.donor_antigens,
        patient_antigens: &live.patient_antigens,
        patient_antibodies: &live.patient_antibodies,
    };
    let square = live.count * live.count;
    let again = build(2, live.count, &live.points, fields, square, square);
    assert_eq!(again, Ok(built));
    assert_eq!(unplanned(live, &pool.shuffle), None);
    assert_eq!(numbers(live), suitable(&live.pairs()));
}

#[test]
fn a_weightless_edge_of_the_callers_is_for_planning_alone() {
    let mut live = holding(4, &[ELEVEN, TWELVE, THIRTEEN]);
    assert_eq!(unplanned(&live, &[2, 0, 1]), None);
    live.w.fill(0);
    let weightless = Some(Reason::WeightlessEdge);
    assert_eq!(unplanned(&live, &[2, 0, 1]), weightless);
    // A withdrawal takes out what stands there, and a registration weighs anew.
    let left = withdraw(&live, 13).expect("an id that is held");
    assert_eq!(left.w[..4], [0; 4]);
    assert_eq!(unplanned(&left, &[1, 0]), weightless);
    let again = register(&left, THIRTEEN).expect("a pair that is not held");
    assert_eq!(unplanned(&again, &[2, 0, 1]), None);
}

/// A call with an id of a few, at times with a pair out of range.
fn any_call(random: &mut Random, pairs: &[Pair]) -> Call {
    let id = random.below(12) as u32;
    if random.chance(1, 3) {
        return Call::Withdraw(id);
    }
    let mut pair = Pair {
        id,
        ..random.one_of(pairs)
    };
    if random.chance(1, 12) {
        pair.patient_blood = random.between(4, 255) as u8;
    }
    Call::Register(pair)
}

#[test]
fn lists_of_calls_hold_what_their_answers_say() {
    let pairs = pairs_of(60);
    let mut reasons = BTreeSet::new();
    trials("lists of calls", 900_000, 500, |random| {
        let room = random.between(0, 9);
        let registry = points(random);
        let mut live = start(&Live::zeros(room), registry).unwrap();
        assert!(start(&live, wrong_points(random)).is_err());
        let (mut calls, mut answers) = (Vec::new(), Vec::new());
        for _ in 0..30 {
            let call = any_call(random, &pairs);
            let before = live.pairs();
            let has = |id| before.iter().any(|pair| pair.id == id);
            let due = match call {
                Call::Register(pair) if !pair.in_range() => Err(Reason::Group),
                Call::Register(pair) if has(pair.id) => Err(Reason::RepeatedId),
                Call::Register(_) if before.len() == room => Err(Reason::TooShort),
                Call::Withdraw(id) if !has(id) => Err(Reason::UnknownId),
                _ => Ok(()),
            };
            let (left, answer) = after(live, &[call]);
            assert_eq!(answer, [due]);
            reasons.extend(due.err());
            calls.push(call);
            answers.push(due);
            live = left;
            assert_eq!(live.pairs(), held(&calls, &answers));
            assert_eq!(live.points, registry.table());
            is_of_a_sheet(random, &live);
        }
        let whole = after(start(&Live::zeros(room), registry).unwrap(), &calls);
        assert_eq!(whole, (live, answers));
    });
    let all = [
        Reason::Group,
        Reason::RepeatedId,
        Reason::TooShort,
        Reason::UnknownId,
    ];
    assert_eq!(reasons, all.into());
}

#[test]
fn two_hundred_register_and_all_withdraw() {
    let mut random = Random::new(206);
    let mut live = started(200);
    for (i, pair) in pairs_of(200).into_iter().enumerate() {
        live = register(&live, pair).unwrap();
        assert_eq!(live.count, i + 1);
    }
    assert_eq!(live.pairs(), pairs_of(200));
    is_of_a_sheet(&mut random, &live);
    let entries = live.w.clone();
    for (gone, &id) in random.shuffle(200).iter().enumerate() {
        assert_eq!(live.count, 200 - gone);
        live = withdraw(&live, id.into()).unwrap();
        if gone % 20 == 0 {
            is_of_a_sheet(&mut random, &live);
        }
    }
    assert_eq!(live.count, 0);
    // The last entries were never touched.
    assert_eq!(live.w[199 * 199..], entries[199 * 199..]);
}
