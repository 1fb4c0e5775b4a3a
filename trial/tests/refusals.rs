//! Reading and writing refuse each fault by its number and place, the
//! earliest first; planning refuses a weightless edge, as request W-209 has it,
//! after all else. The other refusals of building and planning stand with them.

use reference::planner::check;
use reference::random::{
    damage, damaged, mended, plain_pool, pool, tables, trials, Damage, PoolKind, Random, TableKind,
};
use reference::sheet::{self, length, offset_of_pair, offset_of_shuffle, offsets, EXAMPLE, START};
use reference::{
    gates, plan, printout, read, straight, write, Plan, Points, Pool, Reason, Refusal, Room, Tables,
};
use std::collections::BTreeSet;

/// The example with one byte changed.
fn with(at: usize, byte: u8) -> Vec<u8> {
    let mut sheet = EXAMPLE.to_vec();
    sheet[at] = byte;
    sheet
}

fn refused(sheet: &[u8]) -> Refusal {
    read(sheet).expect_err("a sheet with a fault")
}

fn written(n: usize, pool: &Pool, room: usize) -> Result<Vec<u8>, Refusal> {
    write(
        pool.version,
        n,
        &pool.points,
        pool.fields(),
        &pool.shuffle,
        room,
    )
}

/// The example in both versions, the second with document 01's points, each
/// with its version.
fn examples() -> [(u16, Vec<u8>); 2] {
    let pool = read(&EXAMPLE).unwrap().with_points(Points::DOCUMENT);
    let two = written(2, &pool, length(2, 2)).unwrap();
    [(1, EXAMPLE.to_vec()), (2, two)]
}

#[test]
fn one_wherever_the_sheet_ends_too_early() {
    for (version, example) in examples() {
        let fields = offsets(version, 2);
        for end in 0..example.len() {
            let field = fields.iter().rfind(|&&field| field <= end).unwrap();
            assert_eq!(refused(&example[..end]), Reason::CutOff.at(*field));
        }
    }
}

#[test]
fn two_for_every_byte_of_every_start() {
    for (example, field) in examples().iter().flat_map(|(version, example)| {
        offsets(*version, 2)
            .into_iter()
            .map(move |at| (example, at))
    }) {
        for at in field..field + START {
            let mut sheet = example.clone();
            sheet[at] += 1;
            assert_eq!(refused(&sheet), Reason::NotDue.at(field));
            // A whole start is looked at before the value; a cut one is not.
            assert_eq!(refused(&sheet[..field + START]), Reason::NotDue.at(field));
            assert_eq!(
                refused(&sheet[..field + START - 1]),
                Reason::CutOff.at(field)
            );
        }
    }
}

#[test]
fn three_and_four_in_the_head() {
    assert_eq!(refused(&with(3, 1)), Reason::Version.at(0));
    assert_eq!(refused(&with(3, 2)), Reason::Version.at(0));
    assert_eq!(refused(&with(4, 0)), Reason::Version.at(0));
    assert_eq!(refused(&with(4, 3)), Reason::Version.at(0));
    assert_eq!(refused(&with(4, 255)), Reason::Version.at(0));
    // A sheet of version 2 has its points where the first pair is.
    assert_eq!(refused(&with(4, 2)), Reason::NotDue.at(7));
    assert_eq!(refused(&with(5, 1)), Reason::TooManyPairs.at(0));
    assert_eq!(refused(&with(6, 201)), Reason::TooManyPairs.at(0));
    // 200 pairs are allowed, but then the third is due where the shuffle is.
    let third = offset_of_shuffle(1, 2);
    assert_eq!(refused(&with(6, 200)), Reason::NotDue.at(third));
    let mut both = with(6, 201);
    both[4] = 2;
    assert_eq!(refused(&both), Reason::TooManyPairs.at(0));
    both[4] = 3;
    assert_eq!(refused(&both), Reason::Version.at(0));
}

#[test]
fn five_at_the_first_byte_too_many() {
    let mut sheet = EXAMPLE.to_vec();
    for byte in [3, 0, 0] {
        sheet.push(byte);
        assert_eq!(refused(&sheet), Reason::LeftOver.at(EXAMPLE.len()));
    }
    // A broken shuffle comes before it.
    let place = offset_of_shuffle(1, 2);
    sheet[place + START + 1] = 1;
    assert_eq!(refused(&sheet), Reason::Shuffle.at(place));
}

#[test]
fn six_for_each_group() {
    for i in 0..2 {
        let groups = offset_of_pair(1, i) + START + 4;
        for (group, most) in [3, 3, 1, 1].into_iter().enumerate() {
            assert!(read(&with(groups + group, most)).is_ok());
            for above in [most + 1, 255] {
                let sheet = with(groups + group, above);
                assert_eq!(refused(&sheet), Reason::Group.at(offset_of_pair(1, i)));
            }
        }
    }
}

#[test]
fn seven_at_the_later_pair() {
    let id = offset_of_pair(1, 1) + START + 3;
    let mut sheet = with(id, 11);
    let place = offset_of_pair(1, 1);
    assert_eq!(refused(&sheet), Reason::RepeatedId.at(place));
    // Its own blood comes first, and so does the pair before it.
    sheet[id + 1] = 4;
    assert_eq!(refused(&sheet), Reason::Group.at(place));
    sheet[offset_of_pair(1, 0) + START + 7] = 2;
    assert_eq!(refused(&sheet), Reason::Group.at(offset_of_pair(1, 0)));
}

#[test]
fn eight_at_the_shuffle() {
    let place = offset_of_shuffle(1, 2);
    let numbers = place + START;
    for (at, byte) in [(1, 1), (3, 0), (3, 2), (0, 1), (2, 255)] {
        let sheet = with(numbers + at, byte);
        assert_eq!(refused(&sheet), Reason::Shuffle.at(place));
    }
    let mut swapped = with(numbers + 1, 1);
    swapped[numbers + 3] = 0;
    assert_eq!(read(&swapped).unwrap().shuffle, [1, 0]);
}

#[test]
fn nine_after_all_else() {
    let pool = read(&EXAMPLE).unwrap();
    for table in 0..9 {
        let mut lengths = [2; 9];
        assert_eq!(sheet::fits(&pool, 0, &lengths), Ok(()));
        lengths[table] = 1;
        assert_eq!(sheet::fits(&pool, 0, &lengths), Err(Reason::TooShort.at(0)));
    }
    // In the program, with its forty pairs, 5 comes before 9.
    let pool = plain_pool(&mut Random::new(9), 50, PoolKind::Dense);
    let mut sheet = written(50, &pool, sheet::LONGEST).unwrap();
    assert_eq!(printout::program(&sheet), "REFUSED 9 0\n");
    sheet.push(0);
    let five = format!("REFUSED 5 {}\n", length(1, 50));
    assert_eq!(printout::program(&sheet), five);
}

#[test]
fn the_writer_checks_in_order_and_with_place_0() {
    let n = 4;
    let good = plain_pool(&mut Random::new(4), n, PoolKind::Any).with_points(Points::DOCUMENT);
    let refused = |n, pool: &Pool, room| written(n, pool, room).err();
    let by = |reason: Reason| Some(reason.at(0));
    assert_eq!(refused(n, &good, length(2, n)), None);
    let one = good.clone().of_version_1();
    assert_eq!(refused(n, &one, length(1, n)), None);
    assert_eq!(refused(n, &one, length(1, n) - 1), by(Reason::TooShort));

    // From the last check to the first, each fault in front of the others.
    let mut bad = good.clone();
    assert_eq!(refused(n, &bad, length(2, n) - 1), by(Reason::TooShort));
    bad.shuffle[3] = bad.shuffle[0];
    assert_eq!(refused(n, &bad, 0), by(Reason::Shuffle));
    bad.patient_ages[3] = 2;
    assert_eq!(refused(n, &bad, 0), by(Reason::Group));
    bad.ids[2] = bad.ids[1];
    assert_eq!(refused(n, &bad, 0), by(Reason::RepeatedId));
    bad.donor_bloods[2] = 4;
    assert_eq!(refused(n, &bad, 0), by(Reason::Group));
    bad.points[0] = 0;
    assert_eq!(refused(n, &bad, 0), by(Reason::WrongPoints));

    let shorten: [fn(&mut Pool); 10] = [
        |pool| pool.points.truncate(5),
        |pool| pool.ids.truncate(3),
        |pool| pool.donor_bloods.truncate(3),
        |pool| pool.patient_bloods.truncate(3),
        |pool| pool.donor_ages.truncate(3),
        |pool| pool.patient_ages.truncate(3),
        |pool| pool.donor_antigens.truncate(3),
        |pool| pool.patient_antigens.truncate(3),
        |pool| pool.patient_antibodies.truncate(3),
        |pool| pool.shuffle.truncate(3),
    ];
    for shorten in shorten {
        let mut short = bad.clone();
        shorten(&mut short);
        assert_eq!(refused(n, &short, 0), by(Reason::TooShort));
        assert_eq!(refused(201, &short, 0), by(Reason::TooManyPairs));
        assert_eq!(refused(usize::MAX, &short, 0), by(Reason::TooManyPairs));
        for version in [0, 3, 256 + 1, u16::MAX] {
            short.version = version;
            assert_eq!(refused(201, &short, 0), by(Reason::Version));
        }
    }
}

#[test]
fn writing_looks_at_the_points_of_no_pairs_too() {
    let written = |version, points: &[u16], room| {
        write(version, 0, points, reference::Fields::default(), &[], room)
    };
    assert_eq!(written(2, &[7; 5], 25), Err(Reason::TooShort.at(0)));
    assert_eq!(written(2, &[0; 6], 0), Err(Reason::WrongPoints.at(0)));
    assert_eq!(written(2, &[7; 6], 24), Err(Reason::TooShort.at(0)));
    // What lies past six is not looked at.
    let sheet = written(2, &[7, 7, 7, 7, 7, 7, 0, 65_535], 25).unwrap();
    assert_eq!(read(&sheet).unwrap().points, [7; 6]);
    // Version 1 looks at none.
    for points in [&[][..], &[0; 5], &[0; 6], &[u16::MAX; 9]] {
        assert_eq!(written(1, points, 10).map(|sheet| sheet.len()), Ok(10));
    }
}

#[test]
fn the_writer_takes_the_first_pairs_of_longer_tables() {
    let mut pool = pool(&mut Random::new(8), 5, PoolKind::Any);
    pool.shuffle = vec![1, 2, 0, 0, 9];
    pool.donor_ages[4] = 99;
    pool.ids[3] = pool.ids[0];
    let sheet = written(3, &pool, usize::MAX).unwrap();
    let read = read(&sheet).unwrap();
    assert_eq!((read.version, read.points), (pool.version, pool.points));
    assert_eq!(read.ids, pool.ids[..3]);
    assert_eq!(read.shuffle, [1, 2, 0]);
}

#[test]
fn sheets_and_pools_go_round() {
    trials("round trips", 100_000, 2_000, |random| {
        let n = random.between(0, 60);
        let kind = random.one_of(&PoolKind::ALL);
        let pool = pool(random, n, kind);
        let length = length(pool.version, n);
        let sheet = written(n, &pool, length).unwrap();
        assert_eq!(sheet.len(), length);
        assert_eq!(read(&sheet), Ok(pool));
    });
}

#[test]
fn a_damage_is_found_where_it_was_done() {
    trials("one damage", 200_000, 5_000, |random| {
        let n = random.between(2, 20);
        let kind = random.one_of(&PoolKind::ALL);
        let pool = pool(random, n, kind);
        let version = pool.version;
        let sheet = written(n, &pool, length(version, n)).unwrap();
        let mut hurt = |kind| {
            let mut copy = sheet.clone();
            damage(random, &pool, &mut copy, kind);
            copy
        };

        let cut = hurt(Damage::Cut);
        let fields = offsets(version, n).into_iter();
        let field = fields.rev().find(|&field| field <= cut.len());
        assert_eq!(refused(&cut), Reason::CutOff.at(field.unwrap()));

        let grown = hurt(Damage::Grown);
        assert_eq!(refused(&grown), Reason::LeftOver.at(sheet.len()));

        let broken = hurt(Damage::ShuffleBroken);
        if broken != sheet {
            let place = offset_of_shuffle(version, n);
            assert_eq!(refused(&broken), Reason::Shuffle.at(place));
        }

        let repeated = hurt(Damage::IdRepeated);
        if repeated != sheet {
            let ids: Vec<&[u8]> = (0..n)
                .map(|i| &repeated[offset_of_pair(version, i) + START..][..4])
                .collect();
            let later = (0..n).find(|&i| ids[..i].contains(&ids[i])).unwrap();
            let place = offset_of_pair(version, later);
            assert_eq!(refused(&repeated), Reason::RepeatedId.at(place));
        }

        let other = hurt(Damage::PointsChanged);
        if other != sheet {
            let points: Vec<u16> = (10..22)
                .step_by(2)
                .map(|at| u16::from_be_bytes([other[at], other[at + 1]]))
                .collect();
            match Points::of(&points).check() {
                Ok(()) => assert_eq!(read(&other).unwrap().points, points),
                Err(reason) => assert_eq!(refused(&other), reason.at(7)),
            }
        }

        // The field where none is due, or none where it is; or the other
        // version with what is due there.
        let moved = hurt(Damage::PointsMoved);
        if moved[4] == sheet[4] {
            assert_eq!(refused(&moved), Reason::NotDue.at(7));
        } else {
            match read(&moved) {
                Ok(pool) => assert_eq!(pool.version, 3 - version),
                Err(refusal) => assert_eq!(refusal, Reason::WrongPoints.at(7)),
            }
        }
    });
}

#[test]
fn a_damaged_sheet_is_refused_at_a_field_or_is_a_sheet_after_all() {
    let mut reasons = BTreeSet::new();
    let mut accepted = 0;
    trials("damaged sheets", 300_000, 100_000, |random| {
        let n = random.between(0, 12);
        let kind = random.one_of(&PoolKind::ALL);
        let pool = pool(random, n, kind);
        let sheet = written(n, &pool, length(2, n)).unwrap();
        let damaged = damaged(random, &pool, &sheet);
        match read(&damaged) {
            Ok(pool) => {
                accepted += 1;
                let again = written(pool.len(), &pool, damaged.len());
                assert_eq!(again, Ok(damaged));
            }
            Err(Refusal { reason, place }) => {
                reasons.insert(reason);
                let version = damaged.get(4).map_or(1, |&version| version.into());
                let fields = offsets(version, 200);
                match reason {
                    Reason::Version | Reason::TooManyPairs => assert_eq!(place, 0),
                    Reason::WrongPoints => assert_eq!((version, place), (2, 7)),
                    Reason::LeftOver => {
                        let n = usize::from(damaged[6]);
                        assert_eq!(place, length(version, n));
                        assert!(read(&damaged[..place]).is_ok());
                    }
                    _ => assert!(fields.contains(&place)),
                }
                // What comes after the field at fault is not looked at.
                if matches!(reason, Reason::NotDue) {
                    assert_eq!(read(&damaged[..place + START]), read(&damaged));
                }
                assert!(place <= damaged.len());
            }
        }
    });
    let own = Reason::ALL[..8].iter().chain([&Reason::WrongPoints]);
    assert_eq!(reasons, own.copied().collect());
    assert!(accepted > 1_000);
}

// ---- Weightless edges

/// What all planners answer.
fn planned(n: usize, floor: u32, tables: &Tables, shuffle: &[u16]) -> Result<Plan, Reason> {
    let (m, w, room) = (&tables.m, &tables.w, Room::due(n));
    let answer = plan(n, floor, m, w, shuffle, room);
    assert_eq!(gates::plan(n, floor, m, w, shuffle, room), answer);
    let answer = answer.map(|(plan, _)| plan);
    assert_eq!(straight::plan(n, floor, m, w, shuffle, room), answer);
    answer
}

/// Why two pairs are not planned, with floor 0 and the identity shuffle.
fn unplanned(tables: &Tables) -> Option<Reason> {
    planned(2, 0, tables, &[0, 1]).err()
}

/// Document 01's k3.
fn k3() -> Tables {
    Tables::of_edges(2, &[(0, 1, 5), (1, 0, 7)])
}

/// Document 01's k5.
fn k5() -> Tables {
    Tables::of_edges(2, &[(0, 1, 0), (1, 0, 0)])
}

/// Tables of `n` pairs with all edges there are, which weigh 1.
fn complete(n: usize) -> Tables {
    let mut tables = Tables {
        m: vec![1; n * n],
        w: vec![1; n * n],
    };
    for pair in 0..n {
        tables.m[pair * n + pair] = 0;
    }
    tables
}

const WEIGHTLESS: Option<Reason> = Some(Reason::WeightlessEdge);

#[test]
fn seventeen_for_k5_but_for_what_comes_first() {
    assert_eq!(Reason::WeightlessEdge.at(0).pair(), (17, 0));
    assert_eq!(unplanned(&k5()), WEIGHTLESS);
    let wrong = |floor, shuffle| planned(2, floor, &k5(), shuffle).err();
    assert_eq!(wrong(0, &[0, 0]), Some(Reason::Shuffle));
    assert_eq!(wrong(200_001, &[0, 1]), Some(Reason::FloorTooHigh));
    assert_eq!(wrong(200_000, &[1, 0]), WEIGHTLESS);
    let many = planned(201, 0, &k5(), &[0, 1]).err();
    assert_eq!(many, Some(Reason::TooManyPairs));
    let short = planned(3, 0, &k5(), &[0, 1, 2]).err();
    assert_eq!(short, Some(Reason::TooShort));

    // Any table that is lent, one too short.
    let Tables { m, w } = k5();
    let due = Room::due(2);
    let refused = |m, w, shuffle, room| plan(2, 0, m, w, shuffle, room).err();
    assert_eq!(refused(&m, &w, &[0, 1], due), WEIGHTLESS);
    let short = Some(Reason::TooShort);
    assert_eq!(refused(&m[..3], &w, &[0, 1], due), short);
    assert_eq!(refused(&m, &w[..3], &[0, 1], due), short);
    assert_eq!(refused(&m, &w, &[0], due), short);
    let (weights, choices, donors, recipients, records) = (0, 0, 1, 1, 0);
    for room in [
        Room { weights, ..due },
        Room { choices, ..due },
        Room { donors, ..due },
        Room { recipients, ..due },
        Room { records, ..due },
    ] {
        assert_eq!(refused(&m, &w, &[0, 1], room), short);
    }
}

#[test]
fn all_of_ten_comes_before_seventeen() {
    // M(0, 1) is 1 and W(0, 1) is 0, and a later entry of M is 2.
    let mut tables = Tables::of_edges(2, &[(0, 1, 0), (1, 0, 7)]);
    tables.m[2] = 2;
    assert_eq!(unplanned(&tables), Some(Reason::Entry));
    // A pair's own edge, which weighs nothing.
    let mut tables = k3();
    tables.m[3] = 1;
    assert_eq!(tables.w[3], 0);
    assert_eq!(unplanned(&tables), Some(Reason::Entry));

    // The one at every place, with the other at every place.
    let n = 4;
    for (donor, patient) in places(n) {
        for entry in 0..n * n {
            for wrong in [1, 2, 255] {
                let mut tables = complete(n);
                tables.w[donor * n + patient] = 0;
                tables.m[entry] = wrong;
                let own = entry % (n + 1) == 0;
                let due = if wrong > 1 || own {
                    Reason::Entry
                } else {
                    Reason::WeightlessEdge
                };
                let answer = planned(n, 0, &tables, &[0, 1, 2, 3]);
                assert_eq!(answer, Err(due), "({donor}, {patient}), {entry}");
            }
        }
    }
}

/// The places of a table of `n` rows off its diagonal.
fn places(n: usize) -> Vec<(usize, usize)> {
    let all = (0..n).flat_map(|donor| (0..n).map(move |patient| (donor, patient)));
    all.filter(|(donor, patient)| donor != patient).collect()
}

#[test]
fn seventeen_at_every_place_and_only_where_there_is_an_edge() {
    for n in 2..=6 {
        let mut random = Random::new(n as u64);
        for (donor, patient) in places(n) {
            let entry = donor * n + patient;
            // The only light edge of all, and the only edge; in pair numbers,
            // wherever the shuffle puts them.
            let mut tables = complete(n);
            tables.w[entry] = 0;
            let mut alone = Tables::of_edges(n, &[(donor, patient, 0)]);
            for _ in 0..4 {
                let shuffle = random.shuffle(n);
                let refused = planned(n, 0, &tables, &shuffle).err();
                assert_eq!(refused, WEIGHTLESS, "({donor}, {patient})");
                // It is in no cycle, so no plan would have it.
                let refused = planned(n, 0, &alone, &shuffle).err();
                assert_eq!(refused, WEIGHTLESS, "({donor}, {patient})");
            }

            // No edge, whatever W holds; or one of weight 1, whatever the floor.
            let shuffle = random.shuffle(n);
            tables.m[entry] = 0;
            assert!(planned(n, 0, &tables, &shuffle).is_ok());
            alone.m[entry] = 0;
            assert!(planned(n, 0, &alone, &shuffle).is_ok());
            (tables.m[entry], tables.w[entry]) = (1, 1);
            for floor in [0, 1, 5, 200_000] {
                assert!(planned(n, floor, &tables, &shuffle).is_ok());
            }
            alone = Tables::of_edges(n, &[(donor, patient, 1)]);
            assert!(planned(n, 5, &alone, &shuffle).is_ok());
        }
    }
}

#[test]
fn what_is_no_weightless_edge_is_planned() {
    // k4: W(1, 0) is 0, and there is no edge.
    let k4 = Tables::of_edges(2, &[(0, 1, 5)]);
    assert_eq!(k4.w, [0, 5, 0, 0]);
    let plan = planned(2, 0, &k4, &[0, 1]).unwrap();
    assert_eq!((plan.choices, plan.recipients), (vec![1], vec![2, 2]));

    // A pair's own weight is not read.
    let due = planned(2, 0, &k3(), &[0, 1]).unwrap();
    assert_eq!((due.weight, &due.choices[..]), (12, &[0][..]));
    for own in [0, 7, u16::MAX] {
        let mut tables = k3();
        (tables.w[0], tables.w[3]) = (own, own);
        assert_eq!(planned(2, 0, &tables, &[0, 1]), Ok(due.clone()), "{own}");
    }

    // A fifth entry is past two rows of two.
    let mut longer = k3();
    longer.m.push(1);
    longer.w.push(0);
    assert_eq!(planned(2, 0, &longer, &[0, 1]), Ok(due));

    // The floor has nothing to do with it.
    let light = Tables::of_edges(2, &[(0, 1, 1), (1, 0, 1)]);
    for (floor, choice) in [(0, 0), (1, 0), (2, 1), (5, 1), (200_000, 1)] {
        let plan = planned(2, floor, &light, &[0, 1]).unwrap();
        assert_eq!((plan.choices, plan.weights), (vec![choice], vec![2]));
    }
}

#[test]
fn seventeen_among_two_hundred_pairs() {
    let n = 200;
    let identity: Vec<u16> = (0..n as u16).collect();
    let mut tables = complete(n);
    let checked =
        |tables: &Tables| check(n, 0, &tables.m, &tables.w, &identity, Room::due(n)).err();
    assert_eq!(checked(&tables), None);
    for (donor, patient) in [(199, 198), (198, 199), (199, 0), (0, 199), (0, 1), (1, 0)] {
        tables.w[donor * n + patient] = 0;
        assert_eq!(checked(&tables), WEIGHTLESS, "({donor}, {patient})");
        let refused = planned(n, 0, &tables, &identity).err();
        assert_eq!(refused, WEIGHTLESS, "({donor}, {patient})");
        tables.w[donor * n + patient] = 1;
        assert_eq!(checked(&tables), None);
    }
}

#[test]
fn seventeen_is_one_answer_of_several() {
    let (mut refused, mut made) = (0, 0);
    trials("weightless edges", 9_000_000, 2_000, |random| {
        let n = random.between(0, 10);
        let kind = random.one_of(&TableKind::ALL);
        let tables = tables(random, n, kind);
        let shuffle = random.shuffle(n);
        let edges = places(n).into_iter().filter(|&(donor, patient)| {
            let entry = donor * n + patient;
            tables.m[entry] == 1 && tables.w[entry] == 0
        });
        if edges.count() > 0 {
            refused += 1;
            let answer = planned(n, 0, &tables, &shuffle);
            assert_eq!(answer.err(), WEIGHTLESS);
        }
        let w = mended(n, &tables.m, &tables.w).unwrap_or(tables.w);
        let mended = Tables { w, ..tables };
        made += planned(n, 0, &mended, &shuffle).expect("no fault").cycles();
    });
    assert!((100..400).contains(&refused), "{refused} of 2,000 refused");
    assert!(made > 1_000, "only {made} cycles were planned");
}
