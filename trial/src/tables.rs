//! The compatibility table M and the weight table W.

use crate::points::{Points, FEW, SOME};
use crate::pool::{check_version, points_of, short_of_points, Fields, Pool, MOST_PAIRS};
use crate::refusal::Reason;

/// `SUITS[donor][patient]` says whether the donor's blood suits the patient.
/// Rows and columns are O, A, B, AB.
pub const SUITS: [[bool; 4]; 4] = [
    [true, true, true, true],
    [false, true, false, true],
    [false, false, true, true],
    [false, false, false, true],
];

/// M and W of `n` pairs: `n` rows of `n`, row i holding donor i.
#[derive(Clone, Debug, Default, PartialEq, Eq)]
pub struct Tables {
    /// Compatibility: 1 where donor i may give to patient j, else 0.
    pub m: Vec<u8>,
    /// Weight of donor i's giving to patient j.
    pub w: Vec<u16>,
}

impl Tables {
    /// Tables of `n` pairs with no edge and no weight.
    pub fn empty(n: usize) -> Tables {
        Tables {
            m: vec![0; n * n],
            w: vec![0; n * n],
        }
    }

    /// Tables of `n` pairs with just these edges: donor, patient, weight.
    pub fn of_edges(n: usize, edges: &[(usize, usize, u16)]) -> Tables {
        let mut tables = Tables::empty(n);
        for &(donor, patient, weight) in edges {
            tables.m[donor * n + patient] = 1;
            tables.w[donor * n + patient] = weight;
        }
        tables
    }
}

/// Builds M and W from the fields of `n` pairs in that version, for lent tables
/// of `m_len` and `w_len` entries. Version 2 is weighed by the lent points;
/// version 1, which does not look at them, by document 01's.
///
/// Checks 3; 4; 9 for the tables of the fields and the points; 14; 6 and 7 pair
/// by pair; 9 for the tables to be filled.
pub fn build(
    version: u16,
    n: usize,
    points: &[u16],
    fields: Fields<'_>,
    m_len: usize,
    w_len: usize,
) -> Result<Tables, Reason> {
    check_version(version)?;
    if n > MOST_PAIRS {
        return Err(Reason::TooManyPairs);
    }
    if fields.shortest() < n || short_of_points(version, points.len()) {
        return Err(Reason::TooShort);
    }
    let points = points_of(version, points)?;
    fields.check_pairs(n)?;
    if m_len < n * n || w_len < n * n {
        return Err(Reason::TooShort);
    }

    let mut tables = Tables::empty(n);
    for donor in 0..n {
        for patient in (0..n).filter(|&patient| patient != donor) {
            let entry = donor * n + patient;
            tables.m[entry] = u8::from(compatible(fields, donor, patient));
            tables.w[entry] = weight(points, fields, donor, patient);
        }
    }
    Ok(tables)
}

/// Builds M and W of a pool, for lent tables that just hold them.
pub fn build_pool(pool: &Pool) -> Result<Tables, Reason> {
    let (n, points) = (pool.len(), &pool.points);
    build(pool.version, n, points, pool.fields(), n * n, n * n)
}

/// Whether the blood suits, and no antigen meets an antibody.
fn compatible(fields: Fields<'_>, donor: usize, patient: usize) -> bool {
    let donor_blood = usize::from(fields.donor_bloods[donor]);
    let patient_blood = usize::from(fields.patient_bloods[patient]);
    let met = fields.donor_antigens[donor] & fields.patient_antibodies[patient];
    SUITS[donor_blood][patient_blood] && met == 0
}

/// Base, mismatch and age points together.
fn weight(points: Points, fields: Fields<'_>, donor: usize, patient: usize) -> u16 {
    let mismatches = mismatches(
        fields.donor_antigens[donor],
        fields.patient_antigens[patient],
    );
    let (donor_age, patient_age) = (fields.donor_ages[donor], fields.patient_ages[patient]);
    points.base + mismatch_points(points, mismatches) + age_points(points, donor_age, patient_age)
}

/// How many antigens of the donor the patient does not have. What only the
/// patient has does not count.
fn mismatches(donor: u64, patient: u64) -> u32 {
    let shared = donor & patient;
    donor.count_ones() - shared.count_ones()
}

fn mismatch_points(points: Points, mismatches: u32) -> u16 {
    match mismatches {
        0 => points.no_mismatch,
        few if few <= FEW => points.few_mismatches,
        some if some <= SOME => points.some_mismatches,
        _ => 0,
    }
}

fn age_points(points: Points, donor: u8, patient: u8) -> u16 {
    use std::cmp::Ordering::{Equal, Greater, Less};
    match donor.cmp(&patient) {
        Equal => points.same_age,
        Less => points.young_to_senior,
        Greater => 0,
    }
}

#[cfg(test)]
mod tests {
    use super::*;
    use crate::random::{self, PoolKind, Random};

    /// What the first donor weighs for the second patient, in version 1.
    fn edge(donor_antigens: u64, patient_antigens: u64, ages: (u8, u8)) -> u16 {
        weighed(couple(donor_antigens, patient_antigens, ages))
    }

    /// What it weighs in version 2, with these points.
    fn edge_by(points: [u16; 6], donor_antigens: u64, ages: (u8, u8)) -> u16 {
        weighed(couple(donor_antigens, 0, ages).with_points(Points::of(&points)))
    }

    /// Two pairs; the first donor and the second patient as given.
    fn couple(donor_antigens: u64, patient_antigens: u64, ages: (u8, u8)) -> Pool {
        Pool {
            ids: vec![0, u32::MAX],
            donor_bloods: vec![0, 3],
            patient_bloods: vec![0, 0],
            donor_ages: vec![ages.0, 0],
            patient_ages: vec![0, ages.1],
            donor_antigens: vec![donor_antigens, 0],
            patient_antigens: vec![0, patient_antigens],
            patient_antibodies: vec![0, 0],
            shuffle: vec![0, 1],
            ..Pool::default()
        }
    }

    /// The first donor's weight for the second patient.
    fn weighed(pool: Pool) -> u16 {
        let tables = build_pool(&pool).unwrap();
        assert_eq!(tables.m, [0, 1, 0, 0]);
        assert_eq!((tables.w[0], tables.w[3]), (0, 0));
        tables.w[1]
    }

    #[test]
    fn the_edges_of_the_document() {
        assert_eq!(edge(0b101, 0b101, (0, 0)), 1_450);
        assert_eq!(edge(0b101, 0b101, (1, 1)), 1_450);
        assert_eq!(edge(0b11, 0b00, (0, 0)), 1_300);
        assert_eq!(edge(0b111, 0b00, (0, 1)), 1_130);
        assert_eq!(edge(0b1111, 0b00, (0, 1)), 1_130);
        assert_eq!(edge(0b11111, 0, (1, 0)), 1_000);
        // and between them
        assert_eq!(edge(1, 0, (0, 0)), 1_300);
        assert_eq!(edge(1 << 63, 0, (1, 0)), 1_250);
        assert_eq!(edge(u64::MAX, 0, (1, 1)), 1_050);
    }

    #[test]
    fn the_same_edges_by_other_points() {
        // The five edges of the document, by two registries' points and its own.
        let edges = [
            (0, (0, 0)),
            (2, (0, 0)),
            (3, (0, 1)),
            (4, (0, 1)),
            (5, (1, 0)),
        ];
        let weights = |points| edges.map(|(bits, ages)| edge_by(points, (1 << bits) - 1, ages));
        let document = [1_450, 1_300, 1_130, 1_130, 1_000];
        assert_eq!(weights(Points::DOCUMENT.table()), document);
        let steep = [500, 3_000, 1_000, 200, 0, 90];
        assert_eq!(weights(steep), [3_500, 1_500, 790, 790, 500]);
        // Steps that rise.
        let rising = [7, 10, 200, 3_000, 1, 2];
        assert_eq!(weights(rising), [18, 208, 3_009, 3_009, 7]);
        assert_eq!(weights([9, 0, 0, 0, 0, 0]), [9; 5]);
    }

    #[test]
    fn every_point_has_its_edges() {
        // Every step is another power of ten, so that each shows in the sum.
        let points = [10_000, 1_000, 200, 30, 4, 5];
        for (mismatches, step) in (0..).zip([1_000, 200, 200, 30, 30, 0, 0]) {
            let antigens = (1 << mismatches) - 1;
            for (ages, age) in [((0, 0), 4), ((1, 1), 4), ((0, 1), 5), ((1, 0), 0)] {
                assert_eq!(edge_by(points, antigens, ages), 10_000 + step + age);
            }
        }
        // The heaviest edges and the lightest.
        assert_eq!(edge_by([1, 0, 0, 65_534, 0, 0], 0b1111, (0, 0)), 65_535);
        assert_eq!(edge_by([1, 0, 0, 65_534, 0, 0], 0b1, (0, 0)), 1);
        assert_eq!(edge_by([65_535, 0, 0, 0, 0, 0], 0, (0, 0)), 65_535);
        assert_eq!(
            edge_by([30_000, 20_000, 0, 0, 0, 15_535], 0, (0, 1)),
            65_535
        );
    }

    #[test]
    fn version_1_does_not_look_at_points() {
        let pool = couple(0b11, 0, (0, 0));
        let due = build_pool(&pool);
        for points in [&[][..], &[0; 5], &[0; 6], &[9; 6], &[u16::MAX; 7]] {
            assert_eq!(build(1, 2, points, pool.fields(), 4, 4), due);
        }
    }

    #[test]
    fn what_only_the_patient_has_does_not_count() {
        for ages in [(0, 0), (0, 1), (1, 0), (1, 1)] {
            for donor in [0, 1, 0b11, 0b111, 0b1111, 0b11111, 1 << 63, u64::MAX] {
                for patient in [0, 1, 0b101, donor, 1 << 63] {
                    let weight = edge(donor, patient, ages);
                    for other in [1, 0b110, 0x1F << 40, 1 << 63, u64::MAX] {
                        assert_eq!(edge(donor, patient | other & !donor, ages), weight);
                    }
                }
            }
        }
        // Five of the patient's alone, and none of the donor's.
        assert_eq!(edge(0, 0b11111, (1, 0)), 1_400);
        assert_eq!(edge(0, u64::MAX, (0, 0)), 1_450);
    }

    #[test]
    fn mismatches_entry_by_entry() {
        let mut random = Random::new(204);
        for _ in 0..1_000 {
            let (donor, patient) = (random.bits(), random.bits());
            let has = |word: u64, entry: u32| word >> entry & 1 == 1;
            let listed = (0..64).filter(|&k| has(donor, k) && !has(patient, k));
            assert_eq!(mismatches(donor, patient) as usize, listed.count());
        }
    }

    #[test]
    fn another_rule_would_show_in_random_pools() {
        let mut random = Random::new(205);
        for kind in [PoolKind::Dense, PoolKind::Sparse] {
            let pool = random::pool(&mut random, 20, kind);
            let couples = pool.donor_antigens.iter().flat_map(|&donor| {
                let patients = pool.patient_antigens.iter();
                patients.map(move |&patient| (donor, patient))
            });
            let told_apart = |count: fn(u64, u64) -> u32| {
                let step = |count| mismatch_points(Points::DOCUMENT, count);
                let points = |(donor, patient)| step(count(donor, patient));
                let right = |(donor, patient)| step(mismatches(donor, patient));
                couples.clone().filter(|&c| points(c) != right(c)).count()
            };
            // Both sides, as it was once; the patient's; all of the donor's.
            assert!(told_apart(|donor, patient| (donor ^ patient).count_ones()) > 40);
            assert!(told_apart(|donor, patient| mismatches(patient, donor)) > 40);
            assert!(told_apart(|donor, _| donor.count_ones()) > 40);
        }
    }

    #[test]
    fn blood_suits_as_the_document_says() {
        let suits = |donor: usize| -> Vec<usize> {
            (0..4).filter(|&patient| SUITS[donor][patient]).collect()
        };
        assert_eq!(suits(0), [0, 1, 2, 3]);
        assert_eq!(suits(1), [1, 3]);
        assert_eq!(suits(2), [2, 3]);
        assert_eq!(suits(3), [3]);
    }

    #[test]
    fn an_antibody_forbids_and_the_row_is_the_donors() {
        let pool = Pool {
            ids: vec![1, 2],
            donor_bloods: vec![0, 0],
            patient_bloods: vec![3, 3],
            donor_ages: vec![0, 0],
            patient_ages: vec![0, 0],
            donor_antigens: vec![0b110, 0b001],
            patient_antigens: vec![0, 0],
            patient_antibodies: vec![0b110, 0b010],
            shuffle: vec![0, 1],
            ..Pool::default()
        };
        // Donor 0 meets patient 1's antibody; donor 1 meets none of 0's.
        let tables = build_pool(&pool).unwrap();
        assert_eq!(tables.m, [0, 0, 1, 0]);
        // Weights stand whatever M says.
        assert_eq!(tables.w, [0, 1_300, 1_300, 0]);
    }

    #[test]
    fn building_checks_in_order() {
        let good = Pool {
            ids: vec![7, 8, 9],
            donor_bloods: vec![0; 3],
            patient_bloods: vec![0; 3],
            donor_ages: vec![0; 3],
            patient_ages: vec![0; 3],
            donor_antigens: vec![0; 3],
            patient_antigens: vec![0; 3],
            patient_antibodies: vec![0; 3],
            ..Pool::default()
        };
        let reason = |pool: &Pool, n, m_len, w_len| {
            build(pool.version, n, &pool.points, pool.fields(), m_len, w_len).err()
        };
        assert_eq!(reason(&good, 3, 9, 9), None);
        assert_eq!(reason(&good, 2, 4, 4), None);
        assert_eq!(reason(&good, 0, 0, 0), None);
        assert_eq!(reason(&good, 201, 0, 0), Some(Reason::TooManyPairs));
        assert_eq!(reason(&good, usize::MAX, 0, 0), Some(Reason::TooManyPairs));
        assert_eq!(reason(&good, 4, 16, 16), Some(Reason::TooShort));
        assert_eq!(reason(&good, 3, 8, 9), Some(Reason::TooShort));
        assert_eq!(reason(&good, 3, 9, 8), Some(Reason::TooShort));

        // A repeated id of pair 1 comes before a wrong blood of pair 2, but
        // after one of its own; either comes before the tables to be filled,
        // and after a field too short.
        let mut bad = good.clone();
        bad.ids[1] = 7;
        bad.patient_bloods[2] = 4;
        assert_eq!(reason(&bad, 3, 0, 0), Some(Reason::RepeatedId));
        bad.donor_ages[1] = 2;
        assert_eq!(reason(&bad, 3, 0, 0), Some(Reason::Group));
        bad.patient_antibodies.truncate(2);
        assert_eq!(reason(&bad, 3, 0, 0), Some(Reason::TooShort));
        // Faults past the pairs asked for are none.
        assert_eq!(reason(&bad, 1, 1, 1), None);

        // 14 comes before them, 9 before it, for the points too, then 4 and 3.
        let mut points = Points::DOCUMENT;
        points.base = 0;
        let mut worse = bad.clone().with_points(points);
        worse.patient_antibodies = vec![0; 3];
        assert_eq!(reason(&worse, 3, 0, 0), Some(Reason::WrongPoints));
        assert_eq!(reason(&worse, 0, 0, 0), Some(Reason::WrongPoints));
        assert_eq!(reason(&worse, 4, 0, 0), Some(Reason::TooShort));
        worse.points.truncate(5);
        assert_eq!(reason(&worse, 3, 0, 0), Some(Reason::TooShort));
        assert_eq!(reason(&worse, 0, 0, 0), Some(Reason::TooShort));
        assert_eq!(reason(&worse, 201, 0, 0), Some(Reason::TooManyPairs));
        for version in [0, 3, 256 + 1, u16::MAX] {
            worse.version = version;
            assert_eq!(reason(&worse, 201, 0, 0), Some(Reason::Version));
        }
        // Version 1 has none of these.
        worse.version = 1;
        assert_eq!(reason(&worse, 1, 1, 1), None);
    }
}
