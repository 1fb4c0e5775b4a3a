//! The points that a registry sets.

use crate::raw;

/// What a registry's edges are weighed by: the weight of a donor for a patient
/// is the base, plus the step for the mismatches, plus the step for the age
/// groups. Mismatches are the antigens of the donor that the patient does not
/// have; more than four of them, and a senior donor for a young patient, add
/// nothing. Steps need not fall, and all of them may be 0.
///
/// Any six numbers can be said; those whose base is 0, and those with which an
/// edge could weigh more than 65,535, are refused where a pool is made of them
/// ([`Pool::with_points`](crate::Pool::with_points)), or a live pool started
/// ([`LivePool::start`](crate::LivePool::start)).
///
/// ```
/// use vadivuzhen::Points;
///
/// // A registry to which age matters more than to document 01.
/// let points = Points {
///     equal_ages: 300,
///     ..Points::DOCUMENT
/// };
/// // As a sheet has them.
/// assert_eq!(<[u16; 6]>::from(points), [1_000, 400, 250, 100, 300, 30]);
/// assert_eq!(Points::from([1_000, 400, 250, 100, 300, 30]), points);
/// ```
#[derive(Clone, Copy, Debug, PartialEq, Eq, Hash)]
pub struct Points {
    /// What every edge weighs at least; not 0.
    pub base: u16,
    /// The step for no mismatch.
    pub no_mismatch: u16,
    /// The step for one mismatch or two.
    pub few_mismatches: u16,
    /// The step for three mismatches or four.
    pub some_mismatches: u16,
    /// The step for a donor and a patient of the same age group.
    pub equal_ages: u16,
    /// The step for a young donor and a senior patient.
    pub young_to_senior: u16,
}

impl Points {
    /// Document 01's points, by which pools of version 1 are weighed.
    pub const DOCUMENT: Points = Points {
        base: 1_000,
        no_mismatch: 400,
        few_mismatches: 250,
        some_mismatches: 100,
        equal_ages: 50,
        young_to_senior: 30,
    };
}

/// By the order of the sheet's field.
impl From<[u16; 6]> for Points {
    fn from(table: [u16; 6]) -> Points {
        let [base, no_mismatch, few_mismatches, some_mismatches, equal_ages, young_to_senior] =
            table;
        Points {
            base,
            no_mismatch,
            few_mismatches,
            some_mismatches,
            equal_ages,
            young_to_senior,
        }
    }
}

/// In the order of the sheet's field.
impl From<Points> for [u16; 6] {
    fn from(points: Points) -> [u16; 6] {
        [
            points.base,
            points.no_mismatch,
            points.few_mismatches,
            points.some_mismatches,
            points.equal_ages,
            points.young_to_senior,
        ]
    }
}

/// As [`raw::start`] takes them.
impl From<Points> for raw::Six {
    fn from(points: Points) -> raw::Six {
        raw::Six {
            base: points.base,
            none: points.no_mismatch,
            few: points.few_mismatches,
            some: points.some_mismatches,
            equal: points.equal_ages,
            young_to_senior: points.young_to_senior,
        }
    }
}
