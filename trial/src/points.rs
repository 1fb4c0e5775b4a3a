//! The points that edges are weighed by: document 01's, and those that a
//! registry sets (document 02, W-205).

use crate::refusal::Reason;

/// How many points a registry sets.
pub const COUNT: usize = 6;

/// What base, largest mismatch step and larger age step may be together.
pub const MOST_TOGETHER: u32 = 65_535;

/// The most mismatches that are few.
pub const FEW: u32 = 2;

/// The most mismatches that are some.
pub const SOME: u32 = 4;

/// The six points, in the order of the sheet's field. What is not said here,
/// more than [`SOME`] mismatches or a senior donor for a young patient, gives 0.
#[derive(Clone, Copy, Debug, PartialEq, Eq)]
pub struct Points {
    /// What every edge weighs at least.
    pub base: u16,
    /// No mismatch.
    pub no_mismatch: u16,
    /// Mismatches up to [`FEW`].
    pub few_mismatches: u16,
    /// Mismatches up to [`SOME`].
    pub some_mismatches: u16,
    /// Donor and patient of the same age group.
    pub same_age: u16,
    /// A young donor and a senior patient.
    pub young_to_senior: u16,
}

impl Points {
    /// Document 01's, which version 1 sheets keep.
    pub const DOCUMENT: Points = Points {
        base: 1_000,
        no_mismatch: 400,
        few_mismatches: 250,
        some_mismatches: 100,
        same_age: 50,
        young_to_senior: 30,
    };

    /// The points in a table's first six entries, which it must have.
    pub fn of(table: &[u16]) -> Points {
        Points {
            base: table[0],
            no_mismatch: table[1],
            few_mismatches: table[2],
            some_mismatches: table[3],
            same_age: table[4],
            young_to_senior: table[5],
        }
    }

    /// The points as the entries of a table.
    pub const fn table(self) -> [u16; COUNT] {
        [
            self.base,
            self.no_mismatch,
            self.few_mismatches,
            self.some_mismatches,
            self.same_age,
            self.young_to_senior,
        ]
    }

    /// Checks 14: the base is not 0, and no edge weighs too much.
    pub fn check(self) -> Result<(), Reason> {
        let mismatch = [self.no_mismatch, self.few_mismatches, self.some_mismatches];
        let largest = mismatch.into_iter().max().unwrap_or(0);
        let larger = self.same_age.max(self.young_to_senior);
        let together = u32::from(self.base) + u32::from(largest) + u32::from(larger);
        if self.base == 0 || together > MOST_TOGETHER {
            return Err(Reason::WrongPoints);
        }
        Ok(())
    }
}

#[cfg(test)]
mod tests {
    use super::*;

    /// Whether these points pass.
    fn passes(table: [u16; COUNT]) -> bool {
        let points = Points::of(&table);
        assert_eq!(points.table(), table);
        points.check().is_ok()
    }

    #[test]
    fn the_points_of_the_document_pass() {
        assert!(passes(Points::DOCUMENT.table()));
        let table = [1_000, 400, 250, 100, 50, 30];
        assert_eq!(Points::DOCUMENT.table(), table);
        assert_eq!(Points::of(&[&table[..], &[7, 8]].concat()).table(), table);
    }

    #[test]
    fn a_base_of_0_does_not_pass() {
        assert!(!passes([0; COUNT]));
        assert!(!passes([0, 400, 250, 100, 50, 30]));
        assert!(!passes([0, 65_535, 0, 0, 0, 0]));
        assert!(passes([1, 0, 0, 0, 0, 0]));
        assert!(passes([65_535, 0, 0, 0, 0, 0]));
    }

    #[test]
    fn the_largest_step_counts_wherever_it_stands() {
        assert!(passes([1, 0, 0, 65_534, 0, 0]));
        assert!(!passes([2, 0, 0, 65_534, 0, 0]));
        for largest in 1..=3 {
            for larger in 4..=5 {
                for (base, due) in [(30_000, true), (30_001, false)] {
                    let mut table = [base, 0, 0, 0, 0, 0];
                    (table[largest], table[larger]) = (20_000, 15_535);
                    assert_eq!(passes(table), due, "{table:?}");
                    // Lesser steps beside them change nothing, and equal ones.
                    for beside in [1, 15_535] {
                        let mut full = table;
                        for step in full[1..].iter_mut().filter(|step| **step == 0) {
                            *step = beside;
                        }
                        assert_eq!(passes(full), due, "{full:?}");
                    }
                }
            }
        }
    }

    #[test]
    fn sums_that_would_wrap_do_not_pass() {
        assert!(!passes([u16::MAX; COUNT]));
        assert!(!passes([1, u16::MAX, 0, 0, 0, 0]));
        assert!(!passes([1, 0, 0, 0, 0, u16::MAX]));
        assert!(!passes([2, 0, u16::MAX, 0, u16::MAX, 0]));
        assert!(!passes([32_768, 0, 0, 32_768, 0, 0]));
    }
}
