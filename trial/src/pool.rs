//! A pool in its fields, and the checks on them that reading, writing and
//! building share.

use crate::points::{self, Points};
use crate::refusal::Reason;

/// The versions of sheets and pools: 1, and 2 for pools with points of their
/// own.
pub const VERSIONS: [u16; 2] = [1, 2];

/// The greatest number of pairs, N.
pub const MOST_PAIRS: usize = 200;

/// The greatest blood: 0 is O, 1 is A, 2 is B, 3 is AB.
pub const MOST_BLOOD: u8 = 3;

/// The greatest age group: 0 is young, 1 is senior.
pub const MOST_AGE: u8 = 1;

/// A pool that owns its fields. Every table but that of the points has one
/// entry for each pair.
#[derive(Clone, Debug, PartialEq, Eq)]
pub struct Pool {
    /// The version, 1 or 2.
    pub version: u16,
    /// Of version 2, the six points; of version 1 none.
    pub points: Vec<u16>,
    /// Ids, no two alike.
    pub ids: Vec<u32>,
    /// Bloods of the donors.
    pub donor_bloods: Vec<u8>,
    /// Bloods of the patients.
    pub patient_bloods: Vec<u8>,
    /// Age groups of the donors.
    pub donor_ages: Vec<u8>,
    /// Age groups of the patients.
    pub patient_ages: Vec<u8>,
    /// Antigens of the donors, one bit for each entry of the list.
    pub donor_antigens: Vec<u64>,
    /// Antigens of the patients.
    pub patient_antigens: Vec<u64>,
    /// Antibodies of the patients.
    pub patient_antibodies: Vec<u64>,
    /// The shuffle: place p holds pair `shuffle[p]`.
    pub shuffle: Vec<u16>,
}

/// The pool of no pairs, of version 1.
impl Default for Pool {
    fn default() -> Pool {
        Pool {
            version: 1,
            points: Vec::new(),
            ids: Vec::new(),
            donor_bloods: Vec::new(),
            patient_bloods: Vec::new(),
            donor_ages: Vec::new(),
            patient_ages: Vec::new(),
            donor_antigens: Vec::new(),
            patient_antigens: Vec::new(),
            patient_antibodies: Vec::new(),
            shuffle: Vec::new(),
        }
    }
}

impl Pool {
    /// The same pairs in version 1, weighed by document 01's points.
    pub fn of_version_1(self) -> Pool {
        Pool {
            version: 1,
            points: Vec::new(),
            ..self
        }
    }

    /// The same pairs in version 2, with these points.
    pub fn with_points(self, points: Points) -> Pool {
        Pool {
            version: 2,
            points: points.table().to_vec(),
            ..self
        }
    }

    /// The same pairs with these points, or in version 1 where there are none.
    pub fn weighed_by(self, points: Option<Points>) -> Pool {
        match points {
            Some(points) => self.with_points(points),
            None => self.of_version_1(),
        }
    }

    /// The number of pairs, N.
    pub fn len(&self) -> usize {
        self.ids.len()
    }

    /// Whether there is no pair.
    pub fn is_empty(&self) -> bool {
        self.ids.is_empty()
    }

    /// The pairs' fields, without the shuffle.
    pub fn fields(&self) -> Fields<'_> {
        Fields {
            ids: &self.ids,
            donor_bloods: &self.donor_bloods,
            patient_bloods: &self.patient_bloods,
            donor_ages: &self.donor_ages,
            patient_ages: &self.patient_ages,
            donor_antigens: &self.donor_antigens,
            patient_antigens: &self.patient_antigens,
            patient_antibodies: &self.patient_antibodies,
        }
    }
}

/// The fields of a pool's pairs as a caller lends them: tables that may be
/// shorter than N, or longer, and hold anything.
#[derive(Clone, Copy, Debug, Default, PartialEq, Eq)]
pub struct Fields<'a> {
    /// Ids.
    pub ids: &'a [u32],
    /// Bloods of the donors.
    pub donor_bloods: &'a [u8],
    /// Bloods of the patients.
    pub patient_bloods: &'a [u8],
    /// Age groups of the donors.
    pub donor_ages: &'a [u8],
    /// Age groups of the patients.
    pub patient_ages: &'a [u8],
    /// Antigens of the donors.
    pub donor_antigens: &'a [u64],
    /// Antigens of the patients.
    pub patient_antigens: &'a [u64],
    /// Antibodies of the patients.
    pub patient_antibodies: &'a [u64],
}

impl Fields<'_> {
    /// The length of the shortest table.
    pub fn shortest(&self) -> usize {
        [
            self.ids.len(),
            self.donor_bloods.len(),
            self.patient_bloods.len(),
            self.donor_ages.len(),
            self.patient_ages.len(),
            self.donor_antigens.len(),
            self.patient_antigens.len(),
            self.patient_antibodies.len(),
        ]
        .into_iter()
        .min()
        .unwrap_or(0)
    }

    /// Checks 6, then 7, on pair `i`, which every table must reach.
    pub fn check_pair(&self, i: usize) -> Result<(), Reason> {
        let bloods = [self.donor_bloods[i], self.patient_bloods[i]];
        let ages = [self.donor_ages[i], self.patient_ages[i]];
        if bloods.iter().any(|&blood| blood > MOST_BLOOD) || ages.iter().any(|&age| age > MOST_AGE)
        {
            return Err(Reason::Group);
        }
        if self.ids[..i].contains(&self.ids[i]) {
            return Err(Reason::RepeatedId);
        }
        Ok(())
    }

    /// Checks 6 and 7 pair by pair over the first `n` pairs.
    pub fn check_pairs(&self, n: usize) -> Result<(), Reason> {
        (0..n).try_for_each(|i| self.check_pair(i))
    }
}

/// Refusal 3 of writing and building.
pub fn check_version(version: u16) -> Result<(), Reason> {
    if VERSIONS.contains(&version) {
        Ok(())
    } else {
        Err(Reason::Version)
    }
}

/// Whether a lent table of points is too short: "for version 2 a points table
/// shorter than six counts for 9". Version 1 has no points.
pub fn short_of_points(version: u16, points: usize) -> bool {
    version == 2 && points < points::COUNT
}

/// The points that a pool is weighed by: for version 2 those that were lent,
/// which 14 must let pass, and for version 1 document 01's.
pub fn points_of(version: u16, lent: &[u16]) -> Result<Points, Reason> {
    if version == 1 {
        return Ok(Points::DOCUMENT);
    }
    let points = Points::of(lent);
    points.check()?;
    Ok(points)
}

/// Whether the numbers are those from 0 to one less than their count, each
/// exactly once.
pub fn is_shuffle(numbers: &[u16]) -> bool {
    let mut seen = vec![false; numbers.len()];
    numbers.iter().all(|&number| {
        seen.get_mut(usize::from(number))
            .is_some_and(|seen| !std::mem::replace(seen, true))
    })
}

#[cfg(test)]
mod tests {
    use super::*;

    #[test]
    fn shuffles_hold_each_number_once() {
        assert!(is_shuffle(&[]));
        assert!(is_shuffle(&[0]));
        assert!(is_shuffle(&[2, 0, 1]));
        assert!(!is_shuffle(&[1]));
        assert!(!is_shuffle(&[0, 0]));
        assert!(!is_shuffle(&[0, 2]));
        assert!(!is_shuffle(&[0, 1, u16::MAX]));
    }
}
