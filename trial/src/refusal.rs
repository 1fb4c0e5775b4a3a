//! Refusals: document 01's numbers and places, and those that document 02 adds.

use std::fmt;

/// Why an input is turned back. The discriminants are document 01's numbers.
#[derive(Clone, Copy, Debug, PartialEq, Eq, PartialOrd, Ord, Hash)]
#[repr(u8)]
pub enum Reason {
    /// 1: a field's three-byte start, or its value, is cut off or missing.
    CutOff = 1,
    /// 2: the tag or the length is not the one due.
    NotDue = 2,
    /// 3: the version is neither 1 nor 2.
    Version = 3,
    /// 4: N is above 200.
    TooManyPairs = 4,
    /// 5: bytes are left over.
    LeftOver = 5,
    /// 6: a blood is above 3 or an age group above 1.
    Group = 6,
    /// 7: an id is that of an earlier pair.
    RepeatedId = 7,
    /// 8: the shuffle does not hold each number once.
    Shuffle = 8,
    /// 9: a lent buffer or table is too short.
    TooShort = 9,
    /// 10: in planning, an entry of M is above 1, or M(i, i) is not 0; in
    /// registering and withdrawing, a stored number is not the ones in its
    /// column of M.
    Entry = 10,
    /// 11: an id is in both of the sheets to be joined.
    SharedId = 11,
    /// 12: two sheets have more than 200 pairs together, or a live pool that is
    /// to get one more has 200.
    TooManyTogether = 12,
    /// 13: the floor is above 200,000.
    FloorTooHigh = 13,
    /// 14: the base is 0, or base, largest mismatch step and larger age step
    /// together exceed 65,535.
    WrongPoints = 14,
    /// 15: the versions or points of the sheets to be joined differ.
    DifferentPoints = 15,
    /// 16: the id to be withdrawn is not in the pool.
    UnknownId = 16,
    /// 17: a present edge weighs 0: M(i, j) is 1 and W(i, j) is 0.
    WeightlessEdge = 17,
}

impl Reason {
    /// All reasons, by number.
    pub const ALL: [Reason; 17] = [
        Reason::CutOff,
        Reason::NotDue,
        Reason::Version,
        Reason::TooManyPairs,
        Reason::LeftOver,
        Reason::Group,
        Reason::RepeatedId,
        Reason::Shuffle,
        Reason::TooShort,
        Reason::Entry,
        Reason::SharedId,
        Reason::TooManyTogether,
        Reason::FloorTooHigh,
        Reason::WrongPoints,
        Reason::DifferentPoints,
        Reason::UnknownId,
        Reason::WeightlessEdge,
    ];

    /// Document 01's number.
    pub const fn number(self) -> u8 {
        self as u8
    }

    /// The refusal for this reason at `place`.
    pub const fn at(self, place: usize) -> Refusal {
        Refusal {
            reason: self,
            place,
        }
    }
}

/// What reading, writing and joining answer when they turn an input back.
///
/// Building, planning and the calls of a live pool give a bare [`Reason`], since
/// theirs has no place.
#[derive(Clone, Copy, Debug, PartialEq, Eq, Hash)]
pub struct Refusal {
    /// Why.
    pub reason: Reason,
    /// The offset in the sheet of the field that is at fault; for 5 that of
    /// the first byte too many, for 9, 11, 12, 15 and in the writer 0.
    pub place: usize,
}

impl Refusal {
    /// The number and the place.
    pub const fn pair(self) -> (u8, usize) {
        (self.reason.number(), self.place)
    }
}

impl fmt::Display for Refusal {
    fn fmt(&self, f: &mut fmt::Formatter<'_>) -> fmt::Result {
        write!(f, "refused: {} at {}", self.reason.number(), self.place)
    }
}

impl std::error::Error for Refusal {}

#[cfg(test)]
mod tests {
    use super::*;

    #[test]
    fn reasons_are_numbered_from_one() {
        for (reason, number) in Reason::ALL.into_iter().zip(1..) {
            assert_eq!(reason.number(), number);
        }
    }
}
