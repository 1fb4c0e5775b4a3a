//! Refusals: document 01's numbers and places.

use crate::raw;
use std::error::Error;
use std::fmt;

/// Why an input is turned back. The discriminants are document 01's numbers.
///
/// Later requests add refusals, so a `match` outside this crate needs an arm
/// for the rest. `Refusal::try_from` gives the refusal of a number.
#[derive(Clone, Copy, Debug, PartialEq, Eq, PartialOrd, Ord, Hash)]
#[non_exhaustive]
#[repr(u32)]
pub enum Refusal {
    /// 1: a field's start or value is cut off or missing.
    CutOff = 1,
    /// 2: the tag or the length is not the one due.
    WrongField = 2,
    /// 3: the version is neither 1 nor 2.
    WrongVersion = 3,
    /// 4: there are more than 200 pairs.
    TooManyPairs = 4,
    /// 5: bytes are left over.
    LeftOver = 5,
    /// 6: a blood is above 3 or an age group above 1.
    OutOfRange = 6,
    /// 7: a pair has the id of an earlier one.
    RepeatedId = 7,
    /// 8: the shuffle does not hold each number once.
    NotAShuffle = 8,
    /// 9: a lent buffer or table is too short.
    TooShort = 9,
    /// 10: a compatibility entry is above 1, or a pair's own is not 0
    /// (planning); or a stored number is not the ones in its column of M
    /// (registering, withdrawing).
    NotCompatibility = 10,
    /// 11: an id is in both of the sheets to be joined.
    SharedId = 11,
    /// 12: two sheets have more than 200 pairs together, or one more is to be
    /// registered in a live pool of 200.
    TooManyTogether = 12,
    /// 13: the floor is above 200,000.
    FloorTooHigh = 13,
    /// 14: the base is 0, or base, largest mismatch step and larger age step
    /// together exceed 65,535.
    WrongPoints = 14,
    /// 15: the versions or points of the sheets to be joined differ.
    DifferentPoints = 15,
    /// 16: the id is not in the live pool.
    UnknownId = 16,
    /// 17: a present edge weighs 0: its compatibility is 1, and its weight is 0.
    WeightlessEdge = 17,
}

impl Refusal {
    /// All refusals, in order of their numbers.
    pub const ALL: &'static [Refusal] = &[
        Refusal::CutOff,
        Refusal::WrongField,
        Refusal::WrongVersion,
        Refusal::TooManyPairs,
        Refusal::LeftOver,
        Refusal::OutOfRange,
        Refusal::RepeatedId,
        Refusal::NotAShuffle,
        Refusal::TooShort,
        Refusal::NotCompatibility,
        Refusal::SharedId,
        Refusal::TooManyTogether,
        Refusal::FloorTooHigh,
        Refusal::WrongPoints,
        Refusal::DifferentPoints,
        Refusal::UnknownId,
        Refusal::WeightlessEdge,
    ];

    /// Document 01's number. It is not 0, which in an answer means that the
    /// call finished.
    pub const fn number(self) -> u32 {
        self as u32
    }

    /// The refusal at `place`.
    pub(crate) const fn at(self, place: usize) -> Refused {
        Refused { why: self, place }
    }
}

/// By document 01's number, as `refusal` in the answers of [`raw`] has it.
impl TryFrom<u32> for Refusal {
    type Error = UnknownRefusal;

    fn try_from(number: u32) -> Result<Refusal, UnknownRefusal> {
        let mut all = Refusal::ALL.iter().copied();
        all.find(|why| why.number() == number)
            .ok_or(UnknownRefusal(number))
    }
}

/// A number that no [`Refusal`] has.
#[derive(Clone, Copy, Debug, PartialEq, Eq, Hash)]
pub struct UnknownRefusal(pub u32);

impl fmt::Display for UnknownRefusal {
    fn fmt(&self, f: &mut fmt::Formatter<'_>) -> fmt::Result {
        write!(f, "{} is the number of no refusal known here", self.0)
    }
}

impl Error for UnknownRefusal {}

/// What a call answers when it turns an input back. Nothing has been changed.
#[derive(Clone, Copy, Debug, PartialEq, Eq, Hash)]
pub struct Refused {
    /// Why.
    pub why: Refusal,
    /// Of a refusal from 1 to 8 or 14, where a sheet was read or joined, the
    /// offset of the field at fault in that sheet, for
    /// [`LeftOver`](Refusal::LeftOver) that of the first byte too many; else
    /// 0.
    pub place: usize,
}

impl Refused {
    /// The line that the program `plan` prints of it.
    #[must_use = "the line is given back, and shown nowhere"]
    pub fn print(self) -> String {
        // `REFUSED`, two numbers of at most 20 digits, two spaces, a newline.
        let mut line = vec![0; 7 + 2 * 21 + 1];
        let answer = raw::print_refusal(self.why.number(), self.place, &mut line);
        sound(answer.refusal);
        text(line, answer.length)
    }
}

impl fmt::Display for Refused {
    fn fmt(&self, f: &mut fmt::Formatter<'_>) -> fmt::Result {
        let place = self.place;
        write!(f, "refusal {}: ", self.why.number())?;
        match self.why {
            Refusal::CutOff => write!(
                f,
                "the field at byte {place} is cut off or missing; ask the sender for the whole sheet"
            ),
            Refusal::WrongField => write!(
                f,
                "the field at byte {place} has not the tag and length due there; ask the sender for the fields in their order"
            ),
            Refusal::WrongVersion => write!(
                f,
                "the version is neither 1 nor 2; ask the sender for one of these"
            ),
            Refusal::TooManyPairs => {
                write!(f, "there are more than 200 pairs; plan a smaller pool")
            }
            Refusal::LeftOver => write!(
                f,
                "bytes are left over from byte {place} on; ask the sender for a sheet that ends there"
            ),
            Refusal::OutOfRange => write!(
                f,
                "{} has a blood above 3 or an age group above 1; ask the hospital for the right one",
                pair(place)
            ),
            Refusal::RepeatedId => write!(
                f,
                "{} has the id of an earlier pair; ask the hospital for an id of its own",
                pair(place)
            ),
            Refusal::NotAShuffle => write!(
                f,
                "the shuffle does not hold each pair's number once; have it drawn again"
            ),
            Refusal::TooShort => {
                write!(f, "a lent table or buffer is too short; lend a longer one")
            }
            Refusal::NotCompatibility => write!(
                f,
                "a compatibility entry is above 1 or a pair's own is not 0 (planning), or a stored number is not the ones in its column of M (registering, withdrawing); mend the table"
            ),
            Refusal::SharedId => write!(
                f,
                "a pair of the second sheet has the id of one of the first; ask the hospital for an id of its own"
            ),
            Refusal::TooManyTogether => write!(
                f,
                "there would be more than 200 pairs together; join smaller sheets, or withdraw a pair before one more registers"
            ),
            Refusal::FloorTooHigh => write!(
                f,
                "the floor is above 200,000, and so above every exchange; plan with a lower one"
            ),
            Refusal::WrongPoints => write!(
                f,
                "the base is 0, or base, largest mismatch step and larger age step together exceed 65,535; ask the sender for the registry's points"
            ),
            Refusal::DifferentPoints => write!(
                f,
                "the two sheets' versions or points differ; ask the sender for a sheet in the version of the other and with its points"
            ),
            Refusal::UnknownId => write!(
                f,
                "the id isn't in the pool; withdraw a pair by the id that it has there"
            ),
            Refusal::WeightlessEdge => write!(
                f,
                "a compatibility is 1 where the weight is 0, and no edge may weigh 0; give it its weight, or make the compatibility 0"
            ),
        }
    }
}

/// The pair whose field is at `place`, if the place is known.
fn pair(place: usize) -> String {
    match place {
        0 => "a pair".to_string(),
        _ => format!("the pair at byte {place}"),
    }
}

impl Error for Refused {}

/// What an answer's `refusal` and `place` mean.
///
/// Panics at a number that is not known. The library is proved to answer no
/// such number, so another one was linked, and nothing that it answers or
/// leaves can be relied on.
pub(crate) fn finished(refusal: u32, place: usize) -> Result<(), Refused> {
    if refusal == 0 {
        return Ok(());
    }
    match Refusal::try_from(refusal) {
        Ok(why) => Err(why.at(place)),
        Err(unknown) => panic!("{unknown}; link the library that this crate was written for"),
    }
}

/// For a call whose input is known to have no fault: the library accepts all
/// such input, so this does not panic.
pub(crate) fn sound(refusal: u32) {
    if let Err(refused) = finished(refusal, 0) {
        panic!("sound input was turned back: {refused}");
    }
}

/// The first bytes of a buffer that a text was printed into.
pub(crate) fn text(mut buffer: Vec<u8>, length: usize) -> String {
    buffer.truncate(length);
    String::from_utf8(buffer).expect("the printout is ASCII")
}

#[cfg(test)]
mod tests {
    use super::*;

    #[test]
    fn an_answer_finished_or_was_refused() {
        assert_eq!(finished(0, 42), Ok(()));
        assert_eq!(finished(7, 42), Err(Refusal::RepeatedId.at(42)));
    }

    #[test]
    #[should_panic(expected = "link the library that this crate was written for")]
    fn another_library_is_not_relied_on() {
        let _ = finished(u32::MAX, 0);
    }
}
