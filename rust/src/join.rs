//! Two sheets made into one.

use crate::pool::LONGEST_SHEET;
use crate::raw;
use crate::refused::{finished, Refused};

/// The sheet of two sheets' pairs: the first's, then the second's. The shuffle
/// is the first's, then the second's with the first's number of pairs added to
/// each number. The two have the same version and points, and so has the joined
/// one. Joining with a sheet of no pairs gives the other one, byte for byte.
///
/// # Errors
///
/// The first fault of the first sheet, as [`Pool::read`](crate::Pool::read)
/// finds it; then that of the second. The place is in the sheet at fault, and
/// which one that is, reading the first alone tells. After these,
/// [`DifferentPoints`](crate::Refusal::DifferentPoints) where their versions or
/// points differ, also where one has no pairs, and where one is of version 1
/// and the other has document 01's points in version 2;
/// [`SharedId`](crate::Refusal::SharedId) where an id is in both, and
/// [`TooManyTogether`](crate::Refusal::TooManyTogether) where there are more
/// than [`MOST_PAIRS`](crate::MOST_PAIRS) pairs together. Room for the sheet is
/// lent here, so it is never too short.
///
/// # Example
///
/// ```
/// use vadivuzhen::{join, Age, Blood, Pair, Pool, Refusal};
///
/// let pair = |id| Pair {
///     id,
///     donor_blood: Blood::A,
///     patient_blood: Blood::B,
///     donor_age: Age::Young,
///     patient_age: Age::Senior,
///     donor_antigens: 0,
///     patient_antigens: 0,
///     patient_antibodies: 0,
/// };
/// // What came in time, and what came on the day of the match.
/// let sheet = Pool::new(&[pair(11), pair(12)], &[0, 1])?.write();
/// let addendum = Pool::new(&[pair(13), pair(14)], &[1, 0])?.write();
///
/// let joined = Pool::read(&join(&sheet, &addendum)?)?;
/// assert_eq!(joined.ids(), [11, 12, 13, 14]);
/// assert_eq!(joined.shuffle(), [0, 1, 3, 2]);
///
/// let again = join(&sheet, &sheet).expect_err("every id is in both");
/// assert_eq!(again.why, Refusal::SharedId);
/// # Ok::<(), vadivuzhen::Refused>(())
/// ```
#[must_use = "the sheet is given back, and stored nowhere"]
pub fn join(first: &[u8], second: &[u8]) -> Result<Vec<u8>, Refused> {
    let mut sheet = vec![0; LONGEST_SHEET];
    let answer = raw::join(first, second, &mut sheet);
    finished(answer.refusal, answer.place)?;
    sheet.truncate(answer.length);
    Ok(sheet)
}
