//! Late registrations join the sheet: one sheet of two (document 02, W-201),
//! which have equal versions and points (W-205).

use crate::pool::{Pool, MOST_PAIRS};
use crate::refusal::{Reason, Refusal};
use crate::sheet::{bytes, length, read};

/// Makes one sheet of two, for a buffer of `room` bytes.
///
/// Both are read, the first one first: a sheet's own refusal, 1 to 8 or 14, has
/// its place in that sheet. Then 15, 11, 12 and 9, all with place 0.
pub fn join(first: &[u8], second: &[u8], room: usize) -> Result<Vec<u8>, Refusal> {
    let first = read(first)?;
    let second = read(second)?;
    check(&first, &second, room).map_err(|reason| reason.at(0))?;
    Ok(bytes(&joined(first, second)))
}

/// What is checked after both sheets have been read, in order.
fn check(first: &Pool, second: &Pool, room: usize) -> Result<(), Reason> {
    if first.version != second.version || first.points != second.points {
        return Err(Reason::DifferentPoints);
    }
    if first.ids.iter().any(|id| second.ids.contains(id)) {
        return Err(Reason::SharedId);
    }
    let together = first.len() + second.len();
    if together > MOST_PAIRS {
        return Err(Reason::TooManyTogether);
    }
    if room < length(first.version, together) {
        return Err(Reason::TooShort);
    }
    Ok(())
}

/// The version and points of both; the first's pairs, then the second's; the
/// first's shuffle, then the second's with the first's N added to each number.
fn joined(first: Pool, second: Pool) -> Pool {
    let n = first.len() as u16;
    let raised = second.shuffle.iter().map(|number| n + number).collect();
    Pool {
        version: first.version,
        points: first.points,
        ids: [first.ids, second.ids].concat(),
        donor_bloods: [first.donor_bloods, second.donor_bloods].concat(),
        patient_bloods: [first.patient_bloods, second.patient_bloods].concat(),
        donor_ages: [first.donor_ages, second.donor_ages].concat(),
        patient_ages: [first.patient_ages, second.patient_ages].concat(),
        donor_antigens: [first.donor_antigens, second.donor_antigens].concat(),
        patient_antigens: [first.patient_antigens, second.patient_antigens].concat(),
        patient_antibodies: [first.patient_antibodies, second.patient_antibodies].concat(),
        shuffle: [first.shuffle, raised].concat(),
    }
}
