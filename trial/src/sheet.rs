//! The pool sheet: reading and writing.
//!
//! A sheet is a row of fields, each a tag of one byte, the length of its value
//! in two, and the value. Numbers of several bytes have the high byte first.
//! Sheets of version 2 have a field more, the points, after the head.

use crate::points::{self, Points};
use crate::pool::{
    check_version, is_shuffle, points_of, short_of_points, Fields, Pool, MOST_PAIRS,
};
use crate::refusal::{Reason, Refusal};

/// Length of a field's start: its tag and the length of its value.
pub const START: usize = 3;

/// Length of the value of the first field: version and N.
pub const HEAD: usize = 4;

/// Length of the value of the points' field: six numbers of two bytes.
pub const POINTS: usize = 2 * points::COUNT;

/// Length of the value of a pair's field.
pub const PAIR: usize = 32;

/// Length of the longest sheet: one of version 2.
pub const LONGEST: usize = length(2, MOST_PAIRS);

const TAG_HEAD: u8 = 1;
const TAG_PAIR: u8 = 2;
const TAG_SHUFFLE: u8 = 3;
const TAG_POINTS: u8 = 4;

/// The example sheet of document 01: two pairs that give to each other.
pub const EXAMPLE: [u8; length(1, 2)] = {
    let mut sheet = [0; length(1, 2)];
    let (first, second) = (offset_of_pair(1, 0), offset_of_pair(1, 1));
    let last = offset_of_shuffle(1, 2);
    // 01 0004 0001 0002
    (sheet[0], sheet[2], sheet[4], sheet[6]) = (0x01, 0x04, 0x01, 0x02);
    // 02 0020 0000000B 01 02 00 00 and 24 zero bytes
    (sheet[first], sheet[first + 2], sheet[first + 6]) = (0x02, 0x20, 0x0B);
    (sheet[first + 7], sheet[first + 8]) = (0x01, 0x02);
    // 02 0020 0000000C 02 01 00 00 and 24 zero bytes
    (sheet[second], sheet[second + 2], sheet[second + 6]) = (0x02, 0x20, 0x0C);
    (sheet[second + 7], sheet[second + 8]) = (0x02, 0x01);
    // 03 0004 0000 0001
    (sheet[last], sheet[last + 2], sheet[last + 6]) = (0x03, 0x04, 0x01);
    sheet
};

/// Where the points' field begins in a sheet of version 2.
pub const OFFSET_OF_POINTS: usize = START + HEAD;

/// Where the first pair's field begins: after the head, and for version 2 after
/// the points.
const fn start_of_pairs(version: u16) -> usize {
    match version {
        2 => OFFSET_OF_POINTS + START + POINTS,
        _ => START + HEAD,
    }
}

/// Where the field of pair `i` begins.
pub const fn offset_of_pair(version: u16, i: usize) -> usize {
    start_of_pairs(version) + i * (START + PAIR)
}

/// Where the shuffle's field begins in a sheet of `n` pairs.
pub const fn offset_of_shuffle(version: u16, n: usize) -> usize {
    offset_of_pair(version, n)
}

/// The length of a sheet of `n` pairs.
pub const fn length(version: u16, n: usize) -> usize {
    offset_of_shuffle(version, n) + START + 2 * n
}

/// Where the fields of a sheet of `n` pairs begin: the head, the points in
/// version 2, the pairs, the shuffle.
pub fn offsets(version: u16, n: usize) -> Vec<usize> {
    let mut offsets = vec![0];
    if version == 2 {
        offsets.push(OFFSET_OF_POINTS);
    }
    offsets.extend((0..n).map(|i| offset_of_pair(version, i)));
    offsets.push(offset_of_shuffle(version, n));
    offsets
}

/// The field of these points, as a sheet of version 2 has it, whether 14 lets
/// them pass or not.
pub fn points_field(points: [u16; points::COUNT]) -> Vec<u8> {
    let mut field = Vec::with_capacity(START + POINTS);
    start_field(&mut field, TAG_POINTS, POINTS);
    field.extend(points.iter().flat_map(|point| point.to_be_bytes()));
    field
}

/// Reads a sheet: refusals 1 to 8 and 14, at the first fault met going forward.
///
/// Refusal 9 belongs to tables lent by a caller; see [`fits`].
pub fn read(sheet: &[u8]) -> Result<Pool, Refusal> {
    let mut cursor = Cursor { sheet, offset: 0 };

    let (place, value) = cursor.field(TAG_HEAD, HEAD)?;
    let version = number(&value[..2]) as u16;
    check_version(version).map_err(|reason| reason.at(place))?;
    let n = number(&value[2..]) as usize;
    if n > MOST_PAIRS {
        return Err(Reason::TooManyPairs.at(place));
    }

    let mut pool = Pool {
        version,
        ..Pool::default()
    };
    if version == 2 {
        let (place, value) = cursor.field(TAG_POINTS, POINTS)?;
        pool.points = value.chunks(2).map(|two| number(two) as u16).collect();
        let points = Points::of(&pool.points);
        points.check().map_err(|reason| reason.at(place))?;
    }
    for i in 0..n {
        let (place, value) = cursor.field(TAG_PAIR, PAIR)?;
        pool.ids.push(number(&value[..4]) as u32);
        pool.donor_bloods.push(value[4]);
        pool.patient_bloods.push(value[5]);
        pool.donor_ages.push(value[6]);
        pool.patient_ages.push(value[7]);
        pool.donor_antigens.push(number(&value[8..16]));
        pool.patient_antigens.push(number(&value[16..24]));
        pool.patient_antibodies.push(number(&value[24..]));
        pool.fields()
            .check_pair(i)
            .map_err(|reason| reason.at(place))?;
    }

    let (place, value) = cursor.field(TAG_SHUFFLE, 2 * n)?;
    pool.shuffle = value.chunks(2).map(|two| number(two) as u16).collect();
    if !is_shuffle(&pool.shuffle) {
        return Err(Reason::Shuffle.at(place));
    }

    if cursor.offset < sheet.len() {
        return Err(Reason::LeftOver.at(cursor.offset));
    }
    Ok(pool)
}

/// Refusal 9 of reading, which comes after all others: whether tables of
/// these lengths, the shuffle's among them, can take `pool`, and one of
/// `points` entries its points.
pub fn fits(pool: &Pool, points: usize, lengths: &[usize]) -> Result<(), Refusal> {
    let short = lengths.iter().any(|&length| length < pool.len());
    if short || short_of_points(pool.version, points) {
        return Err(Reason::TooShort.at(0));
    }
    Ok(())
}

/// Writes the sheet of a pool of `n` pairs in that version, for a buffer of
/// `room` bytes.
///
/// The tables are a caller's: only their first `n` entries count, and of the
/// points, which version 1 does not look at, the first six; a table with fewer
/// is refused. Checks 3; 4; 9 for those tables; 14; 6 and 7 pair by pair; 8; 9
/// for the buffer. All places are 0.
pub fn write(
    version: u16,
    n: usize,
    points: &[u16],
    fields: Fields<'_>,
    shuffle: &[u16],
    room: usize,
) -> Result<Vec<u8>, Refusal> {
    check_written(version, n, points, fields, shuffle, room).map_err(|reason| reason.at(0))?;
    Ok(bytes_of(version, n, points, fields, shuffle))
}

/// Writes the sheet of a pool, for a buffer of `room` bytes.
pub fn write_pool(pool: &Pool, room: usize) -> Result<Vec<u8>, Refusal> {
    let (points, fields) = (&pool.points, pool.fields());
    write(
        pool.version,
        pool.len(),
        points,
        fields,
        &pool.shuffle,
        room,
    )
}

/// The sheet of a pool that has no fault.
pub(crate) fn bytes(pool: &Pool) -> Vec<u8> {
    let (points, fields) = (&pool.points, pool.fields());
    bytes_of(pool.version, pool.len(), points, fields, &pool.shuffle)
}

/// The sheet of the first `n` pairs of tables that have no fault.
fn bytes_of(
    version: u16,
    n: usize,
    points: &[u16],
    fields: Fields<'_>,
    shuffle: &[u16],
) -> Vec<u8> {
    let mut sheet = Vec::with_capacity(length(version, n));
    start_field(&mut sheet, TAG_HEAD, HEAD);
    sheet.extend(version.to_be_bytes());
    sheet.extend((n as u16).to_be_bytes());
    if version == 2 {
        sheet.extend(points_field(Points::of(points).table()));
    }
    for i in 0..n {
        start_field(&mut sheet, TAG_PAIR, PAIR);
        sheet.extend(fields.ids[i].to_be_bytes());
        sheet.push(fields.donor_bloods[i]);
        sheet.push(fields.patient_bloods[i]);
        sheet.push(fields.donor_ages[i]);
        sheet.push(fields.patient_ages[i]);
        sheet.extend(fields.donor_antigens[i].to_be_bytes());
        sheet.extend(fields.patient_antigens[i].to_be_bytes());
        sheet.extend(fields.patient_antibodies[i].to_be_bytes());
    }
    start_field(&mut sheet, TAG_SHUFFLE, 2 * n);
    sheet.extend(shuffle[..n].iter().flat_map(|number| number.to_be_bytes()));
    sheet
}

/// The writer's checks, in order.
fn check_written(
    version: u16,
    n: usize,
    points: &[u16],
    fields: Fields<'_>,
    shuffle: &[u16],
    room: usize,
) -> Result<(), Reason> {
    check_version(version)?;
    if n > MOST_PAIRS {
        return Err(Reason::TooManyPairs);
    }
    let short = fields.shortest() < n || shuffle.len() < n;
    if short || short_of_points(version, points.len()) {
        return Err(Reason::TooShort);
    }
    points_of(version, points)?;
    fields.check_pairs(n)?;
    if !is_shuffle(&shuffle[..n]) {
        return Err(Reason::Shuffle);
    }
    if room < length(version, n) {
        return Err(Reason::TooShort);
    }
    Ok(())
}

/// Writes a field's start.
fn start_field(sheet: &mut Vec<u8>, tag: u8, length: usize) {
    sheet.push(tag);
    sheet.extend((length as u16).to_be_bytes());
}

/// The number in these bytes, the high one first.
fn number(bytes: &[u8]) -> u64 {
    bytes
        .iter()
        .fold(0, |number, &byte| number << 8 | u64::from(byte))
}

/// A sheet being read, and how far.
struct Cursor<'a> {
    sheet: &'a [u8],
    offset: usize,
}

impl<'a> Cursor<'a> {
    /// Takes the field that is due: its place and its value.
    ///
    /// Start 1, tag and length 2, value 1.
    fn field(&mut self, tag: u8, length: usize) -> Result<(usize, &'a [u8]), Refusal> {
        let place = self.offset;
        let start = self.take(START).ok_or(Reason::CutOff.at(place))?;
        if start[0] != tag || number(&start[1..]) != length as u64 {
            return Err(Reason::NotDue.at(place));
        }
        let value = self.take(length).ok_or(Reason::CutOff.at(place))?;
        Ok((place, value))
    }

    /// Takes the next bytes, if there are that many.
    fn take(&mut self, count: usize) -> Option<&'a [u8]> {
        let taken = self.sheet.get(self.offset..self.offset + count)?;
        self.offset += count;
        Some(taken)
    }
}

#[cfg(test)]
mod tests {
    use super::*;

    #[test]
    fn the_longest_sheet() {
        assert_eq!((length(1, 0), length(1, MOST_PAIRS)), (10, 7_410));
        assert_eq!((length(2, 0), length(2, MOST_PAIRS)), (25, 7_425));
        assert_eq!(LONGEST, 7_425);
        assert_eq!((offset_of_pair(1, 0), offset_of_pair(2, 0)), (7, 22));
        assert_eq!(offsets(1, 2), [0, 7, 42, 77]);
        assert_eq!(offsets(2, 2), [0, 7, 22, 57, 92]);
    }

    #[test]
    fn the_example_is_as_printed_in_the_document() {
        let text = "01 0004 0001 0002 \
                    02 0020 0000000B 01 02 00 00 \
                    0000000000000000 0000000000000000 0000000000000000 \
                    02 0020 0000000C 02 01 00 00 \
                    0000000000000000 0000000000000000 0000000000000000 \
                    03 0004 0000 0001";
        let digits: Vec<u8> = text
            .chars()
            .filter_map(|digit| digit.to_digit(16))
            .map(|digit| digit as u8)
            .collect();
        let bytes: Vec<u8> = digits.chunks(2).map(|two| two[0] << 4 | two[1]).collect();
        assert_eq!(bytes, EXAMPLE);
    }

    #[test]
    fn the_example_is_read_into_its_fields() {
        let pool = read(&EXAMPLE).unwrap();
        assert_eq!(
            pool,
            Pool {
                version: 1,
                points: vec![],
                ids: vec![11, 12],
                donor_bloods: vec![1, 2],
                patient_bloods: vec![2, 1],
                donor_ages: vec![0, 0],
                patient_ages: vec![0, 0],
                donor_antigens: vec![0, 0],
                patient_antigens: vec![0, 0],
                patient_antibodies: vec![0, 0],
                shuffle: vec![0, 1],
            }
        );
        assert_eq!(fits(&pool, 0, &[2, 3]), Ok(()));
        assert_eq!(fits(&pool, 0, &[2, 1]), Err(Reason::TooShort.at(0)));
        let two = pool.with_points(Points::DOCUMENT);
        assert_eq!(fits(&two, 6, &[2, 3]), Ok(()));
        assert_eq!(fits(&two, 7, &[2, 1]), Err(Reason::TooShort.at(0)));
        assert_eq!(fits(&two, 5, &[2, 3]), Err(Reason::TooShort.at(0)));
    }

    #[test]
    fn the_points_stand_after_the_head_in_their_order() {
        let points = Points {
            base: 0x0102,
            no_mismatch: 0x0304,
            few_mismatches: 0x0506,
            some_mismatches: 0x0708,
            same_age: 0x090A,
            young_to_senior: 0x0B0C,
        };
        let pool = read(&EXAMPLE).unwrap().with_points(points);
        let sheet = write_pool(&pool, LONGEST).unwrap();
        assert_eq!(sheet.len(), 99);
        assert_eq!(sheet[..7], [1, 0, 4, 0, 2, 0, 2]);
        assert_eq!(sheet[7..10], [4, 0, 12]);
        assert_eq!(sheet[10..22], [1, 2, 3, 4, 5, 6, 7, 8, 9, 10, 11, 12]);
        assert_eq!(sheet[22..], EXAMPLE[7..]);
        assert_eq!(read(&sheet), Ok(pool));
    }

    #[test]
    fn every_byte_of_a_pair_has_its_field() {
        let mut sheet = EXAMPLE;
        let value = offset_of_pair(1, 1) + START;
        for (byte, at) in (0x81..).zip(value..value + 4) {
            sheet[at] = byte;
        }
        for (byte, at) in (0xA0..).zip(value + 8..value + PAIR) {
            sheet[at] = byte;
        }
        sheet[value + 4..value + 8].copy_from_slice(&[3, 0, 1, 0]);
        let pool = read(&sheet).unwrap();
        assert_eq!(pool.ids[1], 0x8182_8384);
        assert_eq!((pool.donor_bloods[1], pool.patient_bloods[1]), (3, 0));
        assert_eq!((pool.donor_ages[1], pool.patient_ages[1]), (1, 0));
        assert_eq!(pool.donor_antigens[1], 0xA0A1_A2A3_A4A5_A6A7);
        assert_eq!(pool.patient_antigens[1], 0xA8A9_AAAB_ACAD_AEAF);
        assert_eq!(pool.patient_antibodies[1], 0xB0B1_B2B3_B4B5_B6B7);
    }

    #[test]
    fn the_empty_pool_still_has_a_shuffle() {
        let sheet = [1, 0, 4, 0, 1, 0, 0, 3, 0, 0];
        assert_eq!(read(&sheet), Ok(Pool::default()));
        let written = write(1, 0, &[], Fields::default(), &[], 10);
        assert_eq!(written.unwrap(), sheet);
        assert_eq!(read(&sheet[..7]), Err(Reason::CutOff.at(7)));
    }
}
