//! The library's functions as they are: slices in, an answer out.
//!
//! The functions of this module are safe with slices of any length and any
//! contents. The library is proved for all of them: what does not fit it
//! refuses, and then every lent table is as it was. What lies past the entries
//! that a call fills is unchanged as well.
//!
//! `refusal` in an answer is document 01's number, and 0 where the call
//! finished. On a refusal every other number but `place` is 0.
//!
//! ```
//! use vadivuzhen::{raw, Refusal};
//!
//! let mut line = [0; 40];
//! let answer = raw::print_refusal(7, 42, &mut line);
//! assert_eq!(answer.refusal, 0);
//! assert_eq!(&line[..answer.length], b"REFUSED 7 42\n");
//!
//! let mut short = [0; 5];
//! let answer = raw::print_refusal(7, 42, &mut short);
//! assert_eq!(Refusal::try_from(answer.refusal), Ok(Refusal::TooShort));
//! assert_eq!(short, [0; 5]);
//! ```
//!
//! Who does not look at an answer cannot know whether anything was filled. The
//! compiler warns of that:
//!
//! ```compile_fail
//! #![deny(unused_must_use)]
//! let mut line = [0; 40];
//! vadivuzhen::raw::print_refusal(7, 42, &mut line);
//! ```

/// A chosen cycle: three pair numbers in giving order from the lowest place.
/// In a two the third is N.
#[repr(C)]
#[derive(Clone, Copy, Debug, Default, PartialEq, Eq, Hash)]
pub struct Cycle {
    /// The pair at the lowest place.
    pub first: u16,
    /// The pair whose patient receives from the first pair's donor.
    pub second: u16,
    /// The pair whose patient receives from the second pair's donor; N in a
    /// two.
    pub third: u16,
}

/// What [`read`] answers.
#[repr(C)]
#[derive(Clone, Copy, Debug, Default, PartialEq, Eq, Hash)]
#[must_use = "the call may have refused"]
pub struct ReadAnswer {
    /// Document 01's number of the refusal, or 0.
    pub refusal: u32,
    /// The sheet's version, 1 or 2; of a refusal, 0.
    pub version: u16,
    /// The offset that goes with the refusal.
    pub place: usize,
    /// The number of pairs, N.
    pub pairs: usize,
}

/// What [`write()`] answers.
#[repr(C)]
#[derive(Clone, Copy, Debug, Default, PartialEq, Eq, Hash)]
#[must_use = "the call may have refused"]
pub struct WriteAnswer {
    /// Document 01's number of the refusal, or 0.
    pub refusal: u32,
    /// The sheet's length in bytes.
    pub length: usize,
}

/// What [`join`] answers.
#[repr(C)]
#[derive(Clone, Copy, Debug, Default, PartialEq, Eq, Hash)]
#[must_use = "the call may have refused"]
pub struct JoinAnswer {
    /// Document 01's number of the refusal, or 0.
    pub refusal: u32,
    /// Of a sheet's own refusal, 1 to 8 or 14, the offset in that sheet; of
    /// 15, 11, 12 and 9, 0.
    pub place: usize,
    /// The joined sheet's length in bytes.
    pub length: usize,
}

/// What [`build`] answers.
#[repr(C)]
#[derive(Clone, Copy, Debug, Default, PartialEq, Eq, Hash)]
#[must_use = "the call may have refused"]
pub struct BuildAnswer {
    /// Document 01's number of the refusal, or 0.
    pub refusal: u32,
}

/// What [`start`], [`register`] and [`withdraw`] answer.
#[repr(C)]
#[derive(Clone, Copy, Debug, Default, PartialEq, Eq, Hash)]
#[must_use = "the call may have refused"]
pub struct LiveAnswer {
    /// Document 01's number of the refusal, or 0.
    pub refusal: u32,
}

/// What [`plan`] answers.
#[repr(C)]
#[derive(Clone, Copy, Debug, Default, PartialEq, Eq, Hash)]
#[must_use = "the call may have refused"]
pub struct PlanAnswer {
    /// Document 01's number of the refusal, or 0.
    pub refusal: u32,
    /// The number of planned cycles: as many records are filled.
    pub cycles: usize,
    /// The plan's weight.
    pub weight: u64,
    /// How many secrets were compared.
    pub comparisons: u64,
    /// How many secrets were multiplied.
    pub products: u64,
    /// How many rounds were gone through.
    pub rounds: u64,
}

/// What [`print_plan`] and [`print_refusal`] answer.
#[repr(C)]
#[derive(Clone, Copy, Debug, Default, PartialEq, Eq, Hash)]
#[must_use = "the call may have refused"]
pub struct PrintAnswer {
    /// Document 01's number of the refusal, or 0.
    pub refusal: u32,
    /// The text's length in bytes.
    pub length: usize,
}

/// The pairs' fields as tables that a call reads.
#[derive(Clone, Copy, Debug, Default)]
pub struct Fields<'a> {
    /// Ids.
    pub ids: &'a [u32],
    /// Bloods of the donors.
    pub donor_blood: &'a [u8],
    /// Bloods of the patients.
    pub patient_blood: &'a [u8],
    /// Age groups of the donors.
    pub donor_age: &'a [u8],
    /// Age groups of the patients.
    pub patient_age: &'a [u8],
    /// Antigens of the donors.
    pub donor_antigens: &'a [u64],
    /// Antigens of the patients.
    pub patient_antigens: &'a [u64],
    /// Antibodies of the patients.
    pub patient_antibodies: &'a [u64],
}

/// A pool's tables, lent to be filled by [`read`]: the points, the pairs'
/// fields, and the shuffle.
#[derive(Debug, Default)]
pub struct LentPool<'a> {
    /// The points, six for version 2. For version 1 they are neither read nor
    /// changed, however many there are.
    pub points: &'a mut [u16],
    /// Ids.
    pub ids: &'a mut [u32],
    /// Bloods of the donors.
    pub donor_blood: &'a mut [u8],
    /// Bloods of the patients.
    pub patient_blood: &'a mut [u8],
    /// Age groups of the donors.
    pub donor_age: &'a mut [u8],
    /// Age groups of the patients.
    pub patient_age: &'a mut [u8],
    /// Antigens of the donors.
    pub donor_antigens: &'a mut [u64],
    /// Antigens of the patients.
    pub patient_antigens: &'a mut [u64],
    /// Antibodies of the patients.
    pub patient_antibodies: &'a mut [u64],
    /// The shuffle: place p holds pair `shuffle[p]`.
    pub shuffle: &'a mut [u16],
}

/// The six points that [`start`] is given, in the order of the sheet.
#[repr(C)]
#[derive(Clone, Copy, Debug, Default, PartialEq, Eq, Hash)]
pub struct Six {
    /// What every edge weighs at least; not 0.
    pub base: u16,
    /// The step for no mismatch.
    pub none: u16,
    /// The step for one mismatch or two.
    pub few: u16,
    /// The step for three mismatches or four.
    pub some: u16,
    /// The step for equal age groups.
    pub equal: u16,
    /// The step for a young donor and a senior patient.
    pub young_to_senior: u16,
}

/// The pair that [`register`] is given. Its fields may be any.
#[repr(C)]
#[derive(Clone, Copy, Debug, Default, PartialEq, Eq, Hash)]
pub struct Pair {
    /// Id.
    pub id: u32,
    /// Blood of the donor.
    pub donor_blood: u8,
    /// Blood of the patient.
    pub patient_blood: u8,
    /// Age group of the donor.
    pub donor_age: u8,
    /// Age group of the patient.
    pub patient_age: u8,
    /// Antigens of the donor.
    pub donor_antigens: u64,
    /// Antigens of the patient.
    pub patient_antigens: u64,
    /// Antibodies of the patient.
    pub patient_antibodies: u64,
}

/// A live pool, lent to [`register`] and [`withdraw`]: the count, the points,
/// the pairs' fields, M and W, and the numbers of suitable donors. The first N
/// entries of the fields are the pairs, M and W are N rows of N, and the first N
/// of the numbers are the ones in the columns of M, where N is the count.
#[derive(Debug)]
pub struct LentLive<'a> {
    /// The number of pairs, N.
    pub count: &'a mut usize,
    /// The points, six.
    pub points: &'a [u16],
    /// Ids.
    pub ids: &'a mut [u32],
    /// Bloods of the donors.
    pub donor_blood: &'a mut [u8],
    /// Bloods of the patients.
    pub patient_blood: &'a mut [u8],
    /// Age groups of the donors.
    pub donor_age: &'a mut [u8],
    /// Age groups of the patients.
    pub patient_age: &'a mut [u8],
    /// Antigens of the donors.
    pub donor_antigens: &'a mut [u64],
    /// Antigens of the patients.
    pub patient_antigens: &'a mut [u64],
    /// Antibodies of the patients.
    pub patient_antibodies: &'a mut [u64],
    /// M.
    pub m: &'a mut [u8],
    /// W.
    pub w: &'a mut [u16],
    /// How many donors suit each patient.
    pub suitable: &'a mut [u16],
}

/// The tables that [`plan`] fills.
#[derive(Debug, Default)]
pub struct Planned<'a> {
    /// The weight of each subset, as after the last round.
    pub weights: &'a mut [u32],
    /// The choice of each round; the number of subsets means none.
    pub choices: &'a mut [u32],
    /// Who gives to patient i; N means none.
    pub donors: &'a mut [u16],
    /// Whom donor i gives to; N means none.
    pub recipients: &'a mut [u16],
    /// The planned cycles, in order of choice.
    pub records: &'a mut [Cycle],
}

/// Reads a sheet into the lent tables, of which it fills the first N entries,
/// and for version 2 the first six of the points.
pub fn read(sheet: &[u8], into: LentPool<'_>) -> ReadAnswer {
    // SAFETY: every pointer is a live slice's and goes with its length, what
    // is filled is lent by `&mut`, and the call keeps no pointer.
    unsafe {
        vadivuzhen_read(
            sheet.as_ptr(),
            sheet.len(),
            into.points.as_mut_ptr(),
            into.points.len(),
            into.ids.as_mut_ptr(),
            into.ids.len(),
            into.donor_blood.as_mut_ptr(),
            into.donor_blood.len(),
            into.patient_blood.as_mut_ptr(),
            into.patient_blood.len(),
            into.donor_age.as_mut_ptr(),
            into.donor_age.len(),
            into.patient_age.as_mut_ptr(),
            into.patient_age.len(),
            into.donor_antigens.as_mut_ptr(),
            into.donor_antigens.len(),
            into.patient_antigens.as_mut_ptr(),
            into.patient_antigens.len(),
            into.patient_antibodies.as_mut_ptr(),
            into.patient_antibodies.len(),
            into.shuffle.as_mut_ptr(),
            into.shuffle.len(),
        )
    }
}

/// Writes the sheet of a pool of `n` pairs in that version into the lent
/// buffer. For version 2 the first six of the points are written; for version 1
/// they are not looked at.
pub fn write(
    version: u16,
    n: usize,
    points: &[u16],
    fields: Fields<'_>,
    shuffle: &[u16],
    out: &mut [u8],
) -> WriteAnswer {
    // SAFETY: as in `read`.
    unsafe {
        vadivuzhen_write(
            version,
            n,
            points.as_ptr(),
            points.len(),
            fields.ids.as_ptr(),
            fields.ids.len(),
            fields.donor_blood.as_ptr(),
            fields.donor_blood.len(),
            fields.patient_blood.as_ptr(),
            fields.patient_blood.len(),
            fields.donor_age.as_ptr(),
            fields.donor_age.len(),
            fields.patient_age.as_ptr(),
            fields.patient_age.len(),
            fields.donor_antigens.as_ptr(),
            fields.donor_antigens.len(),
            fields.patient_antigens.as_ptr(),
            fields.patient_antigens.len(),
            fields.patient_antibodies.as_ptr(),
            fields.patient_antibodies.len(),
            shuffle.as_ptr(),
            shuffle.len(),
            out.as_mut_ptr(),
            out.len(),
        )
    }
}

/// Joins two sheets into one in the lent buffer: the first's pairs, then the
/// second's, and the first's shuffle, then the second's with the first's N
/// added to each number. Both have the same version and points.
///
/// The first sheet's own refusal comes first, then the second's. The answer
/// does not say which sheet it is about: who needs to know reads the first
/// alone, with [`read`], tables of 200 entries and six points.
pub fn join(first: &[u8], second: &[u8], out: &mut [u8]) -> JoinAnswer {
    // SAFETY: as in `read`.
    unsafe {
        vadivuzhen_join(
            first.as_ptr(),
            first.len(),
            second.as_ptr(),
            second.len(),
            out.as_mut_ptr(),
            out.len(),
        )
    }
}

/// Builds M and W of `n` pairs into the lent tables: `n` rows of `n`, row i
/// holding donor i. For version 2 the first six of the points weigh; for
/// version 1, which does not look at them, document 01's.
pub fn build(
    version: u16,
    n: usize,
    points: &[u16],
    fields: Fields<'_>,
    m: &mut [u8],
    w: &mut [u16],
) -> BuildAnswer {
    // SAFETY: as in `read`.
    unsafe {
        vadivuzhen_build(
            version,
            n,
            points.as_ptr(),
            points.len(),
            fields.ids.as_ptr(),
            fields.ids.len(),
            fields.donor_blood.as_ptr(),
            fields.donor_blood.len(),
            fields.patient_blood.as_ptr(),
            fields.patient_blood.len(),
            fields.donor_age.as_ptr(),
            fields.donor_age.len(),
            fields.patient_age.as_ptr(),
            fields.patient_age.len(),
            fields.donor_antigens.as_ptr(),
            fields.donor_antigens.len(),
            fields.patient_antigens.as_ptr(),
            fields.patient_antigens.len(),
            fields.patient_antibodies.as_ptr(),
            fields.patient_antibodies.len(),
            m.as_mut_ptr(),
            m.len(),
            w.as_mut_ptr(),
            w.len(),
        )
    }
}

/// Starts a live pool: stores the points given in the first six entries of the
/// table, and sets the count to 0, whatever it was.
pub fn start(given: Six, points: &mut [u16], count: &mut usize) -> LiveAnswer {
    // SAFETY: as in `read`. The count is a live number that nothing else
    // borrows, and the six are laid out as the header has them.
    unsafe { vadivuzhen_start(given, points.as_mut_ptr(), points.len(), count) }
}

/// Registers the pair at the end of the live pool, builds M and W anew, one row
/// and one column longer, whatever they held, and counts each patient's suitable
/// donors in the new M.
pub fn register(pool: LentLive<'_>, pair: Pair) -> LiveAnswer {
    // SAFETY: as in `read`. The count is a live number that nothing else
    // borrows, and the pair is laid out as the header has it.
    unsafe {
        vadivuzhen_register(
            pool.count,
            pool.points.as_ptr(),
            pool.points.len(),
            pool.ids.as_mut_ptr(),
            pool.ids.len(),
            pool.donor_blood.as_mut_ptr(),
            pool.donor_blood.len(),
            pool.patient_blood.as_mut_ptr(),
            pool.patient_blood.len(),
            pool.donor_age.as_mut_ptr(),
            pool.donor_age.len(),
            pool.patient_age.as_mut_ptr(),
            pool.patient_age.len(),
            pool.donor_antigens.as_mut_ptr(),
            pool.donor_antigens.len(),
            pool.patient_antigens.as_mut_ptr(),
            pool.patient_antigens.len(),
            pool.patient_antibodies.as_mut_ptr(),
            pool.patient_antibodies.len(),
            pool.m.as_mut_ptr(),
            pool.m.len(),
            pool.w.as_mut_ptr(),
            pool.w.len(),
            pool.suitable.as_mut_ptr(),
            pool.suitable.len(),
            pair,
        )
    }
}

/// Withdraws the first pair with the id from the live pool. The later ones move
/// down by one, its row and column are taken out of M and W, whatever these
/// hold, and the numbers of suitable donors are those of the M that is left.
/// What then lies past the count's entries is as it was.
pub fn withdraw(pool: LentLive<'_>, id: u32) -> LiveAnswer {
    // SAFETY: as in `read`. The count is a live number that nothing else
    // borrows.
    unsafe {
        vadivuzhen_withdraw(
            pool.count,
            pool.points.as_ptr(),
            pool.points.len(),
            pool.ids.as_mut_ptr(),
            pool.ids.len(),
            pool.donor_blood.as_mut_ptr(),
            pool.donor_blood.len(),
            pool.patient_blood.as_mut_ptr(),
            pool.patient_blood.len(),
            pool.donor_age.as_mut_ptr(),
            pool.donor_age.len(),
            pool.patient_age.as_mut_ptr(),
            pool.patient_age.len(),
            pool.donor_antigens.as_mut_ptr(),
            pool.donor_antigens.len(),
            pool.patient_antigens.as_mut_ptr(),
            pool.patient_antigens.len(),
            pool.patient_antibodies.as_mut_ptr(),
            pool.patient_antibodies.len(),
            pool.m.as_mut_ptr(),
            pool.m.len(),
            pool.w.as_mut_ptr(),
            pool.w.len(),
            pool.suitable.as_mut_ptr(),
            pool.suitable.len(),
            id,
        )
    }
}

/// Plans a pool of `n` pairs from M, W and the shuffle into the lent tables.
/// An exchange is planned only if its weight is above the floor. The floor may
/// be any number; one above [`MOST_FLOOR`](crate::MOST_FLOOR) is refused.
///
/// M and W are `n` rows of `n`, and what they have past them is not looked at.
/// Refused is, after all else, an entry of W that is 0 where that of M is 1. W of
/// a pair's own is not read.
pub fn plan(
    n: usize,
    floor: u32,
    m: &[u8],
    w: &[u16],
    shuffle: &[u16],
    into: Planned<'_>,
) -> PlanAnswer {
    // SAFETY: as in `read`. A record is three 16-bit numbers with no gap.
    unsafe {
        vadivuzhen_plan(
            n,
            floor,
            m.as_ptr(),
            m.len(),
            w.as_ptr(),
            w.len(),
            shuffle.as_ptr(),
            shuffle.len(),
            into.weights.as_mut_ptr(),
            into.weights.len(),
            into.choices.as_mut_ptr(),
            into.choices.len(),
            into.donors.as_mut_ptr(),
            into.donors.len(),
            into.recipients.as_mut_ptr(),
            into.recipients.len(),
            into.records.as_mut_ptr(),
            into.records.len(),
        )
    }
}

/// Prints a plan of `n` pairs, whose numbers are in `answer`, into the lent
/// buffer. A donor or recipient that is no pair's number is printed as none.
///
/// `answer.refusal` is not looked at: where [`plan`] refused, its answer would
/// be printed as a plan, `PLAN n 0 0`. Look first, and print a refusal with
/// [`print_refusal`].
pub fn print_plan(
    n: usize,
    answer: PlanAnswer,
    ids: &[u32],
    donors: &[u16],
    recipients: &[u16],
    out: &mut [u8],
) -> PrintAnswer {
    // SAFETY: as in `read`.
    unsafe {
        vadivuzhen_print_plan(
            n,
            answer.cycles,
            answer.weight,
            ids.as_ptr(),
            ids.len(),
            donors.as_ptr(),
            donors.len(),
            recipients.as_ptr(),
            recipients.len(),
            answer.comparisons,
            answer.products,
            answer.rounds,
            out.as_mut_ptr(),
            out.len(),
        )
    }
}

/// Prints a refusal, by document 01's number, and its place into the lent
/// buffer.
pub fn print_refusal(number: u32, place: usize, out: &mut [u8]) -> PrintAnswer {
    // SAFETY: as in `read`.
    unsafe { vadivuzhen_print_refusal(number, place, out.as_mut_ptr(), out.len()) }
}

extern "C" {
    fn vadivuzhen_read(
        sheet: *const u8,
        sheet_length: usize,
        points: *mut u16,
        points_length: usize,
        ids: *mut u32,
        ids_length: usize,
        donor_blood: *mut u8,
        donor_blood_length: usize,
        patient_blood: *mut u8,
        patient_blood_length: usize,
        donor_age: *mut u8,
        donor_age_length: usize,
        patient_age: *mut u8,
        patient_age_length: usize,
        donor_antigens: *mut u64,
        donor_antigens_length: usize,
        patient_antigens: *mut u64,
        patient_antigens_length: usize,
        patient_antibodies: *mut u64,
        patient_antibodies_length: usize,
        shuffle: *mut u16,
        shuffle_length: usize,
    ) -> ReadAnswer;

    fn vadivuzhen_write(
        version: u16,
        n: usize,
        points: *const u16,
        points_length: usize,
        ids: *const u32,
        ids_length: usize,
        donor_blood: *const u8,
        donor_blood_length: usize,
        patient_blood: *const u8,
        patient_blood_length: usize,
        donor_age: *const u8,
        donor_age_length: usize,
        patient_age: *const u8,
        patient_age_length: usize,
        donor_antigens: *const u64,
        donor_antigens_length: usize,
        patient_antigens: *const u64,
        patient_antigens_length: usize,
        patient_antibodies: *const u64,
        patient_antibodies_length: usize,
        shuffle: *const u16,
        shuffle_length: usize,
        out: *mut u8,
        out_length: usize,
    ) -> WriteAnswer;

    fn vadivuzhen_join(
        first: *const u8,
        first_length: usize,
        second: *const u8,
        second_length: usize,
        out: *mut u8,
        out_length: usize,
    ) -> JoinAnswer;

    fn vadivuzhen_build(
        version: u16,
        n: usize,
        points: *const u16,
        points_length: usize,
        ids: *const u32,
        ids_length: usize,
        donor_blood: *const u8,
        donor_blood_length: usize,
        patient_blood: *const u8,
        patient_blood_length: usize,
        donor_age: *const u8,
        donor_age_length: usize,
        patient_age: *const u8,
        patient_age_length: usize,
        donor_antigens: *const u64,
        donor_antigens_length: usize,
        patient_antigens: *const u64,
        patient_antigens_length: usize,
        patient_antibodies: *const u64,
        patient_antibodies_length: usize,
        compatibilities: *mut u8,
        compatibilities_length: usize,
        weights: *mut u16,
        weights_length: usize,
    ) -> BuildAnswer;

    fn vadivuzhen_start(
        given: Six,
        points: *mut u16,
        points_length: usize,
        count: *mut usize,
    ) -> LiveAnswer;

    fn vadivuzhen_register(
        count: *mut usize,
        points: *const u16,
        points_length: usize,
        ids: *mut u32,
        ids_length: usize,
        donor_blood: *mut u8,
        donor_blood_length: usize,
        patient_blood: *mut u8,
        patient_blood_length: usize,
        donor_age: *mut u8,
        donor_age_length: usize,
        patient_age: *mut u8,
        patient_age_length: usize,
        donor_antigens: *mut u64,
        donor_antigens_length: usize,
        patient_antigens: *mut u64,
        patient_antigens_length: usize,
        patient_antibodies: *mut u64,
        patient_antibodies_length: usize,
        m: *mut u8,
        m_length: usize,
        w: *mut u16,
        w_length: usize,
        suitable: *mut u16,
        suitable_length: usize,
        pair: Pair,
    ) -> LiveAnswer;

    fn vadivuzhen_withdraw(
        count: *mut usize,
        points: *const u16,
        points_length: usize,
        ids: *mut u32,
        ids_length: usize,
        donor_blood: *mut u8,
        donor_blood_length: usize,
        patient_blood: *mut u8,
        patient_blood_length: usize,
        donor_age: *mut u8,
        donor_age_length: usize,
        patient_age: *mut u8,
        patient_age_length: usize,
        donor_antigens: *mut u64,
        donor_antigens_length: usize,
        patient_antigens: *mut u64,
        patient_antigens_length: usize,
        patient_antibodies: *mut u64,
        patient_antibodies_length: usize,
        m: *mut u8,
        m_length: usize,
        w: *mut u16,
        w_length: usize,
        suitable: *mut u16,
        suitable_length: usize,
        id: u32,
    ) -> LiveAnswer;

    fn vadivuzhen_plan(
        n: usize,
        floor: u32,
        m: *const u8,
        m_length: usize,
        w: *const u16,
        w_length: usize,
        shuffle: *const u16,
        shuffle_length: usize,
        weights: *mut u32,
        weights_length: usize,
        choices: *mut u32,
        choices_length: usize,
        donors: *mut u16,
        donors_length: usize,
        recipients: *mut u16,
        recipients_length: usize,
        records: *mut Cycle,
        records_length: usize,
    ) -> PlanAnswer;

    fn vadivuzhen_print_plan(
        n: usize,
        cycles: usize,
        weight: u64,
        ids: *const u32,
        ids_length: usize,
        donors: *const u16,
        donors_length: usize,
        recipients: *const u16,
        recipients_length: usize,
        comparisons: u64,
        products: u64,
        rounds: u64,
        out: *mut u8,
        out_length: usize,
    ) -> PrintAnswer;

    fn vadivuzhen_print_refusal(
        number: u32,
        place: usize,
        out: *mut u8,
        out_length: usize,
    ) -> PrintAnswer;
}
