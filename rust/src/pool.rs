//! A pool in its fields.

use crate::plan::Plan;
use crate::points::Points;
use crate::raw;
use crate::refused::{finished, sound, Refusal, Refused};
use crate::tables::Tables;

/// The greatest number of pairs.
pub const MOST_PAIRS: usize = 200;

/// The length of the longest sheet, in bytes. Whoever reads a sheet from
/// outside needs to read one byte more and no further.
pub const LONGEST_SHEET: usize = sheet_length(2, MOST_PAIRS);

/// The length of a sheet of `n` pairs: its head, in version 2 the points, a
/// field for each pair, and the shuffle, each after a start of three bytes.
const fn sheet_length(version: u16, n: usize) -> usize {
    let points = if version == 2 { 3 + 12 } else { 0 };
    (3 + 4) + points + n * (3 + 32) + (3 + 2 * n)
}

/// A blood group. The discriminants are the sheet's bytes.
#[derive(Clone, Copy, Debug, PartialEq, Eq, Hash)]
#[repr(u8)]
pub enum Blood {
    /// O.
    O = 0,
    /// A.
    A = 1,
    /// B.
    B = 2,
    /// AB.
    Ab = 3,
}

impl Blood {
    const ALL: [Blood; 4] = [Blood::O, Blood::A, Blood::B, Blood::Ab];
}

/// An age group. The discriminants are the sheet's bytes.
#[derive(Clone, Copy, Debug, PartialEq, Eq, Hash)]
#[repr(u8)]
pub enum Age {
    /// Young.
    Young = 0,
    /// Senior.
    Senior = 1,
}

impl Age {
    const ALL: [Age; 2] = [Age::Young, Age::Senior];
}

/// A patient and a donor who does not suit that patient. That is not checked;
/// in no plan does a donor give to the patient of the same pair.
#[derive(Clone, Copy, Debug, PartialEq, Eq, Hash)]
pub struct Pair {
    /// The pair's id, any number that no other pair of its pool has. Plans
    /// speak of pairs by number; the id is for the printout.
    pub id: u32,
    /// The donor's blood.
    pub donor_blood: Blood,
    /// The patient's blood.
    pub patient_blood: Blood,
    /// The donor's age group.
    pub donor_age: Age,
    /// The patient's age group.
    pub patient_age: Age,
    /// The donor's antigens, one bit for each entry of the laboratory's list.
    /// Those that a patient does not have are mismatches.
    pub donor_antigens: u64,
    /// The patient's antigens, by the same list.
    pub patient_antigens: u64,
    /// The patient's antibodies: the antigens that a donor must not have.
    pub patient_antibodies: u64,
}

/// The pairs of these fields, which are in range and all of one length.
pub(crate) fn pairs(fields: raw::Fields<'_>) -> impl ExactSizeIterator<Item = Pair> + '_ {
    (0..fields.ids.len()).map(move |i| Pair {
        id: fields.ids[i],
        donor_blood: Blood::ALL[usize::from(fields.donor_blood[i])],
        patient_blood: Blood::ALL[usize::from(fields.patient_blood[i])],
        donor_age: Age::ALL[usize::from(fields.donor_age[i])],
        patient_age: Age::ALL[usize::from(fields.patient_age[i])],
        donor_antigens: fields.donor_antigens[i],
        patient_antigens: fields.patient_antigens[i],
        patient_antibodies: fields.patient_antibodies[i],
    })
}

/// As [`raw::register`] takes it.
impl From<Pair> for raw::Pair {
    fn from(pair: Pair) -> raw::Pair {
        raw::Pair {
            id: pair.id,
            donor_blood: pair.donor_blood as u8,
            patient_blood: pair.patient_blood as u8,
            donor_age: pair.donor_age as u8,
            patient_age: pair.patient_age as u8,
            donor_antigens: pair.donor_antigens,
            patient_antigens: pair.patient_antigens,
            patient_antibodies: pair.patient_antibodies,
        }
    }
}

/// A pool of pairs and its shuffle, with none of the faults that documents 01
/// and 02 list: there are at most [`MOST_PAIRS`] pairs, no two ids are alike,
/// the shuffle holds each pair's number once, and the points of version 2 have
/// a base above 0 and no edge above 65,535.
///
/// A pair's number is its index among the pairs, from 0. A place is an index
/// into the shuffle. Equal pools have the same version and points, the same
/// pairs in the same order and the same shuffle. A pool of version 1 and one of
/// version 2 with document 01's points are weighed alike, and are not equal:
/// their sheets differ.
#[derive(Clone, Debug, PartialEq, Eq, Hash)]
pub struct Pool {
    // Those of version 2; version 1 has none.
    points: Option<Points>,
    // All of one length.
    ids: Vec<u32>,
    donor_blood: Vec<u8>,
    patient_blood: Vec<u8>,
    donor_age: Vec<u8>,
    patient_age: Vec<u8>,
    donor_antigens: Vec<u64>,
    patient_antigens: Vec<u64>,
    patient_antibodies: Vec<u64>,
    shuffle: Vec<u16>,
}

impl Pool {
    /// The pool of these pairs, with place p holding pair `shuffle[p]`. It is
    /// of version 1, and weighed by document 01's points.
    ///
    /// # Errors
    ///
    /// Refused are more than [`MOST_PAIRS`] pairs, then an id that is not the
    /// first of its kind, then a shuffle that has not each pair's number once
    /// and no more. The refusal does not say which pair is at fault.
    pub fn new(pairs: &[Pair], shuffle: &[u16]) -> Result<Pool, Refused> {
        Pool::make(None, pairs, shuffle)
    }

    /// The pool of these pairs in version 2, weighed by its registry's points.
    ///
    /// # Errors
    ///
    /// Refused are more than [`MOST_PAIRS`] pairs, then points whose base is 0
    /// or of which base, largest mismatch step and larger age step together
    /// exceed 65,535, then what [`new`](Pool::new) refuses.
    ///
    /// # Example
    ///
    /// ```
    /// use vadivuzhen::{Age, Blood, Pair, Points, Pool, Refusal};
    ///
    /// let pair = |id, donor_blood, patient_blood| Pair {
    ///     id,
    ///     donor_blood,
    ///     patient_blood,
    ///     donor_age: Age::Young,
    ///     patient_age: Age::Young,
    ///     donor_antigens: 0,
    ///     patient_antigens: 0,
    ///     patient_antibodies: 0,
    /// };
    /// let pairs = [pair(11, Blood::A, Blood::B), pair(12, Blood::B, Blood::A)];
    /// let points = Points {
    ///     base: 2_000,
    ///     ..Points::DOCUMENT
    /// };
    /// let pool = Pool::with_points(points, &pairs, &[0, 1])?;
    /// assert_eq!((pool.version(), pool.points()), (2, Some(points)));
    /// assert_eq!(pool.plan().weight(), 4_900);
    /// assert_eq!(Pool::read(&pool.write())?, pool);
    ///
    /// let none = Points { base: 0, ..points };
    /// let refused = Pool::with_points(none, &pairs, &[0, 1]);
    /// assert_eq!(refused.expect_err("a base of 0").why, Refusal::WrongPoints);
    /// # Ok::<(), vadivuzhen::Refused>(())
    /// ```
    pub fn with_points(points: Points, pairs: &[Pair], shuffle: &[u16]) -> Result<Pool, Refused> {
        Pool::make(Some(points), pairs, shuffle)
    }

    fn make(points: Option<Points>, pairs: &[Pair], shuffle: &[u16]) -> Result<Pool, Refused> {
        let pool = Pool {
            points,
            ids: pairs.iter().map(|pair| pair.id).collect(),
            donor_blood: pairs.iter().map(|pair| pair.donor_blood as u8).collect(),
            patient_blood: pairs.iter().map(|pair| pair.patient_blood as u8).collect(),
            donor_age: pairs.iter().map(|pair| pair.donor_age as u8).collect(),
            patient_age: pairs.iter().map(|pair| pair.patient_age as u8).collect(),
            donor_antigens: pairs.iter().map(|pair| pair.donor_antigens).collect(),
            patient_antigens: pairs.iter().map(|pair| pair.patient_antigens).collect(),
            patient_antibodies: pairs.iter().map(|pair| pair.patient_antibodies).collect(),
            shuffle: shuffle.to_vec(),
        };
        // The writer looks for every fault of a pool. Where numbers are missing
        // in the shuffle, it gets some that are no pair's.
        let n = pairs.len();
        let mut numbers = shuffle.to_vec();
        numbers.resize(n, u16::MAX);
        let mut sheet = vec![0; sheet_length(pool.version(), n.min(MOST_PAIRS))];
        let answer = raw::write(
            pool.version(),
            n,
            &pool.lent_points(),
            pool.fields(),
            &numbers,
            &mut sheet,
        );
        finished(answer.refusal, 0)?;
        if shuffle.len() > n {
            return Err(Refusal::NotAShuffle.at(0));
        }
        Ok(pool)
    }

    /// The pool that a sheet of either version says.
    ///
    /// # Errors
    ///
    /// The first fault of the sheet, going forward, and where it is.
    pub fn read(sheet: &[u8]) -> Result<Pool, Refused> {
        let mut points = [0; 6];
        let mut pool = Pool {
            points: None,
            ids: vec![0; MOST_PAIRS],
            donor_blood: vec![0; MOST_PAIRS],
            patient_blood: vec![0; MOST_PAIRS],
            donor_age: vec![0; MOST_PAIRS],
            patient_age: vec![0; MOST_PAIRS],
            donor_antigens: vec![0; MOST_PAIRS],
            patient_antigens: vec![0; MOST_PAIRS],
            patient_antibodies: vec![0; MOST_PAIRS],
            shuffle: vec![0; MOST_PAIRS],
        };
        let answer = raw::read(
            sheet,
            raw::LentPool {
                points: &mut points,
                ids: &mut pool.ids,
                donor_blood: &mut pool.donor_blood,
                patient_blood: &mut pool.patient_blood,
                donor_age: &mut pool.donor_age,
                patient_age: &mut pool.patient_age,
                donor_antigens: &mut pool.donor_antigens,
                patient_antigens: &mut pool.patient_antigens,
                patient_antibodies: &mut pool.patient_antibodies,
                shuffle: &mut pool.shuffle,
            },
        );
        finished(answer.refusal, answer.place)?;
        pool.points = (answer.version == 2).then(|| points.into());
        pool.truncate(answer.pairs);
        Ok(pool)
    }

    fn truncate(&mut self, n: usize) {
        self.ids.truncate(n);
        self.donor_blood.truncate(n);
        self.patient_blood.truncate(n);
        self.donor_age.truncate(n);
        self.patient_age.truncate(n);
        self.donor_antigens.truncate(n);
        self.patient_antigens.truncate(n);
        self.patient_antibodies.truncate(n);
        self.shuffle.truncate(n);
    }

    /// The version of the pool's sheet: 2 where it has points of its own, else
    /// 1.
    pub fn version(&self) -> u16 {
        match self.points {
            Some(_) => 2,
            None => 1,
        }
    }

    /// The points of a pool of version 2. A pool of version 1 has none: it is
    /// weighed by [`Points::DOCUMENT`].
    pub fn points(&self) -> Option<Points> {
        self.points
    }

    /// The points for the calls of [`raw`]; those lent with version 1, which
    /// nothing looks at, are document 01's.
    pub(crate) fn lent_points(&self) -> [u16; 6] {
        self.points.unwrap_or(Points::DOCUMENT).into()
    }

    /// The number of pairs, N.
    pub fn len(&self) -> usize {
        self.ids.len()
    }

    /// Whether there is no pair.
    pub fn is_empty(&self) -> bool {
        self.ids.is_empty()
    }

    /// The pairs, in order of their numbers. How many there are is
    /// [`len`](Pool::len).
    pub fn pairs(&self) -> impl ExactSizeIterator<Item = Pair> + '_ {
        pairs(self.fields())
    }

    /// The pairs' ids, in order of the pairs' numbers.
    pub fn ids(&self) -> &[u32] {
        &self.ids
    }

    /// The shuffle: place p holds pair `shuffle[p]`.
    pub fn shuffle(&self) -> &[u16] {
        &self.shuffle
    }

    /// The pairs' fields, for the calls of [`raw`].
    pub fn fields(&self) -> raw::Fields<'_> {
        raw::Fields {
            ids: &self.ids,
            donor_blood: &self.donor_blood,
            patient_blood: &self.patient_blood,
            donor_age: &self.donor_age,
            patient_age: &self.patient_age,
            donor_antigens: &self.donor_antigens,
            patient_antigens: &self.patient_antigens,
            patient_antibodies: &self.patient_antibodies,
        }
    }

    /// The pool's sheet, in its version. Reading it gives this pool.
    #[must_use = "the sheet is given back, and stored nowhere"]
    pub fn write(&self) -> Vec<u8> {
        let (version, n) = (self.version(), self.len());
        let mut sheet = vec![0; sheet_length(version, n)];
        let (points, fields) = (self.lent_points(), self.fields());
        let answer = raw::write(version, n, &points, fields, &self.shuffle, &mut sheet);
        sound(answer.refusal);
        sheet
    }

    /// The pool's compatibilities and weights, built anew by each call.
    ///
    /// Weights are by the pool's [`Points`], in version 1 by document 01's.
    /// Mismatches are antigens of the donor that the patient does not have.
    /// What only the patient has does not count. But for a pair's own, which is
    /// 0, a weight is at least the base, so no edge weighs 0.
    pub fn tables(&self) -> Tables {
        Tables::build(self)
    }

    /// The pool's plan, made anew by each call, tables and all. It knows the
    /// pool's ids. A pool has no fault, so planning does not refuse it.
    pub fn plan(&self) -> Plan {
        match self.tables().plan(&self.shuffle) {
            Ok(plan) => plan,
            Err(refused) => panic!("what is built was turned back: {refused}"),
        }
    }

    /// The pool's plan in which every exchange weighs more than the floor, so
    /// that nobody is called in for a lighter one. With floor 0 it is that of
    /// [`plan`](Pool::plan).
    ///
    /// # Errors
    ///
    /// Refused is a floor above [`MOST_FLOOR`](crate::MOST_FLOOR), and nothing
    /// else.
    ///
    /// # Example
    ///
    /// ```
    /// use vadivuzhen::{Age, Blood, Pair, Pool};
    ///
    /// let pair = |id, donor_blood, patient_blood| Pair {
    ///     id,
    ///     donor_blood,
    ///     patient_blood,
    ///     donor_age: Age::Young,
    ///     patient_age: Age::Young,
    ///     donor_antigens: 0,
    ///     patient_antigens: 0,
    ///     patient_antibodies: 0,
    /// };
    /// let pairs = [pair(11, Blood::A, Blood::B), pair(12, Blood::B, Blood::A)];
    /// let pool = Pool::new(&pairs, &[0, 1])?;
    ///
    /// // The exchange of the two weighs 2,900.
    /// assert_eq!(pool.plan_above(2_899)?, pool.plan());
    /// let none = pool.plan_above(2_900)?;
    /// assert_eq!(none.print(), "PLAN 2 0 0\n11 - -\n12 - -\nCOUNTS 1 6 1\n");
    /// # Ok::<(), vadivuzhen::Refused>(())
    /// ```
    pub fn plan_above(&self, floor: u32) -> Result<Plan, Refused> {
        self.tables().plan_above(floor, &self.shuffle)
    }
}
