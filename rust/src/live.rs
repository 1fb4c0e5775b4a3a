//! A pool that lives between matches.

use crate::plan::Plan;
use crate::points::Points;
use crate::pool::{pairs, Pair, Pool, MOST_PAIRS};
use crate::raw;
use crate::refused::{finished, Refusal, Refused};
use crate::tables::Tables;
use std::fmt;

/// A pool that a registry keeps from match to match. It starts with the
/// registry's points and no pair; pairs register at its end and withdraw by
/// their id, after which the later ones move down by one. It holds the pairs
/// registered and not withdrawn since, in order of registration, and its
/// compatibilities and weights are always those of a [`Pool`] of version 2 with
/// these pairs and points. With each patient the number of donors that suit is
/// stored, so that a screen need not count them
/// ([`suitable_donors`](LivePool::suitable_donors)).
///
/// No two ids are alike, and there are at most [`MOST_PAIRS`] pairs; tables for
/// so many are made once, by [`start`](LivePool::start), in 127 KB. What is
/// refused changes nothing. Equal live pools have the same points, and the same
/// pairs in the same order, whatever was registered and withdrawn before.
///
/// There is no shuffle: it is drawn for a match, and given to
/// [`plan`](LivePool::plan), [`write`](LivePool::write) or
/// [`pool`](LivePool::pool). One for more pairs or fewer is refused.
///
/// # Example
///
/// ```
/// use vadivuzhen::{Age, Blood, LivePool, Pair, Points, Refusal};
///
/// let pair = |id, donor_blood, patient_blood| Pair {
///     id,
///     donor_blood,
///     patient_blood,
///     donor_age: Age::Young,
///     patient_age: Age::Young,
///     donor_antigens: 0,
///     patient_antigens: 0,
///     patient_antibodies: 0,
/// };
/// let mut live = LivePool::start(Points::DOCUMENT)?;
/// live.register(pair(11, Blood::A, Blood::B))?;
/// live.register(pair(12, Blood::B, Blood::A))?;
/// live.register(pair(13, Blood::Ab, Blood::O))?;
/// assert_eq!(live.ids(), [11, 12, 13]);
/// assert_eq!(live.suitable_donors(), [1, 1, 0]);
///
/// // The day of a match: the first two exchange.
/// let plan = live.plan(&[2, 0, 1])?;
/// assert_eq!(plan.weight(), 2_900);
/// assert_eq!(plan.recipient_of(0), Some(1));
///
/// // They leave, and the third is then the first.
/// live.withdraw(11)?;
/// live.withdraw(12)?;
/// assert_eq!(live.ids(), [13]);
/// let gone = live.withdraw(12).expect_err("no such pair any more");
/// assert_eq!(gone.why, Refusal::UnknownId);
///
/// // An id that was withdrawn may register again.
/// live.register(pair(12, Blood::B, Blood::O))?;
/// assert_eq!(live.ids(), [13, 12]);
/// # Ok::<(), vadivuzhen::Refused>(())
/// ```
#[derive(Clone)]
pub struct LivePool {
    // The number of pairs.
    count: usize,
    points: [u16; 6],
    // MOST_PAIRS entries each; the first `count` are the pairs'.
    ids: Vec<u32>,
    donor_blood: Vec<u8>,
    patient_blood: Vec<u8>,
    donor_age: Vec<u8>,
    patient_age: Vec<u8>,
    donor_antigens: Vec<u64>,
    patient_antigens: Vec<u64>,
    patient_antibodies: Vec<u64>,
    // MOST_PAIRS² entries each; the first `count`² are M and W.
    m: Vec<u8>,
    w: Vec<u16>,
    // MOST_PAIRS entries; the first `count` are the ones in the columns of M.
    suitable: Vec<u16>,
}

impl LivePool {
    /// A live pool of no pairs, to be weighed by these points.
    ///
    /// # Errors
    ///
    /// Refused are points whose base is 0, or of which base, largest mismatch
    /// step and larger age step together exceed 65,535.
    ///
    /// # Example
    ///
    /// ```
    /// use vadivuzhen::{LivePool, Points, Refusal};
    ///
    /// let live = LivePool::start(Points::DOCUMENT)?;
    /// assert!(live.is_empty());
    ///
    /// let none = LivePool::start(Points { base: 0, ..Points::DOCUMENT });
    /// assert_eq!(none.expect_err("a base of 0").why, Refusal::WrongPoints);
    /// # Ok::<(), vadivuzhen::Refused>(())
    /// ```
    pub fn start(points: Points) -> Result<LivePool, Refused> {
        let mut live = LivePool {
            count: 0,
            points: [0; 6],
            ids: vec![0; MOST_PAIRS],
            donor_blood: vec![0; MOST_PAIRS],
            patient_blood: vec![0; MOST_PAIRS],
            donor_age: vec![0; MOST_PAIRS],
            patient_age: vec![0; MOST_PAIRS],
            donor_antigens: vec![0; MOST_PAIRS],
            patient_antigens: vec![0; MOST_PAIRS],
            patient_antibodies: vec![0; MOST_PAIRS],
            m: vec![0; MOST_PAIRS * MOST_PAIRS],
            w: vec![0; MOST_PAIRS * MOST_PAIRS],
            suitable: vec![0; MOST_PAIRS],
        };
        let answer = raw::start(points.into(), &mut live.points, &mut live.count);
        finished(answer.refusal, 0)?;
        Ok(live)
    }

    /// Registers a pair: its number is the number of pairs before. The tables
    /// are built anew, and the suitable donors counted anew.
    ///
    /// # Errors
    ///
    /// Refused are, as [`RepeatedId`](Refusal::RepeatedId), a pair with the id
    /// of one in the pool; then, as
    /// [`TooManyTogether`](Refusal::TooManyTogether), one more than
    /// [`MOST_PAIRS`].
    pub fn register(&mut self, pair: Pair) -> Result<(), Refused> {
        let answer = raw::register(self.lent(), pair.into());
        finished(answer.refusal, 0)
    }

    /// Withdraws the pair with this id. The later ones move down by one, each
    /// to the number before its own, the pair's row and column are taken out of
    /// the tables, and its donor is no longer among the suitable ones.
    ///
    /// # Errors
    ///
    /// Refused is, as [`UnknownId`](Refusal::UnknownId), an id that no pair of
    /// the pool has.
    pub fn withdraw(&mut self, id: u32) -> Result<(), Refused> {
        let answer = raw::withdraw(self.lent(), id);
        finished(answer.refusal, 0)
    }

    /// All that there is, for the calls that change it.
    fn lent(&mut self) -> raw::LentLive<'_> {
        raw::LentLive {
            count: &mut self.count,
            points: &self.points,
            ids: &mut self.ids,
            donor_blood: &mut self.donor_blood,
            patient_blood: &mut self.patient_blood,
            donor_age: &mut self.donor_age,
            patient_age: &mut self.patient_age,
            donor_antigens: &mut self.donor_antigens,
            patient_antigens: &mut self.patient_antigens,
            patient_antibodies: &mut self.patient_antibodies,
            m: &mut self.m,
            w: &mut self.w,
            suitable: &mut self.suitable,
        }
    }

    /// The number of pairs, N.
    pub fn len(&self) -> usize {
        self.count
    }

    /// Whether there is no pair.
    pub fn is_empty(&self) -> bool {
        self.count == 0
    }

    /// The points that the pool was started with.
    pub fn points(&self) -> Points {
        self.points.into()
    }

    /// The pairs, in order of registration, which is that of their numbers. How
    /// many there are is [`len`](LivePool::len).
    pub fn pairs(&self) -> impl ExactSizeIterator<Item = Pair> + '_ {
        pairs(self.fields())
    }

    /// The pairs' ids, in order of the pairs' numbers.
    pub fn ids(&self) -> &[u32] {
        &self.ids[..self.count]
    }

    /// The pairs' fields, for the calls of [`raw`].
    pub fn fields(&self) -> raw::Fields<'_> {
        let n = self.count;
        raw::Fields {
            ids: &self.ids[..n],
            donor_blood: &self.donor_blood[..n],
            patient_blood: &self.patient_blood[..n],
            donor_age: &self.donor_age[..n],
            patient_age: &self.patient_age[..n],
            donor_antigens: &self.donor_antigens[..n],
            patient_antigens: &self.patient_antigens[..n],
            patient_antibodies: &self.patient_antibodies[..n],
        }
    }

    /// M, row by row: N rows of N.
    pub fn compatibilities(&self) -> &[u8] {
        &self.m[..self.count * self.count]
    }

    /// W, row by row: N rows of N.
    pub fn weights(&self) -> &[u16] {
        &self.w[..self.count * self.count]
    }

    /// How many donors suit each patient, in order of the pairs' numbers: the
    /// ones in that patient's column of M. Nothing is counted for it: the
    /// numbers are kept with the pairs.
    pub fn suitable_donors(&self) -> &[u16] {
        &self.suitable[..self.count]
    }

    /// A copy of the compatibilities and weights, with the ids. Nothing is
    /// built for it: they are kept with the pairs.
    pub fn tables(&self) -> Tables {
        Tables::new(
            self.ids().to_vec(),
            self.compatibilities().to_vec(),
            self.weights().to_vec(),
        )
        .expect("N rows of N")
    }

    /// The plan of the pairs, with place p holding pair `shuffle[p]`. It knows
    /// their ids.
    ///
    /// # Errors
    ///
    /// Refused is, as [`NotAShuffle`](Refusal::NotAShuffle), a shuffle that has
    /// not each pair's number once and no more. The compatibilities and weights
    /// are always those of the pairs, and never refused.
    pub fn plan(&self, shuffle: &[u16]) -> Result<Plan, Refused> {
        self.plan_above(0, shuffle)
    }

    /// The plan in which every exchange weighs more than the floor, so that
    /// nobody is called in for a lighter one. With floor 0 it is that of
    /// [`plan`](LivePool::plan).
    ///
    /// # Errors
    ///
    /// Refused is a floor above [`MOST_FLOOR`](crate::MOST_FLOOR); then what
    /// [`plan`](LivePool::plan) refuses.
    pub fn plan_above(&self, floor: u32, shuffle: &[u16]) -> Result<Plan, Refused> {
        let whole = shuffle.len() == self.count;
        // In place of one of another length stands one that is no shuffle of
        // any pairs, to be refused in its turn.
        let numbers = if whole {
            shuffle
        } else {
            &[u16::MAX; MOST_PAIRS]
        };
        let plan = self.tables().plan_above(floor, numbers)?;
        // For no pairs every table is a shuffle.
        if !whole {
            return Err(Refusal::NotAShuffle.at(0));
        }
        Ok(plan)
    }

    /// The pool of these pairs and points, in version 2, with place p holding
    /// pair `shuffle[p]`: what the sheet that [`write`](LivePool::write) gives
    /// is read as.
    ///
    /// # Errors
    ///
    /// Refused is, as [`NotAShuffle`](Refusal::NotAShuffle), a shuffle that has
    /// not each pair's number once and no more.
    ///
    /// # Example
    ///
    /// ```
    /// use vadivuzhen::{Age, Blood, LivePool, Pair, Points, Pool};
    ///
    /// let mut live = LivePool::start(Points::DOCUMENT)?;
    /// for id in [11, 12, 13] {
    ///     live.register(Pair {
    ///         id,
    ///         donor_blood: Blood::O,
    ///         patient_blood: Blood::A,
    ///         donor_age: Age::Young,
    ///         patient_age: Age::Senior,
    ///         donor_antigens: 0,
    ///         patient_antigens: 0,
    ///         patient_antibodies: 0,
    ///     })?;
    /// }
    /// live.withdraw(12)?;
    ///
    /// let pool = live.pool(&[1, 0])?;
    /// assert_eq!((pool.version(), pool.ids()), (2, &[11, 13][..]));
    /// assert_eq!(pool.tables(), live.tables());
    /// assert_eq!(Pool::read(&live.write(&[1, 0])?)?, pool);
    /// # Ok::<(), vadivuzhen::Refused>(())
    /// ```
    pub fn pool(&self, shuffle: &[u16]) -> Result<Pool, Refused> {
        let pairs: Vec<Pair> = self.pairs().collect();
        Pool::with_points(self.points(), &pairs, shuffle)
    }

    /// The sheet of these pairs and points, in version 2, with this shuffle.
    ///
    /// # Errors
    ///
    /// Refused is what [`pool`](LivePool::pool) refuses.
    #[must_use = "the sheet is given back, and stored nowhere"]
    pub fn write(&self, shuffle: &[u16]) -> Result<Vec<u8>, Refused> {
        Ok(self.pool(shuffle)?.write())
    }
}

/// By points and pairs. The tables follow from them, and what is left past them
/// by pairs that withdrew is not looked at.
impl PartialEq for LivePool {
    fn eq(&self, other: &LivePool) -> bool {
        self.points == other.points && self.pairs().eq(other.pairs())
    }
}

impl Eq for LivePool {}

/// Points and pairs, without the tables.
impl fmt::Debug for LivePool {
    fn fmt(&self, f: &mut fmt::Formatter<'_>) -> fmt::Result {
        let pairs: Vec<Pair> = self.pairs().collect();
        f.debug_struct("LivePool")
            .field("points", &self.points())
            .field("pairs", &pairs)
            .finish()
    }
}
