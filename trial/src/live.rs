//! A pool that lives between matches (document 02, W-206), with the number of
//! donors that suit each patient (W-207).
//!
//! The state is a caller's: a count, six points, eight tables of the pairs'
//! fields, M and W, and the numbers. Each call here looks at a state and gives
//! the one that it leaves, every table whole, or why it refuses: a refused call
//! changes nothing, so it leaves the state that it was given. The states may be
//! any, also such as no list of calls leaves.
//!
//! Beside the calls stand two accounts: [`held`], which knows no state, and
//! [`suitable`], which knows no M.

use crate::points::{Points, COUNT};
use crate::pool::{Pool, MOST_AGE, MOST_BLOOD, MOST_PAIRS};
use crate::refusal::Reason;
use crate::tables::{build_pool, SUITS};

/// One pair's fields.
#[derive(Clone, Copy, Debug, Default, PartialEq, Eq, Hash)]
pub struct Pair {
    /// The id.
    pub id: u32,
    /// Blood of the donor.
    pub donor_blood: u8,
    /// Blood of the patient.
    pub patient_blood: u8,
    /// Age group of the donor.
    pub donor_age: u8,
    /// Age group of the patient.
    pub patient_age: u8,
    /// Antigens of the donor.
    pub donor_antigens: u64,
    /// Antigens of the patient.
    pub patient_antigens: u64,
    /// Antibodies of the patient.
    pub patient_antibodies: u64,
}

impl Pair {
    /// Pair `i` of a pool.
    pub fn of(pool: &Pool, i: usize) -> Pair {
        Pair {
            id: pool.ids[i],
            donor_blood: pool.donor_bloods[i],
            patient_blood: pool.patient_bloods[i],
            donor_age: pool.donor_ages[i],
            patient_age: pool.patient_ages[i],
            donor_antigens: pool.donor_antigens[i],
            patient_antigens: pool.patient_antigens[i],
            patient_antibodies: pool.patient_antibodies[i],
        }
    }

    /// Whether 6 lets the pair pass.
    pub fn in_range(&self) -> bool {
        self.donor_blood.max(self.patient_blood) <= MOST_BLOOD
            && self.donor_age.max(self.patient_age) <= MOST_AGE
    }

    /// Whether this pair's donor suits the patient of another: the blood suits,
    /// and the donor's antigens share no bit with the patient's antibodies.
    fn suits(&self, other: &Pair) -> bool {
        SUITS[usize::from(self.donor_blood)][usize::from(other.patient_blood)]
            && self.donor_antigens & other.patient_antibodies == 0
    }
}

/// A live pool as a caller lends it: a count of any size, and tables of any
/// lengths that hold anything.
#[derive(Clone, Debug, Default, PartialEq, Eq)]
pub struct Live {
    /// The number of pairs, N.
    pub count: usize,
    /// The six points.
    pub points: Vec<u16>,
    /// Ids.
    pub ids: Vec<u32>,
    /// Bloods of the donors.
    pub donor_bloods: Vec<u8>,
    /// Bloods of the patients.
    pub patient_bloods: Vec<u8>,
    /// Age groups of the donors.
    pub donor_ages: Vec<u8>,
    /// Age groups of the patients.
    pub patient_ages: Vec<u8>,
    /// Antigens of the donors.
    pub donor_antigens: Vec<u64>,
    /// Antigens of the patients.
    pub patient_antigens: Vec<u64>,
    /// Antibodies of the patients.
    pub patient_antibodies: Vec<u64>,
    /// Compatibility: N rows of N, row i holding donor i.
    pub m: Vec<u8>,
    /// Weight, in rows as well.
    pub w: Vec<u16>,
    /// How many donors suit each patient: the ones in that patient's column of
    /// M.
    pub suitable: Vec<u16>,
}

impl Live {
    /// Tables of zeros with room for the points and so many pairs, and a count
    /// of 0.
    pub fn zeros(room: usize) -> Live {
        Live {
            count: 0,
            points: vec![0; COUNT],
            ids: vec![0; room],
            donor_bloods: vec![0; room],
            patient_bloods: vec![0; room],
            donor_ages: vec![0; room],
            patient_ages: vec![0; room],
            donor_antigens: vec![0; room],
            patient_antigens: vec![0; room],
            patient_antibodies: vec![0; room],
            m: vec![0; room * room],
            w: vec![0; room * room],
            suitable: vec![0; room],
        }
    }

    /// Whether the tables hold `n` pairs: every field and the number of each,
    /// and M and W.
    pub fn holds(&self, n: usize) -> bool {
        let by_pair = [
            self.ids.len(),
            self.donor_bloods.len(),
            self.patient_bloods.len(),
            self.donor_ages.len(),
            self.patient_ages.len(),
            self.donor_antigens.len(),
            self.patient_antigens.len(),
            self.patient_antibodies.len(),
            self.suitable.len(),
        ];
        by_pair.iter().all(|&length| length >= n) && self.m.len().min(self.w.len()) >= n * n
    }

    /// The pairs that the count reaches, which the tables must hold.
    pub fn pairs(&self) -> Vec<Pair> {
        (0..self.count)
            .map(|i| Pair {
                id: self.ids[i],
                donor_blood: self.donor_bloods[i],
                patient_blood: self.patient_bloods[i],
                donor_age: self.donor_ages[i],
                patient_age: self.patient_ages[i],
                donor_antigens: self.donor_antigens[i],
                patient_antigens: self.patient_antigens[i],
                patient_antibodies: self.patient_antibodies[i],
            })
            .collect()
    }

    /// What registering and withdrawing check first: 4 for the count, 9 where a
    /// table cannot hold it or the points, 14 for the stored points, then 10
    /// where a stored number isn't the ones in its column.
    fn check(&self) -> Result<(), Reason> {
        if self.count > MOST_PAIRS {
            return Err(Reason::TooManyPairs);
        }
        if !self.holds(self.count) || self.points.len() < COUNT {
            return Err(Reason::TooShort);
        }
        Points::of(&self.points).check()?;
        if self.suitable[..self.count] != ones_in_columns(self.count, &self.m) {
            return Err(Reason::Entry);
        }
        Ok(())
    }

    /// The state with these pairs, these entries of M and W, and the ones in the
    /// columns of this M. Past them everything is as it was.
    fn with(&self, pairs: &[Pair], m: &[u8], w: &[u16]) -> Live {
        let numbers = ones_in_columns(pairs.len(), m);
        Live {
            count: pairs.len(),
            points: self.points.clone(),
            ids: over(&self.ids, pairs, |pair| pair.id),
            donor_bloods: over(&self.donor_bloods, pairs, |pair| pair.donor_blood),
            patient_bloods: over(&self.patient_bloods, pairs, |pair| pair.patient_blood),
            donor_ages: over(&self.donor_ages, pairs, |pair| pair.donor_age),
            patient_ages: over(&self.patient_ages, pairs, |pair| pair.patient_age),
            donor_antigens: over(&self.donor_antigens, pairs, |pair| pair.donor_antigens),
            patient_antigens: over(&self.patient_antigens, pairs, |pair| pair.patient_antigens),
            patient_antibodies: over(&self.patient_antibodies, pairs, |pair| {
                pair.patient_antibodies
            }),
            m: over(&self.m, m, |&entry| entry),
            w: over(&self.w, w, |&entry| entry),
            suitable: over(&self.suitable, &numbers, |&number| number),
        }
    }
}

/// The ones in each patient's column of M, of which the first `n` rows of `n`
/// are looked at. Another entry is none, and one on the diagonal counts.
pub fn ones_in_columns(n: usize, m: &[u8]) -> Vec<u16> {
    let ones = |patient| (0..n).filter(|donor| m[donor * n + patient] == 1).count();
    (0..n).map(|patient| ones(patient) as u16).collect()
}

/// A table with the entries of these laid over its first ones.
fn over<T: Copy, P>(table: &[T], first: &[P], entry: impl Fn(&P) -> T) -> Vec<T> {
    let past = &table[first.len()..];
    first
        .iter()
        .map(entry)
        .chain(past.iter().copied())
        .collect()
}

/// Starts a pool with these points: they are stored, and the count is 0
/// whatever it was.
///
/// Checks 14, then 9 where the points do not fit their table.
pub fn start(live: &Live, given: Points) -> Result<Live, Reason> {
    given.check()?;
    if live.points.len() < COUNT {
        return Err(Reason::TooShort);
    }
    Ok(Live {
        count: 0,
        points: over(&live.points, &given.table(), |&point| point),
        ..live.clone()
    })
}

/// Registers a pair at the end, builds M and W anew from all pairs and the
/// stored points, and counts in the new M.
///
/// Checks 4; 9 for what there is; 14; 10; 6 over all pairs, stored ones and the
/// new one; 7 over them; 12; 9 for one more.
pub fn register(live: &Live, pair: Pair) -> Result<Live, Reason> {
    live.check()?;
    let mut pairs = live.pairs();
    pairs.push(pair);
    if !pairs.iter().all(Pair::in_range) {
        return Err(Reason::Group);
    }
    if has_repeated_id(&pairs) {
        return Err(Reason::RepeatedId);
    }
    if pairs.len() > MOST_PAIRS {
        return Err(Reason::TooManyTogether);
    }
    if !live.holds(pairs.len()) {
        return Err(Reason::TooShort);
    }
    let tables = build_pool(&pool_of(Points::of(&live.points), &pairs))?;
    Ok(live.with(&pairs, &tables.m, &tables.w))
}

/// Withdraws the first pair with that id. The later ones move down by one, and
/// of M and W one row and one column are taken out, whatever they hold. The
/// numbers are those of what is left of M.
///
/// Checks 4; 9; 14; 10; 16.
pub fn withdraw(live: &Live, id: u32) -> Result<Live, Reason> {
    live.check()?;
    let mut pairs = live.pairs();
    let first = pairs.iter().position(|pair| pair.id == id);
    let gap = first.ok_or(Reason::UnknownId)?;
    pairs.remove(gap);
    let m = without(gap, live.count, &live.m);
    let w = without(gap, live.count, &live.w);
    Ok(live.with(&pairs, &m, &w))
}

/// Whether a pair has the id of an earlier one.
fn has_repeated_id(pairs: &[Pair]) -> bool {
    (0..pairs.len()).any(|i| pairs[..i].iter().any(|earlier| earlier.id == pairs[i].id))
}

/// The first `n` rows of `n` of a table, without row and column `gap`.
fn without<T: Copy>(gap: usize, n: usize, table: &[T]) -> Vec<T> {
    let mut rows: Vec<Vec<T>> = table.chunks(n).take(n).map(<[T]>::to_vec).collect();
    rows.remove(gap);
    for row in &mut rows {
        row.remove(gap);
    }
    rows.concat()
}

/// The pool of version 2 that has these points and pairs, with the shuffle that
/// leaves every pair in its place: what a live pool that holds them is a sheet
/// of.
pub fn pool_of(points: Points, pairs: &[Pair]) -> Pool {
    Pool {
        version: 2,
        points: points.table().to_vec(),
        ids: pairs.iter().map(|pair| pair.id).collect(),
        donor_bloods: pairs.iter().map(|pair| pair.donor_blood).collect(),
        patient_bloods: pairs.iter().map(|pair| pair.patient_blood).collect(),
        donor_ages: pairs.iter().map(|pair| pair.donor_age).collect(),
        patient_ages: pairs.iter().map(|pair| pair.patient_age).collect(),
        donor_antigens: pairs.iter().map(|pair| pair.donor_antigens).collect(),
        patient_antigens: pairs.iter().map(|pair| pair.patient_antigens).collect(),
        patient_antibodies: pairs.iter().map(|pair| pair.patient_antibodies).collect(),
        shuffle: (0..pairs.len() as u16).collect(),
    }
}

/// A call of a list.
#[derive(Clone, Copy, Debug, PartialEq, Eq)]
pub enum Call {
    /// Register this pair.
    Register(Pair),
    /// Withdraw the first pair with this id.
    Withdraw(u32),
}

impl Call {
    /// What the call leaves, or why it refuses.
    pub fn on(self, live: &Live) -> Result<Live, Reason> {
        match self {
            Call::Register(pair) => register(live, pair),
            Call::Withdraw(id) => withdraw(live, id),
        }
    }
}

/// What a call answers: nothing, or why it refuses.
pub type Answer = Result<(), Reason>;

/// A list of calls, each on what the one before it left: what the last one
/// leaves, and all their answers. A call that is refused leaves what it found.
pub fn after(live: Live, calls: &[Call]) -> (Live, Vec<Answer>) {
    let mut left = live;
    let answers = calls.iter().map(|call| {
        left = call.on(&left)?;
        Ok(())
    });
    let answers = answers.collect();
    (left, answers)
}

/// What a pool holds after this list of calls from an empty one, by the calls
/// and their answers alone: the pairs of those registrations that finished and
/// whose id no later withdrawal that finished has, in order of registration.
pub fn held(calls: &[Call], answers: &[Answer]) -> Vec<Pair> {
    let finished: Vec<Call> = calls
        .iter()
        .zip(answers)
        .filter(|(_, answer)| answer.is_ok())
        .map(|(&call, _)| call)
        .collect();
    let stays = |(at, call): (usize, &Call)| match *call {
        Call::Register(pair) => {
            let later = &finished[at + 1..];
            (!later.contains(&Call::Withdraw(pair.id))).then_some(pair)
        }
        Call::Withdraw(_) => None,
    };
    finished.iter().enumerate().filter_map(stays).collect()
}

/// How many donors suit each patient of these pairs, which have bloods in range,
/// by document 01's words for compatibility: donor and patient are of different
/// pairs, and the one suits the other.
pub fn suitable(pairs: &[Pair]) -> Vec<u16> {
    let donors = |j: usize| (0..pairs.len()).filter(move |&i| i != j && pairs[i].suits(&pairs[j]));
    (0..pairs.len()).map(|j| donors(j).count() as u16).collect()
}

#[cfg(test)]
mod tests {
    use super::*;

    #[test]
    fn a_row_and_a_column_are_taken_out() {
        let table = [11, 12, 13, 21, 22, 23, 31, 32, 33, 0, 0];
        assert_eq!(without(0, 3, &table), [22, 23, 32, 33]);
        assert_eq!(without(1, 3, &table), [11, 13, 31, 33]);
        assert_eq!(without(2, 3, &table), [11, 12, 21, 22]);
        assert_eq!(without(0, 1, &table), []);
    }

    #[test]
    fn the_ones_are_counted_by_column() {
        let m = [0, 1, 5, 1, 1, 2, 0, 1, 1, 1, 1];
        assert_eq!(ones_in_columns(3, &m), [1, 3, 1]);
        // Fewer pairs have shorter rows.
        assert_eq!(ones_in_columns(2, &m), [0, 2]);
        assert_eq!(ones_in_columns(1, &m), [0]);
        assert_eq!(ones_in_columns(0, &m), []);
        assert_eq!(ones_in_columns(3, &[255; 9]), [0; 3]);
        assert_eq!(ones_in_columns(200, &[1; 40_000]), [200; 200]);
    }

    #[test]
    fn a_donor_suits_by_blood_and_antigens() {
        let pair = |donor_blood, patient_blood| Pair {
            donor_blood,
            patient_blood,
            ..Pair::default()
        };
        // Donors and patients of each blood, and of O two.
        let pairs = [pair(0, 3), pair(1, 2), pair(2, 1), pair(3, 0), pair(0, 0)];
        assert_eq!(suitable(&pairs), [4, 3, 3, 2, 1]);
        assert_eq!(suitable(&pairs[1..4]), [1, 1, 0]);
        let mut pairs = [pair(0, 0); 3];
        assert_eq!(suitable(&pairs), [2, 2, 2]);
        pairs[0].donor_antigens = 0b110;
        pairs[2].donor_antigens = 0b011;
        pairs[1].patient_antibodies = 0b100;
        assert_eq!(suitable(&pairs), [2, 1, 2]);
        pairs[1].patient_antibodies = 0b010;
        assert_eq!(suitable(&pairs), [2, 0, 2]);
        // Against one's own donor's antigens makes no difference.
        pairs[2].patient_antibodies = 0b001;
        assert_eq!(suitable(&pairs), [2, 0, 2]);
        assert_eq!(suitable(&[]), []);
    }

    #[test]
    fn what_lies_past_the_first_entries_stays() {
        let twice = |entry: &u8| 2 * entry;
        assert_eq!(over(&[1, 2, 3], &[5, 6], twice), [10, 12, 3]);
        assert_eq!(over(&[1, 2, 3], &[], twice), [1, 2, 3]);
        assert_eq!(over(&[1], &[5], twice), [10]);
    }

    #[test]
    fn the_account_looks_at_finished_calls_only() {
        let pair = |id, donor_blood| Pair {
            id,
            donor_blood,
            ..Pair::default()
        };
        let calls = [
            Call::Register(pair(1, 0)),
            Call::Register(pair(2, 0)),
            Call::Withdraw(1),
            Call::Register(pair(1, 3)),
            Call::Withdraw(2),
        ];
        let no = Err(Reason::TooShort);
        assert_eq!(held(&[], &[]), []);
        assert_eq!(held(&calls, &[Ok(()); 5]), [pair(1, 3)]);
        assert_eq!(held(&calls, &[no; 5]), []);
        let answers = [Ok(()), Ok(()), Ok(()), Ok(()), no];
        assert_eq!(held(&calls, &answers), [pair(2, 0), pair(1, 3)]);
        let answers = [Ok(()), Ok(()), no, no, Ok(())];
        assert_eq!(held(&calls, &answers), [pair(1, 0)]);
        // The later pair of an id stays where the earlier one went.
        let answers = [Ok(()), no, Ok(()), Ok(()), no];
        assert_eq!(held(&calls, &answers), [pair(1, 3)]);
    }
}
