//! A live pool in the tables that the library's calls are lent, and another one
//! in plain Rust, to time them beside each other.

use reference::points::{FEW, SOME};
use reference::pool::{MOST_AGE, MOST_BLOOD, MOST_PAIRS};
use reference::tables::SUITS;
use reference::{Points, Pool};
use vadivuzhen::raw::{self, LiveAnswer, Pair};
use vadivuzhen::Refusal;

/// The library's live pool, in tables that just hold the pairs of a pool.
#[derive(Clone)]
pub struct Lent {
    pub count: usize,
    points: [u16; 6],
    pub ids: Vec<u32>,
    donor_blood: Vec<u8>,
    patient_blood: Vec<u8>,
    donor_age: Vec<u8>,
    patient_age: Vec<u8>,
    donor_antigens: Vec<u64>,
    patient_antigens: Vec<u64>,
    patient_antibodies: Vec<u64>,
    pub m: Vec<u8>,
    w: Vec<u16>,
    pub suitable: Vec<u16>,
}

impl Lent {
    /// All pairs of the pool, with M and W not built and nothing counted.
    pub fn new(points: Points, pool: &Pool) -> Lent {
        let n = pool.len();
        Lent {
            count: n,
            points: points.table(),
            ids: pool.ids.clone(),
            donor_blood: pool.donor_bloods.clone(),
            patient_blood: pool.patient_bloods.clone(),
            donor_age: pool.donor_ages.clone(),
            patient_age: pool.patient_ages.clone(),
            donor_antigens: pool.donor_antigens.clone(),
            patient_antigens: pool.patient_antigens.clone(),
            patient_antibodies: pool.patient_antibodies.clone(),
            m: vec![0; n * n],
            w: vec![0; n * n],
            suitable: vec![0; n],
        }
    }

    /// Sets the count, M and the numbers to those of this pool: 10 holds them to
    /// each other.
    pub fn set_to(&mut self, plain: &Plain) {
        self.count = plain.pairs.len();
        self.m[..plain.m.len()].copy_from_slice(&plain.m);
        self.suitable[..self.count].copy_from_slice(&plain.suitable);
    }

    fn lent(&mut self) -> raw::LentLive<'_> {
        raw::LentLive {
            count: &mut self.count,
            points: &self.points,
            ids: &mut self.ids,
            donor_blood: &mut self.donor_blood,
            patient_blood: &mut self.patient_blood,
            donor_age: &mut self.donor_age,
            patient_age: &mut self.patient_age,
            donor_antigens: &mut self.donor_antigens,
            patient_antigens: &mut self.patient_antigens,
            patient_antibodies: &mut self.patient_antibodies,
            m: &mut self.m,
            w: &mut self.w,
            suitable: &mut self.suitable,
        }
    }

    pub fn register(&mut self, pair: Pair) -> LiveAnswer {
        raw::register(self.lent(), pair)
    }

    pub fn withdraw(&mut self, id: u32) -> LiveAnswer {
        raw::withdraw(self.lent(), id)
    }

    fn pair(&self, i: usize) -> Pair {
        Pair {
            id: self.ids[i],
            donor_blood: self.donor_blood[i],
            patient_blood: self.patient_blood[i],
            donor_age: self.donor_age[i],
            patient_age: self.patient_age[i],
            donor_antigens: self.donor_antigens[i],
            patient_antigens: self.patient_antigens[i],
            patient_antibodies: self.patient_antibodies[i],
        }
    }

    /// All pairs, in their order.
    pub fn pairs(&self) -> Vec<Pair> {
        (0..self.count).map(|i| self.pair(i)).collect()
    }

    /// Both hold the same pairs, tables and numbers.
    pub fn assert_is(&self, plain: &Plain) {
        let n = self.count;
        assert_eq!(self.pairs(), plain.pairs);
        assert_eq!(self.m[..n * n], plain.m);
        assert_eq!(self.w[..n * n], plain.w);
        assert_eq!(self.suitable[..n], plain.suitable);
    }
}

/// A live pool as one writes it in Rust: it owns its pairs, and refuses what the
/// library refuses, but for lent tables and a lent count.
#[derive(Clone)]
pub struct Plain {
    points: Points,
    pub pairs: Vec<Pair>,
    pub m: Vec<u8>,
    pub w: Vec<u16>,
    pub suitable: Vec<u16>,
}

impl Plain {
    /// These pairs, with their tables and numbers.
    pub fn new(points: Points, pairs: Vec<Pair>) -> Plain {
        let mut plain = Plain {
            points,
            pairs,
            m: Vec::new(),
            w: Vec::new(),
            suitable: Vec::new(),
        };
        plain.build();
        plain
    }

    /// Sets the pairs, M and the numbers to those of this pool, and W to their
    /// size.
    pub fn set_to(&mut self, plain: &Plain) {
        self.pairs.clone_from(&plain.pairs);
        self.m.clone_from(&plain.m);
        self.w.resize(plain.w.len(), 0);
        self.suitable.clone_from(&plain.suitable);
    }

    /// Registers the pair at the end, and builds both tables and counts anew.
    pub fn register(&mut self, pair: Pair) -> Result<(), Refusal> {
        self.check_points()?;
        self.check_numbers()?;
        let (stored, n) = (&self.pairs, self.pairs.len());
        if !stored.iter().all(in_range) || !in_range(&pair) {
            return Err(Refusal::OutOfRange);
        }
        let repeats = |i: usize, id: u32| stored[..i].iter().any(|earlier| earlier.id == id);
        if (0..n).any(|i| repeats(i, stored[i].id)) || repeats(n, pair.id) {
            return Err(Refusal::RepeatedId);
        }
        if n == MOST_PAIRS {
            return Err(Refusal::TooManyTogether);
        }
        self.pairs.push(pair);
        self.build();
        Ok(())
    }

    /// Withdraws the first pair with the id, takes its row and its column out of
    /// both tables, and lowers the numbers of those whom its donor suits.
    pub fn withdraw(&mut self, id: u32) -> Result<(), Refusal> {
        self.check_points()?;
        self.check_numbers()?;
        let n = self.pairs.len();
        let found = self.pairs.iter().position(|pair| pair.id == id);
        let gap = found.ok_or(Refusal::UnknownId)?;
        self.pairs.remove(gap);
        let row = &self.m[gap * n..][..n];
        for (number, &entry) in self.suitable.iter_mut().zip(row) {
            *number -= u16::from(entry == 1);
        }
        self.suitable.remove(gap);
        take_out(&mut self.m, n, gap);
        take_out(&mut self.w, n, gap);
        Ok(())
    }

    fn check_points(&self) -> Result<(), Refusal> {
        self.points.check().map_err(|_| Refusal::WrongPoints)
    }

    fn check_numbers(&self) -> Result<(), Refusal> {
        let mut ones = [0; MOST_PAIRS];
        let ones = &mut ones[..self.pairs.len()];
        count_ones(&self.m, ones);
        if self.suitable != ones {
            return Err(Refusal::NotCompatibility);
        }
        Ok(())
    }

    fn build(&mut self) {
        let (points, pairs) = (self.points, &self.pairs);
        self.m.clear();
        self.w.clear();
        for (i, donor) in pairs.iter().enumerate() {
            let patients = pairs.iter().enumerate();
            let compatible = |(j, patient)| u8::from(i != j && suits(donor, patient));
            self.m.extend(patients.clone().map(compatible));
            let weight = |(j, patient)| match i == j {
                true => 0,
                false => weight(points, donor, patient),
            };
            self.w.extend(patients.map(weight));
        }
        self.suitable.resize(pairs.len(), 0);
        count_ones(&self.m, &mut self.suitable);
    }
}

/// Counts the ones in each column of M, row by row: column by column takes
/// several times as long.
pub fn count_ones(m: &[u8], ones: &mut [u16]) {
    ones.fill(0);
    for row in m.chunks_exact(ones.len().max(1)) {
        for (ones, &entry) in ones.iter_mut().zip(row) {
            *ones += u16::from(entry == 1);
        }
    }
}

fn in_range(pair: &Pair) -> bool {
    let bloods = [pair.donor_blood, pair.patient_blood];
    let ages = [pair.donor_age, pair.patient_age];
    bloods.iter().all(|&blood| blood <= MOST_BLOOD) && ages.iter().all(|&age| age <= MOST_AGE)
}

fn suits(donor: &Pair, patient: &Pair) -> bool {
    let blood = SUITS[usize::from(donor.donor_blood)][usize::from(patient.patient_blood)];
    blood && donor.donor_antigens & patient.patient_antibodies == 0
}

fn weight(points: Points, donor: &Pair, patient: &Pair) -> u16 {
    let mismatches = (donor.donor_antigens & !patient.patient_antigens).count_ones();
    let mismatch = match mismatches {
        0 => points.no_mismatch,
        few if few <= FEW => points.few_mismatches,
        some if some <= SOME => points.some_mismatches,
        _ => 0,
    };
    let age = match (donor.donor_age, patient.patient_age) {
        (donor, patient) if donor == patient => points.same_age,
        (0, _) => points.young_to_senior,
        _ => 0,
    };
    points.base + mismatch + age
}

/// Takes a row and a column out of `n` rows of `n`, in place.
fn take_out<T: Copy>(table: &mut Vec<T>, n: usize, gap: usize) {
    let mut to = 0;
    for row in (0..n).filter(|&row| row != gap) {
        let from = row * n;
        table.copy_within(from..from + gap, to);
        table.copy_within(from + gap + 1..from + n, to + gap);
        to += n - 1;
    }
    table.truncate(to);
}
