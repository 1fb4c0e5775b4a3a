//! Live pools beside the reference.

use crate::lent::{same, Answered, Entry, Lent, Outcome};
use crate::plans::{made, Input};
use crate::sheets::built_of_sheet;
use reference::live;
use reference::points::COUNT;
use reference::pool::MOST_PAIRS;
use reference::random::Random;
use reference::{sheet, Call, Live, Pair, Points, Reason, Room};
use vadivuzhen::raw::{self, BuildAnswer, LiveAnswer, Six, WriteAnswer};

/// How many tables of a live pool have an entry for each pair: eight of the
/// fields, and that of the numbers.
pub const BY_PAIR: usize = 9;

/// The lengths of a live pool's tables.
#[derive(Clone, Copy)]
pub struct Lengths {
    /// Of the points.
    pub points: usize,
    /// Of the fields, and of the numbers.
    pub by_pair: [usize; BY_PAIR],
    /// Of M.
    pub m: usize,
    /// Of W.
    pub w: usize,
}

/// Tables of these lengths that hold anything, and a count of any size.
pub fn anything(random: &mut Random, lengths: Lengths) -> Live {
    let Lengths {
        points,
        by_pair,
        m,
        w,
    } = lengths;
    Live {
        count: usize::any(random) >> random.below(64),
        points: any_table(random, points),
        ids: any_table(random, by_pair[0]),
        donor_bloods: any_table(random, by_pair[1]),
        patient_bloods: any_table(random, by_pair[2]),
        donor_ages: any_table(random, by_pair[3]),
        patient_ages: any_table(random, by_pair[4]),
        donor_antigens: any_table(random, by_pair[5]),
        patient_antigens: any_table(random, by_pair[6]),
        patient_antibodies: any_table(random, by_pair[7]),
        m: any_table(random, m),
        w: any_table(random, w),
        suitable: any_table(random, by_pair[8]),
    }
}

/// The state of a live pool that holds these pairs, with these points, in
/// tables that just hold one more. What lies past the count is any.
pub fn sound(random: &mut Random, points: Points, pairs: &[Pair]) -> Live {
    let room = pairs.len() + 1;
    let lengths = Lengths {
        points: COUNT,
        by_pair: [room; BY_PAIR],
        m: room * room,
        w: room * room,
    };
    let empty = live::start(&anything(random, lengths), points);
    let calls: Vec<Call> = pairs.iter().map(|&pair| Call::Register(pair)).collect();
    live::after(empty.expect("points that pass"), &calls).0
}

/// Makes the numbers those of M, where the count or M was changed, if the tables
/// reach so far.
pub fn count_anew(live: &mut Live) {
    let n = live.count;
    if n <= MOST_PAIRS && live.holds(n) {
        live.suitable[..n].copy_from_slice(&live::ones_in_columns(n, &live.m));
    }
}

fn any_table<T: Entry>(random: &mut Random, length: usize) -> Vec<T> {
    (0..length).map(|_| T::any(random)).collect()
}

/// A live pool that is lent to the library call after call, in tables with
/// guards that stay where they are, and what the reference makes of it.
pub struct Kept {
    state: Live,
    count: Lent<usize>,
    points: Lent<u16>,
    ids: Lent<u32>,
    donor_blood: Lent<u8>,
    patient_blood: Lent<u8>,
    donor_age: Lent<u8>,
    patient_age: Lent<u8>,
    donor_antigens: Lent<u64>,
    patient_antigens: Lent<u64>,
    patient_antibodies: Lent<u64>,
    m: Lent<u8>,
    w: Lent<u16>,
    suitable: Lent<u16>,
}

impl Kept {
    /// A pool in this state, whatever it is.
    pub fn of(random: &mut Random, state: Live) -> Kept {
        Kept {
            count: Lent::of(random, &[state.count]),
            points: Lent::of(random, &state.points),
            ids: Lent::of(random, &state.ids),
            donor_blood: Lent::of(random, &state.donor_bloods),
            patient_blood: Lent::of(random, &state.patient_bloods),
            donor_age: Lent::of(random, &state.donor_ages),
            patient_age: Lent::of(random, &state.patient_ages),
            donor_antigens: Lent::of(random, &state.donor_antigens),
            patient_antigens: Lent::of(random, &state.patient_antigens),
            patient_antibodies: Lent::of(random, &state.patient_antibodies),
            m: Lent::of(random, &state.m),
            w: Lent::of(random, &state.w),
            suitable: Lent::of(random, &state.suitable),
            state,
        }
    }

    /// The state that both have.
    pub fn state(&self) -> &Live {
        &self.state
    }

    /// The state that both have, to be changed by the caller.
    pub fn into_state(self) -> Live {
        self.state
    }

    /// Starts the pool with these points.
    pub fn start(&mut self, given: Points) -> Answered {
        let six = Six {
            base: given.base,
            none: given.no_mismatch,
            few: given.few_mismatches,
            some: given.some_mismatches,
            equal: given.same_age,
            young_to_senior: given.young_to_senior,
        };
        let answer = raw::start(six, self.points.fill(), &mut self.count.fill()[0]);
        let due = live::start(&self.state, given);
        self.answered(answer, due)
    }

    /// Registers this pair.
    pub fn register(&mut self, pair: Pair) -> Answered {
        let lent = raw::Pair {
            id: pair.id,
            donor_blood: pair.donor_blood,
            patient_blood: pair.patient_blood,
            donor_age: pair.donor_age,
            patient_age: pair.patient_age,
            donor_antigens: pair.donor_antigens,
            patient_antigens: pair.patient_antigens,
            patient_antibodies: pair.patient_antibodies,
        };
        let answer = raw::register(self.lend(), lent);
        let due = live::register(&self.state, pair);
        self.answered(answer, due)
    }

    /// Withdraws the first pair with this id.
    pub fn withdraw(&mut self, id: u32) -> Answered {
        let answer = raw::withdraw(self.lend(), id);
        let due = live::withdraw(&self.state, id);
        self.answered(answer, due)
    }

    fn lend(&mut self) -> raw::LentLive<'_> {
        raw::LentLive {
            count: &mut self.count.fill()[0],
            points: self.points.read(),
            ids: self.ids.fill(),
            donor_blood: self.donor_blood.fill(),
            patient_blood: self.patient_blood.fill(),
            donor_age: self.donor_age.fill(),
            patient_age: self.patient_age.fill(),
            donor_antigens: self.donor_antigens.fill(),
            patient_antigens: self.patient_antigens.fill(),
            patient_antibodies: self.patient_antibodies.fill(),
            m: self.m.fill(),
            w: self.w.fill(),
            suitable: self.suitable.fill(),
        }
    }

    /// The answer is the one due, and every entry of every table is as the
    /// reference left it; of a refused call, as it was.
    fn answered(&mut self, answer: LiveAnswer, due: Result<Live, Reason>) -> Answered {
        let number = due.as_ref().err().map_or(0, |reason| reason.number());
        let refusal = number.into();
        same("the answer", answer, LiveAnswer { refusal })?;
        if let Ok(left) = due {
            self.state = left;
        }
        self.as_stated()?;
        Ok(number)
    }

    /// The count and all tables are the state's, and no guard changed.
    fn as_stated(&mut self) -> Outcome {
        let state = &self.state;
        self.count.filled("the count", &[state.count])?;
        self.points.filled("points", &state.points)?;
        self.ids.filled("ids", &state.ids)?;
        self.donor_blood
            .filled("donor_blood", &state.donor_bloods)?;
        self.patient_blood
            .filled("patient_blood", &state.patient_bloods)?;
        self.donor_age.filled("donor_age", &state.donor_ages)?;
        self.patient_age
            .filled("patient_age", &state.patient_ages)?;
        self.donor_antigens
            .filled("donor_antigens", &state.donor_antigens)?;
        self.patient_antigens
            .filled("patient_antigens", &state.patient_antigens)?;
        self.patient_antibodies
            .filled("patient_antibodies", &state.patient_antibodies)?;
        self.m.filled("M", &state.m)?;
        self.w.filled("W", &state.w)?;
        self.suitable.filled("suitable", &state.suitable)
    }

    /// The number of pairs, as the library left it.
    fn pairs(&self) -> usize {
        self.count.read()[0]
    }

    fn fields(&self) -> raw::Fields<'_> {
        raw::Fields {
            ids: self.ids.read(),
            donor_blood: self.donor_blood.read(),
            patient_blood: self.patient_blood.read(),
            donor_age: self.donor_age.read(),
            patient_age: self.patient_age.read(),
            donor_antigens: self.donor_antigens.read(),
            patient_antigens: self.patient_antigens.read(),
            patient_antibodies: self.patient_antibodies.read(),
        }
    }

    /// M and W are those that the library builds from these tables in version
    /// 2.
    pub fn is_built(&self) -> Outcome {
        let n = self.pairs();
        let (mut m, mut w) = (vec![0; n * n], vec![0; n * n]);
        let points = self.points.read();
        let answer = raw::build(2, n, points, self.fields(), &mut m, &mut w);
        same("the answer of building", answer, BuildAnswer { refusal: 0 })?;
        self.has("as built", &m, &w)
    }

    /// The pool can be written as a sheet, with any shuffle, and M and W are
    /// those that the library builds from what it reads there.
    pub fn is_of_a_sheet(&self, random: &mut Random) -> Outcome {
        let n = self.pairs();
        let mut bytes = vec![0; sheet::length(2, n)];
        let points = self.points.read();
        let shuffle = random.shuffle(n);
        let answer = raw::write(2, n, points, self.fields(), &shuffle, &mut bytes);
        let written = WriteAnswer {
            refusal: 0,
            length: bytes.len(),
        };
        same("the answer of writing", answer, written)?;
        let (m, w) = built_of_sheet(random, &bytes, n)?;
        self.has("as built of a sheet", &m, &w)
    }

    /// M and W are planned as they stand, with any shuffle: nothing in them is
    /// refused, and what lies past them makes no difference.
    pub fn is_planned(&self, random: &mut Random) -> Outcome {
        let n = self.pairs();
        let input = Input {
            n,
            floor: 0,
            m: self.m.read().to_vec(),
            w: self.w.read().to_vec(),
            shuffle: random.shuffle(n),
            room: Room::due(n),
        };
        made(random, &input)?;
        Ok(())
    }

    /// M and W begin with these.
    fn has(&self, how: &str, m: &[u8], w: &[u16]) -> Outcome {
        begins(&format!("M, {how}"), self.m.read(), m)?;
        begins(&format!("W, {how}"), self.w.read(), w)
    }
}

/// The table begins with these entries.
fn begins<T: Entry>(what: &str, table: &[T], entries: &[T]) -> Outcome {
    if table.len() < entries.len() {
        return Err(format!(
            "{what}: {} entries, not {}",
            table.len(),
            entries.len()
        ));
    }
    let both = || table.iter().zip(entries);
    match both().position(|(here, due)| here != due) {
        Some(at) => Err(format!(
            "{what}: entry {at} is {:?}, not {:?}",
            table[at], entries[at]
        )),
        None => Ok(()),
    }
}
