//! Lists of calls on a live pool, beside the reference and beside a plain list
//! of pairs.

use crate::faults::{put, TOO_MANY};
use crate::groups::any_points;
use crate::lent::{same, Answered, Entry, Outcome};
use crate::lives::{anything, count_anew, Kept, Lengths, BY_PAIR};
use crate::sheets::more;
use crate::Cases;
use reference::live::{held, suitable, Answer};
use reference::points::COUNT;
use reference::pool::{MOST_AGE, MOST_BLOOD, MOST_PAIRS};
use reference::random::{plain_pool, points, wrong_points, PoolKind, Random};
use reference::{Call, Live, Pair, Points, Reason};

/// Every so many lists there is one that goes up to 200 pairs.
const LARGE: u64 = 500;

/// How many pairs the tables of such a list have room for at least: one too few,
/// just as many as may be, and more, in turn.
const LARGE_ROOM: [usize; 4] = [MOST_PAIRS - 1, MOST_PAIRS, MOST_PAIRS + 1, MOST_PAIRS + 9];

/// A list of calls from an empty pool, and then some on tables that the caller
/// has changed.
pub fn listed(seed: u64, random: &mut Random, cases: &mut Cases) -> Outcome {
    let large = seed % LARGE == 0;
    let room = if large {
        LARGE_ROOM[(seed / LARGE) as usize % LARGE_ROOM.len()]
    } else {
        random.between(0, 12)
    };
    let mut list = List::new(random, room)?;
    if large {
        list.fill(random, cases)?;
    }
    let calls = if large { 40 } else { random.between(20, 60) };
    for _ in 0..calls {
        list.step(random, cases)?;
    }
    let mut state = list.kept.into_state();
    for _ in 0..if large { 4 } else { 12 } {
        change(random, &mut state);
        let mut kept = Kept::of(random, state);
        cases.add(any_call_on(random, &mut kept, &list.source)?);
        state = kept.into_state();
    }
    Ok(())
}

/// A pool, the calls on it since it was started, and what is known of it
/// without a table: the plain list of pairs, and how many its tables hold.
struct List {
    kept: Kept,
    capacity: usize,
    points: Points,
    calls: Vec<Call>,
    answers: Vec<Answer>,
    pairs: Vec<Pair>,
    /// Where pairs that register get their fields from.
    source: Vec<Pair>,
}

impl List {
    /// A pool that is started in tables of any contents.
    fn new(random: &mut Random, room: usize) -> Result<List, String> {
        let (lengths, capacity) = lengths(random, room);
        let before = anything(random, lengths);
        let kept = Kept::of(random, before);
        let kind = random.one_of(&PoolKind::ALL);
        let pool = plain_pool(random, 40, kind);
        let mut list = List {
            kept,
            capacity,
            points: Points::DOCUMENT,
            calls: Vec::new(),
            answers: Vec::new(),
            pairs: Vec::new(),
            source: (0..pool.len()).map(|i| Pair::of(&pool, i)).collect(),
        };
        list.start(random)?;
        Ok(list)
    }

    /// Starts the pool, at times again, with points that pass.
    fn start(&mut self, random: &mut Random) -> Answered {
        self.points = points(random);
        same("starting", self.kept.start(self.points)?, 0)?;
        self.calls.clear();
        self.answers.clear();
        self.pairs.clear();
        self.agrees(random)?;
        Ok(0)
    }

    /// Registers until the pool is full, and once more.
    fn fill(&mut self, random: &mut Random, cases: &mut Cases) -> Outcome {
        while self.pairs.len() < self.capacity.min(MOST_PAIRS) {
            let call = match random.below(20) {
                0 => Call::Withdraw(self.some_id(random)),
                _ => self.registration(random),
            };
            cases.add(self.call(random, call)?);
        }
        let id = self.free_id(random);
        let one_more = Pair {
            id,
            ..random.one_of(&self.source)
        };
        cases.add(self.call(random, Call::Register(one_more))?);
        Ok(())
    }

    /// Any step: mostly a call, seldom a new start, or one that is refused.
    fn step(&mut self, random: &mut Random, cases: &mut Cases) -> Outcome {
        let number = match random.below(40) {
            0 => self.start(random)?,
            1 => {
                let wrong = wrong_points(random);
                let number = self.kept.start(wrong)?;
                self.agrees(random)?;
                same("starting", number, Reason::WrongPoints.number())?;
                number
            }
            2..=14 => {
                let id = self.some_id(random);
                self.call(random, Call::Withdraw(id))?
            }
            _ => {
                let call = self.registration(random);
                self.call(random, call)?
            }
        };
        cases.add(number);
        Ok(())
    }

    /// The registration of a pair, at times out of range.
    fn registration(&self, random: &mut Random) -> Call {
        let id = match random.below(6) {
            0 => self.some_id(random),
            _ => self.free_id(random),
        };
        let mut pair = Pair {
            id,
            ..random.one_of(&self.source)
        };
        if random.chance(1, 16) {
            spoil(random, &mut pair);
        }
        Call::Register(pair)
    }

    /// An id that is mostly held.
    fn some_id(&self, random: &mut Random) -> u32 {
        if self.pairs.is_empty() || random.chance(1, 8) {
            return self.free_id(random);
        }
        random.one_of(&self.pairs).id
    }

    /// An id that is not held, often one that was.
    fn free_id(&self, random: &mut Random) -> u32 {
        loop {
            let id = match random.below(4) {
                0 if !self.calls.is_empty() => match random.one_of(&self.calls) {
                    Call::Register(pair) => pair.id,
                    Call::Withdraw(id) => id,
                },
                1 => random.one_of(&[0, 1, u32::MAX - 1, u32::MAX]),
                _ => u32::any(random),
            };
            if !self.has(id) {
                return id;
            }
        }
    }

    fn has(&self, id: u32) -> bool {
        self.pairs.iter().any(|pair| pair.id == id)
    }

    /// What the plain list says of a call.
    fn due(&self, call: Call) -> Answer {
        let n = self.pairs.len();
        match call {
            Call::Register(pair) if !pair.in_range() => Err(Reason::Group),
            Call::Register(pair) if self.has(pair.id) => Err(Reason::RepeatedId),
            Call::Register(_) if n == MOST_PAIRS => Err(Reason::TooManyTogether),
            Call::Register(_) if n == self.capacity => Err(Reason::TooShort),
            Call::Withdraw(id) if !self.has(id) => Err(Reason::UnknownId),
            _ => Ok(()),
        }
    }

    /// Makes a call on all of them.
    fn call(&mut self, random: &mut Random, call: Call) -> Answered {
        let due = self.due(call);
        let number = made(&mut self.kept, call)?;
        let by_list = due.err().map_or(0, Reason::number);
        same(&format!("{call:?}, by a list of pairs"), number, by_list)?;
        match call {
            Call::Register(pair) if number == 0 => self.pairs.push(pair),
            Call::Withdraw(id) if number == 0 => self.pairs.retain(|pair| pair.id != id),
            _ => (),
        }
        self.calls.push(call);
        self.answers.push(due);
        self.agrees(random)?;
        Ok(number)
    }

    /// The pool has the pairs of the plain list, which are those of the account
    /// of its calls, the tables of a sheet with these and its points, which are
    /// planned, and for each patient the number of their donors that suit.
    fn agrees(&self, random: &mut Random) -> Outcome {
        let state = self.kept.state();
        same("the pairs, by a list", &state.pairs(), &self.pairs)?;
        let account = held(&self.calls, &self.answers);
        same("the pairs, by the account", &account, &self.pairs)?;
        same("the points", &state.points[..COUNT], &self.points.table())?;
        let numbers = &state.suitable[..state.count];
        same("the numbers, by a list", numbers, &suitable(&self.pairs))?;
        self.kept.is_built()?;
        if random.chance(1, 10) {
            self.kept.is_of_a_sheet(random)?;
            // Of many pairs there would be too many plans to make.
            if state.count <= 20 {
                self.kept.is_planned(random)?;
            }
        }
        Ok(())
    }
}

/// The lengths of a pool's tables that have room for so many pairs or a few
/// more, and how many they hold. M and W have anything up to what one more would
/// need.
fn lengths(random: &mut Random, room: usize) -> (Lengths, usize) {
    let mut holds = [(); BY_PAIR + 2].map(|()| room + more(random));
    if random.chance(1, 4) {
        // Just one table ends before all others.
        holds = holds.map(|pairs| pairs + 1);
        holds[random.below(BY_PAIR + 2)] = room;
    }
    let mut square = |pairs: usize| pairs * pairs + random.below(2 * pairs + 1);
    let [by_pair @ .., m, w] = holds;
    let (m, w) = (square(m), square(w));
    let points = COUNT + more(random);
    let lengths = Lengths {
        points,
        by_pair,
        m,
        w,
    };
    (lengths, holds.into_iter().min().unwrap_or(0))
}

/// Makes a call on both.
fn made(kept: &mut Kept, call: Call) -> Answered {
    let answer = match call {
        Call::Register(pair) => kept.register(pair),
        Call::Withdraw(id) => kept.withdraw(id),
    };
    answer.map_err(|what| format!("{call:?}: {what}"))
}

/// Puts a blood or an age group out of range.
fn spoil(random: &mut Random, pair: &mut Pair) {
    let blood = random.between(usize::from(MOST_BLOOD) + 1, 255) as u8;
    let age = random.between(usize::from(MOST_AGE) + 1, 255) as u8;
    match random.below(4) {
        0 => pair.donor_blood = blood,
        1 => pair.patient_blood = blood,
        2 => pair.donor_age = age,
        _ => pair.patient_age = age,
    }
}

/// Any call on a pool that may be in any state.
fn any_call_on(random: &mut Random, kept: &mut Kept, source: &[Pair]) -> Answered {
    let mut id = u32::any(random);
    let ids = &kept.state().ids;
    if !ids.is_empty() && random.chance(3, 4) {
        id = random.one_of(ids);
    }
    let mut pair = Pair {
        id: if random.chance(1, 6) {
            id
        } else {
            u32::any(random)
        },
        ..random.one_of(source)
    };
    if random.chance(1, 16) {
        spoil(random, &mut pair);
    }
    match random.below(12) {
        0 => kept.start(any_points(random)),
        1..=5 => made(kept, Call::Withdraw(id)),
        _ => made(kept, Call::Register(pair)),
    }
}

/// Changes a live pool's tables or its count as no call does, seldom so that
/// all later calls are refused. Mostly the numbers are then those of M.
fn change(random: &mut Random, state: &mut Live) {
    let count = state.count;
    let at = random.below(count.min(MOST_PAIRS) + 2);
    let bits = random.one_of(&[1, 3, u8::MAX]);
    match random.below(14) {
        0 => state.m.fill_with(|| random.byte() & bits),
        1 => state.w.fill_with(|| random.bits() as u16),
        2 => {
            let entry = random.below(state.m.len() + 1);
            put(&mut state.m, entry, random.byte() & bits);
        }
        3 => {
            let from = random.below(state.ids.len() + 1);
            if let Some(&id) = state.ids.get(from) {
                put(&mut state.ids, at, id);
            }
        }
        4 => put(&mut state.ids, at, u32::any(random)),
        5 => put(&mut state.donor_bloods, at, random.byte() & 7),
        6 => put(&mut state.patient_ages, at, random.byte() & 3),
        7 => put(&mut state.donor_antigens, at, random.bits()),
        8 => {
            let near = [0, count.saturating_sub(1), count.wrapping_add(1)];
            state.count = random.one_of(&near);
        }
        9 => state.count = random.below(state.ids.len() + 2),
        10 if random.chance(1, 4) => state.count = random.one_of(&TOO_MANY),
        11 if random.chance(1, 4) => state.points = any_points(random).table().to_vec(),
        12 => {
            let end = state.m.len().saturating_sub(random.below(3));
            state.m.truncate(end);
        }
        _ => (),
    }
    if random.chance(4, 5) {
        count_anew(state);
    }
    if random.chance(1, 10) {
        put(&mut state.suitable, at, random.bits() as u16 & 511);
    }
}
