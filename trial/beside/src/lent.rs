//! Tables that are lent to the library, and what becomes of them.

use reference::random::Random;
use std::fmt::Debug;
use std::hint::black_box;
use vadivuzhen::Cycle;

/// How many entries stand guard before a lent table, and after it.
const GUARDS: usize = 4;

/// Nothing, or what differed.
pub type Outcome = Result<(), String>;

/// The number of the refusal on which both agree, 0 for none, or what
/// differed.
pub type Answered = Result<u8, String>;

/// Whether the two said the same.
pub fn same<T: PartialEq + Debug>(what: &str, library: T, reference: T) -> Outcome {
    if library == reference {
        return Ok(());
    }
    Err(format!(
        "{what}: the library has {library:?}, the reference {reference:?}"
    ))
}

/// An entry of a table.
pub trait Entry: Copy + PartialEq + Debug {
    /// One of any value.
    fn any(random: &mut Random) -> Self;
}

impl Entry for u8 {
    fn any(random: &mut Random) -> u8 {
        random.byte()
    }
}

impl Entry for u16 {
    fn any(random: &mut Random) -> u16 {
        random.bits() as u16
    }
}

impl Entry for u32 {
    fn any(random: &mut Random) -> u32 {
        random.bits() as u32
    }
}

impl Entry for u64 {
    fn any(random: &mut Random) -> u64 {
        random.bits()
    }
}

impl Entry for usize {
    fn any(random: &mut Random) -> usize {
        random.bits() as usize
    }
}

impl Entry for Cycle {
    fn any(random: &mut Random) -> Cycle {
        Cycle {
            first: u16::any(random),
            second: u16::any(random),
            third: u16::any(random),
        }
    }
}

/// A table that is lent, with guards on both sides and a copy of all.
pub struct Lent<T> {
    all: Vec<T>,
    copy: Vec<T>,
}

impl<T: Entry> Lent<T> {
    /// A table of any contents, to be filled.
    pub fn empty(random: &mut Random, length: usize) -> Lent<T> {
        let contents: Vec<T> = (0..length).map(|_| T::any(random)).collect();
        Lent::of(random, &contents)
    }

    /// A table of these contents.
    pub fn of(random: &mut Random, contents: &[T]) -> Lent<T> {
        let mut all = Vec::with_capacity(contents.len() + 2 * GUARDS);
        all.extend((0..GUARDS).map(|_| T::any(random)));
        all.extend_from_slice(contents);
        all.extend((0..GUARDS).map(|_| T::any(random)));
        let copy = all.clone();
        Lent { all, copy }
    }

    /// The table, to be read.
    pub fn read(&self) -> &[T] {
        &self.all[GUARDS..self.all.len() - GUARDS]
    }

    /// The table, to be filled.
    pub fn fill(&mut self) -> &mut [T] {
        let end = self.all.len() - GUARDS;
        &mut self.all[GUARDS..end]
    }

    /// The table has these entries at its start, and nothing else changed.
    pub fn filled(&mut self, what: &str, entries: &[T]) -> Outcome {
        self.copy[GUARDS..GUARDS + entries.len()].copy_from_slice(entries);
        self.as_copied(what, entries.len())
    }

    /// Nothing changed.
    pub fn unchanged(&mut self, what: &str) -> Outcome {
        self.as_copied(what, 0)
    }

    /// Everything is as in the copy, of which `due` entries were to be filled.
    fn as_copied(&mut self, what: &str, due: usize) -> Outcome {
        let all = black_box(&mut self.all);
        if *all == self.copy {
            return Ok(());
        }
        let both = || all.iter().zip(&self.copy);
        let at = both().position(|(entry, copy)| entry != copy);
        let at = at.expect("two tables of one length differ somewhere");
        let (entry, copy) = (all[at], self.copy[at]);
        let length = all.len() - 2 * GUARDS;
        let part = match at.checked_sub(GUARDS) {
            Some(index) if index < due => {
                return same(&format!("{what}[{index}]"), entry, copy);
            }
            Some(index) if index < length => format!("entry {index}, of which {due} were due"),
            Some(index) => format!("entry {index}, past its end at {length}"),
            None => format!("{} entries before its start", GUARDS - at),
        };
        Err(format!("{what}: {part}, became {entry:?} from {copy:?}"))
    }
}
