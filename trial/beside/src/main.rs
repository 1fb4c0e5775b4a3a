//! Runs the proved library beside the independent planner on the same inputs,
//! and compares all that they answer and leave.
//!
//! `cargo run --release -- [--seed N] [--case NAME] [--count N]`
//!
//! Without a seed each run takes a new one. A trial that fails prints what
//! differed, and how to run it again.

mod faults;
mod groups;
mod lent;
mod lists;
mod lives;
mod plans;
mod sheets;

use groups::Group;
use reference::random::Random;
use std::any::Any;
use std::collections::BTreeMap;
use std::panic::{catch_unwind, AssertUnwindSafe};
use std::process::{exit, ExitCode};
use std::time::{Instant, SystemTime, UNIX_EPOCH};

/// After so many failures a group is given up.
const MOST_FAILURES: u64 = 5;

/// The cases of a group, by the refusal on which both agreed.
#[derive(Default)]
pub struct Cases(BTreeMap<u8, u64>);

impl Cases {
    /// Adds a case with that refusal, 0 for none.
    pub fn add(&mut self, refusal: u8) {
        *self.0.entry(refusal).or_default() += 1;
    }

    fn count(&self) -> u64 {
        self.0.values().sum()
    }

    /// The cases in words.
    fn told(&self) -> String {
        let told = self.0.iter().map(|(refusal, count)| match refusal {
            0 => format!("{count} finished"),
            _ => format!("{count} refused by {refusal}"),
        });
        told.collect::<Vec<String>>().join(", ")
    }
}

/// What to run.
struct Asked {
    seed: u64,
    case: Option<String>,
    count: Option<u64>,
}

fn main() -> ExitCode {
    let asked = asked();
    println!("seed {}", asked.seed);
    let (mut passed, mut failed) = (0, 0);
    for group in &groups::ALL {
        if asked.case.as_deref().is_none_or(|case| case == group.name) {
            let (more_passed, more_failed) = tried(group, &asked);
            passed += more_passed;
            failed += more_failed;
        }
    }
    println!("{passed} passed, {failed} failed");
    ExitCode::from(u8::from(failed > 0))
}

/// Tries a group: how many cases passed, and how many trials failed.
fn tried(group: &Group, asked: &Asked) -> (u64, u64) {
    let name = group.name;
    let start = Instant::now();
    let mut cases = Cases::default();
    let mut failed = 0;
    for number in 0..asked.count.unwrap_or(group.trials) {
        let seed = asked.seed.wrapping_add(number);
        let mut random = Random::new(seed);
        let trial = AssertUnwindSafe(|| (group.run)(seed, &mut random, &mut cases));
        let outcome = catch_unwind(trial).unwrap_or_else(|panic| Err(message(&*panic)));
        if let Err(what) = outcome {
            println!("{name}: {what}");
            println!("    again: cargo run --release -- --case {name} --seed {seed} --count 1");
            failed += 1;
        }
        if failed == MOST_FAILURES {
            println!("{name}: given up after {failed} failures");
            break;
        }
    }
    if asked.count.is_none() && failed == 0 {
        for due in group.due.iter().filter(|due| !cases.0.contains_key(due)) {
            println!("{name}: no case with refusal {due}");
            failed += 1;
        }
    }
    let (count, told) = (cases.count(), cases.told());
    let seconds = start.elapsed().as_secs_f64();
    println!("{name}: {count} cases, {failed} failures, {seconds:.1} s ({told})");
    (count, failed)
}

/// What a panic said.
fn message(panic: &(dyn Any + Send)) -> String {
    let text = panic.downcast_ref::<String>().map(String::as_str);
    let text = text.or(panic.downcast_ref::<&str>().copied());
    format!("a panic: {}", text.unwrap_or("without a word"))
}

/// A seed far from that of another run.
fn new_seed() -> u64 {
    let time = SystemTime::now().duration_since(UNIX_EPOCH);
    let time = time.map_or(0, |time| time.as_nanos() as u64);
    Random::new(time).bits() >> 16
}

/// The command line.
fn asked() -> Asked {
    let mut asked = Asked {
        seed: new_seed(),
        case: None,
        count: None,
    };
    let mut words = std::env::args().skip(1);
    while let Some(word) = words.next() {
        let Some(value) = words.next() else {
            wrong(&format!("{word} needs a value"));
        };
        let number = || match value.parse() {
            Ok(number) => number,
            Err(_) => wrong(&format!("{value} is no number")),
        };
        match word.as_str() {
            "--seed" => asked.seed = number(),
            "--count" => asked.count = Some(number()),
            "--case" => {
                if groups::ALL.iter().all(|group| group.name != value) {
                    let names = groups::ALL.map(|group| group.name).join(" ");
                    wrong(&format!("there is no case {value}; there are {names}"));
                }
                asked.case = Some(value);
            }
            _ => wrong(&format!("{word} is not known")),
        }
    }
    asked
}

fn wrong(what: &str) -> ! {
    eprintln!("{what}\nusage: beside [--seed N] [--case NAME] [--count N]");
    exit(2)
}
