//! Plans kidney exchanges.
//!
//! A *pair* is a patient and a donor who does not suit that patient. This
//! crate reads a pool of pairs from its sheet, builds the tables that say who
//! may give to whom and what that weighs, and picks exchanges among two or
//! three pairs, so that each donor gives only if that donor's own patient
//! receives.
//!
//! The work is done by a library in Rattle whose functions are proved, for
//! every input, to answer what the published documents ask. This crate is the
//! way to call it from Rust. It adds types in which wrong lengths cannot be
//! said: a [`Pool`] has none of the faults of a pool, [`Tables`] are N rows of
//! N, and a [`Plan`] has all that planning leaves, with the ids to print it by.
//! [`join()`] makes one sheet of two, such as a sheet and its addendum.
//! [`Pool::plan_above`] leaves out exchanges that are too light to travel for.
//! [`Plan::credit`] is a limit: no other set of exchanges, each above the same
//! floor and with no pair in two of them, weighs more.
//! A pool of version 2 has its registry's own [`Points`] to weigh by.
//! A [`LivePool`] is kept from match to match: pairs register and withdraw, its
//! tables are always those of its pairs, and it knows how many donors suit each
//! patient.
//! Nothing here is proved but what is called; [`raw`] has the calls themselves.
//!
//! "Document 01", which the comments cite, is the scope agreed with the buyer.
//!
//! # Example
//!
//! ```
//! use vadivuzhen::{Age, Blood, Pair, Pool};
//!
//! // A patient of blood B whose donor is A, and the other way round.
//! let pair = |id, donor_blood, patient_blood| Pair {
//!     id,
//!     donor_blood,
//!     patient_blood,
//!     donor_age: Age::Young,
//!     patient_age: Age::Young,
//!     donor_antigens: 0,
//!     patient_antigens: 0,
//!     patient_antibodies: 0,
//! };
//! let pairs = [pair(11, Blood::A, Blood::B), pair(12, Blood::B, Blood::A)];
//! let pool = Pool::new(&pairs, &[0, 1])?;
//!
//! let plan = pool.plan();
//! assert_eq!(plan.weight(), 2_900);
//! assert_eq!(plan.recipient_of(0), Some(1));
//! assert_eq!(
//!     plan.print(),
//!     "PLAN 2 1 2900\n11 12 12\n12 11 11\nCOUNTS 1 6 1\n",
//! );
//!
//! // A pool is what its sheet says.
//! assert_eq!(Pool::read(&pool.write())?, pool);
//! # Ok::<(), vadivuzhen::Refused>(())
//! ```
//!
//! # Linking
//!
//! The archive of the proved library is taken from the folder that the
//! environment variable `VADIVUZHEN_LIB` names; without it, from where
//! `rt lib` in crates/vadivuzhen leaves it in that folder, `out`.
//! It is for x86-64 Linux, and the crate does not compile for other targets.
//!
//! Take crate and archive from the same version of the repository. A call
//! that is answered a refusal of a number unknown to the crate panics: then
//! the archive is another one, and nothing else that it answers can be relied
//! on. [`raw`] gives the number as it is.

#![warn(missing_docs)]

// There are x86-64 targets whose pointers have 32 bits.
#[cfg(not(any(
    doc,
    all(
        target_arch = "x86_64",
        target_pointer_width = "64",
        target_os = "linux"
    )
)))]
compile_error!(
    "libvadivuzhen.a, which this crate links, is for x86-64 Linux with 64-bit pointers: compile for such a target, like x86_64-unknown-linux-gnu"
);

mod join;
mod live;
mod plan;
mod points;
mod pool;
pub mod raw;
mod refused;
mod tables;

pub use crate::join::join;
pub use crate::live::LivePool;
pub use crate::plan::{Plan, Tally, MOST_FLOOR};
pub use crate::points::Points;
pub use crate::pool::{Age, Blood, Pair, Pool, LONGEST_SHEET, MOST_PAIRS};
pub use crate::raw::Cycle;
pub use crate::refused::{Refusal, Refused, UnknownRefusal};
pub use crate::tables::Tables;
