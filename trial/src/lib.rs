//! An independent planner of kidney exchanges.
//!
//! Everything here is written from document 01 (the scope) and document 02
//! (the later requests) alone, and shares no line with the proved library. The
//! two are run side by side on the same inputs; wherever they answer
//! differently, one of them has misread a document. So this crate prefers the
//! plain way of saying a thing to the clever one, and says each thing where
//! the document says it:
//!
//! | module         | document 01                                        |
//! |----------------|----------------------------------------------------|
//! | [`refusal`]    | 'Turned back, by whom it is caused'                |
//! | [`pool`]       | a pool in its fields, and the checks on them       |
//! | [`sheet`]      | 'The pool sheet' and the writer                    |
//! | [`tables`]     | 'Compatibility and weight'                         |
//! | [`subsets`]    | 'Subsets and their weights': the published order   |
//! | [`tally`]      | 'Tally', and demand 3's closed form of it          |
//! | [`planner`]    | 'Rounds' and 'Resolution'                          |
//! | [`printout`]   | the printout of the program `plan`                 |
//!
//! | module         | document 02                                        |
//! |----------------|----------------------------------------------------|
//! | [`mod@join`]   | W-201: late registrations join the sheet           |
//! | [`planner`]    | W-202: a floor below which nobody travels          |
//! | [`tables`]     | W-204: the laboratories' new mismatch rule         |
//! | [`points`]     | W-205: points set by each registry                 |
//! | [`sheet`]      | W-205: sheet version 2                             |
//! | [`live`]       | W-206: a pool that lives between matches           |
//! | [`live`]       | W-207: how many donors suit each patient           |
//! | [`planner`]    | W-209: no weightless edges                         |
//!
//! Beside the planner by rounds stand four others:
//!
//! - [`mod@algorithm1`], the loop over a shrinking set as the paper (arXiv
//!   2302.13880) prints it, which demand 2 names as the measure, with the
//!   floor of W-202 in its line 7;
//! - [`mod@best`], the heaviest set of exchanges there is, of all or of those
//!   above the floor, found by trying them all, for the factor three of
//!   demand 3, and the sum of W-208, which credits the twos;
//! - [`gates`], the rounds made of counting gates with no branch on a secret;
//! - [`straight`], the plan as one writes it when nothing is secret and
//!   nothing is counted.
//!
//! The last two are the baselines of the benchmark. [`random`] makes pools,
//! tables and damaged sheets, each from a seed that is printed.
//!
//! # Example
//!
//! ```
//! use reference::{build_pool, plan, printed, read, Room};
//!
//! let sheet = reference::sheet::EXAMPLE;
//! let pool = read(&sheet).unwrap();
//! let n = pool.len();
//!
//! let tables = build_pool(&pool).unwrap();
//! let planned = |floor| {
//!     plan(n, floor, &tables.m, &tables.w, &pool.shuffle, Room::due(n)).unwrap()
//! };
//! let (plan, tally) = planned(0);
//! assert_eq!(
//!     printed(&pool.ids, &plan, tally),
//!     "PLAN 2 1 2900\n11 12 12\n12 11 11\nCOUNTS 1 6 1\n",
//! );
//!
//! // Nobody travels for an exchange that is not above the floor.
//! assert_eq!(planned(2_899).0, plan);
//! assert_eq!(planned(2_900).0.cycles(), 0);
//! ```

#![forbid(unsafe_code)]
#![warn(missing_docs)]

pub mod algorithm1;
pub mod best;
pub mod gates;
pub mod join;
pub mod live;
pub mod planner;
pub mod points;
pub mod pool;
pub mod printout;
pub mod random;
pub mod refusal;
pub mod sheet;
pub mod straight;
pub mod subsets;
pub mod tables;
pub mod tally;

pub use crate::algorithm1::algorithm1;
pub use crate::best::{best, best_above, credit};
pub use crate::join::join;
pub use crate::live::{Call, Live, Pair};
pub use crate::planner::{plan, Plan, Room, MOST_FLOOR};
pub use crate::points::Points;
pub use crate::pool::{Fields, Pool};
pub use crate::printout::printed;
pub use crate::refusal::{Reason, Refusal};
pub use crate::sheet::{read, write, write_pool};
pub use crate::tables::{build, build_pool, Tables};
pub use crate::tally::Tally;
