//! The printout of the program `plan`.

use crate::planner::{plan, Plan, Room};
use crate::points;
use crate::refusal::{Reason, Refusal};
use crate::sheet::{self, read};
use crate::tables::build;
use crate::tally::Tally;
use std::fmt::Write;

/// How many bytes the program reads at most: one more than the longest sheet,
/// "at most 7,426 bytes" (W-205).
pub const MOST_READ: usize = sheet::LONGEST + 1;

/// For how many pairs the program lends buffers.
pub const LENT_PAIRS: usize = 40;

/// The floor that the program plans with: "`plan` uses it" (W-202).
pub const FLOOR: u32 = 0;

/// The printout of a plan for pairs with these ids.
pub fn printed(ids: &[u32], plan: &Plan, tally: Tally) -> String {
    Printed {
        pairs: ids.len(),
        cycles: plan.cycles(),
        weight: u64::from(plan.weight),
        ids,
        donors: &plan.donors,
        recipients: &plan.recipients,
        tally,
    }
    .text()
}

/// What is printed of a plan, as a caller lends it: any numbers, and tables
/// that may be shorter than the number of pairs, or longer.
#[derive(Clone, Copy, Debug, Default)]
pub struct Printed<'a> {
    /// The number of pairs, N.
    pub pairs: usize,
    /// The number of cycles.
    pub cycles: usize,
    /// The plan's weight.
    pub weight: u64,
    /// The pairs' ids.
    pub ids: &'a [u32],
    /// Who gives to patient i.
    pub donors: &'a [u16],
    /// Whom donor i gives to.
    pub recipients: &'a [u16],
    /// The plan's tally.
    pub tally: Tally,
}

impl Printed<'_> {
    /// The text for a buffer of `room` bytes: 9 where a table has fewer
    /// entries than there are pairs, or the buffer is too short.
    pub fn fitted(self, room: usize) -> Result<String, Reason> {
        let tables = [self.ids.len(), self.donors.len(), self.recipients.len()];
        if tables.iter().any(|&length| length < self.pairs) {
            return Err(Reason::TooShort);
        }
        Some(self.text())
            .filter(|text| text.len() <= room)
            .ok_or(Reason::TooShort)
    }

    /// The text. Every table must have an entry for each pair.
    fn text(self) -> String {
        let mut text = String::new();
        let mut line = |words: &[&dyn std::fmt::Display]| {
            for (i, word) in words.iter().enumerate() {
                let space = if i == 0 { "" } else { " " };
                write!(text, "{space}{word}").expect("a string takes all");
            }
            text.push('\n');
        };

        let ids = &self.ids[..self.pairs];
        line(&[&"PLAN", &self.pairs, &self.cycles, &self.weight]);
        // A pair number N, which stands for none, is past the ids.
        let id_of = |pair: u16| match ids.get(usize::from(pair)) {
            Some(id) => id.to_string(),
            None => "-".to_string(),
        };
        for (i, id) in ids.iter().enumerate() {
            line(&[id, &id_of(self.donors[i]), &id_of(self.recipients[i])]);
        }
        let Tally {
            comparisons,
            products,
            rounds,
        } = self.tally;
        line(&[&"COUNTS", &comparisons, &products, &rounds]);
        text
    }
}

/// The printout of a refusal.
pub fn refused(refusal: Refusal) -> String {
    let (number, place) = refusal.pair();
    refused_by(number.into(), place)
}

/// The printout of a refusal by any number.
pub fn refused_by(number: u32, place: usize) -> String {
    format!("REFUSED {number} {place}\n")
}

/// What the program prints when this is its standard input.
pub fn program(input: &[u8]) -> String {
    let bytes = &input[..input.len().min(MOST_READ)];
    let outcome = read(bytes).and_then(|pool| {
        sheet::fits(&pool, points::COUNT, &[LENT_PAIRS])?;
        let n = pool.len();
        // What has been read and fits is refused by nothing that follows.
        let no_place = |reason: Reason| reason.at(0);
        let table = LENT_PAIRS * LENT_PAIRS;
        let (points, fields) = (&pool.points, pool.fields());
        let tables = build(pool.version, n, points, fields, table, table).map_err(no_place)?;
        let room = Room::due(LENT_PAIRS);
        let (m, w) = (&tables.m, &tables.w);
        let (plan, tally) = plan(n, FLOOR, m, w, &pool.shuffle, room).map_err(no_place)?;
        Ok(printed(&pool.ids, &plan, tally))
    });
    outcome.unwrap_or_else(refused)
}

#[cfg(test)]
mod tests {
    use super::*;

    #[test]
    fn the_example() {
        assert_eq!(
            program(&sheet::EXAMPLE),
            "PLAN 2 1 2900\n11 12 12\n12 11 11\nCOUNTS 1 6 1\n"
        );
    }

    #[test]
    fn none_is_a_dash() {
        let plan = Plan {
            donors: vec![2, 2],
            recipients: vec![2, 2],
            ..Plan::default()
        };
        assert_eq!(
            printed(&[0, u32::MAX], &plan, Tally::demanded(2)),
            "PLAN 2 0 0\n0 - -\n4294967295 - -\nCOUNTS 1 6 1\n"
        );
    }

    #[test]
    fn a_refusal_has_number_and_place() {
        assert_eq!(program(&[]), "REFUSED 1 0\n");
        assert_eq!(program(&sheet::EXAMPLE[..8]), "REFUSED 1 7\n");
        let grown = [&sheet::EXAMPLE[..], &[0]].concat();
        assert_eq!(program(&grown), "REFUSED 5 84\n");
        assert_eq!(refused(Reason::TooShort.at(0)), "REFUSED 9 0\n");
    }

    #[test]
    fn the_empty_pool_is_planned() {
        let none = crate::Pool::default();
        for none in [none.clone(), none.with_points(points::Points::DOCUMENT)] {
            let sheet = crate::write_pool(&none, sheet::LONGEST).unwrap();
            assert_eq!(program(&sheet), "PLAN 0 0 0\nCOUNTS 0 0 0\n");
        }
    }
}
