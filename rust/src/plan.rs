//! A plan: all that planning leaves.

use crate::raw::{self, Cycle, PlanAnswer};
use crate::refused::{finished, sound, text, Refused};
use crate::tables::Tables;
use std::fmt;

/// The greatest floor. The heaviest exchange there can be weighs less.
pub const MOST_FLOOR: u32 = 200_000;

/// How many operations on secrets a plan took. It is the same for all pools
/// of equally many pairs, and at every floor.
#[derive(Clone, Copy, Debug, Default, PartialEq, Eq, Hash)]
pub struct Tally {
    /// Comparisons.
    pub comparisons: u64,
    /// Products.
    pub products: u64,
    /// Rounds.
    pub rounds: u64,
}

/// A plan of N pairs.
///
/// Its cycles are executable, each weighs more than the floor that was planned
/// with, and no pair is in two of them; and no other such set of cycles weighs
/// more than three times as much, nor more than [`credit`](Plan::credit), which
/// is less as soon as an exchange of two is planned. In every pool that is
/// planned an executable cycle weighs more than 0, so with floor 0 both hold of
/// every set of executable cycles of two or three pairs with no pair in two of
/// them.
///
/// Pairs go by their numbers, from 0 to N − 1; their ids are for the printout,
/// which `Display` shows as well. A plan holds a weight for each of
/// (N³ − N) / 6 subsets, 5.3 MB at 200 pairs, which cloning and comparing go
/// through.
#[derive(Clone, Debug, PartialEq, Eq, Hash)]
#[must_use = "planning leaves nothing but the plan"]
pub struct Plan {
    answer: PlanAnswer,
    credit: u64,
    weights: Vec<u32>,
    choices: Vec<u32>,
    // N entries each.
    ids: Vec<u32>,
    donors: Vec<u16>,
    recipients: Vec<u16>,
    // As many as there are planned cycles.
    records: Vec<Cycle>,
}

impl Plan {
    pub(crate) fn make(tables: &Tables, floor: u32, shuffle: &[u16]) -> Result<Plan, Refused> {
        let n = tables.pairs();
        let rounds = n / 2;
        // As many subsets as there are triples among one more: by the middle
        // one, with those below it and those above.
        let subsets: usize = (1..n).map(|below| below * (n - below)).sum();
        let mut plan = Plan {
            answer: PlanAnswer::default(),
            credit: 0,
            weights: vec![0; subsets],
            choices: vec![0; rounds],
            ids: tables.ids().to_vec(),
            donors: vec![0; n],
            recipients: vec![0; n],
            records: vec![Cycle::default(); rounds],
        };
        plan.answer = raw::plan(
            n,
            floor,
            tables.compatibilities(),
            tables.weights(),
            shuffle,
            raw::Planned {
                weights: &mut plan.weights,
                choices: &mut plan.choices,
                donors: &mut plan.donors,
                recipients: &mut plan.recipients,
                records: &mut plan.records,
            },
        );
        finished(plan.answer.refusal, 0)?;
        plan.records.truncate(plan.answer.cycles);
        plan.credit = plan.records.iter().map(|cycle| credit(cycle, tables)).sum();
        Ok(plan)
    }

    /// The number of pairs, N.
    pub fn pairs(&self) -> usize {
        self.ids.len()
    }

    /// The pairs' ids, in order of the pairs' numbers.
    pub fn ids(&self) -> &[u32] {
        &self.ids
    }

    /// The sum of the planned cycles' weights.
    pub fn weight(&self) -> u64 {
        self.answer.weight
    }

    /// The sum of each planned cycle's weight times its number of pairs, by the
    /// tables that were planned. No other set of executable cycles of two or
    /// three pairs that each weigh more than the floor, with no pair in two of
    /// them, weighs more than that. With floor 0 every executable cycle weighs
    /// more than the floor.
    ///
    /// With the weight of the planned twos added it is three times the plan's
    /// weight. So it is the tighter of the two bounds, and the same where no two
    /// is planned.
    ///
    /// # Example
    ///
    /// ```
    /// use vadivuzhen::Tables;
    ///
    /// // Four pairs; 0 and 1, 0 and 2, 1 and 3 may give to each other, at 5.
    /// let m = [[0, 1, 1, 0], [1, 0, 0, 1], [1, 0, 0, 0], [0, 1, 0, 0]].concat();
    /// let w = m.iter().map(|&edge| 5 * u16::from(edge)).collect();
    /// let plan = Tables::new(vec![11, 12, 13, 14], m, w)?.plan(&[0, 1, 2, 3])?;
    ///
    /// // 0 and 1 are planned. 0 with 2 and 1 with 3 would weigh 20.
    /// assert_eq!((plan.weight(), plan.credit()), (10, 20));
    /// # Ok::<(), vadivuzhen::Refused>(())
    /// ```
    pub fn credit(&self) -> u64 {
        self.credit
    }

    /// The number of planned cycles.
    pub fn cycles(&self) -> usize {
        self.answer.cycles
    }

    /// The planned cycles, in order of choice.
    pub fn records(&self) -> &[Cycle] {
        &self.records
    }

    /// For each pair, the pair whose donor gives to its patient; N means none.
    pub fn donors(&self) -> &[u16] {
        &self.donors
    }

    /// For each pair, the pair whose patient its donor gives to; N means none.
    pub fn recipients(&self) -> &[u16] {
        &self.recipients
    }

    /// The pair whose donor gives to this pair's patient; `None` if nobody
    /// does, or if there is no such pair.
    pub fn donor_of(&self, pair: usize) -> Option<usize> {
        self.partner(&self.donors, pair)
    }

    /// The pair whose patient this pair's donor gives to; `None` if to nobody,
    /// or if there is no such pair.
    pub fn recipient_of(&self, pair: usize) -> Option<usize> {
        self.partner(&self.recipients, pair)
    }

    fn partner(&self, partners: &[u16], pair: usize) -> Option<usize> {
        let partner = usize::from(*partners.get(pair)?);
        (partner < self.pairs()).then_some(partner)
    }

    /// The choice of each round: a subset's number in the published order, or
    /// the number of subsets for none. Subsets are of places, not of pairs;
    /// [`records`](Plan::records) has the pairs.
    pub fn choices(&self) -> &[u32] {
        &self.choices
    }

    /// The weight of each subset in the published order, as after the last
    /// round: 0 where the subset shares a place with the choice of an earlier
    /// round. What is not above the floor stands here like any other weight.
    pub fn weights(&self) -> &[u32] {
        &self.weights
    }

    /// The operations that the plan took.
    pub fn tally(&self) -> Tally {
        Tally {
            comparisons: self.answer.comparisons,
            products: self.answer.products,
            rounds: self.answer.rounds,
        }
    }

    /// The plan as the program `plan` prints it.
    #[must_use = "the text is given back, and shown nowhere"]
    pub fn print(&self) -> String {
        let n = self.pairs();
        // Two lines of a word and three numbers of at most 20 digits, and for
        // each pair a line of three ids of at most 10. That always suffices,
        // and nothing but a table or buffer too short is refused.
        let mut printed = vec![0; (4 + 3 * 21 + 1) + n * (3 * 11) + (6 + 3 * 21 + 1)];
        let (ids, donors, recipients) = (&self.ids, &self.donors, &self.recipients);
        let answer = raw::print_plan(n, self.answer, ids, donors, recipients, &mut printed);
        sound(answer.refusal);
        text(printed, answer.length)
    }
}

/// A planned cycle's weight times its number of pairs.
fn credit(cycle: &Cycle, tables: &Tables) -> u64 {
    let n = tables.pairs();
    let mut pairs = [cycle.first, cycle.second, cycle.third]
        .map(usize::from)
        .to_vec();
    // N stands for no pair.
    pairs.retain(|&pair| pair < n);
    let next = pairs.iter().cycle().skip(1);
    let edges = pairs.iter().zip(next);
    let weights = edges.map(|(from, to)| u64::from(tables.weights()[from * n + to]));
    weights.sum::<u64>() * pairs.len() as u64
}

/// The printout, as [`Plan::print`] gives it.
impl fmt::Display for Plan {
    fn fmt(&self, f: &mut fmt::Formatter<'_>) -> fmt::Result {
        f.write_str(&self.print())
    }
}
