//! The planner by rounds.
//!
//! Evaluate every subset, choose R times the heaviest that is above the floor
//! and clear its neighbours, then turn the choices into donors and recipients.
//! Each step raises the tally by what it does, at the line that does it.

use crate::pool::{is_shuffle, MOST_PAIRS};
use crate::refusal::Reason;
use crate::subsets::{self, Subset};
use crate::tally::Tally;

/// The greatest floor (W-202). No cycle weighs so much.
pub const MOST_FLOOR: u32 = 200_000;

/// The lengths of the tables that a caller lends to be filled.
#[derive(Clone, Copy, Debug, PartialEq, Eq)]
pub struct Room {
    /// Entries for weights; n are due.
    pub weights: usize,
    /// Entries for choices; R are due.
    pub choices: usize,
    /// Entries for donors; N are due.
    pub donors: usize,
    /// Entries for recipients; N are due.
    pub recipients: usize,
    /// Entries for records; R are due.
    pub records: usize,
}

impl Room {
    /// Just the room that a plan of `n` pairs needs.
    pub const fn due(n: usize) -> Room {
        Room {
            weights: subsets::count(n),
            choices: n / 2,
            donors: n,
            recipients: n,
            records: n / 2,
        }
    }

    /// Whether a plan of `n` pairs fits.
    pub const fn suffices(self, n: usize) -> bool {
        let due = Room::due(n);
        self.weights >= due.weights
            && self.choices >= due.choices
            && self.donors >= due.donors
            && self.recipients >= due.recipients
            && self.records >= due.records
    }
}

/// What planning leaves in the lent tables, and the plan's weight. What lies
/// past these entries in a lent table is unchanged.
#[derive(Clone, Debug, Default, PartialEq, Eq)]
pub struct Plan {
    /// The weights of all subsets, as after the last round.
    pub weights: Vec<u32>,
    /// The choice of each round; the number of subsets means none.
    pub choices: Vec<u32>,
    /// Who gives to patient i; N means none.
    pub donors: Vec<u16>,
    /// Whom donor i gives to; N means none.
    pub recipients: Vec<u16>,
    /// The chosen cycles in order of choice: pairs in giving order from the
    /// lowest place, the third N for a two.
    pub records: Vec<[u16; 3]>,
    /// The sum of the chosen cycles' weights.
    pub weight: u32,
}

impl Plan {
    /// The number of chosen cycles.
    pub fn cycles(&self) -> usize {
        self.records.len()
    }
}

/// Plans a pool of `n` pairs from lent tables, with room for the outcome. "A
/// subset is chosen only if its weight is above the floor" (W-202).
///
/// Checks 4; 13; 9 for any table too short; 8; 10; 17.
pub fn plan(
    n: usize,
    floor: u32,
    m: &[u8],
    w: &[u16],
    shuffle: &[u16],
    room: Room,
) -> Result<(Plan, Tally), Reason> {
    check(n, floor, m, w, shuffle, room)?;

    let graph = Graph { n, m, w, shuffle };
    let subsets = subsets::published(n);
    let rounds = n / 2;

    let mut tally = Tally::default();
    let mut weights = evaluate(&graph, &subsets, &mut tally);
    let mut choices = Vec::with_capacity(rounds);
    for round in 1..=rounds {
        let choice = choose(&weights, floor, &mut tally);
        if round < rounds {
            let chosen = subsets.get(choice);
            clear(&mut weights, &subsets, chosen, &mut tally);
        }
        choices.push(choice as u32);
        tally.rounds += 1;
    }

    Ok((resolve(&graph, &subsets, weights, choices), tally))
}

/// The checks of planning, in order.
pub fn check(
    n: usize,
    floor: u32,
    m: &[u8],
    w: &[u16],
    shuffle: &[u16],
    room: Room,
) -> Result<(), Reason> {
    if n > MOST_PAIRS {
        return Err(Reason::TooManyPairs);
    }
    if floor > MOST_FLOOR {
        return Err(Reason::FloorTooHigh);
    }
    if m.len() < n * n || w.len() < n * n || shuffle.len() < n || !room.suffices(n) {
        return Err(Reason::TooShort);
    }
    if !is_shuffle(&shuffle[..n]) {
        return Err(Reason::Shuffle);
    }
    if (0..n * n).any(|entry| m[entry] > 1 || (entry % (n + 1) == 0 && m[entry] != 0)) {
        return Err(Reason::Entry);
    }
    // "Where M(i, j) is 1 and W(i, j) is 0" (W-209), after all of M has passed:
    // W is read where there is an edge and nowhere else, so W(i, i) is not read.
    if (0..n * n).any(|entry| m[entry] == 1 && w[entry] == 0) {
        return Err(Reason::WeightlessEdge);
    }
    Ok(())
}

/// The lent tables, looked at through the shuffle.
struct Graph<'a> {
    n: usize,
    m: &'a [u8],
    w: &'a [u16],
    shuffle: &'a [u16],
}

impl Graph<'_> {
    /// The pair at a place.
    fn pair(&self, place: u16) -> u16 {
        self.shuffle[usize::from(place)]
    }

    /// M and W for the donor of one place and the patient of another.
    fn edge(&self, from: u16, to: u16) -> (u32, u32) {
        let entry = usize::from(self.pair(from)) * self.n + usize::from(self.pair(to));
        (u32::from(self.m[entry]), u32::from(self.w[entry]))
    }

    /// What the cycle through these places weighs: the product of its entries
    /// of M times the sum of its entries of W.
    fn cycle_weight(&self, cycle: &[u16]) -> u32 {
        let next = cycle.iter().cycle().skip(1);
        let edges = cycle
            .iter()
            .zip(next)
            .map(|(&from, &to)| self.edge(from, to));
        let (product, sum) = edges.fold((1, 0), |(product, sum), (m, w)| (product * m, sum + w));
        product * sum
    }

    /// The heavier cycle of a subset, from its lowest place, and its weight.
    fn heavier(&self, subset: Subset) -> (Subset, u32) {
        match subset {
            Subset::Two(_) => (subset, self.cycle_weight(subset.places())),
            Subset::Triple([u, v, w]) => {
                let first = self.cycle_weight(&[u, v, w]);
                let second = self.cycle_weight(&[u, w, v]);
                if first >= second {
                    (Subset::Triple([u, v, w]), first)
                } else {
                    (Subset::Triple([u, w, v]), second)
                }
            }
        }
    }
}

/// The weight of each subset.
fn evaluate(graph: &Graph<'_>, subsets: &[Subset], tally: &mut Tally) -> Vec<u32> {
    subsets
        .iter()
        .map(|&subset| {
            match subset {
                Subset::Two(_) => tally.products += 2,
                Subset::Triple(_) => {
                    // Three for each cycle, and one to pick the heavier.
                    tally.products += 3 + 3 + 1;
                    tally.comparisons += 1;
                }
            }
            graph.heavier(subset).1
        })
        .collect()
}

/// A subset that has won its part of the table.
#[derive(Clone, Copy)]
struct Winner {
    number: usize,
    weight: u32,
}

/// The lowest-numbered subset of greatest weight, or the number of subsets if
/// that weight is not above the floor. There must be a subset.
fn choose(weights: &[u32], floor: u32, tally: &mut Tally) -> usize {
    let winner = winner(weights, 0, tally);
    tally.comparisons += 1;
    tally.products += 4;
    if winner.weight > floor {
        winner.number
    } else {
        weights.len()
    }
}

/// The winner of a part of the table whose first subset has number `first`.
fn winner(part: &[u32], first: usize, tally: &mut Tally) -> Winner {
    if let &[weight] = part {
        return Winner {
            number: first,
            weight,
        };
    }
    let half = part.len() / 2;
    let left = winner(&part[..half], first, tally);
    let right = winner(&part[half..], first + half, tally);
    join(left, right, tally)
}

/// The heavier of two winners, the left one on a tie.
fn join(left: Winner, right: Winner, tally: &mut Tally) -> Winner {
    tally.comparisons += 1;
    tally.products += 5;
    if left.weight >= right.weight {
        left
    } else {
        right
    }
}

/// Gives weight 0 to every subset that shares a place with the chosen one,
/// whether it is above the floor or not; and to no other.
fn clear(weights: &mut [u32], subsets: &[Subset], chosen: Option<&Subset>, tally: &mut Tally) {
    let mut taken = [false; MOST_PAIRS];
    for &place in chosen.map_or(&[][..], Subset::places) {
        taken[usize::from(place)] = true;
    }
    for (weight, subset) in weights.iter_mut().zip(subsets) {
        let places = subset.places();
        // One for each place: two for a two, three for a triple.
        tally.products += places.len() as u64;
        if places.iter().any(|&place| taken[usize::from(place)]) {
            *weight = 0;
        }
    }
}

/// Turns the choices into records, donors and recipients, in pair numbers.
fn resolve(graph: &Graph<'_>, subsets: &[Subset], weights: Vec<u32>, choices: Vec<u32>) -> Plan {
    let none = graph.n as u16;
    let mut plan = Plan {
        weights,
        choices,
        donors: vec![none; graph.n],
        recipients: vec![none; graph.n],
        ..Plan::default()
    };
    for &choice in &plan.choices {
        let Some(&subset) = subsets.get(choice as usize) else {
            continue;
        };
        let (cycle, weight) = graph.heavier(subset);
        let places = cycle.places();
        let next = places.iter().cycle().skip(1);

        let mut record = [none; 3];
        for ((&from, &to), entry) in places.iter().zip(next).zip(&mut record) {
            let (giver, taker) = (graph.pair(from), graph.pair(to));
            *entry = giver;
            plan.recipients[usize::from(giver)] = taker;
            plan.donors[usize::from(taker)] = giver;
        }
        plan.records.push(record);
        plan.weight += weight;
    }
    plan
}

#[cfg(test)]
mod tests {
    use super::*;
    use crate::tables::Tables;

    #[test]
    fn planning_checks_in_order() {
        let n = 3;
        let good = Tables::empty(n);
        let shuffle = [2, 0, 1];
        let with = |n, floor, tables: &Tables, shuffle: &[u16], room| {
            plan(n, floor, &tables.m, &tables.w, shuffle, room).err()
        };
        let reason = |n, tables: &Tables, shuffle: &[u16], room| with(n, 0, tables, shuffle, room);
        assert_eq!(reason(n, &good, &shuffle, Room::due(n)), None);
        let many = Some(Reason::TooManyPairs);
        assert_eq!(reason(201, &good, &shuffle, Room::due(n)), many);
        assert_eq!(reason(usize::MAX, &good, &shuffle, Room::due(n)), many);

        // A floor too high, whatever else is wrong, but for too many pairs.
        let high = Some(Reason::FloorTooHigh);
        let none = Tables::empty(0);
        for floor in [MOST_FLOOR + 1, u32::MAX] {
            assert_eq!(with(n, floor, &good, &shuffle, Room::due(n)), high);
            assert_eq!(with(n, floor, &none, &[], Room::due(0)), high);
            assert_eq!(with(0, floor, &none, &[], Room::due(0)), high);
            assert_eq!(with(201, floor, &none, &[], Room::due(0)), many);
        }
        assert_eq!(with(n, MOST_FLOOR, &good, &shuffle, Room::due(n)), None);

        // Every table alone too short, all else being wrong as well.
        let short = Some(Reason::TooShort);
        let weightless = Tables::of_edges(n, &[(0, 1, 0)]);
        let mut bad = weightless.clone();
        bad.m[8] = 1;
        let twice = [0, 0, 1];
        let due = Room::due(n);
        for room in [
            Room { weights: 3, ..due },
            Room { choices: 0, ..due },
            Room { donors: 2, ..due },
            Room {
                recipients: 2,
                ..due
            },
            Room { records: 0, ..due },
        ] {
            assert_eq!(reason(n, &bad, &twice, room), short);
        }
        assert_eq!(reason(n, &bad, &twice[..2], due), short);
        let mut cut = bad.clone();
        cut.m.pop();
        assert_eq!(reason(n, &cut, &twice, due), short);
        let mut cut = bad.clone();
        cut.w.pop();
        assert_eq!(reason(n, &cut, &twice, due), short);

        assert_eq!(reason(n, &bad, &twice, due), Some(Reason::Shuffle));
        assert_eq!(reason(n, &bad, &[0, 1, 3], due), Some(Reason::Shuffle));
        assert_eq!(reason(n, &bad, &shuffle, due), Some(Reason::Entry));
        let last = Some(Reason::WeightlessEdge);
        assert_eq!(reason(n, &weightless, &shuffle, due), last);
    }

    #[test]
    fn every_entry_is_checked_and_none_past_them() {
        let n = 4;
        for entry in 0..n * n {
            let diagonal = entry / n == entry % n;
            for (value, weight) in [0, 1, 2, 255].into_iter().flat_map(|value| {
                let weights = [0, 1, 256, u16::MAX].into_iter();
                weights.map(move |weight| (value, weight))
            }) {
                let mut tables = Tables::empty(n);
                tables.m[entry] = value;
                tables.w[entry] = weight;
                // Past the rows, a wrong entry and a weightless edge.
                tables.m.extend([9, 1]);
                tables.w.extend([0, 0]);
                let due = if value > 1 || diagonal && value > 0 {
                    Some(Reason::Entry)
                } else if value == 1 && weight == 0 {
                    Some(Reason::WeightlessEdge)
                } else {
                    None
                };
                let answer = plan(n, 0, &tables.m, &tables.w, &[0, 1, 2, 3], Room::due(n));
                assert_eq!(answer.err(), due, "entry {entry}: {value}, {weight}");
            }
        }
    }

    #[test]
    fn longer_tables_make_no_difference() {
        let n = 3;
        let edges = [(0, 1, 4), (1, 0, 4), (1, 2, 3), (2, 0, 3)];
        let mut tables = Tables::of_edges(n, &edges);
        let mut shuffle = vec![1, 2, 0];
        let exact = plan(n, 0, &tables.m, &tables.w, &shuffle, Room::due(n));
        tables.m.extend([1, 7, 7, 7, 7]);
        tables.w.extend([0, 7]);
        shuffle.extend([0, 500]);
        let longer = plan(n, 0, &tables.m, &tables.w, &shuffle, Room::due(9));
        assert_eq!(longer, exact);
        assert_eq!(exact.unwrap().0.weight, 10);
    }
}
