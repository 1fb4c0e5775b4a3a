//! The rounds made of gates.
//!
//! In service every weight, choice and node is a secret share, and the only
//! things one can do with secrets are to multiply and to compare them, each
//! through a gate. Here the secrets are plain 32-bit words and the gates
//! count themselves. What is public (N, the floor, the published order, the
//! number of the round) may decide an `if`; a secret never does, so that two
//! pools of equally many pairs go through the very same gates. The floor
//! decides none: it is compared with the heaviest subset's weight, by a gate,
//! in every round. (That is so in the source; what a compiler makes of plain
//! words is its own affair.)
//!
//! Sums and differences of secrets are free, and so is making a vector of
//! ones and zeros from chosen places; document 01 does not tally them.

use crate::planner::{check, Plan, Room};
use crate::refusal::Reason;
use crate::subsets;
use crate::tally::Tally;

/// A word that may be secret. Arithmetic is modulo 2^32.
type Word = u32;

/// The product of two secrets.
pub fn product(a: Word, b: Word, tally: &mut Tally) -> Word {
    tally.products += 1;
    a.wrapping_mul(b)
}

/// 1 where `a` is at least `b`, else 0.
pub fn at_least(a: Word, b: Word, tally: &mut Tally) -> Word {
    tally.comparisons += 1;
    Word::from(a >= b)
}

/// `a` where the bit is 1, `b` where it is 0: one product.
pub fn pick(bit: Word, a: Word, b: Word, tally: &mut Tally) -> Word {
    product(bit, a.wrapping_sub(b), tally).wrapping_add(b)
}

/// Plans a pool of `n` pairs as [`crate::plan`] does, with the same checks.
pub fn plan(
    n: usize,
    floor: u32,
    m: &[u8],
    w: &[u16],
    shuffle: &[u16],
    room: Room,
) -> Result<(Plan, Tally), Reason> {
    check(n, floor, m, w, shuffle, room)?;

    let edges = shuffled_edges(n, m, w, shuffle);
    let nodes = nodes(n);
    let rounds = n / 2;

    let mut tally = Tally::default();
    let mut evaluated = evaluate(n, &edges, &nodes, &mut tally);
    let mut choices = Vec::with_capacity(rounds);
    for round in 1..=rounds {
        let choice = choose(n, floor, &nodes, &evaluated.weights, &mut tally);
        if round < rounds {
            clear(n, &nodes, &mut evaluated.weights, choice, &mut tally);
        }
        choices.push(choice);
        tally.rounds += 1;
    }

    Ok((resolve(n, &edges, shuffle, evaluated, &choices), tally))
}

/// The nodes of a subset: three places, of which the third of a two is N.
type Nodes = [u16; 3];

/// The nodes of all subsets in the published order.
fn nodes(n: usize) -> Vec<Nodes> {
    let none = n as u16;
    subsets::published(n)
        .iter()
        .map(|subset| match *subset.places() {
            [u, v, w] => [u, v, w],
            [u, v] => [u, v, none],
            _ => unreachable!("a subset has two or three places"),
        })
        .collect()
}

/// An edge of the shuffled graph: its entries of M and W.
#[derive(Clone, Copy)]
struct Edge {
    m: Word,
    w: Word,
}

/// M and W in places, a row for each giving place.
fn shuffled_edges(n: usize, m: &[u8], w: &[u16], shuffle: &[u16]) -> Vec<Edge> {
    let pairs = || shuffle[..n].iter().map(|&pair| usize::from(pair));
    pairs()
        .flat_map(|giver| pairs().map(move |taker| giver * n + taker))
        .map(|entry| Edge {
            m: Word::from(m[entry]),
            w: Word::from(w[entry]),
        })
        .collect()
}

/// What evaluation gives: the weight of each subset, and whether it is that
/// of the first cycle.
struct Evaluated {
    weights: Vec<Word>,
    firsts: Vec<Word>,
}

/// Evaluates every subset: two products for a two; for a triple three for
/// each cycle, a comparison, and a product to pick.
fn evaluate(n: usize, edges: &[Edge], nodes: &[Nodes], tally: &mut Tally) -> Evaluated {
    let edge = |from: u16, to: u16| edges[usize::from(from) * n + usize::from(to)];
    let mut evaluated = Evaluated {
        weights: Vec::with_capacity(nodes.len()),
        firsts: Vec::with_capacity(nodes.len()),
    };
    for &[u, v, w] in nodes {
        let (weight, first) = if usize::from(w) == n {
            (cycle_of_two(edge(u, v), edge(v, u), tally), 1)
        } else {
            let one = cycle_of_three(edge(u, v), edge(v, w), edge(w, u), tally);
            let other = cycle_of_three(edge(u, w), edge(w, v), edge(v, u), tally);
            let first = at_least(one, other, tally);
            (pick(first, one, other, tally), first)
        };
        evaluated.weights.push(weight);
        evaluated.firsts.push(first);
    }
    evaluated
}

/// The weight of a cycle of two edges: two products.
fn cycle_of_two(a: Edge, b: Edge, tally: &mut Tally) -> Word {
    let executable = product(a.m, b.m, tally);
    product(executable, a.w + b.w, tally)
}

/// The weight of a cycle of three edges: three products.
fn cycle_of_three(a: Edge, b: Edge, c: Edge, tally: &mut Tally) -> Word {
    let two = product(a.m, b.m, tally);
    let executable = product(two, c.m, tally);
    product(executable, a.w + b.w + c.w, tally)
}

/// A subset that is on its way to being chosen.
#[derive(Clone, Copy, Debug)]
struct Candidate {
    number: Word,
    nodes: [Word; 3],
    weight: Word,
}

/// Chooses the first subset of greatest weight, and the number of subsets
/// with nodes N if that weight is not above the floor: a comparison and four
/// products after those of the joins, whatever the floor.
fn choose(
    n: usize,
    floor: Word,
    nodes: &[Nodes],
    weights: &[Word],
    tally: &mut Tally,
) -> Candidate {
    let best = choose_part(nodes, weights, 0, tally);
    let none = n as Word;
    let valid = at_least(best.weight, floor + 1, tally);
    Candidate {
        number: pick(valid, best.number, weights.len() as Word, tally),
        nodes: best.nodes.map(|node| pick(valid, node, none, tally)),
        weight: best.weight,
    }
}

/// Chooses from a part of the table, the first subset of which is `first`, by
/// choosing from its halves and joining the two.
fn choose_part(nodes: &[Nodes], weights: &[Word], first: usize, tally: &mut Tally) -> Candidate {
    if let &[weight] = weights {
        return Candidate {
            number: first as Word,
            nodes: nodes[first].map(Word::from),
            weight,
        };
    }
    let (left, right) = weights.split_at(weights.len() / 2);
    let middle = first + left.len();
    let left = choose_part(nodes, left, first, tally);
    let right = choose_part(nodes, right, middle, tally);
    join(left, right, tally)
}

/// The heavier candidate, the left one on a tie: a comparison, five products.
fn join(left: Candidate, right: Candidate, tally: &mut Tally) -> Candidate {
    let stays = at_least(left.weight, right.weight, tally);
    let [a, b, c] = left.nodes;
    let [x, y, z] = right.nodes;
    Candidate {
        number: pick(stays, left.number, right.number, tally),
        nodes: [
            pick(stays, a, x, tally),
            pick(stays, b, y, tally),
            pick(stays, c, z, tally),
        ],
        weight: pick(stays, left.weight, right.weight, tally),
    }
}

/// Clears what shares a place with the choice: a product for each place of
/// each subset. The N of a missing node is no place, so it takes none.
fn clear(n: usize, nodes: &[Nodes], weights: &mut [Word], choice: Candidate, tally: &mut Tally) {
    let free: Vec<Word> = (0..n as Word)
        .map(|place| {
            let at_place = choice.nodes.map(|node| Word::from(node == place));
            1 - at_place.iter().sum::<Word>()
        })
        .collect();
    let free = |place: u16| free[usize::from(place)];
    for (weight, &[u, v, w]) in weights.iter_mut().zip(nodes) {
        *weight = product(*weight, free(u), tally);
        *weight = product(*weight, free(v), tally);
        if usize::from(w) != n {
            *weight = product(*weight, free(w), tally);
        }
    }
}

/// Opens the choices and gives the plan in pair numbers. Nothing is tallied
/// here.
fn resolve(
    n: usize,
    edges: &[Edge],
    shuffle: &[u16],
    evaluated: Evaluated,
    choices: &[Candidate],
) -> Plan {
    let none = n as u16;
    let mut plan = Plan {
        choices: choices.iter().map(|choice| choice.number).collect(),
        donors: vec![none; n],
        recipients: vec![none; n],
        ..Plan::default()
    };
    for choice in choices {
        let Some(&first) = evaluated.firsts.get(choice.number as usize) else {
            continue;
        };
        let [u, v, w] = choice.nodes.map(|node| node as usize);
        let places = match (w == n, first) {
            (true, _) => vec![u, v],
            (false, 1) => vec![u, v, w],
            (false, _) => vec![u, w, v],
        };
        let mut record = [none; 3];
        for (i, &from) in places.iter().enumerate() {
            let to = places[(i + 1) % places.len()];
            let (giver, taker) = (shuffle[from], shuffle[to]);
            record[i] = giver;
            plan.recipients[usize::from(giver)] = taker;
            plan.donors[usize::from(taker)] = giver;
            plan.weight += edges[from * n + to].w;
        }
        plan.records.push(record);
    }
    plan.weights = evaluated.weights;
    plan
}

#[cfg(test)]
mod tests {
    use super::*;

    #[test]
    fn gates_count_themselves() {
        let mut tally = Tally::default();
        assert_eq!(product(6, 7, &mut tally), 42);
        assert_eq!(pick(1, 3, 9, &mut tally), 3);
        assert_eq!(pick(0, 3, 9, &mut tally), 9);
        assert_eq!(pick(1, 0, Word::MAX, &mut tally), 0);
        assert_eq!(at_least(4, 4, &mut tally), 1);
        assert_eq!(at_least(3, 4, &mut tally), 0);
        assert_eq!(
            tally,
            Tally {
                comparisons: 2,
                products: 4,
                rounds: 0
            }
        );
    }

    #[test]
    fn a_missing_third_clears_nothing() {
        // Choose the two of places 0 and 1 among four: the twos of 2 and 3
        // remains, although both it and the choice have N for a third.
        let n = 4;
        let nodes = nodes(n);
        let mut weights = vec![5; nodes.len()];
        let choice = Candidate {
            number: 4,
            nodes: [0, 1, 4],
            weight: 5,
        };
        clear(n, &nodes, &mut weights, choice, &mut Tally::default());
        assert_eq!(weights, [0, 0, 0, 0, 0, 0, 0, 0, 0, 5]);
    }
}
