//! Algorithm 1 of arXiv 2302.13880, line by line, with a floor in line 7.
//!
//! Where the planner by rounds keeps every subset and turns weights to 0,
//! this one keeps a set and takes subsets out of it, until none is left that
//! weighs more than the floor. It makes its own set, so that a slip in the
//! published order of [`crate::subsets`] would show.

/// A cycle of the compatibility graph, or one that could be.
#[derive(Clone, Copy)]
enum Cycle {
    Two([usize; 2]),
    Three([usize; 3]),
}

impl Cycle {
    fn nodes(&self) -> &[usize] {
        match self {
            Cycle::Two(nodes) => nodes,
            Cycle::Three(nodes) => nodes,
        }
    }

    /// The edges, each from the giving node to the taking one.
    fn edges(&self) -> impl Iterator<Item = (usize, usize)> + '_ {
        let nodes = self.nodes();
        (0..nodes.len()).map(move |i| (nodes[i], nodes[(i + 1) % nodes.len()]))
    }

    fn meets(&self, other: &Cycle) -> bool {
        self.nodes().iter().any(|node| other.nodes().contains(node))
    }
}

/// An element of S with its entries of `subset_map` and `weights`.
#[derive(Clone, Copy)]
struct Entry {
    cycle: Cycle,
    weight: u32,
}

/// Donors and recipients of all pairs, by Algorithm 1. N means none.
///
/// The tables and the shuffle must be such as planning accepts. The floor may
/// be any: with 0 it is the paper's algorithm.
pub fn algorithm1(
    n: usize,
    floor: u32,
    m: &[u8],
    w: &[u16],
    shuffle: &[u16],
) -> (Vec<u16>, Vec<u16>) {
    // 1: Shuffle the graph. Node a of the shuffled graph is pair shuffle[a].
    let pair = |node: usize| usize::from(shuffle[node]);
    let edge = |(from, to): (usize, usize)| -> Option<u32> {
        let at = pair(from) * n + pair(to);
        (m[at] == 1).then(|| u32::from(w[at]))
    };

    // A cycle with an edge that the graph lacks is none, and weighs nothing.
    let weigh = |cycle: Cycle| Entry {
        cycle,
        weight: cycle.edges().map(edge).sum::<Option<u32>>().unwrap_or(0),
    };

    // 2 to 5: The first cycle of maximum weight for each subset.
    let mut set = Vec::new();
    for u in 0..n {
        for v in u + 1..n {
            for w in v + 1..n {
                let first = weigh(Cycle::Three([u, v, w]));
                let second = weigh(Cycle::Three([u, w, v]));
                let max = if second.weight > first.weight {
                    second
                } else {
                    first
                };
                set.push(max);
            }
        }
    }
    for u in 0..n {
        for v in u + 1..n {
            set.push(weigh(Cycle::Two([u, v])));
        }
    }

    // 6 to 10: While something weighs more than the floor, take the first of
    // maximum weight and remove whatever meets it. Line 7 of the paper asks
    // "weights(s) > 0"; by W-202 it is the floor that weights(s) is above.
    let mut chosen = Vec::new();
    while let Some(max) = first_of_maximum_weight(&set).filter(|max| max.weight > floor) {
        chosen.push(max.cycle);
        set.retain(|entry| !entry.cycle.meets(&max.cycle));
    }

    // 11: The chosen cycles, with the shuffle undone.
    let none = n as u16;
    let (mut donors, mut recipients) = (vec![none; n], vec![none; n]);
    for (from, to) in chosen.iter().flat_map(Cycle::edges) {
        recipients[pair(from)] = shuffle[to];
        donors[pair(to)] = shuffle[from];
    }
    (donors, recipients)
}

fn first_of_maximum_weight(set: &[Entry]) -> Option<Entry> {
    set.iter().copied().reduce(|max, entry| {
        if entry.weight > max.weight {
            entry
        } else {
            max
        }
    })
}

#[cfg(test)]
mod tests {
    use super::*;
    use crate::tables::Tables;

    #[test]
    fn a_tie_goes_to_the_first_way_round_and_the_first_subset() {
        let all = Tables {
            m: vec![0, 1, 1, 1, 0, 1, 1, 1, 0],
            w: vec![4; 9],
        };
        let identity = algorithm1(3, 0, &all.m, &all.w, &[0, 1, 2]);
        assert_eq!(identity, (vec![2, 0, 1], vec![1, 2, 0]));
        let turned = algorithm1(3, 0, &all.m, &all.w, &[0, 2, 1]);
        assert_eq!(turned, (vec![1, 2, 0], vec![2, 0, 1]));
    }

    #[test]
    fn nothing_is_chosen_where_nothing_weighs() {
        // No edge; one, with no way back; a way round but for its last edge.
        for edges in [&[][..], &[(0, 1, 5)], &[(0, 1, 5), (1, 2, 7)]] {
            let none = (vec![3; 3], vec![3; 3]);
            let mut tables = Tables::of_edges(3, edges);
            assert_eq!(algorithm1(3, 0, &tables.m, &tables.w, &[1, 0, 2]), none);
            // What W has where there is no edge is no weight.
            for (&m, w) in tables.m.iter().zip(&mut tables.w) {
                if m == 0 {
                    *w = 9;
                }
            }
            assert_eq!(algorithm1(3, 0, &tables.m, &tables.w, &[1, 0, 2]), none);
        }
    }

    #[test]
    fn what_weighs_as_much_as_the_floor_is_not_chosen() {
        let Tables { m, w } = Tables::of_edges(2, &[(0, 1, 5), (1, 0, 7)]);
        let both = (vec![1, 0], vec![1, 0]);
        assert_eq!(algorithm1(2, 11, &m, &w, &[0, 1]), both);
        let none = (vec![2, 2], vec![2, 2]);
        assert_eq!(algorithm1(2, 12, &m, &w, &[0, 1]), none);
        assert_eq!(algorithm1(2, u32::MAX, &m, &w, &[0, 1]), none);
    }
}
