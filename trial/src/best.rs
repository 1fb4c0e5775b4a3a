//! The heaviest set of exchanges there is, found by trying every one, and the
//! sum that no such set is above.

use crate::planner::Plan;

/// The greatest number of pairs that is tried.
pub const MOST_PAIRS: usize = 10;

/// A set of executable cycles sharing no pair, and what it weighs.
#[derive(Clone, Debug, Default, PartialEq, Eq)]
pub struct Best {
    /// The sum of the cycles' weights.
    pub weight: u32,
    /// The cycles, each with its pairs in giving order.
    pub cycles: Vec<Vec<usize>>,
}

/// The heaviest set of executable cycles of two or three pairs, no pair being
/// in two of them. The empty set is one.
///
/// Neither shuffle nor published order plays a part here: cycles are of
/// pairs. There are 5,916 such sets in a complete graph of eight pairs, and
/// 171,576 in one of ten.
///
/// # Panics
///
/// Where there are more than [`MOST_PAIRS`] pairs.
pub fn best(n: usize, m: &[u8], w: &[u16]) -> Best {
    best_of(n, &|cycle| cycle_weight(cycle, n, m, w))
}

/// The heaviest among the sets "whose cycles all weigh more than the floor"
/// (W-202). The empty set is one. With floor 0 these are all sets, if the tables
/// are such as planning accepts: it refuses weightless edges (W-209).
///
/// # Panics
///
/// Where there are more than [`MOST_PAIRS`] pairs.
pub fn best_above(n: usize, floor: u32, m: &[u8], w: &[u16]) -> Best {
    best_of(n, &|cycle| {
        cycle_weight(cycle, n, m, w).filter(|&weight| weight > floor)
    })
}

/// The heaviest set of the cycles that have a weight.
fn best_of(n: usize, weigh: &dyn Fn(&[usize]) -> Option<u32>) -> Best {
    assert!(n <= MOST_PAIRS, "{n} pairs have too many sets to try");
    let free: Vec<usize> = (0..n).collect();
    best_among(&free, weigh)
}

/// The best set among the free pairs: the first of them sits out, or is in a
/// cycle with one or two others, either way round.
fn best_among(free: &[usize], weigh: &dyn Fn(&[usize]) -> Option<u32>) -> Best {
    let Some((&a, others)) = free.split_first() else {
        return Best::default();
    };
    let mut best = best_among(others, weigh);
    let mut try_cycle = |cycle: &[usize]| {
        let Some(weight) = weigh(cycle) else { return };
        let rest: Vec<usize> = others
            .iter()
            .copied()
            .filter(|pair| !cycle.contains(pair))
            .collect();
        let mut set = best_among(&rest, weigh);
        set.weight += weight;
        if set.weight > best.weight {
            set.cycles.push(cycle.to_vec());
            best = set;
        }
    };
    for &b in others {
        try_cycle(&[a, b]);
        for &c in others.iter().filter(|&&c| c != b) {
            try_cycle(&[a, b, c]);
        }
    }
    best
}

/// The weight of a cycle of pairs, if it is executable.
pub fn cycle_weight(cycle: &[usize], n: usize, m: &[u8], w: &[u16]) -> Option<u32> {
    let mut sum = 0;
    for (i, &from) in cycle.iter().enumerate() {
        let to = cycle[(i + 1) % cycle.len()];
        if m[from * n + to] != 1 {
            return None;
        }
        sum += u32::from(w[from * n + to]);
    }
    Some(sum)
}

/// A plan's cycles in order of choice: the pairs of each in giving order, and
/// its weight by these tables, 0 if it is not executable.
pub fn planned_cycles(n: usize, m: &[u8], w: &[u16], plan: &Plan) -> Vec<(Vec<usize>, u32)> {
    let of_record = |record: &[u16; 3]| {
        let pairs = record.iter().map(|&pair| usize::from(pair));
        // The third is N for a two.
        let cycle: Vec<usize> = pairs.filter(|&pair| pair != n).collect();
        let weight = cycle_weight(&cycle, n, m, w).unwrap_or(0);
        (cycle, weight)
    };
    plan.records.iter().map(of_record).collect()
}

/// "Add up each planned cycle's weight times its number of pairs" (W-208).
pub fn credit(n: usize, m: &[u8], w: &[u16], plan: &Plan) -> u32 {
    let cycles = planned_cycles(n, m, w, plan);
    let credits = cycles
        .iter()
        .map(|(cycle, weight)| weight * cycle.len() as u32);
    credits.sum()
}

#[cfg(test)]
mod tests {
    use super::*;
    use crate::tables::Tables;
    use std::cell::Cell;

    /// The number of sets of cycles in a complete graph of `pairs` pairs.
    fn sets(pairs: usize) -> usize {
        let after = |taken| pairs.checked_sub(taken).map_or(0, sets);
        match pairs {
            0 => 1,
            _ => after(1) + (pairs - 1) * (after(2) + pairs.saturating_sub(2) * after(3)),
        }
    }

    #[test]
    fn every_set_is_tried() {
        let asked = Cell::new(0);
        let free: Vec<usize> = (0..8).collect();
        best_among(&free, &|_| {
            asked.set(asked.get() + 1);
            Some(1)
        });
        // One question leads to each set but the empty one.
        assert_eq!(asked.get() + 1, 5_916);
        assert_eq!((sets(8), sets(10)), (5_916, 171_576));
    }

    #[test]
    fn the_rival_of_k8() {
        let mut edges = vec![(0, 1, 2), (1, 2, 2), (2, 0, 2)];
        for (a, b) in [(0, 3), (1, 4), (2, 5)] {
            edges.extend([(a, b, 3), (b, a, 3)]);
        }
        let Tables { m, w } = Tables::of_edges(6, &edges);
        let best = best(6, &m, &w);
        assert_eq!(best.weight, 18);
        assert_eq!(best.cycles, [[2, 5], [1, 4], [0, 3]]);

        assert_eq!(best_above(6, 5, &m, &w), best);
        // All its cycles weigh 6.
        assert_eq!(best_above(6, 6, &m, &w), Best::default());
    }

    #[test]
    fn cycles_at_the_floor_are_in_no_set() {
        // Pair 0 with 1, or with 2: 10 or 2. Pairs 3 and 4: 12.
        let edges = [
            (0, 1, 5),
            (1, 0, 5),
            (0, 2, 1),
            (2, 0, 1),
            (3, 4, 6),
            (4, 3, 6),
        ];
        let Tables { m, w } = Tables::of_edges(5, &edges);
        let weights = [0, 1, 9, 10, 11, 12].map(|floor| best_above(5, floor, &m, &w).weight);
        assert_eq!(weights, [22, 22, 22, 12, 12, 0]);
    }

    #[test]
    fn no_pair_no_weight() {
        assert_eq!(best(0, &[], &[]), Best::default());
        assert_eq!(best(1, &[0], &[9]), Best::default());
    }
}
