//! The published order of subsets.

/// Two or three places that may form a cycle, in ascending order.
#[derive(Clone, Copy, Debug, PartialEq, Eq, Hash)]
pub enum Subset {
    /// Places u < v < w, with a cycle each way round.
    Triple([u16; 3]),
    /// Places u < v, with one cycle.
    Two([u16; 2]),
}

impl Subset {
    /// The places, two or three.
    pub fn places(&self) -> &[u16] {
        match self {
            Subset::Triple(places) => places,
            Subset::Two(places) => places,
        }
    }
}

/// All subsets of `n` places in order of their numbers: the triples, then the
/// twos, either in ascending order.
pub fn published(n: usize) -> Vec<Subset> {
    let end = n as u16;
    let mut subsets = Vec::with_capacity(count(n));
    for u in 0..end {
        for v in u + 1..end {
            for w in v + 1..end {
                subsets.push(Subset::Triple([u, v, w]));
            }
        }
    }
    for u in 0..end {
        for v in u + 1..end {
            subsets.push(Subset::Two([u, v]));
        }
    }
    subsets
}

/// The number of triples among `n` places, T.
pub const fn triples(n: usize) -> usize {
    n * n.saturating_sub(1) * n.saturating_sub(2) / 6
}

/// The number of twos among `n` places, P.
pub const fn twos(n: usize) -> usize {
    n * n.saturating_sub(1) / 2
}

/// The number of all subsets of `n` places, n in document 01.
pub const fn count(n: usize) -> usize {
    triples(n) + twos(n)
}

#[cfg(test)]
mod tests {
    use super::*;

    #[test]
    fn the_order_for_four_places() {
        use Subset::{Triple, Two};
        assert_eq!(
            published(4),
            [
                Triple([0, 1, 2]),
                Triple([0, 1, 3]),
                Triple([0, 2, 3]),
                Triple([1, 2, 3]),
                Two([0, 1]),
                Two([0, 2]),
                Two([0, 3]),
                Two([1, 2]),
                Two([1, 3]),
                Two([2, 3]),
            ]
        );
    }

    #[test]
    fn there_are_as_many_as_counted() {
        for n in 0..=40 {
            let subsets = published(n);
            let triple = |subset: &&Subset| matches!(subset, Subset::Triple(_));
            assert_eq!(subsets.len(), count(n));
            assert_eq!(subsets.iter().filter(triple).count(), triples(n));
        }
        assert_eq!(count(200), 1_333_300);
    }

    #[test]
    fn triples_and_twos_ascend() {
        let subsets = published(12);
        let (triples, twos) = subsets.split_at(triples(12));
        for part in [triples, twos] {
            assert!(part.windows(2).all(|two| two[0].places() < two[1].places()));
        }
        let ascends = |subset: &Subset| subset.places().windows(2).all(|two| two[0] < two[1]);
        assert!(subsets.iter().all(ascends));
    }
}
