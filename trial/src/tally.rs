//! The tally: how many gates a plan has used.

use crate::subsets::{triples, twos};

/// Counts of comparisons, products and rounds, raised by each step of
/// planning as it goes.
#[derive(Clone, Copy, Debug, Default, PartialEq, Eq, Hash)]
pub struct Tally {
    /// Comparisons of two secrets.
    pub comparisons: u64,
    /// Products of two secrets.
    pub products: u64,
    /// Rounds gone through.
    pub rounds: u64,
}

impl Tally {
    /// The tally that demand 3 says every plan of `n` pairs carries.
    ///
    /// No planner uses this; it is what they are measured by.
    pub fn demanded(n: usize) -> Tally {
        let t = triples(n) as u64;
        let p = twos(n) as u64;
        let r = n as u64 / 2;
        if r == 0 {
            return Tally::default();
        }
        Tally {
            comparisons: t + r * (t + p),
            products: 2 * p + 7 * t + r * (5 * (t + p) - 1) + (r - 1) * (2 * p + 3 * t),
            rounds: r,
        }
    }
}

#[cfg(test)]
mod tests {
    use super::*;

    #[test]
    fn the_closed_form_gives_the_tallies_of_the_document() {
        let demanded = |n| {
            let tally = Tally::demanded(n);
            (tally.comparisons, tally.products, tally.rounds)
        };
        assert_eq!(demanded(0), (0, 0, 0));
        assert_eq!(demanded(1), (0, 0, 0));
        assert_eq!(demanded(2), (1, 6, 1));
        assert_eq!(demanded(3), (5, 32, 1));
        assert_eq!(demanded(4), (24, 162, 2));
        assert_eq!(demanded(6), (125, 872, 3));
    }
}
