//! The compatibility table M and the weight table W.

use crate::plan::Plan;
use crate::pool::{Pool, MOST_PAIRS};
use crate::raw;
use crate::refused::{sound, Refusal, Refused};

/// M and W of N pairs: N rows of N entries, row i holding donor i. The pairs'
/// ids go with them, for the plan's printout. They are built from a pool
/// ([`Pool::tables`]), or a caller's own ([`Tables::new`]).
#[derive(Clone, Debug, PartialEq, Eq, Hash)]
#[must_use = "building leaves nothing but the tables"]
pub struct Tables {
    // N entries.
    ids: Vec<u32>,
    // N² entries each.
    compatibilities: Vec<u8>,
    weights: Vec<u16>,
}

impl Tables {
    /// A caller's own tables. N is the number of ids, which stand in order of
    /// the pairs' numbers. They may be any: nothing but printing looks at them.
    /// In the other two, entry j of row i stands at i × N + j.
    ///
    /// The compatibility is 1 where donor i may give to patient j, else 0; a
    /// pair's own is 0. Where it is 1 the weight is not 0. [`Tables::plan`]
    /// refuses others. Where it is 0 the weight, so also a pair's own, may be
    /// any number, and plays no part.
    ///
    /// # Errors
    ///
    /// Refused are more than [`MOST_PAIRS`] pairs; then, as too short, a table
    /// with fewer than N² entries, or ids too few for a table with more.
    pub fn new(
        ids: Vec<u32>,
        compatibilities: Vec<u8>,
        weights: Vec<u16>,
    ) -> Result<Tables, Refused> {
        if ids.len() > MOST_PAIRS {
            return Err(Refusal::TooManyPairs.at(0));
        }
        // Rows of another length would be read as other pairs' entries.
        let entries = ids.len() * ids.len();
        if compatibilities.len() != entries || weights.len() != entries {
            return Err(Refusal::TooShort.at(0));
        }
        Ok(Tables {
            ids,
            compatibilities,
            weights,
        })
    }

    /// A pool's tables.
    pub(crate) fn build(pool: &Pool) -> Tables {
        let n = pool.len();
        let mut tables = Tables {
            ids: pool.ids().to_vec(),
            compatibilities: vec![0; n * n],
            weights: vec![0; n * n],
        };
        let answer = raw::build(
            pool.version(),
            n,
            &pool.lent_points(),
            pool.fields(),
            &mut tables.compatibilities,
            &mut tables.weights,
        );
        sound(answer.refusal);
        tables
    }

    /// The number of pairs, N.
    pub fn pairs(&self) -> usize {
        self.ids.len()
    }

    /// The pairs' ids, in order of the pairs' numbers.
    pub fn ids(&self) -> &[u32] {
        &self.ids
    }

    /// M, row by row.
    pub fn compatibilities(&self) -> &[u8] {
        &self.compatibilities
    }

    /// W, row by row.
    pub fn weights(&self) -> &[u16] {
        &self.weights
    }

    /// The plan, with place p holding pair `shuffle[p]`. Entries of the
    /// shuffle past the first N are not looked at.
    ///
    /// # Errors
    ///
    /// Refused are a shuffle of fewer than N numbers; then one that has not each
    /// pair's number once; then a table of compatibilities with an entry above
    /// 1 or a pair's own not 0; then, as
    /// [`WeightlessEdge`](Refusal::WeightlessEdge), a weight that is 0 where the
    /// compatibility is 1. The tables of a [`Pool`] or a
    /// [`LivePool`](crate::LivePool) are never refused for their entries.
    ///
    /// # Example
    ///
    /// ```
    /// use vadivuzhen::{Refusal, Tables};
    ///
    /// // The donor of each may give to the other's patient; one way weighs 0.
    /// let m = vec![0, 1, 1, 0];
    /// let tables = Tables::new(vec![11, 12], m, vec![0, 5, 0, 0])?;
    /// let refused = tables.plan(&[0, 1]).expect_err("an edge that weighs 0");
    /// assert_eq!(refused.why, Refusal::WeightlessEdge);
    ///
    /// // Where there is no edge, the weight may be 0.
    /// let m = vec![0, 1, 0, 0];
    /// let tables = Tables::new(vec![11, 12], m, vec![0, 5, 0, 0])?;
    /// assert_eq!(tables.plan(&[0, 1])?.cycles(), 0);
    /// # Ok::<(), vadivuzhen::Refused>(())
    /// ```
    pub fn plan(&self, shuffle: &[u16]) -> Result<Plan, Refused> {
        self.plan_above(0, shuffle)
    }

    /// The plan in which every exchange weighs more than the floor, so that
    /// nobody is called in for a lighter one. With floor 0 it is that of
    /// [`plan`](Tables::plan).
    ///
    /// # Errors
    ///
    /// Refused is a floor above [`MOST_FLOOR`](crate::MOST_FLOOR); then what
    /// [`plan`](Tables::plan) refuses.
    ///
    /// # Example
    ///
    /// ```
    /// use vadivuzhen::{Refusal, Tables, MOST_FLOOR};
    ///
    /// // Two pairs; the donor of each may give to the other's patient.
    /// let tables = Tables::new(vec![11, 12], vec![0, 1, 1, 0], vec![0, 5, 7, 0])?;
    /// assert_eq!(tables.plan(&[0, 1])?.weight(), 12);
    ///
    /// // Their exchange is above 11, and is not above 12.
    /// assert_eq!(tables.plan_above(11, &[0, 1])?.weight(), 12);
    /// assert_eq!(tables.plan_above(12, &[0, 1])?.cycles(), 0);
    ///
    /// let high = tables.plan_above(MOST_FLOOR + 1, &[0, 1]);
    /// assert_eq!(high.expect_err("a floor too high").why, Refusal::FloorTooHigh);
    /// # Ok::<(), vadivuzhen::Refused>(())
    /// ```
    pub fn plan_above(&self, floor: u32, shuffle: &[u16]) -> Result<Plan, Refused> {
        Plan::make(self, floor, shuffle)
    }
}
