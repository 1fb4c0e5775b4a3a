//! The plan as one writes it when nothing is secret.
//!
//! No gate, no tally, no recursion: one scan finds the heaviest subset, one
//! more clears its neighbours, and where nothing is left above the floor the
//! rounds stop.

use crate::planner::{check, Plan, Room};
use crate::refusal::Reason;
use crate::subsets::{self, Subset};

/// Plans a pool of `n` pairs as [`crate::plan`] does, with the same checks.
pub fn plan(
    n: usize,
    floor: u32,
    m: &[u8],
    w: &[u16],
    shuffle: &[u16],
    room: Room,
) -> Result<Plan, Reason> {
    check(n, floor, m, w, shuffle, room)?;

    let pair = |place: u16| usize::from(shuffle[usize::from(place)]);
    // The weight of the cycle through two or three places; 0 if it is none.
    let weigh = |cycle: &[u16]| -> u32 {
        let mut sum = 0;
        for (i, &from) in cycle.iter().enumerate() {
            let to = if i + 1 < cycle.len() {
                cycle[i + 1]
            } else {
                cycle[0]
            };
            let entry = pair(from) * n + pair(to);
            if m[entry] == 0 {
                return 0;
            }
            sum += u32::from(w[entry]);
        }
        sum
    };

    let subsets = subsets::published(n);
    let mut weights: Vec<u32> = subsets
        .iter()
        .map(|subset| match *subset {
            Subset::Triple([u, v, w]) => weigh(&[u, v, w]).max(weigh(&[u, w, v])),
            Subset::Two([u, v]) => weigh(&[u, v]),
        })
        .collect();

    let rounds = n / 2;
    let none = n as u16;
    let mut choices = Vec::with_capacity(rounds);
    let mut records = Vec::new();
    let (mut donors, mut recipients) = (vec![none; n], vec![none; n]);
    let mut total = 0;

    for round in 0..rounds {
        let (choice, weight) = heaviest(&weights);
        if weight <= floor {
            break;
        }
        choices.push(choice as u32);
        total += weight;

        let mut places = subsets[choice].places().to_vec();
        if let [u, v, w] = places[..] {
            if weigh(&[u, v, w]) < weight {
                places = vec![u, w, v];
            }
        }
        let mut record = [none; 3];
        for (i, &from) in places.iter().enumerate() {
            let to = places[(i + 1) % places.len()];
            record[i] = pair(from) as u16;
            recipients[pair(from)] = pair(to) as u16;
            donors[pair(to)] = pair(from) as u16;
        }
        records.push(record);

        if round + 1 < rounds {
            for (weight, subset) in weights.iter_mut().zip(&subsets) {
                if subset.places().iter().any(|place| places.contains(place)) {
                    *weight = 0;
                }
            }
        }
    }

    // Where the rounds stopped early, the rest would have chosen none.
    choices.resize(rounds, subsets.len() as u32);
    Ok(Plan {
        weights,
        choices,
        donors,
        recipients,
        records,
        weight: total,
    })
}

/// The first of the greatest weights and where it stands; 0 at 0 if there is
/// none.
fn heaviest(weights: &[u32]) -> (usize, u32) {
    let mut best = (0, 0);
    for (number, &weight) in weights.iter().enumerate() {
        if weight > best.1 {
            best = (number, weight);
        }
    }
    best
}
