//! The published order of subsets, laid out as the library's program
//! `try_subsets` lays it out: `crates/try_subsets/stdout` is what this prints.

use reference::subsets::{published, Subset};

fn main() {
    for n in 0..=12 {
        all(n);
    }
    one_by_one(36, &[1000, 2921, 7139, 7140, 7316, 7769, 7770]);
    one_by_one(
        200,
        &[
            0, 19700, 19701, 841430, 1000000, 1313399, 1313400, 1323190, 1333299, 1333300,
        ],
    );
}

/// The places, each after a space.
fn places(subset: &Subset) -> String {
    let spaced = |place: &u16| format!(" {place}");
    subset.places().iter().map(spaced).collect()
}

/// How many come before the first with these places.
fn number(subsets: &[Subset], places: &[u16]) -> usize {
    let there = |subset: &Subset| subset.places() == places;
    subsets.iter().position(there).expect("a subset")
}

/// All subsets in order, and how many have that number by their places.
fn all(n: usize) {
    let subsets = published(n);
    print!("of {n} places {}:", subsets.len());
    let mut back = 0;
    for (k, subset) in subsets.iter().enumerate() {
        print!("{},", places(subset));
        back += usize::from(number(&subsets, subset.places()) == k);
    }
    println!(" back {back}");
}

/// The subsets of these numbers; the number past the last has none.
fn one_by_one(n: usize, numbers: &[usize]) {
    let subsets = published(n);
    for &k in numbers {
        print!("of {n} places, number {k}:");
        match subsets.get(k) {
            Some(subset) => {
                let back = number(&subsets, subset.places());
                println!("{}, back {back}", places(subset));
            }
            None => println!(" none"),
        }
    }
}
