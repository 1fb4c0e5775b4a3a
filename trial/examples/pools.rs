//! Prints document 01's pools k1 to k12, some with a floor, some for W-209 with
//! weightless edges and what is none, two with rivals that weigh as much as
//! W-208's bound allows, a pool of 36 and one of 200, with the plans that this
//! planner makes of them, in the words of the program `try_pools` of the proved
//! library: what the two print is compared.

use reference::{plan, Room};

/// What every lent entry holds before a call.
const GUARD: u32 = 99;

/// A table as the caller sees it afterwards: what was filled, then guards.
fn table(filled: &[u32], lent: usize) -> Vec<u32> {
    let mut all = filled.to_vec();
    all.resize(lent, GUARD);
    all
}

fn line(name: &str, entries: &[u32], count: usize) -> String {
    let shown: Vec<String> = entries.iter().take(count).map(u32::to_string).collect();
    if shown.is_empty() {
        format!("  {name}")
    } else {
        format!("  {name} {}", shown.join(" "))
    }
}

struct Tables {
    answer: String,
    weights: Vec<u32>,
    choices: Vec<u32>,
    donors: Vec<u32>,
    recipients: Vec<u32>,
    records: Vec<u32>,
}

/// What is planned: a number of pairs with a floor, M, W and the shuffle.
struct Lent<'a> {
    n: usize,
    floor: u32,
    m: &'a [u8],
    w: &'a [u16],
    shuffle: &'a [u16],
}

/// Plans, with tables of `room` entries, the records flat: three each.
fn planned(lent: &Lent<'_>, room: Room, flat: usize) -> Tables {
    let wide = |t: &[u16]| t.iter().map(|&p| u32::from(p)).collect::<Vec<u32>>();
    match plan(lent.n, lent.floor, lent.m, lent.w, lent.shuffle, room) {
        Ok((plan, tally)) => Tables {
            answer: format!(
                "weight {} cycles {} tally {} {} {}",
                plan.weight,
                plan.records.len(),
                tally.comparisons,
                tally.products,
                tally.rounds
            ),
            weights: table(&plan.weights, room.weights),
            choices: table(&plan.choices, room.choices),
            donors: table(&wide(&plan.donors), room.donors),
            recipients: table(&wide(&plan.recipients), room.recipients),
            records: table(&wide(&plan.records.concat()), flat),
        },
        Err(reason) => Tables {
            answer: format!("refused {}", reason.number()),
            weights: table(&[], room.weights),
            choices: table(&[], room.choices),
            donors: table(&[], room.donors),
            recipients: table(&[], room.recipients),
            records: table(&[], flat),
        },
    }
}

/// The tables for a pool of at most 10 pairs, and one entry more in most.
const SMALL: Room = Room {
    weights: 166,
    choices: 6,
    donors: 11,
    recipients: 11,
    records: 6,
};

/// How many numbers these records have.
const FLAT: usize = 18;

/// A pool of at most 10 pairs.
fn small(name: &str, n: usize, floor: u32, m: &[u8], w: &[u16], shuffle: &[u16]) {
    let lent = Lent {
        n,
        floor,
        m,
        w,
        shuffle,
    };
    let t = planned(&lent, SMALL, FLAT);
    println!("{name}: {}", t.answer);
    println!("{}", line("weights", &t.weights, (n * n * n - n) / 6 + 1));
    println!("{}", line("choices", &t.choices, n / 2 + 1));
    println!("{}", line("donors", &t.donors, n + 1));
    println!("{}", line("recipients", &t.recipients, n + 1));
    println!("{}", line("records", &t.records, 3 * (n / 2) + 1));
}

/// A pool from edges donor → patient : weight.
fn pool(n: usize, edges: &[(usize, usize, u16)]) -> (Vec<u8>, Vec<u16>) {
    let mut m = vec![0; n * n];
    let mut w = vec![0; n * n];
    for &(i, j, weight) in edges {
        m[i * n + j] = 1;
        w[i * n + j] = weight;
    }
    (m, w)
}

fn of_edges(name: &str, n: usize, edges: &[(usize, usize, u16)], shuffle: &[u16]) {
    let (m, w) = pool(n, edges);
    small(name, n, 0, &m, &w, shuffle);
}

/// The same pool with each of these floors, and the identity shuffle.
fn with_floors(name: &str, n: usize, edges: &[(usize, usize, u16)], floors: &[u32]) {
    let (m, w) = pool(n, edges);
    for &floor in floors {
        let name = format!("{name}, floor {floor}");
        small(&name, n, floor, &m, &w, &IDENTITY[..n]);
    }
}

const IDENTITY: [u16; 10] = [0, 1, 2, 3, 4, 5, 6, 7, 8, 9];

/// An edge where (7i + 11j) mod 5 is below 2, of weight 1 + (31i + 17j) mod
/// 997; place p holds pair 7p mod n.
fn large(n: usize) -> (Vec<u8>, Vec<u16>, Vec<u16>) {
    let mut m = Vec::new();
    let mut w = Vec::new();
    for i in 0..n {
        for j in 0..n {
            m.push(u8::from(i != j && (7 * i + 11 * j) % 5 < 2));
            w.push((1 + (31 * i + 17 * j) % 997) as u16);
        }
    }
    let shuffle = (0..n).map(|p| (7 * p % n) as u16).collect();
    (m, w, shuffle)
}

fn room_past(n: usize) -> Room {
    Room {
        weights: (n * n * n - n) / 6 + 1,
        choices: n / 2 + 1,
        donors: n + 1,
        recipients: n + 1,
        records: n / 2,
    }
}

fn main() {
    of_edges("k1", 0, &[], &[]);
    of_edges("k2", 1, &[], &[0]);
    of_edges("k3", 2, &[(0, 1, 5), (1, 0, 7)], &[0, 1]);
    of_edges("k4", 2, &[(0, 1, 5)], &[0, 1]);
    of_edges("k5", 2, &[(0, 1, 0), (1, 0, 0)], &[0, 1]);

    let forward = [(0, 1), (1, 2), (2, 0)];
    let backward = [(1, 0), (2, 1), (0, 2)];
    let at = |edges: &[(usize, usize)], weight: u16| -> Vec<(usize, usize, u16)> {
        edges.iter().map(|&(i, j)| (i, j, weight)).collect()
    };
    of_edges(
        "k6",
        3,
        &[at(&forward, 4), at(&backward, 4)].concat(),
        &IDENTITY[..3],
    );
    of_edges(
        "k7",
        3,
        &[at(&forward, 1), at(&backward, 2)].concat(),
        &IDENTITY[..3],
    );
    let k10 = at(&[(0, 1), (1, 0), (0, 2), (2, 0)], 5);
    of_edges("k10", 3, &k10, &IDENTITY[..3]);
    of_edges("k10 with shuffle 2 0 1", 3, &k10, &[2, 0, 1]);
    let both = at(&[(0, 3), (3, 0), (1, 4), (4, 1), (2, 5), (5, 2)], 3);
    let k8 = [at(&forward, 2), both].concat();
    of_edges("k8", 6, &k8, &IDENTITY[..6]);
    of_edges(
        "k9",
        4,
        &at(&[(0, 1), (1, 0), (2, 3), (3, 2)], 3),
        &IDENTITY[..4],
    );

    of_edges("k11", 2, &[(0, 1, 5), (1, 0, 7)], &[0, 0]);
    small("k12", 2, 0, &[0, 2, 1, 0], &[0, 5, 7, 0], &[0, 1]);
    small("M(0, 0) is 1", 2, 0, &[1, 1, 1, 0], &[0, 5, 7, 0], &[0, 1]);
    small("8 and 10", 2, 0, &[1, 2, 1, 0], &[0, 5, 7, 0], &[1, 1]);
    small("9, 8 and 10", 3, 0, &[2; 8], &[0; 9], &[0; 3]);

    with_floors("k3", 2, &[(0, 1, 5), (1, 0, 7)], &[11, 12]);
    with_floors("k8", 6, &k8, &[5, 6]);
    let (six, eight) = (at(&[(0, 1), (1, 0)], 3), at(&[(2, 3), (3, 2)], 4));
    with_floors("6 and 8", 4, &[six, eight].concat(), &[5, 6, 8]);
    let (ten, two) = (at(&[(0, 1), (1, 0)], 5), at(&[(0, 2), (2, 0)], 1));
    with_floors("10 and 2", 4, &[ten, two].concat(), &[5]);
    let floors = [196_604, 196_605, 200_000];
    with_floors("196605", 3, &at(&forward, 65_535), &floors);
    let (m, w) = pool(2, &[(0, 1, 5), (1, 0, 7)]);
    small("floor 200001", 2, 200_001, &m, &w, &[0, 1]);
    small("9 and not 13", 2, 200_000, &[], &[], &[]);
    small("13 and 9", 2, 200_001, &[], &[], &[]);
    let lent = Lent {
        n: 201,
        floor: 200_001,
        m: &[],
        w: &[],
        shuffle: &[],
    };
    println!("4 and 13: {}", planned(&lent, SMALL, FLAT).answer);

    let (m, w) = pool(2, &[(0, 1, 0)]);
    small("a weightless edge in no cycle", 2, 0, &m, &w, &[0, 1]);
    let (m, w) = pool(2, &[(0, 1, 0), (1, 0, 0)]);
    small("weightless, shuffle 0 0", 2, 0, &m, &w, &[0, 0]);
    small("weightless, floor 200001", 2, 200_001, &m, &w, &[0, 1]);
    let (m, w) = (&[0, 1, 2, 0], &[0, 0, 7, 0]);
    small("weightless, an entry 2", 2, 0, m, w, &[0, 1]);
    let (m, w) = (&[0, 1, 1, 1], &[0, 5, 7, 0]);
    small("an own edge, weightless", 2, 0, m, w, &[0, 1]);
    let light = at(&[(0, 1), (1, 0)], 1);
    with_floors("an edge of weight 1", 2, &light, &[5]);
    let (m, w) = (&[0, 1, 1, 0], &[7, 5, 7, 7]);
    small("own weights of 7", 2, 0, m, w, &[0, 1]);

    let both_ways = |pairs: &[(usize, usize)], weight: u16| -> Vec<(usize, usize, u16)> {
        let ways = |&(a, b): &(usize, usize)| [(a, b, weight), (b, a, weight)];
        pairs.iter().flat_map(ways).collect()
    };
    let four = both_ways(&[(0, 1), (0, 2), (1, 3)], 5);
    of_edges("10 against 20", 4, &four, &IDENTITY[..4]);
    let ten = [
        at(&forward, 4),
        both_ways(&[(3, 4), (3, 8), (4, 9)], 4),
        both_ways(&[(0, 5), (1, 6), (2, 7)], 6),
    ];
    of_edges("20 against 52", 10, &ten.concat(), &IDENTITY);

    let (m, w, shuffle) = large(36);
    for (name, floor) in [("36 pairs", 0), ("36 pairs, floor 2500", 2_500)] {
        let lent = Lent {
            n: 36,
            floor,
            m: &m,
            w: &w,
            shuffle: &shuffle,
        };
        let t = planned(&lent, room_past(36), 55);
        println!("{name}: {}", t.answer);
        println!("{}", line("choices", &t.choices, 19));
        println!("{}", line("donors", &t.donors, 37));
        println!("{}", line("recipients", &t.recipients, 37));
        println!("{}", line("records", &t.records, 55));
    }

    let (m, w, shuffle) = large(200);
    let lent = Lent {
        n: 200,
        floor: 0,
        m: &m,
        w: &w,
        shuffle: &shuffle,
    };
    let t = planned(&lent, room_past(200), 301);
    println!("200 pairs: {}", t.answer);
    println!("{}", line("choices", &t.choices, 101));
    println!("{}", line("recipients", &t.recipients, 201));
}
