//! Plans of random pools with floor 0: by rounds and by Algorithm 1, against
//! the best there is, and with the tally that demand 3 fixes.

use reference::best::cycle_weight;
use reference::random::{mended, pool, tables, trials, PoolKind, Random, TableKind};
use reference::{
    algorithm1, best, build_pool, gates, plan, straight, Plan, Reason, Room, Tables, Tally,
};

/// Tables of any kind, a caller's own or built from fields, that planning
/// accepts.
fn any_tables(random: &mut Random, n: usize) -> Tables {
    if random.chance(2, 3) {
        let kind = random.one_of(&TableKind::ALL);
        accepted(n, tables(random, n, kind))
    } else {
        let kind = random.one_of(&PoolKind::ALL);
        let pool = pool(random, n, kind);
        build_pool(&pool).unwrap()
    }
}

/// These tables, and if they have weightless edges, which every planner refuses
/// by 17, then mended.
fn accepted(n: usize, mut tables: Tables) -> Tables {
    let Some(mended) = mended(n, &tables.m, &tables.w) else {
        return tables;
    };
    let refused = Some(Reason::WeightlessEdge);
    assert_eq!(answers(n, &tables).map(Result::err), [refused; 3]);
    tables.w = mended;
    tables
}

/// What the three planners answer, with the identity shuffle.
fn answers(n: usize, tables: &Tables) -> [Result<Plan, Reason>; 3] {
    let shuffle: Vec<u16> = (0..n as u16).collect();
    let (m, w, room) = (&tables.m, &tables.w, Room::due(n));
    [
        plan(n, 0, m, w, &shuffle, room).map(|(plan, _)| plan),
        gates::plan(n, 0, m, w, &shuffle, room).map(|(plan, _)| plan),
        straight::plan(n, 0, m, w, &shuffle, room),
    ]
}

/// Plans with every planner and checks all that holds of every plan.
fn planned(n: usize, tables: &Tables, shuffle: &[u16]) -> Plan {
    let (m, w, room) = (&tables.m, &tables.w, Room::due(n));
    let (plan, tally) = plan(n, 0, m, w, shuffle, room).unwrap();
    assert_eq!(tally, Tally::demanded(n));
    assert_eq!(
        gates::plan(n, 0, m, w, shuffle, room),
        Ok((plan.clone(), tally))
    );
    assert_eq!(straight::plan(n, 0, m, w, shuffle, room), Ok(plan.clone()));
    assert_filled(n, tables, shuffle, &plan);
    plan
}

/// The tables have their lengths; the cycles are executable, share no pair,
/// weigh what the plan says, and are those of the donors and recipients.
fn assert_filled(n: usize, tables: &Tables, shuffle: &[u16], plan: &Plan) {
    let room = Room::due(n);
    assert_eq!(plan.weights.len(), room.weights);
    assert_eq!(plan.choices.len(), room.choices);
    assert_eq!(plan.donors.len(), n);
    assert_eq!(plan.recipients.len(), n);
    assert!(plan.cycles() <= room.records);

    let place = |pair: u16| shuffle.iter().position(|&at| at == pair).unwrap();
    let none = n as u16;
    let mut donors = vec![none; n];
    let mut recipients = vec![none; n];
    let mut weight = 0;
    for record in &plan.records {
        let length = if record[2] == none { 2 } else { 3 };
        let cycle: Vec<usize> = record[..length].iter().map(|&pair| pair.into()).collect();
        weight += cycle_weight(&cycle, n, &tables.m, &tables.w).expect("an executable cycle");
        let lowest = record[..length].iter().min_by_key(|&&pair| place(pair));
        assert_eq!(lowest, Some(&record[0]));
        for i in 0..length {
            let (giver, taker) = (cycle[i], cycle[(i + 1) % length]);
            assert_eq!((recipients[giver], donors[taker]), (none, none));
            recipients[giver] = taker as u16;
            donors[taker] = giver as u16;
        }
    }
    assert_eq!(plan.weight, weight);
    assert_eq!(plan.donors, donors);
    assert_eq!(plan.recipients, recipients);

    // Once nothing is left, nothing is chosen any more.
    let (chosen, rest) = plan.choices.split_at(plan.cycles());
    let count = room.weights as u32;
    assert!(chosen.iter().all(|&choice| choice < count));
    assert!(rest.iter().all(|&choice| choice == count));
}

#[test]
fn rounds_are_algorithm_1() {
    trials("rounds and algorithm 1", 1_000_000, 6_000, |random| {
        let n = random.between(0, 30);
        let tables = any_tables(random, n);
        let shuffle = random.shuffle(n);
        let plan = planned(n, &tables, &shuffle);
        let (donors, recipients) = algorithm1(n, 0, &tables.m, &tables.w, &shuffle);
        assert_eq!(plan.donors, donors);
        assert_eq!(plan.recipients, recipients);
    });
}

#[test]
fn every_kind_at_every_size_up_to_thirty() {
    let mut random = Random::new(30);
    for n in 0..=30 {
        for kind in TableKind::ALL {
            let tables = accepted(n, tables(&mut random, n, kind));
            let shuffle = random.shuffle(n);
            let plan = planned(n, &tables, &shuffle);
            let both = algorithm1(n, 0, &tables.m, &tables.w, &shuffle);
            assert_eq!((plan.donors, plan.recipients), both);
        }
    }
}

#[test]
fn three_times_the_plan_is_at_least_the_best() {
    let mut thirds = 0;
    let mut less = 0;
    trials("factor three", 2_000_000, 10_000, |random| {
        let n = random.between(0, 8);
        let tables = any_tables(random, n);
        let shuffle = random.shuffle(n);
        let plan = planned(n, &tables, &shuffle);
        let best = best(n, &tables.m, &tables.w);
        assert!(plan.weight <= best.weight, "{best:?} is not the best");
        assert!(3 * plan.weight >= best.weight, "{best:?}");
        less += u32::from(plan.weight < best.weight);
        thirds += u32::from(plan.weight > 0 && 3 * plan.weight == best.weight);
    });
    // The bound is met, and not by plans that are all the best anyway.
    assert!(less > 100, "only {less} plans were less than the best");
    assert!(thirds > 10, "only {thirds} plans were a third of the best");
}

/// All cycles of two or three of `n` pairs, each from its lowest pair.
fn cycles(n: usize) -> Vec<Vec<usize>> {
    let mut cycles = Vec::new();
    for a in 0..n {
        for b in a + 1..n {
            cycles.push(vec![a, b]);
            for c in b + 1..n {
                cycles.extend([vec![a, b, c], vec![a, c, b]]);
            }
        }
    }
    cycles
}

#[test]
fn an_executable_cycle_of_accepted_tables_weighs_more_than_nothing() {
    let (mut lightest, mut weightless) = (0, 0);
    trials("cycles weigh", 7_000_000, 2_000, |random| {
        let n = random.between(0, 12);
        let executable = |Tables { m, w }: &Tables| -> Vec<(usize, u32)> {
            let weigh = |cycle: Vec<usize>| Some((cycle.len(), cycle_weight(&cycle, n, m, w)?));
            cycles(n).into_iter().filter_map(weigh).collect()
        };
        let sound = any_tables(random, n);
        assert!(answers(n, &sound).iter().all(Result::is_ok));
        for (length, weight) in executable(&sound) {
            assert!(weight as usize >= length, "{weight} for {length} edges");
            lightest += u32::from(weight as usize == length);
        }
        // It is not so of the tables that are refused.
        let refused = tables(random, n, TableKind::Weightless);
        let none = |&(_, weight): &(usize, u32)| weight == 0;
        weightless += executable(&refused)
            .iter()
            .filter(|cycle| none(cycle))
            .count();
    });
    assert!(lightest > 1_000, "only {lightest} cycles weighed 1 an edge");
    assert!(weightless > 1_000, "only {weightless} cycles weighed 0");
}

#[test]
fn a_pairs_own_weight_is_not_read() {
    let (mut made, mut refused) = (0, 0);
    trials("own weights", 8_000_000, 1_000, |random| {
        let n = random.between(1, 10);
        let kind = random.one_of(&TableKind::ALL);
        let mut tables = tables(random, n, kind);
        let due = answers(n, &tables);
        for own in [0, 1, 7, u16::MAX] {
            for pair in 0..n {
                tables.w[pair * n + pair] = own;
            }
            assert_eq!(answers(n, &tables), due, "{own}");
        }
        made += u32::from(due[0].is_ok());
        refused += u32::from(due[0] == Err(Reason::WeightlessEdge));
    });
    assert!(made > 500 && refused > 50, "{made} made, {refused} refused");
}

#[test]
fn tallies_follow_the_closed_form() {
    let mut random = Random::new(3);
    for n in (0..=60).chain([100]) {
        for kind in [TableKind::Empty, TableKind::Dense] {
            let tables = tables(&mut random, n, kind);
            let shuffle = random.shuffle(n);
            let (_, tally) = plan(n, 0, &tables.m, &tables.w, &shuffle, Room::due(n)).unwrap();
            assert_eq!(tally, Tally::demanded(n), "{n} pairs");
        }
    }
}

#[test]
fn two_hundred_pairs() {
    let n = 200;
    let pool = pool(&mut Random::new(200), n, PoolKind::Dense);
    let tables = build_pool(&pool).unwrap();
    let plan = planned(n, &tables, &pool.shuffle);
    let both = algorithm1(n, 0, &tables.m, &tables.w, &pool.shuffle);
    assert_eq!((plan.donors, plan.recipients), both);
}

#[test]
fn the_heaviest_tables_overflow_nothing() {
    let n = 200;
    let mut tables = Tables::empty(n);
    tables.w.fill(u16::MAX);
    // Pairs 2k and 2k + 1 give to each other, and nobody else to anybody.
    for k in 0..n / 2 {
        tables.m[2 * k * n + 2 * k + 1] = 1;
        tables.m[(2 * k + 1) * n + 2 * k] = 1;
    }
    let shuffle = Random::new(6).shuffle(n);
    let plan = straight::plan(n, 0, &tables.m, &tables.w, &shuffle, Room::due(n)).unwrap();
    assert_eq!(plan.cycles(), 100);
    assert_eq!(plan.weight, 200 * 65_535);
    assert_filled(n, &tables, &shuffle, &plan);
}
