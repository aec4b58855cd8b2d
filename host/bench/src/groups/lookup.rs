//! The map check and the lookups, a million questions to a map of a million entries.

use differential::{
    random::Random,
    widths::{named, Width},
};
use oracle::run;

use super::Plan;
use crate::{
    inputs::{count_map, Map},
    measure::{alone, contest, heading, row, row_alone, timed},
};

pub fn run(plan: Plan) {
    let depth = 10 - plan.shallower;
    let number = 1_000_000 >> (2 * plan.shallower);
    let map = count_map::<u64>(depth, number, 1);
    let narrow = count_map::<u32>(depth, number, 1);
    heading("Map check", "entry", "entries");
    check(plan, depth, number, &map);
    check(plan, depth, number, &narrow);
    heading("Lookup", "query", "queries");
    let mut random = Random::new(4);
    let mut cells: Vec<u64> = (0..number)
        .map(|_| random.below(run::n_hash(depth)))
        .collect();
    containing(plan, "containing, random", &map, &cells);
    containing(plan, "containing, narrow, random", &narrow, &cells);
    cells.sort_unstable();
    containing(plan, "containing, in order", &map, &cells);
    containing(plan, "containing, narrow, in order", &narrow, &cells);
    for (name, query_depth) in [
        ("small", depth),
        ("larger", depth - 3),
        ("large", depth - 6),
    ] {
        let n_hash = run::n_hash(query_depth);
        // The original fails where the search ends at place 0.
        let mut cells: Vec<u64> = (0..number)
            .map(|_| n_hash / 12 + random.below(n_hash / 2))
            .collect();
        let work = format!("overlapping, {name} cells (depth {query_depth})");
        overlapping(plan, &format!("{work}, random"), &map, query_depth, &cells);
        cells.sort_unstable();
        overlapping(
            plan,
            &format!("{work}, in order"),
            &map,
            query_depth,
            &cells,
        );
    }
}

/// The original takes every entry above the map's depth for a fault: it gets a map without any.
fn check<Z: Width>(plan: Plan, depth: u8, number: usize, mixed: &Map<u32, Z>) {
    let mut random = Random::new(5);
    let entries: Vec<(Z, u32)> = (0..run::n_hash(depth))
        .filter(|_| random.below(2) == 0)
        .take(number)
        .map(|hash| (run::trait_to_zuniq(depth, Z::of(hash)), 1))
        .collect();
    let map = Map::of(depth, &entries);
    let original = run::mom(depth, entries);
    let valid = Ok(mom::MapCheck::Valid);
    let ours = |map: &Map<u32, Z>| {
        assert_eq!((Z::OURS.check_is_mom)(map.depth, &map.zuniqs), valid);
    };
    let times = contest(
        plan.rounds,
        || timed(|| ours(&map)),
        || timed(|| assert_eq!(run::check_is_mom(&original), Ok(()))),
    );
    let check = named::<Z>("check", "check, narrow");
    row(&format!("{check}, entries of one depth"), map.len(), times);
    row_alone(
        &format!("{check}, entries of all depths"),
        mixed.len(),
        alone(plan.rounds, || timed(|| ours(mixed))),
    );
}

fn containing<Z: Width>(plan: Plan, work: &str, map: &Map<u32, Z>, cells: &[u64]) {
    let original = run::mom(map.depth, map.entries());
    let queries: Vec<Z> = cells
        .iter()
        .map(|&h| run::trait_to_zuniq(map.depth, Z::of(h)))
        .collect();
    let ours = || -> u64 {
        let found = |&q| (Z::OURS.get_cell_containing)(map.depth, &map.zuniqs, q).unwrap();
        let zuniq = |place: Option<usize>| place.map_or(0, |place| map.zuniqs[place].bits());
        queries
            .iter()
            .map(|q| zuniq(found(q)))
            .fold(0, u64::wrapping_add)
    };
    let theirs = || -> u64 {
        let found = |&q| run::get_cell_containing(&original, q).unwrap();
        queries
            .iter()
            .map(|q| found(q).map_or(0, |entry| entry.0.bits()))
            .fold(0, u64::wrapping_add)
    };
    assert_eq!(ours(), theirs(), "{work}: answers differ");
    let times = contest(plan.rounds, || timed(ours), || timed(theirs));
    row(work, queries.len(), times);
}

fn overlapping(plan: Plan, work: &str, map: &Map<u32>, depth: u8, cells: &[u64]) {
    let original = run::mom(map.depth, map.entries());
    let queries: Vec<u64> = cells
        .iter()
        .map(|&h| run::trait_to_zuniq(depth, h))
        .collect();
    let ours = || -> usize {
        let found = |&q| mom::get_overlapped_cells(&map.zuniqs, q).unwrap().1.len();
        queries.iter().map(found).sum()
    };
    let theirs = || -> usize {
        queries
            .iter()
            .map(|&q| run::number_of_overlapped_cells(&original, q))
            .sum()
    };
    assert_eq!(ours(), theirs(), "{work}: answers differ");
    let times = contest(plan.rounds, || timed(ours), || timed(theirs));
    row(work, queries.len(), times);
}
