//! Sections 3 and 6: the map check, of lists whose entries are all at the map's depth, and lookup, away
//! from the original's faults at search place 0 and at entry 0.

use differential::{
    cells::{n_hash, Cell},
    compare::Kind,
    kinds::{CheckIsMom, GetCellContaining, GetOverlappedCells},
    maps::{at_depth, Map},
    random::Random,
    widths::Width,
};
use oracle::run;

use crate::{Line, Number};

/// The most entries of a drawn map.
const MOST_ENTRIES: usize = 16;

/// Prints `drawn` lines of each call.
pub fn print<Z: Width + Number>(random: &mut Random, drawn: usize) {
    for _ in 0..drawn {
        check_is_mom::<Z>(random);
    }
    for _ in 0..drawn {
        get_cell_containing::<Z>(random);
    }
    let mut printed = 0;
    while printed < drawn {
        printed += usize::from(get_overlapped_cells::<Z>(random));
    }
}

/// Rising hashes, of which now and then two are swapped or one stands twice.
fn check_is_mom<Z: Width + Number>(random: &mut Random) {
    let depth = random.below(Z::DEPTH_MAX as u64 + 1) as u8;
    let n = n_hash(depth);
    let first = random.below(n);
    let mut hashes: Vec<u64> = (0..random.below(10))
        .map(|_| (first + random.below(16)) % n)
        .collect();
    hashes.sort();
    hashes.dedup();
    if hashes.len() > 1 {
        let place = random.below(hashes.len() as u64 - 1) as usize;
        match random.below(4) {
            0 => hashes.swap(place, place + 1),
            1 => hashes[place] = hashes[place + 1],
            _ => {}
        }
    }
    let zuniq = |&hash| run::trait_to_zuniq(depth, Z::of(hash));
    let zuniqs: Vec<Z> = hashes.iter().map(zuniq).collect();
    let entries = zuniqs.iter().map(|&zuniq| (zuniq, 0u32)).collect();
    let line = Line::new(CheckIsMom::<Z>::NAME).with(depth);
    let line = line.with_list(&zuniqs);
    match run::check_is_mom(&run::mom(depth, entries)) {
        Ok(()) => line.with(0u8).print(),
        Err(message) => line.with(3u8).with(fault(&zuniqs, &message)).print(),
    }
}

/// The place that the original's message tells: it names the two entries that don't rise.
fn fault<Z: Width>(zuniqs: &[Z], message: &str) -> usize {
    let named = |pair: &[Z]| format!("The MOM is not ordered: {} >= {}", pair[0], pair[1]);
    let pair = zuniqs.windows(2).position(|pair| named(pair) == message);
    1 + pair.expect("the two entries that the message names")
}

fn map<Z: Width>(random: &mut Random, depth: u8) -> Map {
    loop {
        let map = Map::random::<Z>(depth, random);
        if map.cells().len() <= MOST_ENTRIES {
            return map;
        }
    }
}

fn get_cell_containing<Z: Width + Number>(random: &mut Random) {
    let depth = random.below(Z::DEPTH_MAX as u64 + 1) as u8;
    let map = map::<Z>(random, depth);
    let query: Z = at_depth(map.query::<Z>(random), depth, random).zuniq();
    let found = run::get_cell_containing(&run::mom(depth, map.entries()), query);
    let line = Line::new(GetCellContaining::<Z>::NAME)
        .with(depth)
        .with_list(&map.zuniqs::<Z>())
        .with(query);
    match found.expect("a query at the map's depth") {
        Some((_, place)) => line.with(place).print(),
        None => line.print(),
    }
}

/// Whether a line was printed.
fn get_overlapped_cells<Z: Width + Number>(random: &mut Random) -> bool {
    let map = map::<Z>(random, Z::DEPTH_MAX);
    let query = map.query::<Z>(random);
    let is_comparable = |first: &Cell| first.is_before(query) && !first.overlaps(query);
    if !map.cells().first().is_some_and(is_comparable) {
        return false;
    }
    let query = query.zuniq::<Z>();
    let found = run::get_overlapped_cells(&run::mom(Z::DEPTH_MAX, map.entries()), query);
    let (part, places): (Vec<Z>, Vec<u32>) = found.into_iter().unzip();
    Line::new(GetOverlappedCells::<Z>::NAME)
        .with_list(&map.zuniqs::<Z>())
        .with(query)
        .with(places.first().copied().unwrap_or(0))
        .with_list(&part)
        .print();
    true
}
