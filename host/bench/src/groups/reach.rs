//! The coverage of a million entries, and a million entries clipped to coverages of more and more ranges,
//! from lent buffers into lent buffers that have just the places needed. The original has neither: beside
//! ours stands the plain Rust that does the same work, with the same checks. It writes into vectors that
//! keep their memory from round to round, so that it need not count first what it will write.

use std::ops::Range;

use differential::random::Random;
use mom::reach::{clip, coverage};
use oracle::run;

use super::{moving::deepest, Plan};
use crate::{
    inputs::{count_map, density_map, Map},
    measure::{alone, contest, heading_with_written, row_with_written, timed},
};

const DEPTH_MAX: u8 = 29;

pub fn run(plan: Plan) {
    let smaller = 2 * plan.shallower;
    let (depth, number) = (10 - plan.shallower, 1_000_000 >> smaller);
    let map = density_map(&count_map(depth, number, 1));
    heading_with_written("Coverage beside plain Rust", "range");
    let own = cover(plan, "coverage, neighbouring entries", depth, &map.zuniqs);
    let scattered = scattered(depth, number);
    cover(plan, "coverage, scattered entries", depth, &scattered);

    heading_with_written("Clipping beside plain Rust", "cell");
    for number in [10, 1_000, 100_000] {
        let ranges = ranges_over(&map, (number >> smaller).max(1), DEPTH_MAX);
        clip_to(plan, "clip", &map, &ranges);
    }
    // As an observer would have it: few bits of each bound are set, and few cells are cut.
    let ranges = ranges_over(&map, 100_000 >> smaller, depth + 4);
    let work = format!("clip, bounds of depth {}", depth + 4);
    clip_to(plan, &work, &map, &ranges);
    clip_to(plan, "clip to the map's own coverage", &map, &own);
}

/// Entries of one depth of which no two touch.
fn scattered(depth: u8, number: usize) -> Vec<u64> {
    let mut random = Random::new(14);
    let mut hash = 0;
    let mut zuniqs = Vec::with_capacity(number);
    while zuniqs.len() < number && hash < run::n_hash(depth) {
        zuniqs.push(run::trait_to_zuniq(depth, hash));
        hash += 2 + random.below(20);
    }
    zuniqs
}

/// So many ranges over that part of the sky where the map has entries, and half of it inside them: their
/// bounds are random cells of a depth.
fn ranges_over(map: &Map<f64>, number: usize, depth: u8) -> Vec<Range<u64>> {
    let shift = 2 * (DEPTH_MAX - depth);
    let last = map.zuniqs.last().map_or(0, |&zuniq| range_of(zuniq).end);
    let mut random = Random::new(15);
    let bounds = (0..2 * number).map(|_| random.below(last >> shift) << shift);
    let mut bounds: Vec<u64> = bounds.collect();
    bounds.sort();
    bounds.dedup();
    let pairs = bounds.chunks_exact(2);
    pairs.map(|range| range[0]..range[1]).collect()
}

/// Times the coverage of a map, and gives it.
fn cover(plan: Plan, work: &str, depth: u8, zuniqs: &[u64]) -> Vec<Range<u64>> {
    let mut ranges = Vec::new();
    let number = plain_coverage(depth, zuniqs, &mut ranges).unwrap();
    let (mut starts, mut ends) = (vec![0; number], vec![0; number]);
    let times = contest(
        plan.rounds,
        || timed(|| coverage(depth, zuniqs, &mut starts, &mut ends).unwrap()),
        || timed(|| plain_coverage(depth, zuniqs, &mut ranges)),
    );
    let pairs = starts.iter().zip(&ends).map(|(&start, &end)| start..end);
    assert!(pairs.eq(ranges.iter().cloned()), "{work}: answers differ");
    let short = number - 1;
    let checks = alone(plan.rounds, || {
        let (s, e) = (&mut starts[..short], &mut ends[..short]);
        timed(|| coverage(depth, zuniqs, s, e).unwrap_err())
    });
    row_with_written(work, zuniqs.len(), number, times, checks);
    ranges
}

fn clip_to(plan: Plan, work: &str, map: &Map<f64>, ranges: &[Range<u64>]) {
    let (starts, ends): (Vec<u64>, Vec<u64>) =
        ranges.iter().map(|range| (range.start, range.end)).unzip();
    let mut cells = Vec::new();
    let number = plain_clip(map, ranges, &mut cells).unwrap();
    let (mut zuniqs, mut densities) = (vec![0; number], vec![0.0; number]);
    let ours = |z: &mut [u64], m: &mut [f64]| {
        clip(map.depth, &map.zuniqs, &map.values, &starts, &ends, z, m)
    };
    let times = contest(
        plan.rounds,
        || timed(|| ours(&mut zuniqs, &mut densities).unwrap()),
        || timed(|| plain_clip(map, ranges, &mut cells)),
    );
    let written = zuniqs.iter().copied().zip(densities.iter().copied());
    assert!(written.eq(cells.iter().copied()), "{work}: answers differ");
    let short = number - 1;
    let checks = alone(plan.rounds, || {
        let (z, m) = (&mut zuniqs[..short], &mut densities[..short]);
        timed(|| ours(z, m).unwrap_err())
    });
    let work = format!("{work}: {} ranges", ranges.len());
    row_with_written(&work, map.len(), number, times, checks);
}

/// The hashes of depth 29 in the cell of a zuniq: its lowest bit is how many they are, and it is the sum
/// of the first and the one behind the last.
fn range_of(zuniq: u64) -> Range<u64> {
    let width = zuniq & zuniq.wrapping_neg();
    (zuniq - width) / 2..(zuniq + width) / 2
}

/// Checks the map as ours does; then one pass, in which an entry lengthens the last range or begins a new
/// one. None where the map is wrong.
#[inline(never)]
fn plain_coverage(depth: u8, zuniqs: &[u64], ranges: &mut Vec<Range<u64>>) -> Option<usize> {
    if depth > DEPTH_MAX {
        return None;
    }
    deepest(depth, zuniqs)?;
    ranges.clear();
    for &zuniq in zuniqs {
        let entry = range_of(zuniq);
        match ranges.last_mut() {
            Some(last) if last.end == entry.start => last.end = entry.end,
            _ => ranges.push(entry),
        }
    }
    Some(ranges.len())
}

/// Checks the map, the densities and the ranges as ours does; then goes through entries and ranges side by
/// side, and cuts what they have in common from the left. None where anything is wrong.
#[inline(never)]
fn plain_clip(map: &Map<f64>, ranges: &[Range<u64>], cells: &mut Vec<(u64, f64)>) -> Option<usize> {
    if map.depth > DEPTH_MAX || map.zuniqs.len() != map.values.len() {
        return None;
    }
    deepest(map.depth, &map.zuniqs)?;
    let is_density = |density: &f64| density.is_finite() && *density >= 0.0;
    if !map.values.iter().all(is_density) || !are_ranges(ranges) {
        return None;
    }
    cells.clear();
    let mut ranges = ranges.iter().peekable();
    for (&zuniq, &density) in map.zuniqs.iter().zip(&map.values) {
        let entry = range_of(zuniq);
        while let Some(range) = ranges.peek() {
            let common = entry.start.max(range.start)..entry.end.min(range.end);
            cut(common, |zuniq| cells.push((zuniq, density)));
            if range.end >= entry.end {
                break;
            }
            ranges.next();
        }
    }
    Some(cells.len())
}

/// Not empty, in the sky, and each above the end of the one before.
fn are_ranges(ranges: &[Range<u64>]) -> bool {
    let mut least = 0;
    ranges.iter().all(|range| {
        let is_one = least <= range.start && range.start < range.end && range.end <= 12 << 58;
        least = range.end.saturating_add(1);
        is_one
    })
}

/// The zuniqs of the largest cells, from the left.
fn cut(range: Range<u64>, mut push: impl FnMut(u64)) {
    let mut at = range.start;
    while at < range.end {
        let levels = at.trailing_zeros().min((range.end - at).ilog2()) / 2;
        let width = 1 << (2 * levels);
        push(2 * at + width);
        at += width;
    }
}
