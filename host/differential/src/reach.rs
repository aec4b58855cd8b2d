//! Coverages, as the request has them: "a list of half-open ranges of depth-29 hashes, here starts and
//! ends in two paired buffers". The original has none, so that the request is the judge, read plainly: by
//! ranges, and where there are few hashes one by one. Random ones gather at the ends of entries.

use std::ops::Range;

use crate::{
    cells::{n_hash, Cell, DEPTH_MAX},
    maps::Map,
    pairs::two_maps,
    random::{any_of, Random},
};

/// N(29), behind the last hash.
pub const SKY: u64 = n_hash(DEPTH_MAX);

/// All hashes.
const WHOLE_SKY: Range<u64> = 0..SKY;

/// So many hashes can be looked at one by one.
const FEW: u64 = 256;

/// Two buffers that are paired, or should be.
#[derive(Clone, Debug, PartialEq, Eq, PartialOrd, Ord)]
pub struct Coverage {
    pub starts: Vec<u64>,
    pub ends: Vec<u64>,
}

/// The depth-29 cells that lie in a cell.
pub fn hashes(cell: Cell) -> Range<u64> {
    let width = 1 << (2 * (DEPTH_MAX - cell.depth));
    cell.hash * width..(cell.hash + 1) * width
}

fn number_of(ranges: &[Range<u64>]) -> u64 {
    ranges.iter().map(|range| range.end - range.start).sum()
}

/// "Exactly the depth-29 cells that lie in an entry, as rising ranges, none touching the next": where one
/// entry ends and the next starts nothing is bounded.
pub fn coverage_of(cells: &[Cell]) -> Vec<Range<u64>> {
    let entries = cells.iter().map(|&cell| hashes(cell));
    let mut bounds: Vec<u64> = Vec::new();
    for bound in entries.flat_map(|range| [range.start, range.end]) {
        match bounds.last() {
            Some(&before) if before == bound => drop(bounds.pop()),
            _ => bounds.push(bound),
        }
    }
    bounds.chunks(2).map(|range| range[0]..range[1]).collect()
}

/// The same, hash by hash; none where there are more than a few.
pub fn coverage_by_hash(cells: &[Cell]) -> Option<Vec<Range<u64>>> {
    let ranges: Vec<Range<u64>> = cells.iter().map(|&cell| hashes(cell)).collect();
    if number_of(&ranges) > FEW {
        return None;
    }
    let mut joined: Vec<Range<u64>> = Vec::new();
    for hash in ranges.into_iter().flatten() {
        match joined.last_mut() {
            Some(last) if last.end == hash => last.end += 1,
            _ => joined.push(hash..hash + 1),
        }
    }
    Some(joined)
}

/// The entries of a map clipped to a valid coverage: what an entry and a range have in common, cut.
pub fn clipped<V: Copy>(map: &[(Cell, V)], ranges: &[Range<u64>]) -> Vec<(Cell, V)> {
    let mut cells = Vec::new();
    for &(entry, value) in map {
        let inside = hashes(entry);
        for range in ranges {
            let common = inside.start.max(range.start)..inside.end.min(range.end);
            cells.extend(cut(common).into_iter().map(|cell| (cell, value)));
        }
    }
    cells
}

/// From the left, at each place the largest cell that starts there and does not go past the end.
pub fn cut(range: Range<u64>) -> Vec<Cell> {
    let mut cells = Vec::new();
    let mut at = range.start;
    while at < range.end {
        let of_depth = |depth: u8| {
            let hash = at >> (2 * (DEPTH_MAX - depth));
            Cell { depth, hash }
        };
        let fits = |cell: &Cell| hashes(*cell).start == at && hashes(*cell).end <= range.end;
        let mut by_size = (0..=DEPTH_MAX).map(of_depth);
        let largest = by_size.find(fits).expect("a depth-29 cell fits");
        cells.push(largest);
        at = hashes(largest).end;
    }
    cells
}

/// "Every cell that lies inside an entry and inside the coverage while its parent, if any, doesn't lie
/// inside both": word for word, a cell being inside the coverage if all its depth-29 cells are in it. None
/// where the coverage has more than a few.
pub fn clipped_by_tree<V: Copy>(
    map: &[(Cell, V)],
    ranges: &[Range<u64>],
) -> Option<Vec<(Cell, V)>> {
    if number_of(ranges) > FEW {
        return None;
    }
    let tree = Tree { map, ranges };
    let mut cells = Vec::new();
    for hash in 0..12 {
        tree.descend(Cell { depth: 0, hash }, &mut cells);
    }
    cells.sort_by_key(|(cell, _)| cell.zuniq::<u64>());
    Some(cells)
}

struct Tree<'a, V> {
    map: &'a [(Cell, V)],
    ranges: &'a [Range<u64>],
}

impl<V: Copy> Tree<'_, V> {
    /// The value of the entry that the cell lies in, if it lies inside the coverage too.
    fn in_both(&self, cell: Cell) -> Option<V> {
        let lies_in =
            |entry: Cell| entry.depth <= cell.depth && cell.ancestor(entry.depth) == entry;
        let (_, value) = self.map.iter().find(|(entry, _)| lies_in(*entry))?;
        let covered = |hash: u64| self.ranges.iter().any(|range| range.contains(&hash));
        hashes(cell).all(covered).then_some(*value)
    }

    fn descend(&self, cell: Cell, cells: &mut Vec<(Cell, V)>) {
        let parent = (cell.depth > 0).then(|| cell.ancestor(cell.depth - 1));
        let parent_in_both = parent.is_some_and(|parent| self.in_both(parent).is_some());
        if let (Some(value), false) = (self.in_both(cell), parent_in_both) {
            cells.push((cell, value));
        }
        // What lies inside a coverage has a hash of it.
        let inside = hashes(cell);
        let reached = |range: &Range<u64>| range.start < inside.end && inside.start < range.end;
        if cell.depth < DEPTH_MAX && self.ranges.iter().any(reached) {
            for child in cell.children() {
                self.descend(child, cells);
            }
        }
    }
}

impl Coverage {
    pub fn of(ranges: &[Range<u64>]) -> Self {
        Coverage {
            starts: ranges.iter().map(|range| range.start).collect(),
            ends: ranges.iter().map(|range| range.end).collect(),
        }
    }

    pub fn ranges(&self) -> Vec<Range<u64>> {
        let pairs = self.starts.iter().zip(&self.ends);
        pairs.map(|(&start, &end)| start..end).collect()
    }

    /// Row 14: "a range is empty, ends past N(29), or doesn't start above the previous end".
    pub fn faulty_range(&self) -> Option<usize> {
        let ranges = self.ranges();
        (0..ranges.len()).find(|&place| {
            let before = place.checked_sub(1).map(|before| ranges[before].end);
            let Range { start, end } = ranges[place];
            start >= end || end > SKY || before.is_some_and(|before| start <= before)
        })
    }

    /// Makes a change by which the coverage is invalid, or may be.
    pub fn change(&mut self, random: &mut Random) {
        let len = self.starts.len().min(self.ends.len()) as u64;
        if len == 0 {
            self.starts.push(0);
            return;
        }
        let place = random.below(len) as usize;
        let before = self.ends[place.saturating_sub(1)];
        let some = random.below(9);
        match random.below(10) {
            0 => drop(self.starts.pop()),
            1 => drop(self.ends.pop()),
            2 => self.ends[place] = self.starts[place],
            3 => self.ends[place] = self.starts[place].saturating_sub(some),
            4 => self.ends[place] = any_of(random, &[SKY + 1, 2 * SKY, u64::MAX]),
            5 => self.ends[place] = SKY + some,
            6 | 7 => self.starts[place] = before,
            8 => self.starts[place] = before.saturating_sub(some),
            _ => self.starts.swap(0, place),
        }
    }
}

/// The cells of a map, and a coverage for it: valid, both of few hashes or both of any.
pub fn random(random: &mut Random) -> (Vec<Cell>, Coverage) {
    let (cells, bounds) = match random.coin() {
        true => few_hashes(random),
        false => {
            let [cells, other] = two_maps(random);
            let bounds = moved(random, &coverage_of(&other));
            (cells, bounds)
        }
    };
    let ranges = match random.below(8) {
        0 => coverage_of(&cells),
        1 => ranges_between(moved(random, &coverage_of(&cells))),
        2 if random.coin() => vec![],
        2 => vec![WHOLE_SKY],
        _ => ranges_between(bounds),
    };
    (cells, Coverage::of(&ranges))
}

/// Every second one is an end.
fn ranges_between(mut bounds: Vec<u64>) -> Vec<Range<u64>> {
    bounds.sort();
    bounds.dedup();
    let pairs = bounds.chunks_exact(2);
    pairs.map(|range| range[0]..range[1]).collect()
}

/// The bounds of ranges, of which some are left out and some are moved a little, or far.
fn moved(random: &mut Random, ranges: &[Range<u64>]) -> Vec<u64> {
    let mut bounds = Vec::new();
    for bound in ranges.iter().flat_map(|range| [range.start, range.end]) {
        let away = random.below(4) << (2 * random.below(30));
        match random.below(6) {
            0 => {}
            1 => bounds.push((bound + away).min(SKY)),
            2 => bounds.push(bound.saturating_sub(away)),
            3 => bounds.push(bound.saturating_sub(1)),
            _ => bounds.push(bound),
        }
    }
    bounds
}

/// A map of twelve cells of depth 27 and below, or of one cell over the first of them, and bounds among
/// their hashes.
fn few_hashes(random: &mut Random) -> (Vec<Cell>, Vec<u64>) {
    let top = DEPTH_MAX - 2;
    let first = match random.below(4) {
        0 => 0,
        1 => n_hash(top) - 12,
        _ => random.below(n_hash(top) - 11),
    };
    let cells = match random.below(8) {
        0 => {
            let cell = Cell {
                depth: top,
                hash: first,
            };
            vec![cell.ancestor(random.below(top as u64 + 1) as u8)]
        }
        _ => deepened(&Map::random::<u64>(2, random), first),
    };
    let from = first << 4;
    let chance = any_of(random, &[2, 4, 16, 64]);
    let chosen = (from..=from + 192).filter(|_| random.below(chance) == 0);
    let bounds = chosen.collect();
    (cells, bounds)
}

/// A map of depth 2 as one of depth 29: its base cells become those of depth 27 from `first` on.
pub fn deepened(map: &Map, first: u64) -> Vec<Cell> {
    let deeper = |cell: &Cell| Cell {
        depth: cell.depth + DEPTH_MAX - 2,
        hash: cell.hash + (first << (2 * cell.depth)),
    };
    map.cells().iter().map(deeper).collect()
}
