//! Valid maps to compare on: small ones, and random ones whose entries are of mixed depths. They
//! are made by the scope's definitions alone, by neither of the two sides.

use std::cmp::Ordering;

use crate::{
    cells::{cells_to, n_hash, Cell},
    random::Random,
    widths::Width,
};

/// Cells that rise by zuniq, of which no two overlap. The smaller map is the one with fewer entries.
#[derive(Clone, Debug, PartialEq, Eq)]
pub struct Map(Vec<Cell>);

impl Ord for Map {
    fn cmp(&self, other: &Self) -> Ordering {
        (self.0.len(), &self.0).cmp(&(other.0.len(), &other.0))
    }
}

impl PartialOrd for Map {
    fn partial_cmp(&self, other: &Self) -> Option<Ordering> {
        Some(self.cmp(other))
    }
}

/// The most splits and moves of a random map, which leave it with some 40 entries at most.
const STEPS: u64 = 16;

impl Map {
    /// All maps of at most two entries of depths 0 and 1, the cells that a base cell at either end
    /// can be split into, and the whole sky at depth 0 and at depth 1.
    pub fn small() -> impl Iterator<Item = Map> {
        let pairs = cells_to(1).flat_map(|first| {
            let seconds = cells_to(1)
                .filter(move |&second| first.is_before(second) && !first.overlaps(second));
            seconds.map(move |second| vec![first, second])
        });
        let split = [0, 11].into_iter().flat_map(|hash| {
            let base = Cell { depth: 0, hash };
            (0..81u64).map(move |ways| split_in(base, ways))
        });
        let skies = [0, 1].map(|depth| {
            let cell = |hash| Cell { depth, hash };
            (0..n_hash(depth)).map(cell).collect()
        });
        let single = cells_to(1).map(|cell| vec![cell]);
        [vec![]]
            .into_iter()
            .chain(single)
            .chain(pairs)
            .chain(split)
            .chain(skies)
            .map(Map)
    }

    /// No entry is deeper than `depth`.
    pub fn random<Z: Width>(depth: u8, random: &mut Random) -> Map {
        let mut cells = roots::<Z>(depth, random);
        for _ in 0..random.below(STEPS) {
            let Some(last) = cells.len().checked_sub(1) else {
                break;
            };
            // The last ones again, so that some maps go down steeply.
            let place = if random.coin() {
                last
            } else {
                random.below(last as u64 + 1) as usize
            };
            let cell = cells.swap_remove(place);
            let down = cell.depth + random.below((depth - cell.depth) as u64 + 1) as u8;
            match random.below(8) {
                0 => {}
                1 => cells.push(cell.descendant(down, random.bits())),
                2 => cells.push(cell.descendant(down, 0)),
                3 => cells.push(cell.descendant(down, u64::MAX)),
                _ if cell.depth == depth => cells.push(cell),
                _ => cells.extend(cell.children()),
            }
        }
        cells.sort_by_key(|cell| cell.zuniq::<Z>());
        Map(cells)
    }

    pub fn cells(&self) -> &[Cell] {
        &self.0
    }

    pub fn zuniqs<Z: Width>(&self) -> Vec<Z> {
        self.0.iter().map(|cell| cell.zuniq()).collect()
    }

    /// As the original takes it, each entry's value being its place.
    pub fn entries<Z: Width>(&self) -> Vec<(Z, u32)> {
        let zuniqs = self.0.iter().map(|cell| cell.zuniq());
        zuniqs.zip(0..).collect()
    }

    /// A cell near an entry, or any.
    pub fn query<Z: Width>(&self, random: &mut Random) -> Cell {
        match self.0.len() {
            0 => Cell::random::<Z>(random),
            len => self.0[random.below(len as u64) as usize].relative::<Z>(random),
        }
    }
}

/// The four children of a cell: each is left out, kept or split, by the digits of `ways`.
pub fn split_in(cell: Cell, ways: u64) -> Vec<Cell> {
    let mut ways = ways;
    let mut cells = Vec::new();
    for child in cell.children() {
        match ways % 3 {
            0 => {}
            1 => cells.push(child),
            _ => cells.extend(child.children()),
        }
        ways /= 3;
    }
    cells
}

/// What a random map is made from: none, some base cells, or one cell of any depth with what can
/// stand beside it.
fn roots<Z: Width>(depth: u8, random: &mut Random) -> Vec<Cell> {
    let base = |hash| Cell { depth: 0, hash };
    match random.below(8) {
        0 => vec![base(random.below(12))],
        1..=3 => {
            let chosen = random.bits();
            (0..12).filter(|h| chosen >> h & 1 == 1).map(base).collect()
        }
        _ => {
            let cell = Cell::random::<Z>(random).to_depth_at_most(depth);
            let neighbour = cell.neighbour();
            vec![cell, neighbour]
        }
    }
}

/// A cell at `depth` near a given one: over it, or in it.
pub fn at_depth(cell: Cell, depth: u8, random: &mut Random) -> Cell {
    if cell.depth >= depth {
        return cell.ancestor(depth);
    }
    let path = match random.below(3) {
        0 => 0,
        1 => u64::MAX,
        _ => random.bits(),
    };
    cell.descendant(depth, path)
}

/// Row 5: the first entry that isn't valid and above all of the one before it.
pub fn faulty_entry<Z: Width>(depth: u8, zuniqs: &[Z]) -> Option<usize> {
    (0..zuniqs.len()).find(|&place| !is_sound(depth, &zuniqs[..place], zuniqs[place]))
}

fn is_sound<Z: Width>(depth: u8, before: &[Z], zuniq: Z) -> bool {
    let Some(cell) = Cell::of_zuniq(zuniq) else {
        return false;
    };
    let before = before.last().copied();
    cell.depth <= depth
        && before.is_none_or(|before| {
            let overlaps = Cell::of_zuniq(before).is_some_and(|before| before.overlaps(cell));
            before < zuniq && !overlaps
        })
}
