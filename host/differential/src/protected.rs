//! Lists of protected parents (note 7 of 02): random ones that gather about the cells of a call, so that
//! quads come up under listed parents and beside them, and the table's row of them. They are made by the
//! definitions alone, by neither of the two sides.

use crate::{
    cells::{n_hash, Cell},
    random::{any_of, Random},
    widths::Width,
};

/// The zuniqs of cells, rising.
pub fn list_of<Z: Width>(cells: &[Cell]) -> Vec<Z> {
    let mut list: Vec<Z> = cells.iter().map(|cell| cell.zuniq()).collect();
    list.sort();
    list.dedup();
    list
}

/// Of so many small inputs that follow each other, each list gets one. The numbers of maps, cells and settings
/// that small inputs are made from don't have this factor, so that each list comes to stand beside all of them.
const A_SHARE_OF: usize = 11;

/// Small inputs without a list, and a share of them once more under one: `under` gives an input its `n`th list,
/// where there are as many.
pub fn with_lists<I>(
    inputs: impl Iterator<Item = I>,
    under: impl Fn(&I, usize) -> Option<I>,
) -> impl Iterator<Item = I> {
    inputs.enumerate().flat_map(move |(number, input)| {
        let listed = under(&input, number % A_SHARE_OF);
        [Some(input), listed].into_iter().flatten()
    })
}

/// For a call on these cells: often empty, or a few; now and then many, or the parents of all.
pub fn random<Z: Width>(random: &mut Random, cells: &[Cell]) -> Vec<Z> {
    let number = match random.below(16) {
        0..=5 => 0,
        6..=9 => 1,
        10..=13 => 2 + random.below(4),
        _ => 6 + random.below(40),
    };
    let mut listed: Vec<Cell> = (0..number).map(|_| near::<Z>(random, cells)).collect();
    if number > 5 {
        let farther = (0..number).map(|_| near::<Z>(random, cells).relative::<Z>(random));
        listed.extend(farther);
    }
    if random.below(16) == 0 {
        listed.extend(cells.iter().filter_map(|cell| parent(*cell)));
    }
    list_of(&listed)
}

fn parent(cell: Cell) -> Option<Cell> {
    let depth = cell.depth.checked_sub(1)?;
    Some(cell.ancestor(depth))
}

/// The parent of a cell or what that lies in, on any level; or what might be taken for it: the cell
/// itself, the parent's neighbour, the cell of the parent's hash at another depth, any cell.
fn near<Z: Width>(random: &mut Random, cells: &[Cell]) -> Cell {
    if cells.is_empty() {
        return Cell::random::<Z>(random);
    }
    let cell = any_of(random, cells);
    let Some(parent) = parent(cell) else {
        return cell;
    };
    let up = random.below(parent.depth.min(4) as u64 + 1) as u8;
    match random.below(16) {
        0..=5 => parent,
        6..=9 => parent.ancestor(parent.depth - up),
        10 => parent.ancestor(random.below(parent.depth as u64 + 1) as u8),
        11 => cell,
        12 => parent.neighbour(),
        13 | 14 => at_another_depth::<Z>(random, parent),
        _ => Cell::random::<Z>(random),
    }
}

/// A cell of the parent's hash: above it where that depth has the hash, else below it.
fn at_another_depth<Z: Width>(random: &mut Random, parent: Cell) -> Cell {
    let above = random.below(parent.depth as u64 + 1) as u8;
    let below = parent.depth + 1 + random.below((Z::DEPTH_MAX - parent.depth) as u64) as u8;
    let depth = match above < parent.depth && parent.hash < n_hash(above) {
        true => above,
        false => below,
    };
    Cell { depth, ..parent }
}

/// The list without the cells in which there is nothing but blank sky. Protection beats blank by note 11; what
/// came out before is what comes out under this list.
pub fn without_blanks<Z: Width>(list: &[Z], cells: &[(Cell, u32)]) -> Vec<Z> {
    let is_blank = |listed: Cell| {
        let mut inside = cells.iter().filter(|(cell, _)| listed.overlaps(*cell));
        inside.all(|&(_, count)| count == 0)
    };
    let is_left = |&zuniq: &Z| Cell::of_zuniq(zuniq).is_some_and(|cell| !is_blank(cell));
    list.iter().copied().filter(is_left).collect()
}

/// Makes a change by which a list is none, or may be: by a value that is no zuniq, or by one that is not
/// above the one before.
pub fn change<Z: Width>(random: &mut Random, list: &mut Vec<Z>) {
    let none = [0, 2, 1 << (2 * Z::DEPTH_MAX + 2), u64::MAX];
    let none = Z::of(any_of(random, &none));
    let len = list.len() as u64;
    let place = random.below(len.max(1)) as usize;
    match random.below(6) {
        _ if list.is_empty() => list.push(none),
        0 => list[place] = none,
        1 => list.push(none),
        2 => list.insert(place, none),
        3 => list.insert(place, list[place]),
        4 => list.push(list[place]),
        _ => list.swap(0, place),
    }
}

/// Row 15: the first listed value that is no zuniq, or not above the one before.
pub fn faulty_place<Z: Width>(list: &[Z]) -> Option<usize> {
    (0..list.len()).find(|&place| {
        let rises = place == 0 || list[place - 1] < list[place];
        Cell::of_zuniq(list[place]).is_none() || !rises
    })
}
