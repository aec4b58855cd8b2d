//! Section 1: cells and zuniqs. Every zuniq among the arguments is the original's.

use differential::{
    cells::{n_hash, Cell, DEPTH_MAX},
    compare::Kind,
    kinds::{AreOverlapping, FromZuniq, ToZuniq},
    widths::Width,
};
use oracle::run;

use crate::{Line, Number};

pub fn print() {
    for depth in 0..=DEPTH_MAX {
        Line::new("n_hash")
            .with(depth)
            .with(run::n_hash(depth))
            .print();
    }
}

/// The calls that both widths have.
pub fn print_zuniqs<Z: Width + Number>() {
    let cells: Vec<Cell> = (0..=Z::DEPTH_MAX).flat_map(cells_of).collect();
    for &cell in &cells {
        let line = Line::new(ToZuniq::<Z>::NAME).with(cell.depth);
        line.with(cell.hash).with(zuniq::<Z>(cell)).print();
    }
    for &cell in &cells {
        let zuniq = zuniq::<Z>(cell);
        let (depth, hash) = run::trait_from_zuniq(zuniq);
        let free = run::from_zuniq(zuniq.widened());
        assert_eq!((depth, hash.bits()), free, "the original's two functions");
        let line = Line::new(FromZuniq::<Z>::NAME).with(zuniq);
        line.with(depth).with(hash).print();
    }
    for (left, right) in (0..=Z::DEPTH_MAX).flat_map(pairs_of::<Z>) {
        let (left, right) = (zuniq::<Z>(left), zuniq(right));
        let overlap = u8::from(run::are_overlapping(left, right));
        let line = Line::new(AreOverlapping::<Z>::NAME).with(left);
        line.with(right).with(overlap).print();
    }
}

/// By the free function, which makes wide zuniqs, as by the zuniq type's.
fn zuniq<Z: Width>(Cell { depth, hash }: Cell) -> Z {
    let zuniq = run::trait_to_zuniq(depth, Z::of(hash));
    let free = Z::of_wide(run::to_zuniq(depth, hash));
    assert_eq!(zuniq, free, "the original's two functions");
    zuniq
}

/// The first and the last cells of a depth, and some in its middle.
fn cells_of(depth: u8) -> Vec<Cell> {
    let n = n_hash(depth);
    let mut hashes = vec![0, 1, 3, n / 3, n / 2 - 1, n / 2, n - 2, n - 1];
    hashes.dedup();
    hashes
        .into_iter()
        .map(|hash| Cell { depth, hash })
        .collect()
}

/// Pairs with the cell before the first border of a depth, with the one before the border in its
/// middle and with its last one.
fn pairs_of<Z: Width>(depth: u8) -> Vec<(Cell, Cell)> {
    let n = n_hash(depth);
    [3, n / 2 - 1, n - 1]
        .into_iter()
        .flat_map(|hash| pairs_with::<Z>(Cell { depth, hash }))
        .collect()
}

/// A cell with itself, its parent, its base cell, its first and its last descendant, a sibling,
/// and, beyond the border, its neighbour, the neighbour's parent and a child of the neighbour.
fn pairs_with<Z: Width>(cell: Cell) -> Vec<(Cell, Cell)> {
    let depth = cell.depth;
    let neighbour = cell.neighbour();
    let mut pairs = vec![(cell, cell), (cell, neighbour)];
    if depth > 0 {
        let sibling = cell.ancestor(depth - 1).descendant(depth, !cell.hash);
        pairs.push((cell, cell.ancestor(depth - 1)));
        pairs.push((cell.ancestor(0), cell));
        pairs.push((cell, sibling));
        pairs.push((neighbour.ancestor(depth - 1), cell));
    }
    if depth < Z::DEPTH_MAX {
        pairs.push((cell.descendant(Z::DEPTH_MAX, 0), cell));
        pairs.push((cell, cell.descendant(Z::DEPTH_MAX, u64::MAX)));
        pairs.push((neighbour.descendant(depth + 1, 0), cell));
    }
    pairs
}
