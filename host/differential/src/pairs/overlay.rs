//! The overlay of two maps by the scope's definition, cell by cell down from the base cells.

use crate::cells::{Cell, DEPTH_MAX};

/// A cell of the overlay, with the values that it has in the left and the right map: one at least.
#[derive(Clone, Copy, Debug)]
pub struct Seen<V> {
    pub cell: Cell,
    pub left: Option<V>,
    pub right: Option<V>,
}

/// "The largest cells that lie in an entry of at least one map and, for each map, lie in one of its
/// entries or overlap none." An entry's value is split on the way down, by the cell that it is split
/// in.
pub fn overlay<V: Copy>(
    left: &[(Cell, V)],
    right: &[(Cell, V)],
    split: impl Fn(Cell, V) -> [V; 4],
) -> Vec<Seen<V>> {
    let mut found = Vec::new();
    for hash in 0..12 {
        let cell = Cell { depth: 0, hash };
        let sides = [left, right].map(|entries| Side::of(cell, entries));
        descend(cell, sides, &split, &mut found);
    }
    found
}

/// What a map has for a cell: the value of the entry that it lies in, or the entries in it.
#[derive(Clone, Copy)]
enum Side<'a, V> {
    Over(V),
    Under(&'a [(Cell, V)]),
}

impl<'a, V: Copy> Side<'a, V> {
    /// No entry is larger than the cell.
    fn of(cell: Cell, entries: &'a [(Cell, V)]) -> Self {
        let width = 2 << (2 * (DEPTH_MAX - cell.depth));
        let from = |zuniq: u64| entries.partition_point(|(cell, _)| cell.zuniq::<u64>() < zuniq);
        match &entries[from(cell.hash * width)..from((cell.hash + 1) * width)] {
            &[(entry, value)] if entry == cell => Side::Over(value),
            entries => Side::Under(entries),
        }
    }

    fn children(self, cell: Cell, split: &impl Fn(Cell, V) -> [V; 4]) -> [Self; 4] {
        match self {
            Side::Over(value) => split(cell, value).map(Side::Over),
            Side::Under(entries) => cell.children().map(|child| Side::of(child, entries)),
        }
    }

    /// The value, or that there is none; neither where only a part of the cell has one.
    fn whole(self) -> Option<Option<V>> {
        match self {
            Side::Over(value) => Some(Some(value)),
            Side::Under([]) => Some(None),
            Side::Under(_) => None,
        }
    }
}

fn descend<V: Copy>(
    cell: Cell,
    [l, r]: [Side<V>; 2],
    split: &impl Fn(Cell, V) -> [V; 4],
    found: &mut Vec<Seen<V>>,
) {
    match (l.whole(), r.whole()) {
        (Some(None), Some(None)) => {}
        (Some(left), Some(right)) => found.push(Seen { cell, left, right }),
        _ => {
            let sides = l.children(cell, split).into_iter();
            let sides = sides.zip(r.children(cell, split));
            for (child, (l, r)) in cell.children().into_iter().zip(sides) {
                descend(child, [l, r], split, found);
            }
        }
    }
}
