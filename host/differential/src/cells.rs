//! Cells to compare on: all small ones, and random ones of every depth that gather where a fault
//! would show. They are made by the scope's definitions alone, by neither of the two sides.

use crate::{random::Random, widths::Width};

/// Of wide cells.
pub const DEPTH_MAX: u8 = u64::DEPTH_MAX;

/// Ordered by depth, then by hash.
#[derive(Clone, Copy, Debug, PartialEq, Eq, PartialOrd, Ord)]
pub struct Cell {
    pub depth: u8,
    pub hash: u64,
}

/// N(d) = 12 × 4^d.
pub const fn n_hash(depth: u8) -> u64 {
    12 << (2 * depth)
}

/// All cells of depths 0 to `depth`.
pub fn cells_to(depth: u8) -> impl Iterator<Item = Cell> + Clone {
    (0..=depth).flat_map(|depth| (0..n_hash(depth)).map(move |hash| Cell { depth, hash }))
}

impl Cell {
    /// zuniq(d, h) = (2h + 1) × 4^(29−d), and of a narrow cell (2h + 1) × 4^(13−d).
    pub fn zuniq<Z: Width>(self) -> Z {
        Z::of((2 * self.hash + 1) << (2 * (Z::DEPTH_MAX - self.depth)))
    }

    /// The cell whose zuniq this is.
    pub fn of_zuniq<Z: Width>(zuniq: Z) -> Option<Cell> {
        let zuniq = zuniq.bits();
        let zeros = zuniq.trailing_zeros() as u8;
        if zeros > 2 * Z::DEPTH_MAX || zeros % 2 == 1 {
            return None;
        }
        let depth = Z::DEPTH_MAX - zeros / 2;
        let hash = zuniq >> (zeros + 1);
        (hash < n_hash(depth)).then_some(Cell { depth, hash })
    }

    /// The cell at `depth`, not below this one, that this one lies in.
    pub fn ancestor(self, depth: u8) -> Cell {
        let hash = self.hash >> (2 * (self.depth - depth));
        Cell { depth, hash }
    }

    /// The cell at `depth`, not above this one, that has the low bits of `path` as its way down.
    pub fn descendant(self, depth: u8, path: u64) -> Cell {
        let shift = 2 * (depth - self.depth);
        let hash = self.hash << shift | path & ((1 << shift) - 1);
        Cell { depth, hash }
    }

    pub fn children(self) -> [Cell; 4] {
        [0, 1, 2, 3].map(|child| self.descendant(self.depth + 1, child))
    }

    /// This cell, or what it lies in at `depth` where it is deeper.
    pub fn to_depth_at_most(self, depth: u8) -> Cell {
        self.ancestor(depth.min(self.depth))
    }

    /// By zuniq.
    pub fn is_before(self, other: Cell) -> bool {
        self.zuniq::<u64>() < other.zuniq()
    }

    /// Whether one of the two lies in the other.
    pub fn overlaps(self, other: Cell) -> bool {
        let depth = self.depth.min(other.depth);
        self.ancestor(depth) == other.ancestor(depth)
    }

    /// The next cell, or the one before the last.
    pub fn neighbour(self) -> Cell {
        let last = self.hash + 1 == n_hash(self.depth);
        let hash = if last { self.hash - 1 } else { self.hash + 1 };
        Cell { hash, ..self }
    }

    /// One of the four children of this cell's parent, or this cell where it has no parent.
    pub fn sibling(self, random: &mut Random) -> Cell {
        match self.depth {
            0 => self,
            _ => self
                .ancestor(self.depth - 1)
                .descendant(self.depth, random.bits()),
        }
    }

    /// A cell of a depth: anywhere, near one of the two ends, or with few bits set.
    pub fn of_depth(depth: u8, random: &mut Random) -> Cell {
        let n = n_hash(depth);
        let hash = match random.below(4) {
            0 => random.below(n),
            1 => random.below(n.min(16)),
            2 => n - 1 - random.below(n.min(16)),
            _ => (random.bits() & random.bits() & random.bits()) % n,
        };
        Cell { depth, hash }
    }

    /// A cell of any depth, or one with a zuniq one bit away from that of such a cell.
    pub fn random<Z: Width>(random: &mut Random) -> Cell {
        let depth = random.below(Z::DEPTH_MAX as u64 + 1) as u8;
        let cell = Cell::of_depth(depth, random);
        if random.below(4) > 0 {
            return cell;
        }
        let bits = 8 * size_of::<Z>() as u64;
        let changed = cell.zuniq::<Z>() ^ Z::of(1 << random.below(bits));
        Cell::of_zuniq(changed).unwrap_or(cell)
    }

    /// A cell near this one: itself, an ancestor, a descendant, a sibling, or the neighbour and
    /// what lies over or under it; now and then any cell.
    pub fn relative<Z: Width>(self, random: &mut Random) -> Cell {
        let up = random.below(self.depth as u64 + 1) as u8;
        let down = self.depth + random.below((Z::DEPTH_MAX - self.depth + 1) as u64) as u8;
        match random.below(10) {
            0 => self,
            1 => self.ancestor(up),
            2 => self.descendant(down, random.bits()),
            3 => self.descendant(down, 0),
            4 => self.descendant(down, u64::MAX),
            5 => self.sibling(random),
            6 => self.neighbour(),
            7 => self.neighbour().ancestor(up),
            8 => self.neighbour().descendant(down, random.bits()),
            _ => Cell::random::<Z>(random),
        }
    }
}
