//! Section 4: building. The original takes all cells at once, so that a call that adds to a held map is
//! given what the original builds from the cells before, and held to what it builds from all.

use differential::{
    cells::{n_hash, Cell},
    floats::Float,
    lists::{Build, Value},
    protected,
    random::{any_of, Random},
    widths::Width,
};

use crate::{Line, Number, MOST_PROTECTED};

pub fn print_counts<Z: Width + Number>(random: &mut Random, drawn: usize) {
    for number in 0..drawn {
        let list = List::<u32, Z>::draw(random, number);
        list.line(with_total).print();
    }
}

fn with_total(line: Line, counts: &[u32]) -> Line {
    let total: u32 = counts.iter().sum();
    line.with(total)
}

/// Sixteen cells of depth 2, blank but for the one given, where there is one: at M and T, with so many
/// of them held.
type Blank = (u8, f64, Option<u64>, usize);

const BLANK: [Blank; 3] = [
    (0, -1.0, None, 5),
    (1, f64::NEG_INFINITY, None, 11),
    (0, 0.0, Some(5), 6),
];

/// The same under protected parents: one with blank sky before and behind it; one whose children are held; the
/// base cell; one beside the source; and one of depth M beside one of less.
const PROTECTED_BLANK: [(Blank, &[(u8, u64)]); 5] = [
    ((0, -1.0, None, 5), &[(1, 1)]),
    ((0, 0.0, None, 10), &[(1, 0)]),
    ((0, f64::INFINITY, None, 15), &[(0, 0)]),
    ((0, 0.0, Some(5), 6), &[(1, 3), (2, 0)]),
    ((1, f64::NEG_INFINITY, None, 11), &[(1, 2), (0, 0)]),
];

pub fn print_blank<Z: Width + Number>() {
    for cells in BLANK {
        blank::<Z>(cells, &[]).line(with_total).print();
    }
}

pub fn print_protected_blank<Z: Width + Number>() {
    for (cells, protected) in PROTECTED_BLANK {
        blank::<Z>(cells, protected).line(with_total).print();
    }
}

fn blank<Z: Width>((m, t, source, cut): Blank, protected: &[(u8, u64)]) -> List<u32, Z> {
    let count = |hash| u32::from(Some(hash) == source);
    let protected = protected.iter().map(|&(depth, hash)| Cell { depth, hash });
    List {
        depth: 2,
        m,
        t: Float(t),
        protected: protected::list_of(&protected.collect::<Vec<_>>()),
        cells: (0..16).map(|hash| (Z::of(hash), count(hash))).collect(),
        cut,
    }
}

pub fn print_densities(random: &mut Random, drawn: usize) {
    for number in 0..drawn {
        let list = List::<Float, u64>::draw(random, number);
        list.line(|line, _| line).print();
    }
}

/// Cells of one depth, of which the first `cut` are held already.
struct List<V, Z> {
    depth: u8,
    m: u8,
    t: Float,
    protected: Vec<Z>,
    cells: Vec<(Z, V)>,
    cut: usize,
}

impl<V: Build<Z> + Number, Z: Width + Number> List<V, Z> {
    /// One in four comes out otherwise without its protected parents.
    fn draw(random: &mut Random, number: usize) -> Self {
        loop {
            let list = Self::random(random);
            let unlisted = V::build(list.depth, list.m, list.t.0, &[], &list.cells);
            if number % 4 != 1 || list.build(&list.cells) != unlisted {
                return list;
            }
        }
    }

    fn build(&self, cells: &[(Z, V)]) -> Vec<(Z, V)> {
        V::build(self.depth, self.m, self.t.0, &self.protected, cells)
    }

    /// Cells that follow each other but for a gap now and then, from a border of large cells on or up to
    /// the last cell.
    fn random(random: &mut Random) -> Self {
        let depth = 1 + random.below(Z::DEPTH_MAX as u64) as u8;
        let n = n_hash(depth);
        let len = any_of(random, &[4, 8, 16]);
        let first = match random.coin() {
            true => n - len,
            false => random.below(n / 16) * 16,
        };
        let gap = random.below(4) == 0;
        let hashes = (first..n.min(first + len)).filter(|_| !gap || random.below(8) > 0);
        let hashes: Vec<Z> = hashes.map(Z::of).collect();
        let values = Self::values(random, depth, hashes.len());
        let cut = match random.coin() {
            true => 0,
            false => random.below(hashes.len() as u64 + 1) as usize,
        };
        let m = match random.below(4) {
            0 => random.below(depth as u64 + 1) as u8,
            _ => 0,
        };
        let cells = hashes.iter().map(|hash| Cell {
            depth,
            hash: hash.bits(),
        });
        let mut protected = protected::random(random, &cells.collect::<Vec<_>>());
        protected.truncate(MOST_PROTECTED);
        List {
            depth,
            m,
            t: Float(threshold(random, depth, &values)),
            protected,
            cells: hashes.into_iter().zip(values).collect(),
            cut,
        }
    }

    /// Values that exceed no limit together.
    fn values(random: &mut Random, depth: u8, len: usize) -> Vec<V> {
        loop {
            let values = V::random(random, depth, len);
            if V::overflow(&[], &values).is_none() {
                return values;
            }
        }
    }

    fn line(&self, total: impl Fn(Line, &[V]) -> Line) -> Line {
        let (hashes, values): (Vec<Z>, Vec<V>) = self.cells.iter().copied().unzip();
        let held = self.build(&self.cells[..self.cut]);
        let built = self.build(&self.cells);
        // One place more than are needed, and in the free ones what is no zuniq.
        let places = held.len() + self.cells.len() - self.cut + 1;
        let (zuniqs, held_values) = buffers(&held, places, Z::of(2), V::of_content(3));
        let line = Line::new(V::NAME)
            .with(self.depth)
            .with(self.m)
            .with(self.t)
            .with_list(&self.protected)
            .with(held.len())
            .with_list(&zuniqs)
            .with_list(&held_values)
            .with_list(&hashes[self.cut..])
            .with_list(&values[self.cut..]);
        let (zuniqs, built_values) = buffers(&built, places, Z::of(0), V::ZERO);
        total(line.with(built.len()), &values)
            .with_list(&zuniqs)
            .with_list(&built_values)
    }
}

/// Entries in two buffers, with the same in every place behind them.
pub fn buffers<V: Copy, Z: Copy>(
    entries: &[(Z, V)],
    places: usize,
    zuniq: Z,
    value: V,
) -> (Vec<Z>, Vec<V>) {
    let free = std::iter::repeat((zuniq, value));
    entries.iter().copied().chain(free).take(places).unzip()
}

/// T at chi of four of the values or just above it, usual, or above every chi.
fn threshold<V: Value>(random: &mut Random, depth: u8, values: &[V]) -> f64 {
    let four = values.first_chunk().map(|&four| V::chi2(four, depth - 1));
    let chi = four.filter(|chi| !chi.is_nan()).unwrap_or(3.5);
    match random.below(5) {
        0 => chi,
        1 => chi.next_up(),
        2 => f64::INFINITY,
        3 => 16.266,
        _ => V::LEAST_CHI2 + random.below(20_000) as f64 / 1000.0,
    }
}
