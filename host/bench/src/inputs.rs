//! What is worked on. A seed fixes every input, so that all runs time the same work.

use differential::{cells::Cell, random::Random, widths::Width};
use oracle::run;

/// Poisson of that mean: how many uniform factors it takes to fall below e^−mean (Knuth).
pub fn poisson(random: &mut Random, mean: f64) -> u32 {
    let mut unit = || (random.bits() >> 11) as f64 / (1u64 << 53) as f64;
    let limit = (-mean).exp();
    let (mut product, mut number) = (unit(), 0);
    while product > limit {
        product *= unit();
        number += 1;
    }
    number
}

/// Cells of one depth, rising, with a value each.
pub struct Cells<V, Z = u64> {
    pub depth: u8,
    pub hashes: Vec<Z>,
    pub values: Vec<V>,
}

impl<V: Copy, Z: Width> Cells<V, Z> {
    pub fn len(&self) -> usize {
        self.hashes.len()
    }

    pub fn pairs(&self) -> impl Iterator<Item = (Z, V)> + '_ {
        self.hashes.iter().copied().zip(self.values.iter().copied())
    }

    pub fn cells(&self) -> impl Iterator<Item = Cell> + '_ {
        let depth = self.depth;
        let hashes = self.hashes.iter().map(|hash| hash.bits());
        hashes.map(move |hash| Cell { depth, hash })
    }
}

/// The first cells of a depth with Poisson counts of mean 8.
pub fn first_cells<Z: Width>(depth: u8, number: usize) -> Cells<u32, Z> {
    let mut random = Random::new(9);
    Cells {
        depth,
        hashes: (0..number as u64).map(Z::of).collect(),
        values: (0..number).map(|_| poisson(&mut random, 8.0)).collect(),
    }
}

/// All cells of a depth, each with chance 9/10 blank, else with a Poisson count of mean 8.
pub fn blank_sky(depth: u8) -> Cells<u32> {
    let mut random = Random::new(11);
    let count = |_: &u64| match random.below(10) {
        0 => poisson(&mut random, 8.0),
        _ => 0,
    };
    let hashes: Vec<u64> = (0..run::n_hash(depth)).collect();
    let values = hashes.iter().map(count).collect();
    Cells {
        depth,
        hashes,
        values,
    }
}

/// Each cell of a depth with chance 1/4, with Poisson counts of mean 8.
pub fn random_quarter(depth: u8) -> Cells<u32> {
    let mut random = Random::new(10);
    let hashes: Vec<u64> = (0..run::n_hash(depth))
        .filter(|_| random.below(4) == 0)
        .collect();
    let values = hashes.iter().map(|_| poisson(&mut random, 8.0)).collect();
    Cells {
        depth,
        hashes,
        values,
    }
}

/// The same cells with densities: counts by the cell's area.
pub fn densities(cells: &Cells<u32>) -> Cells<f64> {
    let density = |&count| mom::density_of_count(cells.depth, count).unwrap();
    Cells {
        depth: cells.depth,
        hashes: cells.hashes.clone(),
        values: cells.values.iter().map(density).collect(),
    }
}

/// So many of the cells that some cells lie in, up to three levels above them, each as likely as any other
/// (Knuth's selection sampling). Four come up under most of them: some protect what would be merged,
/// others what is kept anyway.
pub fn parents_of<Z: Width>(cells: impl Iterator<Item = Cell>, number: usize) -> Vec<Z> {
    let over = cells.flat_map(|cell| {
        let depths = cell.depth.saturating_sub(3)..cell.depth;
        depths.map(move |depth| cell.ancestor(depth).zuniq())
    });
    let mut parents: Vec<Z> = over.collect();
    parents.sort();
    parents.dedup();
    let mut random = Random::new(16);
    let (mut left, mut wanted) = (parents.len(), number);
    parents.retain(|_| {
        let is_chosen = random.below(left as u64) < wanted as u64;
        left -= 1;
        wanted -= usize::from(is_chosen);
        is_chosen
    });
    parents
}

/// A valid map as the library has it, in two buffers.
#[derive(Clone)]
pub struct Map<V, Z = u64> {
    pub depth: u8,
    pub zuniqs: Vec<Z>,
    pub values: Vec<V>,
}

impl<V: Copy, Z: Width> Map<V, Z> {
    pub fn of(depth: u8, entries: &[(Z, V)]) -> Self {
        let (zuniqs, values) = entries.iter().copied().unzip();
        Map {
            depth,
            zuniqs,
            values,
        }
    }

    pub fn len(&self) -> usize {
        self.zuniqs.len()
    }

    pub fn cells(&self) -> impl Iterator<Item = Cell> + '_ {
        let zuniqs = self.zuniqs.iter();
        zuniqs.filter_map(|&zuniq| Cell::of_zuniq(zuniq))
    }

    /// The same map as the original has it, in one vector.
    pub fn entries(&self) -> Vec<(Z, V)> {
        let zuniqs = self.zuniqs.iter().copied();
        zuniqs.zip(self.values.iter().copied()).collect()
    }
}

impl<V> Map<V> {
    pub fn lent(&self) -> mom::Map<'_, V> {
        mom::Map {
            depth: self.depth,
            zuniqs: &self.zuniqs,
            values: &self.values,
        }
    }
}

/// A map of about `number` entries: of the cells of a depth, in runs that are there or not, those
/// whose siblings are all there and alike by chi-square are merged.
pub fn count_map<Z: Width>(depth: u8, number: usize, seed: u64) -> Map<u32, Z> {
    let mut random = Random::new(seed);
    let mut hashes: Vec<u64> = Vec::with_capacity(2 * number);
    let mut hash = 0;
    while hash < run::n_hash(depth) {
        let run = 1 + random.below(200);
        hashes.extend(hash..(hash + run).min(run::n_hash(depth)));
        hash += run + random.below(60);
    }
    let cells: Vec<(Z, u32)> = hashes
        .iter()
        .map(|&h| (Z::of(h), poisson(&mut random, 8.0)))
        .collect();
    let mut entries = run::build_counts(depth, 0, 5.0, run::unprotected, cells.into_iter());
    entries.truncate(number);
    Map::of(depth, &entries)
}

/// The first cells of a depth with Poisson counts of mean 8, and a blank cell five levels below each of them,
/// any one: every entry of the first map is split on five levels.
pub fn split_maps(depth: u8, number: usize) -> [Map<u32>; 2] {
    let over = first_cells::<u64>(depth, number);
    let mut random = Random::new(17);
    let below = |cell: Cell| cell.descendant(depth + 5, random.bits());
    let under: Vec<(u64, u32)> = over
        .cells()
        .map(below)
        .map(|cell| (cell.zuniq(), 0))
        .collect();
    let zuniqs = over.cells().map(|cell| cell.zuniq());
    let over: Vec<(u64, u32)> = zuniqs.zip(over.values.iter().copied()).collect();
    [Map::of(depth, &over), Map::of(depth + 5, &under)]
}

pub fn density_map(counts: &Map<u32>) -> Map<f64> {
    let density = |(&zuniq, &count): (&u64, &u32)| {
        let (depth, _) = mom::from_zuniq(zuniq).unwrap();
        mom::density_of_count(depth, count).unwrap()
    };
    Map {
        depth: counts.depth,
        zuniqs: counts.zuniqs.clone(),
        values: counts
            .zuniqs
            .iter()
            .zip(&counts.values)
            .map(density)
            .collect(),
    }
}
