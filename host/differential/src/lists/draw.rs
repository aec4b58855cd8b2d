//! The lists: small ones, and random ones with calls among them that are given faults.

use super::Value;
use crate::{
    cells::{n_hash, Cell, DEPTH_MAX},
    floats::Float,
    protected,
    quads::NOT_ABOVE_0,
    random::{any_of, Random},
    widths::Width,
};

/// Rising cells of one depth, with M and T.
#[derive(Debug, PartialEq, Eq, PartialOrd, Ord)]
pub struct List<V> {
    pub hashes: Vec<u64>,
    pub values: Vec<V>,
    pub depth: u8,
    /// M
    pub depth_threshold: u8,
    /// T
    pub chi2_threshold: Float,
}

#[derive(Clone, Debug, PartialEq, Eq, PartialOrd, Ord)]
pub struct Input<V, Z = u64> {
    pub(super) calls: Vec<Call<V, Z>>,
    pub depth: u8,
    /// M
    pub depth_threshold: u8,
    /// T
    pub chi2_threshold: Float,
    /// One list for all calls.
    pub protected: Vec<Z>,
    /// How many places the buffers have.
    pub(super) places: usize,
    /// What stands in every place before the first call.
    pub(super) content: u64,
}

#[derive(Clone, Debug, PartialEq, Eq, PartialOrd, Ord)]
pub(super) struct Call<V, Z> {
    /// The faults it is given; none where its batch is the next one.
    pub(super) faults: Vec<Fault<V>>,
    /// Whether the buffers are lent only as far as they are needed.
    pub(super) exactly_full: bool,
    pub(super) hashes: Vec<Z>,
    pub(super) batch: Vec<V>,
}

/// What is changed in a call or, until it is over, in the buffers. A place is taken modulo what there
/// is.
#[derive(Clone, Copy, Debug, PartialEq, Eq, PartialOrd, Ord)]
pub(super) enum Fault<V> {
    Depth(u8),
    DepthThreshold(u8),
    Chi2Threshold,
    /// The change is drawn from this seed.
    Protected(u64),
    ZuniqsShorter,
    ValuesShorter,
    HashesShorter,
    BatchShorter,
    HeldPastTheBuffers,
    HeldOneMore,
    EntryNone(usize),
    EntryTooDeep(usize),
    EntryAgain(usize),
    HeldValue(usize, V),
    HashPast(usize, u64),
    HashNotAbove(usize),
    BatchValue(usize, V),
    OnePlaceShort,
}

impl<V: Value> Fault<V> {
    fn random<Z: Width>(random: &mut Random) -> Self {
        let place = random.below(256) as usize;
        let largest = Z::of(u64::MAX).bits();
        let value = any_of(random, V::faulty());
        match random.below(19) {
            0 => Fault::Depth([0, Z::DEPTH_MAX + 1, 255][place % 3]),
            1 => Fault::DepthThreshold([30, 255][place % 2]),
            2 => Fault::Chi2Threshold,
            3 => Fault::ZuniqsShorter,
            4 => Fault::ValuesShorter,
            5 => Fault::HashesShorter,
            6 => Fault::BatchShorter,
            7 => Fault::HeldPastTheBuffers,
            8 => Fault::HeldOneMore,
            9 => Fault::EntryNone(place),
            10 => Fault::EntryTooDeep(place),
            11 => Fault::EntryAgain(place),
            12 => Fault::HeldValue(place, value),
            13 => Fault::HashPast(place, [0, 1, largest >> 8][place % 3]),
            14 => Fault::HashNotAbove(place),
            15 => Fault::BatchValue(place, value),
            16 | 17 => Fault::Protected(random.bits()),
            _ => Fault::OnePlaceShort,
        }
    }
}

impl<V: Value> List<V> {
    /// Depth 1: any of the cells 0 to 7; and depth 2: cells 0 to 15. All have one value.
    pub fn small() -> impl Iterator<Item = Self> {
        let depth_1 = (0..256u32).map(|chosen| {
            let hashes: Vec<u64> = (0..8).filter(|hash| chosen >> hash & 1 == 1).collect();
            (1, hashes)
        });
        let cells = depth_1.chain([(2, (0..16).collect())]);
        let settings = [
            (0, 0.0),
            (0, 3.5),
            (1, 3.5),
            (2, 3.5),
            (1, 0.0),
            (0, f64::NEG_INFINITY),
        ];
        cells.flat_map(move |(depth, hashes)| {
            V::small().iter().flat_map(move |&value| {
                let hashes = hashes.clone();
                settings.map(move |(m, t)| List {
                    values: vec![value; hashes.len()],
                    hashes: hashes.clone(),
                    depth,
                    depth_threshold: m,
                    chi2_threshold: Float(t),
                })
            })
        })
    }

    /// Of cells of a width.
    pub fn random<Z: Width>(random: &mut Random) -> Self {
        let depth = 1 + random.below(Z::DEPTH_MAX as u64) as u8;
        let longest = any_of(random, &[8, 32, 100, 300]);
        let len = random.below(longest);
        let hashes = hashes(random, depth, len);
        let mut values = V::random(random, depth, hashes.len());
        let is_blank = random.below(5) == 0;
        if is_blank {
            blank(random, &mut values);
        }
        let t = match is_blank && random.coin() {
            true => any_of(random, &NOT_ABOVE_0),
            false => threshold(random, depth, &values),
        };
        let depth_threshold = match random.below(5) {
            0 => random.below(DEPTH_MAX as u64 + 1) as u8,
            1 => random.below(depth as u64 + 1) as u8,
            2 => depth.saturating_sub(random.below(4) as u8),
            _ => 0,
        };
        List {
            chi2_threshold: Float(t),
            hashes,
            values,
            depth,
            depth_threshold,
        }
    }

    pub fn cells<Z: Width>(&self) -> Vec<(Z, V)> {
        let hashes = self.hashes.iter().map(|&hash| Z::of(hash));
        hashes.zip(self.values.iter().copied()).collect()
    }
}

/// Each parent of the small lists' cells; a parent's parent; a parent with its parent; a cell that is no parent
/// but of a smaller one; and one that lies outside.
const SMALL_PROTECTED: [&[Cell]; 5] = [
    &[Cell { depth: 0, hash: 0 }],
    &[Cell { depth: 0, hash: 1 }, Cell { depth: 1, hash: 0 }],
    &[Cell { depth: 1, hash: 3 }],
    &[Cell { depth: 1, hash: 1 }, Cell { depth: 0, hash: 0 }],
    &[Cell { depth: 2, hash: 0 }, Cell { depth: 0, hash: 11 }],
];

impl<V: Value, Z: Width> Input<V, Z> {
    /// The small lists, cut at every point; some of them also under a list of protected parents.
    pub(super) fn small() -> impl Iterator<Item = Self> {
        let inputs = List::small().flat_map(|list| {
            let cuts = 0..=list.hashes.len();
            cuts.map(move |cut| Self::in_two(&list, cut))
        });
        protected::with_lists(inputs, |input, list| {
            let protected = protected::list_of(SMALL_PROTECTED.get(list)?);
            Some(Input {
                protected,
                ..input.clone()
            })
        })
    }

    fn in_two(list: &List<V>, cut: usize) -> Self {
        let call = |cells: &[(Z, V)]| {
            let (hashes, batch) = cells.iter().copied().unzip();
            Call {
                faults: vec![],
                exactly_full: false,
                hashes,
                batch,
            }
        };
        let cells = list.cells();
        let (first, second) = cells.split_at(cut);
        Input {
            calls: vec![call(first), call(second)],
            depth: list.depth,
            depth_threshold: list.depth_threshold,
            chi2_threshold: list.chi2_threshold,
            protected: vec![],
            places: cells.len() + 1,
            content: u64::MAX,
        }
    }

    pub fn random(random: &mut Random) -> Self {
        let list = List::random::<Z>(random);
        let cells = list.cells();
        // Enough for all but now and then, and at times for no more.
        let places = match random.below(4) {
            0 => cells.len(),
            1 => cells.len().saturating_sub(random.below(3) as usize),
            _ => cells.len() + random.below(20) as usize,
        };
        let base = Cell { depth: 0, hash: 0 }.zuniq::<Z>().bits();
        let depth = list.depth;
        let at_depth: Vec<Cell> = list
            .hashes
            .iter()
            .map(|&hash| Cell { depth, hash })
            .collect();
        Input {
            protected: protected::random(random, &at_depth),
            calls: calls(random, &cells),
            depth: list.depth,
            depth_threshold: list.depth_threshold,
            chi2_threshold: list.chi2_threshold,
            places,
            content: [0, 1, base, random.bits()][random.below(4) as usize],
        }
    }
}

/// T at chi of four of the values, usual, or far from all chi.
fn threshold<V: Value>(random: &mut Random, depth: u8, values: &[V]) -> f64 {
    match random.below(7) {
        0 => f64::INFINITY,
        1 => any_of(random, &[0.0, f64::NEG_INFINITY, f64::MIN_POSITIVE]),
        2 => 16.266,
        3 if values.len() >= 4 => {
            let first = random.below(values.len() as u64 / 4) as usize * 4;
            let four = [0, 1, 2, 3].map(|child| values[first + child]);
            let chi2 = V::chi2(four, depth - 1);
            let t = if random.coin() { chi2 } else { chi2.next_up() };
            if t.is_nan() {
                f64::INFINITY
            } else {
                t
            }
        }
        _ => V::LEAST_CHI2 + random.below(20_000) as f64 / 1000.0,
    }
}

/// Leaves nothing but 0 of all values but one in so many, or of all.
pub fn blank<V: Value>(random: &mut Random, values: &mut [V]) {
    let one_in = any_of(random, &[4, 16, 64, u64::MAX]);
    for value in values {
        if random.below(one_in) > 0 {
            *value = V::ZERO;
        }
    }
}

/// How many values in a row are alike.
pub fn stretch(random: &mut Random) -> u64 {
    let longest = any_of(random, &[2, 8, 64, 300]);
    1 + random.below(longest)
}

/// Rising hashes: most follow each other, from the first cell on, up to the last one, or from a border
/// of large cells.
fn hashes(random: &mut Random, depth: u8, len: u64) -> Vec<u64> {
    let n = n_hash(depth);
    let border = 2 * random.below(depth as u64 + 1);
    let mut hash = match random.below(5) {
        0 => 0,
        1 | 2 => n - len.min(n),
        3 => random.below(n),
        _ => random.below(n) >> border << border,
    };
    let gaps = random.coin();
    let mut hashes = Vec::new();
    while hash < n && (hashes.len() as u64) < len {
        hashes.push(hash);
        hash += match random.below(32) {
            0 if gaps => 1 + random.below(6),
            1 if gaps => 1 + random.below(n - hash),
            2 if gaps => (1 << border) - hash % (1 << border),
            _ => 1,
        };
    }
    hashes
}

/// The cells cut into batches, with faulty calls before each.
fn calls<V: Value, Z: Width>(random: &mut Random, cells: &[(Z, V)]) -> Vec<Call<V, Z>> {
    let mut calls = Vec::new();
    let mut done = 0;
    loop {
        let left = cells.len() - done;
        let next = match random.below(4) {
            0 => left,
            1 => left.min(random.below(4) as usize),
            _ => random.below(left as u64 + 1) as usize,
        };
        let (hashes, batch) = cells[done..done + next].iter().copied().unzip();
        let call = Call {
            faults: vec![],
            exactly_full: random.below(4) == 0,
            hashes,
            batch,
        };
        for _ in 0..random.below(3) {
            let faults = 1 + random.below(5) / 4;
            let faults = (0..faults).map(|_| Fault::random::<Z>(random)).collect();
            calls.push(Call {
                faults,
                ..call.clone()
            });
        }
        done += next;
        calls.push(call);
        if done == cells.len() {
            return calls;
        }
    }
}
