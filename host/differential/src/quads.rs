//! The values of four children, the parents, the thresholds and the lists of protected parents that the
//! mergers are compared on: all of some small sets, and random ones that gather where a fault would show.
//! They are made by the scope's definitions alone, by neither of the two sides. Now and then one is given
//! faults, for which the scope's table is the judge.

use mom::Refusal;

use crate::{
    cells::{n_hash, Cell, DEPTH_MAX},
    floats::{magnitude, near, unit, Float},
    lists::Value,
    protected,
    random::{any_of, Random},
};

pub const PARENT_DEPTH_MAX: u8 = 28;

/// Four children's counts (u32) or densities ([`Float`]).
#[derive(Clone, Copy, Debug, PartialEq, Eq, PartialOrd, Ord)]
pub struct Quad<V> {
    pub values: [V; 4],
    pub parent_depth: u8,
}

/// All that a merger is asked.
#[derive(Clone, Debug, PartialEq, Eq, PartialOrd, Ord)]
pub struct Call<V> {
    pub quad: Quad<V>,
    /// M
    pub depth_threshold: u8,
    /// T
    pub chi2_threshold: Float,
    pub protected: Vec<u64>,
    pub parent_hash: u64,
}

/// Parent depths with M: below it, at it and above it, at the first and at the last depths.
pub const DEPTHS: [(u8, u8); 7] = [(0, 0), (0, 1), (1, 0), (1, 1), (1, 2), (28, 28), (28, 29)];

/// The thresholds that the original's comments recommend.
const USUAL: [f64; 5] = [6.251, 7.815, 9.348, 11.345, 16.266];

/// Thresholds that the chi of a blank quad, which is 0, is not below.
pub const NOT_ABOVE_0: [f64; 6] = [0.0, -0.0, -5e-324, -1.0, -f64::MAX, f64::NEG_INFINITY];

impl<V: Value> Call<V> {
    /// T at chi and about it, at 0 and about it, and far from both; without a list, the parent being the
    /// first of its depth.
    pub fn all(quad: Quad<V>, depth_threshold: u8, chi: f64) -> impl Iterator<Item = Self> {
        let about_chi = [chi.next_down(), chi, chi.next_up()];
        let apart = [0.0, 5e-324, 1.0, 3.5, 16.266, f64::MAX, f64::INFINITY];
        about_chi
            .into_iter()
            .filter(|t| !t.is_nan())
            .chain(apart.into_iter().flat_map(|t| [t, -t]))
            .map(move |t| Call {
                quad,
                depth_threshold,
                chi2_threshold: Float(t),
                protected: vec![],
                parent_hash: 0,
            })
    }

    /// Under lists with the parent, and with what might be taken for it, at each end of a depth: where all
    /// others would be merged, where T keeps them, and where M does.
    pub fn listed(quad: Quad<V>) -> impl Iterator<Item = Self> {
        let depth = quad.parent_depth;
        let settings = [(0, f64::INFINITY), (0, 0.0), (depth + 1, f64::INFINITY)];
        [0, n_hash(depth) - 1].into_iter().flat_map(move |hash| {
            let parent = Cell { depth, hash };
            lists_about(parent).into_iter().flat_map(move |protected| {
                settings.map(|(m, t)| Call {
                    quad,
                    depth_threshold: m,
                    chi2_threshold: Float(t),
                    protected: protected.clone(),
                    parent_hash: hash,
                })
            })
        })
    }

    pub fn parent(&self) -> Cell {
        Cell {
            depth: self.quad.parent_depth,
            hash: self.parent_hash,
        }
    }

    /// What the table says of the call, in its order.
    pub fn refusal(&self) -> Option<Refusal> {
        self.refusal_by(protected::faulty_place)
    }

    /// The same, with another reading of row 15.
    pub fn refusal_by(&self, faulty_place: fn(&[u64]) -> Option<usize>) -> Option<Refusal> {
        let Quad {
            values,
            parent_depth,
        } = self.quad;
        let settings = [
            (1, parent_depth > PARENT_DEPTH_MAX),
            (2, self.depth_threshold > DEPTH_MAX),
            (3, self.chi2_threshold.0.is_nan()),
        ];
        let setting = settings.into_iter().find(|&(_, refused)| refused);
        let (number, place) = setting
            .map(|(number, _)| (number, 0))
            .or_else(|| faulty_place(&self.protected).map(|place| (15, place)))
            .or_else(|| (self.parent_hash >= n_hash(parent_depth)).then_some((7, 0)))
            .or_else(|| {
                let invalid = values.iter().position(|value| value.is_invalid());
                invalid.map(|child| (9, child))
            })
            .or_else(|| V::overflow(&[], &values).map(|_| (10, 0)))?;
        Some(Refusal::of(number, place).unwrap())
    }

    /// Makes a change by which the call is refused, or may be.
    fn change(&mut self, random: &mut Random) {
        let past = n_hash(self.quad.parent_depth.min(DEPTH_MAX));
        match random.below(10) {
            0 => self.quad.parent_depth = any_of(random, &[29, 30, 255]),
            1 => self.depth_threshold = any_of(random, &[30, 255]),
            2 => self.chi2_threshold = Float(f64::NAN),
            3 => self.quad.values[random.below(4) as usize] = any_of(random, V::faulty()),
            4 | 5 => self.parent_hash = any_of(random, &[past, past + 1, 2 * past, u64::MAX]),
            _ => protected::change(random, &mut self.protected),
        }
    }

    /// Two faults now and then, so that their order shows.
    fn with_faults(mut self, random: &mut Random) -> Self {
        if random.below(8) == 0 {
            for _ in 0..any_of(random, &[1, 1, 2]) {
                self.change(random);
            }
        }
        self
    }

    /// M about the parent's depth and T about chi, both now and then far from it; the list about the
    /// parent.
    fn about(random: &mut Random, quad: Quad<V>, chi: f64) -> Self {
        let depth_threshold = match random.below(8) {
            0 => quad.parent_depth + 1,
            1 => quad.parent_depth.saturating_sub(1),
            2 => 0,
            3 => random.below(30) as u8,
            _ => quad.parent_depth,
        };
        let t = threshold(random, chi);
        let chi2_threshold = Float(if t.is_nan() { f64::INFINITY } else { t });
        let parent = Cell::of_depth(quad.parent_depth, random);
        let children = parent.children();
        Call {
            quad,
            depth_threshold,
            chi2_threshold,
            protected: protected::random(random, &children),
            parent_hash: parent.hash,
        }
    }
}

/// Rising lists: with the parent as the first, as the last, alone and amid what lies over and under it;
/// and without it.
fn lists_about(parent: Cell) -> Vec<Vec<u64>> {
    let [first, .., last] = parent.children();
    let neighbour = parent.neighbour();
    let base = parent.ancestor(0);
    [
        &[parent][..],
        &[parent, last, neighbour],
        &[parent, first, base],
        &[first, last, neighbour],
        &[first],
    ]
    .map(protected::list_of)
    .into()
}

fn threshold(random: &mut Random, chi: f64) -> f64 {
    match random.below(12) {
        0 => chi,
        1 | 2 => chi.next_up(),
        3 => chi.next_down(),
        4 => near(random, chi),
        5 | 6 => chi * (0.5 + 2.0 * unit(random)),
        7 => any_of(random, &[0.0, -0.0, 5e-324, -5e-324]),
        8 => any_of(random, &[f64::INFINITY, f64::NEG_INFINITY]),
        9 => any_of(random, &USUAL),
        10 => random.below(20_000) as f64 / 1000.0,
        _ if random.coin() => magnitude(random),
        _ => -magnitude(random),
    }
}

fn parent_depth(random: &mut Random) -> u8 {
    random.below(PARENT_DEPTH_MAX as u64 + 1) as u8
}

/// All quads of these values.
fn quads<V: Copy>(parent_depth: u8, values: Vec<V>) -> impl Iterator<Item = Quad<V>> {
    let n = values.len();
    (0..n.pow(4)).map(move |i| Quad {
        values: [i / n.pow(3), i / n.pow(2), i / n, i].map(|i| values[i % n]),
        parent_depth,
    })
}

fn four<T>(random: &mut Random, mut draw: impl FnMut(&mut Random) -> T) -> [T; 4] {
    [0; 4].map(|_| draw(random))
}

fn sum([x0, x1, x2, x3]: [f64; 4]) -> f64 {
    ((x0 + x1) + x2) + x3
}

// ---- Counts

impl Quad<u32> {
    /// The scope's chi. No answer is held to it; it says where to put T.
    pub fn chi(self) -> f64 {
        let n = self.values.map(f64::from);
        sum(n) - 4.0 * (4.0 / sum(n.map(|n| 1.0 / n)))
    }

    /// All counts below 8.
    pub fn small(parent_depth: u8) -> impl Iterator<Item = Self> {
        quads(parent_depth, (0..8).collect())
    }

    pub fn random(random: &mut Random) -> Self {
        Quad {
            values: counts(random),
            parent_depth: parent_depth(random),
        }
    }
}

impl Call<u32> {
    pub fn random(random: &mut Random) -> Self {
        Self::sound(random).with_faults(random)
    }

    /// No such call is refused.
    pub fn sound(random: &mut Random) -> Self {
        match random.below(8) {
            0 => Self::blank(random),
            _ => Self::any(random),
        }
    }

    pub fn any(random: &mut Random) -> Self {
        let quad = Quad::<u32>::random(random);
        Self::about(random, quad, quad.chi())
    }

    /// A blank quad, or one with a single source, mostly where T is not above 0.
    pub fn blank(random: &mut Random) -> Self {
        let mut values = [0; 4];
        if random.below(4) == 0 {
            values[random.below(4) as usize] = 1;
        }
        let parent_depth = parent_depth(random);
        let quad = Quad {
            values,
            parent_depth,
        };
        let mut call = Self::about(random, quad, quad.chi());
        if random.coin() {
            call.chi2_threshold = Float(any_of(random, &NOT_ABOVE_0));
        }
        call
    }
}

/// Four counts whose sum is a u32.
fn counts(random: &mut Random) -> [u32; 4] {
    let mut counts = match random.below(8) {
        0 => four(random, |random| random.below(16) as u32),
        1 => [count(random); 4],
        2 => {
            let least = count(random).saturating_sub(4);
            four(random, |random| least + random.below(5) as u32)
        }
        3 => {
            let about = count(random) as f64;
            four(random, |random| (about * around_one(random)) as u32)
        }
        4 => four(random, |random| count(random) * random.below(2) as u32),
        _ => four(random, count),
    };
    while total(counts) > u32::MAX as u64 {
        counts = counts.map(|n| n / 2);
    }
    // Now and then one that brings the sum to 2^32 − 1 or just below it.
    if random.below(8) == 0 {
        let child = random.below(4) as usize;
        let left = u32::MAX - (total(counts) - counts[child] as u64) as u32;
        counts[child] = left.saturating_sub(random.below(4) as u32);
    }
    counts
}

fn total(counts: [u32; 4]) -> u64 {
    counts.map(u64::from).iter().sum()
}

/// Any count: of any number of bits, or about a power of two.
fn count(random: &mut Random) -> u32 {
    if random.below(4) > 0 {
        return (random.bits() >> 32 >> random.below(33)) as u32;
    }
    let power = 1 << random.below(32);
    power - 1 + random.below(3) as u32
}

pub fn around_one(random: &mut Random) -> f64 {
    0.75 + unit(random) / 2.0
}

// ---- Densities

/// The scope's c = N(p)/π, the density of one source in a child.
pub fn unit_density(parent_depth: u8) -> f64 {
    (12u64 << (2 * parent_depth)) as f64 / std::f64::consts::PI
}

impl Quad<Float> {
    pub fn densities(self) -> [f64; 4] {
        self.values.map(|m| m.0)
    }

    /// The scope's chi. No answer is held to it; it says where to put T.
    pub fn chi(self) -> f64 {
        let c = unit_density(self.parent_depth);
        let m = self.densities();
        let w = sum(m.map(|m| 1.0 / if m > c { m } else { c }));
        (sum(m) - 4.0 * (4.0 / w)) / c
    }

    /// All of the least and the largest densities, and of those about c and its multiples.
    pub fn small(parent_depth: u8) -> impl Iterator<Item = Self> {
        let c = unit_density(parent_depth);
        let about_c = [c.next_down(), c, c.next_up(), 2.0 * c, 5.0 * c];
        let mut values = vec![0.0, -0.0, 5e-324, f64::MAX / 4.0, f64::MAX];
        values.extend(about_c);
        quads(parent_depth, values.into_iter().map(Float).collect())
    }

    pub fn random(random: &mut Random) -> Self {
        let parent_depth = parent_depth(random);
        Quad {
            values: densities(random, unit_density(parent_depth)).map(Float),
            parent_depth,
        }
    }
}

impl Call<Float> {
    pub fn random(random: &mut Random) -> Self {
        Self::sound(random).with_faults(random)
    }

    /// No such call is refused.
    pub fn sound(random: &mut Random) -> Self {
        let quad = Quad::<Float>::random(random);
        Self::about(random, quad, quad.chi())
    }
}

fn densities(random: &mut Random, c: f64) -> [f64; 4] {
    match random.below(16) {
        0 | 1 => [density(random, c); 4],
        2..=5 => {
            let about = density(random, c);
            four(random, |random| valid(near(random, about)))
        }
        6 | 7 => {
            let about = density(random, c);
            four(random, |random| valid(about * around_one(random)))
        }
        8 | 9 => four(random, |random| match random.coin() {
            true => zero(random),
            false => density(random, c),
        }),
        10 | 11 => counts(random).map(|n| n as f64 * c),
        // The sum is about the largest f64.
        12 => four(random, |random| near(random, f64::MAX / 4.0)),
        _ => four(random, |random| density(random, c)),
    }
}

/// A density: none, subnormal, about the least normal one, huge, about c, some sources of a child,
/// or any at all.
pub fn density(random: &mut Random, c: f64) -> f64 {
    match random.below(10) {
        0 => zero(random),
        1 => f64::from_bits(random.bits() >> 12 >> random.below(52)),
        2 => near(random, f64::MIN_POSITIVE),
        3 => {
            let huge = f64::MAX / any_of(random, &[1.0, 2.0, 3.0, 4.0, 16.0]);
            valid(near(random, huge))
        }
        4 | 5 => near(random, c),
        6 => c * random.below(20) as f64,
        7 => c * 16.0 * unit(random),
        8 => c * count(random) as f64,
        _ => magnitude(random),
    }
}

fn zero(random: &mut Random) -> f64 {
    any_of(random, &[0.0, -0.0])
}

/// Not below 0 and not infinite, as a step from 0 or from the largest f64 would be.
pub fn valid(x: f64) -> f64 {
    if x < 0.0 {
        -x
    } else {
        x.min(f64::MAX)
    }
}
