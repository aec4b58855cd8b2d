//! The quadruples that the bound is tried on: all of some special values, and random ones that gather
//! where chi is worst.

/// The counts of four children.
pub type Quad = [u32; 4];

pub fn total<N: Into<u64>>(counts: [N; 4]) -> u64 {
    counts.map(N::into).iter().sum()
}

/// The largest total.
const MOST: u64 = u32::MAX as u64;

/// What a quadruple is tried for.
#[derive(Clone, Copy, Debug, PartialEq, Eq)]
pub enum Sort {
    Special,
    AnySize,
    FullTotal,
    Equal,
    NearlyEqual,
    OneHuge,
    TwoAndTwo,
    Climb,
    Zeros,
}

/// The sorts in words, in the same order.
pub const SORTS: [&str; 9] = [
    "special",
    "of any sizes",
    "of the largest total or just below",
    "equal",
    "nearly equal",
    "with one huge",
    "two and two",
    "near the worst so far",
    "with zeros",
];

/// The least, those about powers of two, and those of which one, two, three or four, with a little beside
/// them, are the largest total; and two that have a reciprocal almost halfway between two f64s, 2^26 − 322
/// and 2^30 − 11.
const SPECIAL: [u32; 24] = [
    1,
    2,
    3,
    4,
    7,
    9,
    49,
    255,
    256,
    257,
    65_535,
    65_536,
    65_537,
    (1 << 26) - 322,
    715_827_882,
    (1 << 30) - 11,
    (1 << 30) - 1,
    1 << 30,
    1_431_655_764,
    (1 << 31) - 1,
    1 << 31,
    u32::MAX - 8,
    u32::MAX - 4,
    u32::MAX - 3,
];

/// All quadruples of the special values whose total is not too large.
pub fn special() -> impl Iterator<Item = Quad> {
    let n = SPECIAL.len();
    let quad = move |i| [i / n.pow(3), i / n.pow(2), i / n, i].map(|i| SPECIAL[i % n]);
    let all = (0..n.pow(4)).map(quad);
    all.filter(|&counts| total(counts) <= MOST)
}

/// One of the other sorts. An eighth have zeros, and a quarter are neighbours of the worst so far.
pub fn draw(random: &mut Random, worst: Quad) -> (Sort, Quad) {
    match random.below(16) {
        0..=3 => (Sort::AnySize, any_size(random)),
        4 => (Sort::FullTotal, full_total(random)),
        5 => (Sort::Equal, fitted([count(random); 4])),
        6 | 7 => (Sort::NearlyEqual, nearly_equal(random)),
        8 => (Sort::OneHuge, one_huge(random)),
        9 => (Sort::TwoAndTwo, two_and_two(random)),
        10..=13 => (Sort::Climb, neighbour(random, worst)),
        _ => (Sort::Zeros, with_zeros(random)),
    }
}

/// Halved until they can be the counts of a quadruple, each at least 1.
fn fitted(mut counts: [u64; 4]) -> Quad {
    counts = counts.map(|n| n.max(1));
    while total(counts) > MOST {
        counts = counts.map(|n| (n / 2).max(1));
    }
    counts.map(|n| n as u32)
}

/// One of them so that the total is the largest, or up to 3 less.
fn filled(random: &mut Random, mut counts: Quad, child: usize) -> Quad {
    let left = u32::MAX - (total(counts) as u32 - counts[child]);
    counts[child] = left.saturating_sub(random.below(4) as u32).max(1);
    counts
}

/// Any count: of any number of bits, or about a power of two.
fn count(random: &mut Random) -> u64 {
    match random.below(4) {
        0 => (1 << random.below(32)) - 1 + random.below(3),
        _ => random.bits() >> 32 >> random.below(33),
    }
}

fn any_size(random: &mut Random) -> Quad {
    let counts = [0; 4].map(|_| count(random));
    fitted(counts)
}

fn full_total(random: &mut Random) -> Quad {
    let counts = match random.below(3) {
        0 => nearly_equal(random),
        _ => any_size(random),
    };
    let child = random.below(4) as usize;
    filled(random, counts, child)
}

/// Apart by at most 4, or by a factor of at most 5/3; or just below a power of two, where 1/n is just
/// above one and its f64 coarsest beside it.
fn nearly_equal(random: &mut Random) -> Quad {
    let about = count(random);
    let power = 1 + random.below(30);
    let spread = 1 << random.below(power);
    let kind = random.below(3);
    fitted([0; 4].map(|_| match kind {
        0 => about + random.below(5),
        1 => about * (768 + random.below(513)) / 1024,
        _ => (1 << power) - 1 - random.below(spread),
    }))
}

fn one_huge(random: &mut Random) -> Quad {
    let mut counts = [0; 4].map(|_| 1 + random.below(16));
    counts[random.below(4) as usize] = MOST - 64 - (random.bits() >> 32 >> random.below(33));
    fitted(counts)
}

fn two_and_two(random: &mut Random) -> Quad {
    let pair = [count(random), count(random)];
    let places = [[0, 0, 1, 1], [0, 1, 0, 1], [0, 1, 1, 0]][random.below(3) as usize];
    fitted(places.map(|place: usize| pair[place]))
}

/// Some of the counts moved a little: by as much as a step, which is of any size.
fn neighbour(random: &mut Random, counts: Quad) -> Quad {
    let step = 1 << random.below(24);
    fitted(counts.map(|n| match random.below(2) {
        0 => n as u64,
        _ => (n as u64 + random.below(2 * step + 1)).saturating_sub(step),
    }))
}

/// One, two, three or four of them.
fn with_zeros(random: &mut Random) -> Quad {
    let mut counts = any_size(random);
    let zeros = 1 + random.below(15);
    for (child, count) in counts.iter_mut().enumerate() {
        if zeros >> child & 1 == 1 {
            *count = 0;
        }
    }
    let child = random.below(4) as usize;
    match counts[child] > 0 && random.below(4) == 0 {
        true => filled(random, counts, child),
        false => counts,
    }
}

/// SplitMix64 (Steele, Lea and Flood 2014).
pub struct Random(u64);

impl Random {
    /// A generator for a part of the work, unlike those of the other parts.
    pub fn of_part(seed: u64, part: u64) -> Random {
        let of_seed = Random(seed).bits();
        Random(Random(of_seed ^ part).bits())
    }

    fn bits(&mut self) -> u64 {
        self.0 = self.0.wrapping_add(0x9e37_79b9_7f4a_7c15);
        let z = (self.0 ^ self.0 >> 30).wrapping_mul(0xbf58_476d_1ce4_e5b9);
        let z = (z ^ z >> 27).wrapping_mul(0x94d0_49bb_1331_11eb);
        z ^ z >> 31
    }

    /// A number below `n`, which is not 0.
    fn below(&mut self, n: u64) -> u64 {
        ((self.bits() as u128 * n as u128) >> 64) as u64
    }
}

#[cfg(test)]
mod tests {
    use super::*;

    fn drawn(number: usize) -> Vec<(Sort, Quad)> {
        let mut random = Random::of_part(1, 0);
        let mut worst = [1; 4];
        let next = |_| {
            let (sort, counts) = draw(&mut random, worst);
            if !counts.contains(&0) {
                worst = counts;
            }
            (sort, counts)
        };
        (0..number).map(next).collect()
    }

    #[test]
    fn no_quadruple_is_out_of_range() {
        for counts in special() {
            assert!(total(counts) <= MOST, "{counts:?}");
            assert!(!counts.contains(&0), "{counts:?}");
        }
        for (sort, counts) in drawn(100_000) {
            assert!(total(counts) <= MOST, "{counts:?}");
            assert_eq!(counts.contains(&0), sort == Sort::Zeros, "{counts:?}");
        }
    }

    #[test]
    fn no_extreme_is_missing() {
        let mut special = special();
        assert!(special.any(|counts| counts == [1, 1, 1, u32::MAX - 3]));
        let drawn = drawn(100_000);
        let has = |sort, counts: &dyn Fn(Quad) -> bool| {
            drawn.iter().any(|&(s, c)| s == sort && counts(c))
        };
        for less in 0..4 {
            let full = |counts: Quad| total(counts) == MOST - less;
            let found = [Sort::FullTotal, Sort::Zeros].map(|sort| has(sort, &full));
            assert_eq!(found, [true; 2], "{less}");
        }
        for zeros in 1..=4 {
            let of_zeros = |counts: Quad| counts.iter().filter(|&&n| n == 0).count() == zeros;
            assert!(has(Sort::Zeros, &of_zeros), "{zeros}");
        }
        let large = |counts: Quad| counts.iter().all(|&n| n > (1 << 30) - 1000);
        assert!(has(Sort::Equal, &large) && has(Sort::NearlyEqual, &large));
        assert!(has(Sort::OneHuge, &|counts| counts.contains(&1)));
        let crossed = |[a, b, c, d]: Quad| a == c && b == d && a != b;
        assert!(has(Sort::TwoAndTwo, &crossed));
    }

    #[test]
    fn no_sort_is_rare() {
        let drawn = drawn(16_000);
        let of = |sort| drawn.iter().filter(|&&(s, _)| s == sort).count();
        assert!(of(Sort::Zeros).abs_diff(2000) < 200);
        assert!(of(Sort::Climb).abs_diff(4000) < 250);
        for sort in [Sort::FullTotal, Sort::Equal, Sort::OneHuge, Sort::TwoAndTwo] {
            assert!(of(sort).abs_diff(1000) < 150, "{sort:?}");
        }
    }

    /// Each count stays where it is now and then, and moves to either side.
    #[test]
    fn no_neighbour_is_far_off() {
        let (mut random, from) = (Random::of_part(1, 0), 1u32 << 26);
        let near: Vec<Quad> = (0..1000)
            .map(|_| neighbour(&mut random, [from; 4]))
            .collect();
        for child in 0..4 {
            let of_child = || near.iter().map(|counts| counts[child]);
            assert!(of_child().any(|n| n < from));
            assert!(of_child().any(|n| n == from));
            assert!(of_child().any(|n| n > from));
            assert!(of_child().all(|n| n.abs_diff(from) < 1 << 24));
        }
    }
}
