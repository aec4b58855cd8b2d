//! Every intended difference in combining, as `differences.rs` has those of the other sections.

use std::{
    fmt::Debug,
    panic::{catch_unwind, AssertUnwindSafe},
};

use mom::{ask, commit, pool, product, Figures, Map, Refusal};
use oracle::run;

type Entries<V> = Vec<(u64, V)>;

/// The call panics under `checked` and answers `wrapped` under `release`.
fn assert_overflows<T: Debug + PartialEq>(call: impl FnOnce() -> T, wrapped: T) {
    if cfg!(debug_assertions) {
        assert!(catch_unwind(AssertUnwindSafe(call)).is_err());
    } else {
        assert_eq!(call(), wrapped);
    }
}

fn entries<V: Copy>(cells: &[(u8, u64, V)]) -> Entries<V> {
    let cells = cells.iter();
    cells
        .map(|&(d, h, value)| (run::to_zuniq(d, h), value))
        .collect()
}

/// Four cells of count 1, and a map without any.
const FOUR: [(u8, u64, u32); 4] = [(1, 0, 1), (1, 1, 1), (1, 2, 1), (1, 3, 1)];
const NONE: [(u64, u32); 0] = [];

/// Two maps by their depths and entries, with M and T.
type Pair<'a> = (u8, &'a [(u64, u32)], u8, &'a [(u64, u32)], u8, f64);

fn original((dl, left, dr, right, m, t): Pair) -> Entries<u32> {
    let (left, right) = (run::mom(dl, left.to_vec()), run::mom(dr, right.to_vec()));
    run::pool_by_chi(left, right, m, t).1
}

/// Our answer, and the entries in both buffers where it is accepted; where not, that they are as before.
fn ours(pair: Pair) -> Result<Entries<u32>, Refusal> {
    ours_under(&[], pair)
}

/// The same under a list of protected parents.
fn ours_under(list: &[u64], pair: Pair) -> Result<Entries<u32>, Refusal> {
    let (.., m, t) = pair;
    left_by(|zuniqs, counts| {
        with_maps(pair, |left, right| {
            let added = pool(left, right, m, t, list, zuniqs, counts)?;
            Ok(added.entries)
        })
    })
}

fn with_maps<T>((dl, left, dr, right, ..): Pair, call: impl FnOnce(Map<u32>, Map<u32>) -> T) -> T {
    let (left_zuniqs, left_counts): (Vec<u64>, Vec<u32>) = left.iter().copied().unzip();
    let (right_zuniqs, right_counts): (Vec<u64>, Vec<u32>) = right.iter().copied().unzip();
    let left = Map {
        depth: dl,
        zuniqs: &left_zuniqs,
        values: &left_counts,
    };
    let right = Map {
        depth: dr,
        zuniqs: &right_zuniqs,
        values: &right_counts,
    };
    call(left, right)
}

/// A call into eight places, which answers its number of entries.
fn left_by(
    call: impl FnOnce(&mut [u64], &mut [u32]) -> Result<usize, Refusal>,
) -> Result<Entries<u32>, Refusal> {
    let (mut zuniqs, mut counts) = ([77; 8], [77; 8]);
    let answer = call(&mut zuniqs, &mut counts);
    let entries = zuniqs.into_iter().zip(counts);
    let entries: Entries<u32> = match answer {
        Ok(number) => entries.take(number).collect(),
        Err(_) => entries.collect(),
    };
    if answer.is_err() {
        assert_eq!(entries, [(77, 77); 8]);
    }
    answer.map(|_| entries)
}

fn assert_refused(pair: Pair, number: u8, place: usize) {
    assert_eq!(ours(pair), Err(Refusal::of(number, place).unwrap()));
}

/// The original starts from the first cell at the result's depth.
#[test]
fn the_pool_refuses_a_depth_over_29() {
    for (dl, dr) in [(30, 0), (0, 30)] {
        let pair = (dl, &NONE[..], dr, &NONE[..], 0, 1.0);
        assert_overflows(|| original(pair), vec![]);
        assert_refused(pair, 1, 0);
    }
}

/// The original keeps all, as with the mergers alone.
#[test]
fn the_pool_refuses_a_depth_threshold_over_29_and_a_threshold_that_is_nan() {
    let four = entries(&FOUR);
    for (m, t, number) in [(30, 3.5, 2), (0, f64::NAN, 3)] {
        let pair = (1, &four[..], 0, &NONE[..], m, t);
        assert_eq!(original(pair), four);
        assert_refused(pair, number, 0);
    }
}

/// The original takes any entries as they come.
#[test]
fn the_pool_refuses_a_map_that_is_none() {
    for (depth, map, place) in [
        (29, vec![(2, 1)], 0),
        (0, entries(&[(1, 0, 1)]), 0),
        (1, entries(&[(1, 0, 1), (1, 0, 1)]), 1),
        (1, entries(&[(1, 1, 1), (1, 0, 1)]), 1),
        (1, entries(&[(1, 0, 1), (0, 0, 1)]), 1),
    ] {
        let (left, right) = (
            (depth, &map[..], 0, &NONE[..], 0, 1.0),
            (0, &NONE[..], depth, &map[..], 0, 1.0),
        );
        for pair in [left, right] {
            assert_eq!(original(pair), map);
            assert_refused(pair, 5, place);
        }
    }
    let zero = [(0, 1)];
    let pair = (0, &zero[..], 0, &NONE[..], 0, 1.0);
    assert_overflows(|| original(pair), zero.to_vec());
    assert_refused(pair, 5, 0);
}

/// What the original makes of entries that overlap overlaps too.
#[test]
fn the_pool_makes_nothing_that_overlaps() {
    let (twice, one) = (entries(&[(0, 0, 4), (0, 0, 4)]), entries(&[(1, 0, 1)]));
    let pair = (0, &twice[..], 1, &one[..], 0, 0.0);
    let apart = entries(&[(1, 0, 2), (1, 1, 1), (1, 2, 1), (1, 3, 1), (0, 0, 4)]);
    assert_eq!(original(pair), apart);
    assert_refused(pair, 5, 1);
}

/// The original adds up only what it merges.
#[test]
fn the_pool_refuses_counts_that_overflow_together() {
    let left = entries(&[(1, 0, u32::MAX)]);
    let right = entries(&[(1, 1, 1), (1, 2, 0), (1, 3, 0)]);
    let pair = |t| (1, &left[..], 1, &right[..], 0, t);
    let merged = entries(&[(0, 0, 0)]);
    assert_overflows(|| original(pair(f64::INFINITY)), merged);
    assert_refused(pair(f64::INFINITY), 10, 0);
    let kept = [&left[..], &right].concat();
    assert_eq!(original(pair(0.0)), kept);
    assert_refused(pair(0.0), 10, 0);
}

/// The original keeps four blanks, whether they are entries of one map or parts of a larger one.
#[test]
fn the_pool_merges_blanks_at_a_threshold_of_0_or_less() {
    let four = FOUR.map(|(depth, hash, _)| (depth, hash, 0));
    let (four, base) = (entries(&four), entries(&[(0, 0, 0)]));
    for t in [0.0, -0.0, -5e-324, -1.0, f64::NEG_INFINITY] {
        for (left, right) in [(&four[..], &NONE[..]), (&four[..1], &base)] {
            let pair = |m| (1, left, 1, right, m, t);
            assert_eq!(
                (original(pair(0)), ours(pair(0))),
                (four.clone(), Ok(base.clone()))
            );
            assert_eq!(
                (original(pair(1)), ours(pair(1))),
                (four.clone(), Ok(four.clone()))
            );
        }
    }
}

/// No difference: the original tries every quad as its last cell comes, the last one too, whichever map
/// that is from.
#[test]
fn the_pool_tries_the_last_quad_as_the_original_does() {
    let last = [(1, 44, 1), (1, 45, 1), (1, 46, 1), (1, 47, 1)];
    let four = entries(&last);
    let assert_merged = |pair: Pair, count| {
        let merged = entries(&[(0, 11, count)]);
        assert_eq!((original(pair), ours(pair)), (merged.clone(), Ok(merged)));
    };
    for cut in 0..=4 {
        let (left, right) = four.split_at(cut);
        assert_merged((1, left, 1, right, 0, 3.5), 4);
    }
    let (base, one) = (entries(&[(0, 11, 4)]), entries(&last[3..]));
    assert_merged((0, &base, 1, &one, 0, 3.5), 5);
    assert_merged((1, &one, 0, &base, 0, 3.5), 5);
}

/// The original's product of two maps of depth 0, with the bits of its densities.
fn original_product(k: f64, left: &[(u64, f64)], right: &[(u64, f64)]) -> Vec<(u64, u64)> {
    let (left, right) = (run::mom(0, left.to_vec()), run::mom(0, right.to_vec()));
    let entries = run::product_by_chi(left, right, k, 0, 0.0).1.into_iter();
    entries.map(|(zuniq, m)| (zuniq, m.to_bits())).collect()
}

/// The original multiplies (0, 0) of two maps to what is no density, or to one of what are none; ours
/// refuses and touches nothing.
fn assert_product_refused(k: f64, left: f64, right: f64, number: u8) {
    let base = run::to_zuniq(0, 0);
    let of_original = original_product(k, &[(base, left)], &[(base, right)]);
    let bits = (k * left * right).to_bits();
    // A NaN's sign is none of the original's concern.
    let is_nan = (k * left * right).is_nan() && f64::from_bits(of_original[0].1).is_nan();
    assert!(is_nan || of_original == [(base, bits)]);
    let map = |values| Map {
        depth: 0,
        zuniqs: &[1 << 58],
        values,
    };
    let (mut zuniqs, mut densities) = ([77; 2], [77.0; 2]);
    let (left, right) = ([left], [right]);
    let (z, d) = (&mut zuniqs, &mut densities);
    let answer = product(map(&left), map(&right), 0, 0.0, k, &[], z, d);
    assert_eq!(answer, Err(Refusal::of(number, 0).unwrap()));
    assert_eq!((zuniqs, densities), ([77; 2], [77.0; 2]));
}

const NO_DENSITIES: [f64; 5] = [
    f64::NAN,
    f64::INFINITY,
    f64::NEG_INFINITY,
    -1.0,
    -5e-324, // the greatest f64 below 0
];

#[test]
fn the_product_refuses_a_factor_that_is_nan_infinite_or_below_0() {
    for k in NO_DENSITIES {
        assert_product_refused(k, 1.0, 1.0, 3);
    }
}

#[test]
fn the_product_refuses_densities_that_are_nan_infinite_or_below_0() {
    for density in NO_DENSITIES {
        assert_product_refused(1.0, density, 1.0, 6);
        assert_product_refused(1.0, 1.0, density, 6);
    }
}

#[test]
fn the_product_refuses_what_is_not_finite() {
    assert_product_refused(1.0, f64::MAX, 2.0, 10);
    assert_product_refused(2.0, f64::MAX, 0.25, 10);
    assert_product_refused(2.0, f64::MAX, 0.0, 10);
}

/// The original merges, also what it has split first; ours keeps the four, blank or not.
#[test]
fn the_pool_keeps_four_under_a_listed_parent() {
    let list = [run::to_zuniq(0, 0)];
    let t = f64::INFINITY;
    let one = entries(&[(1, 0, 0)]);
    for count in [1, 0] {
        let four = entries(&FOUR.map(|(depth, hash, _)| (depth, hash, count)));
        let base = entries(&[(0, 0, 4 * count)]);
        for (left, right) in [(&four[..], &NONE[..]), (&base, &one)] {
            let pair = (1, left, 1, right, 0, t);
            assert_eq!(
                (original(pair), ours(pair)),
                (base.clone(), Ok(base.clone()))
            );
            assert_eq!(ours_under(&list, pair), Ok(four.clone()));
        }
    }
}

/// The original's own product takes no merger.
#[test]
fn the_product_keeps_four_under_a_listed_parent() {
    let (zuniqs, _): (Vec<u64>, Vec<u32>) = entries(&FOUR).into_iter().unzip();
    let base = run::to_zuniq(0, 0);
    for density in [0.0, 8.0] {
        let four: Vec<(u64, f64)> = zuniqs.iter().map(|&zuniq| (zuniq, density)).collect();
        let (left, right) = (run::mom(1, four.clone()), run::mom(1, four));
        let merged = run::product_by_chi(left, right, 1.0, 0, f64::INFINITY).1;
        assert_eq!(merged, [(base, density * density)]);
        let map = Map {
            depth: 1,
            zuniqs: &zuniqs,
            values: &[density; 4],
        };
        let (mut z, mut m) = ([77; 4], [77.0; 4]);
        let answer = product(map, map, 0, f64::INFINITY, 1.0, &[base], &mut z, &mut m);
        assert_eq!(answer, Ok(4));
        assert_eq!((&z[..], m), (&zuniqs[..], [density * density; 4]));
    }
}

#[test]
fn the_pool_and_the_product_refuse_a_list_that_is_none() {
    let pair = (0, &NONE[..], 0, &NONE[..], 0, 1.0);
    let empty = Map {
        depth: 0,
        zuniqs: &[],
        values: &[],
    };
    for (list, place) in [(&[2][..], 0), (&[4, 1 << 60], 1), (&[4, 20, 12], 2)] {
        let refusal = Refusal::of(15, place).unwrap();
        assert_eq!(ours_under(list, pair), Err(refusal));
        let answer = product(empty, empty, 0, 1.0, 1.0, list, &mut [], &mut []);
        assert_eq!(answer, Err(refusal));
    }
}

/// Note 8 of 02: what an ask answers.
fn asked(list: &[u64], pair: Pair) -> Result<[usize; 3], Refusal> {
    let (.., m, t) = pair;
    let figures = with_maps(pair, |left, right| ask(left, right, m, t, list));
    figures.map(|figures| [figures.cells, figures.entries, figures.total as usize])
}

fn committed(list: &[u64], pair: Pair, figures: [usize; 3]) -> Result<Entries<u32>, Refusal> {
    let (.., m, t) = pair;
    let [cells, entries, total] = figures;
    let figures = Figures {
        cells,
        entries,
        total: total as u32,
    };
    left_by(|zuniqs, counts| {
        with_maps(pair, |left, right| {
            let added = commit(left, right, m, t, list, figures, zuniqs, counts)?;
            Ok(added.entries)
        })
    })
}

/// The original has neither call, and its pool refuses none of these.
#[test]
fn the_ask_and_the_commit_refuse_what_the_pool_refuses() {
    let four = entries(&FOUR);
    let (too_deep, twice) = (entries(&[(1, 0, 1)]), entries(&[(1, 0, 1), (1, 0, 1)]));
    let most = entries(&[(1, 0, u32::MAX)]);
    for (list, pair, number, place) in [
        (&[][..], (30, &NONE[..], 0, &NONE[..], 30, f64::NAN), 1, 0),
        (&[], (1, &four, 0, &NONE, 30, f64::NAN), 2, 0),
        (&[4, 4], (1, &four, 0, &NONE, 0, f64::NAN), 3, 0),
        (&[4, 4], (0, &too_deep, 0, &NONE, 0, 1.0), 15, 1),
        (&[], (0, &too_deep, 0, &NONE, 0, 1.0), 5, 0),
        (&[], (1, &four, 1, &twice, 0, 1.0), 5, 1),
        (&[], (1, &most, 1, &four, 0, 1.0), 10, 0),
    ] {
        let refusal = Refusal::of(number, place).unwrap();
        assert_eq!(ours_under(list, pair), Err(refusal));
        assert_eq!(asked(list, pair), Err(refusal));
        for figures in [[0; 3], [4, 1, 4], [usize::MAX; 3]] {
            assert_eq!(committed(list, pair, figures), Err(refusal));
        }
    }
}

/// Of blank sky, and under a listed parent: the original's own pool has another number of entries. Of both
/// at once it has as many, and a commit is refused that counts on their being merged.
#[test]
fn the_ask_counts_entries_as_the_pool_merges_them() {
    let (four, base) = (entries(&FOUR), entries(&[(0, 0, 4)]));
    let blank = entries(&FOUR.map(|(depth, hash, _)| (depth, hash, 0)));
    let pair = (1, &blank[..], 0, &NONE[..], 0, 0.0);
    assert_eq!(original(pair), blank);
    assert_eq!(asked(&[], pair), Ok([4, 1, 0]));
    assert_eq!(committed(&[], pair, [4, 1, 0]), ours(pair));
    let list = [run::to_zuniq(0, 0)];
    assert_eq!(asked(&list, pair), Ok([4, 4, 0]));
    assert_eq!(committed(&list, pair, [4, 4, 0]), Ok(original(pair)));
    let refusal = Refusal::of(16, 0).unwrap();
    assert_eq!(committed(&list, pair, [4, 1, 0]), Err(refusal));
    let pair = (1, &four[..], 0, &NONE[..], 0, f64::INFINITY);
    assert_eq!(original(pair), base);
    assert_eq!(asked(&list, pair), Ok([4, 4, 4]));
    assert_eq!(committed(&list, pair, [4, 4, 4]), Ok(four));
}

/// The original is handed no figures.
#[test]
fn the_commit_refuses_figures_that_no_ask_answers() {
    let four = entries(&FOUR);
    let pair = (1, &four[..], 0, &NONE[..], 0, 3.5);
    let base = entries(&[(0, 0, 4)]);
    assert_eq!((original(pair), ours(pair)), (base.clone(), Ok(base)));
    let figures = [4, 1, 4];
    assert_eq!(asked(&[], pair), Ok(figures));
    assert_eq!(committed(&[], pair, figures), ours(pair));
    for which in 0..3 {
        for wrong in [0, figures[which] - 1, figures[which] + 1] {
            let mut figures = figures;
            if figures[which] == wrong {
                continue;
            }
            figures[which] = wrong;
            let refusal = Refusal::of(16, 0).unwrap();
            assert_eq!(committed(&[], pair, figures), Err(refusal));
        }
    }
}
