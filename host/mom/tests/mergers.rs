//! The mergers on small and on extreme values, against the definitions of the scope's section 2 and of
//! notes 4 and 9, written here as they are read there.

use mom::{chi2_count_merger, chi2_density_merger, CountMerge, DensityMerge, Refusal};

const PI: f64 = f64::from_bits(0x4009_21fb_5444_2d18);

fn sum([x0, x1, x2, x3]: [f64; 4]) -> f64 {
    ((x0 + x1) + x2) + x3
}

/// "sum = ((n0+n1)+n2)+n3; w = ((1/n0+1/n1)+1/n2)+1/n3; chi = sum − 4×(4/w)."
fn chi_of_counts(counts: [u32; 4]) -> f64 {
    let n = counts.map(f64::from);
    let w = sum(n.map(|n| 1.0 / n));
    sum(n) - 4.0 * (4.0 / w)
}

/// "c = N(p)/π".
fn c(p: u8) -> f64 {
    (12u64 << (2 * p)) as f64 / PI
}

/// "w uses 1/max(m, c) in place of 1/n; chi = (sum − 4×(4/w))/c".
fn chi_of_densities(p: u8, densities: [f64; 4]) -> f64 {
    let c = c(p);
    let w = sum(densities.map(|m| 1.0 / if m > c { m } else { c }));
    (sum(densities) - 4.0 * (4.0 / w)) / c
}

/// All quadruples of these values.
fn quadruples<T: Copy>(values: &[T]) -> impl Iterator<Item = [T; 4]> + '_ {
    let n = values.len();
    (0..n.pow(4)).map(move |i| [i / n.pow(3), i / n.pow(2), i / n, i].map(|i| values[i % n]))
}

/// The least f64 above one that is neither NaN nor infinite.
fn next_up(x: f64) -> f64 {
    f64::from_bits(match x.to_bits() {
        bits if x > 0.0 => bits + 1,
        bits if x < 0.0 => bits - 1,
        _ => 1,
    })
}

fn kept_counts(p: u8, m: u8, t: f64, counts: [u32; 4]) -> f64 {
    match chi2_count_merger(p, 0, m, t, &[], counts) {
        Ok(CountMerge::Kept(chi)) => chi,
        other => panic!("{p} {m} {t} {counts:?}: {other:?}"),
    }
}

fn kept_densities(p: u8, m: u8, t: f64, densities: [f64; 4]) -> f64 {
    match chi2_density_merger(p, 0, m, t, &[], densities) {
        Ok(DensityMerge::Kept(chi)) => chi,
        other => panic!("{p} {m} {t} {densities:?}: {other:?}"),
    }
}

/// Values small and large whose sums are u32s.
fn all_counts() -> Vec<[u32; 4]> {
    let large = [0, 1, 3, 65_535, 715_827_882, (1 << 30) - 1];
    let mut counts: Vec<_> = quadruples(&[0, 1, 2, 3, 4, 5, 6, 7]).collect();
    counts.extend(quadruples(&large));
    counts
}

/// The least and the largest densities, and those about c and its multiples.
fn all_densities(p: u8) -> Vec<[f64; 4]> {
    let c = c(p);
    let about_c = [f64::from_bits(c.to_bits() - 1), c, next_up(c), 4.0 * c];
    let mut values = vec![0.0, -0.0, 5e-324, f64::MAX / 4.0, f64::MAX];
    values.extend(about_c);
    quadruples(&values).collect()
}

/// Blank ones apart, which T = chi = 0 doesn't keep.
#[test]
fn no_count_is_merged_but_below_t_and_no_chi_is_another() {
    for counts in all_counts() {
        let chi = chi_of_counts(counts);
        let merged = Ok(CountMerge::Merged(counts.iter().sum()));
        if counts != [0; 4] {
            let kept = kept_counts(0, 0, chi, counts);
            assert_eq!(kept.to_bits(), chi.to_bits(), "{counts:?}");
        }
        for (p, m, t) in [(28, 29, f64::INFINITY), (3, 4, next_up(chi))] {
            let kept = kept_counts(p, m, t, counts);
            assert_eq!(kept.to_bits(), chi.to_bits(), "{counts:?} {m}");
        }
        for (p, m, t) in [(0, 0, next_up(chi)), (28, 28, f64::INFINITY)] {
            assert_eq!(
                chi2_count_merger(p, 0, m, t, &[], counts),
                merged,
                "{counts:?} {t}"
            );
        }
    }
}

/// Of either sign, the least and the largest, and about 0.
const THRESHOLDS: [f64; 12] = [
    0.0,
    -0.0,
    5e-324,
    -5e-324,
    1.0,
    -1.0,
    3.5,
    -3.5,
    f64::MAX,
    -f64::MAX,
    f64::INFINITY,
    f64::NEG_INFINITY,
];

/// "Four siblings of count 0 now merge at any T, where the parent depth is at least M." There is no list.
#[test]
fn no_threshold_keeps_four_blanks_from_m_on() {
    for t in THRESHOLDS {
        for p in 0..=28 {
            for m in 0..=29 {
                let answer = chi2_count_merger(p, 0, m, t, &[], [0; 4]);
                if p >= m {
                    assert_eq!(answer, Ok(CountMerge::Merged(0)), "{p} {m} {t}");
                } else {
                    let chi = kept_counts(p, m, t, [0; 4]);
                    assert_eq!(chi.to_bits(), 0, "{p} {m} {t}");
                }
            }
        }
    }
}

/// A NaN is no T, for blanks neither.
#[test]
fn no_nan_is_taken_for_any_threshold() {
    for t in [f64::NAN, -f64::NAN] {
        for m in [0, 1, 29] {
            let answer = chi2_count_merger(0, 0, m, t, &[], [0; 4]);
            assert_eq!(answer, Err(Refusal::InvalidThresholdOrFactor), "{m}");
        }
    }
}

/// With a count above 0 among the four, chi is what it goes by: three blanks and a source have chi 1.
#[test]
fn no_four_are_blank_but_four_of_0() {
    for t in THRESHOLDS {
        for counts in all_counts() {
            if counts == [0; 4] {
                continue;
            }
            let chi = chi_of_counts(counts);
            let expected = match chi < t {
                true => CountMerge::Merged(counts.iter().sum()),
                false => CountMerge::Kept(chi),
            };
            assert_eq!(
                chi2_count_merger(0, 0, 0, t, &[], counts),
                Ok(expected),
                "{t} {counts:?}"
            );
        }
        for child in 0..4 {
            let mut counts = [0; 4];
            counts[child] = 1;
            let merged = chi2_count_merger(0, 0, 0, t, &[], counts) == Ok(CountMerge::Merged(1));
            assert_eq!(merged, t > 1.0, "{t} {counts:?}");
        }
    }
}

/// Four densities of 0 have chi −4, up to rounding, and are kept at a T of that or less.
#[test]
fn no_four_densities_of_0_are_taken_for_blank_sky() {
    for t in THRESHOLDS {
        for p in [0, 28] {
            let chi = chi_of_densities(p, [0.0; 4]);
            let expected = match chi < t {
                true => DensityMerge::Merged(0.0),
                false => DensityMerge::Kept(chi),
            };
            assert_eq!(
                chi2_density_merger(p, 0, 0, t, &[], [0.0; 4]),
                Ok(expected),
                "{p} {t}"
            );
        }
    }
    kept_densities(0, 0, f64::NEG_INFINITY, [0.0; 4]);
}

#[test]
fn no_density_is_merged_but_below_t_and_no_chi_is_another() {
    for p in [0, 1, 14, 28] {
        for densities in all_densities(p) {
            let chi = chi_of_densities(p, densities);
            for (m, t) in [(0, f64::NEG_INFINITY), (p + 1, f64::INFINITY)] {
                let kept = kept_densities(p, m, t, densities);
                if chi.is_nan() {
                    assert!(kept.is_nan(), "{p} {densities:?} {kept}");
                } else {
                    assert_eq!(kept.to_bits(), chi.to_bits(), "{p} {densities:?}");
                }
            }
            if !chi.is_finite() {
                continue;
            }
            kept_densities(p, 0, chi, densities);
            let density = sum(densities) / 4.0;
            match chi2_density_merger(p, 0, p, next_up(chi), &[], densities) {
                Ok(DensityMerge::Merged(m)) if m.to_bits() == density.to_bits() => {}
                other => panic!("{p} {densities:?} {density}: {other:?}"),
            }
        }
    }
}

#[test]
fn no_case_of_the_scope_is_missed() {
    let merge = |t, counts| chi2_count_merger(0, 0, 0, t, &[], counts).unwrap();
    assert_eq!(merge(3.0, [1, 2, 4, 4]), CountMerge::Kept(3.0));
    assert_eq!(merge(3.5, [1, 2, 4, 4]), CountMerge::Merged(11));
    assert_eq!(merge(5.0, [0, 0, 0, 5]), CountMerge::Kept(5.0));
    assert_eq!(merge(6.0, [0, 0, 0, 5]), CountMerge::Merged(5));
    assert_eq!(merge(0.0, [4, 4, 4, 4]), CountMerge::Kept(0.0));
    // Note 4.
    assert_eq!(merge(0.0, [0, 0, 0, 0]), CountMerge::Merged(0));
    assert_eq!(merge(-1.0, [0, 0, 0, 0]), CountMerge::Merged(0));
    let kept = chi2_count_merger(0, 0, 1, 0.0, &[], [0, 0, 0, 0]);
    assert_eq!(kept, Ok(CountMerge::Kept(0.0)));
}

/// "A zero makes w infinite and chi = sum."
#[test]
fn no_count_beside_a_zero_leaves_chi_below_the_sum() {
    for counts in all_counts() {
        if counts.contains(&0) {
            let sum: u32 = counts.iter().sum();
            let chi = kept_counts(0, 29, 0.0, counts);
            assert_eq!(chi.to_bits(), f64::from(sum).to_bits(), "{counts:?}");
        }
    }
}

/// Note 9: 2^50 times the distance of chi × E from S × E − 16 × P is at most S × E. Of 1, 2, 4, 4, chi is
/// exact. Four equal ones have the exact chi 0, so that of 49 the distance is E / 2^45, and S is 196.
#[test]
fn no_kept_chi_is_further_from_the_exact_one() {
    assert_eq!(kept_counts(0, 0, 3.0, [1, 2, 4, 4]), 3.0);
    let [s, e, p] = [11, 8 + 8 + 16 + 32, 32];
    assert_eq!(3 * e, s * e - 16 * p);

    let chi = kept_counts(28, 29, 0.0, [49; 4]);
    assert_eq!(chi, -(2f64.powi(-45)));
    let [s, e, p] = [196u64, 4 * 49 * 49 * 49, 49 * 49 * 49 * 49];
    assert_eq!(s * e, 16 * p);
    assert!(e << (50 - 45) <= s * e);
    // With 2^53 the note would be wrong.
    assert!(e << (53 - 45) > s * e);
    // It is the f64 that is held against T, and this one is below 0.
    let merged = chi2_count_merger(0, 0, 0, 0.0, &[], [49; 4]);
    assert_eq!(merged, Ok(CountMerge::Merged(196)));
}

/// "With a zero among them chi is exactly S."
#[test]
fn no_chi_beside_a_zero_is_near_the_sum_and_not_the_sum() {
    for (counts, chi) in [
        ([0, 0, 0, 5], 5.0),
        ([7, 0, 1, 2], 10.0),
        ([1, 2, 0, u32::MAX - 3], 4294967295.0),
        ([0, 1, u32::MAX - 2, 1], 4294967295.0),
    ] {
        assert_eq!(kept_counts(0, 0, chi, counts), chi, "{counts:?}");
        assert_eq!(kept_counts(28, 29, 0.0, counts), chi, "{counts:?}");
    }
    assert_eq!(kept_counts(28, 29, 0.0, [0; 4]).to_bits(), 0);
}

/// Chi where the sum passes the largest f64: no T is above either of the two, so the four are kept.
#[test]
fn no_sum_past_the_largest_f64_is_merged() {
    let infinite = [f64::MAX, f64::MAX, 0.0, 0.0];
    assert_eq!(kept_densities(0, 0, f64::INFINITY, infinite), f64::INFINITY);
    assert!(kept_densities(0, 0, f64::INFINITY, [f64::MAX; 4]).is_nan());
}

#[test]
fn no_minus_zero_is_refused_or_lost() {
    match chi2_density_merger(0, 0, 0, 0.0, &[], [-0.0; 4]) {
        Ok(DensityMerge::Merged(m)) => assert_eq!(m.to_bits(), (-0.0f64).to_bits()),
        other => panic!("{other:?}"),
    }
    match chi2_density_merger(0, 0, 0, 0.0, &[], [-0.0, -0.0, 0.0, -0.0]) {
        Ok(DensityMerge::Merged(m)) => assert_eq!(m.to_bits(), 0),
        other => panic!("{other:?}"),
    }
}
