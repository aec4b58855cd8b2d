//! The first and the last that each call takes, and what is refused just past it.

use mom::{
    are_overlapping, chi2_count_merger, chi2_density_merger, from_zuniq, n_hash, to_zuniq,
    CountMerge, DensityMerge, Refusal,
};

const N_29: u64 = 12 << 58;
const LAST_ZUNIQ: u64 = 6917529027641081855;

/// Quiet and signalling ones of either sign.
const NANS: [u64; 4] = [
    0x7ff8_0000_0000_0000,
    0x7ff0_0000_0000_0001,
    0xfff8_0000_0000_0000,
    0xffff_ffff_ffff_ffff,
];

fn refusal<T>(number: u8, place: usize) -> Result<T, Refusal> {
    Err(Refusal::of(number, place).unwrap())
}

#[test]
fn no_depth_has_another_number_of_cells() {
    let mut cells = 12;
    for depth in 0..=29 {
        assert_eq!(n_hash(depth), Ok(cells));
        cells *= 4;
    }
}

#[test]
fn no_depth_over_29_is_taken() {
    for depth in 30..=255 {
        assert_eq!(n_hash(depth), refusal(1, 0));
        for hash in [0, 12, u64::MAX] {
            assert_eq!(to_zuniq(depth, hash), refusal(1, 0), "({depth}, {hash})");
        }
    }
}

#[test]
fn no_hash_at_or_past_the_number_of_cells_is_taken() {
    for depth in 0..=29 {
        let n = 12 << (2 * depth);
        assert!(to_zuniq(depth, n - 1).is_ok());
        for hash in [n, n + 1, 2 * n, 1 << 63, u64::MAX] {
            assert_eq!(to_zuniq(depth, hash), refusal(7, 0), "({depth}, {hash})");
        }
    }
}

#[test]
fn no_case_of_the_scope_is_missed() {
    assert_eq!(to_zuniq(29, 0), Ok(1));
    assert_eq!(to_zuniq(0, 0), Ok(288230376151711744));
    assert_eq!(to_zuniq(0, 11), Ok(6629298651489370112));
    assert_eq!(to_zuniq(29, N_29 - 1), Ok(LAST_ZUNIQ));
    for zuniq in [0, 2, 1 << 60, LAST_ZUNIQ + 2] {
        assert_eq!(from_zuniq(zuniq), None, "{zuniq}");
    }
}

/// The scope's list of cases prints 504403158263495552 for (1, 3). By its definition the zuniq is
/// 7 × 4^28, two million more; the printed number ends in seven zero bits and is no zuniq.
#[test]
fn no_misprint_is_taken_for_a_zuniq() {
    assert_eq!(to_zuniq(1, 3), Ok(504403158265495552));
    assert_eq!(from_zuniq(504403158263495552), None);
}

#[test]
fn nothing_past_the_last_zuniq_decodes() {
    assert_eq!(from_zuniq(LAST_ZUNIQ), Some((29, N_29 - 1)));
    for bit in 0..60 {
        for zuniq in [LAST_ZUNIQ + (1 << bit), u64::MAX - (1 << bit)] {
            assert_eq!(from_zuniq(zuniq), None, "{zuniq}");
        }
    }
    assert_eq!(from_zuniq(u64::MAX), None);
}

#[test]
fn no_fault_of_the_right_hides_one_of_the_left() {
    for faulty in [0, 2, 1 << 60, LAST_ZUNIQ + 2, u64::MAX] {
        assert_eq!(are_overlapping(faulty, 1), refusal(12, 0), "{faulty}");
        assert_eq!(are_overlapping(1, faulty), refusal(12, 1), "{faulty}");
        assert_eq!(are_overlapping(faulty, faulty), refusal(12, 0), "{faulty}");
    }
}

#[test]
fn no_parent_depth_over_28_is_taken() {
    assert!(chi2_count_merger(28, 0, 29, 1.0, &[], [0; 4]).is_ok());
    assert!(chi2_density_merger(28, 0, 29, 1.0, &[], [0.0; 4]).is_ok());
    for p in 29..=255 {
        for (m, t) in [(0, 1.0), (29, 1.0), (30, f64::NAN), (p, 1.0)] {
            let counts = chi2_count_merger(p, 0, m, t, &[], [u32::MAX; 4]);
            assert_eq!(counts, refusal(1, 0), "{p} {m} {t}");
            let densities = chi2_density_merger(p, 0, m, t, &[], [-1.0; 4]);
            assert_eq!(densities, refusal(1, 0), "{p} {m} {t}");
        }
    }
}

#[test]
fn no_depth_threshold_over_29_is_taken() {
    for m in 30..=255 {
        for (p, t) in [(0, 1.0), (28, f64::NAN)] {
            let counts = chi2_count_merger(p, 0, m, t, &[], [u32::MAX; 4]);
            assert_eq!(counts, refusal(2, 0), "{p} {m} {t}");
            let densities = chi2_density_merger(p, 0, m, t, &[], [-1.0; 4]);
            assert_eq!(densities, refusal(2, 0), "{p} {m} {t}");
        }
    }
}

#[test]
fn no_nan_is_taken_for_a_threshold() {
    for t in NANS.map(f64::from_bits) {
        let counts = chi2_count_merger(0, 0, 29, t, &[], [u32::MAX; 4]);
        assert_eq!(counts, refusal(3, 0), "{t}");
        let densities = chi2_density_merger(0, 0, 29, t, &[], [-1.0; 4]);
        assert_eq!(densities, refusal(3, 0), "{t}");
    }
}

#[test]
fn no_other_threshold_is_refused() {
    let merged = [f64::INFINITY, f64::MAX, 5e-324];
    let kept = [0.0, -0.0, -5e-324, -f64::MAX, f64::NEG_INFINITY];
    for t in merged {
        let counts = chi2_count_merger(0, 0, 0, t, &[], [4; 4]);
        assert_eq!(counts, Ok(CountMerge::Merged(16)), "{t}");
        let densities = chi2_density_merger(0, 0, 0, t, &[], [4.0; 4]);
        assert_eq!(densities, Ok(DensityMerge::Merged(4.0)), "{t}");
    }
    for t in kept {
        let counts = chi2_count_merger(0, 0, 0, t, &[], [4; 4]);
        assert_eq!(counts, Ok(CountMerge::Kept(0.0)), "{t}");
        let densities = chi2_density_merger(0, 0, 0, t, &[], [4.0; 4]);
        assert_eq!(densities, Ok(DensityMerge::Kept(0.0)), "{t}");
    }
}

/// Not even where the four would be kept, by T or by M.
#[test]
fn no_sum_past_a_u32_is_taken() {
    for (m, t) in [(0, f64::INFINITY), (0, 0.0), (29, f64::INFINITY)] {
        for child in 0..4 {
            let mut counts = [0; 4];
            counts[child] = u32::MAX;
            assert!(
                chi2_count_merger(0, 0, m, t, &[], counts).is_ok(),
                "{counts:?}"
            );
            counts[(child + 1) % 4] = 1;
            let past = chi2_count_merger(0, 0, m, t, &[], counts);
            assert_eq!(past, refusal(10, 0), "{counts:?}");
        }
        for counts in [[1 << 30; 4], [1 << 31, 1 << 31, 0, 0], [u32::MAX; 4]] {
            let past = chi2_count_merger(0, 0, m, t, &[], counts);
            assert_eq!(past, refusal(10, 0), "{counts:?}");
        }
    }
    let largest = [u32::MAX >> 2, (u32::MAX >> 2) + 1, 1 << 30, 1 << 30];
    let merged = chi2_count_merger(0, 0, 0, f64::INFINITY, &[], largest);
    assert_eq!(merged, Ok(CountMerge::Merged(u32::MAX)));
}

#[test]
fn no_invalid_density_is_taken_and_none_hides_an_earlier_one() {
    let mut invalid = NANS.map(f64::from_bits).to_vec();
    invalid.extend([-5e-324, -1.0, -f64::MAX, f64::INFINITY, f64::NEG_INFINITY]);
    for (m, t) in [(0, f64::INFINITY), (0, 0.0), (29, f64::INFINITY)] {
        for &faulty in &invalid {
            for child in 0..4 {
                let mut densities = [0.0, -0.0, f64::MAX, 5e-324];
                assert!(chi2_density_merger(0, 0, m, t, &[], densities).is_ok());
                densities[child] = faulty;
                let alone = chi2_density_merger(0, 0, m, t, &[], densities);
                assert_eq!(alone, refusal(9, child), "{densities:?}");
                densities[child..].fill(faulty);
                let first = chi2_density_merger(0, 0, m, t, &[], densities);
                assert_eq!(first, refusal(9, child), "{densities:?}");
            }
        }
    }
}

#[test]
fn a_refusal_says_its_number_its_place_and_why() {
    let refusal = are_overlapping(1, 0).unwrap_err();
    assert_eq!((refusal.number(), refusal.place()), (12, 1));
    let words = "refused by 12 at place 1: the query is not a valid zuniq, \
                 or in containing not at the map's depth";
    assert_eq!(refusal.to_string(), words);
}
