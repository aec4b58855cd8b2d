//! The scope's cases on the originals: they show that each call in `run` hands its arguments on in
//! the right order.

use oracle::run::{self, listed, unprotected};

fn zuniqs<V: Copy>(entries: &[(u8, u64, V)]) -> Vec<(u64, V)> {
    entries
        .iter()
        .map(|&(depth, hash, value)| (run::to_zuniq(depth, hash), value))
        .collect()
}

/// Under the first cell of a depth, with an empty list.
fn merge_counts(parent: u8, m: u8, t: f64, counts: [u32; 4]) -> Option<u32> {
    run::merge_counts((parent, 0), m, t, unprotected, counts)
}

#[test]
fn counts_merge_below_the_threshold_alone() {
    assert_eq!(merge_counts(0, 0, 3.0, [1, 2, 4, 4]), None);
    assert_eq!(merge_counts(0, 0, 3.5, [1, 2, 4, 4]), Some(11));
    assert_eq!(merge_counts(0, 0, 5.0, [0, 0, 0, 5]), None);
    assert_eq!(merge_counts(0, 0, 6.0, [0, 0, 0, 5]), Some(5));
    assert_eq!(merge_counts(0, 0, 0.0, [4, 4, 4, 4]), None);
    assert_eq!(merge_counts(0, 1, 6.0, [0, 0, 0, 5]), None);
}

const BELOW: [f64; 5] = [0.0, -0.0, -5e-324, -1.0, f64::NEG_INFINITY];

/// From M on, four blanks are merged at any T; the original alone has their chi below T.
#[test]
fn blank_quads_merge_at_any_threshold_from_m_on() {
    for t in BELOW {
        assert_eq!(merge_counts(0, 0, t, [0; 4]), Some(0));
        assert_eq!(merge_counts(28, 28, t, [0; 4]), Some(0));
        assert_eq!(merge_counts(0, 1, t, [0; 4]), None);
        assert_eq!(run::merge_counts_by_chi(0, 0, t, [0; 4]), None);
        for counts in [[0, 0, 0, 1], [1, 0, 0, 0], [4; 4]] {
            assert_eq!(merge_counts(0, 0, t, counts), None);
        }
    }
    for t in [5e-324, f64::INFINITY] {
        assert_eq!(merge_counts(0, 0, t, [0; 4]), Some(0));
        assert_eq!(run::merge_counts_by_chi(0, 0, t, [0; 4]), Some(0));
        assert_eq!(merge_counts(0, 1, t, [0; 4]), None);
    }
}

#[test]
fn bisection_finds_the_chi() {
    assert_eq!(run::chi_of_counts(0, [1, 2, 4, 4]), Some(3.0));
    assert_eq!(run::chi_of_counts(0, [0, 0, 0, 5]), Some(5.0));
    assert_eq!(run::chi_of_counts(0, [4, 4, 4, 4]), Some(0.0));
    assert_eq!(run::chi_of_counts(0, [0; 4]), Some(0.0));
    assert_eq!(run::chi_of_densities(0, [16.0; 4]), Some(0.0));
    assert_eq!(run::chi_of_densities(0, [f64::MAX; 4]), None);
}

#[test]
fn no_guess_changes_the_chi() {
    let guesses = [
        0.0,
        -0.0,
        3.0f64.next_down(),
        3.0,
        3.0f64.next_up(),
        f64::INFINITY,
        f64::NEG_INFINITY,
        f64::NAN,
    ];
    for guess in guesses {
        let counts = |counts| run::chi_of_counts_near(guess, 0, counts);
        assert_eq!(counts([1, 2, 4, 4]), Some(3.0));
        assert_eq!(counts([4, 4, 4, 4]).map(f64::to_bits), Some(0));
        assert_eq!(counts([0; 4]).map(f64::to_bits), Some(0));
        let densities = |densities| run::chi_of_densities_near(guess, 0, densities);
        assert_eq!(densities([16.0; 4]).map(f64::to_bits), Some(0));
        assert_eq!(densities([f64::MAX; 4]), None);
        assert_eq!(densities([f64::MAX, f64::MAX, 0.0, 0.0]), None);
    }
}

#[test]
fn full_quads_are_built_into_parents_no_shallower_than_m() {
    let ones = || (0..16).map(|hash| (hash, 1));
    assert_eq!(
        run::build_counts(2, 0, 3.5, unprotected, ones()),
        zuniqs(&[(0, 0, 16)])
    );
    let fours = zuniqs(&[(1, 0, 4), (1, 1, 4), (1, 2, 4), (1, 3, 4)]);
    assert_eq!(run::build_counts(2, 1, 3.5, unprotected, ones()), fours);
    let straddling = (1u64..5).map(|hash| (hash, 1));
    assert_eq!(
        run::build_counts(1, 0, 3.5, unprotected, straddling).len(),
        4
    );
    assert_eq!(
        run::build_densities(1, 0, 3.5, unprotected, (0..4).map(|hash| (hash, 2.0))),
        zuniqs(&[(0, 0, 2.0)])
    );
}

#[test]
fn blank_cells_are_built_into_parents_no_shallower_than_m() {
    let blanks = || (0..16).map(|hash| (hash, 0));
    let sixteen: Vec<_> = blanks().map(|(hash, n)| (2, hash, n)).collect();
    for t in BELOW {
        assert_eq!(
            run::build_counts(2, 0, t, unprotected, blanks()),
            zuniqs(&[(0, 0, 0)])
        );
        let four = zuniqs(&[(1, 0, 0), (1, 1, 0), (1, 2, 0), (1, 3, 0)]);
        assert_eq!(run::build_counts(2, 1, t, unprotected, blanks()), four);
        assert_eq!(
            run::build_counts(2, 2, t, unprotected, blanks()),
            zuniqs(&sixteen)
        );
        let by_chi = run::build_counts_by_chi(2, 0, t, blanks());
        assert_eq!(by_chi, zuniqs(&sixteen));
    }
}

#[test]
fn the_pool_splits_the_larger_cell() {
    let pool = |t| {
        let left = run::mom(0, zuniqs(&[(0, 0, 10)]));
        let right = run::mom(1, zuniqs(&[(1, 1, 3)]));
        run::pool(left, right, 0, t, unprotected)
    };
    let apart = zuniqs(&[(1, 0, 3), (1, 1, 6), (1, 2, 2), (1, 3, 2)]);
    assert_eq!(pool(2.0), (1, apart));
    assert_eq!(pool(3.5), (1, zuniqs(&[(0, 0, 13)])));
}

/// A base cell is split over one of its children, at both widths.
#[test]
fn the_pool_shares_a_remainder_from_child_h_mod_4_on() {
    for (hash, counts) in [
        (0, [2, 2, 2, 1]),
        (1, [1, 2, 2, 2]),
        (2, [2, 1, 2, 2]),
        (3, [2, 2, 1, 2]),
        (4, [2, 2, 2, 1]),
        (11, [2, 2, 1, 2]),
    ] {
        let four = [0, 1, 2, 3].map(|child| (1, 4 * hash + child, counts[child as usize]));
        for over in four {
            let left = zuniqs(&[(0, hash, 7)]);
            let right = zuniqs(&[(over.0, over.1, 0)]);
            let [l, r] = [(0, &left), (1, &right)].map(|(d, map)| run::mom(d, narrowed(map)));
            let kept = run::pool(l, r, 1, 0.0, unprotected);
            assert_eq!(kept, (1, narrowed(&zuniqs(&four))));
            let (l, r) = (run::mom(0, left), run::mom(1, right));
            let kept = run::pool(l, r, 1, 0.0, unprotected);
            assert_eq!(kept, (1, zuniqs(&four)));
        }
    }
}

fn narrowed(entries: &[(u64, u32)]) -> Vec<(u32, u32)> {
    let entries = entries.iter();
    entries
        .map(|&(zuniq, count)| (run::zuniq_from_u64_to_u32(zuniq), count))
        .collect()
}

/// (0, 1) of 7 is split into 1, 2, 2, 2, and of these (1, 7), which starts at its child 3, into 1, 0, 0, 1.
#[test]
fn the_pool_shares_by_the_hash_of_each_level_s_own_parent() {
    let left = run::mom(0, zuniqs(&[(0, 1, 7)]));
    let right = run::mom(2, zuniqs(&[(2, 29, 0)]));
    let apart = zuniqs(&[
        (1, 4, 1),
        (1, 5, 2),
        (1, 6, 2),
        (2, 28, 1),
        (2, 29, 0),
        (2, 30, 0),
        (2, 31, 1),
    ]);
    assert_eq!(run::pool(left, right, 2, 0.0, unprotected), (2, apart));
}

/// Before merging, whichever map a cell is of: what is alone, split or in both counts once.
#[test]
fn each_overlay_cell_of_a_pool_is_counted_once() {
    let (base, child) = (zuniqs(&[(0, 0, 10)]), zuniqs(&[(1, 1, 3)]));
    let apart = zuniqs(&[(1, 0, 3), (1, 1, 6), (1, 2, 2), (1, 3, 2)]);
    let count = |left: &[(u64, u32)], right: &[(u64, u32)], t, list: &[u64]| {
        let (left, right) = (run::mom(1, left.to_vec()), run::mom(1, right.to_vec()));
        run::pool_with_cells(left, right, 0, t, listed(list))
    };
    for (left, right) in [(&base, &child), (&child, &base)] {
        assert_eq!(count(left, right, 2.0, &[]), (4, apart.clone()));
        assert_eq!(count(left, right, 3.5, &[]), (4, zuniqs(&[(0, 0, 13)])));
        let protected = list(&[(0, 0)]);
        assert_eq!(count(left, right, 3.5, &protected), (4, apart.clone()));
    }
    assert_eq!(count(&base, &base, 3.5, &[]), (1, zuniqs(&[(0, 0, 20)])));
    assert_eq!(count(&apart, &[], 3.5, &[]), (4, zuniqs(&[(0, 0, 13)])));
    assert_eq!(count(&[], &[], 3.5, &[]), (0, vec![]));
}

#[test]
fn the_pool_of_blank_maps_is_merged_no_shallower_than_m() {
    let maps = || {
        let left = run::mom(0, zuniqs(&[(0, 0, 0)]));
        let right = run::mom(1, zuniqs(&[(1, 1, 0)]));
        (left, right)
    };
    let apart = zuniqs(&[(1, 0, 0), (1, 1, 0), (1, 2, 0), (1, 3, 0)]);
    for t in BELOW {
        let (left, right) = maps();
        assert_eq!(
            run::pool(left, right, 0, t, unprotected),
            (1, zuniqs(&[(0, 0, 0)]))
        );
        let (left, right) = maps();
        assert_eq!(
            run::pool(left, right, 1, t, unprotected),
            (1, apart.clone())
        );
        let (left, right) = maps();
        assert_eq!(run::pool_by_chi(left, right, 0, t), (1, apart.clone()));
    }
}

#[test]
fn the_product_drops_what_is_alone() {
    let maps = || {
        let left = run::mom(0, zuniqs(&[(0, 0, 2.0)]));
        let right = run::mom(1, zuniqs(&[(1, 2, 3.0)]));
        (left, right)
    };
    let both = (1, zuniqs(&[(1, 2, 6.0)]));
    let (left, right) = maps();
    assert_eq!(run::product_by_chi(left, right, 1.0, 0, 0.0), both);
    let (left, right) = maps();
    assert_eq!(run::product(left, right, 1.0, 0, 0.0, unprotected), both);
}

#[test]
fn a_map_is_checked_and_looked_up() {
    let entries = zuniqs(&[(1, 0, 5), (1, 2, 7)]);
    let mom = run::mom(1, entries.clone());
    let third = entries[1];
    assert_eq!(run::check_is_mom(&mom), Ok(()));
    assert_eq!(run::get_cell_containing(&mom, third.0), Ok(Some(third)));
    let none = run::get_copy_of_cell_containing(&mom, run::to_zuniq(1, 1));
    assert_eq!(none, Ok(None));
    assert_eq!(run::get_overlapped_cells(&mom, third.0), [third]);
}

#[test]
fn rows_come_back() {
    let entries = zuniqs(&[(0, 3, 7u32), (29, 10 << 58, 9)]);
    let (bytes, written) = run::write_rows(entries.clone());
    assert_eq!((bytes.len(), written), (24, 24));
    assert_eq!(run::read_rows::<u64, u32>(&bytes), entries);
    assert_eq!(run::rows_check_is_mom::<u64, u32>(0, &bytes), Ok(()));
    let first = run::rows_containing::<u64, u32>(0, &bytes, entries[0].0);
    assert_eq!(first, Ok(Some(entries[0])));
}

#[test]
fn a_density_is_a_count_by_area() {
    let area = 4.0 * std::f64::consts::PI / 12.0;
    assert_eq!(run::density::<u64>(5, 0), 5.0 / area);
}

/// (0, 3) with 7 and (13, 10 × 4^13) with 9, at both widths.
const WIDE: [(u64, u32); 2] = [(7 << 58, 7), ((20 << 58) + (1 << 32), 9)];
const NARROW: [(u32, u32); 2] = [(7 << 26, 7), ((20 << 26) + 1, 9)];

#[test]
fn narrow_maps_are_checked_looked_up_and_built() {
    let cells = [(0, 3), (13, 10 << 26)];
    assert_eq!(
        cells.map(|(d, h)| run::trait_to_zuniq(d, h)),
        NARROW.map(|entry| entry.0)
    );
    assert_eq!(NARROW.map(|(z, _)| run::trait_from_zuniq(z)), cells);
    let [first, last] = NARROW;
    assert!(!run::are_overlapping(first.0, last.0));
    let mom = run::mom(13, NARROW.to_vec());
    assert_eq!(run::get_cell_containing(&mom, last.0), Ok(Some(last)));
    assert_eq!(run::get_overlapped_cells(&mom, last.0), [last]);
    let ones = (0..16u32).map(|hash| (hash, 1));
    assert_eq!(
        run::build_counts(2, 0, 3.5, unprotected, ones),
        [(1 << 26, 16)]
    );
    let blanks = || (0..16u32).map(|hash| (hash, 0));
    assert_eq!(
        run::build_counts(2, 0, 0.0, unprotected, blanks()),
        [(1 << 26, 0)]
    );
    assert_eq!(run::build_counts(2, 1, 0.0, unprotected, blanks()).len(), 4);
    assert_eq!(run::build_counts_by_chi(2, 0, 0.0, blanks()).len(), 16);
}

#[test]
fn narrow_rows_come_back() {
    let (bytes, written) = run::write_rows(NARROW.to_vec());
    assert_eq!((bytes.len(), written), (16, 16));
    assert_eq!(run::read_rows::<u32, u32>(&bytes), NARROW);
}

#[test]
fn maps_are_moved_between_the_widths() {
    let (wide, narrow) = ((13, WIDE.to_vec()), (13, NARROW.to_vec()));
    assert_eq!(run::to_zuniq_u32(run::mom(13, WIDE.to_vec())), narrow);
    assert_eq!(run::to_zuniq_u64(run::mom(13, NARROW.to_vec())), wide);
    let (bytes, _) = run::write_rows(WIDE.to_vec());
    assert_eq!(run::rows_to_zuniq_u32(13, &bytes), narrow);
    let (bytes, _) = run::write_rows(NARROW.to_vec());
    assert_eq!(run::rows_to_zuniq_u64(13, &bytes), wide);
    for ((wide, _), (narrow, _)) in WIDE.into_iter().zip(NARROW) {
        assert_eq!(run::zuniq_from_u64_to_u32(wide), narrow);
        assert_eq!(run::zuniq_from_u32_to_u64(narrow), wide);
    }
}

// ---- Protected parents

/// The zuniqs of cells, a list of protected parents.
fn list(cells: &[(u8, u64)]) -> Vec<u64> {
    let zuniqs = cells.iter().map(|&(d, h)| run::to_zuniq(d, h));
    zuniqs.collect()
}

/// Both ways of looking a parent up.
#[test]
fn a_parent_is_listed_by_its_depth_and_hash() {
    let list = list(&[(1, 0), (0, 0), (2, 17), (0, 3)]);
    for (depth, hash, is_listed) in [
        (1, 0, true),
        (0, 0, true),
        (2, 17, true),
        (0, 3, true),
        (0, 1, false),
        (1, 4, false),
        (2, 0, false),
        (3, 0, false),
        (1, 3, false),
    ] {
        assert_eq!(listed(&list)(depth, hash), is_listed);
        assert_eq!(run::searched(&list)(depth, hash), is_listed);
        assert!(!listed(&[])(depth, hash));
        assert!(!run::searched(&[])(depth, hash));
        assert!(!unprotected(depth, hash));
    }
}

#[test]
fn a_quad_is_kept_under_a_listed_parent_blank_or_not() {
    let list = list(&[(0, 5), (28, 9)]);
    for t in BELOW.into_iter().chain([5e-324, f64::INFINITY]) {
        for parent in [(0, 5), (28, 9)] {
            let counts = |m, counts| run::merge_counts(parent, m, t, listed(&list), counts);
            assert_eq!(counts(0, [1; 4]), None);
            assert_eq!(counts(0, [0, 0, 0, 1]), None);
            assert_eq!(counts(0, [0; 4]), None);
            assert_eq!(counts(29, [0; 4]), None);
            let densities = |m| run::merge_densities(parent, 0, t, listed(&list), [m; 4]);
            assert_eq!((densities(8.0), densities(0.0)), (None, None));
        }
        for parent in [(0, 4), (1, 5), (28, 8)] {
            let counts = |counts| run::merge_counts(parent, 0, t, listed(&list), counts);
            assert_eq!(counts([1; 4]), (t > 0.0).then_some(4));
            assert_eq!(counts([0; 4]), Some(0));
        }
    }
    for parent in [(0, 4), (1, 5), (28, 8)] {
        let densities = run::merge_densities(parent, 0, f64::INFINITY, listed(&list), [8.0; 4]);
        assert_eq!(densities, Some(8.0));
    }
}

/// Under a listed (1, 1) the cells stay, and with them the rest of (0, 0).
#[test]
fn cells_are_built_into_no_listed_parent() {
    let list = list(&[(1, 1)]);
    let kept = [(1, 0), (2, 4), (2, 5), (2, 6), (2, 7), (1, 2), (1, 3)];
    let t = f64::INFINITY;
    let ones = (0..16).map(|hash| (hash, 1));
    let counts = kept.map(|(depth, hash)| (depth, hash, 4u32.pow(2 - depth as u32)));
    let built = run::build_counts(2, 0, t, listed(&list), ones);
    assert_eq!(built, zuniqs(&counts));
    let blanks = (0..16).map(|hash| (hash, 0));
    for t in BELOW {
        let built = run::build_counts(2, 0, t, listed(&list), blanks.clone());
        assert_eq!(built, zuniqs(&kept.map(|(depth, hash)| (depth, hash, 0))));
    }
    let eights = (0..16).map(|hash| (hash, 8.0));
    let densities = kept.map(|(depth, hash)| (depth, hash, 8.0));
    let built = run::build_densities(2, 0, t, listed(&list), eights);
    assert_eq!(built, zuniqs(&densities));
    let narrow = [run::trait_to_zuniq(0, 0u32)];
    for count in [0, 1] {
        let alike = (0..4u32).map(|hash| (hash, count));
        assert_eq!(run::build_counts(1, 0, t, listed(&narrow), alike).len(), 4);
    }
}

#[test]
fn maps_are_combined_into_no_listed_parent() {
    let (base, child) = (list(&[(0, 0)]), list(&[(1, 0)]));
    let t = f64::INFINITY;
    let pool = |list: &[u64], [left, right]: [u32; 2]| {
        let left = run::mom(0, zuniqs(&[(0, 0, left)]));
        let right = run::mom(1, zuniqs(&[(1, 1, right)]));
        run::pool(left, right, 0, t, listed(list)).1
    };
    let apart = [(1, 0, 3), (1, 1, 6), (1, 2, 2), (1, 3, 2)];
    assert_eq!(pool(&base, [10, 3]), zuniqs(&apart));
    assert_eq!(pool(&child, [10, 3]), zuniqs(&[(0, 0, 13)]));
    let blanks = apart.map(|(depth, hash, _)| (depth, hash, 0));
    assert_eq!(pool(&base, [0; 2]), zuniqs(&blanks));
    assert_eq!(pool(&child, [0; 2]), zuniqs(&[(0, 0, 0)]));
    let four = [0, 1, 2, 3].map(|hash| (1, hash, 4.0));
    let product = |list: &[u64]| {
        let left = run::mom(0, zuniqs(&[(0, 0, 2.0)]));
        let right = run::mom(1, zuniqs(&four));
        run::product(left, right, 1.0, 0, t, listed(list)).1
    };
    let eights = four.map(|(depth, hash, _)| (depth, hash, 8.0));
    assert_eq!(product(&base), zuniqs(&eights));
    assert_eq!(product(&child), zuniqs(&[(0, 0, 8.0)]));
}
