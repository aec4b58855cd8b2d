//! Every intended difference from the original, outside valid values, on blank sky and under protected
//! parents, at its smallest input: what the original does where its arithmetic panics (`checked`) and where it wraps
//! (`release`), and what ours answers.

use std::{
    fmt::Debug,
    panic::{catch_unwind, AssertUnwindSafe},
};

use mom::{rows, Added, CountMerge, DensityMerge, Fault, MapCheck, Refusal};
use oracle::run;

/// The first number past the last zuniq that doesn't end in 60 or more zeros.
const PAST_LAST: u64 = 6917529027641081857;

fn refused<T>(number: u8, place: usize) -> Result<T, Refusal> {
    Err(Refusal::of(number, place).unwrap())
}

fn panics<T>(call: impl FnOnce() -> T) -> bool {
    catch_unwind(AssertUnwindSafe(call)).is_err()
}

/// The call panics under `checked` and answers `wrapped` under `release`.
fn assert_overflows<T: Debug + PartialEq>(call: impl FnOnce() -> T, wrapped: T) {
    if cfg!(debug_assertions) {
        assert!(panics(call));
    } else {
        assert_eq!(call(), wrapped);
    }
}

#[test]
fn n_hash_refuses_where_the_original_panics() {
    assert!(panics(|| run::n_hash(30)));
    assert_eq!(mom::n_hash(30), refused(1, 0));
}

/// The panic of the original's checked `to_zuniq` stands in our stand-in for its lib.rs.
#[test]
fn to_zuniq_refuses_a_depth_over_29() {
    assert!(panics(|| run::to_zuniq(30, 0)));
    assert_overflows(|| run::to_zuniq_unsafe(30, 0), 1 << 62);
    assert_overflows(|| run::trait_to_zuniq(30, 0u64), 1 << 62);
    assert_eq!(mom::to_zuniq(30, 0), refused(1, 0));
}

/// Depth 61 is the first whose wrapped shift is 0, so that it gives the zuniq of (29, 0).
#[test]
fn to_zuniq_gives_no_cell_of_another_depth() {
    assert_overflows(|| run::to_zuniq_unsafe(61, 0), 1);
    assert_overflows(|| run::trait_to_zuniq(61, 0u64), 1);
    assert_eq!(mom::to_zuniq(61, 0), refused(1, 0));
}

#[test]
fn to_zuniq_refuses_a_hash_out_of_range() {
    let answered = 25 << 58;
    assert_eq!(run::to_zuniq(0, 12), answered);
    assert_eq!(run::trait_to_zuniq(0, 12u64), answered);
    assert_eq!(mom::from_zuniq(answered), None);
    assert_eq!(mom::to_zuniq(0, 12), refused(7, 0));
}

/// A shift that loses bits is no overflow to Rust: (0, 32) gets the zuniq of (0, 0), and at the
/// largest depth (29, 2^63) gets that of (29, 0).
#[test]
fn to_zuniq_loses_no_bits() {
    for (depth, hash) in [(0, 32), (29, 1 << 63)] {
        let of_first = run::to_zuniq(depth, 0);
        assert_eq!(run::to_zuniq(depth, hash), of_first);
        assert_eq!(run::trait_to_zuniq(depth, hash), of_first);
        assert_eq!(mom::to_zuniq(depth, hash), refused(7, 0));
    }
}

#[test]
fn from_zuniq_of_0_and_of_60_or_more_trailing_zeros_is_none() {
    let wrapped = [
        (0, (253, 0)),
        (1 << 60, (255, 0)),
        (3 << 61, (255, 1)),
        (1 << 63, (254, 1 << 63)),
    ];
    for (zuniq, cell) in wrapped {
        assert_overflows(|| run::from_zuniq(zuniq), cell);
        assert_overflows(|| run::trait_from_zuniq(zuniq), cell);
        assert_eq!(mom::from_zuniq(zuniq), None);
    }
}

#[test]
fn from_zuniq_of_an_odd_number_of_trailing_zeros_is_none() {
    for (zuniq, cell) in [(2, (29, 0)), (1 << 59, (0, 0))] {
        assert_eq!(run::from_zuniq(zuniq), cell);
        assert_eq!(run::trait_from_zuniq(zuniq), cell);
        assert_ne!(run::to_zuniq(cell.0, cell.1), zuniq);
        assert_eq!(mom::from_zuniq(zuniq), None);
    }
}

#[test]
fn from_zuniq_past_the_last_one_is_none() {
    let out_of_range = (29, run::n_hash(29));
    assert_eq!(run::from_zuniq(PAST_LAST), out_of_range);
    assert_eq!(run::trait_from_zuniq(PAST_LAST), out_of_range);
    assert_eq!(mom::from_zuniq(PAST_LAST), None);
}

#[test]
fn are_overlapping_refuses_what_overflows() {
    for (left, right, place) in [(0, 0, 0), (0, 1, 0), (1, 0, 1), (1, 1 << 60, 1)] {
        assert_overflows(|| run::are_overlapping(left, right), true);
        assert_eq!(mom::are_overlapping(left, right), refused(12, place));
    }
}

#[test]
fn are_overlapping_refuses_what_is_no_zuniq() {
    for (left, right, place) in [(1, 2, 1), (2, 1, 0), (PAST_LAST, PAST_LAST, 0)] {
        assert!(run::are_overlapping(left, right));
        assert_eq!(mom::are_overlapping(left, right), refused(12, place));
    }
}

/// Ours under the first parent of a depth, with an empty list.
fn count_merger(parent: u8, m: u8, t: f64, counts: [u32; 4]) -> Result<CountMerge, Refusal> {
    mom::chi2_count_merger(parent, 0, m, t, &[], counts)
}

fn density_merger(parent: u8, m: u8, t: f64, densities: [f64; 4]) -> Result<DensityMerge, Refusal> {
    mom::chi2_density_merger(parent, 0, m, t, &[], densities)
}

/// The original's count merger takes any depth; its density merger reads the number of cells one
/// depth further down, where its table ends. At 255 that depth wraps to 0.
#[test]
fn the_mergers_refuse_a_parent_depth_over_28() {
    assert_eq!(run::merge_counts_by_chi(29, 0, 1.0, [0; 4]), Some(0));
    assert_eq!(count_merger(29, 0, 1.0, [0; 4]), refused(1, 0));
    for parent in [29, 254] {
        assert!(panics(|| run::merge_densities_by_chi(
            parent, 0, 1.0, [0.0; 4]
        )));
        let ours = density_merger(parent, 0, 1.0, [0.0; 4]);
        assert_eq!(ours, refused(1, 0));
    }
    assert_overflows(
        || run::merge_densities_by_chi(255, 0, 1.0, [0.0; 4]),
        Some(0.0),
    );
    let ours = density_merger(255, 0, 1.0, [0.0; 4]);
    assert_eq!(ours, refused(1, 0));
}

/// The original keeps the four, as at any M above the parent's depth.
#[test]
fn the_mergers_refuse_a_depth_threshold_over_29() {
    assert_eq!(run::merge_counts_by_chi(0, 30, 1.0, [0; 4]), None);
    assert_eq!(count_merger(0, 30, 1.0, [0; 4]), refused(2, 0));
    assert_eq!(run::merge_densities_by_chi(0, 30, 1.0, [0.0; 4]), None);
    let ours = density_merger(0, 30, 1.0, [0.0; 4]);
    assert_eq!(ours, refused(2, 0));
}

/// The original keeps the four, no chi being below a NaN.
#[test]
fn the_mergers_refuse_a_threshold_that_is_nan() {
    let t = f64::NAN;
    assert_eq!(run::merge_counts_by_chi(0, 0, t, [0; 4]), None);
    assert_eq!(count_merger(0, 0, t, [0; 4]), refused(3, 0));
    assert_eq!(run::merge_densities_by_chi(0, 0, t, [0.0; 4]), None);
    let ours = density_merger(0, 0, t, [0.0; 4]);
    assert_eq!(ours, refused(3, 0));
}

#[test]
fn the_count_merger_refuses_a_sum_that_overflows() {
    let counts = [u32::MAX, 1, 0, 0];
    let t = f64::INFINITY;
    assert_overflows(|| run::merge_counts_by_chi(0, 0, t, counts), Some(0));
    assert_eq!(count_merger(0, 0, t, counts), refused(10, 0));
}

/// By T or by M: the original then never adds them up.
#[test]
fn the_count_merger_refuses_a_sum_that_overflows_of_counts_that_are_kept() {
    let counts = [u32::MAX, 1, 0, 0];
    for (m, t) in [(0, 0.0), (1, f64::INFINITY)] {
        assert_eq!(run::merge_counts_by_chi(0, m, t, counts), None);
        assert_eq!(count_merger(0, m, t, counts), refused(10, 0));
    }
}

/// T of 0 or less.
const NOT_ABOVE_0: [f64; 5] = [0.0, -0.0, -5e-324, -1.0, f64::NEG_INFINITY];

/// Their chi is 0, and the original merges what is below T. Where one of them isn't blank, below M, and
/// under a listed parent, ours keeps them too.
#[test]
fn the_count_merger_merges_four_blanks_at_a_threshold_of_0_or_less() {
    for t in NOT_ABOVE_0 {
        assert_eq!(run::merge_counts_by_chi(0, 0, t, [0; 4]), None);
        let ours = count_merger(0, 0, t, [0; 4]);
        assert_eq!(ours, Ok(CountMerge::Merged(0)));
        for (m, counts, chi) in [(1, [0; 4], 0.0), (0, [0, 0, 0, 1], 1.0), (0, [4; 4], 0.0)] {
            assert_eq!(run::merge_counts_by_chi(0, m, t, counts), None);
            let ours = count_merger(0, m, t, counts);
            assert_eq!(ours, Ok(CountMerge::Kept(chi)));
        }
        let list = zuniqs([(0, 1)]);
        for (hash, answer) in [(1, CountMerge::Kept(0.0)), (2, CountMerge::Merged(0))] {
            let ours = mom::chi2_count_merger(0, hash, 0, t, &list, [0; 4]);
            assert_eq!(ours, Ok(answer));
        }
    }
}

/// The original has no list: it merges what ours keeps, with its chi, blank or not.
#[test]
fn the_mergers_keep_four_under_a_listed_parent() {
    let t = f64::INFINITY;
    for (parent, hash) in [(0, 0), (0, 11), (28, 5)] {
        let list = zuniqs([(parent, hash)]);
        for count in [4, 0] {
            let merged = run::merge_counts_by_chi(parent, 0, t, [count; 4]);
            assert_eq!(merged, Some(4 * count));
            let ours = mom::chi2_count_merger(parent, hash, 0, t, &list, [count; 4]);
            assert_eq!(ours, Ok(CountMerge::Kept(0.0)));
        }
        // Above c at every depth, and without rounding.
        let m = 2f64.powi(100);
        let merged = run::merge_densities_by_chi(parent, 0, t, [m; 4]);
        assert_eq!(merged, Some(m));
        let ours = mom::chi2_density_merger(parent, hash, 0, t, &list, [m; 4]);
        assert_eq!(ours, Ok(DensityMerge::Kept(0.0)));
    }
}

/// The original's mergers make no use of the hash.
#[test]
fn the_mergers_refuse_a_parent_hash_out_of_range() {
    for (parent, hash) in [(0, 12), (28, 12 << 56), (0, u64::MAX)] {
        let merged = run::merge_counts((parent, hash), 0, 1.0, run::unprotected, [4; 4]);
        assert_eq!(merged, Some(16));
        let ours = mom::chi2_count_merger(parent, hash, 0, 1.0, &[], [4; 4]);
        assert_eq!(ours, refused(7, 0));
        let ours = mom::chi2_density_merger(parent, hash, 0, 1.0, &[], [4.0; 4]);
        assert_eq!(ours, refused(7, 0));
    }
}

/// Lists that are none, with the first place where they are not.
const NO_LISTS: [(&[u64], usize); 6] = [
    (&[0], 0),
    (&[2], 0),
    (&[PAST_LAST], 0),
    (&[4, 1 << 60], 1),
    (&[4, 4], 1),
    (&[4, 20, 12], 2),
];

#[test]
fn every_call_with_a_list_refuses_one_that_is_none() {
    for (list, place) in NO_LISTS {
        let ours = mom::chi2_count_merger(0, 0, 0, 1.0, list, [0; 4]);
        assert_eq!(ours, refused(15, place));
        let ours = mom::chi2_density_merger(0, 0, 0, 1.0, list, [0.0; 4]);
        assert_eq!(ours, refused(15, place));
        let ours = mom::add_counts(1, 0, 1.0, list, 0, &mut [], &mut [], &[], &[]);
        assert_eq!(ours, refused(15, place));
        let ours = mom::add_densities(1, 0, 1.0, list, 0, &mut [], &mut [], &[], &[]);
        assert_eq!(ours, refused(15, place));
    }
}

/// A negative density lowers chi, to −∞ at the least, so that the original merges.
#[test]
fn the_density_merger_refuses_what_is_below_0() {
    let merged = [
        (-5e-324, -0.0),
        (-1.0, -0.25),
        (f64::NEG_INFINITY, f64::NEG_INFINITY),
    ];
    for (faulty, density) in merged {
        for child in 0..4 {
            let mut densities = [0.0; 4];
            densities[child] = faulty;
            let answer = run::merge_densities_by_chi(0, 0, 0.0, densities).map(f64::to_bits);
            assert_eq!(answer, Some(f64::to_bits(density)), "{densities:?}");
            let ours = density_merger(0, 0, 0.0, densities);
            assert_eq!(ours, refused(9, child));
        }
    }
}

/// The sum and chi are NaN or infinite, so that the original keeps the four at any T.
#[test]
fn the_density_merger_refuses_what_is_nan_or_infinite() {
    let t = f64::INFINITY;
    for faulty in [f64::NAN, f64::INFINITY] {
        for child in 0..4 {
            let mut densities = [0.0; 4];
            densities[child] = faulty;
            assert_eq!(run::merge_densities_by_chi(0, 0, t, densities), None);
            let ours = density_merger(0, 0, t, densities);
            assert_eq!(ours, refused(9, child));
        }
    }
}

/// The zuniqs of the cells, as the scope defines them.
fn zuniqs<const N: usize>(cells: [(u8, u64); N]) -> [u64; N] {
    cells.map(|(depth, hash)| (2 * hash + 1) << (2 * (29 - depth)))
}

/// The original's map with each entry's place as its value, and what it answers of it.
fn original_overlapped(map: &[u64], zuniq: u64) -> Vec<(u64, u32)> {
    let entries = map.iter().copied().zip(0..).collect();
    run::get_overlapped_cells(&run::mom(29, entries), zuniq)
}

/// The original takes 1 from the search place, and the wrapped place lies outside its entries.
#[test]
fn get_overlapped_cells_answers_where_no_entry_stands_before_the_query() {
    let [cell] = zuniqs([(0, 0)]);
    assert!(panics(|| original_overlapped(&[], cell)));
    assert_eq!(mom::get_overlapped_cells(&[], cell), Ok((0, &[][..])));
    assert!(panics(|| original_overlapped(&[cell], cell)));
    assert_eq!(
        mom::get_overlapped_cells(&[cell], cell),
        Ok((0, &[cell][..]))
    );
}

#[test]
fn get_overlapped_cells_finds_entry_0_over_the_query() {
    let map = zuniqs([(0, 11)]);
    let [query] = zuniqs([(1, 47)]);
    assert_eq!(original_overlapped(&map, query), []);
    assert_eq!(mom::get_overlapped_cells(&map, query), Ok((0, &map[..])));
}

#[test]
fn get_overlapped_cells_finds_entry_0_in_the_query() {
    let map = zuniqs([(2, 0), (2, 1)]);
    let [query] = zuniqs([(0, 0)]);
    assert_eq!(original_overlapped(&map, query), [(map[1], 1)]);
    assert_eq!(mom::get_overlapped_cells(&map, query), Ok((0, &map[..])));
}

/// The original reads 6 as (29, 1).
#[test]
fn get_overlapped_cells_refuses_what_is_no_zuniq() {
    let map = zuniqs([(29, 0), (29, 1)]);
    assert_eq!(original_overlapped(&map, 6), [(map[1], 1)]);
    assert_eq!(mom::get_overlapped_cells(&map, 6), refused(12, 0));
}

fn original_check(depth: u8, map: &[u64]) -> Result<(), String> {
    let entries = map.iter().map(|&zuniq| (zuniq, 0u32)).collect();
    run::check_is_mom(&run::mom(depth, entries))
}

/// The original's test of the depths is reversed.
#[test]
fn check_is_mom_takes_entries_above_the_map_s_depth() {
    let map = zuniqs([(1, 2), (1, 4)]);
    let error = original_check(2, &map).unwrap_err();
    assert!(error.starts_with("Element has a larger depth"), "{error}");
    assert_eq!(mom::check_is_mom(2, &map), Ok(MapCheck::Valid));
    // One entry is both the first and the last, whose depth the original never tests.
    assert_eq!(original_check(2, &map[..1]), Ok(()));
    assert_eq!(mom::check_is_mom(2, &map[..1]), Ok(MapCheck::Valid));
}

#[test]
fn check_is_mom_finds_what_is_too_deep() {
    for map in [&zuniqs([(1, 0)])[..], &zuniqs([(1, 0), (1, 1)])] {
        assert_eq!(original_check(0, map), Ok(()));
        let too_deep = MapCheck::Faulty {
            place: 0,
            fault: Fault::TooDeep,
        };
        assert_eq!(mom::check_is_mom(0, map), Ok(too_deep));
    }
}

#[test]
fn check_is_mom_finds_what_is_no_zuniq() {
    let at_0 = Ok(MapCheck::Faulty {
        place: 0,
        fault: Fault::NotAZuniq,
    });
    assert_overflows(|| original_check(0, &[0]), Ok(()));
    assert_eq!(mom::check_is_mom(0, &[0]), at_0);
    assert_eq!(original_check(29, &[2]), Ok(()));
    assert_eq!(mom::check_is_mom(29, &[2]), at_0);
}

/// The original never looks at the map's depth itself.
#[test]
fn check_is_mom_refuses_a_depth_over_29() {
    assert_eq!(original_check(30, &[]), Ok(()));
    assert_eq!(mom::check_is_mom(30, &[]), refused(1, 0));
}

/// What ours makes of one batch, with places enough, and what then stands in the first of them.
fn added(
    (depth, m, t): (u8, u8, f64),
    cells: &[(u64, u32)],
) -> (Result<Added, Refusal>, (u64, u32)) {
    let (hashes, batch): (Vec<u64>, Vec<u32>) = cells.iter().copied().unzip();
    let (mut zuniqs, mut counts) = ([77; 8], [77; 8]);
    let answer = mom::add_counts(
        depth,
        m,
        t,
        &[],
        0,
        &mut zuniqs,
        &mut counts,
        &hashes,
        &batch,
    );
    (answer, (zuniqs[0], counts[0]))
}

/// The entries that ours builds from one batch.
fn our_counts((depth, m, t): (u8, u8, f64), cells: &[(u64, u32)]) -> Vec<(u64, u32)> {
    let (hashes, batch): (Vec<u64>, Vec<u32>) = cells.iter().copied().unzip();
    let (mut zuniqs, mut counts) = (vec![77; cells.len()], vec![77; cells.len()]);
    let answer = mom::add_counts(
        depth,
        m,
        t,
        &[],
        0,
        &mut zuniqs,
        &mut counts,
        &hashes,
        &batch,
    );
    let entries = zuniqs.into_iter().zip(counts);
    entries.take(answer.unwrap().entries).collect()
}

fn original_built((depth, m, t): (u8, u8, f64), cells: &[(u64, u32)]) -> Vec<(u64, u32)> {
    run::build_counts_by_chi(depth, m, t, cells.iter().copied())
}

fn assert_refused(setting: (u8, u8, f64), cells: &[(u64, u32)], number: u8, place: usize) {
    let (answer, first) = added(setting, cells);
    assert_eq!(answer, refused(number, place));
    assert_eq!(first, (77, 77));
}

/// The original looks for parents at the depth before 0. Where that wraps, four cells are merged
/// into one whose parent depth 255 is above every M.
#[test]
fn add_counts_appends_base_cells() {
    assert_overflows(|| original_built((0, 0, 3.0), &[]), vec![]);
    assert_eq!(our_counts((0, 0, 3.0), &[]), []);
    let cells = [(0, 2), (1, 2), (2, 2), (3, 2)];
    let setting = (0, 4, 3.0);
    assert_overflows(|| original_built(setting, &cells), vec![(1 << 60, 8)]);
    let kept = cells.map(|(hash, count)| (run::to_zuniq(0, hash), count));
    assert_eq!(our_counts(setting, &cells), kept);
}

/// The original appends what comes.
#[test]
fn add_counts_refuses_a_cell_that_is_not_above_the_one_before() {
    for (cells, place) in [([(0, 1), (0, 1)], 1), ([(1, 1), (0, 1)], 1)] {
        let appended = cells.map(|(hash, count)| (run::to_zuniq(1, hash), count));
        assert_eq!(original_built((1, 0, 3.5), &cells), appended);
        assert_refused((1, 0, 3.5), &cells, 8, place);
    }
}

#[test]
fn add_counts_refuses_a_hash_out_of_range() {
    let appended = [(run::to_zuniq(1, 48), 1)];
    assert_eq!(original_built((1, 0, 3.5), &[(48, 1)]), appended);
    assert_refused((1, 0, 3.5), &[(48, 1)], 7, 0);
}

/// The original adds up only what it merges.
#[test]
fn add_counts_refuses_counts_that_overflow_together() {
    let cells = [(0, u32::MAX), (1, 1), (2, 0), (3, 0)];
    let merged = vec![(run::to_zuniq(0, 0), 0)];
    assert_overflows(|| original_built((1, 0, f64::INFINITY), &cells), merged);
    assert_refused((1, 0, f64::INFINITY), &cells, 10, 1);
    let appended = cells.map(|(hash, count)| (run::to_zuniq(1, hash), count));
    assert_eq!(original_built((1, 0, 0.0), &cells), appended);
    assert_refused((1, 0, 0.0), &cells, 10, 1);
}

/// The original keeps all, as with the mergers alone.
#[test]
fn add_counts_refuses_a_depth_threshold_over_29_and_a_threshold_that_is_nan() {
    let cells = [(0, 1), (1, 1), (2, 1), (3, 1)];
    for (setting, number) in [((1, 30, 3.5), 2), ((1, 0, f64::NAN), 3)] {
        assert_eq!(original_built(setting, &cells).len(), 4);
        assert_refused(setting, &cells, number, 0);
    }
}

/// The original keeps all, at every level; ours goes on up to M.
#[test]
fn add_counts_merges_blanks_at_a_threshold_of_0_or_less() {
    let blanks = |cells| (0..cells).map(|hash| (hash, 0)).collect::<Vec<_>>();
    for t in NOT_ABOVE_0 {
        for (depth, cells, m, depth_of_merged) in [(1, 4, 0, 0), (2, 16, 0, 0), (2, 16, 1, 1)] {
            let cells = blanks(cells);
            let kept = cells.iter().map(|&(h, n)| (run::to_zuniq(depth, h), n));
            assert!(kept.eq(original_built((depth, m, t), &cells)));
            let merged = (0..4u64.pow(depth_of_merged as u32))
                .map(|hash| (run::to_zuniq(depth_of_merged, hash), 0));
            assert!(merged.eq(our_counts((depth, m, t), &cells)));
        }
    }
}

/// The original merges (1, 0) to (1, 3) into (0, 0); the list keeps them, and blanks as well.
#[test]
fn the_add_calls_keep_four_under_a_listed_parent() {
    let list = zuniqs([(0, 0)]);
    let hashes = [0, 1, 2, 3];
    let four = zuniqs(hashes.map(|hash| (1, hash)));
    let t = f64::INFINITY;
    for count in [1, 0] {
        let cells = hashes.map(|hash| (hash, count));
        assert_eq!(original_built((1, 0, t), &cells).len(), 1);
        let (mut zuniqs, mut counts) = ([77; 4], [77; 4]);
        let (z, n) = (&mut zuniqs, &mut counts);
        let ours = mom::add_counts(1, 0, t, &list, 0, z, n, &hashes, &[count; 4]);
        let (entries, total) = (4, 4 * count);
        assert_eq!(ours, Ok(Added { entries, total }));
        assert_eq!((zuniqs, counts), (four, [count; 4]));
    }
    for density in [0.0, 8.0] {
        let cells = hashes.map(|hash| (hash, density));
        assert_eq!(original_densities((1, 0, t), &cells).len(), 1);
        let (mut zuniqs, mut densities) = ([77; 4], [77.0; 4]);
        let (z, m) = (&mut zuniqs, &mut densities);
        let ours = mom::add_densities(1, 0, t, &list, 0, z, m, &hashes, &[density; 4]);
        assert_eq!(ours, Ok(4));
        assert_eq!((zuniqs, densities), (four, [density; 4]));
    }
}

/// What ours makes of one batch of densities, with places enough: a refusal that touches nothing.
fn assert_densities_refused(
    (depth, m, t): (u8, u8, f64),
    cells: &[(u64, f64)],
    number: u8,
    place: usize,
) {
    let (hashes, batch): (Vec<u64>, Vec<f64>) = cells.iter().copied().unzip();
    let (mut zuniqs, mut densities) = ([77; 8], [77.0; 8]);
    let (z, d) = (&mut zuniqs, &mut densities);
    let answer = mom::add_densities(depth, m, t, &[], 0, z, d, &hashes, &batch);
    assert_eq!(answer, refused(number, place));
    assert_eq!((zuniqs, densities), ([77; 8], [77.0; 8]));
}

/// The original's entries, with the bits of their densities.
fn original_densities((depth, m, t): (u8, u8, f64), cells: &[(u64, f64)]) -> Vec<(u64, u64)> {
    let entries = run::build_densities_by_chi(depth, m, t, cells.iter().copied()).into_iter();
    entries.map(|(zuniq, m)| (zuniq, m.to_bits())).collect()
}

fn appended(cells: &[(u64, f64)]) -> Vec<(u64, u64)> {
    let cells = cells.iter();
    cells
        .map(|&(hash, density)| (run::to_zuniq(1, hash), density.to_bits()))
        .collect()
}

/// The entries that ours builds from one batch, with the bits of their densities.
fn our_densities((depth, m, t): (u8, u8, f64), cells: &[(u64, f64)]) -> Vec<(u64, u64)> {
    let (hashes, batch): (Vec<u64>, Vec<f64>) = cells.iter().copied().unzip();
    let (mut zuniqs, mut densities) = (vec![77; cells.len()], vec![77.0; cells.len()]);
    let (z, d) = (&mut zuniqs, &mut densities);
    let entries = mom::add_densities(depth, m, t, &[], 0, z, d, &hashes, &batch).unwrap();
    let bits = densities.into_iter().map(f64::to_bits);
    zuniqs.into_iter().zip(bits).take(entries).collect()
}

/// Where the parent depth wraps to 255, the depth of the children wraps to 0 again.
#[test]
fn add_densities_appends_base_cells() {
    assert_overflows(|| original_densities((0, 0, 3.0), &[]), vec![]);
    assert_eq!(our_densities((0, 0, 3.0), &[]), []);
    let cells = [(0, 2.0), (1, 2.0), (2, 2.0), (3, 2.0)];
    let merged = vec![(1 << 60, 2f64.to_bits())];
    assert_overflows(|| original_densities((0, 4, 3.0), &cells), merged);
    let kept = cells.map(|(hash, density)| (run::to_zuniq(0, hash), density.to_bits()));
    assert_eq!(our_densities((0, 4, 3.0), &cells), kept);
}

#[test]
fn add_densities_refuses_cells_that_are_out_of_range_or_not_above() {
    let setting = (1, 0, 3.5);
    for (cells, number, place) in [
        (&[(48, 1.0)][..], 7, 0),
        (&[(0, 1.0), (0, 1.0)], 8, 1),
        (&[(1, 1.0), (0, 1.0)], 8, 1),
    ] {
        assert_eq!(original_densities(setting, cells), appended(cells));
        assert_densities_refused(setting, cells, number, place);
    }
}

/// The original keeps all, as with the mergers alone.
#[test]
fn add_densities_refuses_a_depth_threshold_over_29_and_a_threshold_that_is_nan() {
    let cells = [(0, 1.0), (1, 1.0), (2, 1.0), (3, 1.0)];
    for (setting, number) in [((1, 30, 3.5), 2), ((1, 0, f64::NAN), 3)] {
        assert_eq!(original_densities(setting, &cells), appended(&cells));
        assert_densities_refused(setting, &cells, number, 0);
    }
}

/// The original appends any f64, and merges what is below 0.
#[test]
fn add_densities_refuses_what_is_nan_infinite_or_below_0() {
    let setting = (1, 0, 0.0);
    for faulty in [f64::NAN, f64::INFINITY, f64::NEG_INFINITY, -1.0, -5e-324] {
        let cells = [(0, faulty)];
        assert_eq!(original_densities(setting, &cells), appended(&cells));
        assert_densities_refused(setting, &cells, 9, 0);
    }
    let cells = [(0, 0.0), (1, 0.0), (2, 0.0), (3, -1.0)];
    let merged = [(run::to_zuniq(0, 0), (-0.25f64).to_bits())];
    assert_eq!(original_densities(setting, &cells), merged);
    assert_densities_refused(setting, &cells, 9, 3);
}

// ---- Section 7: densities and rows

#[test]
fn density_of_count_refuses_where_the_original_panics() {
    assert!(panics(|| run::density::<u64>(1, 30)));
    assert_eq!(mom::density_of_count(30, 1), refused(1, 0));
}

/// The original drops it, and reads the rows before it.
#[test]
fn rows_refuse_a_short_last_row() {
    let row = [1, 0, 0, 0, 0, 0, 0, 0, 9, 0, 0, 0];
    let (mut zuniqs, mut counts, mut patterns) = ([7; 3], [7; 3], [7; 3]);
    for short in 1..12 {
        assert_eq!(run::read_rows::<u64, u32>(&row[..short]), []);
        let longer = [&row[..], &row[..short]].concat();
        assert_eq!(run::read_rows::<u64, u32>(&longer), [(1, 9)]);
        for bytes in [&row[..short], &longer] {
            let answer = rows::read_count_rows(bytes, &mut zuniqs, &mut counts);
            assert_eq!(answer, refused(4, 0));
        }
    }
    assert_eq!(run::read_rows::<u64, f64>(&row), []);
    let answer = rows::read_density_rows(&row, &mut zuniqs, &mut patterns);
    assert_eq!(answer, refused(4, 0));
    assert_eq!((zuniqs, counts, patterns), ([7; 3], [7; 3], [7; 3]));
}

/// The original checks as many entries as there are whole rows.
#[test]
fn the_check_of_rows_refuses_a_short_last_row_and_more_than_4096() {
    let row = |hash: u64| [&(2 * hash + 1).to_le_bytes()[..], &[0; 4]].concat();
    let rows = |number| (0..number).flat_map(row).collect::<Vec<u8>>();
    for (bytes, number) in [(rows(1)[..11].to_vec(), 4), (rows(4097), 11)] {
        assert_eq!(run::rows_check_is_mom::<u64, u32>(29, &bytes), Ok(()));
        assert_eq!(rows::check_is_mom(29, &bytes), refused(number, 0));
    }
}

fn rows_of(zuniqs: &[u64]) -> Vec<u8> {
    let row = |zuniq: &u64| [&zuniq.to_le_bytes()[..], &[9, 0, 0, 0]].concat();
    zuniqs.iter().flat_map(row).collect()
}

/// The original's test of the depths is reversed, and the last entry's depth never tested.
#[test]
fn the_check_of_rows_tests_the_depth_of_every_row() {
    let map = zuniqs([(1, 2), (1, 4)]);
    let bytes = rows_of(&map);
    let error = run::rows_check_is_mom::<u64, u32>(2, &bytes).unwrap_err();
    assert!(error.starts_with("Element has a larger depth"), "{error}");
    assert_eq!(rows::check_is_mom(2, &bytes), Ok(MapCheck::Valid));
    assert_eq!(run::rows_check_is_mom::<u64, u32>(0, &bytes), Ok(()));
    let too_deep = MapCheck::Faulty {
        place: 0,
        fault: Fault::TooDeep,
    };
    assert_eq!(rows::check_is_mom(0, &bytes), Ok(too_deep));
}

/// The original takes 1 from the search place. Under `release`, where that wraps, it would read the
/// row before its bytes, which has no defined outcome: there it isn't called.
#[test]
fn the_overlapping_over_rows_answers_where_no_entry_stands_before_the_query() {
    let [cell] = zuniqs([(0, 0)]);
    for (map, found) in [(&[][..], 0..0), (&[cell], 0..1)] {
        let bytes = rows_of(map);
        #[cfg(debug_assertions)]
        // SAFETY: the profile is `checked`.
        assert!(panics(|| unsafe {
            run::rows_overlapped::<u64, u32>(29, &bytes, cell)
        }));
        assert_eq!(rows::get_overlapped_cells(&bytes, cell), Ok(found));
    }
}

#[test]
fn the_overlapping_over_rows_finds_entry_0() {
    let over = (&zuniqs([(0, 11)])[..], (1, 47), 1);
    let inside = (&zuniqs([(2, 0), (2, 1)])[..], (0, 0), 2);
    for (map, query, found) in [over, inside] {
        let (bytes, [query]) = (rows_of(map), zuniqs([query]));
        // SAFETY: the first entry stands before the query.
        let original = unsafe { run::rows_overlapped::<u64, u32>(29, &bytes, query) };
        assert_eq!(original.len(), found - 1);
        assert_eq!(rows::get_overlapped_cells(&bytes, query), Ok(0..found));
    }
}
