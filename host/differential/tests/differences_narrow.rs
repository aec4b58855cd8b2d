//! Every intended difference from the original's u32 zuniqs, as `differences.rs` has those of u64, and
//! from its moving between the two.

use std::{
    fmt::Debug,
    panic::{catch_unwind, AssertUnwindSafe},
};

use mom::{
    moving::{self, Moved},
    narrow::{self, rows},
    Added, Fault, MapCheck, Refusal,
};
use oracle::run;

/// The first number past the last narrow zuniq that doesn't end in 28 or more zeros.
const PAST_LAST: u32 = 1610612737;

fn refused<T>(number: u8, place: usize) -> Result<T, Refusal> {
    Err(Refusal::of(number, place).unwrap())
}

fn panics<T>(call: impl FnOnce() -> T) -> bool {
    catch_unwind(AssertUnwindSafe(call)).is_err()
}

/// The call panics under `checked` and answers `wrapped` under `release`.
fn assert_overflows<T: Debug + PartialEq>(call: impl FnOnce() -> T, wrapped: T) {
    if cfg!(debug_assertions) {
        assert!(panics(call));
    } else {
        assert_eq!(call(), wrapped);
    }
}

/// The narrow zuniqs of the cells, as the request defines them.
fn zuniqs<const N: usize>(cells: [(u8, u32); N]) -> [u32; N] {
    cells.map(|(depth, hash)| (2 * hash + 1) << (2 * (13 - depth)))
}

// ---- Section 1: cells and zuniq

/// Depth 29 is the first whose wrapped shift is 0, so that it gives the zuniq of (13, 0).
#[test]
fn narrow_to_zuniq_refuses_a_depth_over_13() {
    for (depth, wrapped) in [(14, 1 << 30), (29, 1)] {
        assert_overflows(|| run::trait_to_zuniq(depth, 0u32), wrapped);
        assert_eq!(narrow::to_zuniq(depth, 0), refused(1, 0));
    }
}

/// (0, 12) gets no zuniq; a shift that loses bits gives (0, 32) the zuniq of (0, 0), and (13, 2^31)
/// that of (13, 0).
#[test]
fn narrow_to_zuniq_refuses_a_hash_out_of_range() {
    for (depth, hash, answered) in [(0, 12, 25 << 26), (0, 32, 1 << 26), (13, 1 << 31, 1)] {
        assert_eq!(run::trait_to_zuniq(depth, hash), answered);
        assert_eq!(narrow::to_zuniq(depth, hash), refused(7, 0));
    }
}

#[test]
fn narrow_from_zuniq_of_0_and_of_28_or_more_trailing_zeros_is_none() {
    let wrapped = [
        (0, (253, 0)),
        (1 << 28, (255, 0)),
        (3 << 29, (255, 1)),
        (1 << 31, (254, 1 << 31)),
    ];
    for (zuniq, cell) in wrapped {
        assert_overflows(|| run::trait_from_zuniq(zuniq), cell);
        assert_eq!(narrow::from_zuniq(zuniq), None);
    }
}

#[test]
fn narrow_from_zuniq_of_what_no_cell_encodes_to_is_none() {
    let out_of_range = (13, 12 << 26);
    for (zuniq, cell) in [(2, (13, 0)), (1 << 27, (0, 0)), (PAST_LAST, out_of_range)] {
        assert_eq!(run::trait_from_zuniq(zuniq), cell);
        assert_eq!(narrow::from_zuniq(zuniq), None);
    }
}

#[test]
fn narrow_are_overlapping_refuses_what_is_no_zuniq() {
    for (left, right, place) in [(0, 0, 0), (0, 1, 0), (1, 0, 1), (1, 1 << 28, 1)] {
        assert_overflows(|| run::are_overlapping::<u32>(left, right), true);
        assert_eq!(narrow::are_overlapping(left, right), refused(12, place));
    }
    for (left, right, place) in [(1, 2, 1), (2, 1, 0), (PAST_LAST, PAST_LAST, 0)] {
        assert!(run::are_overlapping::<u32>(left, right));
        assert_eq!(narrow::are_overlapping(left, right), refused(12, place));
    }
}

// ---- Sections 3 and 6: the map check and lookup

fn original_check(depth: u8, map: &[u32]) -> Result<(), String> {
    let entries = map.iter().map(|&zuniq| (zuniq, 0u32)).collect();
    run::check_is_mom(&run::mom(depth, entries))
}

/// The original's test of the depths is reversed.
#[test]
fn narrow_check_is_mom_tests_the_depth_of_every_entry() {
    let map = zuniqs([(1, 2), (1, 4)]);
    let error = original_check(2, &map).unwrap_err();
    assert!(error.starts_with("Element has a larger depth"), "{error}");
    assert_eq!(narrow::check_is_mom(2, &map), Ok(MapCheck::Valid));
    assert_eq!(original_check(0, &map), Ok(()));
    let too_deep = MapCheck::Faulty {
        place: 0,
        fault: Fault::TooDeep,
    };
    assert_eq!(narrow::check_is_mom(0, &map), Ok(too_deep));
}

#[test]
fn narrow_check_is_mom_finds_what_is_no_zuniq() {
    let at_0 = Ok(MapCheck::Faulty {
        place: 0,
        fault: Fault::NotAZuniq,
    });
    assert_overflows(|| original_check(0, &[0]), Ok(()));
    assert_eq!(narrow::check_is_mom(0, &[0]), at_0);
    assert_eq!(original_check(13, &[2]), Ok(()));
    assert_eq!(narrow::check_is_mom(13, &[2]), at_0);
}

/// The original never looks at the map's depth itself.
#[test]
fn narrow_check_is_mom_refuses_a_depth_over_13() {
    assert_eq!(original_check(14, &[]), Ok(()));
    assert_eq!(narrow::check_is_mom(14, &[]), refused(1, 0));
}

fn original_overlapped(map: &[u32], zuniq: u32) -> Vec<u32> {
    let entries = map.iter().map(|&zuniq| (zuniq, 0u32)).collect();
    let found = run::get_overlapped_cells(&run::mom(13, entries), zuniq);
    found.into_iter().map(|(zuniq, _)| zuniq).collect()
}

/// The original takes 1 from the search place, and never looks left at entry 0.
#[test]
fn narrow_get_overlapped_cells_looks_at_entry_0() {
    let [base] = zuniqs([(0, 0)]);
    assert!(panics(|| original_overlapped(&[], base)));
    assert_eq!(narrow::get_overlapped_cells(&[], base), Ok((0, &[][..])));
    assert!(panics(|| original_overlapped(&[base], base)));
    let over = (&zuniqs([(0, 11)])[..], (1, 47));
    let inside = (&zuniqs([(2, 0), (2, 1)])[..], (0, 0));
    for (map, query) in [over, inside] {
        let [query] = zuniqs([query]);
        assert_eq!(original_overlapped(map, query), map[1..]);
        assert_eq!(narrow::get_overlapped_cells(map, query), Ok((0, map)));
    }
}

/// The original reads 6 as (13, 1).
#[test]
fn narrow_get_overlapped_cells_refuses_what_is_no_zuniq() {
    let map = zuniqs([(13, 0), (13, 1)]);
    assert_eq!(original_overlapped(&map, 6), map[1..]);
    assert_eq!(narrow::get_overlapped_cells(&map, 6), refused(12, 0));
}

// ---- Section 4: building

type Setting = (u8, u8, f64);

fn original_built((depth, m, t): Setting, cells: &[(u32, u32)]) -> Vec<(u32, u32)> {
    run::build_counts_by_chi(depth, m, t, cells.iter().copied())
}

/// The entries that ours builds from one batch. A refusal touches nothing.
fn built((depth, m, t): Setting, cells: &[(u32, u32)]) -> Result<Vec<(u32, u32)>, Refusal> {
    let (hashes, batch): (Vec<u32>, Vec<u32>) = cells.iter().copied().unzip();
    let (mut zuniqs, mut counts) = ([77; 4], [77; 4]);
    let (z, n) = (&mut zuniqs, &mut counts);
    let answer = narrow::add_counts(depth, m, t, &[], 0, z, n, &hashes, &batch);
    if answer.is_err() {
        assert_eq!((zuniqs, counts), ([77; 4], [77; 4]));
    }
    let Added { entries, .. } = answer?;
    Ok(zuniqs.into_iter().zip(counts).take(entries).collect())
}

/// The original encodes a cell deeper than 13 as it can: one of depth 29 becomes (13, 0).
#[test]
fn narrow_add_counts_refuses_a_depth_over_13() {
    for (depth, zuniq) in [(14, 1 << 30), (29, 1)] {
        let setting = (depth, 0, 3.5);
        assert_overflows(|| original_built(setting, &[(0, 5)]), vec![(zuniq, 5)]);
        assert_eq!(built(setting, &[(0, 5)]), refused(1, 0));
    }
    assert!(panics(|| original_built((30, 0, 3.5), &[])));
    assert_eq!(built((30, 0, 3.5), &[]), refused(1, 0));
}

/// The original looks for parents at the depth before 0.
#[test]
fn narrow_add_counts_appends_base_cells() {
    assert_overflows(|| original_built((0, 0, 3.0), &[]), vec![]);
    assert_eq!(built((0, 0, 3.0), &[]), Ok(vec![]));
    let cells = [(0, 2), (1, 2), (2, 2), (3, 2)];
    let setting = (0, 4, 3.0);
    assert_overflows(|| original_built(setting, &cells), vec![(1 << 28, 8)]);
    let kept = cells.map(|(hash, count)| ((2 * hash + 1) << 26, count));
    assert_eq!(built(setting, &cells), Ok(kept.to_vec()));
}

/// The original appends what comes.
#[test]
fn narrow_add_counts_refuses_cells_that_are_out_of_range_or_not_above() {
    for (cells, number, place) in [
        (&[(48, 1)][..], 7, 0),
        (&[(1 << 31, 1)], 7, 0),
        (&[(0, 1), (0, 1)], 8, 1),
        (&[(1, 1), (0, 1)], 8, 1),
    ] {
        let appended = cells.iter().map(|&(h, n)| (run::trait_to_zuniq(1, h), n));
        assert!(appended.eq(original_built((1, 0, 3.5), cells)));
        assert_eq!(built((1, 0, 3.5), cells), refused(number, place));
    }
}

/// The original adds up only what it merges.
#[test]
fn narrow_add_counts_refuses_counts_that_overflow_together() {
    let cells = [(0, u32::MAX), (1, 1), (2, 0), (3, 0)];
    let merged = vec![(1 << 26, 0)];
    assert_overflows(|| original_built((1, 0, f64::INFINITY), &cells), merged);
    assert_eq!(built((1, 0, f64::INFINITY), &cells), refused(10, 1));
    assert_eq!(original_built((1, 0, 0.0), &cells).len(), 4);
    assert_eq!(built((1, 0, 0.0), &cells), refused(10, 1));
}

/// The original keeps all; with M from 13 to 29 ours does, too.
#[test]
fn narrow_add_counts_refuses_a_depth_threshold_over_29_and_a_threshold_that_is_nan() {
    let cells = [(0, 1), (1, 1), (2, 1), (3, 1)];
    for (setting, number) in [((1, 30, 3.5), 2), ((1, 0, f64::NAN), 3)] {
        assert_eq!(original_built(setting, &cells).len(), 4);
        assert_eq!(built(setting, &cells), refused(number, 0));
    }
    let kept = original_built((1, 29, 3.5), &cells);
    assert_eq!(built((1, 29, 3.5), &cells), Ok(kept));
}

/// The original keeps them, as at the other width; below M ours does, too.
#[test]
fn narrow_add_counts_merges_blanks_at_a_threshold_of_0_or_less() {
    let cells = [(0, 0), (1, 0), (2, 0), (3, 0)];
    for t in [0.0, -0.0, -5e-324, -1.0, f64::NEG_INFINITY] {
        let kept = cells.map(|(hash, count)| ((2 * hash + 1) << 24, count));
        assert_eq!(original_built((1, 0, t), &cells), kept);
        assert_eq!(built((1, 0, t), &cells), Ok(vec![(1 << 26, 0)]));
        assert_eq!(original_built((1, 1, t), &cells), kept);
        assert_eq!(built((1, 1, t), &cells), Ok(kept.to_vec()));
    }
}

/// The original merges four of 1, and of 0; under a list ours keeps them.
#[test]
fn narrow_add_counts_keeps_four_under_a_listed_parent() {
    let list = zuniqs([(0, 0)]);
    let hashes = [0, 1, 2, 3];
    for count in [1, 0] {
        let cells = hashes.map(|hash| (hash, count));
        assert_eq!(original_built((1, 0, 3.5), &cells).len(), 1);
        let (mut zuniqs, mut counts) = ([77; 4], [77; 4]);
        let (z, n) = (&mut zuniqs, &mut counts);
        let ours = narrow::add_counts(1, 0, 3.5, &list, 0, z, n, &hashes, &[count; 4]);
        let (entries, total) = (4, 4 * count);
        assert_eq!(ours, Ok(Added { entries, total }));
    }
}

#[test]
fn narrow_add_counts_refuses_a_list_that_is_none() {
    for (list, place) in [
        (&[0][..], 0),
        (&[2], 0),
        (&[PAST_LAST], 0),
        (&[4, 1 << 28], 1),
        (&[4, 4], 1),
        (&[4, 20, 12], 2),
    ] {
        let ours = narrow::add_counts(1, 0, 3.5, list, 0, &mut [], &mut [], &[], &[]);
        assert_eq!(ours, refused(15, place));
    }
}

// ---- Section 7: rows

/// The original drops it, and reads the rows before it.
#[test]
fn narrow_rows_refuse_a_short_last_row() {
    let row = [1, 0, 0, 0, 9, 0, 0, 0];
    let (mut zuniqs, mut counts) = ([7; 3], [7; 3]);
    for short in 1..8 {
        assert_eq!(run::read_rows::<u32, u32>(&row[..short]), []);
        let longer = [&row[..], &row[..short]].concat();
        assert_eq!(run::read_rows::<u32, u32>(&longer), [(1, 9)]);
        for bytes in [&row[..short], &longer] {
            let answer = rows::read_count_rows(bytes, &mut zuniqs, &mut counts);
            assert_eq!(answer, refused(4, 0));
        }
    }
    assert_eq!((zuniqs, counts), ([7; 3], [7; 3]));
}

/// Rows of these zuniqs, each with the count 9.
fn rows_of(zuniqs: &[u32]) -> Vec<u8> {
    let row = |zuniq: &u32| [zuniq.to_le_bytes(), [9, 0, 0, 0]].concat();
    zuniqs.iter().flat_map(row).collect()
}

/// The original checks as many entries as there are whole rows, at any depth.
#[test]
fn the_check_of_narrow_rows_refuses_what_the_original_takes() {
    let many: Vec<u32> = (0..4097).map(|hash| 2 * hash + 1).collect();
    for (depth, bytes, number) in [
        (14, rows_of(&[]), 1),
        (13, rows_of(&[1])[..7].to_vec(), 4),
        (13, rows_of(&many), 11),
    ] {
        assert_eq!(run::rows_check_is_mom::<u32, u32>(depth, &bytes), Ok(()));
        assert_eq!(rows::check_is_mom(depth, &bytes), refused(number, 0));
    }
}

/// The original's test of the depths is reversed, and the last entry's depth never tested.
#[test]
fn the_check_of_narrow_rows_tests_the_depth_of_every_row() {
    let bytes = rows_of(&zuniqs([(1, 2), (1, 4)]));
    let error = run::rows_check_is_mom::<u32, u32>(2, &bytes).unwrap_err();
    assert!(error.starts_with("Element has a larger depth"), "{error}");
    assert_eq!(rows::check_is_mom(2, &bytes), Ok(MapCheck::Valid));
    assert_eq!(run::rows_check_is_mom::<u32, u32>(0, &bytes), Ok(()));
    let too_deep = MapCheck::Faulty {
        place: 0,
        fault: Fault::TooDeep,
    };
    assert_eq!(rows::check_is_mom(0, &bytes), Ok(too_deep));
}

/// Under `release`, at search place 0, the original would read the row before its bytes: there it isn't
/// called.
#[test]
fn the_overlapping_over_narrow_rows_looks_at_entry_0() {
    let [base] = zuniqs([(0, 0)]);
    for (map, found) in [(&[][..], 0..0), (&[base], 0..1)] {
        let bytes = rows_of(map);
        #[cfg(debug_assertions)]
        // SAFETY: the profile is `checked`.
        assert!(panics(|| unsafe {
            run::rows_overlapped::<u32, u32>(13, &bytes, base)
        }));
        assert_eq!(rows::get_overlapped_cells(&bytes, base), Ok(found));
    }
    let over = (&zuniqs([(0, 11)])[..], (1, 47), 1);
    let inside = (&zuniqs([(2, 0), (2, 1)])[..], (0, 0), 2);
    for (map, query, found) in [over, inside] {
        let (bytes, [query]) = (rows_of(map), zuniqs([query]));
        // SAFETY: the first entry stands before the query.
        let original = unsafe { run::rows_overlapped::<u32, u32>(13, &bytes, query) };
        assert_eq!(original.len(), found - 1);
        assert_eq!(rows::get_overlapped_cells(&bytes, query), Ok(0..found));
    }
}

// ---- Moving between the widths

/// The original narrows the entries, each with the count 9, as they come.
fn original_narrowed(depth: u8, map: &[u64]) -> (u8, Vec<u32>) {
    let entries = map.iter().map(|&zuniq| (zuniq, 9u32)).collect();
    let (depth, entries) = run::to_zuniq_u32(run::mom(depth, entries));
    (depth, entries.into_iter().map(|(zuniq, _)| zuniq).collect())
}

fn original_widened(depth: u8, map: &[u32]) -> (u8, Vec<u64>) {
    let entries = map.iter().map(|&zuniq| (zuniq, 9u32)).collect();
    let (depth, entries) = run::to_zuniq_u64(run::mom(depth, entries));
    (depth, entries.into_iter().map(|(zuniq, _)| zuniq).collect())
}

/// Our answer. A refusal touches nothing.
fn narrowed(depth: u8, map: &[u64]) -> Result<Moved, Refusal> {
    let (mut zuniqs, mut counts) = ([77; 4], [77; 4]);
    let nines = vec![9; map.len()];
    let answer = moving::narrow(depth, map, &nines, &mut zuniqs, &mut counts);
    assert!(answer.is_ok() || (zuniqs, counts) == ([77; 4], [77; 4]));
    answer
}

fn widened(depth: u8, map: &[u32]) -> Result<Moved, Refusal> {
    let (mut zuniqs, mut counts) = ([77; 4], [77; 4]);
    let nines = vec![9; map.len()];
    let answer = moving::widen(depth, map, &nines, &mut zuniqs, &mut counts);
    assert!(answer.is_ok() || (zuniqs, counts) == ([77; 4], [77; 4]));
    answer
}

/// The original keeps the depth. Of a narrow map of depth 14 its containing then refuses every query: no
/// narrow zuniq is at that depth.
#[test]
fn narrowing_answers_a_depth_of_13_at_most() {
    let base = 1 << 58;
    let (depth, map) = original_narrowed(14, &[base]);
    assert_eq!((depth, &map[..]), (14, &[1 << 26][..]));
    let mom = run::mom(depth, vec![(map[0], 9u32)]);
    assert!(run::get_cell_containing(&mom, 1).is_err());
    let moved = Moved {
        depth: 13,
        entries: 1,
    };
    assert_eq!(narrowed(14, &[base]), Ok(moved));
    assert_eq!(narrow::get_cell_containing(13, &map, 1), Ok(Some(0)));
}

/// The original's assertion fails in both profiles.
#[test]
fn narrowing_refuses_an_entry_deeper_than_13() {
    for (map, place) in [(&[1 << 30][..], 0), (&[1 << 32, 4 << 32 | 1], 1)] {
        assert!(panics(|| original_narrowed(29, map)));
        assert_eq!(narrowed(29, map), refused(13, place));
    }
}

/// The original never looks at the depth.
#[test]
fn moving_refuses_a_depth_that_the_width_has_not() {
    assert_eq!(original_narrowed(30, &[]), (30, vec![]));
    assert_eq!(narrowed(30, &[]), refused(1, 0));
    assert_eq!(original_widened(14, &[]), (14, vec![]));
    assert_eq!(widened(14, &[]), refused(1, 0));
}

/// The original shifts any number whose bits are not lost, in any order: what is no zuniq, too deep, not
/// rising, or overlapping.
#[test]
fn moving_refuses_a_map_that_is_none() {
    for (depth, map, place) in [
        (13, &[0][..], 0),
        (13, &[2], 0),
        (13, &[PAST_LAST], 0),
        (0, &zuniqs([(1, 0)]), 0),
        (1, &zuniqs([(1, 0), (1, 0)]), 1),
        (1, &zuniqs([(1, 1), (1, 0)]), 1),
        (1, &zuniqs([(1, 0), (0, 0)]), 1),
    ] {
        let wide: Vec<u64> = map.iter().map(|&zuniq| (zuniq as u64) << 32).collect();
        assert_eq!(original_widened(depth, map), (depth, wide.clone()));
        assert_eq!(widened(depth, map), refused(5, place));
        assert_eq!(original_narrowed(depth, &wide), (depth, map.to_vec()));
        assert_eq!(narrowed(depth, &wide), refused(5, place));
    }
    assert!(panics(|| original_narrowed(29, &[2])));
    assert_eq!(narrowed(29, &[2]), refused(5, 0));
}
