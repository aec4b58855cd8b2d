//! Moving between the widths, against request 2 as it is read: the same cells and counts, 0 after
//! them, the smaller of the depth and 13, and each refusal in its order.

use mom::{
    moving::{narrow, widen, Moved},
    Refusal,
};

type Cell = (u8, u64);

/// The zuniq of a cell, by its definition, for the largest depth `k`.
fn zuniq(k: u8, (d, h): Cell) -> u64 {
    (2 * h + 1) * 4u64.pow((k - d) as u32)
}

fn wide(cells: &[Cell]) -> Vec<u64> {
    cells.iter().map(|&cell| zuniq(29, cell)).collect()
}

fn small(cells: &[Cell]) -> Vec<u32> {
    cells.iter().map(|&cell| zuniq(13, cell) as u32).collect()
}

fn counts(number: usize) -> Vec<u32> {
    (0..number as u32).map(|i| u32::MAX - i).collect()
}

fn refusal<T>(number: u8, place: usize) -> Result<T, Refusal> {
    Err(Refusal::of(number, place).unwrap())
}

/// "Places after them are 0."
fn padded<T: Clone + Default>(entries: &[T], places: usize) -> Vec<T> {
    let mut padded = entries.to_vec();
    padded.resize(places, T::default());
    padded
}

/// The map of these cells moves both ways, into exactly as many places and into more.
fn assert_moves(depth: u8, cells: &[Cell]) {
    let (wide, small, counts) = (wide(cells), small(cells), counts(cells.len()));
    let (narrow_depth, entries) = (depth.min(13), cells.len());
    let expected = Ok(Moved {
        depth: narrow_depth,
        entries,
    });
    for places in [entries, entries + 1, entries + 5] {
        let (mut z, mut n) = (vec![7; places], vec![7; places]);
        let moved = narrow(depth, &wide, &counts, &mut z, &mut n);
        assert_eq!(moved, expected, "{depth} {cells:?}");
        assert_eq!((z, n), (padded(&small, places), padded(&counts, places)));

        let (mut z, mut n) = (vec![7; places], vec![7; places]);
        let moved = widen(narrow_depth, &small, &counts, &mut z, &mut n);
        assert_eq!(moved, expected, "{narrow_depth} {cells:?}");
        assert_eq!((z, n), (padded(&wide, places), padded(&counts, places)));
    }
}

/// The first cell of one depth; then for every depth down to 13 the first child of the last cell
/// above it.
fn all_depths(first: u8) -> Vec<Cell> {
    let last_above = |d: u8| 12 * 4u64.pow(d as u32 - 1) - 1;
    let children = (1..=13).map(|d| (d, 4 * last_above(d)));
    [(first, 0)].into_iter().chain(children).collect()
}

#[test]
fn no_cell_of_depth_0_to_13_is_lost_or_changed() {
    for d in 0..=13 {
        let n = 12 * 4u64.pow(d as u32);
        for h in [0, 1, n / 2, n - 2, n - 1] {
            for depth in d..=29 {
                assert_moves(depth, &[(d, h)]);
            }
        }
    }
    for first in 0..=13 {
        assert_moves(13, &all_depths(first));
        assert_moves(29, &all_depths(first));
    }
    let base_cells: Vec<Cell> = (0..12).map(|h| (0, h)).collect();
    for depth in 0..=29 {
        assert_moves(depth, &base_cells);
        assert_moves(depth, &[]);
    }
}

/// The depth answered is that of the map, not of its deepest entry.
#[test]
fn no_depth_is_taken_from_the_entries() {
    for (depth, answered) in [
        (0, 0),
        (5, 5),
        (12, 12),
        (13, 13),
        (14, 13),
        (20, 13),
        (29, 13),
    ] {
        let (mut z, mut n) = ([7; 1], [7; 1]);
        let moved = narrow(depth, &[1 << 58], &[9], &mut z, &mut n).unwrap();
        assert_eq!(moved.depth, answered);
        let none = narrow(depth, &[], &[], &mut z, &mut n).unwrap();
        let (depth, entries) = (answered, 0);
        assert_eq!(none, Moved { depth, entries });
        assert_eq!((z, n), ([0], [0]));
    }
    for depth in 0..=13 {
        let (mut z, mut n) = ([7; 1], [7; 1]);
        let moved = widen(depth, &[1 << 26], &[9], &mut z, &mut n).unwrap();
        assert_eq!((moved.depth, moved.entries), (depth, 1));
        let none = widen(depth, &[], &[], &mut z, &mut n).unwrap();
        assert_eq!((none.depth, none.entries), (depth, 0));
        assert_eq!((z, n), ([0], [0]));
    }
}

/// What one call leaves is handed to the other, and gives the entries that it was made of.
#[test]
fn no_entry_is_lost_there_and_back() {
    for first in 0..=13 {
        let cells = all_depths(first);
        let (wide, small, counts) = (wide(&cells), small(&cells), counts(cells.len()));
        let places = cells.len();
        let (mut z, mut n) = (vec![7; places], vec![7; places]);
        let (mut back, mut m) = (vec![7; places], vec![7; places]);
        let Moved { depth, .. } = narrow(29, &wide, &counts, &mut z, &mut n).unwrap();
        widen(depth, &z, &n, &mut back, &mut m).unwrap();
        assert_eq!((back, m), (wide, counts.clone()));

        let (mut z, mut n) = (vec![7; places], vec![7; places]);
        let (mut back, mut m) = (vec![7; places], vec![7; places]);
        let moved = widen(13, &small, &counts, &mut z, &mut n).unwrap();
        let again = narrow(moved.depth, &z, &n, &mut back, &mut m);
        assert_eq!(again, Ok(moved));
        assert_eq!((back, m), (small, counts));
    }
}

#[test]
fn nothing_but_an_empty_map_is_moved_into_no_place() {
    for depth in 0..=13 {
        let empty = Moved { depth, entries: 0 };
        let moved = narrow(depth, &[], &[], &mut [], &mut []);
        assert_eq!(moved, Ok(empty));
        let moved = widen(depth, &[], &[], &mut [], &mut []);
        assert_eq!(moved, Ok(empty));
        assert_not_narrowed((depth, &[1 << 58], &[1]), (0, 0), (11, 0));
        assert_not_widened((depth, &[1 << 26], &[1]), (0, 0), (11, 0));
    }
}

/// Narrows into `places` and `values` places and expects a refusal that touches none.
fn assert_not_narrowed(
    (depth, zuniqs, counts): (u8, &[u64], &[u32]),
    (places, values): (usize, usize),
    (number, place): (u8, usize),
) {
    let (mut z, mut n) = (vec![7; places], vec![8; values]);
    let moved = narrow(depth, zuniqs, counts, &mut z, &mut n);
    assert_eq!(moved, refusal(number, place), "{depth} {zuniqs:?}");
    assert_eq!((z, n), (vec![7; places], vec![8; values]));
}

/// The same of widening.
fn assert_not_widened(
    (depth, zuniqs, counts): (u8, &[u32], &[u32]),
    (places, values): (usize, usize),
    (number, place): (u8, usize),
) {
    let (mut z, mut n) = (vec![7; places], vec![8; values]);
    let moved = widen(depth, zuniqs, counts, &mut z, &mut n);
    assert_eq!(moved, refusal(number, place), "{depth} {zuniqs:?}");
    assert_eq!((z, n), (vec![7; places], vec![8; values]));
}

#[test]
fn no_depth_too_large_is_taken_and_none_hides_behind_another_fault() {
    for depth in 30..=255 {
        assert_not_narrowed((depth, &[], &[]), (0, 0), (1, 0));
        assert_not_narrowed((depth, &[2, 1], &[1]), (0, 1), (1, 0));
    }
    for depth in 14..=255 {
        assert_not_widened((depth, &[], &[]), (0, 0), (1, 0));
        assert_not_widened((depth, &[2, 1], &[1]), (0, 1), (1, 0));
    }
}

/// Each pair by itself, before anything that is wrong with the map or the space.
#[test]
fn no_pair_of_two_lengths_is_taken() {
    let (faulty, small_faulty) = ([2, 1], [2, 1]);
    for (zuniqs, counts, places, values) in [
        (0, 1, 5, 5),
        (1, 0, 5, 5),
        (2, 1, 0, 0),
        (1, 2, 2, 2),
        (2, 2, 2, 3),
        (2, 2, 3, 2),
        (0, 0, 0, 1),
        (0, 0, 1, 0),
        (2, 2, 0, 1),
        (2, 1, 1, 2),
    ] {
        let counts = &[9; 2][..counts];
        let map = (29, &faulty[..zuniqs], counts);
        assert_not_narrowed(map, (places, values), (4, 0));
        let map = (13, &small_faulty[..zuniqs], counts);
        assert_not_widened(map, (places, values), (4, 0));
    }
}

/// Every kind of fault, at every place of a map of four: no zuniq, deeper than the map, not above the
/// one before, overlapping it.
#[test]
fn no_invalid_map_is_moved() {
    let cells = [(1, 0), (2, 5), (1, 2), (0, 1)];
    for place in 0..4 {
        let mut faults = vec![(3, (4, 100))];
        if let Some(&before) = cells[..place].last() {
            faults.extend([(13, before), (13, (13, 0)), (13, (0, 0))]);
        }
        let (mut map, mut small_map) = (wide(&cells), small(&cells));
        for (depth, fault) in faults {
            map[place] = zuniq(29, fault);
            small_map[place] = zuniq(13, fault) as u32;
            assert_invalid(depth, &map, &small_map, place);
        }
        for none in [0, 2, u64::MAX] {
            map[place] = none;
            small_map[place] = none as u32;
            assert_invalid(13, &map, &small_map, place);
        }
    }
}

/// Refused by 5 at this place in both widths, with space and without.
fn assert_invalid(depth: u8, map: &[u64], small_map: &[u32], place: usize) {
    let counts = vec![9; map.len()];
    for places in [0, map.len()] {
        assert_not_narrowed((depth, map, &counts), (places, places), (5, place));
        assert_not_widened((depth, small_map, &counts), (places, places), (5, place));
    }
}

#[test]
fn no_entry_deeper_than_13_is_narrowed() {
    for deep in 14..=29 {
        // Four entries, of which those from `place` on are deep.
        for place in 0..4 {
            let cell = |i: usize| {
                if i < place {
                    (0, i as u64)
                } else {
                    (deep, i as u64 * 4u64.pow(deep as u32))
                }
            };
            let map = wide(&[0, 1, 2, 3].map(cell));
            for depth in deep..=29 {
                for places in [0, 3, 4, 5] {
                    let map = (depth, &map[..], &[9; 4][..]);
                    assert_not_narrowed(map, (places, places), (13, place));
                }
            }
            // Deeper than the map too: that is tried first.
            for depth in [13, deep - 1] {
                assert_not_narrowed((depth, &map, &[9; 4]), (4, 4), (5, place));
            }
        }
    }
    // Only the first deep entry counts, wherever the deepest is.
    let map = wide(&[(13, 0), (14, 4), (29, 1 << 40), (0, 1)]);
    assert_not_narrowed((29, &map, &[9; 4]), (4, 4), (13, 1));
}

/// 5 is tried for the whole map before 13 for any of it.
#[test]
fn no_deep_entry_hides_an_invalid_one_behind_it() {
    for fault in [0, 2, 1, zuniq(29, (14, 0)), zuniq(29, (0, 0)), u64::MAX] {
        let map = [zuniq(29, (14, 0)), fault];
        assert_not_narrowed((29, &map, &[9; 2]), (2, 2), (5, 1));
        assert_not_narrowed((29, &map, &[9; 2]), (0, 0), (5, 1));
    }
}

#[test]
fn too_little_space_is_refused_and_touches_nothing() {
    let cells = all_depths(3);
    let (wide, small, counts) = (wide(&cells), small(&cells), counts(cells.len()));
    for places in 0..cells.len() {
        assert_not_narrowed((29, &wide, &counts), (places, places), (11, 0));
        assert_not_widened((13, &small, &counts), (places, places), (11, 0));
    }
}

/// Counts are not added up: their total may be any.
#[test]
fn no_count_is_changed_or_refused() {
    let cells: Vec<Cell> = (0..12).map(|h| (0, h)).collect();
    for count in [0, 1, u32::MAX] {
        let (mut z, mut n) = ([7; 12], [7; 12]);
        narrow(29, &wide(&cells), &[count; 12], &mut z, &mut n).unwrap();
        assert_eq!(n, [count; 12]);
        let (mut z, mut n) = ([7; 12], [7; 12]);
        widen(13, &small(&cells), &[count; 12], &mut z, &mut n).unwrap();
        assert_eq!(n, [count; 12]);
    }
}

/// More entries than a map of rows may have.
#[test]
fn no_large_map_is_refused() {
    let cells: Vec<Cell> = (0..100_000).map(|h| (13, 3 * h)).collect();
    assert_moves(13, &cells);
}
