//! Cells, the map check and lookup of narrow maps: against the definitions of the scope's sections 1,
//! 3 and 6 with 13 for 29, and against the same calls on wide maps of the same cells.

use mom::{
    narrow::{
        are_overlapping, check_is_mom, from_zuniq, get_cell_containing, get_overlapped_cells,
        to_zuniq, MAX_DEPTH,
    },
    Fault, MapCheck, Refusal,
};

const N_13: u32 = 12 << 26;
const LAST_ZUNIQ: u32 = 1610612735;
const NONE: [u32; 6] = [0, 2, 1 << 28, 3 << 28, LAST_ZUNIQ + 2, u32::MAX];

type Cell = (u8, u32);

/// "(2h + 1) × 4^(13−d)".
fn zuniq((d, h): Cell) -> u32 {
    (2 * h + 1) * 4u32.pow(13 - d as u32)
}

/// "A zuniq is valid if it equals that for some d and h in range."
fn cell_of(z: u32) -> Option<Cell> {
    (0..=13).find_map(|d| {
        let h = z / 4u32.pow(13 - d as u32) / 2;
        (h < 12 << (2 * d) && zuniq((d, h)) == z).then_some((d, h))
    })
}

/// "(d, h) lies in (e, g) if d ≥ e and floor(h / 4^(d−e)) = g."
fn lies_in((d, h): Cell, (e, g): Cell) -> bool {
    d >= e && h / 4u32.pow((d - e) as u32) == g
}

fn overlap(l: Cell, r: Cell) -> bool {
    lies_in(l, r) || lies_in(r, l)
}

fn refusal<T>(number: u8, place: usize) -> Result<T, Refusal> {
    Err(Refusal::of(number, place).unwrap())
}

fn cells_to(depth: u8) -> Vec<Cell> {
    (0..=depth)
        .flat_map(|d| (0..12 << (2 * d)).map(move |h| (d, h)))
        .collect()
}

/// The first, the middle and the last cells of every depth.
fn edges() -> Vec<Cell> {
    let of_depth = |d| {
        let n = 12u32 << (2 * d);
        [0, 1, n / 2 - 1, n / 2, n - 2, n - 1].map(|h| (d, h))
    };
    (0..=13).flat_map(of_depth).collect()
}

#[test]
fn no_case_is_missed() {
    assert_eq!(MAX_DEPTH, 13);
    assert_eq!(to_zuniq(13, 0), Ok(1));
    assert_eq!(to_zuniq(0, 0), Ok(67108864));
    assert_eq!(to_zuniq(0, 11), Ok(1543503872));
    assert_eq!(to_zuniq(1, 3), Ok(117440512));
    assert_eq!(to_zuniq(13, N_13 - 1), Ok(LAST_ZUNIQ));
    for zuniq in NONE {
        assert_eq!(from_zuniq(zuniq), None, "{zuniq}");
    }
}

#[test]
fn no_cell_fails_to_come_back() {
    for (depth, hash) in [cells_to(4), edges()].concat() {
        assert_eq!(to_zuniq(depth, hash), Ok(zuniq((depth, hash))));
        assert_eq!(from_zuniq(zuniq((depth, hash))), Some((depth, hash)));
    }
}

#[test]
fn no_number_of_another_form_decodes() {
    for cell in [cells_to(3), edges()].concat() {
        for bit in 0..32 {
            let z = zuniq(cell) ^ (1 << bit);
            assert_eq!(from_zuniq(z), cell_of(z), "{z}");
        }
    }
    for z in (0..100_000).chain(LAST_ZUNIQ - 1_000..LAST_ZUNIQ + 1_000) {
        assert_eq!(from_zuniq(z), cell_of(z), "{z}");
    }
}

#[test]
fn nothing_past_the_last_zuniq_decodes() {
    assert_eq!(from_zuniq(LAST_ZUNIQ), Some((13, N_13 - 1)));
    for bit in 0..28 {
        for zuniq in [LAST_ZUNIQ + (1 << bit), u32::MAX - (1 << bit)] {
            assert_eq!(from_zuniq(zuniq), None, "{zuniq}");
        }
    }
}

#[test]
fn no_depth_over_13_is_taken_and_none_hides_behind_another_fault() {
    for depth in 14..=255 {
        for hash in [0, 12, u32::MAX] {
            assert_eq!(to_zuniq(depth, hash), refusal(1, 0), "({depth}, {hash})");
        }
        for map in [&[][..], &[0], &[1, 1]] {
            assert_eq!(check_is_mom(depth, map), refusal(1, 0));
            for query in [0, 1] {
                assert_eq!(get_cell_containing(depth, map, query), refusal(1, 0));
            }
        }
    }
}

#[test]
fn no_depth_up_to_13_is_refused() {
    for depth in 0..=13 {
        let query = zuniq((depth, 0));
        assert_eq!(check_is_mom(depth, &[query]), Ok(MapCheck::Valid));
        assert_eq!(get_cell_containing(depth, &[query], query), Ok(Some(0)));
        assert_eq!(check_is_mom(depth, &[]), Ok(MapCheck::Valid));
        assert_eq!(get_cell_containing(depth, &[], query), Ok(None));
    }
}

#[test]
fn no_hash_at_or_past_the_number_of_cells_is_taken() {
    for depth in 0..=13 {
        let n = 12 << (2 * depth);
        assert!(to_zuniq(depth, n - 1).is_ok());
        for hash in [n, n + 1, 2 * n, 1 << 31, u32::MAX] {
            assert_eq!(to_zuniq(depth, hash), refusal(7, 0), "({depth}, {hash})");
        }
    }
}

#[test]
fn no_two_cells_overlap_but_by_lying_in_each_other() {
    let cells = [cells_to(2), edges()].concat();
    for &l in &cells {
        for &r in &cells {
            let ours = are_overlapping(zuniq(l), zuniq(r));
            assert_eq!(ours, Ok(overlap(l, r)), "{l:?} {r:?}");
        }
    }
}

#[test]
fn no_fault_of_the_right_hides_one_of_the_left() {
    for faulty in NONE {
        assert_eq!(are_overlapping(faulty, 1), refusal(12, 0), "{faulty}");
        assert_eq!(are_overlapping(1, faulty), refusal(12, 1), "{faulty}");
        assert_eq!(are_overlapping(faulty, faulty), refusal(12, 0), "{faulty}");
    }
}

#[test]
fn no_query_is_taken_that_is_no_zuniq_or_at_another_depth() {
    for map in [&[][..], &[0], &[1, 3], &[1 << 26]] {
        for query in NONE {
            assert_eq!(get_overlapped_cells(map, query), refusal(12, 0), "{query}");
            for depth in 0..=13 {
                let ours = get_cell_containing(depth, map, query);
                assert_eq!(ours, refusal(12, 0), "{depth} {query}");
            }
        }
        for depth in 0..=13 {
            for at in 0..=13 {
                let ours = get_cell_containing(depth, map, zuniq((at, 0)));
                assert_eq!(ours.is_ok(), depth == at, "{depth} {at}");
            }
        }
    }
}

/// "Each zuniq is valid, none is deeper than D, they rise strictly and no two overlap."
fn is_valid(depth: u8, map: &[u32]) -> bool {
    let cells: Option<Vec<Cell>> = map.iter().map(|&z| cell_of(z)).collect();
    cells.is_some_and(|cells| {
        cells.iter().all(|&(d, _)| d <= depth)
            && map.windows(2).all(|pair| pair[0] < pair[1])
            && (0..cells.len()).all(|i| (0..i).all(|j| !overlap(cells[i], cells[j])))
    })
}

/// "The first faulty place and the first fault there of: not a zuniq, too deep, not above its
/// predecessor, overlapping it."
fn first_fault(depth: u8, map: &[u32]) -> MapCheck {
    let fault_at = |place: usize| {
        let Some(cell) = cell_of(map[place]) else {
            return Some(Fault::NotAZuniq);
        };
        if cell.0 > depth {
            return Some(Fault::TooDeep);
        }
        let before = *map[..place].last()?;
        if map[place] <= before {
            return Some(Fault::NotAbove);
        }
        overlap(cell_of(before)?, cell).then_some(Fault::Overlapping)
    };
    (0..map.len())
        .find_map(|place| fault_at(place).map(|fault| MapCheck::Faulty { place, fault }))
        .unwrap_or(MapCheck::Valid)
}

fn assert_check(depth: u8, map: &[u32]) {
    let check = first_fault(depth, map);
    assert_eq!(check == MapCheck::Valid, is_valid(depth, map), "{map:?}");
    assert_eq!(check_is_mom(depth, map), Ok(check), "{depth} {map:?}");
}

/// Over a valid map.
fn assert_lookup(depth: u8, map: &[u32], query: Cell) {
    let places: Vec<usize> = (0..map.len())
        .filter(|&place| overlap(cell_of(map[place]).unwrap(), query))
        .collect();
    let first = places.first().copied().unwrap_or(0);
    let run = &map[first..first + places.len()];
    let ours = get_overlapped_cells(map, zuniq(query));
    assert_eq!(ours, Ok((first, run)), "{map:?} {query:?}");
    // That very part, by its address.
    assert!(run.is_empty() || std::ptr::eq(ours.unwrap().1, run));
    let containing = if query.0 == depth {
        Ok(places.first().copied())
    } else {
        refusal(12, 0)
    };
    let ours = get_cell_containing(depth, map, zuniq(query));
    assert_eq!(ours, containing, "{depth} {map:?} {query:?}");
}

/// Cells of the first two depths and of the last two, at both ends of the sky.
fn few_cells() -> Vec<Cell> {
    let mut cells = cells_to(1);
    cells.retain(|&cell| lies_in(cell, (0, 0)) || lies_in(cell, (0, 11)));
    for d in [12, 13] {
        let n = 12u32 << (2 * d);
        cells.extend([0, 3, 4, n - 5, n - 4, n - 1].map(|h| (d, h)));
    }
    cells
}

/// All lists of at most three of these cells' zuniqs, in any order and with repeats.
fn lists(cells: &[Cell]) -> Vec<Vec<u32>> {
    let n = cells.len();
    (0..=3)
        .flat_map(|len| {
            (0..n.pow(len)).map(move |i| (0..len).map(|k| zuniq(cells[i / n.pow(k) % n])).collect())
        })
        .collect()
}

#[test]
fn no_small_list_is_taken_for_a_map_and_none_is_refused() {
    for list in lists(&few_cells()) {
        for depth in [0, 1, 12, 13] {
            assert_check(depth, &list);
        }
    }
}

#[test]
fn no_small_lookup_misses_an_entry() {
    let cells = few_cells();
    for map in lists(&cells).iter().filter(|list| is_valid(13, list)) {
        for &query in &cells {
            assert_lookup(13, map, query);
        }
    }
}

/// Maps of base cells, of which some are left out, split or replaced by what lies in them.
fn mixed_maps() -> impl Iterator<Item = Vec<u32>> {
    let mut state = 1u64;
    let mut below = move |n: u32| {
        state ^= state << 13;
        state ^= state >> 7;
        state ^= state << 17;
        ((state >> 11) % n as u64) as u32
    };
    (0..60).map(move |_| {
        let mut cells: Vec<Cell> = (0..12).map(|h| (0, h)).collect();
        for _ in 0..below(30) {
            if cells.is_empty() {
                break;
            }
            let (d, h) = cells.swap_remove(below(cells.len() as u32) as usize);
            let down = below(14 - d as u32) as u8;
            match below(4) {
                0 => {}
                1 => cells.push((d + down, (h << (2 * down)) + below(1 << (2 * down)))),
                _ if d < 13 => cells.extend((0..4).map(|child| (d + 1, 4 * h + child))),
                _ => cells.push((d, h)),
            }
        }
        let mut map: Vec<u32> = cells.into_iter().map(zuniq).collect();
        map.sort();
        map
    })
}

/// Each entry's cell, those beside it, what lies above them and the ends of what lies in them.
fn queries(map: &[u32]) -> Vec<Cell> {
    let mut queries = cells_to(1);
    for (d, h) in map.iter().map(|&z| cell_of(z).unwrap()) {
        for h in [h, h.saturating_sub(1), (h + 1).min((12 << (2 * d)) - 1)] {
            queries.extend((0..=d).map(|up| (up, h >> (2 * (d - up)))));
            let down = 13 - d;
            queries.push((13, h << (2 * down)));
            queries.push((13, (h << (2 * down)) + (1 << (2 * down)) - 1));
        }
    }
    queries
}

#[test]
fn no_lookup_in_a_mixed_map_misses_an_entry() {
    for map in mixed_maps() {
        assert!(is_valid(13, &map));
        assert_check(13, &map);
        for query in queries(&map) {
            assert_lookup(13, &map, query);
        }
    }
}

/// Two entries swapped, one repeated, one with a bit changed.
fn damaged(map: &[u32]) -> Vec<Vec<u32>> {
    let mut copies = Vec::new();
    for i in 0..map.len() {
        for j in [0, i.saturating_sub(1), map.len() - 1] {
            let mut copy = map.to_vec();
            copy.swap(i, j);
            copies.push(copy);
            let mut copy = map.to_vec();
            copy.insert(j, map[i]);
            copies.push(copy);
        }
        for bit in 0..32 {
            let mut copy = map.to_vec();
            copy[i] ^= 1 << bit;
            copies.push(copy);
        }
    }
    copies
}

/// 2^32 times a narrow zuniq is the wide one of the same cell, and of another number it is none. So
/// the wide check finds the same.
#[test]
fn no_damage_goes_unseen_and_none_shows_what_does_not_overlap() {
    for map in mixed_maps().take(8) {
        let queries = queries(&map);
        for (i, copy) in damaged(&map).iter().enumerate() {
            let wide: Vec<u64> = copy.iter().map(|&z| (z as u64) << 32).collect();
            for depth in [0, 1, 7, 12, 13] {
                let check = first_fault(depth, copy);
                assert_eq!(check_is_mom(depth, copy), Ok(check), "{depth} {copy:?}");
                assert_eq!(mom::check_is_mom(depth, &wide), Ok(check));
            }
            for &query in queries.iter().skip(i % 16).step_by(16) {
                let overlaps = |&z: &u32| cell_of(z).is_some_and(|cell| overlap(cell, query));
                let (_, run) = get_overlapped_cells(copy, zuniq(query)).unwrap();
                assert!(run.iter().all(overlaps), "{copy:?} {query:?}");
                let place = get_cell_containing(query.0, copy, zuniq(query)).unwrap();
                let shown = place.is_none_or(|place| overlaps(&copy[place]));
                assert!(shown, "{copy:?} {query:?}");
            }
        }
    }
}
