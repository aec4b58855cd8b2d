//! The map check and lookup on small maps and damaged ones, against the definitions of the scope's
//! sections 3 and 6, written here as they are read there and tried entry by entry.

use mom::{check_is_mom, get_cell_containing, get_overlapped_cells, Fault, MapCheck, Refusal};

type Cell = (u8, u64);

fn zuniq((d, h): Cell) -> u64 {
    (2 * h + 1) << (2 * (29 - d))
}

/// "A zuniq is valid if it equals that for some d and h in range."
fn cell_of(z: u64) -> Option<Cell> {
    let d = 29u8.checked_sub(z.trailing_zeros() as u8 / 2)?;
    let h = z >> (2 * (29 - d) + 1);
    (h < 12 << (2 * d) && zuniq((d, h)) == z).then_some((d, h))
}

fn lies_in((d, h): Cell, (e, g): Cell) -> bool {
    d >= e && h >> (2 * (d - e)) == g
}

fn overlap(l: Cell, r: Cell) -> bool {
    lies_in(l, r) || lies_in(r, l)
}

/// "Each zuniq is valid, none is deeper than D, they rise strictly and no two overlap."
fn is_valid(depth: u8, map: &[u64]) -> bool {
    let cells: Option<Vec<Cell>> = map.iter().map(|&z| cell_of(z)).collect();
    cells.is_some_and(|cells| {
        cells.iter().all(|&(d, _)| d <= depth)
            && map.windows(2).all(|pair| pair[0] < pair[1])
            && (0..cells.len()).all(|i| (0..i).all(|j| !overlap(cells[i], cells[j])))
    })
}

/// "The first faulty place and the first fault there of: not a zuniq, too deep, not above its
/// predecessor, overlapping it."
fn first_fault(depth: u8, map: &[u64]) -> MapCheck {
    let fault_at = |place: usize| {
        let Some(cell) = cell_of(map[place]) else {
            return Some(Fault::NotAZuniq);
        };
        if cell.0 > depth {
            return Some(Fault::TooDeep);
        }
        let before = *map[..place].last()?;
        if map[place] <= before {
            return Some(Fault::NotAbove);
        }
        overlap(cell_of(before)?, cell).then_some(Fault::Overlapping)
    };
    (0..map.len())
        .find_map(|place| fault_at(place).map(|fault| MapCheck::Faulty { place, fault }))
        .unwrap_or(MapCheck::Valid)
}

fn assert_check(depth: u8, map: &[u64]) {
    let check = first_fault(depth, map);
    assert_eq!(check == MapCheck::Valid, is_valid(depth, map), "{map:?}");
    assert_eq!(check_is_mom(depth, map), Ok(check), "{depth} {map:?}");
}

/// Over a valid map.
fn assert_lookup(depth: u8, map: &[u64], query: Cell) {
    let places: Vec<usize> = (0..map.len())
        .filter(|&place| overlap(cell_of(map[place]).unwrap(), query))
        .collect();
    let first = places.first().copied().unwrap_or(0);
    let run = &map[first..first + places.len()];
    let ours = get_overlapped_cells(map, zuniq(query));
    assert_eq!(ours, Ok((first, run)), "{map:?} {query:?}");
    // That very part, by its address.
    assert!(run.is_empty() || std::ptr::eq(ours.unwrap().1, run));
    let containing = if query.0 == depth {
        Ok(places.first().copied())
    } else {
        refusal(12, 0)
    };
    let ours = get_cell_containing(depth, map, zuniq(query));
    assert_eq!(ours, containing, "{depth} {map:?} {query:?}");
}

/// Over any list at all: what is shown is valid and overlaps.
fn assert_shown(depth: u8, map: &[u64], query: Cell) {
    let (first, run) = get_overlapped_cells(map, zuniq(query)).unwrap();
    assert_eq!(run, &map[first..first + run.len()]);
    for &z in run {
        let shown = cell_of(z).is_some_and(|cell| overlap(cell, query));
        assert!(shown, "{map:?} {query:?} {z}");
    }
    if query.0 == depth {
        if let Some(place) = get_cell_containing(depth, map, zuniq(query)).unwrap() {
            let shown = cell_of(map[place]).is_some_and(|cell| overlap(cell, query));
            assert!(shown, "{depth} {map:?} {query:?} {place}");
        }
    }
}

fn refusal<T>(number: u8, place: usize) -> Result<T, Refusal> {
    Err(Refusal::of(number, place).unwrap())
}

/// All cells of these depths that lie in these base cells.
fn cells(depths: std::ops::RangeInclusive<u8>, bases: &[u64]) -> Vec<Cell> {
    depths
        .flat_map(|d| (0..12 << (2 * d)).map(move |h| (d, h)))
        .filter(|&(d, h)| bases.contains(&(h >> (2 * d))))
        .collect()
}

/// All lists of at most `len` of these cells' zuniqs, in any order and with repeats.
fn lists(cells: &[Cell], len: u32) -> Vec<Vec<u64>> {
    let n = cells.len();
    (0..=len)
        .flat_map(|len| {
            (0..n.pow(len)).map(move |i| (0..len).map(|k| zuniq(cells[i / n.pow(k) % n])).collect())
        })
        .collect()
}

const ALL_BASES: [u64; 12] = [0, 1, 2, 3, 4, 5, 6, 7, 8, 9, 10, 11];

#[test]
fn no_small_list_is_taken_for_a_map_and_none_is_refused() {
    let pairs = lists(&cells(0..=2, &ALL_BASES), 2);
    let triples = lists(&cells(0..=2, &[0, 11]), 3);
    for list in pairs.iter().chain(&triples) {
        for depth in 0..=2 {
            assert_check(depth, list);
        }
    }
}

#[test]
fn no_small_lookup_misses_an_entry() {
    let of_pairs = lists(&cells(0..=1, &ALL_BASES), 2);
    let of_triples = lists(&cells(0..=2, &[0, 11]), 3);
    for (lists, queries) in [
        (of_pairs, cells(0..=2, &ALL_BASES)),
        (of_triples, cells(0..=2, &[0, 1, 11])),
    ] {
        for map in lists.iter().filter(|list| is_valid(2, list)) {
            for &query in &queries {
                assert_lookup(2, map, query);
            }
        }
    }
}

/// Maps of 0 to some 40 entries at depths 0 to 29: base cells, of which some are split, left out
/// or replaced by what lies in them.
fn mixed_maps() -> impl Iterator<Item = Vec<u64>> {
    let mut state = 1u64;
    let mut below = move |n: u64| {
        state ^= state << 13;
        state ^= state >> 7;
        state ^= state << 17;
        (state >> 11) % n
    };
    (0..300).map(move |_| {
        let mut cells: Vec<Cell> = ALL_BASES.iter().map(|&h| (0, h)).collect();
        for _ in 0..below(30) {
            let Some(place) = cells
                .len()
                .checked_sub(1)
                .map(|last| below(last as u64 + 1))
            else {
                break;
            };
            let (d, h) = cells.swap_remove(place as usize);
            let down = below(30 - d as u64) as u8;
            match below(4) {
                0 => {}
                1 => cells.push((d + down, (h << (2 * down)) + below(1 << (2 * down)))),
                _ if d < 29 => cells.extend((0..4).map(|child| (d + 1, 4 * h + child))),
                _ => cells.push((d, h)),
            }
        }
        let mut map: Vec<u64> = cells.into_iter().map(zuniq).collect();
        map.sort();
        map
    })
}

/// The cells of a map's entries, those beside them, and what lies above and in each.
fn queries(map: &[u64]) -> Vec<Cell> {
    let mut queries = cells(0..=1, &ALL_BASES);
    for (d, h) in map.iter().map(|&z| cell_of(z).unwrap()) {
        for h in [h, h.saturating_sub(1), (h + 1).min((12 << (2 * d)) - 1)] {
            queries.push((d, h));
            queries.extend((0..d).map(|up| (up, h >> (2 * (d - up)))));
            let down = 29 - d;
            queries.push((29, h << (2 * down)));
            queries.push((29, (h << (2 * down)) + (1 << (2 * down)) - 1));
        }
    }
    queries
}

#[test]
fn no_lookup_in_a_mixed_map_misses_an_entry() {
    for map in mixed_maps() {
        assert!(is_valid(29, &map));
        assert_check(29, &map);
        for query in queries(&map) {
            assert_lookup(29, &map, query);
        }
    }
}

/// Two entries swapped, one repeated, one deeper, one with a bit changed.
fn damaged(map: &[u64]) -> Vec<Vec<u64>> {
    let mut copies = Vec::new();
    for i in 0..map.len() {
        for j in [0, i.saturating_sub(1), map.len() - 1] {
            let mut copy = map.to_vec();
            copy.swap(i, j);
            copies.push(copy);
            let mut copy = map.to_vec();
            copy.insert(j, map[i]);
            copies.push(copy);
        }
        for bit in 0..64 {
            let mut copy = map.to_vec();
            copy[i] ^= 1 << bit;
            copies.push(copy);
        }
        let (d, h) = cell_of(map[i]).unwrap();
        if d < 29 {
            let mut copy = map.to_vec();
            copy.insert(i + 1, zuniq((d + 1, 4 * h + 3)));
            copies.push(copy);
        }
    }
    copies
}

#[test]
fn no_damage_goes_unseen_and_none_shows_what_does_not_overlap() {
    for map in mixed_maps().take(8) {
        let queries = queries(&map);
        for (i, copy) in damaged(&map).iter().enumerate() {
            for depth in [0, 1, 15, 28, 29] {
                assert_check(depth, copy);
            }
            for query in queries.iter().skip(i % 16).step_by(16) {
                assert_shown(29, copy, *query);
                assert_shown(query.0, copy, *query);
            }
        }
    }
}

#[test]
fn no_depth_over_29_is_taken_and_none_hides_behind_another_fault() {
    for depth in 30..=255 {
        for map in [&[][..], &[0], &[1, 1]] {
            assert_eq!(check_is_mom(depth, map), refusal(1, 0));
            for query in [0, 1] {
                assert_eq!(get_cell_containing(depth, map, query), refusal(1, 0));
            }
        }
    }
}

#[test]
fn no_query_is_taken_that_is_no_zuniq_or_at_another_depth() {
    for map in [&[][..], &[0], &[1, 3], &[1 << 58]] {
        for query in [0, 2, 1 << 60, 6917529027641081857, u64::MAX] {
            assert_eq!(get_overlapped_cells(map, query), refusal(12, 0), "{query}");
            for depth in 0..=29 {
                let ours = get_cell_containing(depth, map, query);
                assert_eq!(ours, refusal(12, 0), "{depth} {query}");
            }
        }
        for depth in 0..=29 {
            for at in 0..=29 {
                let ours = get_cell_containing(depth, map, zuniq((at, 0)));
                assert_eq!(ours.is_ok(), depth == at, "{depth} {at}");
            }
        }
    }
}
