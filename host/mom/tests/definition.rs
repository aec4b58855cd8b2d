//! Every small cell, and every number one bit away from a zuniq, against the definitions of the
//! scope's section 1; every list of blank cells in a base cell against the defined map of section 4.
//! All are written here as they are read there.

use mom::{add_counts, are_overlapping, from_zuniq, to_zuniq, Added};

type Cell = (u8, u64);

fn zuniq((d, h): Cell) -> u64 {
    (2 * h + 1) * 4u64.pow(29 - d as u32)
}

/// "A zuniq is valid if it equals that for some d and h in range."
fn cell_of(z: u64) -> Option<Cell> {
    (0..=29).find_map(|d| {
        let width = 4u64.pow(29 - d as u32);
        let h = z / width / 2;
        (h < 12 << (2 * d) && zuniq((d, h)) == z).then_some((d, h))
    })
}

/// "(d, h) lies in (e, g) if d ≥ e and floor(h / 4^(d−e)) = g."
fn lies_in((d, h): Cell, (e, g): Cell) -> bool {
    d >= e && h / 4u64.pow((d - e) as u32) == g
}

fn cells_to(depth: u8) -> Vec<Cell> {
    (0..=depth)
        .flat_map(|d| (0..12 << (2 * d)).map(move |h| (d, h)))
        .collect()
}

/// The cells of depths 0 to 3, and the first, the middle and the last ones of every depth.
fn cells() -> Vec<Cell> {
    let of_every_depth = (0..=29).flat_map(|d| {
        let n = 12u64 << (2 * d);
        [0, 1, n / 2 - 1, n / 2, n - 2, n - 1].map(|h| (d, h))
    });
    cells_to(3).into_iter().chain(of_every_depth).collect()
}

#[test]
fn no_cell_fails_to_come_back() {
    for (depth, hash) in cells() {
        assert_eq!(to_zuniq(depth, hash), Ok(zuniq((depth, hash))));
        assert_eq!(from_zuniq(zuniq((depth, hash))), Some((depth, hash)));
    }
}

#[test]
fn no_two_cells_overlap_but_by_lying_in_each_other() {
    let cells = cells_to(3);
    for &l in &cells {
        for &r in &cells {
            let overlap = lies_in(l, r) || lies_in(r, l);
            assert_eq!(
                are_overlapping(zuniq(l), zuniq(r)),
                Ok(overlap),
                "{l:?} {r:?}"
            );
        }
    }
}

#[test]
fn no_number_of_another_form_decodes() {
    for cell in cells() {
        for bit in 0..64 {
            let z = zuniq(cell) ^ (1 << bit);
            assert_eq!(from_zuniq(z), cell_of(z), "{z}");
        }
    }
}

#[test]
fn no_small_number_of_another_form_decodes() {
    for z in 0..100_000 {
        assert_eq!(from_zuniq(z), cell_of(z), "{z}");
    }
}

/// "A cell is whole if it is in the list, or its four children are whole and the merger accepts their
/// values." Of blanks it accepts all, from M on, but those of a protected parent. The list is of cells of
/// depth 2, by bits.
fn is_whole((d, h): Cell, list: u32, m: u8, protected: &[Cell]) -> bool {
    let is_child_whole = |child| is_whole((d + 1, 4 * h + child), list, m, protected);
    match d {
        2 => list >> h & 1 == 1,
        _ => d >= m && !protected.contains(&(d, h)) && (0..4).all(is_child_whole),
    }
}

/// "The map is all whole cells whose parent isn't whole, rising by zuniq. Depth-0 cells have no parent."
fn defined_map(list: u32, m: u8, protected: &[Cell]) -> Vec<u64> {
    let cells = (0..=2).flat_map(|d| (0..4u64.pow(d as u32)).map(move |h| (d, h)));
    let is_entry = |&(d, h): &Cell| {
        let in_another = d > 0 && is_whole((d - 1, h / 4), list, m, protected);
        is_whole((d, h), list, m, protected) && !in_another
    };
    let mut zuniqs: Vec<u64> = cells.filter(is_entry).map(zuniq).collect();
    zuniqs.sort();
    zuniqs
}

/// The first base cell and some of its children, rising by zuniq, as lists of protected parents.
const PROTECTED: [&[Cell]; 5] = [
    &[],
    &[(0, 0)],
    &[(1, 0)],
    &[(1, 1), (1, 3)],
    &[(1, 0), (0, 0), (1, 2)],
];

/// Every list of cells in the first base cell, at a T that the chi of blanks is not below; each with no
/// protected parents and with some.
#[test]
fn no_list_of_blank_cells_is_built_into_another_map() {
    for list in 0..1 << 16 {
        let hashes: Vec<u64> = (0..16).filter(|h| list >> h & 1 == 1).collect();
        for protected in [PROTECTED[0], PROTECTED[1 + list as usize % 4]] {
            let parents: Vec<u64> = protected.iter().map(|&cell| zuniq(cell)).collect();
            for m in 0..=2 {
                let (mut z, mut n) = ([7; 16], [7; 16]);
                let (places, counts) = (&mut z, &mut n);
                let batch = &[0; 16][..hashes.len()];
                let added = add_counts(2, m, 0.0, &parents, 0, places, counts, &hashes, batch);
                let Added { entries, total } = added.unwrap();
                let defined = defined_map(list, m, protected);
                assert_eq!(z[..entries], defined, "{hashes:?} {protected:?} {m}");
                assert_eq!((total, n), (0, [0; 16]));
            }
        }
    }
}
