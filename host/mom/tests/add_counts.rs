//! The scope's cases of building, and blank sky, in one call and cut into two at every point.

use mom::{add_counts, to_zuniq, Added};

type Entry = (u8, u64, u32);

/// The map of the cells, cut at `cut` into two calls.
fn built(depth: u8, m: u8, t: f64, cells: &[(u64, u32)], cut: usize) -> Vec<Entry> {
    let (hashes, batch): (Vec<u64>, Vec<u32>) = cells.iter().copied().unzip();
    let (mut zuniqs, mut counts) = (vec![5; cells.len()], vec![5; cells.len()]);
    let (z, c) = (&mut zuniqs, &mut counts);
    let first = add_counts(depth, m, t, &[], 0, z, c, &hashes[..cut], &batch[..cut]).unwrap();
    let held = first.entries;
    let added = add_counts(depth, m, t, &[], held, z, c, &hashes[cut..], &batch[cut..]).unwrap();
    let Added { entries, total } = added;
    assert_eq!(total, batch.iter().sum::<u32>());
    assert!(zuniqs[entries..].iter().all(|&z| z == 0));
    assert!(counts[entries..].iter().all(|&n| n == 0));
    (0..entries)
        .map(|place| {
            let (depth, hash) = mom::from_zuniq(zuniqs[place]).unwrap();
            (depth, hash, counts[place])
        })
        .collect()
}

fn assert_built(depth: u8, m: u8, t: f64, cells: &[(u64, u32)], entries: &[Entry]) {
    for cut in 0..=cells.len() {
        assert_eq!(built(depth, m, t, cells, cut), entries, "{cells:?} {cut}");
    }
}

#[test]
fn no_case_of_the_scope_is_missed() {
    let sixteen: Vec<(u64, u32)> = (0..16).map(|hash| (hash, 1)).collect();
    assert_built(2, 0, 3.5, &sixteen, &[(0, 0, 16)]);
    let four = [(1, 0, 4), (1, 1, 4), (1, 2, 4), (1, 3, 4)];
    assert_built(2, 1, 3.5, &sixteen, &four);
    let straddling = [(1, 1), (2, 1), (3, 1), (4, 1)];
    let kept = [(1, 1, 1), (1, 2, 1), (1, 3, 1), (1, 4, 1)];
    assert_built(1, 0, 3.5, &straddling, &kept);
    let mixed = [(0, 1), (1, 2), (2, 4), (3, 4), (5, 0)];
    assert_built(2, 1, 3.5, &mixed, &[(1, 0, 11), (2, 5, 0)]);
    assert_built(1, 0, 3.5, &[], &[]);
}

/// Every list of base cells, cut into two at every point: 0 to 3, 4 to 7 and 8 to 11 look like four
/// siblings, but there is no parent.
#[test]
fn no_base_cell_is_merged() {
    for chosen in 0..1 << 12 {
        let hashes = (0..12u64).filter(|hash| chosen >> hash & 1 == 1);
        let cells: Vec<(u64, u32)> = hashes.map(|hash| (hash, 1)).collect();
        let kept: Vec<Entry> = cells.iter().map(|&(hash, n)| (0, hash, n)).collect();
        for (m, t) in [(0, f64::INFINITY), (0, 0.0), (0, -1.0), (29, 3.5)] {
            assert_built(0, m, t, &cells, &kept);
        }
    }
}

/// Of either sign, at 0 and far from it.
const THRESHOLDS: [f64; 7] = [
    0.0,
    -0.0,
    -1.0,
    -f64::MAX,
    f64::NEG_INFINITY,
    5e-324,
    f64::INFINITY,
];

/// So many cells of count 0.
fn blanks(cells: u64) -> Vec<(u64, u32)> {
    (0..cells).map(|hash| (hash, 0)).collect()
}

/// "Four siblings of count 0 now merge at any T, where the parent depth is at least M": level by level,
/// in however many batches.
#[test]
fn no_blank_sky_is_left_apart_and_none_is_merged_below_m() {
    for t in THRESHOLDS {
        for depth in 1..=3 {
            let cells = blanks(4u64.pow(depth as u32));
            assert_built(depth, 0, t, &cells, &[(0, 0, 0)]);
            for m in 1..=depth {
                let stay = 0..4u64.pow(m as u32);
                let entries: Vec<Entry> = stay.map(|hash| (m, hash, 0)).collect();
                assert_built(depth, m, t, &cells, &entries);
            }
        }
        let straddling = [(1, 0), (2, 0), (3, 0), (4, 0)];
        let kept = [(1, 1, 0), (1, 2, 0), (1, 3, 0), (1, 4, 0)];
        assert_built(1, 0, t, &straddling, &kept);
    }
}

/// A single source, in cell 5, keeps its siblings and the parents above it apart, where chi isn't below
/// T, and nothing else.
#[test]
fn no_source_is_lost_in_blank_sky_and_none_keeps_what_lies_beside_it() {
    let mut cells = blanks(16);
    cells[5].1 = 1;
    let quad = [(2, 4, 0), (2, 5, 1), (2, 6, 0), (2, 7, 0)];
    let apart = [&[(1, 0, 0)], &quad[..], &[(1, 2, 0), (1, 3, 0)]].concat();
    for t in [1.0, 0.5, 5e-324, 0.0, -1.0, f64::NEG_INFINITY] {
        assert_built(2, 0, t, &cells, &apart);
    }
    assert_built(2, 0, 1.5, &cells, &[(0, 0, 1)]);
}

#[test]
fn no_blank_base_cell_is_merged() {
    let kept: Vec<Entry> = (0..12).map(|hash| (0, hash, 0)).collect();
    for t in THRESHOLDS {
        assert_built(0, 0, t, &blanks(12), &kept);
    }
}

/// At both ends of the sky and at the largest depth, through all 29 merges; also of blank sky, at a T
/// that no chi is below.
#[test]
fn no_merge_is_left_undone_however_far_it_goes() {
    for (top, t, total) in [
        (0, f64::INFINITY, 7),
        (11, f64::INFINITY, 7),
        (0, f64::NEG_INFINITY, 0),
        (11, f64::NEG_INFINITY, 0),
    ] {
        let mut zuniqs = vec![0; 100];
        let mut counts = vec![0; 100];
        // Children 0 to 2 on every depth below the base cell, down its last ones.
        let mut held = 0;
        for depth in 1..=29 {
            let parent: u64 = (top << (2 * (depth - 1))) + (1 << (2 * (depth - 1))) - 1;
            for child in 0..3 {
                zuniqs[held] = to_zuniq(depth as u8, 4 * parent + child).unwrap();
                held += 1;
            }
        }
        let last = (top << 58) + (1 << 58) - 1;
        let added = add_counts(
            29,
            0,
            t,
            &[],
            held,
            &mut zuniqs,
            &mut counts,
            &[last],
            &[total],
        );
        let entries = 1;
        assert_eq!(added, Ok(Added { entries, total }));
        assert_eq!((zuniqs[0], counts[0]), (to_zuniq(0, top).unwrap(), total));
        assert!(zuniqs[1..].iter().all(|&zuniq| zuniq == 0));
        assert!(counts[1..].iter().all(|&count| count == 0));
    }
}
