//! Adding to narrow maps: the scope's cases of building, blank sky, each refusal, and the same cells
//! added to a wide map.

use mom::{
    narrow::{add_counts, from_zuniq, to_zuniq},
    Added, Refusal,
};

type Entry = (u8, u32, u32);

fn refusal<T>(number: u8, place: usize) -> Result<T, Refusal> {
    Err(Refusal::of(number, place).unwrap())
}

/// The map of the cells, cut at `cut` into two calls.
fn built(depth: u8, m: u8, t: f64, cells: &[(u32, u32)], cut: usize) -> Vec<Entry> {
    let (hashes, batch): (Vec<u32>, Vec<u32>) = cells.iter().copied().unzip();
    let (mut zuniqs, mut counts) = (vec![5; cells.len()], vec![5; cells.len()]);
    let (z, c) = (&mut zuniqs, &mut counts);
    let first = add_counts(depth, m, t, &[], 0, z, c, &hashes[..cut], &batch[..cut]).unwrap();
    let held = first.entries;
    let added = add_counts(depth, m, t, &[], held, z, c, &hashes[cut..], &batch[cut..]).unwrap();
    let Added { entries, total } = added;
    assert_eq!(total, batch.iter().sum::<u32>());
    assert!(zuniqs[entries..].iter().all(|&z| z == 0));
    assert!(counts[entries..].iter().all(|&n| n == 0));
    (0..entries)
        .map(|place| {
            let (depth, hash) = from_zuniq(zuniqs[place]).unwrap();
            (depth, hash, counts[place])
        })
        .collect()
}

fn assert_built(depth: u8, m: u8, t: f64, cells: &[(u32, u32)], entries: &[Entry]) {
    for cut in 0..=cells.len() {
        assert_eq!(built(depth, m, t, cells, cut), entries, "{cells:?} {cut}");
    }
}

#[test]
fn no_case_of_the_scope_is_missed() {
    let sixteen: Vec<(u32, u32)> = (0..16).map(|hash| (hash, 1)).collect();
    assert_built(2, 0, 3.5, &sixteen, &[(0, 0, 16)]);
    let four = [(1, 0, 4), (1, 1, 4), (1, 2, 4), (1, 3, 4)];
    assert_built(2, 1, 3.5, &sixteen, &four);
    let straddling = [(1, 1), (2, 1), (3, 1), (4, 1)];
    let kept = [(1, 1, 1), (1, 2, 1), (1, 3, 1), (1, 4, 1)];
    assert_built(1, 0, 3.5, &straddling, &kept);
    let mixed = [(0, 1), (1, 2), (2, 4), (3, 4), (5, 0)];
    assert_built(2, 1, 3.5, &mixed, &[(1, 0, 11), (2, 5, 0)]);
    assert_built(1, 0, 3.5, &[], &[]);
}

/// Every list of base cells, cut into two at every point.
#[test]
fn no_base_cell_is_merged() {
    for chosen in 0..1 << 12 {
        let hashes = (0..12).filter(|hash| chosen >> hash & 1 == 1);
        let cells: Vec<(u32, u32)> = hashes.map(|hash| (hash, 1)).collect();
        let kept: Vec<Entry> = cells.iter().map(|&(hash, n)| (0, hash, n)).collect();
        for (m, t) in [(0, f64::INFINITY), (29, 3.5)] {
            assert_built(0, m, t, &cells, &kept);
        }
    }
}

/// Of either sign, at 0 and far from it.
const THRESHOLDS: [f64; 7] = [
    0.0,
    -0.0,
    -1.0,
    -f64::MAX,
    f64::NEG_INFINITY,
    5e-324,
    f64::INFINITY,
];

/// "Four siblings of count 0 now merge at any T, where the parent depth is at least M": level by level,
/// in however many batches, up to the largest depth.
#[test]
fn no_blank_sky_is_left_apart_and_none_is_merged_below_m() {
    for t in THRESHOLDS {
        for depth in [2, 13] {
            let cells: Vec<(u32, u32)> = (0..16).map(|hash| (hash, 0)).collect();
            for (m, depth_of_merged) in [(0, depth - 2), (depth - 1, depth - 1), (depth, depth)] {
                let stay = 0..4u32.pow((depth_of_merged - (depth - 2)) as u32);
                let entries: Vec<Entry> = stay.map(|hash| (depth_of_merged, hash, 0)).collect();
                assert_built(depth, m, t, &cells, &entries);
            }
        }
        let base: Vec<(u32, u32)> = (0..12).map(|hash| (hash, 0)).collect();
        let kept: Vec<Entry> = (0..12).map(|hash| (0, hash, 0)).collect();
        assert_built(0, 0, t, &base, &kept);
    }
}

/// A single source, in cell 5, keeps its siblings apart where chi isn't below T, and nothing else.
#[test]
fn no_source_is_lost_in_blank_sky_and_none_keeps_what_lies_beside_it() {
    let cells: Vec<(u32, u32)> = (0..16).map(|hash| (hash, (hash == 5) as u32)).collect();
    let quad = [(2, 4, 0), (2, 5, 1), (2, 6, 0), (2, 7, 0)];
    let apart = [&[(1, 0, 0)], &quad[..], &[(1, 2, 0), (1, 3, 0)]].concat();
    for t in [1.0, 0.0, -1.0, f64::NEG_INFINITY] {
        assert_built(2, 0, t, &cells, &apart);
    }
    assert_built(2, 0, 1.5, &cells, &[(0, 0, 1)]);
}

/// At both ends of the sky and at the largest depth, through all 13 merges; also of blank sky, at a T
/// that no chi is below.
#[test]
fn no_merge_is_left_undone_however_far_it_goes() {
    for (top, t, total) in [
        (0, f64::INFINITY, 7),
        (11, f64::INFINITY, 7),
        (0, f64::NEG_INFINITY, 0),
        (11, f64::NEG_INFINITY, 0),
    ] {
        let (mut zuniqs, mut counts) = (vec![0; 50], vec![0; 50]);
        // Children 0 to 2 on every depth below the base cell, down its last ones.
        let mut held = 0;
        for depth in 1..=13 {
            let parent: u32 = (top << (2 * (depth - 1))) + (1 << (2 * (depth - 1))) - 1;
            for child in 0..3 {
                zuniqs[held] = to_zuniq(depth as u8, 4 * parent + child).unwrap();
                held += 1;
            }
        }
        let last = (top << 26) + (1 << 26) - 1;
        let added = add_counts(
            13,
            0,
            t,
            &[],
            held,
            &mut zuniqs,
            &mut counts,
            &[last],
            &[total],
        );
        let entries = 1;
        assert_eq!(added, Ok(Added { entries, total }));
        assert_eq!((zuniqs[0], counts[0]), (to_zuniq(0, top).unwrap(), total));
        assert!(zuniqs[1..].iter().all(|&zuniq| zuniq == 0));
        assert!(counts[1..].iter().all(|&count| count == 0));
    }
}

/// M is 0 to 29, though no parent is deeper than 12: at M = 12 the last cells are merged once, from
/// 13 on nothing is.
#[test]
fn no_m_up_to_29_is_refused_and_none_from_13_on_merges() {
    let cells: Vec<(u32, u32)> = (0..16).map(|hash| (hash, 1)).collect();
    let kept: Vec<Entry> = cells.iter().map(|&(hash, n)| (13, hash, n)).collect();
    for m in 13..=29 {
        assert_built(13, m, f64::INFINITY, &cells, &kept);
    }
    let once = [(12, 0, 4), (12, 1, 4), (12, 2, 4), (12, 3, 4)];
    assert_built(13, 12, f64::INFINITY, &cells, &once);
    for m in 0..=11 {
        assert_built(13, m, f64::INFINITY, &cells, &[(11, 0, 16)]);
    }
    let (mut z, mut n) = ([7; 4], [7; 4]);
    for m in 30..=255 {
        for (t, held) in [(1.0, 0), (f64::NAN, 5)] {
            let added = add_counts(13, m, t, &[], held, &mut z, &mut n, &[12 << 26], &[1]);
            assert_eq!(added, refusal(2, 0), "{m}");
        }
    }
    assert_eq!((z, n), ([7; 4], [7; 4]));
}

#[test]
fn no_depth_up_to_13_is_refused_and_none_above_is_taken() {
    for depth in 0..=13 {
        let last = (12 << (2 * depth)) - 1;
        let kept = [(depth, 0, 3), (depth, last, 4)];
        assert_built(depth, 0, 3.5, &[(0, 3), (last, 4)], &kept);
    }
    let (mut z, mut n) = ([7; 2], [7; 2]);
    for depth in 14..=255 {
        for (m, t, held) in [(0, 1.0, 0), (30, f64::NAN, 3)] {
            let added = add_counts(depth, m, t, &[], held, &mut z, &mut n, &[0], &[1]);
            assert_eq!(added, refusal(1, 0), "{depth}");
        }
    }
    assert_eq!((z, n), ([7; 2], [7; 2]));
}

/// Each refusal with what would be refused later, and both buffers as they were.
#[test]
fn no_refusal_touches_a_buffer_or_hides_an_earlier_one() {
    let nan = f64::NAN;
    let past = 12 << 26;
    // (13, 0), (13, 1), no zuniq, (0, 0).
    let zuniqs = [1, 3, 6, 1 << 26];
    let counts = [1, u32::MAX - 9, 7, 9];
    for (m, t, held, hashes, batch, number, place) in [
        (30, nan, 5, &[past][..], &[][..], 2, 0),
        (29, nan, 5, &[past], &[], 3, 0),
        (29, 1.0, 5, &[past], &[1], 4, 0),
        (0, 1.0, 3, &[past], &[], 4, 0),
        (0, 1.0, 3, &[past], &[1], 5, 2),
        (0, 1.0, 4, &[past], &[1], 5, 2),
        (0, 1.0, 2, &[past, 0], &[9, 9], 7, 0),
        (0, 1.0, 2, &[2, past, 0], &[9, 9, 9], 7, 1),
        (0, 1.0, 2, &[1, past], &[9, 9], 8, 0),
        (0, 1.0, 2, &[2, 2, past], &[9, 9, 9], 8, 1),
        (0, 1.0, 2, &[2, 3, 4], &[8, 1, 0], 10, 1),
        (0, 1.0, 2, &[2, 3, 4], &[8, 0, 0], 11, 0),
    ] {
        let (mut z, mut n) = (zuniqs, counts);
        let added = add_counts(13, m, t, &[], held, &mut z, &mut n, hashes, batch);
        assert_eq!(added, refusal(number, place), "{m} {t} {held} {hashes:?}");
        assert_eq!((z, n), (zuniqs, counts));
    }
    let (mut z, mut n) = ([1, 3, 5], [u32::MAX, 1, 7]);
    let added = add_counts(13, 0, 1.0, &[], 2, &mut z, &mut n, &[2, 3], &[0, 0]);
    assert_eq!(added, refusal(10, 0));
    let added = add_counts(13, 0, 1.0, &[], 0, &mut z, &mut n[..2], &[2], &[0]);
    assert_eq!(added, refusal(4, 0));
    assert_eq!((z, n), ([1, 3, 5], [u32::MAX, 1, 7]));
}

/// The largest total is taken.
#[test]
fn no_total_that_is_a_u32_is_refused() {
    let (mut z, mut n) = ([1, 3, 5], [u32::MAX - 2, 1, 7]);
    let added = add_counts(13, 0, 1.0, &[], 2, &mut z, &mut n, &[2], &[1]);
    let (entries, total) = (3, u32::MAX);
    assert_eq!(added, Ok(Added { entries, total }));
    assert_eq!((z, n), ([1, 3, 5], [u32::MAX - 2, 1, 1]));
}

/// The same cells with the same counts make the same map in both widths; also where most are blank.
#[test]
fn no_cell_is_merged_otherwise_than_in_a_wide_map() {
    let counts = |seed: u32, every: u32| {
        let count = move |i| (i * i + seed * i) % 7 / 3;
        (0..64).map(move |i| if i % every == 0 { count(i) } else { 0 })
    };
    for depth in [3, 8, 13] {
        let n = 12 << (2 * depth);
        for from in [0, 5, n - 64] {
            let hashes: Vec<u32> = (from..from + 64).filter(|hash| hash % 29 != 9).collect();
            let of_wide: Vec<u64> = hashes.iter().map(|&hash| hash as u64).collect();
            for (m, t, every) in [
                (0, 0.5, 1),
                (0, 2.5, 1),
                (2, 4.0, 1),
                (12, f64::INFINITY, 1),
                (0, 0.0, 20),
                (2, -1.0, 20),
                (12, f64::NEG_INFINITY, 20),
            ] {
                let batch: Vec<u32> = counts(from % 5, every).take(hashes.len()).collect();
                let (mut z, mut c) = (vec![7; 70], vec![7; 70]);
                let ours = add_counts(depth, m, t, &[], 0, &mut z, &mut c, &hashes, &batch);
                let (mut wide_z, mut wide_c) = (vec![7; 70], vec![7; 70]);
                let (wz, wc) = (&mut wide_z, &mut wide_c);
                let theirs = mom::add_counts(depth, m, t, &[], 0, wz, wc, &of_wide, &batch);
                assert_eq!(ours, theirs, "{depth} {from} {m} {t}");
                let z: Vec<u64> = z.iter().map(|&z| (z as u64) << 32).collect();
                assert_eq!((z, c), (wide_z, wide_c), "{depth} {from} {m} {t}");
            }
        }
    }
}
