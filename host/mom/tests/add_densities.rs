//! Building from densities by the scope: in one call and cut into two at every point, and every
//! refusal with its number and place.

use mom::{add_densities, to_zuniq, Refusal};

type Entry = (u8, u64, f64);

/// The map of the cells, cut at `cut` into two calls.
fn built(depth: u8, m: u8, t: f64, cells: &[(u64, f64)], cut: usize) -> Vec<Entry> {
    let (hashes, batch): (Vec<u64>, Vec<f64>) = cells.iter().copied().unzip();
    let (mut zuniqs, mut densities) = (vec![5; cells.len()], vec![5.5; cells.len()]);
    let (z, d) = (&mut zuniqs, &mut densities);
    let held = add_densities(depth, m, t, &[], 0, z, d, &hashes[..cut], &batch[..cut]).unwrap();
    let entries =
        add_densities(depth, m, t, &[], held, z, d, &hashes[cut..], &batch[cut..]).unwrap();
    assert!(zuniqs[entries..].iter().all(|&z| z == 0));
    assert!(densities[entries..].iter().all(|&m| m.to_bits() == 0));
    (0..entries)
        .map(|place| {
            let (depth, hash) = mom::from_zuniq(zuniqs[place]).unwrap();
            (depth, hash, densities[place])
        })
        .collect()
}

fn assert_built(depth: u8, m: u8, t: f64, cells: &[(u64, f64)], entries: &[Entry]) {
    let bits = |entries: &[Entry]| -> Vec<(u8, u64, u64)> {
        let entries = entries.iter();
        entries.map(|&(d, h, v)| (d, h, v.to_bits())).collect()
    };
    for cut in 0..=cells.len() {
        let built = built(depth, m, t, cells, cut);
        assert_eq!(bits(&built), bits(entries), "{cells:?} {cut}");
    }
}

/// The scope's cases of counts, as densities: what merges is averaged.
#[test]
fn no_merge_is_missed_and_none_is_made_up() {
    let sixteen: Vec<(u64, f64)> = (0..16).map(|hash| (hash, 16.0)).collect();
    assert_built(2, 0, 3.5, &sixteen, &[(0, 0, 16.0)]);
    let four = [(1, 0, 16.0), (1, 1, 16.0), (1, 2, 16.0), (1, 3, 16.0)];
    assert_built(2, 1, 3.5, &sixteen, &four);
    let straddling = [(1, 16.0), (2, 16.0), (3, 16.0), (4, 16.0)];
    let kept = straddling.map(|(hash, density)| (1, hash, density));
    assert_built(1, 0, 3.5, &straddling, &kept);
    assert_built(1, 0, 3.5, &[], &[]);
}

/// Every list of base cells, cut into two at every point: 0 to 3, 4 to 7 and 8 to 11 look like four
/// siblings, but there is no parent.
#[test]
fn no_base_cell_is_merged() {
    for chosen in 0..1 << 12 {
        let hashes = (0..12u64).filter(|hash| chosen >> hash & 1 == 1);
        let cells: Vec<(u64, f64)> = hashes.map(|hash| (hash, 0.5)).collect();
        let kept: Vec<Entry> = cells.iter().map(|&(hash, m)| (0, hash, m)).collect();
        for (m, t) in [(0, f64::INFINITY), (0, 0.0), (29, 3.5)] {
            assert_built(0, m, t, &cells, &kept);
        }
    }
}

/// Chi of four equal densities above c is 0, so that they are kept at T = 0; below c it is below 0.
#[test]
fn no_quad_at_the_threshold_is_merged() {
    let of = |density| [0, 1, 2, 3].map(|hash| (hash, density));
    let kept = of(16.0).map(|(hash, density)| (1, hash, density));
    assert_built(1, 0, 0.0, &of(16.0), &kept);
    assert_built(1, 0, 5e-324, &of(16.0), &[(0, 0, 16.0)]);
    assert_built(1, 0, 0.0, &of(1.0), &[(0, 0, 1.0)]);
}

#[test]
fn no_zero_loses_its_sign_and_no_small_density_is_lost() {
    let cells = [(0, -0.0), (1, -0.0), (2, -0.0), (3, -0.0), (5, -0.0)];
    assert_built(1, 0, 0.0, &cells, &[(0, 0, -0.0), (1, 5, -0.0)]);
    let cells = [(0, 5e-324), (1, 1e-323), (2, 0.0), (3, 5e-324)];
    assert_built(1, 0, 0.0, &cells, &[(0, 0, 5e-324)]);
    // The sum is infinite, so chi is too or is NaN: kept at any T.
    let cells = [(0, f64::MAX), (1, f64::MAX), (2, 0.0), (3, 0.0)];
    let kept = cells.map(|(hash, density)| (1, hash, density));
    assert_built(1, 0, f64::INFINITY, &cells, &kept);
}

/// At both ends of the sky and at the largest depth, through all 29 merges.
#[test]
fn no_merge_is_left_undone_however_far_it_goes() {
    for top in [0, 11] {
        let (mut zuniqs, mut densities) = (vec![0; 100], vec![0.25; 100]);
        // Children 0 to 2 on every depth below the base cell, down its last ones.
        let mut held = 0;
        for depth in 1..=29 {
            let parent: u64 = (top << (2 * (depth - 1))) + (1 << (2 * (depth - 1))) - 1;
            for child in 0..3 {
                zuniqs[held] = to_zuniq(depth as u8, 4 * parent + child).unwrap();
                held += 1;
            }
        }
        let last = (top << 58) + (1 << 58) - 1;
        let (z, d) = (&mut zuniqs, &mut densities);
        let added = add_densities(29, 0, f64::INFINITY, &[], held, z, d, &[last], &[0.25]);
        assert_eq!(added, Ok(1));
        assert_eq!((zuniqs[0], densities[0]), (to_zuniq(0, top).unwrap(), 0.25));
        assert!(zuniqs[1..].iter().all(|&zuniq| zuniq == 0));
        assert!(densities[1..].iter().all(|&density| density == 0.0));
    }
}

const BAD: [f64; 5] = [
    f64::NAN,
    f64::INFINITY,
    f64::NEG_INFINITY,
    -1.0,
    -5e-324, // the greatest f64 below 0
];

/// A call on the cells (1, 0) and (1, 1) with more places behind them, changed in one thing or two.
struct Call {
    depth: u8,
    m: u8,
    t: f64,
    held: usize,
    zuniqs: Vec<u64>,
    densities: Vec<f64>,
    hashes: Vec<u64>,
    batch: Vec<f64>,
}

impl Call {
    fn new() -> Call {
        let first = 1 << 56;
        Call {
            depth: 1,
            m: 0,
            t: 3.5,
            held: 2,
            zuniqs: vec![first, 3 * first, 77, 77, 77],
            densities: vec![16.0, -0.0, f64::NAN, -1.0, 7.0],
            hashes: vec![2, 3, 47],
            batch: vec![16.0, -0.0, 0.0],
        }
    }

    /// The answer; where it is a refusal, that no buffer was touched.
    fn answer(&mut self) -> Result<usize, Refusal> {
        let bits = |densities: &[f64]| -> Vec<u64> {
            densities.iter().map(|density| density.to_bits()).collect()
        };
        let before = (self.zuniqs.clone(), bits(&self.densities));
        let answer = add_densities(
            self.depth,
            self.m,
            self.t,
            &[],
            self.held,
            &mut self.zuniqs,
            &mut self.densities,
            &self.hashes,
            &self.batch,
        );
        if answer.is_err() {
            assert_eq!((self.zuniqs.clone(), bits(&self.densities)), before);
        }
        answer
    }
}

fn assert_refused(number: u8, place: usize, change: impl FnOnce(&mut Call)) {
    let mut call = Call::new();
    change(&mut call);
    assert_eq!(call.answer(), Err(Refusal::of(number, place).unwrap()));
}

/// −0 and what stands behind the entries refuse nothing.
#[test]
fn no_good_call_is_refused() {
    let mut call = Call::new();
    assert_eq!(call.answer(), Ok(2));
    let last = to_zuniq(1, 47).unwrap();
    assert_eq!(call.zuniqs, [1 << 58, last, 0, 0, 0]);
    assert_eq!(call.densities, [8.0, 0.0, 0.0, 0.0, 0.0]);
    let mut call = Call::new();
    call.hashes.clear();
    call.batch.clear();
    assert_eq!(call.answer(), Ok(2));
    assert_eq!(call.zuniqs[2..], [0; 3]);
    assert_eq!(call.densities[2..], [0.0; 3]);
}

#[test]
fn no_bad_setting_and_no_bad_length_is_accepted() {
    assert_refused(1, 0, |call| call.depth = 30);
    assert_refused(1, 0, |call| call.depth = 255);
    assert_refused(2, 0, |call| call.m = 30);
    assert_refused(3, 0, |call| call.t = f64::NAN);
    assert_refused(4, 0, |call| call.held = 6);
    assert_refused(4, 0, |call| call.zuniqs.truncate(4));
    assert_refused(4, 0, |call| call.densities.truncate(4));
    assert_refused(4, 0, |call| call.hashes.truncate(2));
    assert_refused(4, 0, |call| call.batch.truncate(2));
    assert_refused(11, 0, |call| {
        call.zuniqs.pop();
        call.densities.pop();
    });
}

#[test]
fn no_bad_entry_and_no_bad_cell_is_accepted() {
    assert_refused(5, 0, |call| call.zuniqs[0] = 2);
    assert_refused(5, 1, |call| call.zuniqs[1] = call.zuniqs[0]);
    assert_refused(5, 2, |call| call.held = 3);
    assert_refused(7, 2, |call| call.hashes[2] = 48);
    assert_refused(8, 0, |call| call.hashes[0] = 1);
    assert_refused(8, 1, |call| call.hashes[1] = 2);
    for bad in BAD {
        for place in 0..2 {
            assert_refused(6, place, |call| call.densities[place] = bad);
        }
        for place in 0..3 {
            assert_refused(9, place, |call| call.batch[place] = bad);
        }
    }
}

/// Each refusal before the next one of the table, and 7, 8 and 9 cell by cell.
#[test]
fn no_refusal_is_given_out_of_order() {
    assert_refused(5, 1, |call| {
        call.zuniqs[1] = 0;
        call.densities[0] = f64::NAN;
    });
    assert_refused(6, 1, |call| {
        call.densities[1] = -1.0;
        call.hashes[0] = 48;
    });
    assert_refused(9, 0, |call| {
        call.batch[0] = -1.0;
        call.hashes[1] = 48;
        call.hashes[2] = 0;
    });
    for (hash, number) in [(48, 7), (2, 8)] {
        assert_refused(number, 1, |call| {
            call.hashes[1] = hash;
            call.batch[1] = f64::NAN;
        });
    }
    assert_refused(9, 2, |call| {
        call.batch[2] = f64::NAN;
        call.zuniqs.truncate(4);
        call.densities.truncate(4);
    });
}
