//! Multiplying two density maps by the scope: its case, what is dropped and what is split, and every
//! refusal with its number and place.

use mom::{product, to_zuniq, Map, Refusal};

type Entry = (u8, u64, f64);

/// A map with memory of its own.
#[derive(Clone, Debug)]
struct Owned {
    depth: u8,
    zuniqs: Vec<u64>,
    densities: Vec<f64>,
}

fn map(depth: u8, entries: &[Entry]) -> Owned {
    let zuniq = |&(depth, hash, _): &Entry| to_zuniq(depth, hash).unwrap();
    Owned {
        depth,
        zuniqs: entries.iter().map(zuniq).collect(),
        densities: entries.iter().map(|entry| entry.2).collect(),
    }
}

impl Owned {
    fn lent(&self) -> Map<'_, f64> {
        Map {
            depth: self.depth,
            zuniqs: &self.zuniqs,
            values: &self.densities,
        }
    }
}

/// Two maps with M, T and k, and the places of the output.
#[derive(Clone, Debug)]
struct Call {
    left: Owned,
    right: Owned,
    m: u8,
    t: f64,
    k: f64,
    places: [usize; 2],
}

impl Call {
    /// The entries, behind which all is 0; where refused, nothing is touched.
    fn answer(&self) -> Result<Vec<(u8, u64, u64)>, Refusal> {
        let [of_zuniqs, of_densities] = self.places;
        let (mut zuniqs, mut densities) = (vec![5; of_zuniqs], vec![5.5; of_densities]);
        let (left, right) = (self.left.lent(), self.right.lent());
        let (z, d) = (&mut zuniqs, &mut densities);
        let answer = product(left, right, self.m, self.t, self.k, &[], z, d);
        let Ok(entries) = answer else {
            assert!(zuniqs.iter().all(|&zuniq| zuniq == 5));
            assert!(densities.iter().all(|&density| density == 5.5));
            return Err(answer.unwrap_err());
        };
        assert!(zuniqs[entries..].iter().all(|&zuniq| zuniq == 0));
        assert!(densities[entries..].iter().all(|m| m.to_bits() == 0));
        let entry = |place: usize| {
            let (depth, hash) = mom::from_zuniq(zuniqs[place]).unwrap();
            (depth, hash, densities[place].to_bits())
        };
        Ok((0..entries).map(entry).collect())
    }
}

/// The product at M = 0, of `cells` cells before merging: into just as many places, into more, and into
/// one fewer.
fn assert_product(l: &Owned, r: &Owned, t: f64, k: f64, cells: usize, entries: &[Entry]) {
    let call = |places| Call {
        left: l.clone(),
        right: r.clone(),
        m: 0,
        t,
        k,
        places: [places; 2],
    };
    let entries = entries.iter();
    let entries: Vec<_> = entries.map(|&(d, h, m)| (d, h, m.to_bits())).collect();
    for places in [cells, cells + 1, cells + 9] {
        assert_eq!(call(places).answer().as_ref(), Ok(&entries), "{l:?} {r:?}");
    }
    if cells > 0 {
        assert_eq!(call(cells - 1).answer(), Err(Refusal::NoSpace));
    }
}

#[test]
fn no_case_of_the_scope_is_missed() {
    let (l, r) = (map(0, &[(0, 0, 2.0)]), map(1, &[(1, 2, 3.0)]));
    assert_product(&l, &r, 0.0, 1.0, 1, &[(1, 2, 6.0)]);
    assert_product(&r, &l, 0.0, 1.0, 1, &[(1, 2, 6.0)]);
}

#[test]
fn no_cell_of_one_map_alone_is_kept() {
    let (none, base) = (map(0, &[]), map(0, &[(0, 0, 1.0), (0, 3, 2.0)]));
    assert_product(&none, &none, 0.0, 1.0, 0, &[]);
    assert_product(&base, &none, 0.0, 1.0, 0, &[]);
    assert_product(&none, &base, 0.0, 1.0, 0, &[]);
    let other = map(29, &[(0, 1, 1.0), (29, 4 << 58, 1.0)]);
    assert_product(&base, &other, 0.0, 1.0, 0, &[]);
    let squares = [(0, 0, 1.0), (0, 3, 4.0)];
    assert_product(&base, &base, 0.0, 1.0, 2, &squares);
}

#[test]
fn no_child_has_another_density_than_its_parent_and_no_quad_is_untried() {
    let quad = [(1, 44, 16.0), (1, 45, 16.0), (1, 46, 16.0), (1, 47, 16.0)];
    let (l, r) = (map(0, &[(0, 11, 1.0)]), map(1, &quad));
    assert_product(&l, &r, 0.0, 1.0, 4, &quad);
    assert_product(&l, &r, 3.5, 1.0, 4, &[(0, 11, 16.0)]);
    assert_product(&r, &l, 3.5, 1.0, 4, &[(0, 11, 16.0)]);
    let bottom = map(29, &[(29, (12 << 58) - 1, 3.0)]);
    let last = [(29, (12 << 58) - 1, 1.5)];
    assert_product(&l, &bottom, f64::INFINITY, 0.5, 1, &last);
    assert_product(&bottom, &l, f64::INFINITY, 0.5, 1, &last);
}

/// (k × left) × right, each rounded once.
#[test]
fn no_product_is_taken_in_another_order() {
    let of = |density| map(0, &[(0, 0, density)]);
    let (least, tenth) = (5e-324, 0.1);
    assert_product(&of(0.5), &of(4.0), 0.0, least, 1, &[(0, 0, 0.0)]);
    assert_product(&of(4.0), &of(0.5), 0.0, least, 1, &[(0, 0, 1e-323)]);
    let in_order = (tenth * 3.0) * 7.0;
    assert_ne!(in_order, tenth * (3.0 * 7.0));
    assert_product(&of(3.0), &of(7.0), 0.0, tenth, 1, &[(0, 0, in_order)]);
    assert_product(&of(-0.0), &of(7.0), 0.0, 1.0, 1, &[(0, 0, -0.0)]);
    assert_product(&of(-0.0), &of(7.0), 0.0, -0.0, 1, &[(0, 0, 0.0)]);
}

/// The answer of a call that is good but for the changes.
fn changed(change: impl FnOnce(&mut Call)) -> Result<usize, Refusal> {
    let mut call = Call {
        left: map(0, &[(0, 0, 2.0), (0, 1, -0.0)]),
        right: map(1, &[(1, 1, 3.0), (1, 2, 4.0), (1, 47, 5.0)]),
        m: 0,
        t: 0.0,
        k: 1.0,
        places: [2, 2],
    };
    change(&mut call);
    call.answer().map(|entries| entries.len())
}

fn assert_refused(number: u8, place: usize, change: impl FnOnce(&mut Call)) {
    assert_eq!(changed(change), Err(Refusal::of(number, place).unwrap()));
}

const BAD: [f64; 5] = [
    f64::NAN,
    f64::INFINITY,
    f64::NEG_INFINITY,
    -1.0,
    -5e-324, // the greatest f64 below 0
];

#[test]
fn no_bad_setting_and_no_bad_length_is_accepted() {
    assert_eq!(changed(|_| {}), Ok(2));
    assert_eq!(changed(|call| call.k = -0.0), Ok(2));
    for depth in [30, 255] {
        assert_refused(1, 0, |call| call.left.depth = depth);
        assert_refused(1, 0, |call| call.right.depth = depth);
        assert_refused(2, 0, |call| call.m = depth);
    }
    assert_refused(3, 0, |call| call.t = f64::NAN);
    for k in BAD {
        assert_refused(3, 0, |call| call.k = k);
    }
    assert_refused(4, 0, |call| call.left.zuniqs.truncate(1));
    assert_refused(4, 0, |call| call.left.densities.truncate(1));
    assert_refused(4, 0, |call| call.right.zuniqs.clear());
    assert_refused(4, 0, |call| call.right.densities.clear());
    assert_refused(4, 0, |call| call.places[0] = 7);
    assert_refused(4, 0, |call| call.places[1] = 7);
    assert_refused(11, 0, |call| call.places = [1; 2]);
}

#[test]
fn no_map_that_is_none_and_no_bad_density_is_accepted() {
    for place in 0..2 {
        assert_refused(5, place, |call| call.left.zuniqs[place] = 2);
        for bad in BAD {
            assert_refused(6, place, |call| call.left.densities[place] = bad);
        }
    }
    for place in 0..3 {
        assert_refused(5, place, |call| call.right.zuniqs[place] = 2);
        for bad in BAD {
            assert_refused(6, place, |call| call.right.densities[place] = bad);
        }
    }
    assert_refused(5, 0, |call| call.right.depth = 0);
}

/// Alone a density of any size is dropped; k × left may pass the largest f64 before right is there.
#[test]
fn no_product_that_is_not_finite_is_accepted() {
    assert_eq!(changed(|call| call.right.densities[2] = f64::MAX), Ok(2));
    assert_refused(10, 0, |call| call.right.densities[1] = f64::MAX);
    assert_refused(10, 0, |call| {
        call.left.densities[0] = f64::MAX;
        call.right.densities[..2].fill(0.0);
        call.k = 2.0;
    });
    assert_eq!(changed(|call| call.k = f64::MAX / 8.0), Ok(2));
    assert_refused(10, 0, |call| call.k = f64::MAX / 7.0);
}

/// Each refusal before the next one of the table, and in each row the left map before the right one.
#[test]
fn no_refusal_is_given_out_of_order() {
    assert_refused(2, 0, |call| {
        call.m = 30;
        call.k = -1.0;
    });
    assert_refused(3, 0, |call| {
        call.k = -1.0;
        call.places[0] = 0;
    });
    assert_refused(4, 0, |call| {
        call.places[0] = 0;
        call.left.zuniqs[0] = 0;
    });
    assert_refused(5, 1, |call| {
        call.left.zuniqs[1] = 0;
        call.right.zuniqs[0] = 0;
    });
    assert_refused(5, 2, |call| {
        call.right.zuniqs[2] = 0;
        call.left.densities[0] = f64::NAN;
    });
    assert_refused(6, 1, |call| {
        call.left.densities[1] = -1.0;
        call.right.densities[0] = f64::NAN;
    });
    assert_refused(6, 2, |call| {
        call.right.densities[2] = -1.0;
        call.left.densities[0] = f64::MAX;
    });
    assert_refused(10, 0, |call| {
        call.left.densities[0] = f64::MAX;
        call.places = [0; 2];
    });
}
