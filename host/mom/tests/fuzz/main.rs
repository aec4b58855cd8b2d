//! Every call on arguments of all kinds, most of them wrong somewhere: nothing crashes, every answer
//! is what the scope says (`plain`, written as it is read there), and nothing outside the lent
//! buffers changes.
//!
//! Each test makes a thousand rounds, and goes on for as long as MOM_FUZZ_SECONDS says.

mod asking;
mod columns;
mod draw;
mod moving;
mod narrow;
mod plain;
mod reach;

use std::{
    collections::BTreeSet,
    env,
    ops::Range,
    time::{Duration, Instant},
};

use asking::Asking;
use draw::{AddCall, Draw, Side};
use mom::{rows, CountMerge, DensityMerge, Map, MapCheck, Refusal};
use plain::{Setting, Zuniq};

/// Rounds with one seed, the same in every run; how many there are in the time is printed.
fn rounds(name: &str, mut round: impl FnMut(&mut Draw)) {
    let seconds = env::var("MOM_FUZZ_SECONDS").ok();
    let end = seconds.map(|s| Instant::now() + Duration::from_secs(s.parse().unwrap()));
    let mut draw = Draw::new(1);
    let mut number = 0;
    while number < 1_000 || end.is_some_and(|end| Instant::now() < end) {
        round(&mut draw);
        number += 1;
    }
    println!("fuzz of {name}: {number} rounds");
}

/// Of what random arguments should bring, in the first thousand rounds too.
fn assert_some(name: &str, what: &str, times: usize) {
    println!("fuzz of {name}: {what} {times} times");
    assert!(times >= 5, "{name}: {what}");
}

/// With a value on both sides that isn't lent.
fn fenced<T: Copy>(fence: T, places: &[T]) -> Vec<T> {
    [&[fence][..], places, &[fence]].concat()
}

fn lent<T>(fenced: &mut [T]) -> &mut [T] {
    let places = fenced.len() - 2;
    &mut fenced[1..=places]
}

fn bits(xs: &[f64]) -> Vec<u64> {
    xs.iter().map(|x| x.to_bits()).collect()
}

/// The numbers of the refusals that were met, 0 for an accepted call.
#[derive(Default)]
struct Met(BTreeSet<u8>);

impl Met {
    fn add<T>(&mut self, answer: &Result<T, Refusal>) {
        self.0
            .insert(answer.as_ref().err().map_or(0, |refusal| refusal.number()));
    }

    /// Arguments that are all refused alike would test little.
    fn assert_all(self, numbers: &[u8]) {
        assert_eq!(self.0.into_iter().collect::<Vec<_>>(), numbers);
    }
}

#[test]
fn cells() {
    rounds("cells", |draw| {
        let (depth, hash) = (draw.depth::<u64>(), draw.hash());
        assert_eq!(mom::n_hash(depth), plain::cell_number(depth));
        assert_eq!(mom::to_zuniq(depth, hash), plain::encode(depth, hash));
        let (l, r) = (draw.zuniq(), draw.zuniq::<u64>());
        assert_eq!(mom::from_zuniq(l), plain::cell_of(l));
        assert_eq!(mom::are_overlapping(l, r), plain::overlap_test(l, r));
        let count = draw.count();
        let density = mom::density_of_count(depth, count).map(f64::to_bits);
        assert_eq!(
            density,
            plain::density_of_count(depth, count).map(f64::to_bits)
        );
        let x = draw.float();
        let pattern = (!plain::invalid(x)).then_some(x.to_bits());
        assert_eq!(rows::pattern_of_density(x), pattern);
        let found = rows::density_of_pattern(x.to_bits());
        assert_eq!(found.map(f64::to_bits), pattern);
    });
}

#[test]
fn mergers() {
    // A NaN chi is one however its bits are.
    let bits = |x: f64| if x.is_nan() { None } else { Some(x.to_bits()) };
    // Blank sky at a T that its chi is not below, from M on and below M.
    let (mut merged, mut below) = (0, 0);
    // Blank sky from M on, under a protected parent, at other T and at such a one, and beside a list.
    let (mut kept, mut beside) = ([0; 2], 0);
    // Counts and densities that only the list keeps.
    let mut listed = [0; 2];
    let (mut of_counts, mut of_densities) = (Met::default(), Met::default());
    rounds("mergers", |draw| {
        let ((p, h), m) = (draw.parent(), draw.depth::<u64>());
        let t = draw.chi2_threshold();
        let child = (p.saturating_add(1), h.saturating_mul(4));
        let list = draw.protected(&[child; 4]);
        let setting = |protected| Setting { m, t, protected };
        let counts = draw.four_counts();
        let answer = mom::chi2_count_merger(p, h, m, t, &list, counts).map(|merge| match merge {
            CountMerge::Merged(count) => (Some(count), None),
            CountMerge::Kept(chi) => (None, bits(chi)),
        });
        let expected = |list| {
            plain::count_merger((p, h), &setting(list), counts).map(|merge| match merge {
                Ok(count) => (Some(count), None),
                Err(chi) => (None, bits(chi)),
            })
        };
        of_counts.add(&answer);
        assert_eq!(
            answer,
            expected(&list),
            "({p}, {h}) {m} {t} {list:?} {counts:?}"
        );
        if counts == [0; 4] && answer.is_ok() {
            let (is_low, is_merged) = (t <= 0.0, answer == Ok((Some(0), None)));
            merged += (is_low && is_merged) as usize;
            below += (is_low && p < m) as usize;
            kept[is_low as usize] += (p >= m && !is_merged) as usize;
            beside += (is_merged && !list.is_empty()) as usize;
        }
        listed[0] += (answer.is_ok() && answer != expected(&[])) as usize;

        let densities = [(); 4].map(|_| draw.density());
        let answer = mom::chi2_density_merger(p, h, m, t, &list, densities);
        let answer = answer.map(|merge| match merge {
            DensityMerge::Merged(density) => (true, bits(density)),
            DensityMerge::Kept(chi) => (false, bits(chi)),
        });
        let expected = |list| {
            plain::density_merger((p, h), &setting(list), densities).map(|merge| match merge {
                Ok(density) => (true, bits(density)),
                Err(chi) => (false, bits(chi)),
            })
        };
        of_densities.add(&answer);
        assert_eq!(
            answer,
            expected(&list),
            "({p}, {h}) {m} {t} {list:?} {densities:?}"
        );
        listed[1] += (answer.is_ok() && answer != expected(&[])) as usize;
    });
    assert_some("mergers", "blank sky merged", merged);
    assert_some("mergers", "blank sky kept below M", below);
    assert_some("mergers", "blank sky kept by the list, T above 0", kept[0]);
    assert_some("mergers", "blank sky kept by the list, T up to 0", kept[1]);
    let what = "blank sky merged beside a list that does not have its parent";
    assert_some("mergers", what, beside);
    assert_some("mergers", "counts kept by the list", listed[0]);
    assert_some("mergers", "densities kept by the list", listed[1]);
    of_counts.assert_all(&[0, 1, 2, 3, 7, 10, 15]);
    of_densities.assert_all(&[0, 1, 2, 3, 7, 9, 15]);
}

type Answer<T> = Result<T, Refusal>;

/// What the check, containing and overlapping answer about a map's zuniqs.
fn assert_map<Z: Zuniq>(
    (depth, zuniqs, query): (u8, &[Z], Z),
    check: Answer<MapCheck>,
    containing: Answer<Option<usize>>,
    run: Answer<(usize, &[Z])>,
) {
    assert_eq!(check, plain::check(depth, zuniqs), "{depth} {zuniqs:?}");
    plain::assert_containing(depth, zuniqs, query, containing);
    let run = run.map(|(first, part)| {
        assert_eq!(part, &zuniqs[first..first + part.len()]);
        first..first + part.len()
    });
    plain::assert_overlapped(zuniqs, query, run);
}

#[test]
fn maps() {
    rounds("maps", |draw| {
        let (depth, zuniqs, query) = (draw.depth::<u64>(), draw.map(), draw.zuniq());
        let check = mom::check_is_mom(depth, &zuniqs);
        let containing = mom::get_cell_containing(depth, &zuniqs, query);
        let run = mom::get_overlapped_cells(&zuniqs, query);
        assert_map((depth, &zuniqs, query), check, containing, run);
    });
}

/// The same about a map's rows.
fn assert_map_of_rows<Z: Zuniq>(
    (depth, bytes, query): (u8, &[u8], Z),
    check: Answer<MapCheck>,
    containing: Answer<Option<usize>>,
    run: Answer<Range<usize>>,
) {
    match plain::map_rows(bytes) {
        Ok(zuniqs) => {
            assert_eq!(check, plain::check(depth, &zuniqs));
            plain::assert_containing(depth, &zuniqs, query, containing);
            plain::assert_overlapped(&zuniqs, query, run);
        }
        Err(refusal) => {
            let refused = plain::depth::<Z>(depth).and(Err(refusal));
            assert_eq!(check.map(|_| ()), refused);
            assert_eq!(containing.map(|_| ()), refused);
            assert_eq!(run.map(|_| ()), Err(refusal));
        }
    }
}

#[test]
fn maps_of_rows() {
    let mut met = Met::default();
    rounds("maps of rows", |draw| {
        let (depth, bytes, query) = (draw.depth::<u64>(), draw.rows::<u64>(), draw.zuniq());
        let check = rows::check_is_mom(depth, &bytes);
        let containing = rows::get_cell_containing(depth, &bytes, query);
        let run = rows::get_overlapped_cells(&bytes, query);
        met.add(&containing);
        assert_map_of_rows((depth, &bytes, query), check, containing, run);
    });
    met.assert_all(&[0, 1, 4, 11, 12]);
}

#[test]
fn reading_and_writing_rows() {
    let (mut read, mut written) = (Met::default(), Met::default());
    rounds("rows", |draw| {
        let bytes = draw.bytes(&[12, 16]);
        let (mut z, mut n, mut p) = (draw.zuniqs(), draw.counts(), draw.zuniqs());
        let (i, j, k) = (draw.part(z.len()), draw.part(n.len()), draw.part(p.len()));

        let expected = plain::read_rows(&bytes, &z, &n, i.clone(), j.clone());
        let answer = rows::read_count_rows(&bytes, &mut z[i.clone()], &mut n[j.clone()]);
        read.add(&answer);
        assert_eq!((answer, &z, &n), (expected.0, &expected.1, &expected.2));

        let expected = plain::read_rows(&bytes, &z, &p, i.clone(), k.clone());
        let answer = rows::read_density_rows(&bytes, &mut z[i.clone()], &mut p[k.clone()]);
        assert_eq!((answer, &z, &p), (expected.0, &expected.1, &expected.2));

        let mut out = draw.bytes(&[12, 16]);
        let o = draw.part(out.len());
        let expected = plain::write_rows(&z[i.clone()], &n[j.clone()], &out, o.clone());
        let answer = rows::write_count_rows(&z[i.clone()], &n[j], &mut out[o.clone()]);
        written.add(&answer);
        assert_eq!((answer, &out), (expected.0, &expected.1));

        let expected = plain::write_rows(&z[i.clone()], &p[k.clone()], &out, o.clone());
        let answer = rows::write_density_rows(&z[i], &p[k], &mut out[o]);
        assert_eq!((answer, &out), (expected.0, &expected.1));
    });
    read.assert_all(&[0, 4, 11]);
    written.assert_all(&[0, 4, 11]);
}

/// Accepted calls that bring four base cells at once, or the fourth to three that are held.
#[derive(Default)]
struct BaseCells {
    four: usize,
    fourth: usize,
}

impl BaseCells {
    fn add<Z: Zuniq>(&mut self, call: &AddCall<Z>, accepted: bool) {
        let hashes: Vec<u64> = call.hashes.iter().map(|&hash| hash.number()).collect();
        let (Some(&next), true) = (hashes.first(), accepted && call.depth == 0) else {
            return;
        };
        let siblings = [0, 1, 2, 3].map(|i| next + i);
        self.four += (next % 4 == 0 && hashes.starts_with(&siblings)) as usize;
        self.fourth += (next % 4 == 3 && next as usize == call.held) as usize;
    }

    fn assert_some(self, name: &str) {
        assert_some(name, "four base cells at once", self.four);
        assert_some(name, "the fourth base cell to three", self.fourth);
    }
}

/// Accepted calls that merge blank sky though its chi is not below T: also some that was held, and under a
/// list that does not have its parent.
#[derive(Default)]
struct BlankSky {
    merged: usize,
    held: usize,
    beside: usize,
}

impl BlankSky {
    /// By the call, and the entries that it leaves.
    fn add<Z: Zuniq>(&mut self, call: &AddCall<Z>, zuniqs: &[Z], counts: &[u32]) {
        let held = &call.zuniqs[..call.held];
        let is_merged = |(zuniq, &count): (&Z, &u32)| {
            let is_above = plain::cell_of(*zuniq).is_some_and(|(depth, _)| depth < call.depth);
            count == 0 && is_above && !held.contains(zuniq)
        };
        if call.t > 0.0 || !zuniqs.iter().zip(counts).any(is_merged) {
            return;
        }
        self.merged += 1;
        self.held += !held.iter().all(|zuniq| zuniqs.contains(zuniq)) as usize;
        self.beside += !call.protected.is_empty() as usize;
    }

    fn assert_some(self, name: &str) {
        assert_some(name, "blank sky merged", self.merged);
        assert_some(name, "blank sky merged with some that was held", self.held);
        let what = "blank sky merged beside a list that does not have its parent";
        assert_some(name, what, self.beside);
    }
}

/// Accepted calls whose list keeps apart what would be merged; also where there is nothing but blank sky.
#[derive(Default)]
struct Protected {
    kept: usize,
    blank: usize,
}

impl Protected {
    /// By the list, the zuniqs before and after merging, and those after merging with no list. No protected
    /// parent is there that wasn't before.
    fn add<Z: Zuniq>(&mut self, list: &[Z], before: &[Z], after: &[Z], unprotected: &[Z]) {
        let is_merged = |zuniq: &&Z| list.contains(zuniq) && !before.contains(zuniq);
        assert_eq!(after.iter().find(is_merged), None, "{list:?} {before:?}");
        self.kept += (after != unprotected) as usize;
    }

    /// The same of counts that come to this total.
    fn add_counts<Z: Zuniq>(
        &mut self,
        (list, total): (&[Z], u32),
        before: &[Z],
        after: &[Z],
        unprotected: &[Z],
    ) {
        self.add(list, before, after, unprotected);
        self.blank += (total == 0 && after != unprotected) as usize;
    }

    fn assert_counts(self, name: &str) {
        assert_some(name, "counts kept by the list", self.kept);
        assert_some(name, "blank sky kept by the list", self.blank);
    }

    fn assert_densities(self, name: &str) {
        assert_some(name, "densities kept by the list", self.kept);
    }
}

#[test]
fn adding() {
    let (mut counts, mut densities) = (Met::default(), Met::default());
    let (mut base_cells, mut blank_sky) = (BaseCells::default(), BlankSky::default());
    let (mut of_counts, mut of_densities) = (Protected::default(), Protected::default());
    rounds("adding", |draw| {
        let call = draw.add_call();
        let (list, unprotected) = (&call.protected, call.unprotected());
        let [mut n, batch] = draw.add_counts(&call);
        let mut z = call.zuniqs.clone();
        let expected = plain::add_counts(&call, &z, &n, &batch);
        let (_, with_no_list, _) = plain::add_counts(&unprotected, &z, &n, &batch);
        let (d, m, t, held) = (call.depth, call.m, call.t, call.held);
        let answer = mom::add_counts(d, m, t, list, held, &mut z, &mut n, &call.hashes, &batch)
            .map(|added| (added.entries, added.total));
        counts.add(&answer);
        base_cells.add(&call, answer.is_ok());
        if let Ok((entries, total)) = answer {
            blank_sky.add(&call, &z[..entries], &n[..entries]);
            of_counts.add_counts((list, total), &call.unmerged(), &z, &with_no_list);
        }
        assert_eq!((answer, z, n), expected, "{call:?} {batch:?}");

        let (mut z, mut x) = (call.zuniqs.clone(), draw.densities_of(call.values));
        let batch = draw.densities_of(call.batch);
        let expected = plain::add_densities(&call, &z, &x, &batch);
        let (_, with_no_list, _) = plain::add_densities(&unprotected, &z, &x, &batch);
        let answer = mom::add_densities(d, m, t, list, held, &mut z, &mut x, &call.hashes, &batch);
        densities.add(&answer);
        base_cells.add(&call, answer.is_ok());
        if answer.is_ok() {
            of_densities.add(list, &call.unmerged(), &z, &with_no_list);
        }
        assert_eq!((answer, z), (expected.0, expected.1), "{call:?} {batch:?}");
        assert_eq!(bits(&x), bits(&expected.2), "{call:?} {batch:?}");
    });
    base_cells.assert_some("adding");
    blank_sky.assert_some("adding");
    of_counts.assert_counts("adding");
    of_densities.assert_densities("adding");
    counts.assert_all(&[0, 1, 2, 3, 4, 5, 7, 8, 10, 11, 15]);
    densities.assert_all(&[0, 1, 2, 3, 4, 5, 6, 7, 8, 9, 11, 15]);
}

fn map<'a, V>(side: &'a Side<u64>, values: &'a [V]) -> Map<'a, V> {
    Map {
        depth: side.depth,
        zuniqs: &side.zuniqs,
        values,
    }
}

/// Whether an entry of count 0 is no cell of the overlay, so that it was merged.
fn merges_blanks(overlay: &[u64], zuniqs: &[u64], counts: &[u32]) -> bool {
    let mut entries = zuniqs.iter().zip(counts);
    entries.any(|(zuniq, &count)| count == 0 && !overlay.contains(zuniq))
}

/// Accepted pools in which a cell of hash h shares v, by h mod 4 and v mod 4.
#[derive(Default)]
struct Shared([[usize; 4]; 4]);

impl Shared {
    /// By the cells that are split, with their counts.
    fn add(&mut self, split: &[(plain::Cell, u32)]) {
        let kind = |&((_, h), v): &(plain::Cell, u32)| (h as usize % 4, v as usize % 4);
        for (first, extra) in split.iter().map(kind).collect::<BTreeSet<_>>() {
            self.0[first][extra] += 1;
        }
    }

    fn assert_some(self, name: &str) {
        for (first, by_extra) in self.0.into_iter().enumerate() {
            for (extra, times) in by_extra.into_iter().enumerate().skip(1) {
                let what = format!("{extra} shared from child {first} on");
                assert_some(name, &what, times);
            }
        }
    }
}

#[test]
fn combining() {
    let (mut pools, mut products) = (Met::default(), Met::default());
    let (mut of_counts, mut of_densities) = (Protected::default(), Protected::default());
    let (mut shared, mut asking) = (Shared::default(), Asking::default());
    // Pools in which blank sky is merged though its chi is not below T, also under a list.
    let (mut blank, mut beside) = (0, 0);
    rounds("combining", |draw| {
        let call = draw.combine_call();
        let (list, unprotected) = (&call.protected, call.unprotected());
        let (m, t, k) = (call.m, call.t, call.k);
        let overlay = plain::overlay(&call.sides).unwrap_or_default();
        let zuniq = |&((d, h), _): &plain::Part| plain::encode(d, h).unwrap();
        let before: Vec<u64> = overlay.iter().map(zuniq).collect();
        let [left, right] = &call.sides;

        let [l, r] = draw.pool_counts([left.values, right.values]);
        let (mut z, places) = draw.output(overlay.len());
        let mut n = draw.counts_of(places);
        let expected = plain::pool(&call, [&l, &r], &z, &n);
        let answer = mom::pool(map(left, &l), map(right, &r), m, t, list, &mut z, &mut n)
            .map(|added| (added.entries, added.total));
        pools.add(&answer);
        if let Ok((entries, total)) = answer {
            let is_merged = t <= 0.0 && merges_blanks(&before, &z[..entries], &n);
            blank += is_merged as usize;
            shared.add(&plain::split_counts(&call, [&l, &r]));
            if !list.is_empty() {
                beside += is_merged as usize;
                let (_, with_no_list, _) = plain::pool(&unprotected, [&l, &r], &z, &n);
                of_counts.add_counts((list, total), &before, &z, &with_no_list);
            }
        }
        assert_eq!((answer, z, n), expected, "{call:?} {l:?} {r:?}");
        asking.round(draw, &call, [&l, &r]);

        let l = draw.densities_of(left.values);
        let r = draw.densities_of(right.values);
        let both = |(_, entries): &&plain::Part| entries.iter().all(Option::is_some);
        let (mut z, places) = draw.output(overlay.iter().filter(both).count());
        let mut x = draw.densities_of(places);
        let expected = plain::product(&call, [&l, &r], &z, &x);
        let answer = mom::product(map(left, &l), map(right, &r), m, t, k, list, &mut z, &mut x);
        products.add(&answer);
        if answer.is_ok() && !list.is_empty() {
            let (_, with_no_list, _) = plain::product(&unprotected, [&l, &r], &z, &x);
            of_densities.add(list, &before, &z, &with_no_list);
        }
        let shown = || format!("{call:?} {l:?} {r:?}");
        assert_eq!((answer, z), (expected.0, expected.1), "{}", shown());
        assert_eq!(bits(&x), bits(&expected.2), "{}", shown());
    });
    assert_some("combining", "blank sky merged", blank);
    let what = "blank sky merged beside a list that does not have its parent";
    assert_some("combining", what, beside);
    shared.assert_some("combining");
    of_counts.assert_counts("combining");
    of_densities.assert_densities("combining");
    pools.assert_all(&[0, 1, 2, 3, 4, 5, 10, 11, 15]);
    asking.assert_all();
    products.assert_all(&[0, 1, 2, 3, 4, 5, 6, 10, 11, 15]);
}
