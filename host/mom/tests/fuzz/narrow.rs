//! The calls on narrow maps.

use mom::narrow::{self, rows};

use super::{
    assert_map, assert_map_of_rows, assert_some, plain, rounds, BaseCells, BlankSky, Met, Protected,
};

#[test]
fn cells() {
    let (mut encoded, mut tested) = (Met::default(), Met::default());
    rounds("narrow cells", |draw| {
        let (depth, hash) = (draw.depth::<u32>(), draw.hash::<u32>());
        let zuniq = narrow::to_zuniq(depth, hash);
        encoded.add(&zuniq);
        assert_eq!(zuniq, plain::encode(depth, hash as u64), "{depth} {hash}");
        let (l, r) = (draw.zuniq(), draw.zuniq());
        let cell = narrow::from_zuniq(l).map(|(depth, hash)| (depth, hash as u64));
        assert_eq!(cell, plain::cell_of(l), "{l}");
        let overlap = narrow::are_overlapping(l, r);
        tested.add(&overlap);
        assert_eq!(overlap, plain::overlap_test(l, r), "{l} {r}");
    });
    encoded.assert_all(&[0, 1, 7]);
    tested.assert_all(&[0, 12]);
}

#[test]
fn maps() {
    let mut met = Met::default();
    rounds("narrow maps", |draw| {
        let (depth, zuniqs, query) = (draw.depth::<u32>(), draw.map(), draw.zuniq());
        let check = narrow::check_is_mom(depth, &zuniqs);
        let containing = narrow::get_cell_containing(depth, &zuniqs, query);
        let run = narrow::get_overlapped_cells(&zuniqs, query);
        met.add(&containing);
        assert_map((depth, &zuniqs, query), check, containing, run);
    });
    met.assert_all(&[0, 1, 12]);
}

#[test]
fn maps_of_rows() {
    let mut met = Met::default();
    rounds("narrow maps of rows", |draw| {
        let (depth, bytes, query) = (draw.depth::<u32>(), draw.rows::<u32>(), draw.zuniq());
        let check = rows::check_is_mom(depth, &bytes);
        let containing = rows::get_cell_containing(depth, &bytes, query);
        let run = rows::get_overlapped_cells(&bytes, query);
        met.add(&containing);
        assert_map_of_rows((depth, &bytes, query), check, containing, run);
    });
    met.assert_all(&[0, 1, 4, 11, 12]);
}

#[test]
fn reading_and_writing_rows() {
    let (mut read, mut written) = (Met::default(), Met::default());
    rounds("narrow rows", |draw| {
        let bytes = draw.bytes(&[rows::ROW]);
        let (mut z, mut n) = (draw.zuniqs::<u32>(), draw.counts());
        let (i, j) = (draw.part(z.len()), draw.part(n.len()));
        let expected = plain::read_rows(&bytes, &z, &n, i.clone(), j.clone());
        let answer = rows::read_count_rows(&bytes, &mut z[i.clone()], &mut n[j.clone()]);
        read.add(&answer);
        assert_eq!((answer, &z, &n), (expected.0, &expected.1, &expected.2));

        let mut out = draw.bytes(&[rows::ROW]);
        let o = draw.part(out.len());
        let expected = plain::write_rows(&z[i.clone()], &n[j.clone()], &out, o.clone());
        let answer = rows::write_count_rows(&z[i], &n[j], &mut out[o]);
        written.add(&answer);
        assert_eq!((answer, out), expected);
    });
    read.assert_all(&[0, 4, 11]);
    written.assert_all(&[0, 4, 11]);
}

#[test]
fn adding() {
    let (mut met, mut base_cells) = (Met::default(), BaseCells::default());
    let (mut blank_sky, mut protected) = (BlankSky::default(), Protected::default());
    // Accepted calls at the largest depth, and calls that merge though M is not 0.
    let (mut deepest, mut merging) = (0, 0);
    rounds("narrow adding", |draw| {
        let call = draw.add_call::<u32>();
        let list = &call.protected;
        let [mut n, batch] = draw.add_counts(&call);
        let mut z = call.zuniqs.clone();
        let expected = plain::add_counts(&call, &z, &n, &batch);
        let (_, with_no_list, _) = plain::add_counts(&call.unprotected(), &z, &n, &batch);
        let (d, m, t, held) = (call.depth, call.m, call.t, call.held);
        let answer = narrow::add_counts(d, m, t, list, held, &mut z, &mut n, &call.hashes, &batch)
            .map(|added| (added.entries, added.total));
        met.add(&answer);
        base_cells.add(&call, answer.is_ok());
        if let Ok((entries, total)) = answer {
            deepest += (d == narrow::MAX_DEPTH) as usize;
            merging += (m > 0 && entries < held + batch.len()) as usize;
            blank_sky.add(&call, &z[..entries], &n[..entries]);
            protected.add_counts((list, total), &call.unmerged(), &z, &with_no_list);
        }
        assert_eq!((answer, z, n), expected, "{call:?} {batch:?}");
    });
    assert_some("narrow adding", "accepted at depth 13", deepest);
    assert_some("narrow adding", "merged at an M over 0", merging);
    base_cells.assert_some("narrow adding");
    blank_sky.assert_some("narrow adding");
    protected.assert_counts("narrow adding");
    met.assert_all(&[0, 1, 2, 3, 4, 5, 7, 8, 10, 11, 15]);
}
