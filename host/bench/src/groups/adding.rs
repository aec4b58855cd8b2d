//! Adding counts and densities.
//!
//! Ours writes into buffers that are lent and hold what the round before left there; that it clears
//! the places after the entries is part of its time, as are all its checks. The original makes its
//! vector anew each time. In the row called `fresh` ours is lent buffers that are made within the
//! time, too.
//!
//! Under a list of protected parents the original's merger stands behind a `binary_search` in it, and so does
//! the test of blank quads; with an empty list there is nothing to search, and the work is that of the rows
//! without one.

use std::time::Duration;

use differential::widths::Width;
use mom::Refusal;
use oracle::run;

use super::Plan;
use crate::{
    inputs::{blank_sky, densities, first_cells, parents_of, random_quarter, Cells},
    measure::{
        alone, contest, heading, heading_with_extra, row, row_alone, row_with_extra, timed, Extra,
        Rounds,
    },
};

const CHI2: f64 = 7.815;

const THRESHOLDS: [(&str, f64); 3] = [("7.815", CHI2), ("-1", -1.0), ("infinite", f64::INFINITY)];

pub fn run(plan: Plan) {
    let depth = 9 - plan.shallower;
    let all = first_cells::<u64>(depth, run::n_hash(depth) as usize);
    let narrow = first_cells::<u32>(depth, run::n_hash(depth) as usize);
    heading_with_extra("Adding", "cell", "cells");
    for (name, chi2_threshold) in THRESHOLDS {
        let work = format!("add counts, all of depth {depth}, T {name}");
        counts(plan, &work, &all, chi2_threshold, &[]);
    }
    let work = format!("add counts, narrow, all of depth {depth}, T 7.815");
    counts(plan, &work, &narrow, CHI2, &[]);
    let quarter = random_quarter(depth + 1);
    let work = format!(
        "add counts, a random quarter of depth {}, T 7.815",
        depth + 1
    );
    counts(plan, &work, &quarter, CHI2, &[]);
    let blank = blank_sky(depth);
    let work = format!("add counts, blank sky (nine cells of ten 0), all of depth {depth}, T 0");
    counts(plan, &work, &blank, 0.0, &[]);
    for (name, chi2_threshold) in THRESHOLDS {
        let work = format!("add densities, all of depth {depth}, T {name}");
        add_densities(plan, &work, &densities(&all), chi2_threshold);
    }
    heading_with_extra("Adding under protected parents", "cell", "cells");
    let number = 1_000_000 >> (2 * plan.shallower);
    let cells = first_cells::<u64>(depth + 1, number);
    for protected in [0, 1, 1_000, 100_000] {
        let list = parents_of(cells.cells(), plan.smaller(protected));
        let work = format!("add counts, T 7.815, {} protected", list.len());
        counts(plan, &work, &cells, CHI2, &list);
    }
    let list = parents_of(blank.cells(), plan.smaller(1_000));
    let work = format!("add counts, blank sky, T 0, {} protected", list.len());
    counts(plan, &work, &blank, 0.0, &list);
    heading("Adding in batches, and into fresh buffers", "cell", "cells");
    fresh_counts(plan, "add counts, T 7.815, fresh", &all);
    for batches in [10, 1000] {
        for lent in [Lent::AsNeeded, Lent::Whole] {
            in_batches(plan, &all, batches, lent);
        }
    }
}

fn counts<Z: Width>(
    plan: Plan,
    work: &str,
    cells: &Cells<u32, Z>,
    chi2_threshold: f64,
    protected: &[Z],
) {
    let (depth, t) = (cells.depth, chi2_threshold);
    let original = || match protected {
        [] => run::build_counts(depth, 0, t, run::unprotected, cells.pairs()),
        list => run::build_counts(depth, 0, t, run::searched(list), cells.pairs()),
    };
    add(
        plan,
        work,
        cells,
        original,
        |zuniqs, counts, hashes, batch| {
            (Z::OURS.add_counts)(depth, 0, t, protected, 0, zuniqs, counts, hashes, batch)
                .map(|added| added.entries)
        },
    );
}

fn add_densities(plan: Plan, work: &str, cells: &Cells<f64>, chi2_threshold: f64) {
    let original = || run::build_densities_by_chi(cells.depth, 0, chi2_threshold, cells.pairs());
    add(
        plan,
        work,
        cells,
        original,
        |zuniqs, values, hashes, batch| {
            mom::add_densities(
                cells.depth,
                0,
                chi2_threshold,
                &[],
                0,
                zuniqs,
                values,
                hashes,
                batch,
            )
        },
    );
}

/// Times adding all cells to an empty map, by `ours` from two buffers and a batch.
fn add<V: Copy + Default + PartialEq, Z: Width>(
    plan: Plan,
    work: &str,
    cells: &Cells<V, Z>,
    original: impl Fn() -> Vec<(Z, V)>,
    ours: impl Fn(&mut [Z], &mut [V], &[Z], &[V]) -> Result<usize, Refusal>,
) {
    let (hashes, batch) = (&cells.hashes, &cells.values);
    let (mut zuniqs, mut values) = (vec![Z::of(0); cells.len()], vec![V::default(); cells.len()]);
    let times = contest(
        plan.rounds,
        || timed(|| ours(&mut zuniqs, &mut values, hashes, batch)),
        || timed(&original),
    );
    let entries = ours(&mut zuniqs, &mut values, hashes, batch).unwrap();
    let held = zuniqs.iter().copied().zip(values.iter().copied());
    assert!(held.take(entries).eq(original()), "{work}: answers differ");
    let short = cells.len() - 1;
    let checks = alone(plan.rounds, || {
        let (z, v) = (&mut zuniqs[..short], &mut values[..short]);
        timed(|| ours(z, v, hashes, batch).unwrap_err())
    });
    let clearing = alone(plan.rounds, || {
        let (z, v) = (&mut zuniqs[entries..], &mut values[entries..]);
        timed(|| ours(z, v, &[], &[]).unwrap())
    });
    row_with_extra(work, cells.len(), times, Extra { checks, clearing });
}

fn fresh_counts(plan: Plan, work: &str, cells: &Cells<u32>) {
    let (hashes, batch) = (&cells.hashes, &cells.values);
    let ours = || {
        let (mut zuniqs, mut counts) = (vec![0; cells.len()], vec![0; cells.len()]);
        let (z, c) = (&mut zuniqs, &mut counts);
        mom::add_counts(cells.depth, 0, CHI2, &[], 0, z, c, hashes, batch).unwrap();
        (zuniqs, counts)
    };
    let original = || run::build_counts(cells.depth, 0, CHI2, run::unprotected, cells.pairs());
    let times = contest(plan.rounds, || timed(ours), || timed(original));
    row(work, cells.len(), times);
}

/// How much of the buffers each call is lent.
#[derive(Clone, Copy)]
enum Lent {
    /// The entries held and as many places more as there are cells.
    AsNeeded,
    /// All places, so that each call clears all that follow the entries.
    Whole,
}

/// The original can't go on with a map: beside the calls stands its building in one go.
fn in_batches(plan: Plan, cells: &Cells<u32>, batches: usize, lent: Lent) {
    let name = match lent {
        Lent::AsNeeded => "as needed",
        Lent::Whole => "whole",
    };
    let work = format!("add counts in {batches} batches, T 7.815, buffers lent {name}");
    // Seconds for each of 1,000 batches: a few rounds are enough.
    let rounds = Rounds(if batches < 100 {
        plan.rounds.0
    } else {
        plan.rounds.0.min(3)
    });
    let (mut zuniqs, mut counts) = (vec![0; cells.len()], vec![0; cells.len()]);
    let mut best = (Duration::MAX, Duration::MAX);
    for _ in 0..rounds.0 {
        let (all, checks) = add_batches(cells, batches, lent, &mut zuniqs, &mut counts);
        best = (best.0.min(all), best.1.min(checks));
    }
    let original = || run::build_counts(cells.depth, 0, CHI2, run::unprotected, cells.pairs());
    let entries = original();
    let map = zuniqs.iter().copied().zip(counts.iter().copied());
    assert!(
        map.take(entries.len()).eq(entries),
        "{work}: answers differ"
    );
    row(
        &work,
        cells.len(),
        (best.0, alone(rounds, || timed(original))),
    );
    if let Lent::AsNeeded = lent {
        let work = "of that, looking at the held map in each call";
        row_alone(work, cells.len(), best.1);
    }
}

/// What all calls take, and what they take with no cell to add and no place to clear: each looks at
/// the held map first.
fn add_batches(
    cells: &Cells<u32>,
    batches: usize,
    lent: Lent,
    zuniqs: &mut [u64],
    counts: &mut [u32],
) -> (Duration, Duration) {
    let size = cells.len().div_ceil(batches);
    let (mut all, mut checks) = (Duration::ZERO, Duration::ZERO);
    let mut held = 0;
    for (hashes, batch) in cells.hashes.chunks(size).zip(cells.values.chunks(size)) {
        let end = match lent {
            Lent::AsNeeded => held + hashes.len(),
            Lent::Whole => cells.len(),
        };
        let mut call = |end: usize, hashes: &[u64], batch: &[u32]| {
            let (z, c) = (&mut zuniqs[..end], &mut counts[..end]);
            mom::add_counts(cells.depth, 0, CHI2, &[], held, z, c, hashes, batch)
                .unwrap()
                .entries
        };
        checks += timed(|| call(held, &[], &[]));
        let mut entries = 0;
        all += timed(|| entries = call(end, hashes, batch));
        held = entries;
    }
    (all, checks)
}
