//! Rows of bytes, a million of each kind. Both sides read into lent buffers and write into lent
//! bytes. The original has its map in one vector of pairs, ours in two buffers, and its densities as
//! their patterns.

use differential::widths::{named, Width};
use mom::{
    rows::{read_density_rows, write_density_rows, DENSITY_ROW},
    Refusal,
};
use oracle::run;

use super::Plan;
use crate::{
    inputs::{count_map, density_map, Map},
    measure::{contest, heading, row, timed},
};

pub fn run(plan: Plan) {
    let (depth, number) = (10 - plan.shallower, 1_000_000 >> (2 * plan.shallower));
    let counts = count_map::<u64>(depth, number, 1);
    let narrow = count_map::<u32>(depth, number, 1);
    let densities = density_map(&counts);
    let patterns = Map {
        depth: densities.depth,
        zuniqs: densities.zuniqs.clone(),
        values: densities
            .values
            .iter()
            .map(|density| density.to_bits())
            .collect(),
    };
    let density_mom = run::mom(densities.depth, densities.entries());
    heading("Rows", "row", "rows");
    count_rows(plan, &counts);
    count_rows(plan, &narrow);
    rows(
        plan,
        "density rows",
        DENSITY_ROW,
        &patterns,
        (write_density_rows, read_density_rows),
        |bytes| run::write_rows_into(&density_mom, bytes),
        run::read_rows_into,
        f64::to_bits,
    );
}

fn count_rows<Z: Width>(plan: Plan, counts: &Map<u32, Z>) {
    let mom = run::mom(counts.depth, counts.entries());
    rows(
        plan,
        named::<Z>("count rows", "narrow count rows"),
        Z::OURS.count_row,
        counts,
        (Z::OURS.write_count_rows, Z::OURS.read_count_rows),
        |bytes| run::write_rows_into(&mom, bytes),
        run::read_rows_into,
        |count: u32| count,
    );
}

type Write<V, Z> = fn(&[Z], &[V], &mut [u8]) -> Result<usize, Refusal>;
type Read<V, Z> = fn(&[u8], &mut [Z], &mut [V]) -> Result<usize, Refusal>;

/// Times writing and reading one kind of rows. `as_ours` is a value of the original as ours has it.
#[allow(clippy::too_many_arguments)]
fn rows<V: Copy + Default + PartialEq, W: Copy + Default, Z: Width>(
    plan: Plan,
    kind: &str,
    row_size: usize,
    map: &Map<V, Z>,
    (write, read): (Write<V, Z>, Read<V, Z>),
    original_write: impl Fn(&mut [u8]) -> usize,
    original_read: impl Fn(&[u8], &mut [Z], &mut [W]),
    as_ours: impl Fn(W) -> V,
) {
    let n = map.len();
    let (mut bytes, mut theirs) = (vec![0; row_size * n], vec![0; row_size * n]);
    let times = contest(
        plan.rounds,
        || timed(|| write(&map.zuniqs, &map.values, &mut bytes).unwrap()),
        || timed(|| original_write(&mut theirs)),
    );
    assert!(bytes == theirs, "{kind}: bytes differ");
    row(&format!("write {kind}"), n, times);
    let (mut zuniqs, mut values) = (vec![Z::of(0); n], vec![V::default(); n]);
    let (mut their_zuniqs, mut their_values) = (vec![Z::of(0); n], vec![W::default(); n]);
    let times = contest(
        plan.rounds,
        || timed(|| read(&bytes, &mut zuniqs, &mut values).unwrap()),
        || timed(|| original_read(&bytes, &mut their_zuniqs, &mut their_values)),
    );
    let their_values: Vec<V> = their_values.into_iter().map(as_ours).collect();
    assert!(
        zuniqs == their_zuniqs && values == their_values,
        "{kind}: rows differ"
    );
    row(&format!("read {kind}"), n, times);
}
