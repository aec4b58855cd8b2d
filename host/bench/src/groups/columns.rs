//! Rows laid out by byte column and back, a million of each length and more, from one lent buffer into
//! another. The original has no such layout: beside ours stands a plain loop over the same bytes, in
//! the order in which it writes them, and a copy that leaves them where they are.

use std::hint::black_box;

use differential::random::Random;
use mom::{
    columns::{columns_to_rows, rows_to_columns},
    Refusal,
};

use super::Plan;
use crate::measure::{alone, contest, heading_with_copy, row_with_copy, timed};

pub fn run(plan: Plan) {
    let smaller = 2 * plan.shallower;
    heading_with_copy("Byte columns beside a plain loop", "row", "rows");
    for row_size in [8, 12, 16] {
        both_ways(plan, row_size, 1_000_000 >> smaller);
    }
    // A power of two, by which the bytes of a row lie in the same set of a cache once they are columns.
    both_ways(plan, 16, (1 << 20) >> smaller);
    // More than the caches hold, where a copy goes at the speed of memory.
    both_ways(plan, 16, 8_000_000 >> smaller);
}

fn both_ways(plan: Plan, row_size: usize, number: usize) {
    let mut random = Random::new(11);
    let rows: Vec<u8> = (0..row_size * number)
        .map(|_| random.bits() as u8)
        .collect();
    let to_columns = format!("{row_size} bytes a row, to columns");
    let columns = way(
        plan,
        &to_columns,
        (row_size, &rows),
        rows_to_columns,
        plain_to_columns,
    );
    let to_rows = format!("{row_size} bytes a row, to rows");
    let again = way(
        plan,
        &to_rows,
        (row_size, &columns),
        columns_to_rows,
        plain_to_rows,
    );
    assert!(again == rows, "{row_size} bytes: not the same rows again");
}

type Call = fn(usize, &[u8], &mut [u8]) -> Result<usize, Refusal>;
type Plain = fn(usize, &[u8], &mut [u8]);

/// Times one way, and gives what it leaves.
fn way(
    plan: Plan,
    work: &str,
    (row_size, input): (usize, &[u8]),
    call: Call,
    plain: Plain,
) -> Vec<u8> {
    let (mut ours, mut theirs) = (vec![0; input.len()], vec![0; input.len()]);
    let times = contest(
        plan.rounds,
        || timed(|| call(row_size, input, &mut ours).unwrap()),
        || timed(|| plain(black_box(row_size), input, &mut theirs)),
    );
    assert!(ours == theirs, "{work}: bytes differ");
    let copy = alone(plan.rounds, || timed(|| theirs.copy_from_slice(input)));
    assert!(theirs == input, "{work}: no copy");
    let number = input.len() / row_size;
    row_with_copy(work, number, row_size, times, copy);
    ours
}

#[inline(never)]
fn plain_to_columns(row_size: usize, rows: &[u8], columns: &mut [u8]) {
    let number = rows.len() / row_size;
    for j in 0..row_size {
        for i in 0..number {
            columns[j * number + i] = rows[i * row_size + j];
        }
    }
}

#[inline(never)]
fn plain_to_rows(row_size: usize, columns: &[u8], rows: &mut [u8]) {
    let number = columns.len() / row_size;
    for i in 0..number {
        for j in 0..row_size {
            rows[i * row_size + j] = columns[j * number + i];
        }
    }
}
