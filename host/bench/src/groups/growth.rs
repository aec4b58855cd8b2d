//! Time against size: the first cells of depth 10, from 10^4 to 10^7.

use oracle::run;

use super::Plan;
use crate::{
    inputs::first_cells,
    measure::{contest, heading, row, timed, Rounds},
};

pub fn run(plan: Plan) {
    heading("Growth", "cell", "cells");
    for number in [10_000, 100_000, 1_000_000, 10_000_000] {
        let number = number >> (2 * plan.shallower);
        let cells = first_cells::<u64>(10 - plan.shallower, number);
        let (mut zuniqs, mut counts) = (vec![0; number], vec![0; number]);
        let mut ours = || {
            let (hashes, batch) = (&cells.hashes, &cells.values);
            let (z, c) = (&mut zuniqs, &mut counts);
            mom::add_counts(cells.depth, 0, 7.815, &[], 0, z, c, hashes, batch).unwrap()
        };
        let original = || run::build_counts(cells.depth, 0, 7.815, run::unprotected, cells.pairs());
        // Small works are repeated more often.
        let rounds = Rounds(plan.rounds.0 * (10_000_000 / number).clamp(1, 20));
        let times = contest(rounds, || timed(&mut ours), || timed(original));
        row("add counts, T 7.815", number, times);
    }
}
