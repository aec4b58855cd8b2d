//! Calls on one cell or quad, a million of each, in a random order of depths. Ours work out N(d), the
//! number of cells of a depth, in each. The original reads it from its table of layers, and not at all
//! where it encodes. Both are called through a pointer, so that neither is worked into the loop.

use std::hint::black_box;

use differential::{
    random::Random,
    widths::{named, Width},
};
use mom::DensityMerge;
use oracle::run;

use super::Plan;
use crate::{
    inputs::poisson,
    measure::{contest, heading, row, timed},
};

const T: f64 = 7.815;

pub fn run(plan: Plan) {
    let number = 1_000_000 >> (2 * plan.shallower);
    heading("Cells", "call", "calls");
    numbers(plan, number);
    encoding::<u64>(plan, number);
    encoding::<u32>(plan, number);
    merging(plan, number);
}

fn numbers(plan: Plan, number: usize) {
    let mut random = Random::new(12);
    let depths: Vec<u8> = (0..number).map(|_| random.below(30) as u8).collect();
    calls(
        plan,
        "number of cells",
        &depths,
        |&depth| mom::n_hash(depth).unwrap(),
        |&depth| run::n_hash(depth),
    );
}

/// The original's `to_zuniq` of the type, which checks nothing.
fn encoding<Z: Width>(plan: Plan, number: usize) {
    let mut random = Random::new(13);
    let cells: Vec<(u8, Z)> = (0..number)
        .map(|_| {
            let depth = random.below(Z::DEPTH_MAX as u64 + 1) as u8;
            (depth, Z::of(random.below(run::n_hash(depth))))
        })
        .collect();
    calls(
        plan,
        named::<Z>("encode", "encode, narrow"),
        &cells,
        |&(depth, hash)| (Z::OURS.to_zuniq)(depth, hash).unwrap().bits(),
        |&(depth, hash)| run::trait_to_zuniq(depth, hash).bits(),
    );
}

/// Quads of Poisson counts of mean 8, as densities of their depth. The answer is the pattern of the
/// merged density, or 0.
fn merging(plan: Plan, number: usize) {
    let mut random = Random::new(14);
    let quads: Vec<(u8, [f64; 4])> = (0..number)
        .map(|_| {
            let parent = random.below(29) as u8;
            let density = |_| run::density::<u64>(poisson(&mut random, 8.0), parent + 1);
            (parent, [0; 4].map(density))
        })
        .collect();
    calls(
        plan,
        "merge four densities, T 7.815",
        &quads,
        |&(parent, quad)| match mom::chi2_density_merger(parent, 0, 0, T, &[], quad).unwrap() {
            DensityMerge::Merged(density) => density.to_bits(),
            DensityMerge::Kept(_) => 0,
        },
        |&(parent, quad)| run::merge_densities_by_chi(parent, 0, T, quad).map_or(0, f64::to_bits),
    );
}

type Call<A> = fn(&A) -> u64;

/// One call for each argument; the answers are held together first, one by one.
fn calls<A>(plan: Plan, work: &str, arguments: &[A], ours: Call<A>, theirs: Call<A>) {
    for argument in arguments {
        assert_eq!(ours(argument), theirs(argument), "{work}: answers differ");
    }
    let all = |call: Call<A>| -> u64 {
        let call = black_box(call);
        arguments.iter().map(call).fold(0, u64::wrapping_add)
    };
    let times = contest(
        plan.rounds,
        || timed(|| all(ours)),
        || timed(|| all(theirs)),
    );
    row(work, arguments.len(), times);
}
