//! Moving a map between the widths. The original keeps the depth of a map that it narrows, also over 13:
//! such maps are left out.

use differential::{
    compare::Kind,
    kinds::{Move, MoveInput},
    random::Random,
    widths::Width,
};
use oracle::run;

use crate::{building::buffers, Line, Number};

/// The most entries of a drawn map.
const MOST_ENTRIES: usize = 16;

pub fn print<Z>(random: &mut Random, drawn: usize)
where
    Z: Width<Other: Number> + Number,
{
    let mut printed = 0;
    while printed < drawn {
        let input = MoveInput::<Z>::random(random);
        let is_short = input.map.zuniqs.len() <= MOST_ENTRIES;
        if is_short && input.map.depth <= Z::Other::DEPTH_MAX && input.refusal().is_none() {
            line(&input).print();
            printed += 1;
        }
    }
}

/// One place more than are needed, and in all of them what is no zuniq.
fn line<Z>(MoveInput { map, .. }: &MoveInput<Z>) -> Line
where
    Z: Width<Other: Number> + Number,
{
    let entries = map.zuniqs.iter().copied().zip(map.values.iter().copied());
    let (depth, moved) = Z::moved(run::mom(map.depth, entries.collect()));
    let places = map.zuniqs.len() + 1;
    let (zuniqs, counts) = buffers(&[], places, Z::Other::of(2), 3u32);
    let line = Line::new(Move::<Z>::NAME)
        .with(map.depth)
        .with_list(&map.zuniqs)
        .with_list(&map.values)
        .with_list(&zuniqs)
        .with_list(&counts);
    let (zuniqs, counts) = buffers(&moved, places, Z::Other::of(0), 0);
    line.with(depth)
        .with(moved.len())
        .with_list(&zuniqs)
        .with_list(&counts)
}
