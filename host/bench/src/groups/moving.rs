//! Moving a million entries from one width to the other, from two lent buffers into two. The original
//! looks at nothing but the bits that it drops, and makes a vector; its map is copied for it outside the
//! time. The plain loop checks what ours checks.

use std::time::Duration;

use differential::widths::{named, Width};
use mom::moving::Moved;
use oracle::run;

use super::Plan;
use crate::{
    inputs::{count_map, Map},
    measure::{alone, contest, heading, heading_with_extra, row, row_with_extra, timed, Extra},
};

pub fn run(plan: Plan) {
    let (depth, number) = (10 - plan.shallower, 1_000_000 >> (2 * plan.shallower));
    let wide = count_map::<u64>(depth, number, 1);
    let narrow = count_map::<u32>(depth, number, 1);
    heading_with_extra("Moving", "entry", "entries");
    beside_the_original(plan, &wide);
    beside_the_original(plan, &narrow);
    heading("Moving beside a plain loop that checks", "entry", "entries");
    beside_a_plain_loop(plan, &wide, |zuniq| (zuniq >> 32) as u32);
    beside_a_plain_loop(plan, &narrow, |zuniq| (zuniq as u64) << 32);
}

/// The buffers of the other width, with a place for each entry.
fn buffers<Z: Width>(map: &Map<u32, Z>) -> (Vec<Z::Other>, Vec<u32>) {
    (vec![Z::Other::of(0); map.len()], vec![0; map.len()])
}

/// No place is behind the entries, so that there is nothing to clear.
fn beside_the_original<Z: Width>(plan: Plan, map: &Map<u32, Z>) {
    let work = named::<Z>("narrow", "widen");
    let (mut zuniqs, mut counts) = buffers(map);
    let move_into = |z: &mut [Z::Other], c: &mut [u32]| {
        (Z::OURS.moving)(map.depth, &map.zuniqs, &map.values, z, c)
    };
    let original = || {
        let mom = run::mom(map.depth, map.entries());
        timed(|| Z::moved(mom))
    };
    let ours = || timed(|| move_into(&mut zuniqs, &mut counts));
    let times = contest(plan.rounds, ours, original);
    let (depth, entries) = Z::moved(run::mom(map.depth, map.entries()));
    let moved = Map::of(depth, &entries);
    assert!(
        zuniqs == moved.zuniqs && counts == moved.values && depth == map.depth,
        "{work}: answers differ"
    );
    let short = map.len() - 1;
    let checks = alone(plan.rounds, || {
        timed(|| move_into(&mut zuniqs[..short], &mut counts[..short]).unwrap_err())
    });
    let clearing = Duration::ZERO;
    row_with_extra(work, map.len(), times, Extra { checks, clearing });
}

/// `shifted` is the zuniq of the same cell at the other width.
fn beside_a_plain_loop<Z: Width>(plan: Plan, map: &Map<u32, Z>, shifted: impl Fn(Z) -> Z::Other) {
    let work = named::<Z>("narrow", "widen");
    let (mut zuniqs, mut counts) = buffers(map);
    let mut ours = || {
        let (z, c) = (&mut zuniqs, &mut counts);
        (Z::OURS.moving)(map.depth, &map.zuniqs, &map.values, z, c)
    };
    let (mut z, mut c) = buffers(map);
    let mut loops = || plain(map, &mut z, &mut c, &shifted);
    let times = contest(plan.rounds, || timed(&mut ours), || timed(&mut loops));
    row(work, map.len(), times);
    assert_eq!(ours().ok(), loops(), "{work}: answers differ");
    assert!(zuniqs == z && counts == c, "{work}: loops differ");
}

/// None where anything is wrong with the map or the output.
fn plain<Z: Width>(
    map: &Map<u32, Z>,
    zuniqs: &mut [Z::Other],
    counts: &mut [u32],
    shifted: impl Fn(Z) -> Z::Other,
) -> Option<Moved> {
    let entries = map.zuniqs.len();
    if map.depth > Z::DEPTH_MAX || entries != map.values.len() || zuniqs.len() != counts.len() {
        return None;
    }
    if deepest(map.depth, &map.zuniqs)? > Z::Other::DEPTH_MAX || zuniqs.len() < entries {
        return None;
    }
    for (place, &zuniq) in zuniqs.iter_mut().zip(&map.zuniqs) {
        *place = shifted(zuniq);
    }
    counts[..entries].copy_from_slice(&map.values);
    zuniqs[entries..].fill(Z::Other::of(0));
    counts[entries..].fill(0);
    let depth = map.depth.min(Z::Other::DEPTH_MAX);
    Some(Moved { depth, entries })
}

/// The depth of the deepest entry of a map of that depth; none where one is no zuniq, deeper than the map,
/// or starts before the one before it ends.
pub fn deepest<Z: Width>(map_depth: u8, zuniqs: &[Z]) -> Option<u8> {
    let (mut deepest, mut end) = (0, 0);
    for zuniq in zuniqs {
        let zuniq = zuniq.bits();
        let zeros = zuniq.trailing_zeros() as u8;
        if zeros > 2 * Z::DEPTH_MAX || zeros % 2 == 1 {
            return None;
        }
        let depth = Z::DEPTH_MAX - zeros / 2;
        let hash = zuniq >> (zeros + 1);
        let start = hash << zeros;
        if hash >= 12 << (2 * depth) || depth > map_depth || start < end {
            return None;
        }
        end = (hash + 1) << zeros;
        deepest = deepest.max(depth);
    }
    Some(deepest)
}
