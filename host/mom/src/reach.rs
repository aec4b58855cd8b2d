//! The area that observers can reach: the coverage of a map, and a density map clipped to a coverage.
//!
//! As in MOC 2.0 a coverage is a list of half-open ranges of depth-29 hashes, here starts and ends in two
//! paired buffers: a range holds the hashes from its start to below its end. It is valid where no range
//! is empty or ends past N(29), and each starts above the end of the one before, so that no two touch.
//! [`coverage`] writes such lists, and [`clip`] takes no others.
//!
//! ```
//! use mom::reach::{clip, coverage};
//!
//! // (28, 0) holds the hashes 0 to 3 and touches (28, 1), which holds 4 to 7: they share a range.
//! let map = [mom::to_zuniq(28, 0)?, mom::to_zuniq(28, 1)?, mom::to_zuniq(29, 10)?];
//! let (mut starts, mut ends) = ([0; 3], [0; 3]);
//! assert_eq!(coverage(29, &map, &mut starts, &mut ends)?, 2);
//! assert_eq!((starts, ends), ([0, 10, 0], [8, 11, 0]));
//!
//! // From 1 to below 10: three quarters of the first entry, all of the second, nothing of the third.
//! let (mut zuniqs, mut densities) = ([0; 5], [0.0; 5]);
//! let cells = clip(29, &map, &[0.5, 1.5, 2.5], &[1], &[10], &mut zuniqs, &mut densities)?;
//! assert_eq!(cells, 4);
//! let cells: Vec<_> = zuniqs.iter().map_while(|&zuniq| mom::from_zuniq(zuniq)).collect();
//! assert_eq!(cells, [(29, 1), (29, 2), (29, 3), (28, 1)]);
//! assert_eq!(densities, [0.5, 0.5, 0.5, 1.5, 0.0]);
//! # Ok::<(), mom::Refusal>(())
//! ```

use crate::{raw, Refusal};

/// Writes the coverage of a map of that depth into `starts` and `ends`, which may hold anything: exactly
/// the depth-29 cells that lie in an entry, as rising ranges of which none touches the next, so that
/// neighbouring entries share a range. Answers the number of ranges, which is at most that of the
/// entries; every place after them is 0. A refused call leaves both buffers as they were.
///
/// Refused by 1: the depth is over 29; then by 4: the two buffers differ in length; then by 5: the map
/// is not valid, the place is its first faulty entry; then by 11: the buffers have fewer places than
/// there are ranges.
pub fn coverage(
    depth: u8,
    zuniqs: &[u64],
    starts: &mut [u64],
    ends: &mut [u64],
) -> Result<usize, Refusal> {
    let ranges = raw::accepted(raw::reach::coverage(depth, zuniqs, starts, ends))?;
    Ok(ranges as usize)
}

/// Clips a density map of that depth to the coverage in `starts` and `ends`, into `zuniqs` and
/// `densities`, which may hold anything: every cell that lies inside an entry and inside the coverage
/// while its parent, if any, doesn't lie inside both, with the entry's density. A cell lies inside the
/// coverage if all its depth-29 cells do. Nothing is merged, and the clipped map is of depth 29. Answers
/// the number of cells; every place after them is 0. Clipped to its own coverage a map has its entries
/// again; the zeros that [`coverage`] leaves behind the ranges are to be cut off, since they would be an
/// empty range. A refused call leaves both buffers as they were.
///
/// Refused by 1: the depth is over 29; then by 4: zuniqs and densities of the map, starts and ends, or
/// the two output buffers differ in length; then by 5: the map is not valid, the place is its first
/// faulty entry; then by 6: a density is NaN, infinite or below 0 (−0 is none of these), the place is its
/// entry; then by 14: a range is empty, ends past N(29), or doesn't start above the end of the one
/// before, the place is the range; then by 11: the output has fewer places than there are cells.
pub fn clip(
    depth: u8,
    map_zuniqs: &[u64],
    map_densities: &[f64],
    starts: &[u64],
    ends: &[u64],
    zuniqs: &mut [u64],
    densities: &mut [f64],
) -> Result<usize, Refusal> {
    let cells = raw::accepted(raw::reach::clip(
        depth,
        map_zuniqs,
        map_densities,
        starts,
        ends,
        zuniqs,
        densities,
    ))?;
    Ok(cells as usize)
}
