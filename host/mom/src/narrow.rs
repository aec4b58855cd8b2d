//! Narrow maps, as dome boxes keep them: zuniqs in u32s.
//!
//! A cell of depth 0 to [`MAX_DEPTH`], 13, has the narrow zuniq (2 × hash + 1) × 4^(13 − depth). Maps
//! of narrow zuniqs are checked, looked up and built as the others are, and as bytes their [`rows`]
//! are shorter. [`crate::moving`] makes a narrow map out of another one, and the other way round.
//! "Zuniq" and "map" mean narrow ones here.
//!
//! ```
//! use mom::narrow;
//!
//! let zuniq = narrow::to_zuniq(1, 3)?;
//! assert_eq!(zuniq, 117440512);
//! assert_eq!(narrow::from_zuniq(zuniq), Some((1, 3)));
//! assert_eq!(narrow::to_zuniq(14, 0), Err(mom::Refusal::DepthOutOfRange));
//!
//! let (mut zuniqs, mut counts) = ([0; 4], [0; 4]);
//! let (hashes, batch) = ([0, 1, 2, 3], [1, 2, 4, 4]);
//! let added = narrow::add_counts(1, 0, 3.5, &[], 0, &mut zuniqs, &mut counts, &hashes, &batch)?;
//! assert_eq!((added.entries, added.total), (1, 11));
//! assert_eq!(zuniqs[0], narrow::to_zuniq(0, 0)?);
//! # Ok::<(), mom::Refusal>(())
//! ```

pub mod rows;

use crate::{
    raw::{self, narrow},
    Added, MapCheck, Refusal,
};

/// The largest depth of a narrow map.
pub const MAX_DEPTH: u8 = 13;

/// The zuniq of a cell. Refused by 1: the depth is over 13; then by 7: the hash is N(depth) or
/// more.
pub fn to_zuniq(depth: u8, hash: u32) -> Result<u32, Refusal> {
    let mut zuniq = 0;
    raw::accepted(narrow::mom32_to_zuniq(depth, hash, &mut zuniq))?;
    Ok(zuniq)
}

/// The cell of a zuniq, as depth and hash, or that there is none.
pub fn from_zuniq(zuniq: u32) -> Option<(u8, u32)> {
    let (mut depth, mut hash) = (0, 0);
    raw::answered(narrow::mom32_from_zuniq(zuniq, &mut depth, &mut hash))?;
    Some((depth, hash))
}

/// Whether two cells are equal or one lies inside the other. Refused by 12: the left one (place 0)
/// or the right one (place 1) is not a valid zuniq.
pub fn are_overlapping(zuniq_l: u32, zuniq_r: u32) -> Result<bool, Refusal> {
    let overlaps = raw::accepted(narrow::mom32_are_overlapping(zuniq_l, zuniq_r))?;
    Ok(overlaps != 0)
}

/// Whether the zuniqs are a valid map of that depth. Refused by 1: the depth is over 13.
pub fn check_is_mom(depth: u8, zuniqs: &[u32]) -> Result<MapCheck, Refusal> {
    raw::checked(narrow::check_is_mom(depth, zuniqs))
}

/// The place of the map's entry over a cell of the map's depth, or that there is none. The map
/// isn't checked: where it isn't valid, the answer may be any entry that is a valid zuniq and
/// overlaps the cell, or none. Refused by 1: the depth is over 13; then by 12: the query is no valid
/// zuniq of that depth.
pub fn get_cell_containing(
    depth: u8,
    zuniqs: &[u32],
    zuniq: u32,
) -> Result<Option<usize>, Refusal> {
    let place = raw::found(narrow::get_cell_containing(depth, zuniqs, zuniq))?;
    Ok(place.map(|place| place as usize))
}

/// The entries of the map that overlap a cell of any depth: the place of the first, and that very
/// part of the map; place 0 and an empty part where there are none. The map isn't checked: where it
/// isn't valid, they may be any that are valid zuniqs and overlap the cell. Refused by 12: the
/// query is no valid zuniq.
pub fn get_overlapped_cells(zuniqs: &[u32], zuniq: u32) -> Result<(usize, &[u32]), Refusal> {
    let mut number = 0;
    let first = raw::accepted(narrow::get_overlapped_cells(zuniqs, zuniq, &mut number))? as usize;
    Ok((first, &zuniqs[first..first + number]))
}

/// Adds cells of that depth, given by `hashes` and their counts in `batch`, to the map in the first
/// `held` places of `zuniqs` and `counts`, as [`crate::add_counts`] does, by the same merger, which
/// keeps children of a parent in `protected` and merges other blank sky at any chi-square threshold.
/// Every place after the entries is 0. A refused call leaves both buffers as they were.
///
/// Refused by 1: the depth is over 13; then by 2: the depth threshold is over 29 (from 13 on nothing
/// is merged); then by 3, 15, 4, 5, 7, 8, 10 and 11 as [`crate::add_counts`] is.
#[allow(clippy::too_many_arguments)]
pub fn add_counts(
    depth: u8,
    depth_threshold: u8,
    chi2_threshold: f64,
    protected: &[u32],
    held: usize,
    zuniqs: &mut [u32],
    counts: &mut [u32],
    hashes: &[u32],
    batch: &[u32],
) -> Result<Added, Refusal> {
    let mut total = 0;
    let entries = raw::accepted(narrow::add_counts(
        depth,
        depth_threshold,
        chi2_threshold,
        protected,
        held,
        zuniqs,
        counts,
        hashes,
        batch,
        &mut total,
    ))?;
    let entries = entries as usize;
    Ok(Added { entries, total })
}
