//! Narrow maps as rows of bytes: what dome boxes call.
//!
//! A row is the zuniq in 4 bytes, then the count in 4, both little-endian, with nothing between rows
//! and no header. Rows are not checked as maps. The check and lookup take a map as rows, at most
//! [`MAX_ROWS`] of them, read the rows where they stand and copy none.
//!
//! ```
//! use mom::narrow::{self, rows};
//!
//! let mut bytes = [0; 2 * rows::ROW];
//! let zuniqs = [narrow::to_zuniq(1, 0)?, narrow::to_zuniq(1, 1)?];
//! rows::write_count_rows(&zuniqs, &[10, 3], &mut bytes)?;
//! assert_eq!(rows::check_is_mom(1, &bytes)?, mom::MapCheck::Valid);
//! assert_eq!(rows::get_cell_containing(1, &bytes, zuniqs[1])?, Some(1));
//! assert_eq!(rows::get_overlapped_cells(&bytes, narrow::to_zuniq(0, 0)?)?, 0..2);
//! # Ok::<(), mom::Refusal>(())
//! ```

use std::ops::Range;

use crate::{
    raw::{self, narrow::rows},
    MapCheck, Refusal,
};

/// The bytes of a row.
pub const ROW: usize = 8;

/// The check and lookup take a map of at most so many rows.
pub const MAX_ROWS: usize = crate::rows::MAX_ROWS;

/// Reads rows into two buffers, and answers how many they are. Places past them stay. Refused by 4:
/// the buffers differ in length, or the bytes are no whole number of rows; then by 11: there are
/// more rows than places. A refused call leaves both buffers as they were.
pub fn read_count_rows(
    bytes: &[u8],
    zuniqs: &mut [u32],
    counts: &mut [u32],
) -> Result<usize, Refusal> {
    let rows = raw::accepted(rows::read_count_rows(bytes, zuniqs, counts))?;
    Ok(rows as usize)
}

/// Writes rows to the front of `bytes`, and answers how many they are. Bytes past them stay. Refused
/// by 4: zuniqs and counts differ in number; then by 11: there are fewer bytes than rows × [`ROW`].
/// A refused call leaves the bytes as they were.
pub fn write_count_rows(
    zuniqs: &[u32],
    counts: &[u32],
    bytes: &mut [u8],
) -> Result<usize, Refusal> {
    let rows = raw::accepted(rows::write_count_rows(zuniqs, counts, bytes))?;
    Ok(rows as usize)
}

/// Whether rows are a valid map of that depth. Refused by 1: the depth is over 13; then by 4: the
/// bytes are no whole number of rows; then by 11: there are more than [`MAX_ROWS`].
pub fn check_is_mom(depth: u8, bytes: &[u8]) -> Result<MapCheck, Refusal> {
    raw::checked(rows::check_is_mom(depth, bytes))
}

/// The row of the map's entry over a cell of the map's depth, or that there is none. The map isn't
/// checked: where it isn't valid, the answer may be any entry that is a valid zuniq and overlaps the
/// cell, or none. Refused by 1, 4 and 11 as the check; then by 12: the query is no valid zuniq of
/// that depth.
pub fn get_cell_containing(depth: u8, bytes: &[u8], zuniq: u32) -> Result<Option<usize>, Refusal> {
    let row = raw::found(rows::get_cell_containing(depth, bytes, zuniq))?;
    Ok(row.map(|row| row as usize))
}

/// The rows of the entries that overlap a cell of any depth, `0..0` where there are none. The map
/// isn't checked: where it isn't valid, they may be any that are valid zuniqs and overlap the cell.
/// Refused by 4 and 11 as the check; then by 12: the query is no valid zuniq.
pub fn get_overlapped_cells(bytes: &[u8], zuniq: u32) -> Result<Range<usize>, Refusal> {
    let mut number = 0;
    let first = raw::accepted(rows::get_overlapped_cells(bytes, zuniq, &mut number))? as usize;
    Ok(first..first + number)
}
