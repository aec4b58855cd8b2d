//! Maps as rows of bytes: what the ingest process calls.
//!
//! A row is the zuniq in 8 bytes, then the count in 4 or the density in 8, each little-endian, with
//! nothing between rows and no header. Rows are not checked as maps. A density is handed over as its
//! 64-bit pattern, [`f64::to_bits`], so that every pattern comes back, those of NaNs too;
//! [`density_of_pattern`] says whether it is a density.
//!
//! The check and lookup take a map as count rows, at most [`MAX_ROWS`] of them. They read the rows
//! where they stand and copy none. As with all functions of libmom_c.a their frames take less than
//! 16 KiB of the stack, however many rows there are, and they take no other memory.
//!
//! ```
//! use mom::rows;
//!
//! let mut bytes = [0; 2 * rows::COUNT_ROW];
//! let zuniqs = [mom::to_zuniq(1, 0)?, mom::to_zuniq(1, 1)?];
//! rows::write_count_rows(&zuniqs, &[10, 3], &mut bytes)?;
//! assert_eq!(rows::check_is_mom(1, &bytes)?, mom::MapCheck::Valid);
//! assert_eq!(rows::get_cell_containing(1, &bytes, zuniqs[1])?, Some(1));
//! assert_eq!(rows::get_overlapped_cells(&bytes, mom::to_zuniq(0, 0)?)?, 0..2);
//! # Ok::<(), mom::Refusal>(())
//! ```

use std::ops::Range;

use crate::{
    raw::{self, rows},
    MapCheck, Refusal,
};

/// The bytes of a count row.
pub const COUNT_ROW: usize = 12;

/// The bytes of a density row.
pub const DENSITY_ROW: usize = 16;

/// The check and lookup take a map of at most so many rows.
pub const MAX_ROWS: usize = 4096;

/// Reads count rows into two buffers, and answers how many they are. Places past them stay. Refused
/// by 4: the buffers differ in length, or the bytes are no whole number of rows; then by 11: there
/// are more rows than places. A refused call leaves both buffers as they were.
pub fn read_count_rows(
    bytes: &[u8],
    zuniqs: &mut [u64],
    counts: &mut [u32],
) -> Result<usize, Refusal> {
    number(rows::read_count_rows(bytes, zuniqs, counts))
}

/// The same for density rows.
pub fn read_density_rows(
    bytes: &[u8],
    zuniqs: &mut [u64],
    patterns: &mut [u64],
) -> Result<usize, Refusal> {
    number(rows::read_density_rows(bytes, zuniqs, patterns))
}

/// Writes count rows to the front of `bytes`, and answers how many they are. Bytes past them stay.
/// Refused by 4: zuniqs and counts differ in number; then by 11: there are fewer bytes than rows ×
/// [`COUNT_ROW`]. A refused call leaves the bytes as they were.
pub fn write_count_rows(
    zuniqs: &[u64],
    counts: &[u32],
    bytes: &mut [u8],
) -> Result<usize, Refusal> {
    number(rows::write_count_rows(zuniqs, counts, bytes))
}

/// The same for density rows, of [`DENSITY_ROW`] bytes.
pub fn write_density_rows(
    zuniqs: &[u64],
    patterns: &[u64],
    bytes: &mut [u8],
) -> Result<usize, Refusal> {
    number(rows::write_density_rows(zuniqs, patterns, bytes))
}

fn number(word: u64) -> Result<usize, Refusal> {
    raw::accepted(word).map(|rows| rows as usize)
}

/// The density that a pattern stands for, or none where it is NaN, infinite or below 0 (−0 is none
/// of these).
pub fn density_of_pattern(pattern: u64) -> Option<f64> {
    let mut density = 0.0;
    raw::answered(rows::mom_density_of_pattern(pattern, &mut density))?;
    Some(density)
}

/// The pattern of a density, or none where it is NaN, infinite or below 0.
pub fn pattern_of_density(density: f64) -> Option<u64> {
    let mut pattern = 0;
    raw::answered(rows::mom_pattern_of_density(density, &mut pattern))?;
    Some(pattern)
}

/// Whether count rows are a valid map of that depth. Refused by 1: the depth is over 29; then by 4:
/// the bytes are no whole number of rows; then by 11: there are more than [`MAX_ROWS`].
pub fn check_is_mom(depth: u8, bytes: &[u8]) -> Result<MapCheck, Refusal> {
    raw::checked(rows::check_is_mom(depth, bytes))
}

/// The row of the map's entry over a cell of the map's depth, or that there is none. The map isn't
/// checked: where it isn't valid, the answer may be any entry that is a valid zuniq and overlaps the
/// cell, or none. Refused by 1, 4 and 11 as the check; then by 12: the query is no valid zuniq of
/// that depth.
pub fn get_cell_containing(depth: u8, bytes: &[u8], zuniq: u64) -> Result<Option<usize>, Refusal> {
    let row = raw::found(rows::get_cell_containing(depth, bytes, zuniq))?;
    Ok(row.map(|row| row as usize))
}

/// The rows of the entries that overlap a cell of any depth, `0..0` where there are none. The map
/// isn't checked: where it isn't valid, they may be any that are valid zuniqs and overlap the cell.
/// Refused by 4 and 11 as the check; then by 12: the query is no valid zuniq.
pub fn get_overlapped_cells(bytes: &[u8], zuniq: u64) -> Result<Range<usize>, Refusal> {
    let mut number = 0;
    let first = raw::accepted(rows::get_overlapped_cells(bytes, zuniq, &mut number))? as usize;
    Ok(first..first + number)
}
