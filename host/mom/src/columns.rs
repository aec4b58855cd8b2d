//! Rows laid out by byte column, and back: all first bytes stand together, then all second bytes, and
//! so on through the row. Byte j of row i, both from 0, stands at j × the number of rows + i. A disk
//! holds maps better so, since the bytes of a column are much alike: `examples/columns.rs` shows what
//! a compressor makes of them. Rows are not checked as maps.
//!
//! ```
//! use mom::{columns, rows};
//!
//! let mut bytes = [0; 2 * rows::COUNT_ROW];
//! let zuniqs = [mom::to_zuniq(1, 0)?, mom::to_zuniq(1, 1)?];
//! rows::write_count_rows(&zuniqs, &[10, 3], &mut bytes)?;
//! assert_eq!(bytes[..12], [0, 0, 0, 0, 0, 0, 0, 1, 10, 0, 0, 0]);
//! assert_eq!(bytes[12..], [0, 0, 0, 0, 0, 0, 0, 3, 3, 0, 0, 0]);
//!
//! let mut laid_out = [0; 2 * rows::COUNT_ROW];
//! assert_eq!(columns::rows_to_columns(rows::COUNT_ROW, &bytes, &mut laid_out)?, 2);
//! assert_eq!(laid_out[12..20], [0, 0, 1, 3, 10, 3, 0, 0]);
//!
//! let mut back = [0; 2 * rows::COUNT_ROW];
//! assert_eq!(columns::columns_to_rows(rows::COUNT_ROW, &laid_out, &mut back)?, 2);
//! assert_eq!(back, bytes);
//! # Ok::<(), mom::Refusal>(())
//! ```

use crate::{raw, Refusal};

/// Lays rows of `row_size` bytes out by byte column at the front of `columns`, and answers how many
/// rows they are. Bytes past them stay. Refused by 4: the row length is none of 8, 12 and 16, or the
/// bytes are no whole number of rows; then by 11: `columns` is shorter than `rows`. A refused call
/// leaves `columns` as it was.
pub fn rows_to_columns(row_size: usize, rows: &[u8], columns: &mut [u8]) -> Result<usize, Refusal> {
    let number = raw::accepted(raw::columns::rows_to_columns(row_size, rows, columns))?;
    Ok(number as usize)
}

/// The way back: takes byte columns to rows at the front of `rows`, and answers how many they are.
/// Bytes past them stay. Refused by 4 as [`rows_to_columns`] is; then by 11: `rows` is shorter than
/// `columns`. A refused call leaves `rows` as it was.
pub fn columns_to_rows(row_size: usize, columns: &[u8], rows: &mut [u8]) -> Result<usize, Refusal> {
    let number = raw::accepted(raw::columns::columns_to_rows(row_size, columns, rows))?;
    Ok(number as usize)
}
