//! The functions of libmom_c.a that lay rows out by byte column, and back.

// SAFETY: as in raw.rs.
unsafe extern "C" {
    fn mom_rows_to_columns(
        row_size: usize,
        rows: *const u8,
        rl: usize,
        columns: *mut u8,
        cl: usize,
    ) -> u64;
    fn mom_columns_to_rows(
        row_size: usize,
        columns: *const u8,
        cl: usize,
        rows: *mut u8,
        rl: usize,
    ) -> u64;
}

// A slice passes as its pointer and its length. In the calls below each pointer and the length
// after it are those of one slice, and the slice that is written overlaps no other.

pub fn rows_to_columns(row_size: usize, rows: &[u8], columns: &mut [u8]) -> u64 {
    // SAFETY: as said above.
    unsafe {
        mom_rows_to_columns(
            row_size,
            rows.as_ptr(),
            rows.len(),
            columns.as_mut_ptr(),
            columns.len(),
        )
    }
}

pub fn columns_to_rows(row_size: usize, columns: &[u8], rows: &mut [u8]) -> u64 {
    // SAFETY: as said above.
    unsafe {
        mom_columns_to_rows(
            row_size,
            columns.as_ptr(),
            columns.len(),
            rows.as_mut_ptr(),
            rows.len(),
        )
    }
}
