//! The functions of libmom_c.a that dome boxes call on narrow rows.

// SAFETY: as in raw.rs.
unsafe extern "C" {
    fn mom32_read_count_rows(
        bytes: *const u8,
        bl: usize,
        zuniqs: *mut u32,
        zl: usize,
        counts: *mut u32,
        cl: usize,
    ) -> u64;
    fn mom32_write_count_rows(
        zuniqs: *const u32,
        zl: usize,
        counts: *const u32,
        cl: usize,
        bytes: *mut u8,
        bl: usize,
    ) -> u64;
    fn mom32_check_is_mom(depth: u8, bytes: *const u8, bl: usize) -> u64;
    fn mom32_get_cell_containing(depth: u8, bytes: *const u8, bl: usize, zuniq: u32) -> u64;
    fn mom32_get_overlapped_cells(
        bytes: *const u8,
        bl: usize,
        zuniq: u32,
        number: &mut usize,
    ) -> u64;
}

// A slice passes as its pointer and its length. In the calls below each pointer and the length
// after it are those of one slice, and no two of the slices overlap where one is written.

pub fn read_count_rows(bytes: &[u8], zuniqs: &mut [u32], counts: &mut [u32]) -> u64 {
    // SAFETY: as said above.
    unsafe {
        mom32_read_count_rows(
            bytes.as_ptr(),
            bytes.len(),
            zuniqs.as_mut_ptr(),
            zuniqs.len(),
            counts.as_mut_ptr(),
            counts.len(),
        )
    }
}

pub fn write_count_rows(zuniqs: &[u32], counts: &[u32], bytes: &mut [u8]) -> u64 {
    // SAFETY: as said above.
    unsafe {
        mom32_write_count_rows(
            zuniqs.as_ptr(),
            zuniqs.len(),
            counts.as_ptr(),
            counts.len(),
            bytes.as_mut_ptr(),
            bytes.len(),
        )
    }
}

pub fn check_is_mom(depth: u8, bytes: &[u8]) -> u64 {
    // SAFETY: as said above.
    unsafe { mom32_check_is_mom(depth, bytes.as_ptr(), bytes.len()) }
}

pub fn get_cell_containing(depth: u8, bytes: &[u8], zuniq: u32) -> u64 {
    // SAFETY: as said above.
    unsafe { mom32_get_cell_containing(depth, bytes.as_ptr(), bytes.len(), zuniq) }
}

pub fn get_overlapped_cells(bytes: &[u8], zuniq: u32, number: &mut usize) -> u64 {
    // SAFETY: as said above.
    unsafe { mom32_get_overlapped_cells(bytes.as_ptr(), bytes.len(), zuniq, number) }
}

#[cfg(test)]
mod tests {
    use super::*;

    fn refused(number: u8) -> u64 {
        (number as u64) << 56
    }

    #[test]
    fn a_refused_run_writes_no_number() {
        let one = [1, 0, 0, 0, 9, 0, 0, 0];
        for (bytes, zuniq, answer) in [
            (&one[..7], 0, (refused(4), 77)),
            (&[0; 8 * 4097], 0, (refused(11), 77)),
            (&one, 0, (refused(12), 77)),
            (&one, 3, (0, 0)),
            (&one, 1 << 26, (0, 1)),
        ] {
            let mut number = 77;
            let word = get_overlapped_cells(bytes, zuniq, &mut number);
            assert_eq!((word, number), answer);
        }
    }
}
