//! The functions of libmom_c.a that the ingest process calls.

// SAFETY: as in raw.rs.
unsafe extern "C" {
    pub safe fn mom_density_of_count(depth: u8, count: u32, density: &mut f64) -> u64;
    pub safe fn mom_density_of_pattern(pattern: u64, density: &mut f64) -> u64;
    pub safe fn mom_pattern_of_density(density: f64, pattern: &mut u64) -> u64;
    fn mom_read_count_rows(
        bytes: *const u8,
        bl: usize,
        zuniqs: *mut u64,
        zl: usize,
        counts: *mut u32,
        cl: usize,
    ) -> u64;
    fn mom_read_density_rows(
        bytes: *const u8,
        bl: usize,
        zuniqs: *mut u64,
        zl: usize,
        patterns: *mut u64,
        pl: usize,
    ) -> u64;
    fn mom_write_count_rows(
        zuniqs: *const u64,
        zl: usize,
        counts: *const u32,
        cl: usize,
        bytes: *mut u8,
        bl: usize,
    ) -> u64;
    fn mom_write_density_rows(
        zuniqs: *const u64,
        zl: usize,
        patterns: *const u64,
        pl: usize,
        bytes: *mut u8,
        bl: usize,
    ) -> u64;
    fn mom_check_is_mom(depth: u8, bytes: *const u8, bl: usize) -> u64;
    fn mom_get_cell_containing(depth: u8, bytes: *const u8, bl: usize, zuniq: u64) -> u64;
    fn mom_get_overlapped_cells(bytes: *const u8, bl: usize, zuniq: u64, number: &mut usize)
        -> u64;
}

// A slice passes as its pointer and its length. In the calls below each pointer and the length
// after it are those of one slice, and no two of the slices overlap where one is written.

pub fn read_count_rows(bytes: &[u8], zuniqs: &mut [u64], counts: &mut [u32]) -> u64 {
    // SAFETY: as said above.
    unsafe {
        mom_read_count_rows(
            bytes.as_ptr(),
            bytes.len(),
            zuniqs.as_mut_ptr(),
            zuniqs.len(),
            counts.as_mut_ptr(),
            counts.len(),
        )
    }
}

pub fn read_density_rows(bytes: &[u8], zuniqs: &mut [u64], patterns: &mut [u64]) -> u64 {
    // SAFETY: as said above.
    unsafe {
        mom_read_density_rows(
            bytes.as_ptr(),
            bytes.len(),
            zuniqs.as_mut_ptr(),
            zuniqs.len(),
            patterns.as_mut_ptr(),
            patterns.len(),
        )
    }
}

pub fn write_count_rows(zuniqs: &[u64], counts: &[u32], bytes: &mut [u8]) -> u64 {
    // SAFETY: as said above.
    unsafe {
        mom_write_count_rows(
            zuniqs.as_ptr(),
            zuniqs.len(),
            counts.as_ptr(),
            counts.len(),
            bytes.as_mut_ptr(),
            bytes.len(),
        )
    }
}

pub fn write_density_rows(zuniqs: &[u64], patterns: &[u64], bytes: &mut [u8]) -> u64 {
    // SAFETY: as said above.
    unsafe {
        mom_write_density_rows(
            zuniqs.as_ptr(),
            zuniqs.len(),
            patterns.as_ptr(),
            patterns.len(),
            bytes.as_mut_ptr(),
            bytes.len(),
        )
    }
}

pub fn check_is_mom(depth: u8, bytes: &[u8]) -> u64 {
    // SAFETY: as said above.
    unsafe { mom_check_is_mom(depth, bytes.as_ptr(), bytes.len()) }
}

pub fn get_cell_containing(depth: u8, bytes: &[u8], zuniq: u64) -> u64 {
    // SAFETY: as said above.
    unsafe { mom_get_cell_containing(depth, bytes.as_ptr(), bytes.len(), zuniq) }
}

pub fn get_overlapped_cells(bytes: &[u8], zuniq: u64, number: &mut usize) -> u64 {
    // SAFETY: as said above.
    unsafe { mom_get_overlapped_cells(bytes.as_ptr(), bytes.len(), zuniq, number) }
}

#[cfg(test)]
mod tests {
    use super::*;

    fn refused(number: u8) -> u64 {
        (number as u64) << 56
    }

    #[test]
    fn a_refused_density_writes_nothing() {
        for depth in [30, 255] {
            let mut density = 5.5;
            assert_eq!(mom_density_of_count(depth, 1, &mut density), refused(1));
            assert_eq!(density, 5.5);
        }
    }

    #[test]
    fn no_density_and_no_pattern_write_nothing() {
        for x in [f64::NAN, f64::INFINITY, f64::NEG_INFINITY, -5e-324, -1.0] {
            let (mut density, mut pattern) = (5.5, 5);
            assert_eq!(
                mom_density_of_pattern(x.to_bits(), &mut density),
                refused(65)
            );
            assert_eq!(mom_pattern_of_density(x, &mut pattern), refused(65));
            assert_eq!((density, pattern), (5.5, 5));
        }
    }

    #[test]
    fn a_refused_run_writes_no_number() {
        let one = [1, 0, 0, 0, 0, 0, 0, 0, 9, 0, 0, 0];
        for (bytes, zuniq, answer) in [
            (&one[..11], 0, (refused(4), 77)),
            (&[0; 12 * 4097], 0, (refused(11), 77)),
            (&one, 0, (refused(12), 77)),
            (&one, 3, (0, 0)),
            (&one, 1 << 58, (0, 1)),
        ] {
            let mut number = 77;
            let word = get_overlapped_cells(bytes, zuniq, &mut number);
            assert_eq!((word, number), answer);
        }
    }
}
