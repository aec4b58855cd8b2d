//! The functions of libmom_c.a on narrow zuniqs. Those on narrow rows are in raw/narrow/rows.rs.

pub mod rows;

// SAFETY: as in raw.rs.
unsafe extern "C" {
    pub safe fn mom32_to_zuniq(depth: u8, hash: u32, zuniq: &mut u32) -> u64;
    pub safe fn mom32_from_zuniq(zuniq: u32, depth: &mut u8, hash: &mut u32) -> u64;
    pub safe fn mom32_are_overlapping(zuniq_l: u32, zuniq_r: u32) -> u64;
    fn mom32_check_is_mom_zuniqs(depth: u8, zuniqs: *const u32, len: usize) -> u64;
    fn mom32_get_cell_containing_zuniqs(
        depth: u8,
        zuniqs: *const u32,
        len: usize,
        zuniq: u32,
    ) -> u64;
    fn mom32_get_overlapped_cells_zuniqs(
        zuniqs: *const u32,
        len: usize,
        zuniq: u32,
        number: &mut usize,
    ) -> u64;
    fn mom32_add_counts(
        depth: u8,
        depth_threshold: u8,
        chi2_threshold: f64,
        protected_parents: *const u32,
        pl: usize,
        held: usize,
        zuniqs: *mut u32,
        zl: usize,
        counts: *mut u32,
        cl: usize,
        hashes: *const u32,
        hl: usize,
        batch: *const u32,
        bl: usize,
        total: &mut u32,
    ) -> u64;
}

// A slice passes as its pointer and its length.

pub fn check_is_mom(depth: u8, zuniqs: &[u32]) -> u64 {
    // SAFETY: pointer and length are those of one slice.
    unsafe { mom32_check_is_mom_zuniqs(depth, zuniqs.as_ptr(), zuniqs.len()) }
}

pub fn get_cell_containing(depth: u8, zuniqs: &[u32], zuniq: u32) -> u64 {
    // SAFETY: pointer and length are those of one slice.
    unsafe { mom32_get_cell_containing_zuniqs(depth, zuniqs.as_ptr(), zuniqs.len(), zuniq) }
}

pub fn get_overlapped_cells(zuniqs: &[u32], zuniq: u32, number: &mut usize) -> u64 {
    // SAFETY: pointer and length are those of one slice.
    unsafe { mom32_get_overlapped_cells_zuniqs(zuniqs.as_ptr(), zuniqs.len(), zuniq, number) }
}

#[allow(clippy::too_many_arguments)]
pub fn add_counts(
    depth: u8,
    depth_threshold: u8,
    chi2_threshold: f64,
    protected: &[u32],
    held: usize,
    zuniqs: &mut [u32],
    counts: &mut [u32],
    hashes: &[u32],
    batch: &[u32],
    total: &mut u32,
) -> u64 {
    // SAFETY: each pointer and the length after it are those of one slice, and no two of the slices
    // overlap where one is written, two of them being lent alone.
    unsafe {
        mom32_add_counts(
            depth,
            depth_threshold,
            chi2_threshold,
            protected.as_ptr(),
            protected.len(),
            held,
            zuniqs.as_mut_ptr(),
            zuniqs.len(),
            counts.as_mut_ptr(),
            counts.len(),
            hashes.as_ptr(),
            hashes.len(),
            batch.as_ptr(),
            batch.len(),
            total,
        )
    }
}

#[cfg(test)]
mod tests {
    use super::*;

    /// Numbers that no call below would write, so that a write shows.
    const UNTOUCHED: u32 = 0xdead_beef;
    const UNTOUCHED_DEPTH: u8 = 0xa5;

    fn refused(number: u8, place: u64) -> u64 {
        (number as u64) << 56 | place
    }

    #[test]
    fn a_refused_to_zuniq_writes_nothing() {
        let cells = [
            (14, 0, 1),
            (29, 0, 1),
            (255, u32::MAX, 1),
            (0, 12, 7),
            (13, 12 << 26, 7),
            (13, u32::MAX, 7),
        ];
        for (depth, hash, number) in cells {
            let mut zuniq = UNTOUCHED;
            let word = mom32_to_zuniq(depth, hash, &mut zuniq);
            assert_eq!(word, refused(number, 0), "({depth}, {hash})");
            assert_eq!(zuniq, UNTOUCHED);
        }
    }

    #[test]
    fn no_cell_writes_no_depth_and_no_hash() {
        for zuniq in [0, 2, 1 << 28, 1610612737, u32::MAX] {
            let (mut depth, mut hash) = (UNTOUCHED_DEPTH, UNTOUCHED);
            let word = mom32_from_zuniq(zuniq, &mut depth, &mut hash);
            assert_eq!(word, refused(65, 0), "{zuniq}");
            assert_eq!((depth, hash), (UNTOUCHED_DEPTH, UNTOUCHED));
        }
    }

    #[test]
    fn an_accepted_call_writes_all_it_promises_and_answers_zero() {
        let (mut zuniq, mut depth, mut hash) = (UNTOUCHED, UNTOUCHED_DEPTH, UNTOUCHED);
        assert_eq!(mom32_to_zuniq(13, 0, &mut zuniq), 0);
        assert_eq!(mom32_from_zuniq(1, &mut depth, &mut hash), 0);
        assert_eq!((zuniq, depth, hash), (1, 13, 0));
    }

    #[test]
    fn the_overlap_test_answers_one_or_zero_and_no_other_true_value() {
        assert_eq!(mom32_are_overlapping(1, 1), 1);
        assert_eq!(mom32_are_overlapping(1, 3), 0);
        assert_eq!(mom32_are_overlapping(0, 0), refused(12, 0));
        assert_eq!(mom32_are_overlapping(1, 0), refused(12, 1));
    }

    #[test]
    fn a_refused_run_writes_no_number_and_an_empty_one_writes_0() {
        let map = [1, 3];
        for (zuniq, answer) in [
            (0, (refused(12, 0), 77)),
            (1 << 28, (refused(12, 0), 77)),
            (5, (0, 0)),
            (3, (1, 1)),
            (1 << 26, (0, 2)),
        ] {
            let mut number = 77;
            let word = get_overlapped_cells(&map, zuniq, &mut number);
            assert_eq!((word, number), answer, "{zuniq}");
        }
    }

    #[test]
    fn refused_counts_write_nothing() {
        let (mut zuniqs, mut counts, mut total) = ([1, 3, 7, 9], [1, u32::MAX - 9, 7, 9], 77);
        let (before, nan) = ((zuniqs, counts), f64::NAN);
        let (deep, hash, past) = (13, 4u32, 12 << 26);
        // (0, 0) and (0, 1), then (0, 0) again.
        let not_rising: &[u32] = &[1 << 26, 3 << 26, 1 << 26];
        for (depth, m, t, held, hashes, batch, number, place) in [
            (14, 30, nan, 5, &[hash][..], &[1][..], 1, 0),
            (29, 0, 1.0, 0, &[hash], &[1], 1, 0),
            (0, 30, nan, 5, &[12], &[1], 2, 0),
            (deep, 30, nan, 5, &[hash], &[1], 2, 0),
            (deep, 29, nan, 5, &[hash], &[1], 3, 0),
            (deep, 29, 1.0, 5, &[hash], &[1], 15, 2),
            (deep, 29, 1.0, 5, &[hash], &[1], 4, 0),
            (deep, 29, 1.0, 2, &[hash], &[], 4, 0),
            (12, 0, 1.0, 2, &[0], &[1], 5, 0),
            (0, 0, 1.0, 2, &[0], &[1], 5, 0),
            (0, 0, 1.0, 0, &[11, 12], &[1, 1], 7, 1),
            (deep, 0, 1.0, 2, &[hash, past], &[1, 1], 7, 1),
            (deep, 0, 1.0, 2, &[1, past], &[1, 1], 8, 0),
            (deep, 0, 1.0, 2, &[hash, hash], &[1, 1], 8, 1),
            (deep, 0, 1.0, 2, &[2, 3, hash], &[8, 1, 1], 10, 1),
            (deep, 0, 1.0, 4, &[hash + 9], &[0], 10, 0),
            (deep, 0, 1.0, 2, &[2, 3, hash], &[8, 0, 0], 11, 0),
        ] {
            let (z, c) = (&mut zuniqs, &mut counts);
            let list = match number {
                1 | 2 | 3 | 15 => not_rising,
                _ => &[],
            };
            let word = add_counts(depth, m, t, list, held, z, c, hashes, batch, &mut total);
            assert_eq!(word, refused(number, place), "{hashes:?} {batch:?}");
            assert_eq!(((zuniqs, counts), total), (before, 77));
        }
    }
}
