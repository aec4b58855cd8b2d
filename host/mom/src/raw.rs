//! The functions of libmom_c.a as host/include/mom.h declares them, and the word that each answers.
//! A new function is declared here and gets its safe form in lib.rs. Those of the ingest process are
//! in raw/rows.rs and rows.rs, those of narrow maps in raw/narrow.rs and narrow.rs, those of byte
//! columns in raw/columns.rs and columns.rs, those of coverages in raw/reach.rs and reach.rs.

pub mod columns;
pub mod narrow;
pub mod reach;
pub mod rows;

use crate::{Fault, MapCheck, Refusal};

// SAFETY: the signatures are those of mom.h. The functions are proved to be safe and to end for
// all arguments, to reach no memory but what is lent to them, and to keep none of it.
unsafe extern "C" {
    pub safe fn mom_n_hash(depth: u8, n_hash: &mut u64) -> u64;
    pub safe fn mom_to_zuniq(depth: u8, hash: u64, zuniq: &mut u64) -> u64;
    pub safe fn mom_from_zuniq(zuniq: u64, depth: &mut u8, hash: &mut u64) -> u64;
    pub safe fn mom_are_overlapping(zuniq_l: u64, zuniq_r: u64) -> u64;
    fn mom_chi2_count_merger(
        parent_depth: u8,
        parent_hash: u64,
        depth_threshold: u8,
        chi2_threshold: f64,
        protected_parents: *const u64,
        pl: usize,
        n0: u32,
        n1: u32,
        n2: u32,
        n3: u32,
        chi2: &mut f64,
    ) -> u64;
    fn mom_chi2_density_merger(
        parent_depth: u8,
        parent_hash: u64,
        depth_threshold: u8,
        chi2_threshold: f64,
        protected_parents: *const u64,
        pl: usize,
        m0: f64,
        m1: f64,
        m2: f64,
        m3: f64,
        answer: &mut f64,
    ) -> u64;
    fn mom_check_is_mom_zuniqs(depth: u8, zuniqs: *const u64, len: usize) -> u64;
    fn mom_get_cell_containing_zuniqs(depth: u8, zuniqs: *const u64, len: usize, zuniq: u64)
        -> u64;
    fn mom_get_overlapped_cells_zuniqs(
        zuniqs: *const u64,
        len: usize,
        zuniq: u64,
        number: &mut usize,
    ) -> u64;
    fn mom_add_counts(
        depth: u8,
        depth_threshold: u8,
        chi2_threshold: f64,
        protected_parents: *const u64,
        pl: usize,
        held: usize,
        zuniqs: *mut u64,
        zl: usize,
        counts: *mut u32,
        cl: usize,
        hashes: *const u64,
        hl: usize,
        batch: *const u32,
        bl: usize,
        total: &mut u32,
    ) -> u64;
    fn mom_add_densities(
        depth: u8,
        depth_threshold: u8,
        chi2_threshold: f64,
        protected_parents: *const u64,
        pl: usize,
        held: usize,
        zuniqs: *mut u64,
        zl: usize,
        densities: *mut f64,
        dl: usize,
        hashes: *const u64,
        hl: usize,
        batch: *const f64,
        bl: usize,
    ) -> u64;
}

// A slice passes as its pointer and its length.

pub fn chi2_count_merger(
    parent_depth: u8,
    parent_hash: u64,
    depth_threshold: u8,
    chi2_threshold: f64,
    protected: &[u64],
    [n0, n1, n2, n3]: [u32; 4],
    chi2: &mut f64,
) -> u64 {
    // SAFETY: pointer and length are those of one slice.
    unsafe {
        mom_chi2_count_merger(
            parent_depth,
            parent_hash,
            depth_threshold,
            chi2_threshold,
            protected.as_ptr(),
            protected.len(),
            n0,
            n1,
            n2,
            n3,
            chi2,
        )
    }
}

pub fn chi2_density_merger(
    parent_depth: u8,
    parent_hash: u64,
    depth_threshold: u8,
    chi2_threshold: f64,
    protected: &[u64],
    [m0, m1, m2, m3]: [f64; 4],
    answer: &mut f64,
) -> u64 {
    // SAFETY: pointer and length are those of one slice.
    unsafe {
        mom_chi2_density_merger(
            parent_depth,
            parent_hash,
            depth_threshold,
            chi2_threshold,
            protected.as_ptr(),
            protected.len(),
            m0,
            m1,
            m2,
            m3,
            answer,
        )
    }
}

pub fn check_is_mom(depth: u8, zuniqs: &[u64]) -> u64 {
    // SAFETY: pointer and length are those of one slice.
    unsafe { mom_check_is_mom_zuniqs(depth, zuniqs.as_ptr(), zuniqs.len()) }
}

pub fn get_cell_containing(depth: u8, zuniqs: &[u64], zuniq: u64) -> u64 {
    // SAFETY: pointer and length are those of one slice.
    unsafe { mom_get_cell_containing_zuniqs(depth, zuniqs.as_ptr(), zuniqs.len(), zuniq) }
}

pub fn get_overlapped_cells(zuniqs: &[u64], zuniq: u64, number: &mut usize) -> u64 {
    // SAFETY: pointer and length are those of one slice.
    unsafe { mom_get_overlapped_cells_zuniqs(zuniqs.as_ptr(), zuniqs.len(), zuniq, number) }
}

#[allow(clippy::too_many_arguments)]
pub fn add_counts(
    depth: u8,
    depth_threshold: u8,
    chi2_threshold: f64,
    protected: &[u64],
    held: usize,
    zuniqs: &mut [u64],
    counts: &mut [u32],
    hashes: &[u64],
    batch: &[u32],
    total: &mut u32,
) -> u64 {
    // SAFETY: each pointer and the length after it are those of one slice, and no two of the slices
    // overlap where one is written, two of them being lent alone.
    unsafe {
        mom_add_counts(
            depth,
            depth_threshold,
            chi2_threshold,
            protected.as_ptr(),
            protected.len(),
            held,
            zuniqs.as_mut_ptr(),
            zuniqs.len(),
            counts.as_mut_ptr(),
            counts.len(),
            hashes.as_ptr(),
            hashes.len(),
            batch.as_ptr(),
            batch.len(),
            total,
        )
    }
}

#[allow(clippy::too_many_arguments)]
pub fn add_densities(
    depth: u8,
    depth_threshold: u8,
    chi2_threshold: f64,
    protected: &[u64],
    held: usize,
    zuniqs: &mut [u64],
    densities: &mut [f64],
    hashes: &[u64],
    batch: &[f64],
) -> u64 {
    // SAFETY: as for counts.
    unsafe {
        mom_add_densities(
            depth,
            depth_threshold,
            chi2_threshold,
            protected.as_ptr(),
            protected.len(),
            held,
            zuniqs.as_mut_ptr(),
            zuniqs.len(),
            densities.as_mut_ptr(),
            densities.len(),
            hashes.as_ptr(),
            hashes.len(),
            batch.as_ptr(),
            batch.len(),
        )
    }
}

/// The high byte of a word that says "there is none".
const NONE: u8 = 65;
/// The high byte of a word that says "the four children are kept".
const KEPT: u8 = 66;
/// The high bytes of words that say what is wrong with a map.
const NOT_A_ZUNIQ: u8 = 67;
const TOO_DEEP: u8 = 68;
const NOT_ABOVE: u8 = 69;
const OVERLAPPING: u8 = 70;

/// What a word says: an answer, that there is none, that four are kept, that a map is faulty, or a
/// refusal.
#[derive(Debug, PartialEq)]
enum Answer {
    Accepted(u64),
    None,
    Kept,
    Faulty(u64, Fault),
    Refused(Refusal),
}

fn unpack(word: u64) -> Answer {
    let number = (word >> 56) as u8;
    let place = word & (u64::MAX >> 8);
    match number {
        0 => Answer::Accepted(place),
        NONE => Answer::None,
        KEPT => Answer::Kept,
        NOT_A_ZUNIQ => Answer::Faulty(place, Fault::NotAZuniq),
        TOO_DEEP => Answer::Faulty(place, Fault::TooDeep),
        NOT_ABOVE => Answer::Faulty(place, Fault::NotAbove),
        OVERLAPPING => Answer::Faulty(place, Fault::Overlapping),
        _ => match Refusal::of(number, place as usize) {
            Some(refusal) => Answer::Refused(refusal),
            None => unknown(word),
        },
    }
}

/// The answer of a call that always has one, unless it refuses.
pub fn accepted(word: u64) -> Result<u64, Refusal> {
    match unpack(word) {
        Answer::Accepted(answer) => Ok(answer),
        Answer::Refused(refusal) => Err(refusal),
        _ => unknown(word),
    }
}

/// The answer of a call that refuses nothing but may have none.
pub fn answered(word: u64) -> Option<u64> {
    match unpack(word) {
        Answer::Accepted(answer) => Some(answer),
        Answer::None => None,
        _ => unknown(word),
    }
}

/// What a merger's call answers for merged children, or none where they are kept.
pub fn merged(word: u64) -> Result<Option<u64>, Refusal> {
    match unpack(word) {
        Answer::Accepted(answer) => Ok(Some(answer)),
        Answer::Kept => Ok(None),
        Answer::Refused(refusal) => Err(refusal),
        _ => unknown(word),
    }
}

/// The answer of a call that may refuse and may have none.
pub fn found(word: u64) -> Result<Option<u64>, Refusal> {
    match unpack(word) {
        Answer::Accepted(answer) => Ok(Some(answer)),
        Answer::None => Ok(None),
        Answer::Refused(refusal) => Err(refusal),
        _ => unknown(word),
    }
}

/// What the map check's call answers.
pub fn checked(word: u64) -> Result<MapCheck, Refusal> {
    match unpack(word) {
        Answer::Accepted(0) => Ok(MapCheck::Valid),
        Answer::Faulty(place, fault) => Ok(MapCheck::Faulty {
            place: place as usize,
            fault,
        }),
        Answer::Refused(refusal) => Err(refusal),
        _ => unknown(word),
    }
}

/// Only an archive of another version gets here.
fn unknown(word: u64) -> ! {
    panic!("libmom_c.a answered {word:#018x}, which mom.h doesn't allow for this call")
}

#[cfg(test)]
mod tests {
    use super::*;

    /// Numbers that no call below would write, so that a write shows.
    const UNTOUCHED: u64 = 0xdead_beef_0bad_cafe;
    const UNTOUCHED_DEPTH: u8 = 0xa5;
    const UNTOUCHED_F64: f64 = 123456.789;

    fn refused(number: u8, place: u64) -> u64 {
        (number as u64) << 56 | place
    }

    /// (0, 0) and (0, 1), then (0, 0) again.
    const NOT_RISING: &[u64] = &[1 << 58, 3 << 58, 1 << 58];

    /// The word of the count merger, and what stands behind its pointer after it.
    fn count_merger_under(
        protected: &[u64],
        (p, h): (u8, u64),
        m: u8,
        t: f64,
        counts: [u32; 4],
    ) -> (u64, f64) {
        let mut chi2 = UNTOUCHED_F64;
        let word = chi2_count_merger(p, h, m, t, protected, counts, &mut chi2);
        (word, chi2)
    }

    /// That of the first cell of a depth, and no protected parent.
    fn count_merger(p: u8, m: u8, t: f64, counts: [u32; 4]) -> (u64, f64) {
        count_merger_under(&[], (p, 0), m, t, counts)
    }

    /// The same of the density merger.
    fn density_merger_under(
        protected: &[u64],
        (p, h): (u8, u64),
        m: u8,
        t: f64,
        densities: [f64; 4],
    ) -> (u64, f64) {
        let mut answer = UNTOUCHED_F64;
        let word = chi2_density_merger(p, h, m, t, protected, densities, &mut answer);
        (word, answer)
    }

    fn density_merger(p: u8, m: u8, t: f64, densities: [f64; 4]) -> (u64, f64) {
        density_merger_under(&[], (p, 0), m, t, densities)
    }

    #[test]
    fn a_refused_n_hash_writes_nothing() {
        for depth in 30..=255 {
            let mut n_hash = UNTOUCHED;
            assert_eq!(mom_n_hash(depth, &mut n_hash), refused(1, 0));
            assert_eq!(n_hash, UNTOUCHED);
        }
    }

    #[test]
    fn a_refused_to_zuniq_writes_nothing() {
        let cells = [
            (30, 0, 1),
            (255, u64::MAX, 1),
            (0, 12, 7),
            (29, u64::MAX, 7),
        ];
        for (depth, hash, number) in cells {
            let mut zuniq = UNTOUCHED;
            assert_eq!(
                mom_to_zuniq(depth, hash, &mut zuniq),
                refused(number, 0),
                "({depth}, {hash})"
            );
            assert_eq!(zuniq, UNTOUCHED);
        }
    }

    #[test]
    fn no_cell_writes_no_depth_and_no_hash() {
        for zuniq in [0, 2, 1 << 60, 6917529027641081857, u64::MAX] {
            let (mut depth, mut hash) = (UNTOUCHED_DEPTH, UNTOUCHED);
            assert_eq!(
                mom_from_zuniq(zuniq, &mut depth, &mut hash),
                refused(NONE, 0),
                "{zuniq}"
            );
            assert_eq!((depth, hash), (UNTOUCHED_DEPTH, UNTOUCHED));
        }
    }

    #[test]
    fn an_accepted_call_writes_all_it_promises_and_answers_zero() {
        let (mut n_hash, mut zuniq, mut depth, mut hash) =
            (UNTOUCHED, UNTOUCHED, UNTOUCHED_DEPTH, UNTOUCHED);
        assert_eq!(mom_n_hash(0, &mut n_hash), 0);
        assert_eq!(mom_to_zuniq(29, 0, &mut zuniq), 0);
        assert_eq!(mom_from_zuniq(1, &mut depth, &mut hash), 0);
        assert_eq!((n_hash, zuniq, depth, hash), (12, 1, 29, 0));
    }

    #[test]
    fn the_overlap_test_answers_one_or_zero_and_no_other_true_value() {
        assert_eq!(mom_are_overlapping(1, 1), 1);
        assert_eq!(mom_are_overlapping(1, 3), 0);
        assert_eq!(mom_are_overlapping(0, 0), refused(12, 0));
        assert_eq!(mom_are_overlapping(1, 0), refused(12, 1));
    }

    #[test]
    fn a_refused_count_merger_writes_nothing() {
        let (nan, past) = (f64::NAN, 12 << 56);
        let calls = [
            ((29, 0), 0, 1.0, &[][..], [0; 4], 1, 0),
            ((255, past), 255, nan, NOT_RISING, [u32::MAX; 4], 1, 0),
            ((28, 0), 30, 1.0, &[], [0; 4], 2, 0),
            ((0, past), 255, nan, NOT_RISING, [u32::MAX; 4], 2, 0),
            ((28, 0), 29, nan, &[], [0; 4], 3, 0),
            ((0, past), 0, -nan, NOT_RISING, [u32::MAX; 4], 3, 0),
            ((0, 0), 0, 1.0, &[0], [0; 4], 15, 0),
            ((28, past), 0, 1.0, NOT_RISING, [u32::MAX; 4], 15, 2),
            ((0, 12), 0, 1.0, &[1 << 58], [0; 4], 7, 0),
            ((28, past), 0, 1.0, &[], [u32::MAX; 4], 7, 0),
            ((0, 0), 0, f64::INFINITY, &[], [u32::MAX, 1, 0, 0], 10, 0),
            ((28, past - 1), 29, -1.0, &[1 << 58], [u32::MAX; 4], 10, 0),
        ];
        for (parent, m, t, protected, counts, number, place) in calls {
            assert_eq!(
                count_merger_under(protected, parent, m, t, counts),
                (refused(number, place), UNTOUCHED_F64),
                "{parent:?} {m} {t} {protected:?} {counts:?}"
            );
        }
    }

    #[test]
    fn a_refused_density_merger_writes_nothing() {
        let (nan, past) = (f64::NAN, 12 << 56);
        let calls = [
            ((29, 0), 0, 1.0, &[][..], [0.0; 4], 1, 0),
            ((255, past), 255, nan, NOT_RISING, [nan; 4], 1, 0),
            ((28, 0), 30, 1.0, &[], [0.0; 4], 2, 0),
            ((0, past), 255, nan, NOT_RISING, [nan; 4], 2, 0),
            ((28, 0), 29, nan, &[], [0.0; 4], 3, 0),
            ((0, past), 0, -nan, NOT_RISING, [nan; 4], 3, 0),
            ((0, 0), 0, 1.0, &[0], [0.0; 4], 15, 0),
            ((28, past), 0, 1.0, NOT_RISING, [nan; 4], 15, 2),
            ((0, 12), 0, 1.0, &[1 << 58], [0.0; 4], 7, 0),
            ((28, past), 0, 1.0, &[], [nan; 4], 7, 0),
            ((0, 0), 0, 1.0, &[], [-5e-324, 0.0, 0.0, 0.0], 9, 0),
            ((0, 0), 0, 1.0, &[], [0.0, f64::INFINITY, 0.0, -1.0], 9, 1),
            ((28, past - 1), 0, 1.0, &[], [0.0, -0.0, nan, -1.0], 9, 2),
            ((0, 0), 29, -1.0, &[1 << 58], [0.0, 1.0, 2.0, -1.0], 9, 3),
        ];
        for (parent, m, t, protected, densities, number, place) in calls {
            assert_eq!(
                density_merger_under(protected, parent, m, t, densities),
                (refused(number, place), UNTOUCHED_F64),
                "{parent:?} {m} {t} {protected:?} {densities:?}"
            );
        }
    }

    #[test]
    fn merged_counts_write_no_chi_and_kept_ones_answer_no_count() {
        let counts = [1, 2, 4, 4];
        assert_eq!(count_merger(0, 0, 3.5, counts), (11, UNTOUCHED_F64));
        assert_eq!(count_merger(0, 0, 3.0, counts), (refused(KEPT, 0), 3.0));
        assert_eq!(count_merger(0, 1, 3.5, counts), (refused(KEPT, 0), 3.0));
        let largest = [u32::MAX, 0, 0, 0];
        let word = u32::MAX as u64;
        assert_eq!(
            count_merger(28, 28, f64::INFINITY, largest),
            (word, UNTOUCHED_F64)
        );
    }

    /// The word of four blanks that are merged is that of a count of 0, and of nothing else.
    #[test]
    fn merged_blanks_answer_0_and_write_no_chi() {
        for t in [0.0, -0.0, -1.0, f64::NEG_INFINITY, f64::INFINITY] {
            assert_eq!(count_merger(0, 0, t, [0; 4]), (0, UNTOUCHED_F64));
            assert_eq!(count_merger(28, 28, t, [0; 4]), (0, UNTOUCHED_F64));
            let (word, chi) = count_merger(0, 1, t, [0; 4]);
            assert_eq!((word, chi.to_bits()), (refused(KEPT, 0), 0));
        }
        let word = count_merger(0, 0, f64::NAN, [0; 4]);
        assert_eq!(word, (refused(3, 0), UNTOUCHED_F64));
    }

    #[test]
    fn merged_and_kept_densities_are_told_apart_by_the_word_alone() {
        let densities = [16.0; 4];
        assert_eq!(density_merger(0, 0, 3.5, densities), (0, 16.0));
        assert_eq!(
            density_merger(0, 0, 0.0, densities),
            (refused(KEPT, 0), 0.0)
        );
        assert_eq!(
            density_merger(0, 1, 3.5, densities),
            (refused(KEPT, 0), 0.0)
        );
    }

    /// Under a protected parent chi is written where four would be merged, that of blanks too, which is +0.
    #[test]
    fn protected_children_write_their_chi_and_blanks_0() {
        let (list, parent) = (&[1 << 58], (0, 0));
        let counts = count_merger_under(list, parent, 0, 3.5, [1, 2, 4, 4]);
        assert_eq!(counts, (refused(KEPT, 0), 3.0));
        for t in [0.0, -1.0, f64::NEG_INFINITY, 3.5, f64::INFINITY] {
            let (word, chi) = count_merger_under(list, parent, 0, t, [0; 4]);
            assert_eq!((word, chi.to_bits()), (refused(KEPT, 0), 0), "{t}");
            let beside = count_merger_under(list, (0, 1), 0, t, [0; 4]);
            assert_eq!(beside, (0, UNTOUCHED_F64), "{t}");
        }
        let densities = density_merger_under(list, parent, 0, 3.5, [16.0; 4]);
        assert_eq!(densities, (refused(KEPT, 0), 0.0));
    }

    #[test]
    fn a_refused_run_writes_no_number_and_an_empty_one_writes_0() {
        let map = [1, 3];
        for (zuniq, answer) in [
            (0, (refused(12, 0), 77)),
            (1 << 60, (refused(12, 0), 77)),
            (5, (0, 0)),
            (3, (1, 1)),
            (1 << 58, (0, 2)),
        ] {
            let mut number = 77;
            let word = get_overlapped_cells(&map, zuniq, &mut number);
            assert_eq!((word, number), answer, "{zuniq}");
        }
    }

    /// The protected parents of a call that is refused by this number: wrong ones, unless they would be
    /// refused before it.
    fn list_of(number: u8) -> &'static [u64] {
        match number {
            1 | 2 | 3 | 15 => NOT_RISING,
            _ => &[],
        }
    }

    #[test]
    fn refused_counts_write_nothing() {
        let (mut zuniqs, mut counts, mut total) = ([1, 3, 7, 9], [1, u32::MAX - 9, 7, 9], 77);
        let (before, nan) = ((zuniqs, counts), f64::NAN);
        let (deep, hash) = (29, 4u64);
        for (depth, m, t, held, hashes, batch, number, place) in [
            (30, 30, nan, 5, &[hash][..], &[1][..], 1, 0),
            (0, 30, nan, 5, &[12], &[1], 2, 0),
            (deep, 30, nan, 5, &[hash], &[1], 2, 0),
            (deep, 29, nan, 5, &[hash], &[1], 3, 0),
            (deep, 29, 1.0, 5, &[hash], &[1], 15, 2),
            (deep, 29, 1.0, 5, &[hash], &[1], 4, 0),
            (deep, 29, 1.0, 2, &[hash], &[], 4, 0),
            (28, 0, 1.0, 2, &[0], &[1], 5, 0),
            (0, 0, 1.0, 2, &[0], &[1], 5, 0),
            (0, 0, 1.0, 0, &[11, 12], &[1, 1], 7, 1),
            (deep, 0, 1.0, 2, &[hash, 12 << 58], &[1, 1], 7, 1),
            (deep, 0, 1.0, 2, &[1, 12 << 58], &[1, 1], 8, 0),
            (deep, 0, 1.0, 2, &[hash, hash], &[1, 1], 8, 1),
            (deep, 0, 1.0, 2, &[2, 3, hash], &[8, 1, 1], 10, 1),
            (deep, 0, 1.0, 4, &[hash + 9], &[0], 10, 0),
            (deep, 0, 1.0, 2, &[2, 3, hash], &[8, 0, 0], 11, 0),
        ] {
            let (z, c) = (&mut zuniqs, &mut counts);
            let list = list_of(number);
            let word = add_counts(depth, m, t, list, held, z, c, hashes, batch, &mut total);
            assert_eq!(word, refused(number, place), "{hashes:?} {batch:?}");
            assert_eq!(((zuniqs, counts), total), (before, 77));
        }
    }

    #[test]
    fn refused_densities_write_nothing() {
        let held = [1.0, -0.0, -1.0, f64::NAN];
        let (mut zuniqs, mut densities) = ([1, 3, 7, 9], held);
        let before = (zuniqs, held.map(f64::to_bits));
        let (deep, hash, past, nan) = (29, 5u64, 12 << 58, f64::NAN);
        for (depth, m, t, held, hashes, batch, number, place) in [
            (30, 30, nan, 5, &[hash][..], &[1.0][..], 1, 0),
            (0, 30, nan, 5, &[12], &[1.0], 2, 0),
            (deep, 30, nan, 5, &[hash], &[1.0], 2, 0),
            (deep, 29, nan, 5, &[hash], &[1.0], 3, 0),
            (deep, 29, 1.0, 5, &[hash], &[1.0], 15, 2),
            (deep, 29, 1.0, 5, &[hash], &[1.0], 4, 0),
            (deep, 29, 1.0, 2, &[hash], &[], 4, 0),
            (28, 0, 1.0, 4, &[0], &[nan], 5, 0),
            (0, 0, 1.0, 4, &[0], &[nan], 5, 0),
            (0, 0, 1.0, 0, &[11, 12], &[1.0, nan], 7, 1),
            (deep, 0, 1.0, 3, &[past], &[nan], 6, 2),
            (deep, 0, 1.0, 2, &[hash, past], &[1.0, nan], 7, 1),
            (deep, 0, 1.0, 2, &[1, past], &[nan, 1.0], 8, 0),
            (deep, 0, 1.0, 2, &[hash, hash], &[1.0, nan], 8, 1),
            (deep, 0, 1.0, 2, &[hash, past], &[nan, 1.0], 9, 0),
            (deep, 0, 1.0, 2, &[3, 4, hash], &[0.0, -0.0, -5e-324], 9, 2),
            (deep, 0, 1.0, 2, &[3, 4, hash], &[0.0, -0.0, 0.0], 11, 0),
        ] {
            let (z, d) = (&mut zuniqs, &mut densities);
            let list = list_of(number);
            let word = add_densities(depth, m, t, list, held, z, d, hashes, batch);
            assert_eq!(word, refused(number, place), "{hashes:?} {batch:?}");
            assert_eq!((zuniqs, densities.map(f64::to_bits)), before);
        }
    }

    #[test]
    fn no_part_of_a_word_is_lost() {
        let widest = u64::MAX >> 8;
        assert_eq!(unpack(widest), Answer::Accepted(widest));
        for (word, refusal) in [
            (refused(1, 0), Refusal::DepthOutOfRange),
            (refused(5, widest), Refusal::InvalidMap(widest as usize)),
            (refused(12, widest), Refusal::InvalidQuery(widest as usize)),
            (refused(13, widest), Refusal::EntryTooDeep(widest as usize)),
            (refused(14, widest), Refusal::InvalidRange(widest as usize)),
            (
                refused(15, widest),
                Refusal::InvalidProtected(widest as usize),
            ),
        ] {
            assert_eq!(unpack(word), Answer::Refused(refusal));
        }
        assert_eq!(unpack(refused(NONE, 0)), Answer::None);
        assert_eq!(unpack(refused(KEPT, 0)), Answer::Kept);
        for (code, fault) in [
            (67, Fault::NotAZuniq),
            (68, Fault::TooDeep),
            (69, Fault::NotAbove),
            (70, Fault::Overlapping),
        ] {
            assert_eq!(unpack(refused(code, widest)), Answer::Faulty(widest, fault));
            let place = widest as usize;
            let faulty = MapCheck::Faulty { place, fault };
            assert_eq!(checked(refused(code, widest)), Ok(faulty));
        }
        assert_eq!(found(refused(NONE, 0)), Ok(None));
        assert_eq!(merged(widest), Ok(Some(widest)));
        assert_eq!(merged(refused(KEPT, 0)), Ok(None));
    }

    #[test]
    #[should_panic(expected = "mom.h doesn't allow")]
    fn an_unknown_code_is_not_taken_for_an_answer() {
        unpack(refused(71, 0));
    }

    #[test]
    #[should_panic(expected = "mom.h doesn't allow")]
    fn an_unknown_number_is_not_taken_for_a_refusal() {
        unpack(refused(17, 0));
    }

    #[test]
    #[should_panic(expected = "mom.h doesn't allow")]
    fn that_there_is_none_is_not_taken_for_kept() {
        let _ = merged(refused(NONE, 0));
    }
}
