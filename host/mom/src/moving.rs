//! Moving count maps between the widths: from u64 zuniqs to u32 ones and back. Each entry keeps its
//! cell and its count, and what was narrowed and is widened again has its entries back.
//!
//! ```
//! use mom::moving::{narrow, widen, Moved};
//!
//! let (zuniqs, counts) = ([mom::to_zuniq(1, 0)?, mom::to_zuniq(13, 99999999)?], [10, 3]);
//! let (mut z, mut n) = ([0; 2], [0; 2]);
//! let moved = narrow(20, &zuniqs, &counts, &mut z, &mut n)?;
//! assert_eq!(moved, Moved { depth: 13, entries: 2 });
//! assert_eq!(mom::narrow::from_zuniq(z[1]), Some((13, 99999999)));
//!
//! let (mut back, mut m) = ([0; 2], [0; 2]);
//! assert_eq!(widen(13, &z, &n, &mut back, &mut m)?, moved);
//! assert_eq!((back, m), (zuniqs, counts));
//! # Ok::<(), mom::Refusal>(())
//! ```

use crate::{raw, Refusal};

/// What an accepted moving call leaves in its output: a map of this depth, and so many entries.
#[derive(Clone, Copy, Debug, PartialEq, Eq, Hash)]
pub struct Moved {
    pub depth: u8,
    pub entries: usize,
}

// SAFETY: the signatures are those of mom.h. The functions are proved to be safe and to end for
// all arguments, to reach no memory but what is lent to them, and to keep none of it.
unsafe extern "C" {
    fn mom_narrow(
        depth: u8,
        zuniqs: *const u64,
        zl: usize,
        counts: *const u32,
        cl: usize,
        out_zuniqs: *mut u32,
        ozl: usize,
        out_counts: *mut u32,
        ocl: usize,
        out_depth: &mut u8,
    ) -> u64;
    fn mom_widen(
        depth: u8,
        zuniqs: *const u32,
        zl: usize,
        counts: *const u32,
        cl: usize,
        out_zuniqs: *mut u64,
        ozl: usize,
        out_counts: *mut u32,
        ocl: usize,
        out_depth: &mut u8,
    ) -> u64;
}

/// The word of the narrowing call.
fn narrow_word(
    depth: u8,
    zuniqs: &[u64],
    counts: &[u32],
    out_zuniqs: &mut [u32],
    out_counts: &mut [u32],
    out_depth: &mut u8,
) -> u64 {
    // SAFETY: each pointer and the length after it are those of one slice. What is written is lent
    // alone.
    unsafe {
        mom_narrow(
            depth,
            zuniqs.as_ptr(),
            zuniqs.len(),
            counts.as_ptr(),
            counts.len(),
            out_zuniqs.as_mut_ptr(),
            out_zuniqs.len(),
            out_counts.as_mut_ptr(),
            out_counts.len(),
            out_depth,
        )
    }
}

/// The word of the widening call.
fn widen_word(
    depth: u8,
    zuniqs: &[u32],
    counts: &[u32],
    out_zuniqs: &mut [u64],
    out_counts: &mut [u32],
    out_depth: &mut u8,
) -> u64 {
    // SAFETY: as for narrowing.
    unsafe {
        mom_widen(
            depth,
            zuniqs.as_ptr(),
            zuniqs.len(),
            counts.as_ptr(),
            counts.len(),
            out_zuniqs.as_mut_ptr(),
            out_zuniqs.len(),
            out_counts.as_mut_ptr(),
            out_counts.len(),
            out_depth,
        )
    }
}

/// Moves a count map of that depth into `out_zuniqs` and `out_counts`, which may hold anything. The
/// narrow map's depth is the smaller of `depth` and 13. Every place after the entries is 0. A refused
/// call leaves both buffers as they were.
///
/// Refused by 1: the depth is over 29; then by 4: zuniqs and counts differ in number, or the two
/// output buffers in length; then by 5: the map is not valid, the place is its first faulty entry;
/// then by 13: an entry is deeper than 13, the place is the first such entry; then by 11: the output
/// has fewer places than there are entries.
pub fn narrow(
    depth: u8,
    zuniqs: &[u64],
    counts: &[u32],
    out_zuniqs: &mut [u32],
    out_counts: &mut [u32],
) -> Result<Moved, Refusal> {
    let mut out_depth = 0;
    let word = narrow_word(
        depth,
        zuniqs,
        counts,
        out_zuniqs,
        out_counts,
        &mut out_depth,
    );
    moved(word, out_depth)
}

/// Moves a narrow count map of that depth into `out_zuniqs` and `out_counts`, which may hold
/// anything. The widened map has the same depth. Every place after the entries is 0. A refused call
/// leaves both buffers as they were.
///
/// Refused by 1: the depth is over 13; then by 4, 5 and 11 as [`narrow`] is.
pub fn widen(
    depth: u8,
    zuniqs: &[u32],
    counts: &[u32],
    out_zuniqs: &mut [u64],
    out_counts: &mut [u32],
) -> Result<Moved, Refusal> {
    let mut out_depth = 0;
    let word = widen_word(
        depth,
        zuniqs,
        counts,
        out_zuniqs,
        out_counts,
        &mut out_depth,
    );
    moved(word, out_depth)
}

fn moved(word: u64, depth: u8) -> Result<Moved, Refusal> {
    let entries = raw::accepted(word)? as usize;
    Ok(Moved { depth, entries })
}

#[cfg(test)]
mod tests {
    use super::*;

    #[test]
    fn a_refused_call_writes_nothing() {
        // (0, 0) and (14, 4^14), (0, 0) twice.
        let (deep, twice) = ([1 << 58, (2 << 58) + (1 << 30)], [1 << 58; 2]);
        for (depth, zuniqs, counts, number, place) in [
            (30, &twice[..], &[1][..], 1, 0),
            (29, &twice, &[1], 4, 0),
            (29, &twice, &[1, 1], 5, 1),
            (29, &deep, &[1, 1], 13, 1),
            (29, &[1, 3], &[1, 1], 13, 0),
            (13, &deep, &[1, 1], 5, 1),
            (0, &deep[..1], &[1], 11, 0),
        ] {
            let places = if number == 11 { 0 } else { 1 };
            let (mut z, mut n, mut out_depth) = ([7], [7], 77);
            let (oz, on) = (&mut z[..places], &mut n[..places]);
            let word = narrow_word(depth, zuniqs, counts, oz, on, &mut out_depth);
            assert_eq!(word, number << 56 | place, "{depth} {zuniqs:?}");
            assert_eq!((z, n, out_depth), ([7], [7], 77));
        }
        let map = [1 << 26; 2];
        for (depth, zuniqs, counts, number, place) in [
            (14, &map[..], &[1][..], 1, 0),
            (13, &map, &[1], 4, 0),
            (13, &map, &[1, 1], 5, 1),
            (0, &map[..1], &[1], 11, 0),
        ] {
            let places = if number == 11 { 0 } else { 1 };
            let (mut z, mut n, mut out_depth) = ([7], [7], 77);
            let (oz, on) = (&mut z[..places], &mut n[..places]);
            let word = widen_word(depth, zuniqs, counts, oz, on, &mut out_depth);
            assert_eq!(word, number << 56 | place, "{depth} {zuniqs:?}");
            assert_eq!((z, n, out_depth), ([7], [7], 77));
        }
    }

    #[test]
    fn an_accepted_call_writes_the_depth_and_clears_what_is_left() {
        let (mut z, mut n, mut out_depth) = ([7; 2], [7; 2], 77);
        let word = narrow_word(29, &[1 << 58], &[3], &mut z, &mut n, &mut out_depth);
        assert_eq!((word, out_depth), (1, 13));
        assert_eq!((z, n), ([1 << 26, 0], [3, 0]));

        let (mut wide, mut n, mut out_depth) = ([7; 2], [7; 2], 77);
        let word = widen_word(5, &z[..1], &[3], &mut wide, &mut n, &mut out_depth);
        assert_eq!((word, out_depth), (1, 5));
        assert_eq!((wide, n), ([1 << 58, 0], [3, 0]));
    }
}
