//! Combining two maps into an output: the scope's section 5, and asking for a pool before it is done.

use crate::{raw, Added, Refusal};

/// A map as it is lent to a call: the zuniqs of its entries and their values. What isn't valid is
/// refused.
#[derive(Clone, Copy, Debug)]
pub struct Map<'a, V> {
    pub depth: u8,
    pub zuniqs: &'a [u64],
    pub values: &'a [V],
}

/// What a pool costs and comes to: what [`ask`] answers and [`commit`] takes.
#[derive(Clone, Copy, Debug, PartialEq, Eq)]
pub struct Figures {
    /// The cells before merging: the places that the output has to have.
    pub cells: usize,
    /// The entries after merging.
    pub entries: usize,
    /// The sum of their counts.
    pub total: u32,
}

// SAFETY: the signatures are those of mom.h. The functions are proved to be safe and to end for
// all arguments, to reach no memory but what is lent to them, and to keep none of it.
unsafe extern "C" {
    fn mom_pool(
        left_depth: u8,
        left_zuniqs: *const u64,
        lzl: usize,
        left_counts: *const u32,
        lcl: usize,
        right_depth: u8,
        right_zuniqs: *const u64,
        rzl: usize,
        right_counts: *const u32,
        rcl: usize,
        depth_threshold: u8,
        chi2_threshold: f64,
        protected_parents: *const u64,
        pl: usize,
        zuniqs: *mut u64,
        zl: usize,
        counts: *mut u32,
        cl: usize,
        total: &mut u32,
    ) -> u64;
    fn mom_ask(
        left_depth: u8,
        left_zuniqs: *const u64,
        lzl: usize,
        left_counts: *const u32,
        lcl: usize,
        right_depth: u8,
        right_zuniqs: *const u64,
        rzl: usize,
        right_counts: *const u32,
        rcl: usize,
        depth_threshold: u8,
        chi2_threshold: f64,
        protected_parents: *const u64,
        pl: usize,
        cells: &mut usize,
        entries: &mut usize,
        total: &mut u32,
    ) -> u64;
    fn mom_commit(
        left_depth: u8,
        left_zuniqs: *const u64,
        lzl: usize,
        left_counts: *const u32,
        lcl: usize,
        right_depth: u8,
        right_zuniqs: *const u64,
        rzl: usize,
        right_counts: *const u32,
        rcl: usize,
        depth_threshold: u8,
        chi2_threshold: f64,
        protected_parents: *const u64,
        pl: usize,
        cells: usize,
        entries: usize,
        asked_total: u32,
        zuniqs: *mut u64,
        zl: usize,
        counts: *mut u32,
        cl: usize,
        total: &mut u32,
    ) -> u64;
    fn mom_product(
        left_depth: u8,
        left_zuniqs: *const u64,
        lzl: usize,
        left_densities: *const f64,
        ldl: usize,
        right_depth: u8,
        right_zuniqs: *const u64,
        rzl: usize,
        right_densities: *const f64,
        rdl: usize,
        depth_threshold: u8,
        chi2_threshold: f64,
        k: f64,
        protected_parents: *const u64,
        pl: usize,
        zuniqs: *mut u64,
        zl: usize,
        densities: *mut f64,
        dl: usize,
    ) -> u64;
}

/// The word of the pool's call.
#[allow(clippy::too_many_arguments)]
fn pool_word(
    left: Map<u32>,
    right: Map<u32>,
    depth_threshold: u8,
    chi2_threshold: f64,
    protected: &[u64],
    zuniqs: &mut [u64],
    counts: &mut [u32],
    total: &mut u32,
) -> u64 {
    // SAFETY: each pointer and the length after it are those of one slice. What is written is lent
    // alone; what is only read may be lent twice.
    unsafe {
        mom_pool(
            left.depth,
            left.zuniqs.as_ptr(),
            left.zuniqs.len(),
            left.values.as_ptr(),
            left.values.len(),
            right.depth,
            right.zuniqs.as_ptr(),
            right.zuniqs.len(),
            right.values.as_ptr(),
            right.values.len(),
            depth_threshold,
            chi2_threshold,
            protected.as_ptr(),
            protected.len(),
            zuniqs.as_mut_ptr(),
            zuniqs.len(),
            counts.as_mut_ptr(),
            counts.len(),
            total,
        )
    }
}

/// Pools two count maps into `zuniqs` and `counts`, which may hold anything. A cell that one map has
/// keeps its count, a cell that both have gets the sum. Where an entry of one map has entries of the
/// other in it, it is split: each of the four children gets a quarter of its count, and what is left over
/// goes to them one each, from child h mod 4 on, h being the hash of the cell that is split, and after
/// child 3 from child 0 on; so on, level by level. What comes out is merged under the two thresholds, as
/// [`crate::add_counts`] merges: children of a parent in `protected` never, and other blank sky at any
/// chi-square threshold. Every place after the entries is 0. A refused call leaves both buffers as they were.
///
/// Refused by 1: a map's depth is over 29; then by 2: the depth threshold is over 29; then by 3: the
/// chi-square threshold is a NaN; then by 15: a protected parent is not a valid zuniq, or not above the
/// one before, the place is its index; then by 4: the zuniqs and counts of a map, or of the output,
/// differ in length; then by 5: a map is not valid, the place is its first faulty entry, and the left map
/// goes before the right one; then by 10: all counts together are no u32; then by 11: the output has
/// fewer places than there are cells before merging.
pub fn pool(
    left: Map<u32>,
    right: Map<u32>,
    depth_threshold: u8,
    chi2_threshold: f64,
    protected: &[u64],
    zuniqs: &mut [u64],
    counts: &mut [u32],
) -> Result<Added, Refusal> {
    let mut total = 0;
    let word = pool_word(
        left,
        right,
        depth_threshold,
        chi2_threshold,
        protected,
        zuniqs,
        counts,
        &mut total,
    );
    let entries = raw::accepted(word)? as usize;
    Ok(Added { entries, total })
}

/// The word of asking for a pool.
fn ask_word(
    left: Map<u32>,
    right: Map<u32>,
    depth_threshold: u8,
    chi2_threshold: f64,
    protected: &[u64],
    figures: &mut Figures,
) -> u64 {
    // SAFETY: as for the pool. Each figure is a number of its own.
    unsafe {
        mom_ask(
            left.depth,
            left.zuniqs.as_ptr(),
            left.zuniqs.len(),
            left.values.as_ptr(),
            left.values.len(),
            right.depth,
            right.zuniqs.as_ptr(),
            right.zuniqs.len(),
            right.values.as_ptr(),
            right.values.len(),
            depth_threshold,
            chi2_threshold,
            protected.as_ptr(),
            protected.len(),
            &mut figures.cells,
            &mut figures.entries,
            &mut figures.total,
        )
    }
}

/// What [`pool`] would cost and come to, before any buffer is given up for it: the number of cells before
/// merging, the number of entries after it, and their total. Nothing is written.
///
/// Refused by 1, 2, 3, 15, 4, 5 and 10 as [`pool`] is; there is no output whose lengths could differ or
/// whose places could be too few.
pub fn ask(
    left: Map<u32>,
    right: Map<u32>,
    depth_threshold: u8,
    chi2_threshold: f64,
    protected: &[u64],
) -> Result<Figures, Refusal> {
    let mut figures = Figures {
        cells: 0,
        entries: 0,
        total: 0,
    };
    raw::accepted(ask_word(
        left,
        right,
        depth_threshold,
        chi2_threshold,
        protected,
        &mut figures,
    ))?;
    Ok(figures)
}

/// The word of committing what was asked for.
#[allow(clippy::too_many_arguments)]
fn commit_word(
    left: Map<u32>,
    right: Map<u32>,
    depth_threshold: u8,
    chi2_threshold: f64,
    protected: &[u64],
    figures: Figures,
    zuniqs: &mut [u64],
    counts: &mut [u32],
    total: &mut u32,
) -> u64 {
    // SAFETY: as for the pool.
    unsafe {
        mom_commit(
            left.depth,
            left.zuniqs.as_ptr(),
            left.zuniqs.len(),
            left.values.as_ptr(),
            left.values.len(),
            right.depth,
            right.zuniqs.as_ptr(),
            right.zuniqs.len(),
            right.values.as_ptr(),
            right.values.len(),
            depth_threshold,
            chi2_threshold,
            protected.as_ptr(),
            protected.len(),
            figures.cells,
            figures.entries,
            figures.total,
            zuniqs.as_mut_ptr(),
            zuniqs.len(),
            counts.as_mut_ptr(),
            counts.len(),
            total,
        )
    }
}

/// Pools as [`pool`] does, where the figures are those that [`ask`] answers for the same maps, thresholds
/// and protected parents. They are worked out anew, so that inputs which have other figures by now are
/// noticed. Into buffers of equal length [`pool`] is an ask followed by its commit, in its refusals too. A
/// refused call leaves both buffers as they were.
///
/// Refused by 1, 2, 3, 15, 4, 5 and 10 as [`pool`] is; then by 16: a figure is not the one that [`ask`]
/// would answer; then by 11: the output has fewer places than `figures.cells`.
#[allow(clippy::too_many_arguments)]
pub fn commit(
    left: Map<u32>,
    right: Map<u32>,
    depth_threshold: u8,
    chi2_threshold: f64,
    protected: &[u64],
    figures: Figures,
    zuniqs: &mut [u64],
    counts: &mut [u32],
) -> Result<Added, Refusal> {
    let mut total = 0;
    let word = commit_word(
        left,
        right,
        depth_threshold,
        chi2_threshold,
        protected,
        figures,
        zuniqs,
        counts,
        &mut total,
    );
    let entries = raw::accepted(word)? as usize;
    Ok(Added { entries, total })
}

/// Multiplies two density maps into `zuniqs` and `densities`, which may hold anything. A cell that both
/// maps have gets (`k` × left) × right, a cell that one map has is dropped. Where an entry of one map
/// has entries of the other in it, it is split: a child has its parent's density. What comes out is
/// merged under the two thresholds, but for children of a parent in `protected`. Answers the number of
/// entries; every place after them is 0. A refused call leaves both buffers as they were.
///
/// Refused by 1 and 2 as [`pool`] is; then by 3: the chi-square threshold is a NaN, or `k` is NaN,
/// infinite or below 0 (−0 is none of these); then by 15, 4 and 5 as [`pool`] is; then by 6: a density is
/// NaN, infinite or below 0, the place is its entry, and the left map goes before the right one; then
/// by 10: the product of a cell before merging is not finite; then by 11: the output has fewer places
/// than there are such products.
#[allow(clippy::too_many_arguments)]
pub fn product(
    left: Map<f64>,
    right: Map<f64>,
    depth_threshold: u8,
    chi2_threshold: f64,
    k: f64,
    protected: &[u64],
    zuniqs: &mut [u64],
    densities: &mut [f64],
) -> Result<usize, Refusal> {
    // SAFETY: as for the pool.
    let word = unsafe {
        mom_product(
            left.depth,
            left.zuniqs.as_ptr(),
            left.zuniqs.len(),
            left.values.as_ptr(),
            left.values.len(),
            right.depth,
            right.zuniqs.as_ptr(),
            right.zuniqs.len(),
            right.values.as_ptr(),
            right.values.len(),
            depth_threshold,
            chi2_threshold,
            k,
            protected.as_ptr(),
            protected.len(),
            zuniqs.as_mut_ptr(),
            zuniqs.len(),
            densities.as_mut_ptr(),
            densities.len(),
        )
    };
    Ok(raw::accepted(word)? as usize)
}

#[cfg(test)]
mod tests {
    use super::*;

    fn map(depth: u8) -> Map<'static, u32> {
        Map {
            depth,
            zuniqs: &[1 << 58],
            values: &[u32::MAX],
        }
    }

    fn empty(depth: u8) -> Map<'static, u32> {
        Map {
            depth,
            zuniqs: &[],
            values: &[],
        }
    }

    type Case = (
        Map<'static, u32>,
        Map<'static, u32>,
        u8,
        f64,
        &'static [u64],
        u64,
    );

    const TWICE: &[u64] = &[1 << 58, 1 << 58];

    /// Two maps, M, T and a list, and the word: each refused, with what stands behind it in the table
    /// wrong too.
    fn refused() -> [Case; 6] {
        let nan = f64::NAN;
        [
            (map(30), map(0), 30, nan, TWICE, 1 << 56),
            (map(0), empty(30), 30, nan, TWICE, 1 << 56),
            (map(0), map(0), 30, nan, TWICE, 2 << 56),
            (map(0), map(0), 29, nan, TWICE, 3 << 56),
            (map(0), map(0), 29, 1.0, TWICE, 15 << 56 | 1),
            (map(0), map(0), 29, 1.0, &TWICE[1..], 10 << 56),
        ]
    }

    #[test]
    fn a_refused_pool_writes_nothing() {
        for (left, right, m, t, protected, refusal) in refused() {
            let (mut zuniqs, mut counts, mut total) = ([7, 8], [7, 8], 77);
            let (z, c) = (&mut zuniqs, &mut counts);
            let word = pool_word(left, right, m, t, protected, z, c, &mut total);
            assert_eq!(word, refusal);
            assert_eq!((zuniqs, counts, total), ([7, 8], [7, 8], 77));
        }
        let (mut total, none) = (77, &[]);
        let word = pool_word(map(0), empty(0), 0, 1.0, none, &mut [], &mut [], &mut total);
        assert_eq!((word, total), (11 << 56, 77));
    }

    #[test]
    fn an_accepted_pool_writes_the_total() {
        let map = Map {
            depth: 0,
            zuniqs: &[1 << 58],
            values: &[3],
        };
        let (mut zuniqs, mut counts, mut total) = ([7, 8], [7, 8], 77);
        let (z, c) = (&mut zuniqs, &mut counts);
        let word = pool_word(map, map, 0, 1.0, &[], z, c, &mut total);
        assert_eq!((word, total), (1, 6));
        assert_eq!((zuniqs, counts), ([1 << 58, 0], [6, 0]));
    }

    const OTHERS: Figures = Figures {
        cells: 77,
        entries: 78,
        total: 79,
    };

    #[test]
    fn a_refused_ask_writes_no_figure_and_an_accepted_one_all_three() {
        for (left, right, m, t, protected, refusal) in refused() {
            let mut figures = OTHERS;
            let word = ask_word(left, right, m, t, protected, &mut figures);
            assert_eq!((word, figures), (refusal, OTHERS));
        }
        let one = Map {
            values: &[7],
            ..map(0)
        };
        let quarter = Map {
            depth: 1,
            zuniqs: &[1 << 56],
            values: &[0],
        };
        for (right, cells, entries, total) in [(quarter, 4, 1, 7), (empty(29), 1, 1, 7)] {
            let mut figures = OTHERS;
            let word = ask_word(one, right, 0, f64::INFINITY, &[], &mut figures);
            let asked = Figures {
                cells,
                entries,
                total,
            };
            assert_eq!((word, figures), (0, asked));
        }
    }

    #[test]
    fn a_refused_commit_writes_nothing() {
        let others = (map(0), empty(0), 0, 1.0, &TWICE[1..], 16 << 56);
        for (left, right, m, t, protected, refusal) in refused().into_iter().chain([others]) {
            let (mut zuniqs, mut counts, mut total) = ([7, 8], [7, 8], 77);
            let (z, c) = (&mut zuniqs, &mut counts);
            let word = commit_word(left, right, m, t, protected, OTHERS, z, c, &mut total);
            assert_eq!(word, refusal);
            assert_eq!((zuniqs, counts, total), ([7, 8], [7, 8], 77));
        }
        let asked = ask(map(0), empty(0), 0, 1.0, &[]).unwrap();
        let (mut total, z, c) = (77, &mut [], &mut []);
        let word = commit_word(map(0), empty(0), 0, 1.0, &[], asked, z, c, &mut total);
        assert_eq!((word, total), (11 << 56, 77));
    }

    #[test]
    fn an_accepted_commit_writes_the_total() {
        let (l, r) = (map(0), empty(0));
        let asked = ask(l, r, 0, 1.0, &[]).unwrap();
        let (mut zuniqs, mut counts, mut total) = ([7, 8], [7, 8], 77);
        let (z, c) = (&mut zuniqs, &mut counts);
        let word = commit_word(l, r, 0, 1.0, &[], asked, z, c, &mut total);
        assert_eq!((word, total), (1, u32::MAX));
        assert_eq!((zuniqs, counts), ([1 << 58, 0], [u32::MAX, 0]));
    }
}
