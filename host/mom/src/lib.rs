//! Multi-order maps: safe calls of the proved functions in libmom_c.a.
//!
//! A cell is a depth, 0 to 29, and a hash below N(depth) = 12 × 4^depth (HEALPix, nested). Its
//! zuniq is (2 × hash + 1) × 4^(29 − depth). The values of four children of one cell may be merged
//! into one of their parent: where their chi-square is low, and where all are counts of 0, which is
//! blank sky. A map of a depth is given by its zuniqs: it is valid where each is a valid zuniq, none is
//! of a deeper cell, they rise strictly and no two of their cells overlap. In [`rows`] it comes as
//! bytes, which [`columns`] lays out by byte column for a disk. A [`narrow`] map has u32 zuniqs and a
//! depth of at most 13; [`moving`] goes from one width to the other. [`reach`] gives the part of the sky
//! that a map covers, and clips a density map to such a part.
//!
//! Every call that merges takes a list of protected parents, cells that may never swallow their children:
//! the four of a listed parent are kept, blank sky too. The list is of valid zuniqs, each above the one
//! before; its cells may lie inside one another. An empty one changes nothing.
//! Batches that are added to one map, in however many calls, come under the same list.
//!
//! A [`pool`] of two maps can be asked for before it is done: [`ask`] answers what it costs and comes to,
//! and [`commit`] takes these [`Figures`] and pools.
//!
//! Nothing here panics, whatever the arguments: a call that can't be answered is refused, and a
//! [`Refusal`] says in words why, and has the number and the place of the scope's table.
//!
//! ```
//! let zuniq = mom::to_zuniq(1, 3).unwrap();
//! assert_eq!(zuniq, 504403158265495552);
//! assert_eq!(mom::from_zuniq(zuniq), Some((1, 3)));
//! assert_eq!(mom::to_zuniq(1, 48), Err(mom::Refusal::HashOutOfRange(0)));
//!
//! let merge = |chi2_threshold, protected: &[u64], counts| {
//!     mom::chi2_count_merger(0, 0, 0, chi2_threshold, protected, counts).unwrap()
//! };
//! assert_eq!(merge(3.5, &[], [1, 2, 4, 4]), mom::CountMerge::Merged(11));
//! assert_eq!(merge(3.0, &[], [1, 2, 4, 4]), mom::CountMerge::Kept(3.0));
//! assert_eq!(merge(0.0, &[], [0; 4]), mom::CountMerge::Merged(0));
//!
//! let protected = [mom::to_zuniq(0, 0).unwrap()];
//! assert_eq!(merge(3.5, &protected, [1, 2, 4, 4]), mom::CountMerge::Kept(3.0));
//! assert_eq!(merge(3.5, &protected, [0; 4]), mom::CountMerge::Kept(0.0));
//!
//! let (base, one) = ([mom::to_zuniq(0, 0).unwrap()], [mom::to_zuniq(1, 1).unwrap()]);
//! let left = mom::Map { depth: 0, zuniqs: &base, values: &[10] };
//! let right = mom::Map { depth: 1, zuniqs: &one, values: &[3] };
//! let figures = mom::ask(left, right, 0, 3.5, &[]).unwrap();
//! assert_eq!(figures, mom::Figures { cells: 4, entries: 1, total: 13 });
//! let (mut zuniqs, mut counts) = (vec![0; figures.cells], vec![0; figures.cells]);
//! mom::commit(left, right, 0, 3.5, &[], figures, &mut zuniqs, &mut counts).unwrap();
//! assert_eq!((zuniqs[0], counts[0]), (base[0], 13));
//! ```

pub mod columns;
mod combining;
pub mod moving;
pub mod narrow;
mod raw;
pub mod reach;
mod refusal;
pub mod rows;

use std::fmt;

pub use combining::{ask, commit, pool, product, Figures, Map};
pub use refusal::Refusal;

/// What becomes of four counts: their parent's count, or that they are kept, with their chi-square.
#[derive(Clone, Copy, Debug, PartialEq)]
pub enum CountMerge {
    Merged(u32),
    Kept(f64),
}

/// What becomes of four densities: their parent's density, or that they are kept, with their
/// chi-square.
#[derive(Clone, Copy, Debug, PartialEq)]
pub enum DensityMerge {
    Merged(f64),
    Kept(f64),
}

/// What is wrong with an entry of a map: the first that holds, in this order.
#[derive(Clone, Copy, Debug, PartialEq, Eq, Hash)]
pub enum Fault {
    /// It is no valid zuniq.
    NotAZuniq,
    /// Its cell is deeper than the map.
    TooDeep,
    /// It is not above the entry before it.
    NotAbove,
    /// Its cell overlaps that of the entry before it.
    Overlapping,
}

impl fmt::Display for Fault {
    fn fmt(&self, f: &mut fmt::Formatter<'_>) -> fmt::Result {
        f.write_str(match self {
            Fault::NotAZuniq => "not a zuniq",
            Fault::TooDeep => "deeper than the map",
            Fault::NotAbove => "not above the entry before",
            Fault::Overlapping => "overlapping the entry before",
        })
    }
}

/// What the map check finds: that the map is valid, or its first faulty place.
#[derive(Clone, Copy, Debug, PartialEq, Eq, Hash)]
pub enum MapCheck {
    Valid,
    Faulty { place: usize, fault: Fault },
}

/// What an accepted add call of counts, a pool or its commit leaves: the number of entries, and the sum
/// of their counts.
#[derive(Clone, Copy, Debug, PartialEq, Eq, Hash)]
pub struct Added {
    pub entries: usize,
    pub total: u32,
}

/// The number of cells at a depth. Refused by 1: the depth is over 29.
pub fn n_hash(depth: u8) -> Result<u64, Refusal> {
    let mut n_hash = 0;
    raw::accepted(raw::mom_n_hash(depth, &mut n_hash))?;
    Ok(n_hash)
}

/// The zuniq of a cell. Refused by 1: the depth is over 29; then by 7: the hash is N(depth) or
/// more.
pub fn to_zuniq(depth: u8, hash: u64) -> Result<u64, Refusal> {
    let mut zuniq = 0;
    raw::accepted(raw::mom_to_zuniq(depth, hash, &mut zuniq))?;
    Ok(zuniq)
}

/// The cell of a zuniq, as depth and hash, or that there is none.
pub fn from_zuniq(zuniq: u64) -> Option<(u8, u64)> {
    let (mut depth, mut hash) = (0, 0);
    raw::answered(raw::mom_from_zuniq(zuniq, &mut depth, &mut hash))?;
    Some((depth, hash))
}

/// Whether two cells are equal or one lies inside the other. Refused by 12: the left one (place 0)
/// or the right one (place 1) is not a valid zuniq.
pub fn are_overlapping(zuniq_l: u64, zuniq_r: u64) -> Result<bool, Refusal> {
    let overlaps = raw::accepted(raw::mom_are_overlapping(zuniq_l, zuniq_r))?;
    Ok(overlaps != 0)
}

/// The counts of the four children of a cell, merged where `parent_depth` is at least `depth_threshold`,
/// their chi-square is below `chi2_threshold` and the cell isn't in `protected`. Four counts of 0, blank
/// sky, are merged at any `chi2_threshold`, from `depth_threshold` on, where the cell isn't in `protected`.
/// The chi-square of those that are kept is exactly their sum where a zero is among them, and else within
/// their sum / 2^50 of the exact number (the example `chi_error` tries it).
/// Refused by 1: the parent depth is over 28; then by 2: the depth threshold is over 29; then by 3: the
/// chi-square threshold is a NaN; then by 15: a protected parent is not a valid zuniq, or not above the
/// one before, the place is its index; then by 7: the parent hash is N(parent depth) or more; then by
/// 10: the sum of the four is no u32.
pub fn chi2_count_merger(
    parent_depth: u8,
    parent_hash: u64,
    depth_threshold: u8,
    chi2_threshold: f64,
    protected: &[u64],
    counts: [u32; 4],
) -> Result<CountMerge, Refusal> {
    let mut chi2 = 0.0;
    let merged = raw::merged(raw::chi2_count_merger(
        parent_depth,
        parent_hash,
        depth_threshold,
        chi2_threshold,
        protected,
        counts,
        &mut chi2,
    ))?;
    Ok(match merged {
        Some(count) => CountMerge::Merged(count as u32),
        None => CountMerge::Kept(chi2),
    })
}

/// The densities of the four children, merged where `parent_depth` is at least `depth_threshold`, their
/// chi-square is below `chi2_threshold` and the cell isn't in `protected`; four of 0 are judged like
/// others. Refused by 1, 2, 3, 15 and 7 as for counts; then by 9: a density is NaN, infinite or below 0
/// (−0 is none of these); the place is the first such child.
pub fn chi2_density_merger(
    parent_depth: u8,
    parent_hash: u64,
    depth_threshold: u8,
    chi2_threshold: f64,
    protected: &[u64],
    densities: [f64; 4],
) -> Result<DensityMerge, Refusal> {
    let mut answer = 0.0;
    let merged = raw::merged(raw::chi2_density_merger(
        parent_depth,
        parent_hash,
        depth_threshold,
        chi2_threshold,
        protected,
        densities,
        &mut answer,
    ))?;
    Ok(match merged {
        Some(_) => DensityMerge::Merged(answer),
        None => DensityMerge::Kept(answer),
    })
}

/// Whether the zuniqs are a valid map of that depth. Refused by 1: the depth is over 29.
pub fn check_is_mom(depth: u8, zuniqs: &[u64]) -> Result<MapCheck, Refusal> {
    raw::checked(raw::check_is_mom(depth, zuniqs))
}

/// The place of the map's entry over a cell of the map's depth, or that there is none. The map
/// isn't checked: where it isn't valid, the answer may be any entry that is a valid zuniq and
/// overlaps the cell, or none. Refused by 1: the depth is over 29; then by 12: the query is no valid
/// zuniq of that depth.
pub fn get_cell_containing(
    depth: u8,
    zuniqs: &[u64],
    zuniq: u64,
) -> Result<Option<usize>, Refusal> {
    let place = raw::found(raw::get_cell_containing(depth, zuniqs, zuniq))?;
    Ok(place.map(|place| place as usize))
}

/// The entries of the map that overlap a cell of any depth: the place of the first, and that very
/// part of the map; place 0 and an empty part where there are none. The map isn't checked: where it
/// isn't valid, they may be any that are valid zuniqs and overlap the cell. Refused by 12: the
/// query is no valid zuniq.
pub fn get_overlapped_cells(zuniqs: &[u64], zuniq: u64) -> Result<(usize, &[u64]), Refusal> {
    let mut number = 0;
    let first = raw::accepted(raw::get_overlapped_cells(zuniqs, zuniq, &mut number))? as usize;
    Ok((first, &zuniqs[first..first + number]))
}

/// The density of a count in a cell of that depth: the count by the cell's area, 4π / N(depth).
/// Refused by 1: the depth is over 29.
pub fn density_of_count(depth: u8, count: u32) -> Result<f64, Refusal> {
    let mut density = 0.0;
    raw::accepted(raw::rows::mom_density_of_count(depth, count, &mut density))?;
    Ok(density)
}

/// Adds cells of that depth, given by `hashes` and their counts in `batch`, to the map in the first
/// `held` places of `zuniqs` and `counts`. Each cell is appended; while the last four entries are
/// the children of one parent and the count merger accepts them, they are replaced by the parent: so
/// children of a parent in `protected` are kept, and other blank sky is merged at any chi-square threshold,
/// as far up as the depth threshold lets it. Cells of depth 0 have no parent, and stay as they are.
/// Every place after the entries is 0. A refused call leaves both buffers as they were.
///
/// Refused by 1: the depth is over 29; then by 2: the depth threshold is over 29; then by 3: the
/// chi-square threshold is a NaN; then by 15: a protected parent is not a valid zuniq, or not above the
/// one before, the place is its index; then by 4: the buffers or the batch's two parts differ in length,
/// or `held` is more than the buffers have; then by 5: the held entries are no valid map of that
/// depth, the place is the faulty entry; then, cell by cell, by 7: its hash is N(depth) or more, and
/// by 8: it isn't above the one before it, or the first starts before the last held entry ends; then
/// by 10: all counts together are no u32, the place is the cell that passes it, 0 where the held
/// ones alone do; then by 11: the buffers have fewer places than held and batch together.
#[allow(clippy::too_many_arguments)]
pub fn add_counts(
    depth: u8,
    depth_threshold: u8,
    chi2_threshold: f64,
    protected: &[u64],
    held: usize,
    zuniqs: &mut [u64],
    counts: &mut [u32],
    hashes: &[u64],
    batch: &[u32],
) -> Result<Added, Refusal> {
    let mut total = 0;
    let entries = raw::accepted(raw::add_counts(
        depth,
        depth_threshold,
        chi2_threshold,
        protected,
        held,
        zuniqs,
        counts,
        hashes,
        batch,
        &mut total,
    ))?;
    let entries = entries as usize;
    Ok(Added { entries, total })
}

/// Adds cells of that depth, given by `hashes` and their densities in `batch`, to the map in the
/// first `held` places of `zuniqs` and `densities`, as [`add_counts`] does, by the density merger.
/// Answers the number of entries; every place after them is 0. A refused call leaves both buffers as
/// they were.
///
/// Refused by 1, 2, 3, 15, 4 and 5 as for counts; then by 6: a held density is NaN, infinite or below 0
/// (−0 is none of these), the place is the entry; then, cell by cell, by 7 and 8 as for counts, and by
/// 9: its density is NaN, infinite or below 0; then by 11: the buffers have fewer places than held and
/// batch together.
#[allow(clippy::too_many_arguments)]
pub fn add_densities(
    depth: u8,
    depth_threshold: u8,
    chi2_threshold: f64,
    protected: &[u64],
    held: usize,
    zuniqs: &mut [u64],
    densities: &mut [f64],
    hashes: &[u64],
    batch: &[f64],
) -> Result<usize, Refusal> {
    let entries = raw::accepted(raw::add_densities(
        depth,
        depth_threshold,
        chi2_threshold,
        protected,
        held,
        zuniqs,
        densities,
        hashes,
        batch,
    ))?;
    Ok(entries as usize)
}
