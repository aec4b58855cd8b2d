//! Calls of the originals, section by section of the scope, with no logic of our own beyond the
//! closures that the scope and its change requests define. `Z` is u64 or u32, the two zuniq types of
//! the original.
//!
//! Values are merged by the original's mergers behind tests of ours, that of protected parents and then,
//! for counts, that of blank quads (`count_merger`, `density_merger`). The calls named `by_chi` have its
//! mergers alone, as the original is.
//!
//! A call panics where the original does: under `checked` where its arithmetic overflows.

use std::cell::Cell;

use crate::nested::{
    self,
    map::{
        mom::{
            self, impls::bslice::MomSliceImpl, new_chi2_count_merger_with_depth_threshold,
            new_chi2_density_merger, LhsRhsBoth, Mom, WritableMom,
        },
        skymap::SkyMapValue,
    },
};

pub use crate::nested::map::mom::{
    impls::{
        bslice::{V4FITS, Z4FITS},
        zvec::MomVecImpl,
    },
    ZUniqHashT,
};

// ---- Section 1: cells and zuniq

/// `n_hash` of nested/mod.rs. The table that it reads is made by our stand-in for lib.rs.
pub fn n_hash(depth: u8) -> u64 {
    nested::n_hash(depth)
}

/// `to_zuniq` of nested/mod.rs: a panic of our stand-in for lib.rs at a depth over 29, then
/// `to_zuniq_unsafe`.
pub fn to_zuniq(depth: u8, hash: u64) -> u64 {
    nested::to_zuniq(depth, hash)
}

pub fn to_zuniq_unsafe(depth: u8, hash: u64) -> u64 {
    nested::to_zuniq_unsafe(depth, hash)
}

/// `from_zuniq` of nested/mod.rs.
pub fn from_zuniq(zuniq: u64) -> (u8, u64) {
    nested::from_zuniq(zuniq)
}

/// `ZUniqHashT::to_zuniq`, which everything in mom/ uses.
pub fn trait_to_zuniq<Z: ZUniqHashT>(depth: u8, hash: Z) -> Z {
    Z::to_zuniq(depth, hash)
}

/// `ZUniqHashT::from_zuniq`, which everything in mom/ uses.
pub fn trait_from_zuniq<Z: ZUniqHashT>(zuniq: Z) -> (u8, Z) {
    Z::from_zuniq(zuniq)
}

pub fn are_overlapping<Z: ZUniqHashT>(zuniq_l: Z, zuniq_r: Z) -> bool {
    Z::are_overlapping(zuniq_l, zuniq_r)
}

// ---- Section 2: mergers. `parent` is the parent, or its depth, `m` and `t` are the scope's M and T.
// `protects` says of a parent's depth and hash whether note 7 lists it.

/// An empty list, for `protects`.
pub fn unprotected<Z>(_: u8, _: Z) -> bool {
    false
}

/// A list, for `protects`: the parent's zuniq is held to one after the other.
pub fn listed<Z: ZUniqHashT>(protected: &[Z]) -> impl Fn(u8, Z) -> bool + '_ {
    move |depth, hash| protected.contains(&Z::to_zuniq(depth, hash))
}

/// The same, as a long list that rises asks for.
pub fn searched<Z: ZUniqHashT>(protected: &[Z]) -> impl Fn(u8, Z) -> bool + '_ {
    move |depth, hash| protected.binary_search(&Z::to_zuniq(depth, hash)).is_ok()
}

/// "A quad whose parent is listed is kept" (note 7), blank or not: "protection now comes first" (note 11).
/// "Four siblings of count 0 now merge at any T, where the parent depth is at least M." (Note 4.) All
/// others are handed to the original's merger. No call is made with a T that is NaN.
fn count_merger<Z: ZUniqHashT>(
    m: u8,
    t: f64,
    protects: impl Fn(u8, Z) -> bool,
) -> impl Fn(u8, Z, [u32; 4]) -> Result<u32, [u32; 4]> {
    let by_chi = new_chi2_count_merger_with_depth_threshold(t, m);
    move |parent, hash, counts| match counts {
        _ if protects(parent, hash) => Err(counts),
        [0, 0, 0, 0] if parent >= m => Ok(0),
        _ => by_chi(parent, hash, counts),
    }
}

/// The same without note 4, which is about counts.
fn density_merger<Z: ZUniqHashT>(
    m: u8,
    t: f64,
    protects: impl Fn(u8, Z) -> bool,
) -> impl Fn(u8, Z, [f64; 4]) -> Result<f64, [f64; 4]> {
    let by_chi = new_chi2_density_merger(t, Some(m));
    move |parent, hash, densities| match protects(parent, hash) {
        true => Err(densities),
        false => by_chi(parent, hash, densities),
    }
}

/// The merged count, or none where the four are kept.
pub fn merge_counts(
    (parent, hash): (u8, u64),
    m: u8,
    t: f64,
    protects: impl Fn(u8, u64) -> bool,
    counts: [u32; 4],
) -> Option<u32> {
    count_merger(m, t, protects)(parent, hash, counts).ok()
}

/// The same by the original's merger alone, which keeps a blank quad where T is not above 0, and knows
/// of no list.
pub fn merge_counts_by_chi(parent: u8, m: u8, t: f64, counts: [u32; 4]) -> Option<u32> {
    new_chi2_count_merger_with_depth_threshold::<u64, u32>(t, m)(parent, 0, counts).ok()
}

/// The merged density, or none where the four are kept.
pub fn merge_densities(
    (parent, hash): (u8, u64),
    m: u8,
    t: f64,
    protects: impl Fn(u8, u64) -> bool,
    densities: [f64; 4],
) -> Option<f64> {
    density_merger(m, t, protects)(parent, hash, densities).ok()
}

pub fn merge_densities_by_chi(parent: u8, m: u8, t: f64, densities: [f64; 4]) -> Option<f64> {
    new_chi2_density_merger::<u64, f64>(t, Some(m))(parent, 0, densities).ok()
}

/// The original keeps its chi to itself but merges exactly where chi < T, so that bisection on T
/// finds it. None stands for NaN and for infinity, which no T exceeds; a zero is answered as +0,
/// since no T tells it from −0.
pub fn chi_of_counts(parent: u8, counts: [u32; 4]) -> Option<f64> {
    chi_by_bisection(|t| merge_counts_by_chi(parent, 0, t, counts).is_some())
}

pub fn chi_of_densities(parent: u8, densities: [f64; 4]) -> Option<f64> {
    chi_by_bisection(|t| merge_densities_by_chi(parent, 0, t, densities).is_some())
}

/// The same, in two calls of the original where the guess is right.
pub fn chi_of_counts_near(guess: f64, parent: u8, counts: [u32; 4]) -> Option<f64> {
    chi_near(guess, |t| {
        merge_counts_by_chi(parent, 0, t, counts).is_some()
    })
}

pub fn chi_of_densities_near(guess: f64, parent: u8, densities: [f64; 4]) -> Option<f64> {
    chi_near(guess, |t| {
        merge_densities_by_chi(parent, 0, t, densities).is_some()
    })
}

/// Kept at the guess, merged at the next f64 above it: only chi itself is so, or the other zero.
fn chi_near(guess: f64, merges_at: impl Fn(f64) -> bool) -> Option<f64> {
    if !merges_at(guess) && merges_at(guess.next_up()) {
        return Some(if guess == 0.0 { 0.0 } else { guess });
    }
    chi_by_bisection(merges_at)
}

fn chi_by_bisection(merges_at: impl Fn(f64) -> bool) -> Option<f64> {
    let infinity = f64::INFINITY.to_bits() as i128;
    let (mut kept, mut merged) = (-1 - infinity, infinity);
    if !merges_at(nth_f64(merged)) {
        return None;
    }
    while merged - kept > 1 {
        let middle = kept + (merged - kept) / 2;
        if merges_at(nth_f64(middle)) {
            merged = middle;
        } else {
            kept = middle;
        }
    }
    Some(nth_f64(kept))
}

/// The floats in rising order: 0 is +0, 1 the least positive one, −1 is −0.
fn nth_f64(n: i128) -> f64 {
    f64::from_bits(if n >= 0 {
        n as u64
    } else {
        1 << 63 | (-1 - n) as u64
    })
}

// ---- Sections 3 and 6: the map check and lookup

/// A map from its entries, unchecked.
pub fn mom<Z: ZUniqHashT, V: SkyMapValue>(depth: u8, entries: Vec<(Z, V)>) -> MomVecImpl<Z, V> {
    MomVecImpl::new(depth, entries)
}

pub fn check_is_mom<Z: ZUniqHashT, V: SkyMapValue>(mom: &MomVecImpl<Z, V>) -> Result<(), String> {
    mom.check_is_mom()
}

pub fn get_cell_containing<Z: ZUniqHashT, V: SkyMapValue>(
    mom: &MomVecImpl<Z, V>,
    zuniq: Z,
) -> Result<Option<(Z, V)>, String> {
    mom.get_cell_containing(zuniq)
        .map(|entry| entry.map(|(zuniq, value)| (zuniq, value.clone())))
}

pub fn get_copy_of_cell_containing<Z: ZUniqHashT, V: SkyMapValue>(
    mom: &MomVecImpl<Z, V>,
    zuniq: Z,
) -> Result<Option<(Z, V)>, String> {
    mom.get_copy_of_cell_containing(zuniq)
}

pub fn get_overlapped_cells<Z: ZUniqHashT, V: SkyMapValue>(
    mom: &MomVecImpl<Z, V>,
    zuniq: Z,
) -> Vec<(Z, V)> {
    mom.get_overlapped_cells(zuniq)
        .map(|(zuniq, value)| (zuniq, value.clone()))
        .collect()
}

/// How many there are, with none copied.
pub fn number_of_overlapped_cells<Z: ZUniqHashT, V: SkyMapValue>(
    mom: &MomVecImpl<Z, V>,
    zuniq: Z,
) -> usize {
    mom.get_overlapped_cells(zuniq).len()
}

// ---- Section 4: building from (hash, value) cells of depth `depth`

pub fn build_counts<Z: ZUniqHashT>(
    depth: u8,
    m: u8,
    t: f64,
    protects: impl Fn(u8, Z) -> bool,
    cells: impl Iterator<Item = (Z, u32)>,
) -> Vec<(Z, u32)> {
    MomVecImpl::from_hpx_sorted_entries(depth, cells, count_merger(m, t, protects))
        .owned_entries()
        .collect()
}

pub fn build_counts_by_chi<Z: ZUniqHashT>(
    depth: u8,
    m: u8,
    t: f64,
    cells: impl Iterator<Item = (Z, u32)>,
) -> Vec<(Z, u32)> {
    let merger = new_chi2_count_merger_with_depth_threshold(t, m);
    MomVecImpl::from_hpx_sorted_entries(depth, cells, merger)
        .owned_entries()
        .collect()
}

pub fn build_densities<Z: ZUniqHashT>(
    depth: u8,
    m: u8,
    t: f64,
    protects: impl Fn(u8, Z) -> bool,
    cells: impl Iterator<Item = (Z, f64)>,
) -> Vec<(Z, f64)> {
    MomVecImpl::from_hpx_sorted_entries(depth, cells, density_merger(m, t, protects))
        .owned_entries()
        .collect()
}

pub fn build_densities_by_chi<Z: ZUniqHashT>(
    depth: u8,
    m: u8,
    t: f64,
    cells: impl Iterator<Item = (Z, f64)>,
) -> Vec<(Z, f64)> {
    let merger = new_chi2_density_merger(t, Some(m));
    MomVecImpl::from_hpx_sorted_entries(depth, cells, merger)
        .owned_entries()
        .collect()
}

// ---- Section 5: combining. The answer is the map's depth and its entries.

/// "Splitting v gives each child floor(v/4)"; "for parent hash h the extra ones go to children h mod 4,
/// (h + 1) mod 4 and onwards, (v mod 4) of them." (Note 10.) The hash is that of the cell that is split,
/// which the original hands to the closure on every level.
fn split_count<Z: ZUniqHashT>(hash: Z, count: u32) -> [u32; 4] {
    let first = (hash & Z::three()).to_u32().unwrap();
    let mut children = [count / 4; 4];
    for extra in 0..count % 4 {
        children[(first + extra) as usize % 4] += 1;
    }
    children
}

/// "Alone: kept; both: sum."
fn pool_rule(counts: LhsRhsBoth<u32>) -> Option<u32> {
    Some(match counts {
        LhsRhsBoth::Left(count) | LhsRhsBoth::Right(count) => count,
        LhsRhsBoth::Both(left, right) => left + right,
    })
}

pub fn pool<Z: ZUniqHashT>(
    left: MomVecImpl<Z, u32>,
    right: MomVecImpl<Z, u32>,
    m: u8,
    t: f64,
    protects: impl Fn(u8, Z) -> bool,
) -> (u8, Vec<(Z, u32)>) {
    pool_with(left, right, pool_rule, count_merger(m, t, protects))
}

pub fn pool_by_chi<Z: ZUniqHashT>(
    left: MomVecImpl<Z, u32>,
    right: MomVecImpl<Z, u32>,
    m: u8,
    t: f64,
) -> (u8, Vec<(Z, u32)>) {
    let merger = new_chi2_count_merger_with_depth_threshold(t, m);
    pool_with(left, right, pool_rule, merger)
}

/// What note 8 has asked for: the number of overlay cells, which is how often the rule is handed one, and
/// the entries after merging.
pub fn pool_with_cells<Z: ZUniqHashT>(
    left: MomVecImpl<Z, u32>,
    right: MomVecImpl<Z, u32>,
    m: u8,
    t: f64,
    protects: impl Fn(u8, Z) -> bool,
) -> (usize, Vec<(Z, u32)>) {
    let cells = Cell::new(0);
    let rule = |counts| {
        cells.set(cells.get() + 1);
        pool_rule(counts)
    };
    let (_, entries) = pool_with(left, right, rule, count_merger(m, t, protects));
    (cells.get(), entries)
}

fn pool_with<Z: ZUniqHashT>(
    left: MomVecImpl<Z, u32>,
    right: MomVecImpl<Z, u32>,
    rule: impl Fn(LhsRhsBoth<u32>) -> Option<u32>,
    merger: impl Fn(u8, Z, [u32; 4]) -> Result<u32, [u32; 4]>,
) -> (u8, Vec<(Z, u32)>) {
    let split = |_, hash, count| split_count(hash, count);
    let pooled = MomVecImpl::merge(left, right, split, rule, merger);
    (pooled.depth_max(), pooled.owned_entries().collect())
}

/// "Alone: dropped; both: (k × left) × right."
fn product_rule(k: f64) -> impl Fn(LhsRhsBoth<f64>) -> Option<f64> {
    move |densities| match densities {
        LhsRhsBoth::Left(_) | LhsRhsBoth::Right(_) => None,
        LhsRhsBoth::Both(left, right) => Some(k * left * right),
    }
}

/// The original's own product takes no merger: this is its `merge` with the scope's closures, as the
/// original calls it.
pub fn product<Z: ZUniqHashT>(
    left: MomVecImpl<Z, f64>,
    right: MomVecImpl<Z, f64>,
    k: f64,
    m: u8,
    t: f64,
    protects: impl Fn(u8, Z) -> bool,
) -> (u8, Vec<(Z, f64)>) {
    let split = |_, _, density| [density; 4];
    let merger = density_merger(m, t, protects);
    let product = MomVecImpl::merge(left, right, split, product_rule(k), merger);
    (product.depth_max(), product.owned_entries().collect())
}

pub fn product_by_chi<Z: ZUniqHashT>(
    left: MomVecImpl<Z, f64>,
    right: MomVecImpl<Z, f64>,
    k: f64,
    m: u8,
    t: f64,
) -> (u8, Vec<(Z, f64)>) {
    let product = MomVecImpl::lhs_time_rhs_time_cte_and_chi2merge_assuming_densities(
        left,
        right,
        k,
        t,
        Some(m),
    );
    (product.depth_max(), product.owned_entries().collect())
}

// ---- Section 7: densities and rows

/// The density of one count, through a map of the first cell at its depth.
pub fn density<Z: ZUniqHashT>(count: u32, depth: u8) -> f64 {
    let counts = mom(depth, vec![(Z::to_zuniq(depth, Z::zero()), count)]);
    let densities = MomVecImpl::<Z, f64>::from_counts_to_densities(&counts);
    let (_, density) = densities.owned_entries().next().unwrap();
    density
}

/// `write_all_entries`: the bytes, and the number of them that the original reports.
pub fn write_rows<Z: ZUniqHashT, V: SkyMapValue>(entries: Vec<(Z, V)>) -> (Vec<u8>, usize) {
    let mut bytes = Vec::new();
    let written = mom(0, entries).write_all_entries(&mut bytes).unwrap();
    (bytes, written)
}

pub fn read_rows<Z: Z4FITS, V: V4FITS>(bytes: &[u8]) -> Vec<(Z, V)> {
    MomSliceImpl::new(0, bytes).owned_entries().collect()
}

/// `write_all_entries` into bytes that are lent.
pub fn write_rows_into<Z: ZUniqHashT, V: SkyMapValue>(
    mom: &MomVecImpl<Z, V>,
    bytes: &mut [u8],
) -> usize {
    mom.write_all_entries(bytes).unwrap()
}

/// The entries of rows, put into two buffers that are lent.
pub fn read_rows_into<Z: Z4FITS, V: V4FITS>(bytes: &[u8], zuniqs: &mut [Z], values: &mut [V]) {
    let rows = MomSliceImpl::<Z, V>::new(0, bytes).owned_entries();
    for ((entry, zuniq), value) in rows.zip(zuniqs).zip(values) {
        (*zuniq, *value) = entry;
    }
}

pub fn rows_check_is_mom<Z: Z4FITS, V: V4FITS>(depth: u8, bytes: &[u8]) -> Result<(), String> {
    MomSliceImpl::<Z, V>::new(depth, bytes).check_is_mom()
}

pub fn rows_containing<Z: Z4FITS, V: V4FITS>(
    depth: u8,
    bytes: &[u8],
    zuniq: Z,
) -> Result<Option<(Z, V)>, String> {
    MomSliceImpl::new(depth, bytes).get_copy_of_cell_containing(zuniq)
}

/// # Safety
///
/// Some entry stands before the query, or the profile is `checked`, which panics where none does.
/// Where the search place 0 less 1 wraps, the original reads before its bytes.
pub unsafe fn rows_overlapped<Z: Z4FITS, V: V4FITS>(
    depth: u8,
    bytes: &[u8],
    zuniq: Z,
) -> Vec<(Z, V)> {
    MomSliceImpl::new(depth, bytes)
        .get_copy_of_overlapped_cells(zuniq)
        .collect()
}

// ---- Moving between the widths. The answer is the map's depth and its entries.

/// The assertion fails where one of the 32 low bits is set, as in every zuniq deeper than 13.
pub fn zuniq_from_u64_to_u32(zuniq: u64) -> u32 {
    mom::zuniq_from_u64_to_u32(zuniq)
}

pub fn zuniq_from_u32_to_u64(zuniq: u32) -> u64 {
    mom::zuniq_from_u32_to_u64(zuniq)
}

pub fn to_zuniq_u32<V: SkyMapValue>(mom: MomVecImpl<u64, V>) -> (u8, Vec<(u32, V)>) {
    let narrow = mom.to_zuniq_u32();
    (narrow.depth_max(), narrow.owned_entries().collect())
}

pub fn to_zuniq_u64<V: SkyMapValue>(mom: MomVecImpl<u32, V>) -> (u8, Vec<(u64, V)>) {
    let wide = mom.to_zuniq_u64();
    (wide.depth_max(), wide.owned_entries().collect())
}

pub fn rows_to_zuniq_u32<V: V4FITS>(depth: u8, bytes: &[u8]) -> (u8, Vec<(u32, V)>) {
    let narrow = MomSliceImpl::<u64, V>::new(depth, bytes).to_zuniq_u32_mom();
    (narrow.depth_max(), narrow.owned_entries().collect())
}

pub fn rows_to_zuniq_u64<V: V4FITS>(depth: u8, bytes: &[u8]) -> (u8, Vec<(u64, V)>) {
    let wide = MomSliceImpl::<u32, V>::new(depth, bytes).to_zuniq_u64_mom();
    (wide.depth_max(), wide.owned_entries().collect())
}
