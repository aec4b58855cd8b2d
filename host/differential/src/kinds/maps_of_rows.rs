//! The check and lookup of maps that come as count rows, on the inputs of the calls that take
//! zuniqs. The value of each row is its place.

use std::marker::PhantomData;

use mom::{rows::MAX_ROWS, Refusal};
use oracle::run;

use super::{check_is_mom, get_cell_containing, get_overlapped_cells};
use super::{CheckIsMom, GetCellContaining, GetOverlappedCells};
use crate::{
    compare::Kind,
    maps::Map,
    random::Random,
    widths::{named, Width},
};

fn rows_of<Z: Width>(zuniqs: &[Z]) -> Vec<u8> {
    let zuniq = |z: Z| z.bits().to_le_bytes()[..size_of::<Z>()].to_vec();
    let row = |(&z, n): (&Z, u32)| [&zuniq(z)[..], &n.to_le_bytes()].concat();
    zuniqs.iter().zip(0..).flat_map(row).collect()
}

/// The maps of two entries are most of the small ones; here they are left to the random inputs.
fn has_not_two(map: &Map) -> bool {
    map.cells().len() != 2
}

/// The map check of rows whose entries are all at the map's depth, as [`CheckIsMom`].
pub struct CheckOfRows<Z>(PhantomData<Z>);

impl<Z: Width> Kind for CheckOfRows<Z> {
    const NAME: &'static str = named::<Z>("check_of_rows", "narrow_check_of_rows");
    type Input = check_is_mom::Input;
    type Answer = check_is_mom::Answer;

    /// As many rows as may come, too: a map, and one with a fault in its last row.
    fn small() -> impl Iterator<Item = Self::Input> {
        let last = MAX_ROWS as u64 - 1;
        let most = [last, 0].map(|hash| Self::Input {
            depth: Z::DEPTH_MAX,
            hashes: (0..last).chain([hash]).collect(),
        });
        CheckIsMom::<Z>::small().chain(most)
    }

    fn random(random: &mut Random) -> Option<Self::Input> {
        CheckIsMom::<Z>::random(random)
    }

    fn ours(input: &Self::Input) -> Self::Answer {
        let zuniqs = input.zuniqs::<Z>();
        let check = (Z::OURS.check_of_rows)(input.depth, &rows_of(&zuniqs))?;
        Ok(check_is_mom::told(check, &zuniqs))
    }

    fn original(input: &Self::Input) -> Self::Answer {
        let bytes = rows_of(&input.zuniqs::<Z>());
        Ok(run::rows_check_is_mom::<Z, u32>(input.depth, &bytes))
    }
}

/// The entry over a cell of the map's depth, in valid maps of rows.
pub struct ContainingInRows<Z>(PhantomData<Z>);

impl<Z: Width> Kind for ContainingInRows<Z> {
    const NAME: &'static str = named::<Z>("containing_in_rows", "narrow_containing_in_rows");
    type Input = get_cell_containing::Input;
    /// The zuniq of the entry and its place, or none.
    type Answer = Result<Option<(Z, u32)>, Refusal>;

    fn small() -> impl Iterator<Item = Self::Input> {
        GetCellContaining::<Z>::small().filter(|input| has_not_two(&input.map))
    }

    fn random(random: &mut Random) -> Option<Self::Input> {
        GetCellContaining::<Z>::random(random)
    }

    fn ours(get_cell_containing::Input { map, query }: &Self::Input) -> Self::Answer {
        let zuniqs = map.zuniqs();
        let bytes = rows_of(&zuniqs);
        let row = (Z::OURS.containing_in_rows)(query.depth, &bytes, query.zuniq())?;
        Ok(row.map(|row| (zuniqs[row], row as u32)))
    }

    fn original(get_cell_containing::Input { map, query }: &Self::Input) -> Self::Answer {
        let bytes = rows_of(&map.zuniqs::<Z>());
        Ok(run::rows_containing(query.depth, &bytes, query.zuniq()).unwrap())
    }
}

/// The entries that overlap a cell, in valid maps of rows, where the original finds an entry before
/// the cell and entry 0 is not concerned.
pub struct OverlappedInRows<Z>(PhantomData<Z>);

impl<Z: Width> Kind for OverlappedInRows<Z> {
    const NAME: &'static str = named::<Z>("overlapped_in_rows", "narrow_overlapped_in_rows");
    type Input = get_overlapped_cells::Input;
    /// The zuniqs and the places of the entries.
    type Answer = Result<Vec<(Z, u32)>, Refusal>;

    fn small() -> impl Iterator<Item = Self::Input> {
        GetOverlappedCells::<Z>::small().filter(|input| has_not_two(&input.map))
    }

    fn random(random: &mut Random) -> Option<Self::Input> {
        GetOverlappedCells::<Z>::random(random)
    }

    fn ours(get_overlapped_cells::Input { map, query }: &Self::Input) -> Self::Answer {
        let bytes = rows_of(&map.zuniqs::<Z>());
        let run = (Z::OURS.overlapped_in_rows)(&bytes, query.zuniq())?;
        Ok(map.entries()[run].to_vec())
    }

    fn original(input: &Self::Input) -> Self::Answer {
        assert!(input.is_comparable());
        let bytes = rows_of(&input.map.zuniqs::<Z>());
        // SAFETY: the first entry stands before the query.
        Ok(unsafe { run::rows_overlapped(Z::DEPTH_MAX, &bytes, input.query.zuniq()) })
    }
}
