//! Every kind of comparison, in the order of the scope's sections; then those of narrow maps, of rows laid
//! out by byte column, of coverages, and of a pool that is asked for first.

mod add_counts;
mod add_densities;
mod are_overlapping;
mod ask;
mod check_is_mom;
mod chi;
mod clip;
mod columns;
mod commit;
mod count_merger;
mod coverage;
mod density_merger;
mod density_of_count;
mod from_zuniq;
mod get_cell_containing;
mod get_overlapped_cells;
mod maps_of_rows;
mod moving;
mod n_hash;
mod pool;
mod product;
mod rows;
mod to_zuniq;

use crate::{
    compare::{compare, Kind, Plan, Report},
    floats::Float,
    lists::Add,
    pairs::Pair,
};

pub use are_overlapping::AreOverlapping;
pub use ask::{Ask, Asked};
pub use check_is_mom::{told, CheckIsMom};
pub use chi::{CountChi, DensityChi};
pub use clip::{Clip, Input as ClipInput, Piece};
pub use columns::{Input as LayOutInput, LayOut, Step as LayOutStep, ToColumns, ToRows, Way};
pub use commit::{Commit, Committed, Input as CommitInput};
pub use count_merger::CountMerger;
pub use coverage::{Cover, Input as CoverInput};
pub use density_merger::DensityMerger;
pub use density_of_count::DensityOfCount;
pub use from_zuniq::FromZuniq;
pub use get_cell_containing::GetCellContaining;
pub use get_overlapped_cells::GetOverlappedCells;
pub use maps_of_rows::{CheckOfRows, ContainingInRows, OverlappedInRows};
pub use moving::{Input as MoveInput, Move, MoveBuilt};
pub use n_hash::NHash;
pub use rows::{Read, Value as RowValue, Write};
pub use to_zuniq::ToZuniq;

pub type AddCounts<Z> = Add<u32, Z>;
pub type AddDensities = Add<Float>;
pub type Pool = Pair<u32>;
pub type Product = Pair<Float>;

pub struct Entry {
    pub name: &'static str,
    pub compare: fn(&Plan) -> Report,
}

const fn entry<K: Kind>() -> Entry {
    Entry {
        name: K::NAME,
        compare: compare::<K>,
    }
}

pub static KINDS: &[Entry] = &[
    entry::<NHash>(),
    entry::<ToZuniq<u64>>(),
    entry::<FromZuniq<u64>>(),
    entry::<AreOverlapping<u64>>(),
    entry::<CountMerger>(),
    entry::<DensityMerger>(),
    entry::<CountChi>(),
    entry::<DensityChi>(),
    entry::<CheckIsMom<u64>>(),
    entry::<AddCounts<u64>>(),
    entry::<AddDensities>(),
    entry::<Pool>(),
    entry::<Product>(),
    entry::<GetCellContaining<u64>>(),
    entry::<GetOverlappedCells<u64>>(),
    entry::<DensityOfCount>(),
    entry::<Read<u32>>(),
    entry::<Read<u64>>(),
    entry::<Write<u32>>(),
    entry::<Write<u64>>(),
    entry::<CheckOfRows<u64>>(),
    entry::<ContainingInRows<u64>>(),
    entry::<OverlappedInRows<u64>>(),
    entry::<ToZuniq<u32>>(),
    entry::<FromZuniq<u32>>(),
    entry::<AreOverlapping<u32>>(),
    entry::<CheckIsMom<u32>>(),
    entry::<AddCounts<u32>>(),
    entry::<GetCellContaining<u32>>(),
    entry::<GetOverlappedCells<u32>>(),
    entry::<Read<u32, u32>>(),
    entry::<Write<u32, u32>>(),
    entry::<CheckOfRows<u32>>(),
    entry::<ContainingInRows<u32>>(),
    entry::<OverlappedInRows<u32>>(),
    entry::<Move<u64>>(),
    entry::<Move<u32>>(),
    entry::<MoveBuilt<u64>>(),
    entry::<MoveBuilt<u32>>(),
    entry::<LayOut<ToColumns>>(),
    entry::<LayOut<ToRows>>(),
    entry::<Cover>(),
    entry::<Clip>(),
    entry::<Ask>(),
    entry::<Commit>(),
];
