//! The two widths of zuniqs: u64 and, for narrow maps, u32. What is compared at both is written once,
//! over [`Width`]; the original's calls are generic over the type of a zuniq already.

use std::ops::Range;

use mom::{
    moving::{self, Moved},
    narrow, rows, Added, MapCheck, Refusal,
};
use oracle::run::{self, MomVecImpl, Z4FITS};

/// The type of a zuniq. A hash is of the same type.
pub trait Width: Z4FITS {
    /// The largest depth of a cell.
    const DEPTH_MAX: u8;

    /// Our calls.
    const OURS: Calls<Self>;

    /// The width that maps are moved to.
    type Other: Width<Other = Self>;

    /// The number of these low bits.
    fn of(bits: u64) -> Self;

    fn bits(self) -> u64;

    /// The wide zuniq of the same cell, as the original makes it.
    fn widened(self) -> u64;

    /// The zuniq of the same cell as this wide one, as the original makes it.
    fn of_wide(zuniq: u64) -> Self;

    /// The depth and the entries of a map that the original has moved.
    fn moved(map: MomVecImpl<Self, u32>) -> (u8, Vec<(Self::Other, u32)>);

    /// The same from rows.
    fn moved_from_rows(depth: u8, bytes: &[u8]) -> (u8, Vec<(Self::Other, u32)>);
}

type Answer<T> = Result<T, Refusal>;

/// Our calls at one width, with the arguments that `mom` documents.
#[allow(clippy::type_complexity)]
pub struct Calls<Z: Width> {
    pub to_zuniq: fn(u8, Z) -> Answer<Z>,
    pub from_zuniq: fn(Z) -> Option<(u8, Z)>,
    pub are_overlapping: fn(Z, Z) -> Answer<bool>,
    pub check_is_mom: fn(u8, &[Z]) -> Answer<MapCheck>,
    pub get_cell_containing: fn(u8, &[Z], Z) -> Answer<Option<usize>>,
    pub get_overlapped_cells: fn(&[Z], Z) -> Answer<(usize, &[Z])>,
    pub add_counts:
        fn(u8, u8, f64, &[Z], usize, &mut [Z], &mut [u32], &[Z], &[u32]) -> Answer<Added>,
    pub read_count_rows: fn(&[u8], &mut [Z], &mut [u32]) -> Answer<usize>,
    pub write_count_rows: fn(&[Z], &[u32], &mut [u8]) -> Answer<usize>,
    pub check_of_rows: fn(u8, &[u8]) -> Answer<MapCheck>,
    pub containing_in_rows: fn(u8, &[u8], Z) -> Answer<Option<usize>>,
    pub overlapped_in_rows: fn(&[u8], Z) -> Answer<Range<usize>>,
    /// To the other width.
    pub moving: fn(u8, &[Z], &[u32], &mut [Z::Other], &mut [u32]) -> Answer<Moved>,
    /// The bytes of a count row.
    pub count_row: usize,
}

impl Width for u64 {
    const DEPTH_MAX: u8 = 29;
    const OURS: Calls<u64> = Calls {
        to_zuniq: mom::to_zuniq,
        from_zuniq: mom::from_zuniq,
        are_overlapping: mom::are_overlapping,
        check_is_mom: mom::check_is_mom,
        get_cell_containing: mom::get_cell_containing,
        get_overlapped_cells: mom::get_overlapped_cells,
        add_counts: mom::add_counts,
        read_count_rows: rows::read_count_rows,
        write_count_rows: rows::write_count_rows,
        check_of_rows: rows::check_is_mom,
        containing_in_rows: rows::get_cell_containing,
        overlapped_in_rows: rows::get_overlapped_cells,
        moving: moving::narrow,
        count_row: rows::COUNT_ROW,
    };
    type Other = u32;

    fn of(bits: u64) -> u64 {
        bits
    }

    fn bits(self) -> u64 {
        self
    }

    fn widened(self) -> u64 {
        self
    }

    fn of_wide(zuniq: u64) -> u64 {
        zuniq
    }

    fn moved(map: MomVecImpl<u64, u32>) -> (u8, Vec<(u32, u32)>) {
        run::to_zuniq_u32(map)
    }

    fn moved_from_rows(depth: u8, bytes: &[u8]) -> (u8, Vec<(u32, u32)>) {
        run::rows_to_zuniq_u32(depth, bytes)
    }
}

impl Width for u32 {
    const DEPTH_MAX: u8 = 13;
    const OURS: Calls<u32> = Calls {
        to_zuniq: narrow::to_zuniq,
        from_zuniq: narrow::from_zuniq,
        are_overlapping: narrow::are_overlapping,
        check_is_mom: narrow::check_is_mom,
        get_cell_containing: narrow::get_cell_containing,
        get_overlapped_cells: narrow::get_overlapped_cells,
        add_counts: narrow::add_counts,
        read_count_rows: narrow::rows::read_count_rows,
        write_count_rows: narrow::rows::write_count_rows,
        check_of_rows: narrow::rows::check_is_mom,
        containing_in_rows: narrow::rows::get_cell_containing,
        overlapped_in_rows: narrow::rows::get_overlapped_cells,
        moving: moving::widen,
        count_row: narrow::rows::ROW,
    };
    type Other = u64;

    fn of(bits: u64) -> u32 {
        bits as u32
    }

    fn bits(self) -> u64 {
        self.into()
    }

    fn widened(self) -> u64 {
        run::zuniq_from_u32_to_u64(self)
    }

    fn of_wide(zuniq: u64) -> u32 {
        run::zuniq_from_u64_to_u32(zuniq)
    }

    fn moved(map: MomVecImpl<u32, u32>) -> (u8, Vec<(u64, u32)>) {
        run::to_zuniq_u64(map)
    }

    fn moved_from_rows(depth: u8, bytes: &[u8]) -> (u8, Vec<(u64, u32)>) {
        run::rows_to_zuniq_u64(depth, bytes)
    }
}

/// The name of what is there at both widths.
pub const fn named<Z: Width>(wide: &'static str, narrow: &'static str) -> &'static str {
    if Z::DEPTH_MAX == u64::DEPTH_MAX {
        wide
    } else {
        narrow
    }
}
