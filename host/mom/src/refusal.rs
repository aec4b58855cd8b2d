//! Why a call is refused.

use std::{error::Error, fmt};

/// Why a call is refused: a case for each number of the scope's table, in checking order, but that 13
/// is tried after 5; the first that applies is given. A case that has a place holds it, counted from
/// 0: the index of a protected parent, the entry of a map, the range of a coverage, the cell of a batch,
/// the child of a merger's four, the query of a test's two. A refused call has touched no memory that was
/// lent to it.
#[derive(Clone, Copy, Debug, PartialEq, Eq, Hash)]
#[non_exhaustive]
pub enum Refusal {
    /// 1: the depth is over 29, or over 13 for a narrow map, or a merger's parent depth is over 28.
    DepthOutOfRange,
    /// 2: the depth threshold M is over 29.
    DepthThresholdOutOfRange,
    /// 3: the chi-square threshold T is NaN, or the factor k of a product is NaN, infinite or
    /// below 0.
    InvalidThresholdOrFactor,
    /// 15: the protected parent of this index is not a valid zuniq, or not above the one before.
    InvalidProtected(usize),
    /// 4: paired buffers differ in length, a stated number exceeds its buffer, row bytes are no whole
    /// number of rows, or a row length is none of 8, 12 and 16.
    LengthMismatch,
    /// 5: a held or given map is invalid at this entry.
    InvalidMap(usize),
    /// 6: a held or given density is NaN, infinite or below 0 at this entry.
    InvalidMapDensity(usize),
    /// 14: this range of a coverage is empty, ends past N(29), or doesn't start above the end of the one
    /// before.
    InvalidRange(usize),
    /// 7: the hash of this cell, or of a merger's parent, is not below N(depth).
    HashOutOfRange(usize),
    /// 8: this cell is not above the one before, or is the batch's first and starts before the last
    /// held entry ends.
    CellNotAbove(usize),
    /// 9: the density of this cell, or of this child of a merger's four, is NaN, infinite or below 0.
    InvalidDensity(usize),
    /// 10: counts together exceed 4,294,967,295, in an add call with this cell; or the product of a
    /// cell is not finite.
    Overflow(usize),
    /// 16: a pool is committed by figures that asking for it would not answer.
    FiguresDiffer,
    /// 11: the output has too few places for what might be written, or a map comes as more than
    /// 4,096 rows.
    NoSpace,
    /// 12: this query is not a valid zuniq, or in containing not at the map's depth.
    InvalidQuery(usize),
    /// 13: a map is narrowed, and this entry is deeper than 13.
    EntryTooDeep(usize),
}

impl Refusal {
    /// The case of a number and a place; none where the table has no such.
    pub fn of(number: u8, place: usize) -> Option<Refusal> {
        Some(match (number, place) {
            (1, 0) => Refusal::DepthOutOfRange,
            (2, 0) => Refusal::DepthThresholdOutOfRange,
            (3, 0) => Refusal::InvalidThresholdOrFactor,
            (4, 0) => Refusal::LengthMismatch,
            (5, entry) => Refusal::InvalidMap(entry),
            (6, entry) => Refusal::InvalidMapDensity(entry),
            (7, cell) => Refusal::HashOutOfRange(cell),
            (8, cell) => Refusal::CellNotAbove(cell),
            (9, cell) => Refusal::InvalidDensity(cell),
            (10, cell) => Refusal::Overflow(cell),
            (11, 0) => Refusal::NoSpace,
            (12, query) => Refusal::InvalidQuery(query),
            (13, entry) => Refusal::EntryTooDeep(entry),
            (14, range) => Refusal::InvalidRange(range),
            (15, index) => Refusal::InvalidProtected(index),
            (16, 0) => Refusal::FiguresDiffer,
            _ => return None,
        })
    }

    /// The number that the scope's table gives this case.
    pub fn number(self) -> u8 {
        match self {
            Refusal::DepthOutOfRange => 1,
            Refusal::DepthThresholdOutOfRange => 2,
            Refusal::InvalidThresholdOrFactor => 3,
            Refusal::InvalidProtected(_) => 15,
            Refusal::LengthMismatch => 4,
            Refusal::InvalidMap(_) => 5,
            Refusal::InvalidMapDensity(_) => 6,
            Refusal::InvalidRange(_) => 14,
            Refusal::HashOutOfRange(_) => 7,
            Refusal::CellNotAbove(_) => 8,
            Refusal::InvalidDensity(_) => 9,
            Refusal::Overflow(_) => 10,
            Refusal::FiguresDiffer => 16,
            Refusal::NoSpace => 11,
            Refusal::InvalidQuery(_) => 12,
            Refusal::EntryTooDeep(_) => 13,
        }
    }

    /// Where it is wrong, counted from 0; 0 where the case has no place.
    pub fn place(self) -> usize {
        match self {
            Refusal::InvalidProtected(place)
            | Refusal::InvalidMap(place)
            | Refusal::InvalidMapDensity(place)
            | Refusal::InvalidRange(place)
            | Refusal::HashOutOfRange(place)
            | Refusal::CellNotAbove(place)
            | Refusal::InvalidDensity(place)
            | Refusal::Overflow(place)
            | Refusal::InvalidQuery(place)
            | Refusal::EntryTooDeep(place) => place,
            _ => 0,
        }
    }

    /// The words of the scope's table.
    fn words(self) -> &'static str {
        match self {
            Refusal::DepthOutOfRange => {
                "the depth is over 29, or over 13 for a narrow map, or a merger's parent depth is \
                 over 28"
            }
            Refusal::DepthThresholdOutOfRange => "the depth threshold M is over 29",
            Refusal::InvalidThresholdOrFactor => {
                "the chi-square threshold T is NaN, or the factor k is NaN, infinite or below 0"
            }
            Refusal::InvalidProtected(_) => {
                "the protected parent is not a valid zuniq, or not above the one before"
            }
            Refusal::LengthMismatch => {
                "paired buffers differ in length, a stated number exceeds its buffer, row bytes \
                 don't divide evenly, or a row length is none of 8, 12 and 16"
            }
            Refusal::InvalidMap(_) => "a held or given map is invalid at this entry",
            Refusal::InvalidMapDensity(_) => {
                "a held or given density is NaN, infinite or below 0 at this entry"
            }
            Refusal::InvalidRange(_) => {
                "the range is empty, ends past N(29), or doesn't start above the end of the one before"
            }
            Refusal::HashOutOfRange(_) => "the cell's hash is N(depth) or more",
            Refusal::CellNotAbove(_) => {
                "the cell is not above the one before, or starts before the last held entry ends"
            }
            Refusal::InvalidDensity(_) => {
                "the density of the cell or child is NaN, infinite or below 0"
            }
            Refusal::Overflow(_) => {
                "counts together exceed 4,294,967,295, or the product of a cell is not finite"
            }
            Refusal::FiguresDiffer => "the figures are not those that asking for the pool answers",
            Refusal::NoSpace => {
                "the output has too few places, or a map comes as more than 4,096 rows"
            }
            Refusal::InvalidQuery(_) => {
                "the query is not a valid zuniq, or in containing not at the map's depth"
            }
            Refusal::EntryTooDeep(_) => "an entry deeper than 13 is narrowed",
        }
    }
}

impl fmt::Display for Refusal {
    fn fmt(&self, f: &mut fmt::Formatter<'_>) -> fmt::Result {
        let (number, place) = (self.number(), self.place());
        write!(f, "refused by {number} at place {place}: {}", self.words())
    }
}

impl Error for Refusal {}

#[cfg(test)]
mod tests {
    use super::*;

    #[test]
    fn no_number_and_no_place_is_lost() {
        for number in 1..=16 {
            let has_place = ![1, 2, 3, 4, 11, 16].contains(&number);
            for place in [0, 1, usize::MAX >> 8] {
                let refusal = Refusal::of(number, place);
                assert_eq!(refusal.is_some(), has_place || place == 0);
                let told = refusal.map(|refusal| (refusal.number(), refusal.place()));
                assert!(told.is_none_or(|told| told == (number, place)));
            }
        }
    }

    #[test]
    fn no_other_number_is_a_refusal() {
        for number in [0, 17, 64, 65, 255] {
            assert_eq!(Refusal::of(number, 0), None);
        }
    }

    #[test]
    fn no_refusal_is_told_by_its_number_alone() {
        assert_eq!(
            Refusal::HashOutOfRange(7).to_string(),
            "refused by 7 at place 7: the cell's hash is N(depth) or more"
        );
        let words = (1..=16).map(|number| Refusal::of(number, 0).unwrap().words());
        let different: std::collections::BTreeSet<_> = words.collect();
        assert_eq!(different.len(), 16);
    }
}
