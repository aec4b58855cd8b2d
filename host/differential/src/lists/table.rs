//! The judge of refusals: the scope's table, for add calls.

use mom::Refusal;

use super::{Arguments, Value};
use crate::{
    cells::{n_hash, Cell, DEPTH_MAX},
    maps::faulty_entry,
    protected::faulty_place,
    widths::Width,
};

/// The hash of the first cell at `depth` after the last of some entries.
pub fn end_of<Z: Width>(held: &[Z], depth: u8) -> u64 {
    held.last().map_or(0, |&last| {
        let cell = Cell::of_zuniq(last).unwrap();
        (cell.hash + 1) << (2 * (depth - cell.depth))
    })
}

impl<V: Value, Z: Width> Arguments<'_, V, Z> {
    /// What the table says of the call, in its order.
    pub fn refusal(&self) -> Option<Refusal> {
        self.refusal_by(faulty_place)
    }

    /// The same, with another reading of row 15.
    pub fn refusal_by(&self, faulty_place: fn(&[Z]) -> Option<usize>) -> Option<Refusal> {
        let (number, place) = self.refused_setting(faulty_place).or_else(|| {
            let held = &self.values[..self.held];
            self.refused_entry()
                .or_else(|| self.refused_cell())
                .or_else(|| V::overflow(held, self.batch).map(|place| (10, place)))
                .or_else(|| (self.held + self.hashes.len() > self.zuniqs.len()).then_some((11, 0)))
        })?;
        Some(Refusal::of(number, place).unwrap())
    }

    /// Rows 1 to 4, 15 being tried after 3. M is at most 29 for narrow maps too.
    fn refused_setting(&self, faulty_place: fn(&[Z]) -> Option<usize>) -> Option<(u8, usize)> {
        let places = self.zuniqs.len();
        let lengths_differ = places != self.values.len() || self.hashes.len() != self.batch.len();
        let rows = [
            (1, self.depth > Z::DEPTH_MAX),
            (2, self.depth_threshold > DEPTH_MAX),
            (3, self.chi2_threshold.is_nan()),
        ];
        let setting = rows.into_iter().find(|&(_, refused)| refused);
        setting
            .map(|(number, _)| (number, 0))
            .or_else(|| faulty_place(self.protected).map(|place| (15, place)))
            .or_else(|| (lengths_differ || self.held > places).then_some((4, 0)))
    }

    /// Rows 5 and 6.
    fn refused_entry(&self) -> Option<(u8, usize)> {
        let faulty = faulty_entry(self.depth, &self.zuniqs[..self.held]);
        let invalid = || self.values[..self.held].iter().position(|v| v.is_invalid());
        let faulty = faulty.map(|place| (5, place));
        faulty.or_else(|| invalid().map(|place| (6, place)))
    }

    /// Rows 7, 8 and 9.
    fn refused_cell(&self) -> Option<(u8, usize)> {
        let mut least = end_of(&self.zuniqs[..self.held], self.depth);
        for (place, (hash, value)) in self.hashes.iter().zip(self.batch).enumerate() {
            let hash = hash.bits();
            if hash >= n_hash(self.depth) {
                return Some((7, place));
            }
            if hash < least {
                return Some((8, place));
            }
            if value.is_invalid() {
                return Some((9, place));
            }
            least = hash + 1;
        }
        None
    }
}
