//! The judge of refusals: the scope's table, for pool and product calls, and for what note 8 of 02 makes of
//! a pool.

use std::cell::RefCell;

use mom::{Figures, Refusal};

use super::{overlay, Combine, Given, Input, Seen};
use crate::{
    cells::{Cell, DEPTH_MAX},
    maps::faulty_entry,
    protected::faulty_place,
};

impl<V: Combine> Given<V> {
    /// The entries of a valid map.
    pub fn entries(&self) -> Vec<(Cell, V)> {
        let cells = self.zuniqs.iter().map(|&zuniq| Cell::of_zuniq(zuniq));
        let cells = cells.map(|cell| cell.expect("a valid map"));
        cells.zip(self.values.iter().copied()).collect()
    }
}

impl<V: Combine> Input<V> {
    /// The overlay of two valid maps, and the cells that are split for it on every level, with their values.
    pub fn overlaid(&self) -> (Vec<Seen<V>>, Vec<(Cell, V)>) {
        let (left, right) = (self.left.entries(), self.right.entries());
        let split = RefCell::new(vec![]);
        let seen = overlay(&left, &right, |cell, value| {
            split.borrow_mut().push((cell, value));
            V::split(cell, value)
        });
        (seen, split.into_inner())
    }

    /// The overlay cells of two valid maps that the rule keeps.
    pub fn kept(&self) -> Vec<(Cell, V)> {
        let (left, right) = (self.left.entries(), self.right.entries());
        let cells = overlay(&left, &right, V::split).into_iter();
        let k = self.factor.0;
        cells
            .filter_map(|seen| V::rule(k, seen.left, seen.right).map(|value| (seen.cell, value)))
            .collect()
    }

    /// What the table says of the call, in its order.
    pub fn refusal(&self) -> Option<Refusal> {
        self.refusal_by(faulty_place)
    }

    /// The same, with another reading of row 15.
    pub fn refusal_by(&self, faulty_place: fn(&[u64]) -> Option<usize>) -> Option<Refusal> {
        let (number, place) = self
            .refused_setting(self.places, faulty_place)
            .or_else(|| self.refused_entry())
            .or_else(|| self.refused_kept().map(|number| (number, 0)))?;
        Some(Refusal::of(number, place).unwrap())
    }

    /// Rows 1 to 4 of an output of so many places, 15 being tried after 3.
    fn refused_setting(
        &self,
        places: [usize; 2],
        faulty_place: fn(&[u64]) -> Option<usize>,
    ) -> Option<(u8, usize)> {
        let maps = [&self.left, &self.right];
        let differ = maps.map(|map| map.zuniqs.len() != map.values.len());
        let lengths_differ = differ[0] || differ[1] || places[0] != places[1];
        let rows = [
            (1, maps.iter().any(|map| map.depth > DEPTH_MAX)),
            (2, self.depth_threshold > DEPTH_MAX),
            (3, self.chi2_threshold.0.is_nan()),
            (3, V::is_invalid_factor(self.factor.0)),
        ];
        let setting = rows.into_iter().find(|&(_, refused)| refused);
        setting
            .map(|(number, _)| (number, 0))
            .or_else(|| faulty_place(&self.protected).map(|place| (15, place)))
            .or_else(|| lengths_differ.then_some((4, 0)))
    }

    /// Rows 5 and 6, in each the left map before the right one.
    fn refused_entry(&self) -> Option<(u8, usize)> {
        let maps = [&self.left, &self.right];
        let faulty = maps
            .iter()
            .find_map(|map| faulty_entry(map.depth, &map.zuniqs));
        let invalid = |map: &Given<V>| map.values.iter().position(|value| value.is_invalid());
        let faulty = faulty.map(|place| (5, place));
        faulty.or_else(|| {
            maps.iter()
                .find_map(|map| invalid(map))
                .map(|place| (6, place))
        })
    }

    /// Rows 10 and 11.
    fn refused_kept(&self) -> Option<u8> {
        if V::exceed(&self.left.values, &self.right.values) {
            return Some(10);
        }
        let kept = self.kept();
        if kept.iter().any(|(_, value)| value.is_invalid()) {
            return Some(10);
        }
        (self.places[0] < kept.len()).then_some(11)
    }
}

impl Input<u32> {
    /// Rows 1 to 3, 15, 4, 5 and 10. An ask "writes nothing": there is no output whose lengths could differ.
    pub fn refusal_of_ask(&self) -> Option<Refusal> {
        self.refusal_of_input([0; 2])
    }

    /// The same rows with the output's lengths in row 4, as a pool has them; then 16, where the figures
    /// given are not those asked for; then 11.
    pub fn refusal_of_commit(&self, given: Figures, asked: Option<Figures>) -> Option<Refusal> {
        self.refusal_of_input(self.places).or_else(|| {
            let asked = asked.expect("no refusal of an ask where there is none of its commit");
            let rows = [(16, given != asked), (11, self.places[0] < asked.cells)];
            let row = rows.into_iter().find(|&(_, refused)| refused);
            row.map(|(number, _)| Refusal::of(number, 0).unwrap())
        })
    }

    fn refusal_of_input(&self, places: [usize; 2]) -> Option<Refusal> {
        let exceed = || u32::exceed(&self.left.values, &self.right.values).then_some((10, 0));
        let (number, place) = self
            .refused_setting(places, faulty_place)
            .or_else(|| self.refused_entry())
            .or_else(exceed)?;
        Some(Refusal::of(number, place).unwrap())
    }
}
