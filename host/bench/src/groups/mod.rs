//! The works that are timed. Each is first done once by both, and the answers are held together.

pub mod adding;
pub mod cells;
pub mod columns;
pub mod combining;
pub mod growth;
pub mod lookup;
pub mod moving;
pub mod program;
pub mod reach;
pub mod rows;

use crate::measure::Rounds;

/// How large the works are.
#[derive(Clone, Copy)]
pub struct Plan {
    pub rounds: Rounds,
    /// Depths are so many less than in the table of docs/PERFORMANCE.md: for trying the bench out.
    pub shallower: u8,
}

impl Plan {
    /// A number of things, as many less as there are fewer cells, but one at least where there is one.
    pub fn smaller(&self, number: usize) -> usize {
        (number >> (2 * self.shallower)).max(number.min(1))
    }
}

pub struct Group {
    pub name: &'static str,
    pub run: fn(Plan),
}

pub const GROUPS: [Group; 10] = [
    Group {
        name: "cells",
        run: cells::run,
    },
    Group {
        name: "adding",
        run: adding::run,
    },
    Group {
        name: "combining",
        run: combining::run,
    },
    Group {
        name: "lookup",
        run: lookup::run,
    },
    Group {
        name: "rows",
        run: rows::run,
    },
    Group {
        name: "moving",
        run: moving::run,
    },
    Group {
        name: "columns",
        run: columns::run,
    },
    Group {
        name: "reach",
        run: reach::run,
    },
    Group {
        name: "mombuild",
        run: program::run,
    },
    Group {
        name: "growth",
        run: growth::run,
    },
];
