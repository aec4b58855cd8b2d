//! A pool that is asked for before it is done (note 8 of 02): what an ask and a commit are to answer, by the
//! table and by what the original makes of the maps.

use mom::{Figures, Refusal};
use oracle::run;

use super::Input;
use crate::{
    lists::{Step, Value},
    protected,
};

/// The original's pool.
#[derive(Clone, Debug)]
pub struct Pooled {
    /// How many cells its rule was handed: those of the overlay, before merging.
    pub cells: usize,
    pub entries: Vec<(u64, u32)>,
}

impl Pooled {
    pub fn figures(&self) -> Figures {
        Figures {
            cells: self.cells,
            entries: self.entries.len(),
            total: u32::total(&self.entries),
        }
    }
}

impl Input<u32> {
    fn pooled(&self) -> Pooled {
        let [left, right] = self.moms();
        let (m, t) = (self.depth_threshold, self.chi2_threshold.0);
        let protects = run::listed(&self.protected);
        let (cells, entries) = run::pool_with_cells(left, right, m, t, protects);
        Pooled { cells, entries }
    }

    /// What an ask is to tell the figures of.
    pub fn asked(&self) -> Result<Pooled, Refusal> {
        match self.refusal_of_ask() {
            Some(refusal) => Err(refusal),
            None => Ok(self.pooled()),
        }
    }

    /// What an ask told before note 11, where that was another: the figures in which blank sky is merged under
    /// listed parents too.
    pub fn former_figures(&self) -> Option<Figures> {
        let right = self.asked().ok()?.figures();
        let protected = protected::without_blanks(&self.protected, &self.kept());
        let former = Input {
            protected,
            ..self.clone()
        };
        let figures = former.pooled().figures();
        (figures != right).then_some(figures)
    }

    /// What a commit of figures is to leave, by what an ask is answered.
    pub fn committed(&self, figures: Figures, asked: Result<&Pooled, Refusal>) -> Step<u32> {
        let refusal = self.refusal_of_commit(figures, asked.ok().map(Pooled::figures));
        self.left_by(match refusal {
            Some(refusal) => Err(refusal),
            None => asked.map(|pooled| &pooled.entries[..]),
        })
    }
}
