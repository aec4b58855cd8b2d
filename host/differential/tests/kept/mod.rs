//! Blank sky that a list keeps (note 11 of 02), in a count map that was built or pooled: for all tests of what
//! is drawn.

use differential::{cells::Cell, lists::Value};

pub struct Map<'a> {
    pub entries: &'a [(Cell, u32)],
    pub listed: &'a [Cell],
    /// M
    pub depth_threshold: u8,
    /// T
    pub chi2_threshold: f64,
}

impl Map<'_> {
    /// The listed parents of four blank entries, from M on.
    fn kept_blanks(&self) -> impl Iterator<Item = Cell> + '_ {
        self.entries.windows(4).filter_map(|four| {
            let first = four[0].0;
            let parent = first.ancestor(first.depth.checked_sub(1)?);
            let is_kept = parent.depth >= self.depth_threshold && self.listed.contains(&parent);
            let blanks = parent.children().map(|child| (child, 0));
            (is_kept && four == blanks).then_some(parent)
        })
    }

    pub fn keeps_blanks(&self) -> bool {
        self.kept_blanks().next().is_some()
    }

    /// Whether one of them would have been merged further, with its siblings, if its children had been.
    pub fn is_apart_above_blanks(&self) -> bool {
        self.kept_blanks().any(|kept| {
            let parent = kept.depth.checked_sub(1).map(|depth| kept.ancestor(depth));
            parent.is_some_and(|parent| self.would_merge(parent, kept))
        })
    }

    fn would_merge(&self, parent: Cell, blank: Cell) -> bool {
        let mut counts = [0; 4];
        for (count, child) in counts.iter_mut().zip(parent.children()) {
            match self.entries.iter().find(|(cell, _)| *cell == child) {
                Some(entry) => *count = entry.1,
                None if child == blank => {}
                None => return false,
            }
        }
        let merges =
            u32::are_blank(counts) || u32::chi2(counts, parent.depth) < self.chi2_threshold;
        merges && parent.depth >= self.depth_threshold && !self.listed.contains(&parent)
    }
}
