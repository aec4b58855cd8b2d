//! A pool asked before it is done. The original has no such call: the request's reading is the only judge.
//! Where the output is of one length, the single call has to be an ask followed by its commit.

use mom::{Added, Figures, Map, Refusal};

use super::{
    assert_some,
    draw::{CombineCall, Draw},
    fenced, lent, map, plain, Met,
};

type Answer<T> = Result<T, Refusal>;

/// Values round the output that no call writes.
const FENCES: (u64, u32) = (0xdead_beef, 0xdead_beef);

const NONE: Figures = Figures {
    cells: 0,
    entries: 0,
    total: 0,
};

/// The numbers that were met, and how often what is told apart by one figure alone, or by the order of the
/// refusals.
#[derive(Default)]
pub struct Asking {
    asked: Met,
    committed: Met,
    /// Accepted, with all cells or fewer entries left.
    unmerged: usize,
    merged: usize,
    /// Asked with other entries than under no list; also where there is nothing but blank sky.
    kept: usize,
    blank: usize,
    /// Refused by 16 for the entries that blank sky would have under no list, as it had before request 11.
    former: usize,
    /// Refused by 16 for the cells, the entries or the total alone.
    one: [usize; 3],
    /// Refused by 16, where there are too few places too.
    without_space: usize,
    /// Refused by 10, where a figure isn't 0, so that no pool of these counts could have them.
    over: usize,
    /// Refused by 4 for the output, where asking refuses later in the table or not at all.
    lengths: usize,
}

/// What a commit answers, and its output afterwards with the fences.
fn committed(
    [left, right]: [Map<u32>; 2],
    call: &CombineCall,
    figures: Figures,
    (z, n): (&[u64], &[u32]),
) -> (Answer<(usize, u32)>, Vec<u64>, Vec<u32>) {
    let (mut z, mut n) = (fenced(FENCES.0, z), fenced(FENCES.1, n));
    let (oz, on) = (lent(&mut z), lent(&mut n));
    let list = &call.protected;
    let answer = mom::commit(left, right, call.m, call.t, list, figures, oz, on);
    (answer.map(told), z, n)
}

fn told(added: Added) -> (usize, u32) {
    (added.entries, added.total)
}

impl Asking {
    pub fn round(&mut self, draw: &mut Draw, call: &CombineCall, values: [&[u32]; 2]) {
        let maps = [0, 1].map(|side| map(&call.sides[side], values[side]));
        let shown = || format!("{call:?} {values:?}");
        let asked = mom::ask(maps[0], maps[1], call.m, call.t, &call.protected);
        self.asked.add(&asked);
        assert_eq!(asked, plain::ask(call, values), "{}", shown());
        if asked.is_ok() {
            let swapped = mom::ask(maps[1], maps[0], call.m, call.t, &call.protected);
            assert_eq!(swapped, asked, "{}", shown());
        }

        let right = asked.unwrap_or(NONE);
        let unlisted = asked.and(plain::ask(&call.unprotected(), values));
        let unlisted = unlisted.unwrap_or(NONE);
        let is_blank = unlisted != right && right.total == 0;
        self.kept += (unlisted != right) as usize;
        self.blank += is_blank as usize;
        let figures = match is_blank && draw.one_in(4) {
            true => unlisted,
            false => draw.figures(right),
        };
        let (z, places) = draw.output(right.cells);
        let n = draw.counts_of(places);
        let expected = plain::commit(call, values, figures, &z, &n);
        let (answer, oz, on) = committed(maps, call, figures, (&z, &n));
        assert_eq!(answer, expected.0, "{figures:?} {}", shown());
        assert_eq!(oz, fenced(FENCES.0, &expected.1), "{}", shown());
        assert_eq!(on, fenced(FENCES.1, &expected.2), "{}", shown());
        self.committed.add(&answer);
        let is_refused = answer.is_err_and(|refusal| refusal.number() == 16);
        self.former += (is_refused && is_blank && figures == unlisted) as usize;
        self.tally(asked, figures, z.len(), answer);
        if z.len() == n.len() {
            assert_single_call(maps, call, asked, (&z, &n));
        }
    }

    fn tally(
        &mut self,
        asked: Answer<Figures>,
        figures: Figures,
        places: usize,
        answer: Answer<(usize, u32)>,
    ) {
        let right = asked.unwrap_or(NONE);
        match answer.map_err(|refusal| refusal.number()) {
            Ok((entries, _)) => {
                self.unmerged += (entries == right.cells) as usize;
                self.merged += (entries < right.cells) as usize;
            }
            Err(16) => {
                let differ = [
                    figures.cells != right.cells,
                    figures.entries != right.entries,
                    figures.total != right.total,
                ];
                let alone = differ.iter().filter(|&&differs| differs).count() == 1;
                for (one, differs) in self.one.iter_mut().zip(differ) {
                    *one += (alone && differs) as usize;
                }
                self.without_space += (places < right.cells) as usize;
            }
            Err(10) => self.over += (figures != NONE) as usize,
            Err(4) => {
                let is_of_a_map = asked.is_err_and(|refusal| refusal.number() == 4);
                self.lengths += !is_of_a_map as usize;
            }
            Err(_) => {}
        }
    }

    pub fn assert_all(self) {
        assert_some("asking", "a pool with nothing merged", self.unmerged);
        assert_some("asking", "a pool with cells merged", self.merged);
        assert_some("asking", "cells kept by the list", self.kept);
        assert_some("asking", "blank sky kept by the list", self.blank);
        assert_some("asking", "the former entries of blank sky", self.former);
        assert_some("asking", "other cells alone", self.one[0]);
        assert_some("asking", "other entries alone", self.one[1]);
        assert_some("asking", "another total alone", self.one[2]);
        let what = "other figures and too few places";
        assert_some("asking", what, self.without_space);
        assert_some("asking", "other figures of too many counts", self.over);
        let what = "an output of two lengths for what isn't refused by 4";
        assert_some("asking", what, self.lengths);
        self.asked.assert_all(&[0, 1, 2, 3, 4, 5, 10, 15]);
        let numbers = &[0, 1, 2, 3, 4, 5, 10, 11, 15, 16];
        self.committed.assert_all(numbers);
    }
}

/// "The old single call stays and, where its output buffers are of equal length, equals an ask followed by
/// its commit, in its refusals too."
fn assert_single_call(
    maps: [Map<u32>; 2],
    call: &CombineCall,
    asked: Answer<Figures>,
    (z, n): (&[u64], &[u32]),
) {
    let followed = match asked {
        Ok(figures) => committed(maps, call, figures, (z, n)),
        Err(refusal) => (Err(refusal), fenced(FENCES.0, z), fenced(FENCES.1, n)),
    };
    let [left, right] = maps;
    let (mut oz, mut on) = (fenced(FENCES.0, z), fenced(FENCES.1, n));
    let (z, n) = (lent(&mut oz), lent(&mut on));
    let pooled = mom::pool(left, right, call.m, call.t, &call.protected, z, n);
    assert_eq!((pooled.map(told), oz, on), followed, "{call:?} {maps:?}");
}
