//! A pool that was asked for, done: with the figures that an ask answers, and with others. The answer and both
//! output buffers whole, of both orders, are compared with what the original's `merge` makes of the maps and
//! with the table of refusals; beside them an ask followed by its commit, and the pool, which are to be the
//! same.

use mom::{Added, Figures};

use super::ask::ask;
use crate::{
    compare::Kind,
    lists::{Answer, Step},
    pairs::{in_a_base_cell, under_lists, Call, Input as Pair, Pooled},
    random::{any_of, Random},
};

#[derive(Clone, Debug, PartialEq, Eq, PartialOrd, Ord)]
pub struct Input {
    pub pair: Pair<u32>,
    /// Cells, entries and total, right or wrong.
    pub figures: [u64; 3],
}

impl Input {
    pub fn figures(&self) -> Figures {
        let [cells, entries, total] = self.figures;
        Figures {
            cells: cells as usize,
            entries: entries as usize,
            total: total as u32,
        }
    }

    fn swapped(&self) -> Self {
        Input {
            pair: self.pair.swapped(),
            ..self.clone()
        }
    }

    /// With the pair's figures, with any one of them one more or one less, and with the former ones.
    fn about(pair: Pair<u32>) -> impl Iterator<Item = Self> {
        let right = right(&pair);
        let changes = (0..3).flat_map(|which| [(which, 1), (which, u64::MAX)]);
        let wrong = changes.map(move |(which, by)| changed(right, which, by));
        let former = pair.former_figures().map(numbers);
        let figures = wrong.chain(former).chain([right]);
        figures.map(move |figures| Input {
            pair: pair.clone(),
            figures,
        })
    }

    /// Where an ask is refused, no figures would be the right ones: a pool, as a commit of any, is refused by
    /// the same rows, but that these look at the output's lengths too.
    pub fn judged(&self) -> Committed {
        let (pair, figures) = (&self.pair, self.figures());
        let asked = pair.asked();
        let asked = asked.as_ref().map_err(|&refusal| refusal);
        let pool = pair.committed(asked.map_or(figures, Pooled::figures), asked);
        Committed {
            given: pair.committed(figures, asked),
            asked: match asked {
                Ok(_) => pool.clone(),
                Err(refusal) => pair.left_by(Err(refusal)),
            },
            pool,
        }
    }

    pub fn random(random: &mut Random) -> Self {
        let pair = Pair::random(random);
        let figures = match pair.former_figures() {
            Some(former) if random.coin() => numbers(former),
            _ => figures(random, right(&pair)),
        };
        Input { pair, figures }
    }
}

/// What an ask answers of the pair; where it is refused, what it answers of two empty maps.
fn right(pair: &Pair<u32>) -> [u64; 3] {
    let figures = pair.asked().map(|pooled| pooled.figures());
    figures.map_or([0; 3], numbers)
}

fn numbers(figures: Figures) -> [u64; 3] {
    let Figures {
        cells,
        entries,
        total,
    } = figures;
    [cells as u64, entries as u64, total.into()]
}

/// With one of the figures so many more. The total is a u32.
fn changed(mut figures: [u64; 3], which: usize, by: u64) -> [u64; 3] {
    figures[which] = figures[which].wrapping_add(by);
    figures[2] &= u32::MAX as u64;
    figures
}

/// The right figures, or some of them wrong: by one, in one bit, taken for each other, or none at all.
fn figures(random: &mut Random, right: [u64; 3]) -> [u64; 3] {
    let which = random.below(3) as usize;
    let other = (which + 1 + random.below(2) as usize) % 3;
    let one = any_of(random, &[1, u64::MAX]);
    let mut figures = right;
    match random.below(16) {
        0..=7 => {}
        8..=10 => figures = changed(right, which, one),
        11 => figures[which] ^= 1 << random.below(if which < 2 { 64 } else { 32 }),
        12 => figures[which] = right[other],
        13 => figures.swap(which, other),
        14 => figures = changed(changed(right, which, one), other, one.wrapping_neg()),
        _ => figures = [0; 3],
    }
    figures
}

pub struct Commit;

/// What the calls leave: the commit of the figures given, an ask followed by its commit, and the pool.
#[derive(Clone, Debug, PartialEq)]
pub struct Committed {
    pub given: Step<u32>,
    pub asked: Step<u32>,
    pub pool: Step<u32>,
}

impl Kind for Commit {
    const NAME: &'static str = "commit";
    type Input = Input;
    type Answer = [Committed; 2];

    /// All pairs of maps in the first base cell down to depth 1 with counts of 1, and with nothing but 0, these
    /// under a list too: with as many places as there are cells, and with one less.
    fn small() -> impl Iterator<Item = Input> {
        let few = in_a_base_cell(&[1], [(0, 3.5), (1, 3.5)]);
        let blank = under_lists(in_a_base_cell(&[0], [(0, 0.0)]));
        few.chain(blank).flat_map(|pair| {
            let cells = pair.places[0] - 1;
            let too_few = cells.checked_sub(1);
            let places = [Some(cells), too_few].into_iter().flatten();
            places.flat_map(move |places| {
                let places = [places; 2];
                Input::about(Pair {
                    places,
                    ..pair.clone()
                })
            })
        })
    }

    fn random(random: &mut Random) -> Option<Input> {
        Some(Input::random(random))
    }

    fn ours(input: &Input) -> [Committed; 2] {
        [input, &input.swapped()].map(|input| {
            let (pair, figures) = (&input.pair, input.figures());
            Committed {
                given: pair.step(|zuniqs, counts| commit(pair, figures, zuniqs, counts)),
                asked: pair.step(|zuniqs, counts| commit(pair, ask(pair)?, zuniqs, counts)),
                pool: pair.step(|zuniqs, counts| u32::combine(pair, zuniqs, counts)),
            }
        })
    }

    fn original(input: &Input) -> [Committed; 2] {
        [input, &input.swapped()].map(Input::judged)
    }
}

fn commit(
    pair: &Pair<u32>,
    figures: Figures,
    zuniqs: &mut [u64],
    counts: &mut [u32],
) -> Answer<u32> {
    let [left, right] = pair.maps();
    let (m, t) = (pair.depth_threshold, pair.chi2_threshold.0);
    let list = &pair.protected;
    let Added { entries, total } = mom::commit(left, right, m, t, list, figures, zuniqs, counts)?;
    Ok((entries, total))
}
