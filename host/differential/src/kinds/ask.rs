//! A pool that is asked for: its figures in both orders, beside the cells, the entries and the total of the
//! original's `merge`, and beside our own pool.

use mom::{Figures, Refusal};

use crate::{
    compare::Kind,
    lists::Answer,
    pairs::{in_a_base_cell, nested, under_lists, Call, Input},
    protected,
    random::Random,
};

pub struct Ask;

/// What an ask answers, and what the pool answers for just as many places as there are cells, and for one
/// less.
pub type Asked = (Result<Figures, Refusal>, Vec<Answer<u32>>);

impl Kind for Ask {
    const NAME: &'static str = "ask";
    type Input = Input<u32>;
    type Answer = [Asked; 2];

    /// Some of the pool's small pairs: of those in a base cell all at which something may merge, the blank ones
    /// under lists too, and an entry in another one where all does but for a list.
    fn small() -> impl Iterator<Item = Input<u32>> {
        let few = in_a_base_cell(&[1, 6], [(0, 3.5), (0, f64::INFINITY)]);
        let blank = under_lists(in_a_base_cell(&[0], [(0, 0.0), (1, 0.0)]));
        let nested = protected::with_lists(nested(&[f64::INFINITY]), Input::under_nested);
        few.chain(blank).chain(nested)
    }

    fn random(random: &mut Random) -> Option<Input<u32>> {
        Some(Input::random(random))
    }

    fn ours(input: &Input<u32>) -> [Asked; 2] {
        [input, &input.swapped()].map(|input| {
            let figures = ask(input);
            let pools = figures.map_or(vec![], |figures| pools(input, figures.cells));
            (figures, pools)
        })
    }

    fn original(input: &Input<u32>) -> [Asked; 2] {
        [input, &input.swapped()].map(|input| match input.asked() {
            Err(refusal) => (Err(refusal), vec![]),
            Ok(pooled) => {
                let figures = pooled.figures();
                let enough = Ok((figures.entries, figures.total));
                let too_few = (figures.cells > 0).then_some(Err(Refusal::NoSpace));
                (Ok(figures), [enough].into_iter().chain(too_few).collect())
            }
        })
    }
}

pub fn ask(input: &Input<u32>) -> Result<Figures, Refusal> {
    let [left, right] = input.maps();
    let (m, t) = (input.depth_threshold, input.chi2_threshold.0);
    mom::ask(left, right, m, t, &input.protected)
}

/// More cells than any of the pairs has: a wrong figure is not to take all memory.
const MOST: usize = 1 << 16;

fn pools(input: &Input<u32>, cells: usize) -> Vec<Answer<u32>> {
    let cells = cells.min(MOST);
    let places = [Some(cells), cells.checked_sub(1)].into_iter().flatten();
    let pool = |places| {
        let (mut zuniqs, mut counts) = (vec![0; places], vec![0; places]);
        u32::combine(input, &mut zuniqs, &mut counts)
    };
    places.map(pool).collect()
}
