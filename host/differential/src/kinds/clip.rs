//! A density map clipped to a coverage. The original has no such call, so that the request is the judge,
//! read plainly: what each entry and each range have in common is cut from the left, and where the coverage
//! has few depth-29 cells the tree is gone down, word for word. Compared are the answer and both output
//! buffers whole.

use std::ops::Range;

use mom::{reach::clip, Refusal};

use crate::{
    cells::{n_hash, Cell, DEPTH_MAX},
    compare::Kind,
    floats::Float,
    lists::Value,
    maps::{faulty_entry, split_in},
    pairs::Given,
    random::{any_of, Random},
    reach::{self, clipped, clipped_by_tree, Coverage},
};

pub struct Clip;

#[derive(Clone, Debug, PartialEq, Eq, PartialOrd, Ord)]
pub struct Input {
    /// How many places the output's two buffers have.
    pub places: [usize; 2],
    pub map: Given<Float>,
    pub coverage: Coverage,
    /// What stands in every place before the call.
    pub content: u64,
}

/// An answer, and the output's buffers after it.
pub type Step = (Result<usize, Refusal>, Vec<u64>, Vec<Float>);

/// A cell of the clipped map, with its density.
pub type Piece = (Cell, Float);

impl Input {
    /// With places for all cells, and one more. Each density is the entry's place, from 1.
    fn new(cells: &[Cell], ranges: &[Range<u64>]) -> Self {
        let densities = (1..=cells.len()).map(|place| Float(place as f64));
        let mut input = Input {
            places: [0; 2],
            map: Given::new(DEPTH_MAX, cells, densities.collect()),
            coverage: Coverage::of(ranges),
            content: u64::MAX,
        };
        input.places = [input.cells().len() + 1; 2];
        input
    }

    /// All that a cell of depth 27 can be split into, clipped to every range of its hashes and of those
    /// beside it; a few of these also to every two ranges. At both ends of the sky.
    fn small() -> impl Iterator<Item = Self> {
        let depth = DEPTH_MAX - 2;
        let tops = [0, n_hash(depth) - 1].map(|hash| Cell { depth, hash });
        tops.into_iter().flat_map(|top| {
            let split = (0..81).map(move |ways| split_in(top, ways));
            let all = split.chain([vec![top], vec![top.ancestor(0)]]);
            let one = all.flat_map(move |cells| {
                let ranges = ranges_about(top).into_iter().map(|range| vec![range]);
                let ranges = ranges.chain([vec![]]);
                ranges.map(move |ranges| Input::new(&cells, &ranges))
            });
            let few = [vec![top], split_in(top, 40), split_in(top, 65)];
            let two = few.into_iter().flat_map(move |cells| {
                let ranges = two_ranges_about(top).into_iter();
                ranges.map(move |ranges| Input::new(&cells, &ranges))
            });
            one.chain(two)
        })
    }

    pub fn random(random: &mut Random) -> Self {
        let (cells, coverage) = reach::random(random);
        let deepest = cells.iter().map(|cell| cell.depth).max().unwrap_or(0);
        let depth = any_of(random, &[deepest, DEPTH_MAX]);
        let densities = <Float as Value>::random(random, deepest.max(1), cells.len());
        let mut input = Input {
            places: [0; 2],
            map: Given::new(depth, &cells, densities),
            coverage,
            content: any_of(random, &[0, 1, 1 << 58, u64::MAX, 0x7ff8 << 48 | 5]),
        };
        let cells = input.cells().len();
        let places = match random.below(4) {
            0 => cells,
            1 => (cells + 1).saturating_sub(random.below(3) as usize),
            _ => cells + random.below(20) as usize,
        };
        input.places = [places; 2];
        match random.below(16) {
            0..=3 => input.change(random),
            4 => (0..2).for_each(|_| input.change(random)),
            5 => {
                input.map.change(random);
                input.coverage.change(random);
            }
            _ => {}
        }
        input
    }

    /// Makes a change by which the call is refused, or may be.
    fn change(&mut self, random: &mut Random) {
        match random.below(10) {
            0 => self.map.depth = any_of(random, &[DEPTH_MAX + 1, 255]),
            1 => self.places[random.below(2) as usize] += 1,
            2 => self.places = self.places.map(|places| places.saturating_sub(1)),
            3..=5 => self.map.change(random),
            _ => self.coverage.change(random),
        }
    }

    /// What is left of a valid map by a valid coverage.
    pub fn cells(&self) -> Vec<Piece> {
        clipped(&self.map.entries(), &self.coverage.ranges())
    }

    /// The same, where it can be, down the tree.
    fn cells_by_tree(&self) -> Vec<Piece> {
        let cells = clipped_by_tree(&self.map.entries(), &self.coverage.ranges());
        cells.unwrap_or_else(|| self.cells())
    }

    /// What the table says of the call, in its order.
    pub fn refusal(&self) -> Option<Refusal> {
        let (number, place) = self
            .refused_setting()
            .or_else(|| self.refused_map())
            .or_else(|| self.coverage.faulty_range().map(|place| (14, place)))
            .or_else(|| (self.cells().len() > self.places[0]).then_some((11, 0)))?;
        Some(Refusal::of(number, place).unwrap())
    }

    /// Rows 1 and 4.
    pub fn refused_setting(&self) -> Option<(u8, usize)> {
        let (map, coverage) = (&self.map, &self.coverage);
        let rows = [
            (1, map.depth > DEPTH_MAX),
            (4, map.zuniqs.len() != map.values.len()),
            (4, coverage.starts.len() != coverage.ends.len()),
            (4, self.places[0] != self.places[1]),
        ];
        let (number, _) = rows.into_iter().find(|&(_, refused)| refused)?;
        Some((number, 0))
    }

    /// Rows 5 and 6.
    pub fn refused_map(&self) -> Option<(u8, usize)> {
        let map = &self.map;
        let faulty = faulty_entry(map.depth, &map.zuniqs).map(|place| (5, place));
        faulty.or_else(|| {
            let invalid = map.values.iter().position(|value| value.is_invalid());
            invalid.map(|place| (6, place))
        })
    }

    /// Makes a call on buffers of its own.
    pub fn step(
        &self,
        call: impl FnOnce(&mut [u64], &mut [Float]) -> Result<usize, Refusal>,
    ) -> Step {
        let [of_zuniqs, of_densities] = self.places;
        let mut zuniqs = vec![self.content; of_zuniqs];
        let mut densities = vec![Float::of_content(self.content); of_densities];
        let answer = call(&mut zuniqs, &mut densities);
        (answer, zuniqs, densities)
    }

    /// What the table says or else these cells, with zeros behind them.
    fn judged(&self, cells: impl FnOnce() -> Vec<Piece>) -> Step {
        let refusal = self.refusal();
        self.step(|zuniqs, densities| {
            if let Some(refusal) = refusal {
                return Err(refusal);
            }
            let cells = cells();
            zuniqs.fill(0);
            densities.fill(Float::ZERO);
            for (place, &(cell, density)) in cells.iter().enumerate() {
                zuniqs[place] = cell.zuniq();
                densities[place] = density;
            }
            Ok(cells.len())
        })
    }
}

/// All ranges among the hashes of a cell and one on either side.
fn ranges_about(top: Cell) -> Vec<Range<u64>> {
    let inside = reach::hashes(top);
    let (first, last) = (
        inside.start.saturating_sub(1),
        (inside.end + 1).min(reach::SKY),
    );
    let from = |start: u64| (start + 1..=last).map(move |end| start..end);
    (first..last).flat_map(from).collect()
}

fn two_ranges_about(top: Cell) -> Vec<Vec<Range<u64>>> {
    let ranges = ranges_about(top);
    let pairs = ranges.iter().flat_map(|left| {
        let above = ranges.iter().filter(move |right| right.start > left.end);
        above.map(move |right| vec![left.clone(), right.clone()])
    });
    pairs.collect()
}

/// Our call, on densities by their bits.
fn ours(input: &Input, zuniqs: &mut [u64], densities: &mut [Float]) -> Result<usize, Refusal> {
    let (map, coverage) = (&input.map, &input.coverage);
    let given: Vec<f64> = map.values.iter().map(|density| density.0).collect();
    let mut output: Vec<f64> = densities.iter().map(|density| density.0).collect();
    let (starts, ends) = (&coverage.starts, &coverage.ends);
    let answer = clip(
        map.depth,
        &map.zuniqs,
        &given,
        starts,
        ends,
        zuniqs,
        &mut output,
    );
    for (place, density) in output.into_iter().enumerate() {
        densities[place] = Float(density);
    }
    answer
}

impl Kind for Clip {
    const NAME: &'static str = "clip";
    type Input = Input;
    type Answer = [Step; 2];

    fn small() -> impl Iterator<Item = Input> {
        Input::small()
    }

    fn random(random: &mut Random) -> Option<Input> {
        Some(Input::random(random))
    }

    fn ours(input: &Input) -> [Step; 2] {
        let step = input.step(|zuniqs, densities| ours(input, zuniqs, densities));
        [step.clone(), step]
    }

    fn original(input: &Input) -> [Step; 2] {
        let by_ranges = input.judged(|| input.cells());
        [by_ranges, input.judged(|| input.cells_by_tree())]
    }
}
