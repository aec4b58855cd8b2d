//! The coverage of a map. The original has none, so that the request is the judge, read plainly: by the
//! ranges of the entries and, where these have few depth-29 cells, hash by hash. Compared are the answer
//! and both buffers whole.

use std::ops::Range;

use mom::{reach::coverage, Refusal};

use crate::{
    cells::{n_hash, Cell, DEPTH_MAX},
    compare::Kind,
    maps::{faulty_entry, Map},
    pairs::Given,
    random::{any_of, Random},
    reach::{self, coverage_by_hash, coverage_of, deepened},
};

pub struct Cover;

#[derive(Clone, Debug, PartialEq, Eq, PartialOrd, Ord)]
pub struct Input {
    /// How many places the two buffers have.
    pub places: [usize; 2],
    /// The map, with values that the call has no use for.
    pub map: Given<u32>,
    /// What stands in every place before the call.
    pub content: u64,
}

/// An answer, and the buffers after it.
pub type Step = (Result<usize, Refusal>, Vec<u64>, Vec<u64>);

impl Input {
    fn new(depth: u8, cells: &[Cell], places: usize) -> Self {
        Input {
            places: [places; 2],
            map: Given::new(depth, cells, vec![0; cells.len()]),
            content: u64::MAX,
        }
    }

    /// The small maps, as they are and at the bottom of the tree, at both ends of the sky; and the first
    /// and the last cell of every depth.
    fn small() -> impl Iterator<Item = Self> {
        let single = (0..=DEPTH_MAX).flat_map(|depth| {
            let ends = [0, n_hash(depth) - 1];
            ends.map(|hash| vec![Cell { depth, hash }])
        });
        let maps = Map::small().flat_map(|map| {
            let last = n_hash(DEPTH_MAX - 2) - 12;
            let bottom = [0, last].map(|first| deepened(&map, first));
            [map.cells().to_vec()].into_iter().chain(bottom)
        });
        maps.chain(single)
            .map(|cells| Input::new(DEPTH_MAX, &cells, cells.len()))
    }

    pub fn random(random: &mut Random) -> Self {
        let (cells, _) = reach::random(random);
        let deepest = cells.iter().map(|cell| cell.depth).max().unwrap_or(0);
        let depth = any_of(random, &[deepest, DEPTH_MAX]);
        let ranges = coverage_of(&cells).len();
        let places = match random.below(4) {
            0 => ranges,
            1 => (ranges + 1).saturating_sub(random.below(3) as usize),
            2 => cells.len(),
            _ => ranges + random.below(20) as usize,
        };
        let mut input = Input::new(depth, &cells, places);
        input.content = any_of(random, &[0, 1, u64::MAX]);
        for _ in 0..any_of(random, &[0, 0, 0, 0, 0, 1, 1, 2]) {
            input.change(random);
        }
        input
    }

    /// Makes a change by which the call is refused, or may be.
    fn change(&mut self, random: &mut Random) {
        match random.below(6) {
            0 => self.map.depth = any_of(random, &[DEPTH_MAX + 1, 255]),
            1 => self.places[random.below(2) as usize] += 1,
            2 => self.places = self.places.map(|places| places.saturating_sub(1)),
            _ => self.map.change(random),
        }
    }

    /// The cells of a valid map.
    pub fn cells(&self) -> Vec<Cell> {
        let cells = self.map.zuniqs.iter().map(|&zuniq| Cell::of_zuniq(zuniq));
        cells.map(|cell| cell.expect("a valid map")).collect()
    }

    /// What the table says of the call, in its order.
    pub fn refusal(&self) -> Option<Refusal> {
        let (number, place) = self
            .refused_before_space()
            .or_else(|| (coverage_of(&self.cells()).len() > self.places[0]).then_some((11, 0)))?;
        Some(Refusal::of(number, place).unwrap())
    }

    /// Rows 1, 4 and 5.
    pub fn refused_before_space(&self) -> Option<(u8, usize)> {
        let rows = [
            (1, self.map.depth > DEPTH_MAX),
            (4, self.places[0] != self.places[1]),
        ];
        let setting = rows.into_iter().find(|&(_, refused)| refused);
        let faulty = || faulty_entry(self.map.depth, &self.map.zuniqs);
        let setting = setting.map(|(number, _)| (number, 0));
        setting.or_else(|| faulty().map(|place| (5, place)))
    }

    /// Makes a call on buffers of its own.
    pub fn step(
        &self,
        call: impl FnOnce(&mut [u64], &mut [u64]) -> Result<usize, Refusal>,
    ) -> Step {
        let [of_starts, of_ends] = self.places;
        let (mut starts, mut ends) = (vec![self.content; of_starts], vec![self.content; of_ends]);
        let answer = call(&mut starts, &mut ends);
        (answer, starts, ends)
    }

    /// What the table says or else these ranges of the entries, with zeros behind them.
    fn judged(&self, ranges: impl FnOnce(&[Cell]) -> Vec<Range<u64>>) -> Step {
        let refusal = self.refusal();
        self.step(|starts, ends| {
            if let Some(refusal) = refusal {
                return Err(refusal);
            }
            let ranges = ranges(&self.cells());
            starts.fill(0);
            ends.fill(0);
            for (place, range) in ranges.iter().enumerate() {
                starts[place] = range.start;
                ends[place] = range.end;
            }
            Ok(ranges.len())
        })
    }
}

impl Kind for Cover {
    const NAME: &'static str = "coverage";
    type Input = Input;
    type Answer = [Step; 2];

    fn small() -> impl Iterator<Item = Input> {
        Input::small()
    }

    fn random(random: &mut Random) -> Option<Input> {
        Some(Input::random(random))
    }

    fn ours(input: &Input) -> [Step; 2] {
        let map = &input.map;
        let step = input.step(|starts, ends| coverage(map.depth, &map.zuniqs, starts, ends));
        [step.clone(), step]
    }

    fn original(input: &Input) -> [Step; 2] {
        let by_hash =
            |cells: &[Cell]| coverage_by_hash(cells).unwrap_or_else(|| coverage_of(cells));
        [input.judged(coverage_of), input.judged(by_hash)]
    }
}
