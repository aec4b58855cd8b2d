//! Count maps moved from one width to the other: narrowed from u64, or widened from u32. The answer and
//! both output buffers whole are compared with the original's `to_zuniq_u32` and `to_zuniq_u64`, from its
//! vector and from rows, and with the scope's table of refusals. The original keeps the depth of a map
//! that it narrows, also over 13.

use std::marker::PhantomData;

use mom::{moving::Moved, Refusal};
use oracle::run;

use crate::{
    cells::{n_hash, Cell},
    compare::Kind,
    lists::{List, Value},
    maps::{faulty_entry, Map},
    pairs::Given,
    random::{any_of, Random},
    widths::{named, Width},
};

/// Moving from a width to the other.
pub struct Move<Z>(PhantomData<Z>);

#[derive(Clone, Debug, PartialEq, Eq, PartialOrd, Ord)]
pub struct Input<Z: Width> {
    /// How many places the output's two buffers have.
    pub places: [usize; 2],
    pub map: Given<u32, Z>,
    /// What stands in every place before the call.
    pub content: u64,
}

/// An answer, and the output's buffers after it.
pub type Step<Z> = (Result<Moved, Refusal>, Vec<<Z as Width>::Other>, Vec<u32>);

impl<Z: Width> Input<Z> {
    /// The small maps, and the first and the last cell of every depth; at their own depth and at the
    /// largest one.
    fn small() -> impl Iterator<Item = Self> {
        let single = (0..=Z::DEPTH_MAX).flat_map(|depth| {
            let ends = [0, n_hash(depth) - 1];
            ends.map(|hash| vec![Cell { depth, hash }])
        });
        let maps = Map::small().map(|map| map.cells().to_vec());
        maps.chain(single).flat_map(|cells| {
            let deepest = cells.iter().map(|cell| cell.depth).max().unwrap_or(0);
            [deepest, Z::DEPTH_MAX].map(|depth| Input {
                places: [cells.len() + 1; 2],
                map: Given::new(depth, &cells, (0..cells.len() as u32).collect()),
                content: u64::MAX,
            })
        })
    }

    pub fn random(random: &mut Random) -> Self {
        let map = map::<Z>(random);
        let entries = map.zuniqs.len();
        let places = match random.below(4) {
            0 => entries,
            1 => (entries + 1).saturating_sub(random.below(3) as usize),
            _ => entries + random.below(20) as usize,
        };
        let mut input = Input {
            places: [places; 2],
            map,
            content: any_of(random, &[0, 1, u64::MAX]),
        };
        for _ in 0..any_of(random, &[0, 0, 0, 0, 0, 1, 1, 2]) {
            input.change(random);
        }
        input
    }

    /// Makes a change by which the call is refused, or may be.
    fn change(&mut self, random: &mut Random) {
        match random.below(6) {
            0 => self.map.depth = any_of(random, &[Z::DEPTH_MAX + 1, 255]),
            1 => self.places[random.below(2) as usize] += 1,
            2 => self.places = self.places.map(|places| places.saturating_sub(1)),
            _ => self.map.change(random),
        }
    }

    /// What the table says of the call, in its order.
    pub fn refusal(&self) -> Option<Refusal> {
        let Given {
            depth,
            zuniqs,
            values,
        } = &self.map;
        let lengths_differ = zuniqs.len() != values.len() || self.places[0] != self.places[1];
        let settings = [(1, *depth > Z::DEPTH_MAX), (4, lengths_differ)];
        let setting = settings.into_iter().find(|&(_, refused)| refused);
        let (number, place) = setting
            .map(|(number, _)| (number, 0))
            .or_else(|| faulty_entry(*depth, zuniqs).map(|place| (5, place)))
            .or_else(|| self.too_deep().map(|place| (13, place)))
            .or_else(|| (zuniqs.len() > self.places[0]).then_some((11, 0)))?;
        Some(Refusal::of(number, place).unwrap())
    }

    /// Row 13: the first entry whose cell the other width doesn't have.
    fn too_deep(&self) -> Option<usize> {
        let cells = self.map.zuniqs.iter().map(|&zuniq| Cell::of_zuniq(zuniq));
        let mut depths = cells.map(|cell| cell.map_or(0, |cell| cell.depth));
        depths.position(|depth| depth > Z::Other::DEPTH_MAX)
    }

    /// Makes a call on buffers of its own.
    pub fn step(
        &self,
        call: impl FnOnce(&mut [Z::Other], &mut [u32]) -> Result<Moved, Refusal>,
    ) -> Step<Z> {
        let [of_zuniqs, of_counts] = self.places;
        let mut zuniqs = vec![Z::Other::of(self.content); of_zuniqs];
        let mut counts = vec![self.content as u32; of_counts];
        let answer = call(&mut zuniqs, &mut counts);
        (answer, zuniqs, counts)
    }

    /// What the table says or else what the original makes of the entries, with zeros behind it.
    fn judged(&self, original: impl FnOnce() -> (u8, Vec<(Z::Other, u32)>)) -> Step<Z> {
        let refusal = self.refusal();
        self.step(|zuniqs, counts| {
            if let Some(refusal) = refusal {
                return Err(refusal);
            }
            let (depth, entries) = original();
            zuniqs.fill(Z::Other::of(0));
            counts.fill(0);
            for (place, &(zuniq, count)) in entries.iter().enumerate() {
                zuniqs[place] = zuniq;
                counts[place] = count;
            }
            Ok(Moved {
                depth: depth.min(Z::Other::DEPTH_MAX),
                entries: entries.len(),
            })
        })
    }
}

/// A map of cells that both widths have or, now and then, of any. Its depth is that of the deepest one, or
/// one below it.
fn map<Z: Width>(random: &mut Random) -> Given<u32, Z> {
    let map = match random.below(4) {
        0 => Map::random::<Z>(Z::DEPTH_MAX, random),
        _ => {
            let depth = random.below(u32::DEPTH_MAX as u64 + 1) as u8;
            Map::random::<u32>(depth, random)
        }
    };
    let cells = map.cells();
    let deepest = cells.iter().map(|cell| cell.depth).max().unwrap_or(0);
    let depth = match random.coin() {
        true => deepest,
        false => deepest + random.below((Z::DEPTH_MAX - deepest) as u64 + 1) as u8,
    };
    let counts = <u32 as Value>::random(random, deepest.max(1), cells.len());
    Given::new(depth, cells, counts)
}

impl<Z: Width> Kind for Move<Z> {
    const NAME: &'static str = named::<Z>("narrow", "widen");
    type Input = Input<Z>;
    type Answer = [Step<Z>; 2];

    fn small() -> impl Iterator<Item = Input<Z>> {
        Input::small()
    }

    fn random(random: &mut Random) -> Option<Input<Z>> {
        Some(Input::random(random))
    }

    fn ours(input: &Input<Z>) -> Self::Answer {
        let map = &input.map;
        let step = input.step(|zuniqs, counts| {
            (Z::OURS.moving)(map.depth, &map.zuniqs, &map.values, zuniqs, counts)
        });
        [step.clone(), step]
    }

    fn original(input: &Input<Z>) -> Self::Answer {
        let Given {
            depth,
            zuniqs,
            values,
        } = &input.map;
        let entries = || zuniqs.iter().copied().zip(values.iter().copied()).collect();
        let (bytes, _) = run::write_rows(entries());
        [
            input.judged(|| Z::moved(run::mom(*depth, entries()))),
            input.judged(|| Z::moved_from_rows(*depth, &bytes)),
        ]
    }
}

/// What the original builds at a width, moved by ours to the other, against what the original builds there
/// from the same cells.
pub struct MoveBuilt<Z>(PhantomData<Z>);

fn built<Z: Width>(list: &List<u32>) -> Vec<(Z, u32)> {
    let (m, t) = (list.depth_threshold, list.chi2_threshold.0);
    run::build_counts(list.depth, m, t, run::unprotected, list.cells().into_iter())
}

impl<Z: Width> Kind for MoveBuilt<Z> {
    const NAME: &'static str = named::<Z>("narrow_built", "widen_built");
    type Input = List<u32>;
    /// The depth and the entries.
    type Answer = Result<(u8, Vec<(Z::Other, u32)>), Refusal>;

    fn small() -> impl Iterator<Item = List<u32>> {
        List::small()
    }

    /// Cells that both widths have, with counts that exceed no limit together.
    fn random(random: &mut Random) -> Option<List<u32>> {
        loop {
            let list = List::random::<u32>(random);
            if u32::overflow(&[], &list.values).is_none() {
                return Some(list);
            }
        }
    }

    fn ours(list: &List<u32>) -> Self::Answer {
        let (zuniqs, counts): (Vec<Z>, Vec<u32>) = built::<Z>(list).into_iter().unzip();
        let places = zuniqs.len();
        let (mut out_zuniqs, mut out_counts) = (vec![Z::Other::of(0); places], vec![0; places]);
        let (z, n) = (&mut out_zuniqs, &mut out_counts);
        let moved = (Z::OURS.moving)(list.depth, &zuniqs, &counts, z, n)?;
        let entries = out_zuniqs.into_iter().zip(out_counts);
        Ok((moved.depth, entries.take(moved.entries).collect()))
    }

    fn original(list: &List<u32>) -> Self::Answer {
        Ok((list.depth, built(list)))
    }
}
