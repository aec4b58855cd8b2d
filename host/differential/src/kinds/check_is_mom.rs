//! The map check of lists whose entries are all at the map's depth: elsewhere the original tests the
//! depths the wrong way round, and the last one's never. It names the two entries that don't rise, so
//! that the place is compared by them.

use std::marker::PhantomData;

use mom::{Fault, MapCheck, Refusal};
use oracle::run;

use crate::{
    cells::{n_hash, Cell},
    compare::Kind,
    random::Random,
    widths::{named, Width},
};

pub struct CheckIsMom<Z>(PhantomData<Z>);

#[derive(Clone, Debug, PartialEq, Eq, PartialOrd, Ord)]
pub struct Input {
    pub depth: u8,
    /// All below N(depth).
    pub hashes: Vec<u64>,
}

/// The original's message where the list is faulty.
pub type Answer = Result<Result<(), String>, Refusal>;

impl Input {
    pub fn zuniqs<Z: Width>(&self) -> Vec<Z> {
        let cell = |&hash| Cell {
            depth: self.depth,
            hash,
        };
        self.hashes.iter().map(|hash| cell(hash).zuniq()).collect()
    }
}

/// What ours found, in the original's words where it has them.
pub fn told<Z: Width>(check: MapCheck, zuniqs: &[Z]) -> Result<(), String> {
    match check {
        MapCheck::Valid => Ok(()),
        MapCheck::Faulty {
            place,
            fault: Fault::NotAbove,
        } => {
            let (l, r) = (zuniqs[place - 1], zuniqs[place]);
            Err(format!("The MOM is not ordered: {l} >= {r}"))
        }
        MapCheck::Faulty { place, fault } => Err(format!("{fault:?} at {place}")),
    }
}

impl<Z: Width> Kind for CheckIsMom<Z> {
    const NAME: &'static str = named::<Z>("check_is_mom", "narrow_check_is_mom");
    type Input = Input;
    type Answer = Answer;

    fn small() -> impl Iterator<Item = Input> {
        [(0, 3), (1, 2)].into_iter().flat_map(|(depth, longest)| {
            (0..=longest).flat_map(move |len| {
                let n = n_hash(depth);
                (0..n.pow(len)).map(move |i| Input {
                    depth,
                    hashes: (0..len).map(|k| i / n.pow(k) % n).collect(),
                })
            })
        })
    }

    /// Rising hashes with small and large gaps, of which now and then some are swapped, repeated or
    /// changed.
    fn random(random: &mut Random) -> Option<Input> {
        let depth = random.below(Z::DEPTH_MAX as u64 + 1) as u8;
        let n = n_hash(depth);
        let near = Cell::random::<Z>(random).to_depth_at_most(depth).hash;
        let mut hashes: Vec<u64> = (0..random.below(40))
            .map(|_| match random.below(4) {
                0 => random.below(n),
                _ => (near + random.below(64)) % n,
            })
            .collect();
        hashes.sort();
        hashes.dedup();
        let len = hashes.len() as u64;
        if len > 0 {
            let (i, j) = (random.below(len) as usize, random.below(len) as usize);
            match random.below(6) {
                0 => hashes.swap(i, j),
                1 => hashes.insert(i, hashes[i]),
                2 => hashes[i] = hashes[j],
                3 => hashes[i] = (hashes[i] ^ 1 << random.below(62)) % n,
                _ => {}
            }
        }
        Some(Input { depth, hashes })
    }

    fn ours(input: &Input) -> Self::Answer {
        let zuniqs = input.zuniqs();
        let check = (Z::OURS.check_is_mom)(input.depth, &zuniqs)?;
        Ok(told(check, &zuniqs))
    }

    fn original(input: &Input) -> Self::Answer {
        let entries = input.zuniqs::<Z>().into_iter().map(|zuniq| (zuniq, 0u32));
        let mom = run::mom(input.depth, entries.collect());
        Ok(run::check_is_mom(&mom))
    }
}
