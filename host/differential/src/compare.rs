//! The comparison of one kind: all its small inputs, then random ones on all cores.

use std::{
    fmt::{self, Debug},
    num::NonZero,
    panic::{catch_unwind, AssertUnwindSafe},
    sync::atomic::{AtomicU64, Ordering},
    thread,
    time::Instant,
};

use crate::random::Random;

/// A call that both sides have.
pub trait Kind {
    const NAME: &'static str;

    /// What the call is asked. `Ord` says which of two differing inputs is the smaller one.
    type Input: Debug + Ord + Send;

    /// What both sides are to answer alike.
    type Answer: Debug + PartialEq;

    /// Small inputs, all of them up to some size.
    fn small() -> impl Iterator<Item = Self::Input>;

    /// Any input at all, or none where the small ones are all there are.
    fn random(random: &mut Random) -> Option<Self::Input>;

    fn ours(input: &Self::Input) -> Self::Answer;

    fn original(input: &Self::Input) -> Self::Answer;
}

/// Which random inputs to compare, and how many. A seed and a number of cases give the same inputs
/// on any number of cores.
pub struct Plan {
    pub seed: u64,
    pub limit: Limit,
}

pub enum Limit {
    Cases(u64),
    /// One block at least, however late it is.
    Until(Instant),
}

/// Random inputs are made in blocks, so that a core that is done takes the next one.
const BLOCK: u64 = 1024;

impl Plan {
    /// How many inputs the block has; none where the limit is reached.
    fn inputs_of(&self, block: u64) -> u64 {
        match self.limit {
            Limit::Cases(cases) => cases.saturating_sub(block * BLOCK).min(BLOCK),
            Limit::Until(end) if block == 0 || Instant::now() < end => BLOCK,
            Limit::Until(_) => 0,
        }
    }
}

/// What came out of the comparison of one kind.
#[derive(Debug)]
pub struct Report {
    pub name: &'static str,
    pub small: u64,
    pub random: u64,
    /// Whether the small inputs are all there are.
    pub only_small: bool,
    pub differing: u64,
    /// The smallest differing input, with both answers.
    pub smallest: Option<String>,
}

impl Report {
    pub fn is_passed(&self) -> bool {
        self.differing == 0 && !self.lacks_inputs()
    }

    /// Whether no input was compared, or none of the random ones that there are.
    fn lacks_inputs(&self) -> bool {
        let number = if self.only_small {
            self.small
        } else {
            self.random
        };
        number == 0
    }
}

impl fmt::Display for Report {
    fn fmt(&self, f: &mut fmt::Formatter<'_>) -> fmt::Result {
        let compared = self.small + self.random;
        let (name, small, random) = (self.name, self.small, self.random);
        write!(f, "{name}: {compared} compared ({small} small ones, ")?;
        write!(f, "{random} random), {} differ", self.differing)?;
        if self.lacks_inputs() {
            write!(f, "\n    too few were compared to say anything")?;
        }
        if let Some(smallest) = &self.smallest {
            write!(f, "\n    the smallest: {smallest}")?;
        }
        Ok(())
    }
}

pub fn compare<K: Kind>(plan: &Plan) -> Report {
    let mut small = Tally::<K>::new();
    K::small().for_each(|input| small.compare(input));
    let random = compare_random::<K>(plan);
    let (of_small, of_random) = (small.compared, random.compared);
    let all = small.join(random);
    Report {
        name: K::NAME,
        small: of_small,
        random: of_random,
        only_small: K::random(&mut Random::part(plan.seed, 0)).is_none(),
        differing: all.differing,
        smallest: all.smallest.map(|input| describe::<K>(&input)),
    }
}

fn compare_random<K: Kind>(plan: &Plan) -> Tally<K> {
    let blocks = AtomicU64::new(0);
    let cores = thread::available_parallelism().map_or(1, NonZero::get);
    thread::scope(|scope| {
        let workers: Vec<_> = (0..cores)
            .map(|_| scope.spawn(|| compare_blocks(plan, &blocks)))
            .collect();
        workers
            .into_iter()
            .map(|worker| worker.join().unwrap())
            .fold(Tally::new(), Tally::join)
    })
}

fn compare_blocks<K: Kind>(plan: &Plan, blocks: &AtomicU64) -> Tally<K> {
    let mut tally = Tally::new();
    loop {
        let block = blocks.fetch_add(1, Ordering::Relaxed);
        let inputs = plan.inputs_of(block);
        if inputs == 0 {
            return tally;
        }
        let mut random = Random::part(plan.seed, block);
        for _ in 0..inputs {
            match K::random(&mut random) {
                Some(input) => tally.compare(input),
                None => return tally,
            }
        }
    }
}

struct Tally<K: Kind> {
    compared: u64,
    differing: u64,
    smallest: Option<K::Input>,
}

impl<K: Kind> Tally<K> {
    fn new() -> Self {
        Tally {
            compared: 0,
            differing: 0,
            smallest: None,
        }
    }

    fn compare(&mut self, input: K::Input) {
        self.compared += 1;
        if !agree::<K>(&input) {
            self.differing += 1;
            self.smallest = smaller(self.smallest.take(), Some(input));
        }
    }

    fn join(self, other: Self) -> Self {
        Tally {
            compared: self.compared + other.compared,
            differing: self.differing + other.differing,
            smallest: smaller(self.smallest, other.smallest),
        }
    }
}

fn smaller<T: Ord>(a: Option<T>, b: Option<T>) -> Option<T> {
    a.into_iter().chain(b).min()
}

/// A side that panics agrees with nothing.
fn agree<K: Kind>(input: &K::Input) -> bool {
    catch_unwind(AssertUnwindSafe(|| K::ours(input) == K::original(input))).unwrap_or(false)
}

fn describe<K: Kind>(input: &K::Input) -> String {
    let answer = |call: fn(&K::Input) -> K::Answer| {
        catch_unwind(AssertUnwindSafe(|| call(input)))
            .map_or("panics".into(), |answer| format!("{answer:?}"))
    };
    let (ours, original) = (answer(K::ours), answer(K::original));
    format!("{input:?}, ours {ours}, the original {original}")
}
