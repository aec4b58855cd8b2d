//! The runner itself, on made-up kinds with planted faults.

use std::time::{Duration, Instant};

use differential::{
    compare::{compare, Kind, Limit, Plan, Report},
    random::Random,
};

/// Squares of numbers below a million, wrong at multiples of 1,000 from `FAULTY` on; the original
/// panics at `PANICS`.
struct Squares<const FAULTY: u64, const PANICS: u64>;

impl<const FAULTY: u64, const PANICS: u64> Kind for Squares<FAULTY, PANICS> {
    const NAME: &'static str = "squares";
    type Input = u64;
    type Answer = u64;

    fn small() -> impl Iterator<Item = u64> {
        0..100
    }

    fn random(random: &mut Random) -> Option<u64> {
        Some(random.below(1_000_000))
    }

    fn ours(&n: &u64) -> u64 {
        n * n + u64::from(n >= FAULTY && n % 1_000 == 0)
    }

    fn original(&n: &u64) -> u64 {
        assert_ne!(n, PANICS);
        n * n
    }
}

const NEVER: u64 = u64::MAX;

fn cases<K: Kind>(cases: u64, seed: u64) -> Report {
    let limit = Limit::Cases(cases);
    compare::<K>(&Plan { seed, limit })
}

#[test]
fn no_case_is_left_out() {
    for n in [0, 1, 1023, 1024, 1025, 100_000] {
        let report = cases::<Squares<NEVER, NEVER>>(n, 1);
        assert_eq!((report.small, report.random, report.differing), (100, n, 0));
        assert_eq!(report.smallest, None);
    }
}

#[test]
fn no_smaller_difference_is_passed_over() {
    let report = cases::<Squares<5_000, NEVER>>(1_000_000, 1);
    let smallest = "5000, ours 25000001, the original 25000000";
    assert!(report.differing > 900, "{report}");
    assert_eq!(report.smallest.as_deref(), Some(smallest));
}

#[test]
fn no_difference_at_a_small_input_needs_luck() {
    let report = cases::<Squares<0, NEVER>>(0, 1);
    assert_eq!(report.differing, 1);
    let smallest = "0, ours 1, the original 0";
    assert_eq!(report.smallest.as_deref(), Some(smallest));
}

#[test]
fn no_panic_of_the_original_is_taken_for_agreement() {
    let report = cases::<Squares<NEVER, 7>>(0, 1);
    assert_eq!(report.differing, 1);
    let smallest = "7, ours 49, the original panics";
    assert_eq!(report.smallest.as_deref(), Some(smallest));
}

#[test]
fn no_seed_gives_other_cases_the_next_time() {
    let differing = |seed| cases::<Squares<0, NEVER>>(300_000, seed).differing;
    assert_eq!(differing(1), differing(1));
    assert_eq!(differing(2), differing(2));
    assert_ne!(differing(1), differing(2));
}

/// A kind without inputs, small or random.
struct Nothing;

impl Kind for Nothing {
    const NAME: &'static str = "nothing";
    type Input = u64;
    type Answer = u64;

    fn small() -> impl Iterator<Item = u64> {
        0..0
    }

    fn random(_: &mut Random) -> Option<u64> {
        None
    }

    fn ours(&n: &u64) -> u64 {
        n
    }

    fn original(&n: &u64) -> u64 {
        n
    }
}

#[test]
fn no_kind_passes_of_which_nothing_was_compared() {
    assert!(!cases::<Nothing>(1_000, 1).is_passed());
    assert!(!cases::<Squares<NEVER, NEVER>>(0, 1).is_passed());
    assert!(cases::<Squares<NEVER, NEVER>>(1, 1).is_passed());
    assert!(!cases::<Squares<0, NEVER>>(1, 1).is_passed());
}

#[test]
fn no_kind_goes_without_random_inputs_for_lack_of_time() {
    let limit = Limit::Until(Instant::now());
    let report = compare::<Squares<NEVER, NEVER>>(&Plan { seed: 1, limit });
    assert!(report.random > 0 && report.is_passed());
}

#[test]
fn no_run_goes_on_past_its_time() {
    let start = Instant::now();
    let limit = Limit::Until(start + Duration::from_millis(100));
    let report = compare::<Squares<NEVER, NEVER>>(&Plan { seed: 1, limit });
    assert!(report.random > 0);
    assert!(start.elapsed() < Duration::from_secs(10));
}
