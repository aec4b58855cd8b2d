//! How near the chi-square of four counts is to the exact one (note 9), tried on many quadruples.
//!
//!     cargo run --release --example chi_error [QUADRUPLES [SEED]]
//!
//! Of four counts above 0, S is the total, P the product, and E the sum of the four products of three of
//! them. The exact chi is S − 16 × P / E, and the note has it that 2^50 times the distance of chi × E
//! from S × E − 16 × P is at most S × E, chi being the number that the f64 stands for. With a zero among
//! the four chi is exactly S.
//!
//! Takes chi as the C function answers it, for all of some special quadruples and for QUADRUPLES
//! (4,000,000) others, drawn from SEED (1), and compares in whole numbers of any size, so that nothing is
//! rounded on this side. Prints the largest ratio found, which is 2^50 times the distance in parts of
//! S × E, and how often the bound fails with 2^51, 2^52 and 2^53 in place of 2^50. The status is 1 where
//! the bound fails, where chi with a zero is not S, and where even 2^53, which is wrong, fails nowhere:
//! then the quadruples can't tell a wrong bound from a right one.

mod big;
mod exact;
mod quads;

use std::{env, error::Error, process::ExitCode, thread};

use mom::CountMerge;

use exact::{Distance, Exact};
use quads::{draw, special, total, Quad, Random, Sort, SORTS};

fn main() -> ExitCode {
    let arguments: Vec<String> = env::args().skip(1).collect();
    match measure(&arguments) {
        Ok(report) => {
            println!("{report}");
            ExitCode::SUCCESS
        }
        Err(error) => {
            eprintln!("chi_error: {error}");
            ExitCode::FAILURE
        }
    }
}

fn measure(arguments: &[String]) -> Result<String, Box<dyn Error>> {
    let (number, seed) = match arguments {
        [] => ("4000000", "1"),
        [number] => (number.as_str(), "1"),
        [number, seed] => (number.as_str(), seed.as_str()),
        _ => return Err("[QUADRUPLES [SEED]]".into()),
    };
    let number = number.parse();
    let number = number.map_err(|error| format!("QUADRUPLES: {error}"))?;
    let seed = seed.parse().map_err(|error| format!("SEED: {error}"))?;
    Ok(tried(number, seed, answered)?.report()?)
}

/// Chi as the C function answers it. No parent is as deep as 29, so that with this M all four are kept.
fn answered(counts: Quad) -> Result<f64, String> {
    match mom::chi2_count_merger(28, 0, 29, 0.0, &[], counts) {
        Ok(CountMerge::Kept(chi)) => Ok(chi),
        Ok(CountMerge::Merged(count)) => Err(format!("{counts:?} are merged into {count}")),
        Err(refusal) => Err(format!("{counts:?} are {refusal}")),
    }
}

/// Whatever the number of cores is, so that the same quadruples are tried everywhere.
const PARTS: usize = 8;

/// A function that answers chi, or says why not.
type ChiOf = fn(Quad) -> Result<f64, String>;

/// What comes of the special quadruples and of so many others. The first fault is an error.
fn tried(number: usize, seed: u64, chi_of: ChiOf) -> Result<Tally, String> {
    let special: Vec<Quad> = special().collect();
    let special: Vec<_> = special.chunks(special.len().div_ceil(PARTS)).collect();
    let tallies: Vec<_> = thread::scope(|scope| {
        let work = |part: usize| {
            let (special, random) = (special[part], Random::of_part(seed, part as u64));
            let others = number / PARTS + usize::from(part < number % PARTS);
            scope.spawn(move || tried_part(special, others, random, chi_of))
        };
        let threads: Vec<_> = (0..PARTS).map(work).collect();
        let joined = threads.into_iter().map(|thread| thread.join().unwrap());
        joined.collect()
    });
    let mut all = Tally::default();
    for tally in tallies {
        all.add(tally?);
    }
    Ok(all)
}

fn tried_part(
    special: &[Quad],
    others: usize,
    mut random: Random,
    chi_of: ChiOf,
) -> Result<Tally, String> {
    let mut tally = Tally::default();
    for &counts in special {
        tally.take(Sort::Special, counts, chi_of(counts)?)?;
    }
    for _ in 0..others {
        let worst = tally.worst.as_ref().map_or([1; 4], |worst| worst.counts);
        let (sort, counts) = draw(&mut random, worst);
        tally.take(sort, counts, chi_of(counts)?)?;
    }
    Ok(tally)
}

/// The 50 of 2^50, and larger ones, the last of which is wrong.
const POWER: u32 = 50;
const LARGER: [u32; 3] = [51, 52, 53];

/// What is counted and kept of the quadruples tried, at all of which the bound holds.
#[derive(Debug, Default)]
struct Tally {
    /// By sort.
    tried: [u64; SORTS.len()],
    /// At how many each of the larger powers fails, and the first at which it does.
    failed: [u64; LARGER.len()],
    first: [Option<Quad>; LARGER.len()],
    /// Of the largest ratio.
    worst: Option<Measured>,
}

#[derive(Debug)]
struct Measured {
    counts: Quad,
    chi: f64,
    distance: Distance,
}

impl Tally {
    /// An error where chi is not as near as it has to be.
    fn take(&mut self, sort: Sort, counts: Quad, chi: f64) -> Result<(), String> {
        self.tried[sort as usize] += 1;
        let exact = Exact::of(chi).ok_or_else(|| format!("the chi of {counts:?} is {chi}"))?;
        if counts.contains(&0) {
            return match exact.is(total(counts)) {
                true => Ok(()),
                false => Err(format!("the chi of {counts:?} is {chi:?}, not the total")),
            };
        }
        let distance = Distance::of(counts, &exact);
        if !distance.is_within(POWER) {
            let ratio = distance.ratio(POWER);
            return Err(format!(
                "the chi of {counts:?} is {chi:?}: the ratio is {ratio:.5}, above 1"
            ));
        }
        self.keep(Measured {
            counts,
            chi,
            distance,
        });
        Ok(())
    }

    fn keep(&mut self, next: Measured) {
        for (i, &power) in LARGER.iter().enumerate() {
            if !next.distance.is_within(power) {
                self.failed[i] += 1;
                self.first[i].get_or_insert(next.counts);
            }
        }
        self.worsen(next);
    }

    fn worsen(&mut self, next: Measured) {
        let worst = self.worst.as_ref();
        if worst.is_none_or(|worst| next.distance.is_worse_than(&worst.distance)) {
            self.worst = Some(next);
        }
    }

    fn add(&mut self, other: Tally) {
        for (tried, more) in self.tried.iter_mut().zip(other.tried) {
            *tried += more;
        }
        for (i, more) in other.failed.into_iter().enumerate() {
            self.failed[i] += more;
            self.first[i] = self.first[i].or(other.first[i]);
        }
        if let Some(worst) = other.worst {
            self.worsen(worst);
        }
    }

    /// In words; an error where the wrong power fails nowhere.
    fn report(&self) -> Result<String, String> {
        let worst = self.worst.as_ref().ok_or("no quadruple was tried")?;
        let (counts, chi) = (worst.counts, worst.chi);
        let ratio = worst.distance.ratio(POWER);
        let all: u64 = self.tried.iter().sum();
        let zeros = self.tried[Sort::Zeros as usize];
        let report = format!(
            "{all} quadruples: {}\n\
             2^{POWER} × the distance is at most S × E at all {} without a zero\n\
             the largest ratio is {ratio:.5}, at {counts:?}, the chi of which is {chi:?}\n\
             {}\n\
             with a zero chi is exactly S, at all {zeros}",
            self.sorts(),
            all - zeros,
            self.larger(),
        );
        match self.failed.last() {
            Some(0) => Err(format!("{report}\nno wrong constant shows")),
            _ => Ok(report),
        }
    }

    fn sorts(&self) -> String {
        let told = |(tried, sort)| format!("{tried} {sort}");
        let sorts: Vec<String> = self.tried.iter().zip(SORTS).map(told).collect();
        sorts.join(", ")
    }

    /// A line for each of the larger powers.
    fn larger(&self) -> String {
        let line = |(i, power)| {
            let failed = match self.first[i] {
                Some(first) => format!("{}, first at {first:?}", self.failed[i]),
                None => "none".into(),
            };
            format!("with 2^{power} in place of 2^{POWER} it fails at {failed}")
        };
        let lines: Vec<String> = LARGER.iter().enumerate().map(line).collect();
        lines.join("\n")
    }
}

#[cfg(test)]
mod tests {
    use super::*;

    fn report(arguments: &[&str]) -> Result<String, String> {
        let arguments: Vec<String> = arguments.iter().map(|word| word.to_string()).collect();
        measure(&arguments).map_err(|error| error.to_string())
    }

    /// The library's chi, and 2^50 times its distance in parts of S × E.
    fn chi_and_ratio(counts: Quad) -> (f64, f64) {
        let chi = answered(counts).unwrap();
        let distance = Distance::of(counts, &Exact::of(chi).unwrap());
        assert!(distance.is_within(POWER), "{counts:?}");
        (chi, distance.ratio(POWER))
    }

    /// Chi by the scope's formula, with another way from w to what is taken off the total.
    fn chi_by(counts: Quad, taken_off: fn(f64) -> f64) -> f64 {
        let [a, b, c, d] = counts.map(|n| 1.0 / f64::from(n));
        total(counts) as f64 - taken_off(((a + b) + c) + d)
    }

    /// Whether a chi passes for these counts.
    fn passes(counts: Quad, chi: f64) -> bool {
        Tally::default().take(Sort::AnySize, counts, chi).is_ok()
    }

    #[test]
    fn no_worked_case_is_further_off() {
        assert_eq!(chi_and_ratio([1, 2, 4, 4]), (3.0, 0.0));
        // The exact chi is 0, so that this one is its own error: 2^50 × 2^-45 / 196.
        assert_eq!(chi_and_ratio([49; 4]), (-(2f64.powi(-45)), 32.0 / 196.0));
        // The exact chi is 2.32, and this one, 5224175567749772 / 2^51, is 3.36 / 2^51 below it.
        let (chi, ratio) = chi_and_ratio([1, 2, 3, 4]);
        assert_eq!(chi, 2.3199999999999985);
        assert!((ratio - 0.168).abs() < 1e-15, "{ratio}");
    }

    #[test]
    fn no_case_of_the_largest_total_is_further_off() {
        let quarter = 1 << 30;
        for counts in [
            [quarter - 1, quarter, quarter, quarter],
            [quarter, quarter, quarter, quarter - 1],
            [1, 1, 1, u32::MAX - 3],
            [u32::MAX - 3, 1, 1, 1],
            [1, 1, 1 << 31, (1 << 31) - 3],
            [1_431_655_763, 1_431_655_765, 1_431_655_765, 2],
        ] {
            assert_eq!(total(counts), u32::MAX.into(), "{counts:?}");
            let (_, ratio) = chi_and_ratio(counts);
            assert!(ratio < 0.5, "{counts:?} {ratio}");
        }
    }

    #[test]
    fn no_chi_passes_beside_a_zero_but_the_total() {
        for counts in [
            [0, 0, 0, 0],
            [0, 0, 0, 5],
            [7, 0, 1, 2],
            [1, 2, 0, u32::MAX - 3],
        ] {
            let chi = answered(counts).unwrap();
            assert_eq!(chi.to_bits(), (total(counts) as f64).to_bits());
            assert!(passes(counts, chi));
            let next = f64::from_bits(chi.to_bits() + 1);
            for other in [-chi, chi + 1.0, chi - 1.0, next, f64::NAN, f64::INFINITY] {
                assert!(!passes(counts, other), "{counts:?} {other}");
            }
        }
    }

    /// 2^50 times so much is twice S, of which rounding takes back less than half.
    #[test]
    fn no_chi_passes_that_is_moved_by_its_total_over_2_to_49() {
        for counts in special().step_by(10) {
            let chi = answered(counts).unwrap();
            let step = total(counts) as f64 / 2f64.powi(49);
            for other in [chi + step, chi - step] {
                assert!(!passes(counts, other), "{counts:?}");
            }
        }
    }

    #[test]
    fn no_chi_passes_that_is_no_number() {
        for counts in [[1, 2, 3, 4], [0, 1, 2, 3]] {
            for chi in [f64::NAN, f64::INFINITY, f64::NEG_INFINITY] {
                let mut tally = Tally::default();
                let told = tally.take(Sort::AnySize, counts, chi);
                assert_eq!(told, Err(format!("the chi of {counts:?} is {chi}")));
            }
        }
    }

    /// The formula itself passes, with a step of f32 it doesn't, nor with 15 for 16.
    #[test]
    fn no_wrong_formula_passes_or_goes_unnamed() {
        let right: ChiOf = |counts| Ok(chi_by(counts, |w| 4.0 * (4.0 / w)));
        let narrow: ChiOf = |counts| Ok(chi_by(counts, |w| 4.0 * f64::from((4.0 / w) as f32)));
        let other: ChiOf = |counts| Ok(chi_by(counts, |w| 15.0 / w));
        assert!(tried(1000, 1, right).is_ok());
        for wrong in [narrow, other] {
            let told = tried(1000, 1, wrong).unwrap_err();
            assert!(told.starts_with("the chi of [1, 1, "), "{told}");
            assert!(told.ends_with(", above 1"), "{told}");
        }
    }

    #[test]
    fn no_refused_quadruple_goes_unnamed() {
        let told = answered([u32::MAX, 1, 0, 0]).unwrap_err();
        let words = "[4294967295, 1, 0, 0] are refused by 10 ";
        assert!(told.starts_with(words), "{told}");
        let refuse: ChiOf = |counts| Err(format!("{counts:?} are refused"));
        let told = tried(0, 1, refuse).unwrap_err();
        assert_eq!(told, "[1, 1, 1, 1] are refused");
    }

    /// At 1, 2, 4, 4 the distance is 0, so that any constant would do.
    #[test]
    fn no_run_passes_that_takes_every_constant() {
        let mut tally = Tally::default();
        assert_eq!(tally.report(), Err("no quadruple was tried".into()));
        tally.take(Sort::Special, [1, 2, 4, 4], 3.0).unwrap();
        let told = tally.report().unwrap_err();
        assert!(told.contains("with 2^53 in place of 2^50 it fails at none"));
        assert!(told.ends_with("\nno wrong constant shows"), "{told}");
        // 2^53 × 2^-45 is above 196, and 2^52 × 2^-45 is not.
        let chi = -(2f64.powi(-45));
        tally.take(Sort::Special, [49; 4], chi).unwrap();
        let told = tally.report().unwrap();
        assert!(told.contains("with 2^52 in place of 2^50 it fails at none\n"));
        let failed = "with 2^53 in place of 2^50 it fails at 1, first at [49, 49, 49, 49]\n";
        assert!(told.contains(failed), "{told}");
        let worst = "the largest ratio is 0.16327, at [49, 49, 49, 49], the chi of which is -2.84";
        assert!(told.contains(worst), "{told}");
    }

    #[test]
    fn no_small_run_lacks_a_sort_or_the_ratio_or_differs() {
        let told = report(&["3001", "7"]).unwrap();
        let special = special().count();
        let all = format!("{} quadruples: {special} special, ", special + 3001);
        assert!(told.starts_with(&all), "{told}");
        assert!(SORTS.iter().all(|sort| told.contains(sort)), "{told}");
        assert!(!told.contains(" 0 "), "{told}");
        assert!(told.contains("\nthe largest ratio is 0."), "{told}");
        assert_eq!(report(&["3001", "7"]).unwrap(), told);
        assert_ne!(report(&["3001", "8"]).unwrap(), told);
    }

    #[test]
    fn no_other_arguments_are_taken() {
        let digit = "invalid digit found in string";
        assert_eq!(report(&["x"]), Err(format!("QUADRUPLES: {digit}")));
        assert_eq!(report(&["-1"]), Err(format!("QUADRUPLES: {digit}")));
        assert_eq!(report(&["9", "1.5"]), Err(format!("SEED: {digit}")));
        assert_eq!(report(&["9", "1", "1"]), Err("[QUADRUPLES [SEED]]".into()));
    }
}
