//! `differential [--seconds S | --cases N] [--seed K] [KIND..]`
//!
//! Compares each kind, or those named, on all its small inputs and then on random ones: for S
//! seconds over all kinds together (60 unless said), or on N of each; neither may be 0. Says for each
//! kind how many were compared, how many differ and the smallest that does. The last line is `N
//! passed, M failed`, a kind counting one; one of which nothing was compared has failed. The status is
//! 1 where M is above 0.

use std::{
    env,
    process::ExitCode,
    time::{Duration, Instant},
};

use differential::{
    compare::{Limit, Plan, Report},
    kinds::{Entry, KINDS},
};

const USAGE: &str = "differential [--seconds S | --cases N] [--seed K] [KIND..]";

struct Options {
    seconds: u64,
    cases: Option<u64>,
    seed: u64,
    kinds: Vec<&'static Entry>,
}

fn main() -> ExitCode {
    let options = match parse(env::args().skip(1)) {
        Ok(options) => options,
        Err(fault) => {
            eprintln!("{fault}\n{USAGE}");
            return ExitCode::from(2);
        }
    };
    // A panic is a difference and is told as one.
    std::panic::set_hook(Box::new(|_| {}));
    let reports = compare_all(&options);
    let failed = reports.iter().filter(|report| !report.is_passed()).count();
    println!("{} passed, {failed} failed", reports.len() - failed);
    ExitCode::from(u8::from(failed > 0))
}

fn parse(mut arguments: impl Iterator<Item = String>) -> Result<Options, String> {
    let mut options = Options {
        seconds: 60,
        cases: None,
        seed: 1,
        kinds: Vec::new(),
    };
    while let Some(argument) = arguments.next() {
        match argument.as_str() {
            "--seconds" => options.seconds = above_0(&argument, arguments.next())?,
            "--cases" => options.cases = Some(above_0(&argument, arguments.next())?),
            "--seed" => options.seed = number(&argument, arguments.next())?,
            name => options.kinds.push(kind(name)?),
        }
    }
    if options.kinds.is_empty() {
        options.kinds.extend(KINDS);
    }
    Ok(options)
}

fn number(option: &str, value: Option<String>) -> Result<u64, String> {
    value
        .and_then(|value| value.parse().ok())
        .ok_or(format!("{option} asks for a whole number"))
}

/// A run that compares nothing would say that nothing differs.
fn above_0(option: &str, value: Option<String>) -> Result<u64, String> {
    match number(option, value)? {
        0 => Err(format!("{option} asks for a number above 0")),
        number => Ok(number),
    }
}

fn kind(name: &str) -> Result<&'static Entry, String> {
    KINDS.iter().find(|kind| kind.name == name).ok_or_else(|| {
        let names: Vec<_> = KINDS.iter().map(|kind| kind.name).collect();
        format!("{name} is no kind; the kinds are {}", names.join(", "))
    })
}

/// The time that a kind doesn't use goes to those after it.
fn compare_all(options: &Options) -> Vec<Report> {
    let arithmetic = if cfg!(debug_assertions) {
        "panics"
    } else {
        "wraps"
    };
    println!("seed {}, the original {arithmetic}", options.seed);
    let end = Instant::now() + Duration::from_secs(options.seconds);
    let mut reports = Vec::new();
    for (done, kind) in options.kinds.iter().enumerate() {
        let left = end.saturating_duration_since(Instant::now());
        let share = left / (options.kinds.len() - done) as u32;
        let limit = match options.cases {
            Some(cases) => Limit::Cases(cases),
            None => Limit::Until(Instant::now() + share),
        };
        let seed = options.seed;
        let report = (kind.compare)(&Plan { seed, limit });
        println!("{report}");
        reports.push(report);
    }
    reports
}
