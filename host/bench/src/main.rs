//! `bench [--rounds N] [--small] [GROUP..]`
//!
//! Times the library beside the original Rust, both built for release, in this one process and on
//! the same inputs: in turns, N times each (7 unless said), and the least time of each counts. Each
//! row first holds the two answers together. Prints a table for each group, or for those named;
//! --small has smaller works, for trying it out.

mod groups;
mod inputs;
mod measure;

use std::{env, process::ExitCode};

use groups::{Group, Plan, GROUPS};
use measure::Rounds;

const USAGE: &str = "bench [--rounds N] [--small] [GROUP..]";

fn main() -> ExitCode {
    let (plan, groups) = match parse(env::args().skip(1)) {
        Ok(parsed) => parsed,
        Err(fault) => {
            eprintln!("{fault}\n{USAGE}");
            return ExitCode::from(2);
        }
    };
    println!("Best of {} rounds.", plan.rounds.0);
    for group in groups {
        (group.run)(plan);
    }
    ExitCode::SUCCESS
}

fn parse(
    mut arguments: impl Iterator<Item = String>,
) -> Result<(Plan, Vec<&'static Group>), String> {
    let mut plan = Plan {
        rounds: Rounds(7),
        shallower: 0,
    };
    let mut groups = Vec::new();
    while let Some(argument) = arguments.next() {
        match argument.as_str() {
            "--rounds" => {
                let number = arguments.next().and_then(|number| number.parse().ok());
                plan.rounds = Rounds(
                    number
                        .filter(|&n| n > 0)
                        .ok_or("--rounds asks for a number above 0")?,
                );
            }
            "--small" => plan.shallower = 2,
            name => groups.push(group(name)?),
        }
    }
    if groups.is_empty() {
        groups.extend(&GROUPS);
    }
    Ok((plan, groups))
}

fn group(name: &str) -> Result<&'static Group, String> {
    GROUPS
        .iter()
        .find(|group| group.name == name)
        .ok_or_else(|| {
            let names: Vec<_> = GROUPS.iter().map(|group| group.name).collect();
            format!("{name} is no group; the groups are {}", names.join(", "))
        })
}
