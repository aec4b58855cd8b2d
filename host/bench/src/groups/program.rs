//! The program `mombuild` on 2,048 lines, beside a Rust program that does the same with the
//! original's building. Both are started anew each time, so that this is the time of a start too.

use std::{
    io::Write,
    path::PathBuf,
    process::{Command, Stdio},
};

use differential::random::Random;

use super::Plan;
use crate::{
    inputs::poisson,
    measure::{contest, heading, row, timed, Rounds},
};

const LINES: u64 = 2048;

pub fn run(plan: Plan) {
    let ours = PathBuf::from(concat!(
        env!("CARGO_MANIFEST_DIR"),
        "/../../crates/mombuild/out/mombuild"
    ));
    let theirs = std::env::current_exe()
        .unwrap()
        .with_file_name("original_mombuild");
    assert!(
        ours.is_file(),
        "mombuild is not built: `rt run` in crates/mombuild makes it"
    );
    heading("mombuild", "line", "lines");
    let mut random = Random::new(6);
    let mut text = String::from("9,0,7815\n");
    for hash in 0..LINES {
        text += &format!("{hash},{}\n", poisson(&mut random, 8.0));
    }
    assert_eq!(
        output(&ours, &text),
        output(&theirs, &text),
        "mombuild prints differ"
    );
    let empty = "9,0,7815\n";
    let rounds = Rounds(20 * plan.rounds.0);
    for (work, text) in [
        ("mombuild, 2,048 lines", text.as_str()),
        ("mombuild, no line", empty),
    ] {
        let times = contest(
            rounds,
            || timed(|| output(&ours, text)),
            || timed(|| output(&theirs, text)),
        );
        row(work, LINES as usize, times);
    }
}

fn output(program: &PathBuf, text: &str) -> Vec<u8> {
    let mut child = Command::new(program)
        .stdin(Stdio::piped())
        .stdout(Stdio::piped())
        .spawn()
        .unwrap();
    child
        .stdin
        .take()
        .unwrap()
        .write_all(text.as_bytes())
        .unwrap();
    child.wait_with_output().unwrap().stdout
}
