//! Two programs for one job, timed in turns.

use std::{
    hint::black_box,
    time::{Duration, Instant},
};

/// How often each side is timed. The least time counts: what comes on top of it is the machine's.
#[derive(Clone, Copy)]
pub struct Rounds(pub usize);

/// What a job took.
pub fn timed<T>(job: impl FnOnce() -> T) -> Duration {
    let start = Instant::now();
    black_box(job());
    start.elapsed()
}

/// The best of both sides, which take turns. Each prepares what it needs and times its job alone.
pub fn contest(
    rounds: Rounds,
    mut ours: impl FnMut() -> Duration,
    mut original: impl FnMut() -> Duration,
) -> (Duration, Duration) {
    let mut best = (Duration::MAX, Duration::MAX);
    for _ in 0..rounds.0 {
        best.0 = best.0.min(ours());
        best.1 = best.1.min(original());
    }
    best
}

/// The best of each of several jobs, which take turns as the two sides of a contest do.
pub fn in_turns<const N: usize>(
    rounds: Rounds,
    mut jobs: [&mut dyn FnMut() -> Duration; N],
) -> [Duration; N] {
    let mut best = [Duration::MAX; N];
    for _ in 0..rounds.0 {
        for (best, job) in best.iter_mut().zip(&mut jobs) {
            *best = job().min(*best);
        }
    }
    best
}

/// The best of one side.
pub fn alone(rounds: Rounds, mut ours: impl FnMut() -> Duration) -> Duration {
    (0..rounds.0).map(|_| ours()).min().unwrap_or(Duration::MAX)
}

fn each(time: Duration, number: usize) -> f64 {
    time.as_nanos() as f64 / number as f64
}

pub fn heading(group: &str, one: &str, many: &str) {
    println!("\n## {group}\n\n| work | {many} | ours, ns a {one} | Rust, ns a {one} | ratio |");
    println!("|---|---:|---:|---:|---:|");
}

pub fn row(work: &str, number: usize, (ours, original): (Duration, Duration)) {
    let (a, b) = (each(ours, number), each(original, number));
    println!("| {work} | {number} | {a:.2} | {b:.2} | {:.2} |", a / b);
}

/// A row in which the original has no part.
pub fn row_alone(work: &str, number: usize, ours: Duration) {
    println!("| {work} | {number} | {:.2} | | |", each(ours, number));
}

/// What of our time goes to work that the original doesn't do.
#[derive(Clone, Copy)]
pub struct Extra {
    /// All that is looked at before anything is written: the time of the same call with one place
    /// too few, which is refused by 11 and writes nothing.
    pub checks: Duration,
    /// Clearing the places after the entries: the time of a call that has nothing else to do.
    pub clearing: Duration,
}

pub fn heading_with_extra(group: &str, one: &str, many: &str) {
    println!(
        "\n## {group}\n\n| work | {many} | ours, ns a {one} | Rust, ns a {one} | ratio | checks, ns | \
         clearing, ns | ratio without both |"
    );
    println!("|---|---:|---:|---:|---:|---:|---:|---:|");
}

pub fn row_with_extra(
    work: &str,
    number: usize,
    (ours, original): (Duration, Duration),
    extra: Extra,
) {
    let (a, b) = (each(ours, number), each(original, number));
    let (checks, clearing) = (each(extra.checks, number), each(extra.clearing, number));
    println!(
        "| {work} | {number} | {a:.2} | {b:.2} | {:.2} | {checks:.2} | {clearing:.2} | {:.2} |",
        a / b,
        (a - checks - clearing) / b
    );
}

pub fn heading_of_asking(group: &str) {
    println!(
        "\n## {group}\n\n| work | entries | pool, ns an entry | ask, ns an entry | ratio to the pool | \
         ask and commit, ns an entry | ratio to the pool | Rust, ns an entry | ratio to the Rust |"
    );
    println!("|---|---:|---:|---:|---:|---:|---:|---:|---:|");
}

/// A pool, an ask, an ask followed by its commit, and the original's pool. The last ratio is that of ask and
/// commit together.
pub fn row_of_asking(work: &str, number: usize, times: [Duration; 4]) {
    let [pool, ask, both, original] = times.map(|time| each(time, number));
    println!(
        "| {work} | {number} | {pool:.2} | {ask:.2} | {:.2} | {both:.2} | {:.2} | {original:.2} | {:.2} |",
        ask / pool,
        both / pool,
        both / original
    );
}

pub fn heading_with_copy(group: &str, one: &str, many: &str) {
    println!(
        "\n## {group}\n\n| work | {many} | ours, ns a {one} | Rust, ns a {one} | ratio | ours, GB/s | \
         copy, GB/s |"
    );
    println!("|---|---:|---:|---:|---:|---:|---:|");
}

/// A row of so many bytes for each one. The copy is a plain one of all these bytes, which says what
/// the memory allows: a byte that is read and written counts once.
pub fn row_with_copy(
    work: &str,
    number: usize,
    bytes: usize,
    (ours, original): (Duration, Duration),
    copy: Duration,
) {
    let (a, b) = (each(ours, number), each(original, number));
    let speed = |time| bytes as f64 / each(time, number);
    println!(
        "| {work} | {number} | {a:.2} | {b:.2} | {:.2} | {:.2} | {:.2} |",
        a / b,
        speed(ours),
        speed(copy)
    );
}

/// For works on entries that write something else.
pub fn heading_with_written(group: &str, written: &str) {
    println!(
        "\n## {group}\n\n| work | entries | {written}s | ours, ns an entry | Rust, ns an entry | ratio | \
         checks, ns an entry | ours, ns a {written} | Rust, ns a {written} |"
    );
    println!("|---|---:|---:|---:|---:|---:|---:|---:|---:|");
}

/// The times by the number of entries, and by that of what is written. The checks are all that is looked
/// at and counted before anything is: the time of the same call with one place too few.
pub fn row_with_written(
    work: &str,
    number: usize,
    written: usize,
    (ours, original): (Duration, Duration),
    checks: Duration,
) {
    let (a, b) = (each(ours, number), each(original, number));
    println!(
        "| {work} | {number} | {written} | {a:.2} | {b:.2} | {:.2} | {:.2} | {:.2} | {:.2} |",
        a / b,
        each(checks, number),
        each(ours, written),
        each(original, written)
    );
}
