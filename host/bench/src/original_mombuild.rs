//! What `mombuild` does on good input, with the original's building: reads cells, prints the map.

use std::{
    fmt::Write,
    io::{stdin, stdout, Read},
};

use oracle::run;

fn main() {
    let mut text = String::new();
    stdin().read_to_string(&mut text).unwrap();
    let mut lines = text.lines();
    let settings: Vec<u32> = numbers(lines.next().unwrap()).collect();
    let [depth, m, thousandths] = settings[..] else {
        panic!("the first line has three numbers")
    };
    let cells = lines.map(|line| {
        let (hash, count) = line.split_once(',').unwrap();
        (hash.parse::<u64>().unwrap(), count.parse::<u32>().unwrap())
    });
    let t = thousandths as f64 / 1000.0;
    let entries = run::build_counts(depth as u8, m as u8, t, run::unprotected, cells);
    let mut printed = String::new();
    for &(zuniq, count) in &entries {
        let (depth, hash) = run::trait_from_zuniq::<u64>(zuniq);
        writeln!(printed, "{depth},{hash},{count}").unwrap();
    }
    let total: u64 = entries.iter().map(|entry| entry.1 as u64).sum();
    writeln!(printed, "end,{},{total}", entries.len()).unwrap();
    std::io::Write::write_all(&mut stdout(), printed.as_bytes()).unwrap();
}

fn numbers(line: &str) -> impl Iterator<Item = u32> + '_ {
    line.split(',').map(|field| field.parse().unwrap())
}
