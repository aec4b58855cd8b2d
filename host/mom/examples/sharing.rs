//! Where odd sources go when their cells are split again and again (note 10).
//!
//!     cargo run --release --example sharing [SOURCES [SEED]]
//!
//! Puts one source on each of SOURCES (1,000,000) parents of depth 12, drawn from SEED (1), and splits
//! them five levels down by pooling them with a blank map of their corners: the cells that are child i on
//! all five levels, i being 0 to 3. M is 29, so that nothing is merged again.
//!
//! Formerly an extra one went to child 0 on every level, and every source so to corner 0: the false clump
//! of which the note speaks. Now it goes to child i = h mod 4 of a parent of hash h. The hash of this
//! child is 4h + i, which is i mod 4 as well, so that a source goes down to one corner still, but to
//! corner i of its own parent, and each of the four has about a quarter of all.
//!
//! Prints how many sources each corner has before, by a reading of the former rule that stands here, and
//! after, as the library answers. The status is 1 where that differs from a reading of the note at any
//! cell, where a source is lost, where formerly one is not in corner 0, and where now one is not in the
//! corner of its parent.

use std::{env, error::Error, process::ExitCode};

use mom::{Map, Refusal};

fn main() -> ExitCode {
    let arguments: Vec<String> = env::args().skip(1).collect();
    match compare(&arguments) {
        Ok(report) => {
            println!("{report}");
            ExitCode::SUCCESS
        }
        Err(error) => {
            eprintln!("sharing: {error}");
            ExitCode::FAILURE
        }
    }
}

fn compare(arguments: &[String]) -> Result<String, Box<dyn Error>> {
    let (number, seed) = match arguments {
        [] => ("1000000", "1"),
        [number] => (number.as_str(), "1"),
        [number, seed] => (number.as_str(), seed.as_str()),
        _ => return Err("[SOURCES [SEED]]".into()),
    };
    let number = number.parse();
    let number = number.map_err(|error| format!("SOURCES: {error}"))?;
    let seed = seed.parse().map_err(|error| format!("SEED: {error}"))?;
    let parents = parents(number, seed)?;
    Ok(tried(&parents, pooled)?.report(&parents)?)
}

/// The depth of the parents, and how many levels they are split down.
const DEPTH: u8 = 12;
const LEVELS: u8 = 5;

/// Hashes of so many parents, one in each of as many equal parts of the sky.
fn parents(number: u64, seed: u64) -> Result<Vec<u64>, Box<dyn Error>> {
    let cells = mom::n_hash(DEPTH)?;
    if !(1..=cells).contains(&number) {
        return Err(format!("SOURCES: 1 to {cells}, one for each parent").into());
    }
    let mut random = Random(seed);
    let end = |part: u64| (cells as u128 * part as u128 / number as u128) as u64;
    let in_part = |part| end(part) + random.below(end(part + 1) - end(part));
    Ok((0..number).map(in_part).collect())
}

/// SplitMix64 (Steele, Lea and Flood 2014).
struct Random(u64);

impl Random {
    fn below(&mut self, n: u64) -> u64 {
        self.0 = self.0.wrapping_add(0x9e37_79b9_7f4a_7c15);
        let z = (self.0 ^ self.0 >> 30).wrapping_mul(0xbf58_476d_1ce4_e5b9);
        let z = (z ^ z >> 27).wrapping_mul(0x94d0_49bb_1331_11eb);
        (((z ^ z >> 31) as u128 * n as u128) >> 64) as u64
    }
}

/// Children 0 to (v mod 4) − 1 get one more.
fn formerly(_hash: u64, count: u32) -> [u32; 4] {
    [0, 1, 2, 3].map(|child| count / 4 + (child < count % 4) as u32)
}

/// "The extra ones go to children h mod 4, (h + 1) mod 4 and onwards, (v mod 4) of them."
fn now(hash: u64, count: u32) -> [u32; 4] {
    let mut children = [count / 4; 4];
    for extra in 0..count % 4 {
        children[(hash % 4 + extra as u64) as usize % 4] += 1;
    }
    children
}

/// A cell that a parent is split into, with what it has by the former rule and by the present one.
struct Cell {
    depth: u8,
    hash: u64,
    before: u32,
    after: u32,
}

/// The way down that is child 1 on so many levels; i times that it is child i.
fn ones(levels: u8) -> u64 {
    ((1 << (2 * levels)) - 1) / 3
}

impl Cell {
    /// Which corner of its parent of depth 12 it is, or lies over; none if it does neither.
    fn corner(&self) -> Option<u64> {
        let levels = self.depth - DEPTH;
        let way = self.hash % (1 << (2 * levels));
        (0..4).find(|i| way == i * ones(levels))
    }

    /// Itself, or where it lies over a corner what its children are split into.
    fn split(self, cells: &mut Vec<Cell>) {
        if self.depth == DEPTH + LEVELS || self.corner().is_none() {
            cells.push(self);
            return;
        }
        let (before, after) = (formerly(self.hash, self.before), now(self.hash, self.after));
        for child in 0..4 {
            let cell = Cell {
                depth: self.depth + 1,
                hash: 4 * self.hash + child as u64,
                before: before[child],
                after: after[child],
            };
            cell.split(cells);
        }
    }

    /// The corner's number, or 4 elsewhere.
    fn place(&self) -> usize {
        let corner = (self.depth == DEPTH + LEVELS).then(|| self.corner());
        corner.flatten().map_or(4, |corner| corner as usize)
    }
}

/// What parents of one source each are split into down to their corners, rising.
fn cells(parents: &[u64]) -> Vec<Cell> {
    let mut cells = Vec::new();
    for &hash in parents {
        let parent = Cell {
            depth: DEPTH,
            hash,
            before: 1,
            after: 1,
        };
        parent.split(&mut cells);
    }
    cells
}

/// What a pool leaves and answers.
struct Pooled {
    zuniqs: Vec<u64>,
    counts: Vec<u32>,
    total: u32,
}

/// The library's pool of these parents and their corners.
fn pooled(parents: &[u64]) -> Result<Pooled, Refusal> {
    let zuniqs = |depth: u8, hashes: &[u64]| -> Result<Vec<u64>, Refusal> {
        let zuniqs = hashes.iter().map(|&hash| mom::to_zuniq(depth, hash));
        zuniqs.collect()
    };
    let corners = |parent: &u64| [0, 1, 2, 3].map(|i| (parent << (2 * LEVELS)) + i * ones(LEVELS));
    let corners: Vec<u64> = parents.iter().flat_map(corners).collect();
    let left = Map {
        depth: DEPTH,
        zuniqs: &zuniqs(DEPTH, parents)?,
        values: &vec![1; parents.len()],
    };
    let right = Map {
        depth: DEPTH + LEVELS,
        zuniqs: &zuniqs(DEPTH + LEVELS, &corners)?,
        values: &vec![0; corners.len()],
    };
    let places = mom::ask(left, right, 29, 0.0, &[])?.cells;
    let (mut zuniqs, mut counts) = (vec![0; places], vec![0; places]);
    let added = mom::pool(left, right, 29, 0.0, &[], &mut zuniqs, &mut counts)?;
    zuniqs.truncate(added.entries);
    counts.truncate(added.entries);
    Ok(Pooled {
        zuniqs,
        counts,
        total: added.total,
    })
}

/// How many parents are pooled at once, so that the memory stays small.
const BATCH: usize = 20_000;

type PoolOf = fn(&[u64]) -> Result<Pooled, Refusal>;

/// What a pool makes of the parents. The first cell at which it is not what the reading says is an error.
fn tried(parents: &[u64], pool: PoolOf) -> Result<Tally, Box<dyn Error>> {
    let mut tally = Tally::default();
    for parents in parents.chunks(BATCH) {
        let (cells, pooled) = (cells(parents), pool(parents)?);
        if pooled.zuniqs.len() != cells.len() {
            let entries = pooled.zuniqs.len();
            return Err(format!("{entries} entries of {} cells", cells.len()).into());
        }
        if pooled.total as usize != parents.len() {
            let number = parents.len();
            return Err(format!("the total of {number} sources is {}", pooled.total).into());
        }
        let entries = pooled.zuniqs.iter().zip(&pooled.counts);
        for (cell, (&zuniq, &count)) in cells.iter().zip(entries) {
            tally.take(cell, zuniq, count)?;
        }
    }
    Ok(tally)
}

/// How many cells there are, and how many sources in each of the corners and elsewhere.
#[derive(Default)]
struct Tally {
    cells: usize,
    before: [u64; 5],
    after: [u64; 5],
}

impl Tally {
    fn take(&mut self, cell: &Cell, zuniq: u64, count: u32) -> Result<(), String> {
        let (depth, hash, after) = (cell.depth, cell.hash, cell.after);
        if zuniq != (2 * hash + 1) << (2 * (29 - depth)) {
            return Err(format!("the zuniq of ({depth}, {hash}) is {zuniq}"));
        }
        if count != after {
            return Err(format!("({depth}, {hash}) has {count} and not {after}"));
        }
        let place = cell.place();
        self.cells += 1;
        self.before[place] += cell.before as u64;
        self.after[place] += count as u64;
        Ok(())
    }

    /// The table; an error where the parents' sources are not where the head of this file has them.
    fn report(&self, parents: &[u64]) -> Result<String, String> {
        let sources = parents.len() as u64;
        let mut own = [0; 5];
        for hash in parents {
            own[*hash as usize % 4] += 1;
        }
        let mut report = format!(
            "{sources} odd sources, split {LEVELS} levels down into {} cells\n\
             {:9} {:>21} {:>21}",
            self.cells, "corner", "before", "after"
        );
        let share = |number: u64| {
            let percent = 100.0 * number as f64 / sources as f64;
            format!("{number:11} {percent:7.3} %")
        };
        for (place, name) in ["0", "1", "2", "3", "elsewhere"].into_iter().enumerate() {
            let (before, after) = (share(self.before[place]), share(self.after[place]));
            report += &format!("\n{name:9} {before} {after}");
        }
        if self.before != [sources, 0, 0, 0, 0] {
            return Err(format!("{report}\nformerly not all are in corner 0"));
        }
        if self.after != own {
            return Err(format!("{report}\nthe parents' own corners have {own:?}"));
        }
        Ok(report)
    }
}

#[cfg(test)]
mod tests {
    use super::*;

    fn report(arguments: &[&str]) -> Result<String, String> {
        let arguments: Vec<String> = arguments.iter().map(|word| word.to_string()).collect();
        compare(&arguments).map_err(|error| error.to_string())
    }

    #[test]
    fn no_parent_is_drawn_twice_or_out_of_range() {
        for (number, seed) in [(1, 1), (2, 5), (1000, 1), (123_457, 7)] {
            let parents = parents(number, seed).unwrap();
            assert_eq!(parents.len() as u64, number);
            assert!(parents.windows(2).all(|two| two[0] < two[1]));
            assert!(*parents.last().unwrap() < 12 << 24);
        }
        assert_ne!(parents(1000, 1).unwrap(), parents(1000, 2).unwrap());
    }

    /// 3 beside each way down on four levels, and its end, four times.
    #[test]
    fn no_parent_is_split_into_other_cells_than_52_with_its_four_corners() {
        for hash in [0, 1, 2, 3, 4, 777, (12 << 24) - 1] {
            let cells = cells(&[hash]);
            assert_eq!(cells.len(), 4 * (3 * 4 + 1));
            let first = |cell: &Cell| cell.hash << (2 * (17 - cell.depth));
            let width = |cell: &Cell| 1 << (2 * (17 - cell.depth));
            let mut next = hash << 10;
            for cell in &cells {
                assert_eq!(first(cell), next);
                next += width(cell);
            }
            assert_eq!(next, (hash + 1) << 10);
            let places: Vec<usize> = cells.iter().map(Cell::place).filter(|&i| i < 4).collect();
            assert_eq!(places, [0, 1, 2, 3]);
        }
    }

    /// The four parts by both rules: of 7 they are alike under hash 4, and under no other of these.
    #[test]
    fn no_rule_is_read_wrongly() {
        for hash in 0..9 {
            assert_eq!(formerly(hash, 7), [2, 2, 2, 1]);
        }
        assert_eq!(now(4, 7), [2, 2, 2, 1]);
        assert_eq!(now(5, 7), [1, 2, 2, 2]);
        assert_eq!(now(6, 7), [2, 1, 2, 2]);
        assert_eq!(now(7, 7), [2, 2, 1, 2]);
        assert_eq!(now(7, 6), [2, 1, 1, 2]);
        assert_eq!(now(7, 8), [2; 4]);
    }

    /// A pool that has the counts that are read from the cells.
    fn read(parents: &[u64], count: fn(&Cell) -> u32) -> Pooled {
        let cells = cells(parents);
        let zuniq = |cell: &Cell| (2 * cell.hash + 1) << (2 * (29 - cell.depth));
        Pooled {
            zuniqs: cells.iter().map(zuniq).collect(),
            counts: cells.iter().map(count).collect(),
            total: parents.len() as u32,
        }
    }

    fn told(pool: PoolOf) -> String {
        let tally = tried(&[5, 9, 14], pool);
        tally
            .err()
            .map_or("nothing".into(), |error| error.to_string())
    }

    #[test]
    fn no_wrong_pool_goes_unnamed() {
        assert_eq!(
            told(|parents| Ok(read(parents, |cell| cell.after))),
            "nothing"
        );
        let former: PoolOf = |parents| Ok(read(parents, |cell| cell.before));
        assert_eq!(told(former), "(17, 5120) has 1 and not 0");
        let lost: PoolOf = |parents| Ok(read(parents, |_| 0));
        assert_eq!(told(lost), "(17, 5461) has 0 and not 1");
        let other_total: PoolOf = |parents| {
            let total = 2;
            Ok(Pooled {
                total,
                ..read(parents, |cell| cell.after)
            })
        };
        assert_eq!(told(other_total), "the total of 3 sources is 2");
        let merged: PoolOf = |parents| {
            let mut pooled = read(parents, |cell| cell.after);
            pooled.zuniqs.pop();
            Ok(pooled)
        };
        assert_eq!(told(merged), "155 entries of 156 cells");
        let moved: PoolOf = |parents| {
            let mut pooled = read(parents, |cell| cell.after);
            pooled.zuniqs[1] += 2;
            Ok(pooled)
        };
        let zuniq = ((2 * 5121 + 1) << 24) + 2u64;
        assert_eq!(told(moved), format!("the zuniq of (17, 5121) is {zuniq}"));
        assert!(told(|_| Err(Refusal::NoSpace)).starts_with("refused by 11 "));
    }

    /// Two parents of hash 1 mod 4, and one of 2.
    #[test]
    fn no_clump_and_no_lost_source_passes() {
        let parents = [5, 9, 14];
        let right = Tally {
            cells: 156,
            before: [3, 0, 0, 0, 0],
            after: [0, 2, 1, 0, 0],
        };
        let table = right.report(&parents).unwrap();
        assert!(table.contains("\n1                   0   0.000 %           2  66.667 %\n"));
        for before in [[2, 1, 0, 0, 0], [2, 0, 0, 0, 1], [2, 0, 0, 0, 0]] {
            let told = Tally { before, ..right }.report(&parents).unwrap_err();
            assert!(
                told.ends_with("\nformerly not all are in corner 0"),
                "{told}"
            );
        }
        for after in [
            [3, 0, 0, 0, 0],
            [0, 3, 0, 0, 0],
            [0, 2, 0, 0, 0],
            [0, 2, 0, 0, 1],
        ] {
            let told = Tally { after, ..right }.report(&parents).unwrap_err();
            let own = "\nthe parents' own corners have [0, 2, 1, 0, 0]";
            assert!(told.ends_with(own), "{told}");
        }
    }

    /// Over more than a batch; about a quarter in each corner, whatever the seed is.
    #[test]
    fn no_small_run_has_another_share() {
        let sources = BATCH as u64 + 7;
        for seed in 1..4 {
            let parents = parents(sources, seed).unwrap();
            let tally = tried(&parents, pooled).unwrap();
            assert_eq!(tally.cells as u64, 52 * sources);
            assert!(tally.after[..4]
                .iter()
                .all(|&n| n > sources / 5 && n < sources / 3));
            assert!(tally.report(&parents).is_ok());
        }
    }

    #[test]
    fn no_other_arguments_are_taken() {
        let digit = "invalid digit found in string";
        assert_eq!(report(&["x"]), Err(format!("SOURCES: {digit}")));
        assert_eq!(report(&["-1"]), Err(format!("SOURCES: {digit}")));
        assert_eq!(report(&["9", "1.5"]), Err(format!("SEED: {digit}")));
        assert_eq!(report(&["9", "1", "1"]), Err("[SOURCES [SEED]]".into()));
        for number in ["0", "201326593"] {
            let range = "SOURCES: 1 to 201326592, one for each parent";
            assert_eq!(report(&[number]), Err(range.into()));
        }
    }
}
