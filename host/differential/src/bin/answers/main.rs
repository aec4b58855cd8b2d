//! Prints the stored sample of the original's answers, which the replay program holds ours to where
//! no Rust is at hand. A line is one call, its arguments and its answer: a word and decimal numbers,
//! parted by one space. A list is its length and its items, a buffer the list that it holds, and an f64
//! its 64-bit pattern. `crates/replay/src/call.rt` sets out the numbers of each call.
//!
//! The choice of arguments is fixed: small ones, and some that a fixed seed draws. Every answer is the
//! original's, with its mergers behind the tests of protected parents and of blank quads, on arguments that
//! no call of ours refuses; nothing here calls our library.

mod building;
mod cells;
mod combining;
mod maps;
mod mergers;
mod moving;
mod rows;

use differential::{floats::Float, random::Random};

fn main() {
    cells::print();
    cells::print_zuniqs::<u64>();
    mergers::print(&mut random(2));
    maps::print::<u64>(&mut random(3), 32);
    let building = &mut random(4);
    building::print_counts::<u64>(building, 32);
    building::print_densities(building, 28);
    combining::print(&mut random(5));
    rows::print(&mut random(7), 16);
    print_narrow(&mut random(8));
    print_blank();
    combining::print_asked(&mut random(9));
    combining::print_shared(&mut random(10));
    print_protected_blank();
}

/// Narrow maps, and moving between the widths.
fn print_narrow(random: &mut Random) {
    cells::print_zuniqs::<u32>();
    maps::print::<u32>(random, 20);
    building::print_counts::<u32>(random, 20);
    rows::print_narrow(random, 10);
    moving::print::<u64>(random, 10);
    moving::print::<u32>(random, 10);
}

/// Blank sky at a T that its chi is not below; its mergers stand with the others.
fn print_blank() {
    building::print_blank::<u64>();
    building::print_blank::<u32>();
    combining::print_blank();
}

/// Note 11 of 02: blank sky under protected parents, and beside them under the same lists.
fn print_protected_blank() {
    mergers::print_protected_blank();
    building::print_protected_blank::<u64>();
    building::print_protected_blank::<u32>();
    combining::print_protected_blank();
}

/// The numbers that the arguments of a section are drawn from; 8 is for narrow maps, 9 for asking,
/// 10 for sharing.
fn random(section: u64) -> Random {
    Random::part(1, section)
}

/// How many numbers a line holds, and how many of them a list, as the replay program reads them.
const MOST: usize = 128;
const MOST_ITEMS: usize = 48;

/// The most protected parents of a drawn call: the stored sample has room for few.
const MOST_PROTECTED: usize = 3;

/// A line, from its word on.
struct Line {
    word: &'static str,
    numbers: Vec<u64>,
    longest_list: usize,
}

impl Line {
    fn new(word: &'static str) -> Self {
        Line {
            word,
            numbers: vec![],
            longest_list: 0,
        }
    }

    fn with(mut self, number: impl Number) -> Self {
        self.numbers.push(number.number());
        self
    }

    fn with_all<N: Number>(self, numbers: &[N]) -> Self {
        numbers.iter().fold(self, |line, &number| line.with(number))
    }

    fn with_list<N: Number>(mut self, items: &[N]) -> Self {
        self.longest_list = self.longest_list.max(items.len());
        self.with(items.len()).with_all(items)
    }

    fn is_short(&self) -> bool {
        self.numbers.len() <= MOST && self.longest_list <= MOST_ITEMS
    }

    fn print(&self) {
        assert!(self.is_short(), "{} takes too many numbers", self.word);
        let numbers = self.numbers.iter().map(|number| format!(" {number}"));
        println!("{}{}", self.word, numbers.collect::<String>());
    }
}

/// What a line holds as one number.
trait Number: Copy {
    fn number(self) -> u64;
}

impl Number for u8 {
    fn number(self) -> u64 {
        self.into()
    }
}

impl Number for u32 {
    fn number(self) -> u64 {
        self.into()
    }
}

impl Number for u64 {
    fn number(self) -> u64 {
        self
    }
}

impl Number for usize {
    fn number(self) -> u64 {
        self as u64
    }
}

impl Number for Float {
    fn number(self) -> u64 {
        self.0.to_bits()
    }
}
