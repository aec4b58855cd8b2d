//! Rows laid out by byte column, and back. The original has no such layout, so that the request is the
//! judge, read plainly, a byte at a time. Compared are the answer and the output whole, and that the way
//! back gives the bytes again.

use std::marker::PhantomData;

use mom::{
    columns::{columns_to_rows, rows_to_columns},
    Refusal,
};

use crate::{
    compare::Kind,
    random::{any_of, Random},
};

type Call = fn(usize, &[u8], &mut [u8]) -> Result<usize, Refusal>;

/// One of the two ways.
pub trait Way {
    const NAME: &'static str;
    const THERE: Call;
    const BACK: Call;

    /// Where byte j of row i is taken from and where it goes, of so many rows of so many bytes.
    fn places(row_size: usize, rows: usize, i: usize, j: usize) -> (usize, usize);
}

pub struct ToColumns;

impl Way for ToColumns {
    const NAME: &'static str = "rows_to_columns";
    const THERE: Call = rows_to_columns;
    const BACK: Call = columns_to_rows;

    fn places(row_size: usize, rows: usize, i: usize, j: usize) -> (usize, usize) {
        (i * row_size + j, j * rows + i)
    }
}

pub struct ToRows;

impl Way for ToRows {
    const NAME: &'static str = "columns_to_rows";
    const THERE: Call = columns_to_rows;
    const BACK: Call = rows_to_columns;

    fn places(row_size: usize, rows: usize, i: usize, j: usize) -> (usize, usize) {
        (j * rows + i, i * row_size + j)
    }
}

#[derive(Clone, Debug, PartialEq, Eq, PartialOrd, Ord)]
pub struct Input {
    /// How many bytes the output has.
    pub places: usize,
    pub row_size: usize,
    pub bytes: Vec<u8>,
    /// What stands in every byte of the output before the call.
    pub content: u8,
}

/// An answer, and the output after it.
pub type Step = (Result<usize, Refusal>, Vec<u8>);

impl Input {
    /// Every length up to 48 and every row length up to 20, into an output that is a byte too short, just
    /// as long, and longer. All bytes differ.
    fn small() -> impl Iterator<Item = Self> {
        (0..=20).flat_map(|row_size| {
            (0..=48u8).flat_map(move |length| {
                let places = length as usize;
                [places.saturating_sub(1), places, places + 2].map(|places| Input {
                    places,
                    row_size,
                    bytes: (1..=length).collect(),
                    content: 0xff,
                })
            })
        })
    }

    pub fn random(random: &mut Random) -> Self {
        let row_size = match random.below(8) {
            0 => random.below(40) as usize,
            1 => any_of(random, &[0, 4, 1 << 8 | 8, 1 << 32 | 8, usize::MAX]),
            _ => any_of(random, &[8, 12, 16]),
        };
        let rows = match random.below(8) {
            0 => random.below(300),
            1 => (1 << random.below(9)) - 1 + random.below(3),
            _ => random.below(20),
        };
        let uneven = any_of(random, &[0, 0, 0, 0, 0, 0, 0, 1]) * random.below(16);
        let length = row_size.min(40) * rows as usize + uneven as usize;
        let places = match random.below(8) {
            0 => random.below(length as u64 + 1) as usize,
            1 => length.saturating_sub(1),
            2..=4 => length,
            _ => length + random.below(20) as usize,
        };
        Input {
            places,
            row_size,
            bytes: (0..length).map(|_| random.bits() as u8).collect(),
            content: any_of(random, &[0, 1, 0xff]),
        }
    }

    /// "An uneven length, or a row length not named here, is number 4; an output shorter than the input
    /// is 11."
    pub fn refusal(&self) -> Option<Refusal> {
        self.refusal_of(&[8, 12, 16])
    }

    /// The same with these row lengths named.
    pub fn refusal_of(&self, named: &[usize]) -> Option<Refusal> {
        let length = self.bytes.len();
        if !named.contains(&self.row_size) || length.checked_rem(self.row_size) != Some(0) {
            return Some(Refusal::LengthMismatch);
        }
        (self.places < length).then_some(Refusal::NoSpace)
    }

    /// Makes a call on an output of its own.
    pub fn step(&self, call: impl FnOnce(&mut [u8]) -> Result<usize, Refusal>) -> Step {
        let mut output = vec![self.content; self.places];
        let answer = call(&mut output);
        (answer, output)
    }
}

pub struct LayOut<W>(PhantomData<W>);

impl<W: Way> Kind for LayOut<W> {
    const NAME: &'static str = W::NAME;
    type Input = Input;
    /// The call, and where it was accepted the way back.
    type Answer = (Step, Option<Step>);

    fn small() -> impl Iterator<Item = Input> {
        Input::small()
    }

    fn random(random: &mut Random) -> Option<Input> {
        Some(Input::random(random))
    }

    fn ours(input: &Input) -> Self::Answer {
        let (row_size, bytes) = (input.row_size, &input.bytes);
        let there = input.step(|output| W::THERE(row_size, bytes, output));
        let back = there.0.is_ok().then(|| {
            let laid_out = &there.1[..bytes.len()];
            input.step(|output| W::BACK(row_size, laid_out, output))
        });
        (there, back)
    }

    fn original(input: &Input) -> Self::Answer {
        let (row_size, bytes) = (input.row_size, &input.bytes);
        if let Some(refusal) = input.refusal() {
            return (input.step(|_| Err(refusal)), None);
        }
        let rows = bytes.len() / row_size;
        let there = input.step(|output| {
            for (i, j) in (0..rows).flat_map(|i| (0..row_size).map(move |j| (i, j))) {
                let (from, to) = W::places(row_size, rows, i, j);
                output[to] = bytes[from];
            }
            Ok(rows)
        });
        let back = input.step(|output| {
            output[..bytes.len()].copy_from_slice(bytes);
            Ok(rows)
        });
        (there, Some(back))
    }
}
