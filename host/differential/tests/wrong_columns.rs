//! Wrong ways between rows and byte columns: the random inputs must tell each from the plain reading, which
//! stands for the original here, often enough for a short run to find it.

use differential::{
    compare::Kind,
    kinds::{LayOut, LayOutInput, LayOutStep, ToColumns, ToRows, Way},
    random::Random,
};
use mom::Refusal;

const DRAWN: usize = 20_000;

/// A way, of which each wrong one differs from the right one in one thing.
struct Program {
    refusal: fn(&LayOutInput) -> Option<Refusal>,
    /// Where byte j of row i is taken from and where it goes, of so many rows of so many bytes.
    places: fn(usize, usize, usize, usize) -> (usize, usize),
    /// How many of so many rows are laid out.
    rows: fn(usize) -> usize,
    /// How many bytes of so many in a row are laid out.
    bytes: fn(usize) -> usize,
    /// What becomes of the bytes behind the rows.
    past: fn(&mut [u8]),
    /// What a refused call does.
    refuse: fn(&mut [u8]),
}

impl Program {
    fn right<W: Way>() -> Self {
        Program {
            refusal: LayOutInput::refusal,
            places: W::places,
            rows: |rows| rows,
            bytes: |bytes| bytes,
            past: |_| {},
            refuse: |_| {},
        }
    }

    /// A place that the output doesn't have is left out.
    fn call(&self, input: &LayOutInput, output: &mut [u8]) -> Result<usize, Refusal> {
        if let Some(refusal) = (self.refusal)(input) {
            (self.refuse)(output);
            return Err(refusal);
        }
        let row_size = input.row_size;
        let all = input.bytes.len() / row_size;
        let (rows, bytes) = ((self.rows)(all), (self.bytes)(row_size));
        for (i, j) in (0..rows).flat_map(|i| (0..bytes).map(move |j| (i, j))) {
            let (from, to) = (self.places)(row_size, all, i, j);
            if let Some(place) = output.get_mut(to) {
                *place = input.bytes[from];
            }
        }
        let end = input.bytes.len().min(output.len());
        (self.past)(&mut output[end..]);
        Ok(rows)
    }

    fn step(&self, input: &LayOutInput) -> LayOutStep {
        input.step(|output| self.call(input, output))
    }

    fn differing<W: Way>(&self) -> usize {
        let mut random = Random::new(16);
        let inputs = (0..DRAWN).map(|_| LayOutInput::random(&mut random));
        let differs = |input: &LayOutInput| self.step(input) != LayOut::<W>::original(input).0;
        inputs.filter(differs).count()
    }

    fn assert_found<W: Way>(self, wrong: &str) {
        let differing = self.differing::<W>();
        assert!(differing * 1000 > DRAWN, "{wrong}: {differing} of {DRAWN}");
    }
}

macro_rules! found {
    ($wrong:literal, $field:ident: $rule:expr) => {
        let program = Program {
            $field: $rule,
            ..Program::right::<W>()
        };
        program.assert_found::<W>($wrong);
    };
}

/// Wrong bytes, and bytes that are to stay.
fn assert_layouts_found<W: Way>(swapped: fn(usize, usize, usize, usize) -> (usize, usize)) {
    assert_eq!(Program::right::<W>().differing::<W>(), 0);
    found!("rows and columns swapped", places: swapped);
    found!("left as they are", places: |row_size, _, i, j| (i * row_size + j, i * row_size + j));
    found!("the last row left out", rows: |rows| rows.saturating_sub(1));
    found!("the last byte of a row left out", bytes: |bytes| bytes - 1);
    found!("the bytes past the rows cleared", past: |past| past.fill(0));
    found!("a byte past the rows cleared", past: |past| past.iter_mut().take(1).for_each(|byte| *byte = 0));
    found!("a refused call clears the output", refuse: |output| output.fill(0));
}

fn is_short(input: &LayOutInput) -> bool {
    input.places < input.bytes.len()
}

fn assert_refusals_found<W: Way>() {
    found!("a row length of 4 accepted", refusal: |input| input.refusal_of(&[4, 8, 12, 16]));
    found!("a row length of 12 refused", refusal: |input| input.refusal_of(&[8, 16]));
    found!("an uneven length accepted", refusal: |input| match input.row_size {
        8 | 12 | 16 => is_short(input).then_some(Refusal::NoSpace),
        _ => input.refusal(),
    });
    found!("11 before 4", refusal: |input| match is_short(input) {
        true => Some(Refusal::NoSpace),
        false => input.refusal(),
    });
    found!("one byte too few taken", refusal: |input| match input.refusal() {
        Some(Refusal::NoSpace) if input.places + 1 == input.bytes.len() => None,
        refusal => refusal,
    });
    found!("a longer output refused", refusal: |input| match input.refusal() {
        None if input.places > input.bytes.len() => Some(Refusal::LengthMismatch),
        refusal => refusal,
    });
    found!("no rows refused", refusal: |input| match input.bytes.len() {
        0 => Some(Refusal::LengthMismatch),
        _ => input.refusal(),
    });
}

#[test]
fn no_wrong_way_to_columns_is_missed() {
    assert_layouts_found::<ToColumns>(ToRows::places);
    assert_refusals_found::<ToColumns>();
}

#[test]
fn no_wrong_way_to_rows_is_missed() {
    assert_layouts_found::<ToRows>(ToColumns::places);
    assert_refusals_found::<ToRows>();
}
