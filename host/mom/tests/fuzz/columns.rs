//! Rows laid out by byte column, and back. The original has no such call: the request's reading is the
//! only judge.

use mom::{
    columns::{columns_to_rows, rows_to_columns},
    Refusal,
};

use super::{
    assert_some,
    draw::{Draw, LayoutCall},
    plain, rounds, Met,
};

/// One of the two calls.
type Call = fn(usize, &[u8], &mut [u8]) -> Result<usize, Refusal>;

/// How often what is told apart by the row length alone, or by the order of the refusals, was met.
#[derive(Default)]
struct Edges {
    /// Refused by 4, of whole rows into enough bytes.
    not_named: usize,
    /// Refused by 4, of a row length that is named and into enough bytes.
    uneven: usize,
    /// Refused by 4, where there are too few bytes too.
    without_space: usize,
    /// Accepted with bytes left behind the rows.
    longer: usize,
    /// Accepted over 100 rows.
    many: usize,
}

impl Edges {
    fn add(&mut self, call: &LayoutCall, answer: Result<usize, Refusal>) {
        let (length, places) = (call.input.len(), call.lent.len());
        match answer.map_err(Refusal::number) {
            Err(4) if places < length => self.without_space += 1,
            Err(4) if length.checked_rem(call.row_size) == Some(0) => self.not_named += 1,
            Err(4) => self.uneven += [8, 12, 16].contains(&call.row_size) as usize,
            Err(_) => {}
            Ok(rows) => {
                self.longer += (places > length) as usize;
                self.many += (rows > 100) as usize;
            }
        }
    }

    fn assert_all(self, name: &str) {
        for (times, what) in [
            (self.not_named, "whole rows of a length not named"),
            (self.uneven, "an uneven length"),
            (self.without_space, "no whole rows and too few bytes"),
            (self.longer, "bytes left behind the rows"),
            (self.many, "over 100 rows"),
        ] {
            assert_some(name, what, times);
        }
    }
}

fn there_and_back(
    draw: &mut Draw,
    there: Call,
    back: Call,
    from_rows: bool,
) -> (LayoutCall, Result<usize, Refusal>) {
    let call = draw.layout_call();
    let (answer, output) = plain::laid_out(&call, from_rows);
    let mut out = call.output.clone();
    let told = there(call.row_size, &call.input, &mut out[call.lent.clone()]);
    assert_eq!((told, &out), (answer, &output), "{call:?}");
    if answer.is_ok() {
        let mut again = vec![7; call.input.len()];
        let laid_out = &out[call.lent.start..][..again.len()];
        assert_eq!(
            back(call.row_size, laid_out, &mut again),
            answer,
            "{call:?}"
        );
        assert_eq!(again, call.input, "{call:?}");
    }
    (call, answer)
}

fn both_ways(name: &str, there: Call, back: Call, from_rows: bool) {
    let (mut met, mut edges) = (Met::default(), Edges::default());
    rounds(name, |draw| {
        let (call, answer) = there_and_back(draw, there, back, from_rows);
        met.add(&answer);
        edges.add(&call, answer);
    });
    edges.assert_all(name);
    met.assert_all(&[0, 4, 11]);
}

#[test]
fn rows() {
    both_ways("rows to columns", rows_to_columns, columns_to_rows, true);
}

#[test]
fn columns() {
    both_ways("columns to rows", columns_to_rows, rows_to_columns, false);
}
