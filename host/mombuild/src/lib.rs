//! What the program `mombuild` should print, written from section 7 of the scope, with its change
//! requests. It shares nothing with the program: lines are split and fields parsed as Rust does it, and
//! the map is made from the top down.

/// A cell with its count: depth, hash, count.
pub type Entry = (u8, u64, u32);

/// What should be made of a text.
#[derive(Clone, Debug, PartialEq)]
pub enum Outcome {
    Map(Vec<Entry>),
    Refused { number: u8, place: usize },
}

use Outcome::{Map, Refused};

/// The settings and cells of a text, or the first unreadable line, counted from 1.
struct Text {
    depth: u8,
    depth_threshold: u8,
    chi2_threshold: f64,
    cells: Vec<(u64, u32)>,
}

const MAX_CELLS: usize = 2048;

/// What the program should print for a text.
pub fn printed(text: &[u8]) -> String {
    match outcome(text) {
        Map(entries) => {
            let lines = entries.iter().map(|(d, h, n)| format!("{d},{h},{n}\n"));
            let total: u64 = entries.iter().map(|entry| entry.2 as u64).sum();
            lines.collect::<String>() + &format!("end,{},{total}\n", entries.len())
        }
        Refused { number, place } => format!("refused,{number},{place}\n"),
    }
}

/// What the program should print where a read fails behind these bytes: the first line that could
/// not be read whole. In place of what was not read stands a byte that no line may hold.
pub fn printed_broken_off(text: &[u8]) -> String {
    let line = match read(&[text, b"?"].concat()) {
        Err(line) => line,
        Ok(_) => unreachable!("a line that no LF ends is unreadable"),
    };
    format!("refused,0,{line}\n")
}

pub fn outcome(text: &[u8]) -> Outcome {
    match read(text) {
        Err(line) => Refused {
            number: 0,
            place: line,
        },
        Ok(text) => built(&text),
    }
}

fn read(text: &[u8]) -> Result<Text, usize> {
    let mut lines: Vec<&[u8]> = text.split(|&byte| byte == b'\n').collect();
    // Behind the last LF nothing may stand; what does is a line that no LF ends.
    let behind = lines.pop().unwrap_or_default();
    let first = lines
        .first()
        .and_then(|line| numbers(line, [255, 255, u32::MAX as u64]));
    let [depth, depth_threshold, thousandths] = first.ok_or(1usize)?;
    let mut cells = Vec::new();
    for (place, line) in lines.iter().enumerate().skip(1) {
        let cell = numbers(line, [u64::MAX, u32::MAX as u64]);
        let [hash, count] = cell.filter(|_| place <= MAX_CELLS).ok_or(place + 1)?;
        cells.push((hash, count as u32));
    }
    if !behind.is_empty() {
        return Err(lines.len() + 1);
    }
    Ok(Text {
        depth: depth as u8,
        depth_threshold: depth_threshold as u8,
        chi2_threshold: thousandths as f64 / 1000.0,
        cells,
    })
}

/// The numbers of a line, each with the most that it may be.
fn numbers<const N: usize>(line: &[u8], most: [u64; N]) -> Option<[u64; N]> {
    let fields: Vec<&[u8]> = line.split(|&byte| byte == b',').collect();
    if fields.len() != N {
        return None;
    }
    let mut values = [0; N];
    for (place, field) in fields.iter().enumerate() {
        let digits = (1..=20).contains(&field.len()) && field.iter().all(u8::is_ascii_digit);
        let value: u128 = std::str::from_utf8(field)
            .ok()
            .filter(|_| digits)?
            .parse()
            .ok()?;
        values[place] = u64::try_from(value)
            .ok()
            .filter(|&value| value <= most[place])?;
    }
    Some(values)
}

/// The refusals that a text can meet, in the order of the scope's table. T is never NaN, nothing is
/// held and the cells fit, so that 3 to 6, 9 and 11 don't occur.
fn built(text: &Text) -> Outcome {
    let refused = |number, place| Refused { number, place };
    if text.depth > 29 {
        return refused(1, 0);
    }
    if text.depth_threshold > 29 {
        return refused(2, 0);
    }
    for (place, &(hash, _)) in text.cells.iter().enumerate() {
        if hash >= 12 << (2 * text.depth) {
            return refused(7, place);
        }
        if place > 0 && hash <= text.cells[place - 1].0 {
            return refused(8, place);
        }
    }
    let mut total = 0;
    for (place, &(_, count)) in text.cells.iter().enumerate() {
        total += count as u64;
        if total > u32::MAX as u64 {
            return refused(10, place);
        }
    }
    Map((0..12)
        .flat_map(|base| under(text, 0, base, &text.cells))
        .collect())
}

/// The entries in a cell: itself where its four children are entries that are merged, else those in
/// its children. `cells` has all listed cells in it, and maybe others.
fn under(text: &Text, depth: u8, hash: u64, cells: &[(u64, u32)]) -> Vec<Entry> {
    let shift = 2 * (text.depth - depth);
    let start = cells.partition_point(|cell| cell.0 >> shift < hash);
    let end = cells.partition_point(|cell| cell.0 >> shift <= hash);
    let cells = &cells[start..end];
    if cells.is_empty() {
        return Vec::new();
    }
    if depth == text.depth {
        return vec![(depth, hash, cells[0].1)];
    }
    let children = 4 * hash..4 * hash + 4;
    let inside: Vec<Entry> = children
        .flat_map(|child| under(text, depth + 1, child, cells))
        .collect();
    match merged(text, depth, &inside) {
        Some(count) => vec![(depth, hash, count)],
        None => inside,
    }
}

/// The count of a cell whose entries these are, if they are its four children and are merged. Four of
/// count 0 are "at any T" (note 4).
fn merged(text: &Text, depth: u8, inside: &[Entry]) -> Option<u32> {
    let whole = inside.len() == 4 && inside.iter().all(|entry| entry.0 == depth + 1);
    if !whole || depth < text.depth_threshold {
        return None;
    }
    if inside.iter().all(|entry| entry.2 == 0) {
        return Some(0);
    }
    let n: Vec<f64> = inside.iter().map(|entry| entry.2 as f64).collect();
    let sum = ((n[0] + n[1]) + n[2]) + n[3];
    let w = ((1.0 / n[0] + 1.0 / n[1]) + 1.0 / n[2]) + 1.0 / n[3];
    let chi = sum - 4.0 * (4.0 / w);
    (chi < text.chi2_threshold).then(|| inside.iter().map(|entry| entry.2).sum())
}
