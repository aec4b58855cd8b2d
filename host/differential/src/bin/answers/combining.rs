//! Section 5: pools and products of small maps; pools that are asked for before they are done, pools that share
//! a remainder, and pools of blank sky.

use differential::{
    cells::{Cell, DEPTH_MAX},
    floats::Float,
    lists::Value,
    pairs::{Combine, Given, Input, Pooled},
    protected,
    random::Random,
};
use mom::Figures;
use oracle::run;

use crate::{building::buffers, Line, Number, MOST_PROTECTED};

const DRAWN: usize = 24;

fn with_total(line: Line, entries: &[(u64, u32)]) -> Line {
    let total: u32 = entries.iter().map(|&(_, count)| count).sum();
    line.with(total)
}

/// A blank base cell and a blank cell in it, as far as M.
pub fn print_blank() {
    for (m, cell, t) in [
        (0, (1, 1), 0.0),
        (1, (1, 1), 0.0),
        (0, (3, 37), -1.0),
        (2, (3, 37), f64::NEG_INFINITY),
    ] {
        print_pair(&blank(m, cell, t, &[]), with_total);
    }
}

/// The same under protected parents, asked for and committed too: the base cell; the smaller cell's parent,
/// from M on and below it; a cell between them, beside one that lies in it; and the smaller cell itself.
pub fn print_protected_blank() {
    for (m, cell, t, list) in [
        (0, (1, 1), f64::NEG_INFINITY, &[(0, 0)][..]),
        (0, (1, 1), f64::INFINITY, &[(0, 0)]),
        (0, (2, 6), -1.0, &[(1, 1)]),
        (2, (2, 6), 0.0, &[(1, 1)]),
        (0, (3, 37), 0.0, &[(2, 8), (1, 2)]),
        (0, (1, 1), 0.0, &[(1, 1)]),
    ] {
        let list = list.iter().map(|&(depth, hash)| Cell { depth, hash });
        let list: Vec<Cell> = list.collect();
        let input = blank(m, cell, t, &list);
        print_pair(&input, with_total);
        let pooled = input.asked().expect("two valid maps");
        ask(&input, &pooled).print();
        commit(&input, &pooled).print();
    }
}

fn blank(m: u8, cell: (u8, u64), t: f64, list: &[Cell]) -> Input<u32> {
    Input {
        depth_threshold: m,
        protected: protected::list_of(list),
        ..case(cell, [0; 2], t)
    }
}

pub fn print(random: &mut Random) {
    for t in [2.0, 3.5] {
        print_pair(&case((1, 1), [10, 3], t), with_total);
    }
    draw(random, with_total);
    let alone = |line: Line, _: &[(u64, Float)]| line;
    print_pair(&case((1, 2), [2.0, 3.0].map(Float), 0.0), alone);
    draw(random, alone);
}

/// The scope's cases: a base cell and a cell in it.
fn case<V: Combine>((depth, hash): (u8, u64), [left, right]: [V; 2], t: f64) -> Input<V> {
    let map = |depth, hash, value| Given {
        depth,
        zuniqs: vec![run::to_zuniq(depth, hash)],
        values: vec![value],
    };
    Input {
        places: [0; 2],
        left: map(0, 0, left),
        right: map(depth, hash, right),
        depth_threshold: 0,
        chi2_threshold: Float(t),
        factor: Float(1.0),
        protected: vec![],
        content: 0,
    }
}

/// Prints the first pairs of maps drawn that no call of ours refuses and that a line has room for. All but
/// one in eight have entries that overlap, and one in four comes out otherwise without its list.
fn draw<V: Combine + Number>(
    random: &mut Random,
    total: impl Fn(Line, &[(u64, V)]) -> Line + Copy,
) {
    let mut printed = 0;
    while printed < DRAWN {
        let mut input = Input::<V>::any(random);
        input.protected.truncate(MOST_PROTECTED);
        if input.left.zuniqs.len() + input.right.zuniqs.len() > 24 || input.refusal().is_some() {
            continue;
        }
        if printed % 8 > 0 && !meet(&input) || printed % 4 == 1 && !is_protected(&input) {
            continue;
        }
        printed += usize::from(print_pair(&input, total));
    }
}

fn meet<V: Combine>(input: &Input<V>) -> bool {
    let (left, right) = (input.left.entries(), input.right.entries());
    let overlaps = |l: &Cell| right.iter().any(|(r, _)| l.overlaps(*r));
    left.iter().any(|(l, _)| overlaps(l))
}

/// Whether the list keeps a quad.
fn is_protected<V: Combine>(input: &Input<V>) -> bool {
    let mut unlisted = input.clone();
    unlisted.protected.clear();
    V::original(&unlisted) != V::original(input)
}

/// Whether the pair was printed: a line has room for it.
fn print_pair<V: Combine + Number>(
    input: &Input<V>,
    total: impl Fn(Line, &[(u64, V)]) -> Line,
) -> bool {
    let line = line(input, &V::original(input), total);
    let is_short = line.is_short();
    if is_short {
        line.print();
    }
    is_short
}

fn line<V: Combine + Number>(
    input: &Input<V>,
    entries: &[(u64, V)],
    total: impl Fn(Line, &[(u64, V)]) -> Line,
) -> Line {
    into_output(arguments(V::CALL, input), input, entries, total)
}

/// What is handed to a call, up to its protected parents.
fn arguments<V: Combine + Number>(word: &'static str, input: &Input<V>) -> Line {
    let mut line = with_map(Line::new(word), &input.left);
    line = with_map(line, &input.right)
        .with(input.depth_threshold)
        .with(input.chi2_threshold);
    if word == "product" {
        line = line.with(input.factor);
    }
    line.with_list(&input.protected)
}

/// The output as it is lent, with one place more than are needed, and the answer with the output as it is left.
fn into_output<V: Combine + Number>(
    line: Line,
    input: &Input<V>,
    entries: &[(u64, V)],
    total: impl Fn(Line, &[(u64, V)]) -> Line,
) -> Line {
    let places = input.kept().len() + 1;
    let (zuniqs, values) = buffers(&[], places, 2u64, V::of_content(3));
    let line = line.with_list(&zuniqs).with_list(&values);
    let (zuniqs, values) = buffers(entries, places, 0, V::ZERO);
    total(line.with(entries.len()), entries)
        .with_list(&zuniqs)
        .with_list(&values)
}

/// Asks and commits: the stored sample has room for few, of few entries and, where the output stands in the
/// line, of few cells.
const ASKED: usize = 6;
const COMMITTED: usize = 4;
const MOST_ENTRIES: usize = 4;
const MOST_CELLS: usize = 4;

/// The cells of a pair that shows how a count is shared: one level down, or two.
const MOST_SHARED: usize = 7;

/// Note 8 of 02: the figures, the cells being those that the original's rule is handed, and commits of them.
pub fn print_asked(random: &mut Random) {
    for number in 0..ASKED {
        let (input, pooled) = draw_asked(random, number, usize::MAX);
        ask(&input, &pooled).print();
    }
    for number in 0..COMMITTED {
        let (input, pooled) = draw_asked(random, number, MOST_CELLS);
        commit(&input, &pooled).print();
    }
}

fn ask(input: &Input<u32>, pooled: &Pooled) -> Line {
    with_figures(arguments("ask", input), pooled.figures())
}

fn commit(input: &Input<u32>, pooled: &Pooled) -> Line {
    let line = with_figures(arguments("commit", input), pooled.figures());
    into_output(line, input, &pooled.entries, with_total)
}

fn with_figures(line: Line, figures: Figures) -> Line {
    line.with(figures.cells)
        .with(figures.entries)
        .with(figures.total)
}

/// A pair of few entries that meet. One in four comes out otherwise without its list, and half have quads that
/// merge.
fn draw_asked(random: &mut Random, number: usize, most_cells: usize) -> (Input<u32>, Pooled) {
    loop {
        let mut input = Input::<u32>::any(random);
        input.protected.truncate(MOST_PROTECTED);
        let entries = input.left.zuniqs.len() + input.right.zuniqs.len();
        let Ok(pooled) = input.asked() else {
            continue;
        };
        let is_chosen = match number % 4 {
            1 => is_protected(&input),
            3 => true,
            _ => pooled.entries.len() < pooled.cells,
        };
        if is_chosen && entries <= MOST_ENTRIES && pooled.cells <= most_cells && meet(&input) {
            return (input, pooled);
        }
    }
}

/// Note 10 of 02: for each h mod 4 but 0, under which nothing changed, and each v mod 4 but 0 a pair in which
/// such a cell shares such a count. Nothing is merged, so that every part is seen.
pub fn print_shared(random: &mut Random) {
    for first in 1..4 {
        for extra in 1..4 {
            let input = draw_shared(random, first, extra);
            line(&input, &u32::original(&input), with_total).print();
        }
    }
}

fn draw_shared(random: &mut Random, first: u64, extra: u32) -> Input<u32> {
    loop {
        let mut input = Input::<u32>::any(random);
        input.protected.clear();
        input.depth_threshold = DEPTH_MAX;
        let entries = input.left.zuniqs.len() + input.right.zuniqs.len();
        if entries > MOST_ENTRIES || input.refusal().is_some() || input.kept().len() > MOST_SHARED {
            continue;
        }
        let shares = |&(cell, count): &(Cell, u32)| cell.hash % 4 == first && count % 4 == extra;
        if input.overlaid().1.iter().any(shares) {
            return input;
        }
    }
}

fn with_map<V: Value + Number>(line: Line, map: &Given<V>) -> Line {
    line.with(map.depth)
        .with_list(&map.zuniqs)
        .with_list(&map.values)
}
