//! The pairs of maps: small ones, and random ones of which some are given faults.

use super::{Combine, Given, Input};
use crate::{
    cells::{n_hash, Cell, DEPTH_MAX},
    floats::{near, Float},
    lists::{blank, Value},
    maps::Map,
    protected,
    quads::NOT_ABOVE_0,
    random::{any_of, Random},
    widths::Width,
};

impl<V: Combine> Input<V> {
    /// All pairs of maps in the first base cell down to depth 1, with few values, and with nothing but
    /// 0; and an entry of any depth in one of any other, at both ends and in between. Some of them also
    /// under a list that protects a parent, or what might be taken for it. Also entries of every remainder
    /// that are split under every hash mod 4.
    pub(super) fn small() -> impl Iterator<Item = Self> {
        let settings = [(0, 0.0), (0, 3.5), (0, f64::INFINITY), (1, f64::INFINITY)];
        let few = in_a_base_cell(V::few(), settings);
        let settings = [(0, 0.0), (1, 0.0), (0, -1.0), (0, f64::NEG_INFINITY)];
        let blank = in_a_base_cell(&[V::ZERO], settings);
        let nested = nested(&[f64::NEG_INFINITY, f64::INFINITY]);
        protected::with_lists(few.chain(blank), Self::under_base_cell)
            .chain(protected::with_lists(nested, Self::under_nested))
            .chain(shared())
    }

    /// Under the base cell; its first child; or both, and what lies outside.
    fn under_base_cell(&self, list: usize) -> Option<Self> {
        let base = Cell { depth: 0, hash: 0 };
        let [child, ..] = base.children();
        let lists = [&[base][..], &[child], &[child, base.neighbour(), base]];
        Some(self.under(lists.get(list)?))
    }

    /// Under the larger of the two entries; or the smaller one, and a cell between them.
    pub fn under_nested(&self, list: usize) -> Option<Self> {
        let [over, under] = [&self.left, &self.right].map(|map| map.entries()[0].0);
        let middle = under.ancestor((over.depth + under.depth) / 2);
        let lists = [&[over][..], &[middle, under]];
        Some(self.under(lists.get(list)?))
    }

    fn under(&self, list: &[Cell]) -> Self {
        Input {
            protected: protected::list_of(list),
            ..self.clone()
        }
    }

    /// With no place.
    fn new(left: Given<V>, right: Given<V>, m: u8, t: f64) -> Self {
        Input {
            places: [0; 2],
            left,
            right,
            depth_threshold: m,
            chi2_threshold: Float(t),
            factor: Float(1.0),
            protected: vec![],
            content: u64::MAX,
        }
    }

    /// With places for all, and one more.
    fn with_places(mut self) -> Self {
        self.places = [self.kept().len() + 1; 2];
        self
    }

    pub fn random(random: &mut Random) -> Self {
        match random.below(8) {
            0 => Self::blank(random),
            _ => Self::any(random),
        }
    }

    pub fn any(random: &mut Random) -> Self {
        let cells = cells(random);
        let even = random.coin();
        let maps = cells.map(|cells| map(random, &cells, even));
        Self::about(random, maps, threshold)
    }

    /// Of maps with little but 0, mostly where T is not above 0.
    pub fn blank(random: &mut Random) -> Self {
        let maps = cells(random).map(|cells| {
            let mut map = map(random, &cells, false);
            blank(random, &mut map.values);
            map
        });
        Self::about(random, maps, |random, kept| match random.coin() {
            true => any_of(random, &NOT_ABOVE_0),
            false => threshold(random, kept),
        })
    }

    /// With T by the overlay cells that the rule keeps.
    fn about(
        random: &mut Random,
        [left, right]: [Given<V>; 2],
        threshold: impl FnOnce(&mut Random, &[(Cell, V)]) -> f64,
    ) -> Self {
        let mut input = Self::new(left, right, 0, 0.0);
        let values = [&input.left.values[..], &input.right.values].concat();
        input.factor = Float(V::factor(random, &values));
        if V::exceed(&input.left.values, &input.right.values) {
            return input;
        }
        let kept = input.kept();
        let cells: Vec<Cell> = kept.iter().map(|&(cell, _)| cell).collect();
        input.protected = protected::random(random, &cells);
        input.chi2_threshold = Float(threshold(random, &kept));
        input.depth_threshold = match random.below(4) {
            0 => random.below(DEPTH_MAX as u64 + 1) as u8,
            1 => kept
                .first()
                .map_or(0, |(cell, _)| cell.depth.saturating_sub(1)),
            _ => 0,
        };
        let places = match random.below(4) {
            0 => kept.len(),
            1 => (kept.len() + 1).saturating_sub(random.below(3) as usize),
            _ => kept.len() + random.below(20) as usize,
        };
        input.places = [places; 2];
        input.content = any_of(random, &[0, 1, 1 << 58, u64::MAX, 0x7ff8 << 48 | 5]);
        match random.below(16) {
            0..=2 => input.change(random),
            3 => (0..2).for_each(|_| input.change(random)),
            4 => {
                input.left.change(random);
                input.right.change(random);
            }
            5 => {
                input.change(random);
                protected::change(random, &mut input.protected);
            }
            _ => {}
        }
        input
    }

    /// Makes a change by which the call is refused, or may be.
    fn change(&mut self, random: &mut Random) {
        let over = any_of(random, &[30, 31, 255]);
        match random.below(12) {
            0 => self.depth_threshold = over,
            1 => self.chi2_threshold = Float(any_of(random, &[f64::NAN, -f64::NAN])),
            2 => {
                let factors = [f64::NAN, f64::INFINITY, -1.0, -5e-324, f64::NEG_INFINITY];
                self.factor = Float(any_of(random, &factors));
            }
            3 => self.places[random.below(2) as usize] += 1,
            4 => self.places = self.places.map(|places| places.saturating_sub(1)),
            5 if random.coin() => self.left.depth = over,
            5 => self.right.depth = over,
            6 | 7 => protected::change(random, &mut self.protected),
            _ if random.coin() => self.left.change(random),
            _ => self.right.change(random),
        }
    }
}

impl<V: Value, Z: Width> Given<V, Z> {
    pub fn new(depth: u8, cells: &[Cell], values: Vec<V>) -> Self {
        Given {
            depth,
            zuniqs: cells.iter().map(|cell| cell.zuniq()).collect(),
            values,
        }
    }

    /// Makes a change by which the map is invalid, or may be.
    pub fn change(&mut self, random: &mut Random) {
        let len = self.zuniqs.len().min(self.values.len()) as u64;
        if len == 0 {
            self.values.push(V::ZERO);
            return;
        }
        let place = random.below(len) as usize;
        let before = self.zuniqs[place.saturating_sub(1)];
        match random.below(8) {
            0 => drop(self.zuniqs.pop()),
            1 => drop(self.values.pop()),
            2 => {
                let none = [0, 2, 1 << (2 * Z::DEPTH_MAX + 2), u64::MAX];
                self.zuniqs[place] = Z::of(any_of(random, &none));
            }
            3 => self.zuniqs[place] = before,
            // Larger ones overlap, deeper ones are too deep.
            4 | 5 => {
                let near = Cell::of_zuniq(self.zuniqs[place]).unwrap_or(Cell::random::<Z>(random));
                self.zuniqs[place] = near.relative::<Z>(random).zuniq();
            }
            6 => self.depth = random.below(self.depth as u64 + 1) as u8,
            _ => self.values[place] = any_of(random, V::faulty()),
        }
    }
}

/// All pairs of maps of the first base cell down to depth 1 with these values, at each M and T.
pub fn in_a_base_cell<V: Combine, const N: usize>(
    few: &[V],
    settings: [(u8, f64); N],
) -> impl Iterator<Item = Input<V>> {
    let maps = maps_of_a_base_cell(few);
    (0..maps.len() * maps.len()).flat_map(move |pair| {
        let (left, right) = (&maps[pair / maps.len()], &maps[pair % maps.len()]);
        settings.map(|(m, t)| Input::new(left.clone(), right.clone(), m, t).with_places())
    })
}

/// Pairs in a base cell, each also under all lists that protect the cell, or what might be taken for it.
pub fn under_lists<V: Combine>(
    pairs: impl Iterator<Item = Input<V>>,
) -> impl Iterator<Item = Input<V>> {
    pairs.flat_map(|pair| {
        let listed = (0..).map_while(|list| pair.under_base_cell(list));
        let listed: Vec<_> = listed.collect();
        [pair].into_iter().chain(listed)
    })
}

fn maps_of_a_base_cell<V: Combine>(few: &[V]) -> Vec<Given<V>> {
    let base = Cell { depth: 0, hash: 0 };
    let ways = few.len() + 1;
    let whole = few.iter().map(|&value| Given::new(0, &[base], vec![value]));
    let parts = (0..ways.pow(4)).map(|way| {
        let digits = (0..4).map(|child| way / ways.pow(child) % ways);
        let chosen = base.children().into_iter().zip(digits);
        let chosen = chosen.filter_map(|(cell, digit)| Some((cell, *few.get(digit)?)));
        let (cells, values): (Vec<Cell>, Vec<V>) = chosen.unzip();
        Given::new(1, &cells, values)
    });
    whole.chain(parts).collect()
}

/// An entry in another one, of every two depths, at each T: the larger one is split through all between.
pub fn nested<V: Combine>(thresholds: &'static [f64]) -> impl Iterator<Item = Input<V>> {
    let depths = (0..=DEPTH_MAX).flat_map(|top| (top..=DEPTH_MAX).map(move |depth| (top, depth)));
    depths.flat_map(move |(top, bottom)| {
        let ways = [(0, 0), (11, u64::MAX), (6, 0x1b1b_1b1b_1b1b_1b1b)];
        ways.into_iter().flat_map(move |(hash, path)| {
            let over = Cell { depth: 0, hash }.descendant(top, path);
            let under = over.descendant(bottom, path);
            let values = V::few().iter().copied().chain([V::ZERO]);
            values.flat_map(move |value| {
                let map = move |cell: Cell| Given::new(cell.depth, &[cell], vec![value]);
                let pair = move |&t| Input::new(map(over), map(under), 0, t).with_places();
                thresholds.iter().map(pair)
            })
        })
    })
}

/// An entry of each of the first eight hashes over one that is one level or three below it, from the base
/// cells down and down to depth 29, with nothing merged. On the way from one to the other each level has
/// another child, so that no two levels share alike.
fn shared<V: Combine>() -> impl Iterator<Item = Input<V>> {
    let depths = [(0, 1), (0, 3), (26, 29), (28, 29)].into_iter();
    let ways = [0b00_01_10, 0b01_10_11, 0b10_11_00, 0b11_00_01];
    let entries = depths.flat_map(move |(depth, bottom)| {
        let overs = (0..8).map(move |hash| Cell { depth, hash });
        overs.flat_map(move |over| ways.map(|way| (over, over.descendant(bottom, way))))
    });
    entries.flat_map(|(over, under)| {
        let map = |cell: Cell, value| Given::new(cell.depth, &[cell], vec![value]);
        let pair = move |&value| Input::new(map(over, value), map(under, V::ZERO), DEPTH_MAX, 0.0);
        V::shared().iter().map(pair).map(Input::with_places)
    })
}

/// A map of these cells, of their depth or of one below it.
fn map<V: Combine>(random: &mut Random, cells: &[Cell], even: bool) -> Given<V> {
    let deepest = cells.iter().map(|cell| cell.depth).max().unwrap_or(0);
    let depth = match random.coin() {
        true => deepest,
        false => deepest + random.below((DEPTH_MAX - deepest) as u64 + 1) as u8,
    };
    let values = match even {
        true => V::even(random, cells),
        false => <V as Value>::random(random, deepest.max(1), cells.len()),
    };
    Given::new(depth, cells, values)
}

/// The cells of two maps: of one kind each, or made from each other.
pub fn cells(random: &mut Random) -> [Vec<Cell>; 2] {
    let mut one = match random.below(3) {
        0 => chain(random),
        1 => merged(random),
        _ => spread(random),
    };
    let mut other = match random.below(8) {
        0 => vec![],
        1 => one.clone(),
        2 => spread(random),
        3 => one.iter().map(|cell| cell.ancestor(0)).collect(),
        4 | 5 => {
            let near = one.iter().map(|cell| cell.relative::<u64>(random));
            near.collect()
        }
        _ => dealt(random, &mut one),
    };
    apart(&mut other);
    match random.coin() {
        true => [one, other],
        false => [other, one],
    }
}

/// Some cells go from the map to another, or into both.
fn dealt(random: &mut Random, one: &mut Vec<Cell>) -> Vec<Cell> {
    let mut other = Vec::new();
    one.retain(|&cell| match random.below(5) {
        0 | 1 => {
            other.push(cell);
            false
        }
        2 => {
            other.push(cell);
            true
        }
        _ => true,
    });
    other
}

/// As a map has them: rising, without those that overlap the one before.
fn apart(cells: &mut Vec<Cell>) {
    cells.sort_by_key(|cell| cell.zuniq::<u64>());
    let mut last: Option<Cell> = None;
    cells.retain(|&cell| {
        let is_apart = last.is_none_or(|last| !last.overlaps(cell));
        if is_apart {
            last = Some(cell);
        }
        is_apart
    });
}

/// Any depth, the largest one and the least ones more often.
fn depth(random: &mut Random) -> u8 {
    match random.below(4) {
        0 => DEPTH_MAX,
        1 => random.below(4) as u8,
        _ => random.below(DEPTH_MAX as u64 + 1) as u8,
    }
}

fn spread(random: &mut Random) -> Vec<Cell> {
    let depth = depth(random);
    Map::random::<u64>(depth, random).cells().to_vec()
}

/// A cell, and the siblings of all that it lies in, up to some depth: all of them, or some.
fn chain(random: &mut Random) -> Vec<Cell> {
    let depth = depth(random);
    let path = match random.below(4) {
        0 => 0,
        1 => u64::MAX,
        _ => random.bits(),
    };
    let hash = random.below(12);
    let bottom = Cell { depth: 0, hash }.descendant(depth, path);
    let top = random.below(depth as u64 + 1) as u8;
    let all = random.coin();
    let mut cells = vec![bottom];
    for depth in top + 1..=depth {
        let siblings = bottom.ancestor(depth - 1).children().into_iter();
        let siblings = siblings.filter(|&sibling| sibling != bottom.ancestor(depth));
        cells.extend(siblings.filter(|_| all || random.coin()));
    }
    apart(&mut cells);
    cells
}

/// Cells of one depth that follow each other, merged at random.
fn merged(random: &mut Random) -> Vec<Cell> {
    let depth = depth(random);
    let n = n_hash(depth);
    let len = any_of(random, &[4, 16, 64, 256]);
    let first = match random.below(3) {
        0 => 0,
        1 => n.saturating_sub(len),
        _ => random.below(n) >> 4 << 4,
    };
    let gaps = random.below(3) * 10;
    let mut cells: Vec<Cell> = Vec::new();
    for hash in first..n.min(first + len) {
        if random.below(100) < gaps {
            continue;
        }
        cells.push(Cell { depth, hash });
        while let Some(parent) = last_parent(&cells) {
            if random.below(4) == 0 {
                break;
            }
            cells.truncate(cells.len() - 4);
            cells.push(parent);
        }
    }
    cells
}

/// The parent of the last four cells, if they are its children.
fn last_parent(cells: &[Cell]) -> Option<Cell> {
    let four: [Cell; 4] = *cells.last_chunk()?;
    let parent = four[0].ancestor(four[0].depth.checked_sub(1)?);
    (four == parent.children()).then_some(parent)
}

/// T at chi of four siblings, before merging or after, usual, or far from all chi.
fn threshold<V: Combine>(random: &mut Random, kept: &[(Cell, V)]) -> f64 {
    let chis = chis(kept);
    let t = match random.below(8) {
        0 => f64::INFINITY,
        1 => any_of(
            random,
            &[0.0, -0.0, f64::NEG_INFINITY, f64::MIN_POSITIVE, -1.0],
        ),
        2 => 16.266,
        3..=5 if !chis.is_empty() => {
            let chi = any_of(random, &chis);
            match random.coin() {
                true => near(random, chi),
                false => chi,
            }
        }
        _ => V::LEAST_CHI2 + random.below(20_000) as f64 / 1000.0,
    };
    match t.is_nan() {
        true => f64::INFINITY,
        false => t,
    }
}

/// Of all siblings that would come together if all were merged.
fn chis<V: Combine>(kept: &[(Cell, V)]) -> Vec<f64> {
    let (mut cells, mut values, mut chis) = (Vec::new(), Vec::new(), Vec::new());
    for &(cell, value) in kept {
        cells.push(cell);
        values.push(value);
        while let Some(parent) = last_parent(&cells) {
            let four = *values.last_chunk().expect("a value for each cell");
            chis.push(V::chi2(four, parent.depth));
            cells.truncate(cells.len() - 4);
            values.truncate(values.len() - 4);
            cells.push(parent);
            values.push(V::merged(four));
        }
    }
    chis
}
