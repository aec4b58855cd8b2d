//! The definitions of the scope and of its change requests, each as it is read there, without a thought
//! of speed. What is said of a zuniq holds for both widths, with the width's largest depth.

use std::{fmt::Debug, ops::Range};

use mom::{Fault, Figures, MapCheck, Refusal};

use super::draw::{AddCall, ClipCall, CombineCall, LayoutCall, Side};

pub type Cell = (u8, u64);
type Answer<T> = Result<T, Refusal>;

/// A width of zuniqs: u64, and u32 for narrow maps. A hash has the same width.
pub trait Zuniq: Bytes + Debug + Default + Ord {
    /// The largest depth.
    const MAX_DEPTH: u8;
    /// The low bits of a number, as many as the width has.
    fn of(number: u64) -> Self;
    fn number(self) -> u64;
}

impl Zuniq for u64 {
    const MAX_DEPTH: u8 = 29;

    fn of(number: u64) -> u64 {
        number
    }

    fn number(self) -> u64 {
        self
    }
}

impl Zuniq for u32 {
    const MAX_DEPTH: u8 = 13;

    fn of(number: u64) -> u32 {
        number as u32
    }

    fn number(self) -> u64 {
        self as u64
    }
}

fn refused<T>(number: u8, place: usize) -> Answer<T> {
    Err(Refusal::of(number, place).unwrap())
}

/// `refused`, where the condition holds.
fn refuse_if(condition: bool, number: u8, place: usize) -> Answer<()> {
    if condition {
        return refused(number, place);
    }
    Ok(())
}

// ---- Section 1

fn n(depth: u8) -> u64 {
    12 * 4u64.pow(depth as u32)
}

pub fn depth<Z: Zuniq>(depth: u8) -> Answer<()> {
    refuse_if(depth > Z::MAX_DEPTH, 1, 0)
}

pub fn cell_number(d: u8) -> Answer<u64> {
    depth::<u64>(d)?;
    Ok(n(d))
}

/// 4^(K − d), K being the largest depth.
fn scale<Z: Zuniq>(d: u8) -> u64 {
    4u64.pow((Z::MAX_DEPTH - d) as u32)
}

pub fn encode<Z: Zuniq>(d: u8, h: u64) -> Answer<Z> {
    depth::<Z>(d)?;
    refuse_if(h >= n(d), 7, 0)?;
    Ok(Z::of((2 * h + 1) * scale::<Z>(d)))
}

pub fn cell_of<Z: Zuniq>(zuniq: Z) -> Option<Cell> {
    (0..=Z::MAX_DEPTH).find_map(|d| {
        let h = zuniq.number() / scale::<Z>(d) / 2;
        (encode(d, h) == Ok(zuniq)).then_some((d, h))
    })
}

fn lies_in((d, h): Cell, (e, g): Cell) -> bool {
    d >= e && h / 4u64.pow((d - e) as u32) == g
}

fn overlap(l: Cell, r: Cell) -> bool {
    lies_in(l, r) || lies_in(r, l)
}

pub fn overlap_test<Z: Zuniq>(l: Z, r: Z) -> Answer<bool> {
    let Some(l) = cell_of(l) else {
        return refused(12, 0);
    };
    let Some(r) = cell_of(r) else {
        return refused(12, 1);
    };
    Ok(overlap(l, r))
}

// ---- Section 2

pub fn invalid(density: f64) -> bool {
    density.is_nan() || density.is_infinite() || density < 0.0
}

fn excess(sum: f64, [a, b, c, d]: [f64; 4]) -> f64 {
    let w = ((1.0 / a + 1.0 / b) + 1.0 / c) + 1.0 / d;
    sum - 4.0 * (4.0 / w)
}

/// What a merger goes by: M, T and the protected parents.
pub struct Setting<'a, Z> {
    pub m: u8,
    pub t: f64,
    pub protected: &'a [Z],
}

impl<Z: Zuniq> Setting<'_, Z> {
    /// "A quad whose parent is listed is kept." (Request 7.)
    fn keeps(&self, (p, h): Cell) -> bool {
        self.protected.contains(&encode(p, h).unwrap())
    }

    /// "If parent depth ≥ M and chi < T", where no list keeps them.
    fn merges(&self, parent: Cell, chi: f64) -> bool {
        !self.keeps(parent) && parent.0 >= self.m && chi < self.t
    }

    /// 2, 3 and 15.
    fn check(&self) -> Answer<()> {
        refuse_if(self.m > 29, 2, 0)?;
        refuse_if(self.t.is_nan(), 3, 0)?;
        self.check_protected()
    }

    /// "15, a listed value is not a valid zuniq or not above the one before, place its index, tried after
    /// 3."
    fn check_protected(&self) -> Answer<()> {
        for (index, &zuniq) in self.protected.iter().enumerate() {
            let is_above = index == 0 || self.protected[index - 1] < zuniq;
            refuse_if(cell_of(zuniq).is_none() || !is_above, 15, index)?;
        }
        Ok(())
    }

    /// The count, or the chi of what is kept. "Four siblings of count 0 now merge at any T, where the
    /// parent depth is at least M." (Request 4.) "A blank quad under a protected parent meets two rules":
    /// "protection now comes first." (Request 11.)
    fn merge_counts(&self, parent: Cell, counts: [u32; 4]) -> Result<u32, f64> {
        if !self.keeps(parent) && parent.0 >= self.m && counts == [0; 4] {
            return Ok(0);
        }
        let [a, b, c, d] = counts.map(f64::from);
        let chi = excess(((a + b) + c) + d, [a, b, c, d]);
        if self.merges(parent, chi) {
            return Ok(counts.iter().sum());
        }
        Err(chi)
    }

    fn merge_densities(&self, parent: Cell, [a, b, c, d]: [f64; 4]) -> Result<f64, f64> {
        let unit = n(parent.0) as f64 / std::f64::consts::PI;
        let max = |x: f64| if x > unit { x } else { unit };
        let sum = ((a + b) + c) + d;
        let chi = excess(sum, [a, b, c, d].map(max)) / unit;
        if self.merges(parent, chi) {
            return Ok(sum / 4.0);
        }
        Err(chi)
    }
}

/// "A merger call now takes the parent's hash too, 7 if out of range." (Request 7.)
fn check_quad((p, h): Cell, setting: &Setting<u64>) -> Answer<()> {
    refuse_if(p > 28, 1, 0)?;
    setting.check()?;
    refuse_if(h >= n(p), 7, 0)
}

pub fn count_merger(
    parent: Cell,
    setting: &Setting<u64>,
    counts: [u32; 4],
) -> Answer<Result<u32, f64>> {
    check_quad(parent, setting)?;
    let sum: u64 = counts.iter().map(|&n| n as u64).sum();
    refuse_if(sum > u32::MAX as u64, 10, 0)?;
    Ok(setting.merge_counts(parent, counts))
}

pub fn density_merger(
    parent: Cell,
    setting: &Setting<u64>,
    densities: [f64; 4],
) -> Answer<Result<f64, f64>> {
    check_quad(parent, setting)?;
    if let Some(child) = densities.iter().position(|&x| invalid(x)) {
        return refused(9, child);
    }
    Ok(setting.merge_densities(parent, densities))
}

// ---- Sections 3 and 6

fn fault_at<Z: Zuniq>(d: u8, zuniqs: &[Z], place: usize) -> Option<Fault> {
    let Some(cell) = cell_of(zuniqs[place]) else {
        return Some(Fault::NotAZuniq);
    };
    if cell.0 > d {
        return Some(Fault::TooDeep);
    }
    let before = *zuniqs[..place].last()?;
    if zuniqs[place] <= before {
        return Some(Fault::NotAbove);
    }
    overlap(cell_of(before)?, cell).then_some(Fault::Overlapping)
}

fn first_fault<Z: Zuniq>(d: u8, zuniqs: &[Z]) -> Option<(usize, Fault)> {
    (0..zuniqs.len()).find_map(|place| Some((place, fault_at(d, zuniqs, place)?)))
}

pub fn check<Z: Zuniq>(d: u8, zuniqs: &[Z]) -> Answer<MapCheck> {
    depth::<Z>(d)?;
    Ok(match first_fault(d, zuniqs) {
        Some((place, fault)) => MapCheck::Faulty { place, fault },
        None => MapCheck::Valid,
    })
}

/// Over an invalid map any entry that overlaps the query may be shown, or none.
pub fn assert_containing<Z: Zuniq>(d: u8, zuniqs: &[Z], query: Z, answer: Answer<Option<usize>>) {
    let refusal = depth::<Z>(d).and(match cell_of(query) {
        Some((query_depth, _)) => refuse_if(query_depth != d, 12, 0),
        None => refused(12, 0),
    });
    assert_eq!(answer.map(|_| ()), refusal, "{d} {zuniqs:?} {query:?}");
    let Ok(place) = answer else {
        return;
    };
    let over = |&z: &Z| overlap_test(z, query) == Ok(true);
    if let Some(place) = place {
        assert!(over(&zuniqs[place]), "{d} {zuniqs:?} {query:?}");
    } else if first_fault(d, zuniqs).is_none() {
        assert!(!zuniqs.iter().any(over), "{d} {zuniqs:?} {query:?}");
    }
}

pub fn assert_overlapped<Z: Zuniq>(zuniqs: &[Z], query: Z, answer: Answer<Range<usize>>) {
    let refusal = refuse_if(cell_of(query).is_none(), 12, 0);
    assert_eq!(answer.clone().map(|_| ()), refusal, "{zuniqs:?} {query:?}");
    let Ok(run) = answer else {
        return;
    };
    let over = |z: &Z| overlap_test(*z, query) == Ok(true);
    assert!(zuniqs[run.clone()].iter().all(over), "{zuniqs:?} {query:?}");
    if first_fault(Z::MAX_DEPTH, zuniqs).is_none() {
        let number = zuniqs.iter().filter(|z| over(z)).count();
        assert_eq!(run.len(), number, "{zuniqs:?} {query:?}");
        let first = zuniqs.iter().position(over).unwrap_or(0);
        assert_eq!(run.start, first, "{zuniqs:?} {query:?}");
    }
}

// ---- Section 4

fn check_add<Z: Zuniq>(call: &AddCall<Z>, buffer: usize, batch: usize) -> Answer<()> {
    depth::<Z>(call.depth)?;
    call.setting().check()?;
    let places = call.zuniqs.len();
    refuse_if(
        places != buffer || call.hashes.len() != batch || call.held > places,
        4,
        0,
    )?;
    if let Some((place, _)) = first_fault(call.depth, &call.zuniqs[..call.held]) {
        return refused(5, place);
    }
    Ok(())
}

/// 7, 8 and, by `invalid`, 9, cell by cell.
fn check_cells<Z: Zuniq>(call: &AddCall<Z>, invalid: impl Fn(usize) -> bool) -> Answer<()> {
    let d = call.depth;
    let end = call.zuniqs[..call.held].last().map_or(0, |&z| {
        let (e, g) = cell_of(z).unwrap();
        (g + 1) * 4u64.pow((d - e) as u32)
    });
    for (i, &hash) in call.hashes.iter().enumerate() {
        refuse_if(hash.number() >= n(d), 7, i)?;
        let below = if i == 0 {
            hash.number() < end
        } else {
            hash <= call.hashes[i - 1]
        };
        refuse_if(below, 8, i)?;
        refuse_if(invalid(i), 9, i)?;
    }
    Ok(())
}

fn check_space<Z>(call: &AddCall<Z>) -> Answer<()> {
    refuse_if(call.zuniqs.len() < call.held + call.hashes.len(), 11, 0)
}

/// "For each cell, append it; while the last four entries are children 0 to 3 of one parent and the
/// merger accepts, replace them by the parent."
fn append<V: Copy>(
    entries: &mut Vec<(Cell, V)>,
    cell: Cell,
    value: V,
    merge: impl Fn(Cell, [V; 4]) -> Option<V>,
) {
    entries.push((cell, value));
    while let Some(&[(c0, a), (c1, b), (c2, c), (c3, d)]) = entries.last_chunk() {
        let (depth, hash) = c0;
        let siblings = [1, 2, 3].map(|i| (depth, hash + i)) == [c1, c2, c3];
        if depth == 0 || hash % 4 != 0 || !siblings {
            return;
        }
        let parent = (depth - 1, hash / 4);
        let Some(merged) = merge(parent, [a, b, c, d]) else {
            return;
        };
        entries.truncate(entries.len() - 4);
        entries.push((parent, merged));
    }
}

fn build<Z: Zuniq, V: Copy + Default>(
    call: &AddCall<Z>,
    values: &[V],
    batch: &[V],
    merge: impl Fn(Cell, [V; 4]) -> Option<V>,
) -> (Vec<Z>, Vec<V>, usize) {
    let held = call.zuniqs[..call.held].iter().zip(values);
    let mut entries = held.map(|(&z, &v)| (cell_of(z).unwrap(), v)).collect();
    for (&hash, &value) in call.hashes.iter().zip(batch) {
        append(&mut entries, (call.depth, hash.number()), value, &merge);
    }
    buffers(&entries, call.zuniqs.len())
}

/// "Every place after the entries is 0." With their number.
fn buffers<Z: Zuniq, V: Copy + Default>(
    entries: &[(Cell, V)],
    places: usize,
) -> (Vec<Z>, Vec<V>, usize) {
    let zuniqs = entries.iter().map(|&((d, h), _)| encode(d, h).unwrap());
    let mut zuniqs: Vec<Z> = zuniqs.collect();
    let mut values: Vec<V> = entries.iter().map(|&(_, value)| value).collect();
    zuniqs.resize(places, Z::default());
    values.resize(places, V::default());
    (zuniqs, values, entries.len())
}

/// The answer, and both buffers after the call.
type Left<A, Z, V> = (Answer<A>, Vec<Z>, Vec<V>);

pub fn add_counts<Z: Zuniq>(
    call: &AddCall<Z>,
    z: &[Z],
    counts: &[u32],
    batch: &[u32],
) -> Left<(usize, u32), Z, u32> {
    let check = || {
        check_add(call, counts.len(), batch.len())?;
        check_cells(call, |_| false)?;
        let most = u32::MAX as u64;
        let mut total: u64 = counts[..call.held].iter().map(|&n| n as u64).sum();
        refuse_if(total > most, 10, 0)?;
        for (i, &count) in batch.iter().enumerate() {
            total += count as u64;
            refuse_if(total > most, 10, i)?;
        }
        check_space(call)?;
        Ok(total as u32)
    };
    match check() {
        Ok(total) => {
            let merge = |parent, counts| call.setting().merge_counts(parent, counts).ok();
            let (zuniqs, counts, number) = build(call, counts, batch, merge);
            (Ok((number, total)), zuniqs, counts)
        }
        Err(refusal) => (Err(refusal), z.to_vec(), counts.to_vec()),
    }
}

pub fn add_densities(
    call: &AddCall<u64>,
    z: &[u64],
    densities: &[f64],
    batch: &[f64],
) -> Left<usize, u64, f64> {
    let check = || {
        check_add(call, densities.len(), batch.len())?;
        if let Some(place) = densities[..call.held].iter().position(|&x| invalid(x)) {
            return refused(6, place);
        }
        check_cells(call, |i| invalid(batch[i]))?;
        check_space(call)
    };
    match check() {
        Ok(()) => {
            let merge = |parent, four| call.setting().merge_densities(parent, four).ok();
            let (zuniqs, densities, number) = build(call, densities, batch, merge);
            (Ok(number), zuniqs, densities)
        }
        Err(refusal) => (Err(refusal), z.to_vec(), densities.to_vec()),
    }
}

// ---- Section 5

/// A cell of the overlay, and the place of the entry that it lies in, left and right.
pub type Part = (Cell, [Option<usize>; 2]);

/// The overlay of two maps; `None` where one of them is invalid.
pub fn overlay(sides: &[Side<u64>; 2]) -> Option<Vec<Part>> {
    let valid = |side: &Side<u64>| check(side.depth, &side.zuniqs) == Ok(MapCheck::Valid);
    if !sides.iter().all(valid) {
        return None;
    }
    let cells = |side: &Side<u64>| side.zuniqs.iter().map(|&z| cell_of(z).unwrap()).collect();
    let maps: [Vec<Cell>; 2] = [cells(&sides[0]), cells(&sides[1])];
    let mut parts = Vec::new();
    for base in 0..12 {
        overlay_in((0, base), &maps, &mut parts);
    }
    Some(parts)
}

/// "The largest cells that lie in an entry of at least one map and, for each map, lie in one of its
/// entries or overlap none": those in one cell, rising.
fn overlay_in(cell: Cell, maps: &[Vec<Cell>; 2], parts: &mut Vec<Part>) {
    let entry = |map: &Vec<Cell>| map.iter().position(|&entry| lies_in(cell, entry));
    let fits =
        |map: &Vec<Cell>| entry(map).is_some() || !map.iter().any(|&entry| overlap(cell, entry));
    if !maps.iter().all(fits) {
        for child in 0..4 {
            overlay_in((cell.0 + 1, 4 * cell.1 + child), maps, parts);
        }
        return;
    }
    let entries = [entry(&maps[0]), entry(&maps[1])];
    if entries != [None, None] {
        parts.push((cell, entries));
    }
}

/// The cells from an entry down to one that lies in it, each with its value: "level by level", a child's by
/// its parent's, the parent's hash and which of the four it is.
fn way_down<V: Copy>(
    (zuniq, value): (u64, V),
    (d, h): Cell,
    split: impl Fn(V, u64, u64) -> V,
) -> Vec<(Cell, V)> {
    let entry = cell_of(zuniq).unwrap();
    let mut way = vec![(entry, value)];
    for level in entry.0 + 1..=d {
        let ((_, parent), value) = way[way.len() - 1];
        let child = h / 4u64.pow((d - level) as u32) % 4;
        way.push(((level, 4 * parent + child), split(value, parent, child)));
    }
    way
}

/// The overlay cells with the values that the rule gives them; those that it drops are left out.
fn ruled<V: Copy>(
    sides: &[Side<u64>; 2],
    values: [&[V]; 2],
    split: impl Fn(V, u64, u64) -> V,
    rule: impl Fn(Option<V>, Option<V>) -> Option<V>,
) -> Vec<(Cell, V)> {
    let value_at = |side: usize, place: usize, cell: Cell| {
        let entry = (sides[side].zuniqs[place], values[side][place]);
        let way = way_down(entry, cell, &split);
        way[way.len() - 1].1
    };
    let value = |(cell, [left, right]): Part| {
        let left = left.map(|place| value_at(0, place, cell));
        let right = right.map(|place| value_at(1, place, cell));
        Some((cell, rule(left, right)?))
    };
    let parts = overlay(sides).unwrap();
    parts.into_iter().filter_map(value).collect()
}

/// 1, 2, 3 and 15, with a factor for 3.
fn check_settings(call: &CombineCall, k: f64) -> Answer<()> {
    depth::<u64>(call.sides[0].depth)?;
    depth::<u64>(call.sides[1].depth)?;
    refuse_if(call.m > 29, 2, 0)?;
    refuse_if(call.t.is_nan() || invalid(k), 3, 0)?;
    call.setting().check_protected()
}

fn check_sides<V>(
    sides: &[Side<u64>; 2],
    values: [&[V]; 2],
    [zuniqs, out]: [usize; 2],
) -> Answer<()> {
    let [left, right] = sides;
    refuse_if(left.zuniqs.len() != values[0].len(), 4, 0)?;
    refuse_if(right.zuniqs.len() != values[1].len(), 4, 0)?;
    refuse_if(zuniqs != out, 4, 0)?;
    for side in sides {
        if let Some((place, _)) = first_fault(side.depth, &side.zuniqs) {
            return refused(5, place);
        }
    }
    Ok(())
}

/// "The defined map with overlay cells in place of listed ones", in an output of so many places.
fn merged<V: Copy + Default>(
    cells: &[(Cell, V)],
    places: usize,
    merge: impl Fn(Cell, [V; 4]) -> Option<V>,
) -> (Vec<u64>, Vec<V>, usize) {
    let mut entries = Vec::new();
    for &(cell, value) in cells {
        append(&mut entries, cell, value, &merge);
    }
    buffers(&entries, places)
}

/// 1 to 3, 15, 4, 5 and 10, into an output of these two lengths.
fn check_pool(call: &CombineCall, values: [&[u32]; 2], places: [usize; 2]) -> Answer<()> {
    check_settings(call, 1.0)?;
    check_sides(&call.sides, values, places)?;
    let total: u64 = values.concat().iter().map(|&n| n as u64).sum();
    refuse_if(total > u32::MAX as u64, 10, 0)
}

/// "Splitting v gives each child floor(v/4)." "For parent hash h the extra ones go to children h mod 4,
/// (h + 1) mod 4 and onwards, (v mod 4) of them." (Request 10.)
fn share(v: u32, h: u64, child: u64) -> u32 {
    let mut extra = (0..v as u64 % 4).map(|onwards| (h + onwards) % 4);
    v / 4 + extra.any(|to| to == child) as u32
}

/// The overlay cells with their counts.
fn pooled(call: &CombineCall, values: [&[u32]; 2]) -> Vec<(Cell, u32)> {
    let rule = |left: Option<u32>, right: Option<u32>| match (left, right) {
        (Some(left), Some(right)) => Some(left + right),
        (alone, None) | (None, alone) => alone,
    };
    ruled(&call.sides, values, share, rule)
}

/// The cells that are split for the overlay of two valid maps, with their counts, some more than once.
pub fn split_counts(call: &CombineCall, values: [&[u32]; 2]) -> Vec<(Cell, u32)> {
    let mut split = Vec::new();
    for (cell, entries) in overlay(&call.sides).unwrap() {
        for side in 0..2 {
            let Some(place) = entries[side] else {
                continue;
            };
            let entry = (call.sides[side].zuniqs[place], values[side][place]);
            let mut way = way_down(entry, cell, share);
            way.pop();
            split.extend(way);
        }
    }
    split
}

/// What is made of these cells in so many places, with the number of entries and their total.
fn merged_counts(
    call: &CombineCall,
    cells: &[(Cell, u32)],
    places: usize,
) -> (Vec<u64>, Vec<u32>, (usize, u32)) {
    let merge = |parent, counts| call.setting().merge_counts(parent, counts).ok();
    let (zuniqs, counts, number) = merged(cells, places, merge);
    let total = counts.iter().sum();
    (zuniqs, counts, (number, total))
}

pub fn pool(
    call: &CombineCall,
    values: [&[u32]; 2],
    z: &[u64],
    counts: &[u32],
) -> Left<(usize, u32), u64, u32> {
    let check = || {
        check_pool(call, values, [z.len(), counts.len()])?;
        let cells = pooled(call, values);
        refuse_if(z.len() < cells.len(), 11, 0)?;
        Ok(cells)
    };
    match check() {
        Ok(cells) => {
            let (zuniqs, counts, answer) = merged_counts(call, &cells, z.len());
            (Ok(answer), zuniqs, counts)
        }
        Err(refusal) => (Err(refusal), z.to_vec(), counts.to_vec()),
    }
}

/// "Ask answers the number of overlay cells, of entries after merging, and the total; it writes nothing."
/// (Request 8.) There is no output whose lengths could differ.
pub fn ask(call: &CombineCall, values: [&[u32]; 2]) -> Answer<Figures> {
    check_pool(call, values, [0, 0])?;
    let parts = pooled(call, values);
    let cells = parts.len();
    let (_, _, (entries, total)) = merged_counts(call, &parts, cells);
    Ok(Figures {
        cells,
        entries,
        total,
    })
}

/// "Commit takes those figures with the same inputs and pools." "16, the figures are not those an ask would
/// answer, tried after 10." (Request 8.)
pub fn commit(
    call: &CombineCall,
    values: [&[u32]; 2],
    figures: Figures,
    z: &[u64],
    counts: &[u32],
) -> Left<(usize, u32), u64, u32> {
    let check = check_pool(call, values, [z.len(), counts.len()])
        .and_then(|()| refuse_if(ask(call, values) != Ok(figures), 16, 0));
    match check {
        Ok(()) => pool(call, values, z, counts),
        Err(refusal) => (Err(refusal), z.to_vec(), counts.to_vec()),
    }
}

pub fn product(
    call: &CombineCall,
    values: [&[f64]; 2],
    z: &[u64],
    densities: &[f64],
) -> Left<usize, u64, f64> {
    let check = || {
        check_settings(call, call.k)?;
        check_sides(&call.sides, values, [z.len(), densities.len()])?;
        for side in values {
            if let Some(place) = side.iter().position(|&x| invalid(x)) {
                return refused(6, place);
            }
        }
        let rule = |left: Option<f64>, right: Option<f64>| Some((call.k * left?) * right?);
        let cells = ruled(&call.sides, values, |v, _, _| v, rule);
        refuse_if(cells.iter().any(|(_, x)| !x.is_finite()), 10, 0)?;
        refuse_if(z.len() < cells.len(), 11, 0)?;
        Ok(cells)
    };
    match check() {
        Ok(cells) => {
            let merge = |parent, four| call.setting().merge_densities(parent, four).ok();
            let (zuniqs, densities, number) = merged(&cells, z.len(), merge);
            (Ok(number), zuniqs, densities)
        }
        Err(refusal) => (Err(refusal), z.to_vec(), densities.to_vec()),
    }
}

// ---- Section 7

pub fn density_of_count(d: u8, count: u32) -> Answer<f64> {
    depth::<u64>(d)?;
    Ok(count as f64 / ((4.0 * std::f64::consts::PI) / n(d) as f64))
}

/// A number of a row, little-endian.
pub trait Bytes: Copy {
    const SIZE: usize;
    fn of_bytes(bytes: &[u8]) -> Self;
    fn to_bytes(self) -> Vec<u8>;
}

impl Bytes for u32 {
    const SIZE: usize = 4;

    fn of_bytes(bytes: &[u8]) -> u32 {
        u32::from_le_bytes(bytes.try_into().unwrap())
    }

    fn to_bytes(self) -> Vec<u8> {
        self.to_le_bytes().to_vec()
    }
}

impl Bytes for u64 {
    const SIZE: usize = 8;

    fn of_bytes(bytes: &[u8]) -> u64 {
        u64::from_le_bytes(bytes.try_into().unwrap())
    }

    fn to_bytes(self) -> Vec<u8> {
        self.to_le_bytes().to_vec()
    }
}

/// "At most 4,096 count rows (more is number 11)": their zuniqs.
pub fn map_rows<Z: Zuniq>(bytes: &[u8]) -> Answer<Vec<Z>> {
    let size = Z::SIZE + 4;
    refuse_if(bytes.len() % size != 0, 4, 0)?;
    refuse_if(bytes.len() / size > 4096, 11, 0)?;
    let rows = bytes.chunks(size);
    Ok(rows.map(|row| Z::of_bytes(&row[..Z::SIZE])).collect())
}

/// Into the parts `i` and `j` of the buffers.
pub fn read_rows<Z: Bytes, V: Bytes>(
    bytes: &[u8],
    zuniqs: &[Z],
    values: &[V],
    i: Range<usize>,
    j: Range<usize>,
) -> Left<usize, Z, V> {
    let (mut zuniqs, mut values) = (zuniqs.to_vec(), values.to_vec());
    let size = Z::SIZE + V::SIZE;
    let rows = bytes.len() / size;
    let answer = refuse_if(i.len() != j.len(), 4, 0)
        .and(refuse_if(bytes.len() % size != 0, 4, 0))
        .and(refuse_if(i.len() < rows, 11, 0));
    if answer.is_ok() {
        for (row, bytes) in bytes.chunks(size).enumerate() {
            zuniqs[i.start + row] = Z::of_bytes(&bytes[..Z::SIZE]);
            values[j.start + row] = V::of_bytes(&bytes[Z::SIZE..]);
        }
    }
    (answer.map(|()| rows), zuniqs, values)
}

/// Into the part `o` of the bytes.
pub fn write_rows<Z: Bytes, V: Bytes>(
    zuniqs: &[Z],
    values: &[V],
    out: &[u8],
    o: Range<usize>,
) -> (Answer<usize>, Vec<u8>) {
    let mut out = out.to_vec();
    let rows = zuniqs.len();
    let size = Z::SIZE + V::SIZE;
    let answer = refuse_if(rows != values.len(), 4, 0).and(refuse_if(o.len() < rows * size, 11, 0));
    if answer.is_ok() {
        let row = |(z, v): (&Z, &V)| [z.to_bytes(), v.to_bytes()].concat();
        let bytes: Vec<u8> = zuniqs.iter().zip(values).flat_map(row).collect();
        out[o.start..][..bytes.len()].copy_from_slice(&bytes);
    }
    (answer.map(|()| rows), out)
}

// ---- Request 2

/// A map moved from the width `Z` to the width `Y`, into an output that held `z` and `n`. "A narrowed
/// map's depth is the smaller of its own and 13, a widened one's its own. Moving answers the depth
/// and the number of entries; space is judged by that number, and places after them are 0." 13 is
/// "tried after 5".
pub fn moved<Z: Zuniq, Y: Zuniq>(
    map: &Side<Z>,
    counts: &[u32],
    z: &[Y],
    n: &[u32],
) -> Left<(u8, usize), Y, u32> {
    let check = || {
        depth::<Z>(map.depth)?;
        refuse_if(map.zuniqs.len() != counts.len(), 4, 0)?;
        refuse_if(z.len() != n.len(), 4, 0)?;
        if let Some((place, _)) = first_fault(map.depth, &map.zuniqs) {
            return refused(5, place);
        }
        let cells: Vec<Cell> = map.zuniqs.iter().map(|&z| cell_of(z).unwrap()).collect();
        if let Some(place) = cells.iter().position(|&(d, _)| d > Y::MAX_DEPTH) {
            return refused(13, place);
        }
        refuse_if(z.len() < cells.len(), 11, 0)?;
        Ok(cells)
    };
    match check() {
        Ok(cells) => {
            let entries: Vec<(Cell, u32)> = cells.into_iter().zip(counts.to_vec()).collect();
            let (zuniqs, counts, number) = buffers(&entries, z.len());
            (Ok((map.depth.min(Y::MAX_DEPTH), number)), zuniqs, counts)
        }
        Err(refusal) => (Err(refusal), z.to_vec(), n.to_vec()),
    }
}

// ---- Request 3

/// A byte's place in the rows and in the columns, of so many rows of so many bytes: "Byte j of row i
/// stands at j × rows + i."
fn places(row_size: usize, rows: usize) -> impl Iterator<Item = (usize, usize)> {
    (0..rows).flat_map(move |i| (0..row_size).map(move |j| (i * row_size + j, j * rows + i)))
}

/// The answer and the output after it, from rows to columns or else back. "An uneven length, or a row
/// length not named here, is number 4; an output shorter than the input is 11."
pub fn laid_out(call: &LayoutCall, from_rows: bool) -> (Answer<usize>, Vec<u8>) {
    let (row_size, length) = (call.row_size, call.input.len());
    let mut output = call.output.clone();
    let whole_rows = [8, 12, 16].contains(&row_size) && length % row_size == 0;
    let answer = refuse_if(!whole_rows, 4, 0).and(refuse_if(call.lent.len() < length, 11, 0));
    if let Err(refusal) = answer {
        return (Err(refusal), output);
    }
    let rows = length / row_size;
    for (in_rows, in_columns) in places(row_size, rows) {
        let (from, to) = match from_rows {
            true => (in_rows, in_columns),
            false => (in_columns, in_rows),
        };
        output[call.lent.start + to] = call.input[from];
    }
    (Ok(rows), output)
}

// ---- Request 6

/// "A list of half-open ranges of depth-29 hashes, here starts and ends in two paired buffers."
pub fn ranges(starts: &[u64], ends: &[u64]) -> Vec<Range<u64>> {
    let pairs = starts.iter().zip(ends);
    pairs.map(|(&start, &end)| start..end).collect()
}

/// The depth-29 cells that lie in a cell.
pub fn hashes((d, h): Cell) -> Range<u64> {
    h * scale::<u64>(d)..(h + 1) * scale::<u64>(d)
}

/// "Exactly the depth-29 cells that lie in an entry, as rising ranges, none touching the next": a range
/// starts with a hash that lies in an entry while the one before doesn't, and ends before one that
/// doesn't.
pub fn coverage_of(cells: &[Cell]) -> Vec<Range<u64>> {
    let is_in = |k: u64| cells.iter().any(|&cell| hashes(cell).contains(&k));
    let starts = cells.iter().map(|&cell| hashes(cell).start);
    let ends = cells.iter().map(|&cell| hashes(cell).end);
    let starts = starts.filter(|&k| k == 0 || !is_in(k - 1));
    let ends = ends.filter(|&k| !is_in(k));
    starts.zip(ends).map(|(start, end)| start..end).collect()
}

/// So many depth-29 cells can be looked at one by one.
const FEW: u64 = 256;

/// The same, hash by hash; none where there are more than a few.
pub fn coverage_by_hash(cells: &[Cell]) -> Option<Vec<Range<u64>>> {
    let all = cells.iter().map(|&cell| hashes(cell));
    if all.clone().any(|hashes| hashes.end - hashes.start > FEW) {
        return None;
    }
    let mut ranges: Vec<Range<u64>> = Vec::new();
    for k in all.flatten() {
        match ranges.last_mut() {
            Some(last) if last.end == k => last.end += 1,
            _ => ranges.push(k..k + 1),
        }
    }
    Some(ranges)
}

/// The cells of a valid map.
pub fn valid_cells(side: &Side<u64>) -> Answer<Vec<Cell>> {
    if let Some((place, _)) = first_fault(side.depth, &side.zuniqs) {
        return refused(5, place);
    }
    Ok(side.zuniqs.iter().map(|&z| cell_of(z).unwrap()).collect())
}

/// The coverage of a map, into buffers that held `starts` and `ends`.
pub fn coverage(side: &Side<u64>, starts: &[u64], ends: &[u64]) -> Left<usize, u64, u64> {
    let check = || {
        depth::<u64>(side.depth)?;
        refuse_if(starts.len() != ends.len(), 4, 0)?;
        let ranges = coverage_of(&valid_cells(side)?);
        refuse_if(starts.len() < ranges.len(), 11, 0)?;
        Ok(ranges)
    };
    match check() {
        Ok(ranges) => {
            let mut first: Vec<u64> = ranges.iter().map(|range| range.start).collect();
            let mut last: Vec<u64> = ranges.iter().map(|range| range.end).collect();
            first.resize(starts.len(), 0);
            last.resize(ends.len(), 0);
            (Ok(ranges.len()), first, last)
        }
        Err(refusal) => (Err(refusal), starts.to_vec(), ends.to_vec()),
    }
}

/// "14, a range is empty, ends past N(29), or doesn't start above the previous end."
pub fn faulty_range(ranges: &[Range<u64>]) -> Option<usize> {
    (0..ranges.len()).find(|&i| {
        let Range { start, end } = ranges[i];
        end <= start || end > n(29) || i > 0 && start <= ranges[i - 1].end
    })
}

/// A cell of a clipped map, and the place of the entry that it lies in.
pub type Piece = (Cell, usize);

/// The cells of a map clipped to valid ranges: of each entry and each range what they have in common, cut
/// from the entry downwards.
pub fn clipped(cells: &[Cell], ranges: &[Range<u64>]) -> Vec<Piece> {
    let mut pieces = Vec::new();
    for (place, &cell) in cells.iter().enumerate() {
        for range in ranges {
            cut(cell, range, place, &mut pieces);
        }
    }
    pieces
}

/// The cell where it lies in the range, else what is in it of its children.
fn cut(cell: Cell, range: &Range<u64>, place: usize, pieces: &mut Vec<Piece>) {
    let hashes = hashes(cell);
    if hashes.end <= range.start || range.end <= hashes.start {
        return;
    }
    if range.start <= hashes.start && hashes.end <= range.end {
        pieces.push((cell, place));
        return;
    }
    for child in 0..4 {
        cut((cell.0 + 1, 4 * cell.1 + child), range, place, pieces);
    }
}

/// "Every cell that lies inside an entry and inside the coverage while its parent, if any, doesn't lie
/// inside both, with the entry's density": word for word, all depth-29 cells of a cell being looked at one
/// by one. None where the ranges have more than a few.
pub fn clipped_down_the_tree(cells: &[Cell], ranges: &[Range<u64>]) -> Option<Vec<Piece>> {
    if ranges
        .iter()
        .map(|range| range.end - range.start)
        .sum::<u64>()
        > FEW
    {
        return None;
    }
    let mut pieces = Vec::new();
    for base in 0..12 {
        down_the_tree((0, base), cells, ranges, &mut pieces);
    }
    pieces.sort_by_key(|&((d, h), _)| encode::<u64>(d, h).unwrap());
    Some(pieces)
}

/// The entry that the cell lies in, if it is inside the coverage too.
fn in_both(cell: Cell, cells: &[Cell], ranges: &[Range<u64>]) -> Option<usize> {
    let in_coverage = |k: u64| ranges.iter().any(|range| range.contains(&k));
    let entry = cells.iter().position(|&entry| lies_in(cell, entry))?;
    hashes(cell).all(in_coverage).then_some(entry)
}

fn down_the_tree(cell: Cell, cells: &[Cell], ranges: &[Range<u64>], pieces: &mut Vec<Piece>) {
    let (d, h) = cell;
    let parent_in_both = d > 0 && in_both((d - 1, h / 4), cells, ranges).is_some();
    if let (Some(entry), false) = (in_both(cell, cells, ranges), parent_in_both) {
        pieces.push((cell, entry));
    }
    // What lies inside a coverage has a hash of it.
    let inside = hashes(cell);
    let reached = |range: &Range<u64>| range.start < inside.end && inside.start < range.end;
    if d < 29 && ranges.iter().any(reached) {
        for child in 0..4 {
            down_the_tree((d + 1, 4 * h + child), cells, ranges, pieces);
        }
    }
}

/// What two coverages have in common.
pub fn common(left: &[Range<u64>], right: &[Range<u64>]) -> Vec<Range<u64>> {
    let pairs = left.iter().flat_map(|l| right.iter().map(move |r| (l, r)));
    let common = pairs.map(|(l, r)| l.start.max(r.start)..l.end.min(r.end));
    common.filter(|range| !range.is_empty()).collect()
}

/// All that is looked at before the space: the cells of the map, and the ranges.
pub fn check_clip(
    call: &ClipCall,
    densities: &[f64],
    places: [usize; 2],
) -> Answer<(Vec<Cell>, Vec<Range<u64>>)> {
    let map = &call.map;
    depth::<u64>(map.depth)?;
    refuse_if(map.zuniqs.len() != densities.len(), 4, 0)?;
    refuse_if(call.starts.len() != call.ends.len(), 4, 0)?;
    refuse_if(places[0] != places[1], 4, 0)?;
    let cells = valid_cells(map)?;
    if let Some(place) = densities.iter().position(|&x| invalid(x)) {
        return refused(6, place);
    }
    let ranges = ranges(&call.starts, &call.ends);
    if let Some(place) = faulty_range(&ranges) {
        return refused(14, place);
    }
    Ok((cells, ranges))
}

/// The clipped map, into an output that held `z` and `x`.
pub fn clip(call: &ClipCall, densities: &[f64], z: &[u64], x: &[f64]) -> Left<usize, u64, f64> {
    let check = || {
        let (cells, ranges) = check_clip(call, densities, [z.len(), x.len()])?;
        let pieces = clipped(&cells, &ranges);
        refuse_if(z.len() < pieces.len(), 11, 0)?;
        Ok(pieces)
    };
    match check() {
        Ok(pieces) => {
            let entry = |&(cell, place): &Piece| (cell, densities[place]);
            let entries: Vec<(Cell, f64)> = pieces.iter().map(entry).collect();
            let (zuniqs, densities, number) = buffers(&entries, z.len());
            (Ok(number), zuniqs, densities)
        }
        Err(refusal) => (Err(refusal), z.to_vec(), x.to_vec()),
    }
}
