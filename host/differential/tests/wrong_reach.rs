//! Wrong coverages and wrong clips: the random inputs must tell each from the plain reading, which stands
//! for the original here, often enough for a short run to find it.

use std::{ops::Range, slice::from_ref, sync::LazyLock};

use differential::{
    cells::{Cell, DEPTH_MAX},
    compare::Kind,
    floats::Float,
    kinds::{Clip, ClipInput, Cover, CoverInput, Piece},
    random::Random,
    reach::{clipped, coverage_of, cut, hashes, SKY},
};
use mom::Refusal;

const DRAWN: usize = 20_000;

/// Random inputs, with what the plain reading answers.
type Judged<K> = Vec<(<K as Kind>::Input, <K as Kind>::Answer)>;

static COVERS: LazyLock<Judged<Cover>> = LazyLock::new(judged::<Cover>);
static CLIPS: LazyLock<Judged<Clip>> = LazyLock::new(judged::<Clip>);

fn judged<K: Kind>() -> Judged<K> {
    let mut random = Random::new(18);
    let inputs = (0..DRAWN).map(|_| K::random(&mut random).unwrap());
    let judged = inputs.map(|input| {
        let answer = K::original(&input);
        (input, answer)
    });
    judged.collect()
}

/// These values, and so many zeros behind them, as far as there are places.
fn write<T: Copy>(buffer: &mut [T], values: &[T], zero: T, zeros: usize) {
    let written = values
        .iter()
        .copied()
        .chain(std::iter::repeat_n(zero, zeros));
    for (place, value) in buffer.iter_mut().zip(written) {
        *place = value;
    }
}

macro_rules! found {
    ($program:ident, $wrong:literal, $field:ident: $rule:expr) => {
        let program = $program {
            $field: $rule,
            ..$program::right()
        };
        let differing = program.differing();
        assert!(
            differing * 1000 > DRAWN,
            "{}: {differing} of {DRAWN}",
            $wrong
        );
    };
}

/// A coverage call, of which each wrong one differs from the right one in one thing.
struct Covering {
    refusal: fn(&CoverInput) -> Option<Refusal>,
    ranges: fn(&[Cell]) -> Vec<Range<u64>>,
    /// How many of so many places behind the ranges are cleared: of starts, and of ends.
    cleared: fn(usize) -> [usize; 2],
    /// What a refused call does.
    refuse: fn(&mut [u64], &mut [u64]),
}

impl Covering {
    fn right() -> Self {
        Covering {
            refusal: CoverInput::refusal,
            ranges: coverage_of,
            cleared: |places| [places; 2],
            refuse: |_, _| {},
        }
    }

    fn call(
        &self,
        input: &CoverInput,
        starts: &mut [u64],
        ends: &mut [u64],
    ) -> Result<usize, Refusal> {
        if let Some(refusal) = (self.refusal)(input) {
            (self.refuse)(starts, ends);
            return Err(refusal);
        }
        // What is no zuniq has no range.
        let cells = input.map.zuniqs.iter();
        let cells: Vec<Cell> = cells.filter_map(|&zuniq| Cell::of_zuniq(zuniq)).collect();
        let ranges = (self.ranges)(&cells);
        let [of_starts, of_ends] = (self.cleared)(starts.len().saturating_sub(ranges.len()));
        let (from, to): (Vec<u64>, Vec<u64>) =
            ranges.iter().map(|range| (range.start, range.end)).unzip();
        write(starts, &from, 0, of_starts);
        write(ends, &to, 0, of_ends);
        Ok(ranges.len())
    }

    fn differing(&self) -> usize {
        let differs = |(input, judged): &&(CoverInput, _)| {
            let step = input.step(|starts, ends| self.call(input, starts, ends));
            [step.clone(), step] != *judged
        };
        COVERS.iter().filter(differs).count()
    }
}

/// The ranges of entries, where one is joined to the one before if `join` says so.
fn joined(cells: &[Cell], join: fn(&[Cell; 2]) -> bool) -> Vec<Range<u64>> {
    let mut ranges: Vec<Range<u64>> = Vec::new();
    for (place, &cell) in cells.iter().enumerate() {
        let is_joined = place > 0 && join(&[cells[place - 1], cell]);
        match ranges.last_mut() {
            Some(last) if is_joined => last.end = hashes(cell).end,
            _ => ranges.push(hashes(cell)),
        }
    }
    ranges
}

/// How many hashes lie between two entries that rise.
fn gap([left, right]: &[Cell; 2]) -> u64 {
    hashes(*right).start - hashes(*left).end
}

#[test]
fn no_wrong_coverage_is_missed() {
    assert_eq!(Covering::right().differing(), 0);
    found!(Covering, "ranges that touch left apart", ranges: |cells| joined(cells, |_| false));
    found!(Covering, "an end taken as inside", ranges: |cells| {
        let ranges = coverage_of(cells).into_iter();
        ranges.map(|range| range.start..range.end - 1).collect()
    });
    found!(Covering, "a gap of one hash joined", ranges: |cells| joined(cells, |pair| gap(pair) < 2));
    found!(Covering, "siblings alone joined", ranges: |cells| joined(cells, |pair| {
        gap(pair) == 0 && pair[0].depth == pair[1].depth && pair[0].hash / 4 == pair[1].hash / 4
    }));
    found!(Covering, "entries of one depth alone joined", ranges: |cells| joined(cells, |pair| {
        gap(pair) == 0 && pair[0].depth == pair[1].depth
    }));
    found!(Covering, "only two in a row joined", ranges: |cells| {
        let pairs = cells.chunks(2).flat_map(coverage_of);
        pairs.collect()
    });
    found!(Covering, "the last range dropped", ranges: |cells| {
        let mut ranges = coverage_of(cells);
        ranges.pop();
        ranges
    });
    found!(Covering, "one range over all", ranges: |cells| joined(cells, |_| true));
}

#[test]
fn no_wrong_buffer_of_a_coverage_is_missed() {
    found!(Covering, "a start not cleared", cleared: |places| [places.saturating_sub(1), places]);
    found!(Covering, "an end not cleared", cleared: |places| [places, places.saturating_sub(1)]);
    found!(Covering, "a refused call clears the starts", refuse: |starts, _| starts.fill(0));
    found!(Covering, "a refused call clears the ends", refuse: |_, ends| ends.fill(0));
    found!(Covering, "space judged by the entries", refusal: |input| match input.refusal() {
        None if input.map.zuniqs.len() > input.places[0] => Some(Refusal::NoSpace),
        refusal => refusal,
    });
    found!(Covering, "one place too few taken", refusal: |input| match input.refusal() {
        Some(Refusal::NoSpace) => None,
        refusal => refusal,
    });
    found!(Covering, "11 before 5", refusal: |input| match input.refusal() {
        Some(Refusal::InvalidMap(_)) if input.map.zuniqs.len() > input.places[0] => {
            Some(Refusal::NoSpace)
        }
        refusal => refusal,
    });
    found!(Covering, "5 before 4", refusal: |input| {
        let mut even = input.clone();
        even.places[1] = even.places[0];
        match (input.refusal(), even.refusal()) {
            (Some(Refusal::LengthMismatch), Some(Refusal::InvalidMap(place))) => {
                Some(Refusal::InvalidMap(place))
            }
            (refusal, _) => refusal,
        }
    });
    found!(Covering, "any depth taken", refusal: |input| match input.refusal() {
        Some(Refusal::DepthOutOfRange) => None,
        refusal => refusal,
    });
    found!(Covering, "the place of a refusal lost", refusal: |input| {
        input.refusal().and_then(|refusal| Refusal::of(refusal.number(), 0))
    });
}

/// A clip call, of which each wrong one differs from the right one in one thing.
struct Clipping {
    refusal: fn(&ClipInput) -> Option<Refusal>,
    cells: fn(&[Piece], &[Range<u64>]) -> Vec<Piece>,
    /// How many of so many places behind the cells are cleared: of zuniqs, and of densities.
    cleared: fn(usize) -> [usize; 2],
    /// What a refused call does.
    refuse: fn(&mut [u64], &mut [Float]),
}

impl Clipping {
    fn right() -> Self {
        Clipping {
            refusal: ClipInput::refusal,
            cells: clipped,
            cleared: |places| [places; 2],
            refuse: |_, _| {},
        }
    }

    fn call(
        &self,
        input: &ClipInput,
        zuniqs: &mut [u64],
        densities: &mut [Float],
    ) -> Result<usize, Refusal> {
        if let Some(refusal) = (self.refusal)(input) {
            (self.refuse)(zuniqs, densities);
            return Err(refusal);
        }
        let map = input.map.zuniqs.iter().zip(&input.map.values);
        let map = map.filter_map(|(&zuniq, &density)| Some((Cell::of_zuniq(zuniq)?, density)));
        let cells = (self.cells)(&map.collect::<Vec<_>>(), &input.coverage.ranges());
        let [of_zuniqs, of_densities] = (self.cleared)(zuniqs.len().saturating_sub(cells.len()));
        let (z, m): (Vec<u64>, Vec<Float>) = cells
            .iter()
            .map(|(cell, density)| (cell.zuniq::<u64>(), *density))
            .unzip();
        write(zuniqs, &z, 0, of_zuniqs);
        write(densities, &m, Float(0.0), of_densities);
        Ok(cells.len())
    }

    fn differing(&self) -> usize {
        let differs = |(input, judged): &&(ClipInput, _)| {
            let step = input.step(|zuniqs, densities| self.call(input, zuniqs, densities));
            [step.clone(), step] != *judged
        };
        CLIPS.iter().filter(differs).count()
    }
}

/// The pieces by other ranges.
fn by(map: &[Piece], ranges: &[Range<u64>], change: fn(&Range<u64>) -> Range<u64>) -> Vec<Piece> {
    clipped(map, &ranges.iter().map(change).collect::<Vec<_>>())
}

/// Every four siblings of one density, one after the other, become their parent.
fn merged(cells: Vec<Piece>) -> Vec<Piece> {
    let mut merged: Vec<Piece> = Vec::new();
    for piece in cells {
        merged.push(piece);
        while let Some(four) = merged.last_chunk::<4>() {
            let (first, density) = four[0];
            if first.depth == 0 || four.iter().any(|piece| piece.1 != density) {
                break;
            }
            let parent = first.ancestor(first.depth - 1);
            if four.map(|piece| piece.0) != parent.children() {
                break;
            }
            merged.truncate(merged.len() - 4);
            merged.push((parent, density));
        }
    }
    merged
}

/// What an entry and a range have in common, cut by `cut`.
fn cut_by(map: &[Piece], ranges: &[Range<u64>], cut: fn(Range<u64>) -> Vec<Cell>) -> Vec<Piece> {
    let mut cells = Vec::new();
    for &(entry, density) in map {
        for range in ranges {
            let inside = hashes(entry);
            let common = inside.start.max(range.start)..inside.end.min(range.end);
            cells.extend(cut(common).into_iter().map(|cell| (cell, density)));
        }
    }
    cells
}

/// The children of the right cells, where these have any.
fn children_of(range: Range<u64>) -> Vec<Cell> {
    let children = |cell: Cell| match cell.depth {
        DEPTH_MAX => vec![cell],
        _ => cell.children().to_vec(),
    };
    cut(range).into_iter().flat_map(children).collect()
}

/// The right cells, and before the first one that has children one of these.
fn with_a_child(range: Range<u64>) -> Vec<Cell> {
    let mut cells = cut(range);
    if let Some(place) = cells.iter().position(|cell| cell.depth < DEPTH_MAX) {
        cells.insert(place, cells[place].children()[0]);
    }
    cells
}

/// The entries that have to do with a range by some rule, whole.
fn whole_by(
    map: &[Piece],
    ranges: &[Range<u64>],
    rule: fn(Range<u64>, &Range<u64>) -> bool,
) -> Vec<Piece> {
    let is_kept = |piece: &&Piece| ranges.iter().any(|range| rule(hashes(piece.0), range));
    map.iter().filter(is_kept).copied().collect()
}

fn lies_in(inner: Range<u64>, outer: &Range<u64>) -> bool {
    outer.start <= inner.start && inner.end <= outer.end
}

fn overlaps(one: Range<u64>, other: &Range<u64>) -> bool {
    one.start < other.end && other.start < one.end
}

#[test]
fn no_wrong_clip_is_missed() {
    assert_eq!(Clipping::right().differing(), 0);
    found!(Clipping, "an end taken as inside", cells: |map, ranges| {
        by(map, ranges, |range| range.start..range.end + 1)
    });
    found!(Clipping, "a start taken as outside", cells: |map, ranges| {
        by(map, ranges, |range| range.start + 1..range.end)
    });
    found!(Clipping, "children of cells that qualify", cells: |map, ranges| cut_by(map, ranges, children_of));
    found!(Clipping, "a cell whose parent qualifies too", cells: |map, ranges| {
        cut_by(map, ranges, with_a_child)
    });
    found!(Clipping, "clipped cells merged", cells: |map, ranges| merged(clipped(map, ranges)));
    found!(Clipping, "entries left whole", cells: |map, ranges| whole_by(map, ranges, overlaps));
    found!(Clipping, "entries in part left out", cells: |map, ranges| whole_by(map, ranges, lies_in));
    found!(Clipping, "the first range of an entry alone", cells: |map, ranges| {
        let of_entry = |entry: &Piece| {
            let first = ranges.iter().find(|range| overlaps(hashes(entry.0), range));
            clipped(&[*entry], first.map_or(&[], from_ref))
        };
        map.iter().flat_map(of_entry).collect()
    });
    found!(Clipping, "the first entry of a range alone", cells: |map, ranges| {
        let of_range = |range: &Range<u64>| {
            let first = map.iter().find(|entry| overlaps(hashes(entry.0), range));
            clipped(first.map_or(&[], from_ref), from_ref(range))
        };
        ranges.iter().flat_map(of_range).collect()
    });
    found!(Clipping, "the density of the entry before", cells: |map, ranges| {
        let before = |place: usize| map[place.saturating_sub(1)].1;
        let map: Vec<Piece> = (0..map.len()).map(|i| (map[i].0, before(i))).collect();
        clipped(&map, ranges)
    });
    found!(Clipping, "the last cell dropped", cells: |map, ranges| {
        let mut cells = clipped(map, ranges);
        cells.pop();
        cells
    });
    found!(Clipping, "not deeper than the map", cells: |map, ranges| {
        let deepest = map.iter().map(|(cell, _)| cell.depth).max().unwrap_or(0);
        let cells = clipped(map, ranges).into_iter();
        cells.filter(|(cell, _)| cell.depth <= deepest).collect()
    });
}

#[test]
fn no_wrong_buffer_of_a_clip_is_missed() {
    found!(Clipping, "a zuniq not cleared", cleared: |places| [places.saturating_sub(1), places]);
    found!(Clipping, "a density not cleared", cleared: |places| [places, places.saturating_sub(1)]);
    found!(Clipping, "a refused call clears the zuniqs", refuse: |zuniqs, _| zuniqs.fill(0));
    found!(Clipping, "a refused call clears the densities", refuse: |_, densities| {
        densities.fill(Float(0.0));
    });
    found!(Clipping, "one place too few taken", refusal: |input| match input.refusal() {
        Some(Refusal::NoSpace) => None,
        refusal => refusal,
    });
    found!(Clipping, "the place of a refusal lost", refusal: |input| {
        input.refusal().and_then(|refusal| Refusal::of(refusal.number(), 0))
    });
}

/// What the call is refused by if ranges are told before densities.
fn ranges_first(input: &ClipInput) -> Option<Refusal> {
    match (input.refusal(), input.coverage.faulty_range()) {
        (Some(Refusal::InvalidMapDensity(_)), Some(place)) => Some(Refusal::InvalidRange(place)),
        (refusal, _) => refusal,
    }
}

/// The refusal with some faulty ranges accepted.
fn accepting(input: &ClipInput, accepted: fn(Option<u64>, Range<u64>) -> bool) -> Option<Refusal> {
    let Some(Refusal::InvalidRange(place)) = input.refusal() else {
        return input.refusal();
    };
    let ranges = input.coverage.ranges();
    let before = ranges[..place].last().map(|range| range.end);
    (!accepted(before, ranges[place].clone())).then_some(Refusal::InvalidRange(place))
}

#[test]
fn no_wrong_refusal_of_a_clip_is_missed() {
    found!(Clipping, "14 before 6", refusal: ranges_first);
    found!(Clipping, "14 before 5", refusal: |input| {
        match (input.refusal(), input.coverage.faulty_range()) {
            (Some(Refusal::InvalidMap(_)), Some(place)) => Some(Refusal::InvalidRange(place)),
            (refusal, _) => refusal,
        }
    });
    found!(Clipping, "11 before 14", refusal: |input| match input.refusal() {
        Some(Refusal::InvalidRange(_)) if input.places[0] == 0 => Some(Refusal::NoSpace),
        refusal => refusal,
    });
    found!(Clipping, "a range past the sky accepted", refusal: |input| {
        accepting(input, |_, range| range.end > SKY)
    });
    found!(Clipping, "an empty range accepted", refusal: |input| {
        accepting(input, |_, range| range.end == range.start)
    });
    found!(Clipping, "a range that touches accepted", refusal: |input| {
        accepting(input, |before, range| before == Some(range.start) && range.start < range.end)
    });
    found!(Clipping, "a range that falls back accepted", refusal: |input| {
        accepting(input, |before, range| {
            before.is_some_and(|before| before > range.start) && range.start < range.end
        })
    });
    found!(Clipping, "a first range at 0 refused", refusal: |input| match input.refusal() {
        None if input.coverage.starts.first() == Some(&0) => Some(Refusal::InvalidRange(0)),
        refusal => refusal,
    });
    found!(Clipping, "a last range to the end of the sky refused", refusal: |input| {
        let last = input.coverage.ends.len().wrapping_sub(1);
        match input.refusal() {
            None if input.coverage.ends.last() == Some(&SKY) => Some(Refusal::InvalidRange(last)),
            refusal => refusal,
        }
    });
    found!(Clipping, "densities not looked at", refusal: |input| match input.refusal() {
        Some(Refusal::InvalidMapDensity(_)) => None,
        refusal => refusal,
    });
    found!(Clipping, "an empty coverage refused", refusal: |input| match input.refusal() {
        None if input.coverage.starts.is_empty() => Some(Refusal::LengthMismatch),
        refusal => refusal,
    });
    found!(Clipping, "any depth taken", refusal: |input| match input.refusal() {
        Some(Refusal::DepthOutOfRange) => None,
        refusal => refusal,
    });
}
