//! The coverage of a map, and a density map clipped to a coverage. The original has no such call: the
//! request's reading is the only judge. What has few depth-29 cells is judged a second time, one by one.

use std::ops::Range;

use mom::{
    reach::{clip, coverage},
    Refusal,
};

use super::{
    assert_some, bits,
    draw::{ClipCall, Draw},
    fenced, lent,
    plain::{self, hashes, Cell, Piece},
    rounds, Met,
};

/// A value round the output that no call writes.
const FENCE: u64 = 0xdead_beef;

const SKY: u64 = 12 << 58;

/// A name, and whether a call belongs to it.
type Class<T> = (&'static str, fn(&T) -> bool);

/// How often calls of each class were met.
struct Tally<T: 'static> {
    classes: &'static [Class<T>],
    times: Vec<usize>,
}

impl<T> Tally<T> {
    fn new(classes: &'static [Class<T>]) -> Self {
        let times = vec![0; classes.len()];
        Tally { classes, times }
    }

    fn add(&mut self, call: &T) {
        for (times, (_, belongs)) in self.times.iter_mut().zip(self.classes) {
            *times += belongs(call) as usize;
        }
    }

    fn assert_all(self, name: &str) {
        for (times, (what, _)) in self.times.into_iter().zip(self.classes) {
            assert_some(name, what, times);
        }
    }
}

fn is_refused_by(answer: Result<usize, Refusal>, number: u8) -> bool {
    answer.is_err_and(|refusal| refusal.number() == number)
}

/// A coverage call that was made. What isn't valid has no cells.
struct Cover {
    places: usize,
    answer: Result<usize, Refusal>,
    cells: Vec<Cell>,
    ranges: Vec<Range<u64>>,
    by_hash: Option<Vec<Range<u64>>>,
}

impl Cover {
    /// Whether it is accepted, and two entries touch whose depths are as `is` asks.
    fn touches(&self, is: fn(u8, u8) -> bool) -> bool {
        let mut pairs = self.cells.windows(2);
        let touch = |pair: &[Cell]| {
            hashes(pair[0]).end == hashes(pair[1]).start && is(pair[0].0, pair[1].0)
        };
        self.answer.is_ok() && pairs.any(touch)
    }
}

const COVERS: &[Class<Cover>] = &[
    ("touching entries of one depth", |call| {
        call.touches(|left, right| left == right)
    }),
    ("touching entries of two depths", |call| {
        call.touches(|left, right| left != right)
    }),
    ("a narrow gap", |call| {
        let mut pairs = call.ranges.windows(2);
        call.answer.is_ok() && pairs.any(|pair| pair[1].start - pair[0].end < 4)
    }),
    ("both ends of the sky", |call| {
        let ends = (call.ranges.first(), call.ranges.last());
        let (first, last) = (ends.0.map(|r| r.start), ends.1.map(|r| r.end));
        call.answer.is_ok() && (first, last) == (Some(0), Some(SKY))
    }),
    ("judged hash by hash", |call| {
        call.answer.is_ok() && call.cells.len() > 1 && call.by_hash.is_some()
    }),
    ("no map and no place", |call| {
        is_refused_by(call.answer, 5) && call.places == 0
    }),
    ("one place too few", |call| {
        is_refused_by(call.answer, 11) && call.places + 1 == call.ranges.len()
    }),
];

fn cover(draw: &mut Draw) -> Cover {
    let map = draw.covered();
    let cells = plain::valid_cells(&map).unwrap_or_default();
    let ranges = plain::coverage_of(&cells);
    let by_hash = plain::coverage_by_hash(&cells);
    if let Some(by_hash) = &by_hash {
        assert_eq!(&ranges, by_hash, "{map:?}");
    }
    let (starts, of_ends) = draw.output::<u64>(ranges.len());
    let ends: Vec<u64> = (0..of_ends).map(|_| draw.hash()).collect();
    let expected = plain::coverage(&map, &starts, &ends);

    let (mut s, mut e) = (fenced(FENCE, &starts), fenced(FENCE, &ends));
    let answer = coverage(map.depth, &map.zuniqs, lent(&mut s), lent(&mut e));
    assert_eq!(answer, expected.0, "{map:?}");
    assert_eq!(s, fenced(FENCE, &expected.1), "{map:?}");
    assert_eq!(e, fenced(FENCE, &expected.2), "{map:?}");
    Cover {
        places: starts.len(),
        answer,
        cells,
        ranges,
        by_hash,
    }
}

#[test]
fn coverages() {
    let (mut met, mut tally) = (Met::default(), Tally::new(COVERS));
    rounds("coverage", |draw| {
        let call = cover(draw);
        met.add(&call.answer);
        tally.add(&call);
    });
    tally.assert_all("coverage");
    met.assert_all(&[0, 1, 4, 5, 11]);
}

/// A clip call that was made. What isn't valid has no cells and no ranges.
struct Clip {
    call: ClipCall,
    places: usize,
    answer: Result<usize, Refusal>,
    cells: Vec<Cell>,
    ranges: Vec<Range<u64>>,
    pieces: Vec<Piece>,
    by_tree: Option<Vec<Piece>>,
}

impl Clip {
    /// Whether it is accepted, and the pieces that a range leaves are as `is` asks.
    fn has_range(&self, is: fn(&[Piece]) -> bool) -> bool {
        let left = |range: &Range<u64>| -> Vec<Piece> {
            let is_in = |piece: &&Piece| range.contains(&hashes(piece.0).start);
            self.pieces.iter().filter(is_in).copied().collect()
        };
        self.answer.is_ok() && self.ranges.iter().any(|range| is(&left(range)))
    }

    /// Whether it is refused by 14, and the range and the end before it, 0 for the first, are as `is`
    /// asks.
    fn has_no_range(&self, is: fn(&Range<u64>, u64) -> bool) -> bool {
        let Err(Refusal::InvalidRange(place)) = self.answer else {
            return false;
        };
        let ranges = plain::ranges(&self.call.starts, &self.call.ends);
        let before = ranges[..place].last().map_or(0, |range| range.end);
        is(&ranges[place], before)
    }
}

/// Whether some of so many pieces in a row are of one entry, and as `is` asks.
fn of_one_entry(pieces: &[Piece], number: usize, is: fn(&[Piece]) -> bool) -> bool {
    let mut runs = pieces.windows(number);
    runs.any(|run| run[0].1 == run[number - 1].1 && is(run))
}

/// Whether two pieces of different entries touch.
fn join_entries(pieces: &[Piece]) -> bool {
    let touch = |pair: &[Piece]| hashes(pair[0].0).end == hashes(pair[1].0).start;
    let mut pairs = pieces.windows(2);
    pairs.any(|pair| pair[0].1 != pair[1].1 && touch(pair))
}

/// Whether four pieces in a row are the children of one cell.
fn have_siblings(pieces: &[Piece]) -> bool {
    pieces.windows(4).any(|four| {
        let (d, h) = four[0].0;
        let children = [0, 1, 2, 3].map(|i| (d, h + i));
        d > 0 && h % 4 == 0 && four.iter().map(|piece| piece.0).eq(children)
    })
}

const CLIPS: &[Class<Clip>] = &[
    ("an entry cut into several cells", |clip| {
        clip.has_range(|pieces| of_one_entry(pieces, 2, |_| true))
    }),
    ("an entry cut into cells of three depths", |clip| {
        clip.has_range(|pieces| {
            of_one_entry(pieces, 7, |run| {
                let [first, middle, last] = [run[0].0 .0, run[3].0 .0, run[6].0 .0];
                first != middle && middle != last
            })
        })
    }),
    ("an entry in two ranges", |clip| {
        let apart = |run: &[Piece]| hashes(run[0].0).end != hashes(run[1].0).start;
        clip.answer.is_ok() && of_one_entry(&clip.pieces, 2, apart)
    }),
    ("touching entries in one range", |clip| {
        clip.has_range(join_entries)
    }),
    ("four siblings left", |clip| {
        clip.answer.is_ok() && have_siblings(&clip.pieces)
    }),
    ("the entries left by several ranges", |clip| {
        let left = clip.pieces.iter().map(|piece| piece.0);
        let several = clip.cells.len() > 1 && clip.ranges.len() > 1;
        clip.answer.is_ok() && several && left.eq(clip.cells.iter().copied())
    }),
    ("nothing in common", |clip| {
        let is_empty = clip.cells.is_empty() || clip.ranges.is_empty();
        clip.answer == Ok(0) && !is_empty
    }),
    ("an empty coverage", |clip| {
        clip.answer == Ok(0) && clip.ranges.is_empty() && !clip.cells.is_empty()
    }),
    ("judged down the tree", |clip| {
        clip.answer.is_ok() && clip.pieces.len() > 1 && clip.by_tree.is_some()
    }),
    ("an empty range", |clip| {
        clip.has_no_range(|range, _| range.start >= range.end)
    }),
    ("a range past the sky", |clip| {
        clip.has_no_range(|range, _| range.start < range.end && range.end > SKY)
    }),
    ("a range that touches", |clip| {
        clip.has_no_range(|range, before| {
            before > 0 && range.start < range.end && range.start == before
        })
    }),
    ("a range that starts below", |clip| {
        clip.has_no_range(|range, before| range.start < range.end && range.start < before)
    }),
    ("a faulty range behind others", |clip| {
        clip.has_no_range(|_, before| before > 0)
    }),
    ("a faulty range and no place", |clip| {
        is_refused_by(clip.answer, 14) && clip.places == 0
    }),
    ("5 or 6 and a faulty range", |clip| {
        let ranges = plain::ranges(&clip.call.starts, &clip.call.ends);
        let refused = is_refused_by(clip.answer, 5) || is_refused_by(clip.answer, 6);
        refused && plain::faulty_range(&ranges).is_some()
    }),
    ("one place too few", |clip| {
        is_refused_by(clip.answer, 11) && clip.places + 1 == clip.pieces.len()
    }),
];

/// The coverage of a clipped map is what the map and the ranges have in common.
fn assert_intersection(cells: &[Cell], ranges: &[Range<u64>], clipped: &[u64]) {
    let (mut starts, mut ends) = (vec![7; clipped.len()], vec![7; clipped.len()]);
    let number = coverage(29, clipped, &mut starts, &mut ends).unwrap();
    let common = plain::common(&plain::coverage_of(cells), ranges);
    let covered = plain::ranges(&starts[..number], &ends[..number]);
    assert_eq!(covered, common, "{cells:?} {ranges:?}");
}

fn clip_once(draw: &mut Draw) -> Clip {
    let call = draw.clip_call();
    let map = &call.map;
    let densities = draw.few_faulty_densities(map.values);
    let judged = plain::check_clip(&call, &densities, [0; 2]);
    let (cells, ranges) = judged.unwrap_or_default();
    let pieces = plain::clipped(&cells, &ranges);
    let by_tree = plain::clipped_down_the_tree(&cells, &ranges);
    if let Some(by_tree) = &by_tree {
        assert_eq!(&pieces, by_tree, "{call:?}");
    }
    let (z, of_densities) = draw.output::<u64>(pieces.len());
    let x = draw.densities_of(of_densities);
    let expected = plain::clip(&call, &densities, &z, &x);

    let (mut out_z, mut out_x) = (fenced(FENCE, &z), fenced(FENCE as f64, &x));
    let (oz, ox) = (lent(&mut out_z), lent(&mut out_x));
    let (starts, ends) = (&call.starts, &call.ends);
    let answer = clip(map.depth, &map.zuniqs, &densities, starts, ends, oz, ox);
    let expected_x = fenced(FENCE as f64, &expected.2);
    assert_eq!(answer, expected.0, "{call:?} {densities:?}");
    assert_eq!(out_z, fenced(FENCE, &expected.1), "{call:?}");
    assert_eq!(bits(&out_x), bits(&expected_x), "{call:?} {densities:?}");
    if let Ok(number) = answer {
        assert_intersection(&cells, &ranges, &expected.1[..number]);
    }
    Clip {
        call,
        places: z.len(),
        answer,
        cells,
        ranges,
        pieces,
        by_tree,
    }
}

#[test]
fn clipping() {
    let (mut met, mut tally) = (Met::default(), Tally::new(CLIPS));
    rounds("clip", |draw| {
        let clip = clip_once(draw);
        met.add(&clip.answer);
        tally.add(&clip);
    });
    tally.assert_all("clip");
    met.assert_all(&[0, 1, 4, 5, 6, 11, 14]);
}
