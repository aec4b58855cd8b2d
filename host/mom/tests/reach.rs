//! The coverage of a map and a map clipped to a coverage, against note 6 of the change requests: what it
//! asks for, worked by hand and on all small maps and coverages, and every refusal with its number and
//! place.

use mom::{
    reach::{clip, coverage},
    Refusal,
};

type Cell = (u8, u64);

/// The hashes from the first to below the second.
type Range = (u64, u64);

/// N(29).
const SKY: u64 = 12 << 58;

/// By its definition.
fn zuniq((d, h): Cell) -> u64 {
    (2 * h + 1) * 4u64.pow((29 - d) as u32)
}

fn zuniqs(cells: &[Cell]) -> Vec<u64> {
    cells.iter().map(|&cell| zuniq(cell)).collect()
}

/// The depth-29 cells of a cell.
fn range((d, h): Cell) -> Range {
    let width = 4u64.pow((29 - d) as u32);
    (h * width, (h + 1) * width)
}

/// A coverage call.
#[derive(Clone, Debug)]
struct Cover {
    depth: u8,
    zuniqs: Vec<u64>,
    places: [usize; 2],
}

impl Cover {
    /// The ranges, behind which all is 0; where refused, nothing is touched.
    fn answer(&self) -> Result<Vec<Range>, Refusal> {
        let [of_starts, of_ends] = self.places;
        let (mut starts, mut ends) = (vec![5; of_starts], vec![6; of_ends]);
        let answer = coverage(self.depth, &self.zuniqs, &mut starts, &mut ends);
        let Ok(ranges) = answer else {
            assert_eq!((starts, ends), (vec![5; of_starts], vec![6; of_ends]));
            return Err(answer.unwrap_err());
        };
        assert!(starts[ranges..]
            .iter()
            .chain(&ends[ranges..])
            .all(|&x| x == 0));
        Ok(starts.into_iter().zip(ends).take(ranges).collect())
    }
}

/// Into just as many places, into more, and into one fewer.
fn assert_covers(depth: u8, cells: &[Cell], ranges: &[Range]) {
    let call = |places| Cover {
        depth,
        zuniqs: zuniqs(cells),
        places: [places; 2],
    };
    let number = ranges.len();
    for places in [number, number + 1, number + 9] {
        assert_eq!(call(places).answer().as_deref(), Ok(ranges), "{cells:?}");
    }
    if number > 0 {
        assert_eq!(
            call(number - 1).answer(),
            Err(Refusal::NoSpace),
            "{cells:?}"
        );
    }
}

#[test]
fn no_range_worked_out_by_hand_is_another() {
    let cells = [(28, 0), (29, 4), (29, 6), (28, 2), (0, 11)];
    let ranges = [(0, 5), (6, 7), (8, 12), (11 << 58, SKY)];
    assert_covers(29, &cells, &ranges);
    assert_covers(28, &[(28, 5), (28, 6), (28, 8)], &[(20, 28), (32, 36)]);
    assert_covers(0, &[], &[]);
    assert_covers(29, &[], &[]);
}

/// Of one depth and of two, within a parent and over its end.
#[test]
fn no_neighbours_have_two_ranges() {
    for depth in 0..=29 {
        let last = 12 * 4u64.pow(depth as u32) - 1;
        for first in [0, 1, 2, 3, 4, last / 2, last - 1] {
            let (start, _) = range((depth, first));
            let (_, end) = range((depth, first + 1));
            assert_covers(
                depth,
                &[(depth, first), (depth, first + 1)],
                &[(start, end)],
            );
            assert_covers(29, &[(depth, first)], &[range((depth, first))]);
        }
        // The deep entry ends where the base cell starts, and the other way round.
        let deep = 4u64.pow(depth as u32);
        let (start, _) = range((depth, deep - 1));
        assert_covers(29, &[(depth, deep - 1), (0, 1)], &[(start, 2 << 58)]);
        let (_, end) = range((depth, 2 * deep));
        assert_covers(29, &[(0, 1), (depth, 2 * deep)], &[(1 << 58, end)]);
    }
    let sky: Vec<Cell> = (0..12).map(|h| (0, h)).collect();
    assert_covers(0, &sky, &[(0, SKY)]);
}

#[test]
fn no_gap_is_covered() {
    for depth in 0..=29 {
        let cells = [(depth, 0), (depth, 2), (depth, 3), (depth, 11)];
        let (_, end) = range((depth, 3));
        let ranges = [range(cells[0]), (range(cells[1]).0, end), range(cells[3])];
        assert_covers(depth, &cells, &ranges);
    }
}

/// The runs of hashes of which the bits of `mask` are set, from a first hash on.
fn runs(mask: u32, first: u64) -> Vec<Range> {
    let mut runs: Vec<Range> = Vec::new();
    for hash in (0..32).filter(|hash| mask >> hash & 1 == 1) {
        match runs.last_mut() {
            Some((_, end)) if *end == first + hash => *end += 1,
            _ => runs.push((first + hash, first + hash + 1)),
        }
    }
    runs
}

/// Sixteen hashes, which are one cell of depth 27, four of depth 28 and sixteen of depth 29: at either
/// end of the sky and in between.
const AREAS: [u64; 3] = [0, 16 * 999_999, SKY - 16];

/// A cell of such an area, and the bits of its hashes.
fn of_area(first: u64, (depth, place): Cell) -> (Cell, u32) {
    let width = 4u64.pow((29 - depth) as u32);
    let mask = ((1 << width) - 1) << (place * width);
    ((depth, first / width + place), mask)
}

/// All maps of an area, as cells with their bits: whole, or for each quarter nothing, the quarter itself or
/// some of its cells. A third of them at each place.
fn maps() -> impl Iterator<Item = (u64, Vec<(Cell, u32)>)> {
    let quarter = |first: u64, place: u64, way: u64| -> Vec<(Cell, u32)> {
        match way {
            16 => vec![of_area(first, (28, place))],
            some => (0..4)
                .filter(|i| some >> i & 1 == 1)
                .map(|i| of_area(first, (29, 4 * place + i)))
                .collect(),
        }
    };
    let parts = (0..17u64.pow(4)).map(move |way| {
        let first = AREAS[way as usize % 3];
        let ways = [way % 17, way / 17 % 17, way / 289 % 17, way / 4913];
        let quarters = ways.into_iter().zip(0..);
        let cells = quarters.flat_map(|(way, place)| quarter(first, place, way));
        (first, cells.collect())
    });
    let whole = AREAS.map(|first| (first, vec![of_area(first, (27, 0))]));
    whole.into_iter().chain(parts)
}

fn mask_of(map: &[(Cell, u32)]) -> u32 {
    map.iter().map(|(_, mask)| mask).sum()
}

/// The cells with their places as densities.
fn numbered(map: &[(Cell, u32)]) -> Vec<(Cell, f64)> {
    let cells = map.iter().map(|&(cell, _)| cell);
    cells.zip((0u8..).map(f64::from)).collect()
}

#[test]
fn no_small_map_has_another_coverage() {
    for (first, map) in maps() {
        let cells: Vec<Cell> = map.iter().map(|&(cell, _)| cell).collect();
        let call = Cover {
            depth: 29,
            zuniqs: zuniqs(&cells),
            places: [cells.len(); 2],
        };
        let ranges = runs(mask_of(&map), first);
        assert_eq!(call.answer(), Ok(ranges), "{cells:?}");
    }
}

/// A clip call.
#[derive(Clone, Debug)]
struct Clip {
    depth: u8,
    zuniqs: Vec<u64>,
    densities: Vec<f64>,
    starts: Vec<u64>,
    ends: Vec<u64>,
    places: [usize; 2],
}

/// A cell and its density's bits.
type Entry = (Cell, u64);

impl Clip {
    fn new(depth: u8, entries: &[(Cell, f64)], ranges: &[Range], places: usize) -> Clip {
        Clip {
            depth,
            zuniqs: entries.iter().map(|&(cell, _)| zuniq(cell)).collect(),
            densities: entries.iter().map(|&(_, density)| density).collect(),
            starts: ranges.iter().map(|range| range.0).collect(),
            ends: ranges.iter().map(|range| range.1).collect(),
            places: [places; 2],
        }
    }

    /// The cells, behind which all is 0; where refused, nothing is touched.
    fn answer(&self) -> Result<Vec<Entry>, Refusal> {
        let [of_zuniqs, of_densities] = self.places;
        let (mut z, mut m) = (vec![5; of_zuniqs], vec![5.5; of_densities]);
        let (map, densities) = (&self.zuniqs, &self.densities);
        let answer = clip(
            self.depth,
            map,
            densities,
            &self.starts,
            &self.ends,
            &mut z,
            &mut m,
        );
        let Ok(cells) = answer else {
            assert_eq!((z, m), (vec![5; of_zuniqs], vec![5.5; of_densities]));
            return Err(answer.unwrap_err());
        };
        assert!(z[cells..].iter().all(|&zuniq| zuniq == 0));
        assert!(m[cells..].iter().all(|density| density.to_bits() == 0));
        let entry = |place: usize| (mom::from_zuniq(z[place]).unwrap(), m[place].to_bits());
        Ok((0..cells).map(entry).collect())
    }
}

fn bits(entries: &[(Cell, f64)]) -> Vec<Entry> {
    let entries = entries.iter();
    entries.map(|&(cell, m)| (cell, m.to_bits())).collect()
}

/// Into just as many places, into more, and into one fewer.
fn assert_clips(depth: u8, map: &[(Cell, f64)], ranges: &[Range], cells: &[(Cell, f64)]) {
    let number = cells.len();
    for places in [number, number + 1, number + 9] {
        let call = Clip::new(depth, map, ranges, places);
        assert_eq!(call.answer(), Ok(bits(cells)), "{map:?} {ranges:?}");
    }
    if number > 0 {
        let call = Clip::new(depth, map, ranges, number - 1);
        assert_eq!(call.answer(), Err(Refusal::NoSpace), "{map:?} {ranges:?}");
    }
}

/// Cells of one density.
fn of_density(density: f64, cells: &[Cell]) -> Vec<(Cell, f64)> {
    cells.iter().map(|&cell| (cell, density)).collect()
}

const FIVE: [(Cell, f64); 5] = [
    ((28, 0), 0.5),
    ((29, 4), 1.5),
    ((29, 6), 2.5),
    ((28, 2), 3.5),
    ((0, 11), 4.5),
];

#[test]
fn no_clip_worked_out_by_hand_is_another() {
    let ranges = [(1, 9), (10, 11), (SKY - 5, SKY)];
    let cells = [
        ((29, 1), 0.5),
        ((29, 2), 0.5),
        ((29, 3), 0.5),
        ((29, 4), 1.5),
        ((29, 6), 2.5),
        ((29, 8), 3.5),
        ((29, 10), 3.5),
        ((29, SKY - 5), 4.5),
        ((28, SKY / 4 - 1), 4.5),
    ];
    assert_clips(29, &FIVE, &ranges, &cells);
    assert_clips(29, &FIVE, &[(5, 6), (7, 8), (12, 11 << 58)], &[]);
    let cell = ((29, SKY - 1), 4.5);
    assert_clips(29, &FIVE, &[(SKY - 1, SKY)], &[cell]);
}

/// A base cell without its first hash has three cells of each depth; so has one without its last.
#[test]
fn no_piece_is_cut_into_other_cells_than_the_largest() {
    let sky: Vec<(Cell, f64)> = (0..12).map(|h| ((0, h), h as f64)).collect();
    let first = (1..=29).rev().flat_map(|d| [(d, 1), (d, 2), (d, 3)]);
    let whole = (1..11).map(|h| (0, h));
    let last = (1..=29).flat_map(|d: u8| {
        let end = 12 * 4u64.pow(d as u32);
        [(d, end - 4), (d, end - 3), (d, end - 2)]
    });
    let density = |cell: Cell| (range(cell).0 >> 58) as f64;
    let cells = first.chain(whole).chain(last);
    let cells: Vec<(Cell, f64)> = cells.map(|cell| (cell, density(cell))).collect();
    assert_eq!(cells.len(), 184);
    assert_clips(0, &sky, &[(1, SKY - 1)], &cells);
}

/// The densities are equal, and so is all that a merger would look at.
#[test]
fn no_siblings_are_merged() {
    for depth in 1..=29 {
        for first in [0, 4, 12 * 4u64.pow(depth as u32) - 4] {
            let four = [0, 1, 2, 3].map(|i| (depth, first + i));
            let map = of_density(2.0, &four);
            assert_clips(depth, &map, &[(0, SKY)], &map);
            let (start, _) = range(four[0]);
            let (_, end) = range(four[3]);
            assert_clips(29, &map, &[(start, end)], &map);
        }
    }
}

/// An entry of every depth, and a range that is a cell of any depth in it; and the other way round.
#[test]
fn no_cell_is_left_larger_than_the_coverage_or_smaller_than_both() {
    for top in 0..=29 {
        for depth in top..=29 {
            for path in [0, u64::MAX, 0x1b1b_1b1b_1b1b_1b1b] {
                let entry = (top, path % (12 * 4u64.pow(top as u32)));
                let shift = 2 * (depth - top);
                let cell = (depth, entry.1 << shift | path & ((1 << shift) - 1));
                let map = of_density(0.25, &[entry]);
                assert_clips(top, &map, &[range(entry)], &map);
                let cells = of_density(0.25, &[cell]);
                assert_clips(top, &map, &[range(cell)], &cells);
                assert_clips(29, &cells, &[range(entry)], &cells);
            }
        }
    }
}

/// "Every cell that lies inside an entry and inside the coverage while its parent, if any, doesn't lie
/// inside both, with the entry's density": down the tree of an area.
fn defined(first: u64, map: &[(Cell, u32)], reach: u32) -> Vec<Entry> {
    let place_over = |mask: u32| map.iter().position(|(_, entry)| entry & mask == mask);
    let in_both = |mask: u32| place_over(mask).filter(|_| reach & mask == mask);
    let mut cells = Vec::new();
    for depth in 27..=29u8 {
        for place in 0..4u64.pow(depth as u32 - 27) {
            let (cell, mask) = of_area(first, (depth, place));
            // What the area lies in has other hashes too.
            let parent_in_both = depth > 27 && {
                let (_, mask) = of_area(first, (depth - 1, place / 4));
                in_both(mask).is_some()
            };
            if let (Some(entry), false) = (in_both(mask), parent_in_both) {
                cells.push((cell, (entry as f64).to_bits()));
            }
        }
    }
    cells.sort_by_key(|&(cell, _)| zuniq(cell));
    cells
}

/// A clip of a map of an area to the coverage of those bits, held to the definition. Its own coverage is
/// the intersection.
fn assert_defined(first: u64, map: &[(Cell, u32)], reach: u32) {
    let call = Clip::new(29, &numbered(map), &runs(reach, first), 17);
    let cells = defined(first, map, reach);
    assert_eq!(call.answer().as_ref(), Ok(&cells), "{map:?} {reach:016b}");
    let cover = Cover {
        depth: 29,
        zuniqs: cells.iter().map(|&(cell, _)| zuniq(cell)).collect(),
        places: [16; 2],
    };
    let common = runs(mask_of(map) & reach, first);
    assert_eq!(cover.answer(), Ok(common), "{map:?} {reach:016b}");
}

/// All coverages of an area: of a map that is one cell, of one that is its quarters, and of one with
/// entries of both depths and a gap.
#[test]
fn no_small_coverage_clips_otherwise() {
    let maps: [&[Cell]; 3] = [
        &[(27, 0)],
        &[(28, 0), (28, 1), (28, 2), (28, 3)],
        &[(28, 0), (29, 5), (29, 6), (29, 7), (28, 3)],
    ];
    for (first, cells) in AREAS.into_iter().zip(maps) {
        let map: Vec<(Cell, u32)> = cells.iter().map(|&cell| of_area(first, cell)).collect();
        for reach in 0..1 << 16 {
            assert_defined(first, &map, reach);
        }
    }
}

/// All maps of an area, clipped to one of a few coverages and to their own, which gives their entries back.
#[test]
fn no_small_map_is_clipped_otherwise_or_changed_by_its_own_coverage() {
    let reaches = [0xffff, 0x0ff0, 0x7ffe, 0x8421, 0xf137, 0x0001, 0x5a5a];
    for ((first, map), reach) in maps().zip(reaches.into_iter().cycle()) {
        assert_defined(first, &map, reach);
        let entries = numbered(&map);
        let own = runs(mask_of(&map), first);
        let call = Clip::new(29, &entries, &own, entries.len());
        assert_eq!(call.answer(), Ok(bits(&entries)));
    }
}

/// The first cell of one depth; then for every depth the first child of the last cell above it. No two
/// touch.
fn all_depths(first: u8) -> Vec<Cell> {
    let last_above = |d: u8| 12 * 4u64.pow(d as u32 - 1) - 1;
    let children = (1..=29).map(|d| (d, 4 * last_above(d)));
    [(first, 0)].into_iter().chain(children).collect()
}

#[test]
fn no_map_is_changed_by_its_own_coverage() {
    for first in 0..=29 {
        let cells = all_depths(first);
        let map: Vec<(Cell, f64)> = cells.iter().copied().zip((0u8..).map(f64::from)).collect();
        let call = Cover {
            depth: 29,
            zuniqs: zuniqs(&cells),
            places: [30; 2],
        };
        let own = call.answer().unwrap();
        assert_eq!(own.len(), 30);
        assert_clips(29, &map, &own, &map);
        assert_clips(29, &map, &[(0, SKY)], &map);
    }
}

#[test]
fn no_cell_comes_out_of_an_empty_coverage_or_an_empty_map() {
    assert_clips(29, &FIVE, &[], &[]);
    assert_clips(0, &[], &[], &[]);
    for depth in 0..=29 {
        assert_clips(depth, &[], &[(0, SKY)], &[]);
        assert_clips(depth, &[], &[(0, 1), (2, 3), (SKY - 1, SKY)], &[]);
    }
}

#[test]
fn no_density_is_changed() {
    for density in [0.0, -0.0, 5e-324, f64::MIN_POSITIVE, 0.1, f64::MAX] {
        let cells = of_density(density, &[(29, 1), (29, 2)]);
        assert_clips(28, &of_density(density, &[(28, 0)]), &[(1, 3)], &cells);
    }
}

/// More entries than a map of rows may have, a range for each, and an entry of a base cell with as many
/// ranges.
#[test]
fn no_large_map_and_no_large_coverage_is_refused() {
    let cells: Vec<Cell> = (0..100_000).map(|h| (28, 2 * h)).collect();
    let ranges: Vec<Range> = cells.iter().map(|&cell| range(cell)).collect();
    assert_covers(28, &cells, &ranges);
    let map = of_density(1.0, &cells);
    assert_clips(28, &map, &ranges, &map);
    assert_clips(0, &of_density(1.0, &[(0, 0)]), &ranges, &map);
}

fn refusal<T>(number: u8, place: usize) -> Result<T, Refusal> {
    Err(Refusal::of(number, place).unwrap())
}

/// A coverage call that is good but for the changes.
fn assert_not_covered(number: u8, place: usize, change: impl FnOnce(&mut Cover)) {
    let mut call = Cover {
        depth: 29,
        zuniqs: zuniqs(&FIVE.map(|entry| entry.0)),
        places: [4; 2],
    };
    assert!(call.answer().is_ok());
    change(&mut call);
    assert_eq!(call.answer(), refusal(number, place), "{call:?}");
}

/// What is no entry of a map of depth 29, at a place behind (28, 0): no zuniqs, one that isn't above, one
/// that overlaps.
const FAULTY: [u64; 7] = [0, 2, 1 << 60, (24 << 58) + 1, u64::MAX, 4, 16];

#[test]
fn no_faulty_coverage_call_is_accepted() {
    for depth in 30..=255 {
        assert_not_covered(1, 0, |call| call.depth = depth);
    }
    assert_not_covered(4, 0, |call| call.places = [3, 4]);
    assert_not_covered(4, 0, |call| call.places = [9, 4]);
    for faulty in FAULTY {
        assert_not_covered(5, 1, |call| call.zuniqs[1] = faulty);
        assert_not_covered(5, 4, |call| call.zuniqs[4] = faulty);
    }
    assert_not_covered(5, 0, |call| call.depth = 27);
    assert_not_covered(5, 1, |call| call.depth = 28);
    for places in 0..4 {
        assert_not_covered(11, 0, |call| call.places = [places; 2]);
    }
}

#[test]
fn no_refused_coverage_is_told_out_of_order() {
    assert_not_covered(1, 0, |call| {
        call.depth = 30;
        call.places = [3, 2];
        call.zuniqs[0] = 0;
    });
    assert_not_covered(4, 0, |call| {
        call.places = [3, 2];
        call.zuniqs[0] = 0;
    });
    assert_not_covered(5, 2, |call| {
        call.places = [0; 2];
        call.zuniqs[2] = 0;
    });
}

/// A clip call that is good but for the changes.
fn assert_not_clipped(number: u8, place: usize, change: impl FnOnce(&mut Clip)) {
    let mut call = Clip::new(29, &FIVE, &[(1, 9), (10, 11), (SKY - 5, SKY)], 9);
    assert!(call.answer().is_ok());
    change(&mut call);
    assert_eq!(call.answer(), refusal(number, place), "{call:?}");
}

const BAD: [f64; 5] = [
    f64::NAN,
    f64::INFINITY,
    f64::NEG_INFINITY,
    -1.0,
    -5e-324, // the greatest f64 below 0
];

#[test]
fn no_faulty_clip_call_is_accepted() {
    for depth in 30..=255 {
        assert_not_clipped(1, 0, |call| call.depth = depth);
    }
    assert_not_clipped(4, 0, |call| call.zuniqs.truncate(4));
    assert_not_clipped(4, 0, |call| call.densities.truncate(4));
    assert_not_clipped(4, 0, |call| call.starts.truncate(2));
    assert_not_clipped(4, 0, |call| call.ends.clear());
    assert_not_clipped(4, 0, |call| call.places = [10, 9]);
    assert_not_clipped(4, 0, |call| call.places = [9, 10]);
    for faulty in FAULTY {
        assert_not_clipped(5, 1, |call| call.zuniqs[1] = faulty);
        assert_not_clipped(5, 4, |call| call.zuniqs[4] = faulty);
    }
    assert_not_clipped(5, 1, |call| call.depth = 28);
    for place in 0..5 {
        for bad in BAD {
            assert_not_clipped(6, place, |call| call.densities[place] = bad);
        }
    }
    for places in 0..9 {
        assert_not_clipped(11, 0, |call| call.places = [places; 2]);
    }
}

/// Empty, past the sky, and not above the end of the one before: what only touches isn't.
#[test]
fn no_range_that_is_none_is_accepted() {
    for place in 0..3 {
        assert_not_clipped(14, place, |call| call.ends[place] = call.starts[place]);
        assert_not_clipped(14, place, |call| call.ends[place] = call.starts[place] - 1);
        assert_not_clipped(14, place, |call| call.ends[place] = 0);
        for past in [SKY + 1, 1 << 63, u64::MAX] {
            assert_not_clipped(14, place, |call| call.ends[place] = past);
            assert_not_clipped(14, place, |call| {
                call.starts[place] = past - 1;
                call.ends[place] = past;
            });
        }
    }
    for place in 1..3 {
        assert_not_clipped(14, place, |call| call.starts[place] = call.ends[place - 1]);
        assert_not_clipped(14, place, |call| {
            call.starts[place] = call.ends[place - 1] - 1
        });
        assert_not_clipped(14, place, |call| call.starts[place] = 0);
    }
    // What a coverage call leaves behind its ranges.
    assert_not_clipped(14, 3, |call| {
        call.starts.push(0);
        call.ends.push(0);
    });
    // The end of the first is past the start of the second, which isn't wrong by itself.
    assert_not_clipped(14, 1, |call| call.ends[0] = 10);
    assert_not_clipped(14, 1, |call| call.ends[0] = SKY);
    // A first range may start at 0, though nothing is below it, and a last one end with the sky.
    assert_clips(29, &FIVE, &[(0, 4)], &FIVE[..1]);
    assert_clips(29, &FIVE, &[(0, 4), (11 << 58, SKY)], &[FIVE[0], FIVE[4]]);
}

/// A fault of a range makes nothing of its neighbours: the first one counts.
#[test]
fn no_faulty_range_hides_one_before_it() {
    assert_not_clipped(14, 0, |call| call.ends.fill(0));
    assert_not_clipped(14, 1, |call| call.ends[1..].fill(u64::MAX));
    assert_not_clipped(14, 1, |call| call.starts[1..].fill(0));
}

/// Each refusal with all that the table has behind it.
#[test]
fn no_refused_clip_is_told_out_of_order() {
    fn no_space(call: &mut Clip) {
        call.places = [0; 2];
    }
    fn no_range(call: &mut Clip) {
        call.ends[0] = 0;
        no_space(call);
    }
    fn no_density(call: &mut Clip) {
        call.densities[3] = -1.0;
        no_range(call);
    }
    fn no_map(call: &mut Clip) {
        call.zuniqs[2] = 0;
        no_density(call);
    }
    assert_not_clipped(14, 0, no_range);
    assert_not_clipped(6, 3, no_density);
    assert_not_clipped(5, 2, no_map);
    for uneven in [
        (|call| call.places = [0, 1]) as fn(&mut Clip),
        |call| call.starts.push(SKY),
        |call| call.densities.push(f64::NAN),
    ] {
        assert_not_clipped(4, 0, |call| {
            no_map(call);
            uneven(call);
        });
        assert_not_clipped(1, 0, |call| {
            no_map(call);
            uneven(call);
            call.depth = 30;
        });
    }
}
