//! Moving between the widths. The original has no such call: the scope's reading is the only judge.

use mom::{
    moving::{narrow, widen, Moved},
    MapCheck, Refusal,
};

use super::{
    assert_some,
    draw::{Draw, Side},
    fenced, lent,
    plain::{self, Zuniq},
    rounds, Met,
};

/// A call that moves a map from the width `Z` to the width `Y`.
type Move<Z, Y> = fn(u8, &[Z], &[u32], &mut [Y], &mut [u32]) -> Result<Moved, Refusal>;

/// What was moved, the places of the output, and the answer.
type Tried<Z> = (Side<Z>, usize, Result<Moved, Refusal>);

fn there_and_back<Z: Zuniq, Y: Zuniq>(
    draw: &mut Draw,
    there: Move<Z, Y>,
    back: Move<Y, Z>,
) -> Tried<Z> {
    let map = draw.moved::<Z>();
    let counts = draw.counts_of(map.values);
    let (z, places) = draw.output::<Y>(map.zuniqs.len());
    let n = draw.counts_of(places);
    let (answer, zuniqs, values) = plain::moved(&map, &counts, &z, &n);

    let (fence_z, fence_n) = (Y::of(0xdead_beef), 0xdead_beef);
    let (mut out_z, mut out_n) = (fenced(fence_z, &z), fenced(fence_n, &n));
    let (oz, on) = (lent(&mut out_z), lent(&mut out_n));
    let moved = there(map.depth, &map.zuniqs, &counts, oz, on);
    let told = moved.map(|moved| (moved.depth, moved.entries));
    assert_eq!(told, answer, "{map:?}");
    assert_eq!(out_z, fenced(fence_z, &zuniqs), "{map:?}");
    assert_eq!(out_n, fenced(fence_n, &values), "{map:?}");
    if let Ok(moved) = moved {
        let (zuniqs, values) = (&zuniqs[..moved.entries], &values[..moved.entries]);
        assert_back(&map, &counts, moved, zuniqs, values, back);
    }
    (map, z.len(), moved)
}

/// What a map was moved to is a map of the depth answered, and moved back gives its entries.
fn assert_back<Z: Zuniq, Y: Zuniq>(
    map: &Side<Z>,
    counts: &[u32],
    moved: Moved,
    zuniqs: &[Y],
    values: &[u32],
    back: Move<Y, Z>,
) {
    let check = plain::check(moved.depth, zuniqs);
    assert_eq!(check, Ok(MapCheck::Valid), "{map:?}");
    let (mut z, mut n) = (vec![Z::of(7); zuniqs.len()], vec![7; zuniqs.len()]);
    let again = back(moved.depth, zuniqs, values, &mut z, &mut n);
    assert_eq!(again, Ok(moved), "{map:?}");
    assert_eq!((&z, &n[..]), (&map.zuniqs, counts));
}

/// How often what is told apart by the order of the refusals, or by the depth alone, was met.
#[derive(Default)]
struct Edges {
    /// Refused by 5, with an entry in front that is deeper than 13.
    deep_before_invalid: usize,
    /// Refused by 13 not at the first entry.
    deep_later: usize,
    /// Refused by 13, where there are too few places too.
    deep_without_space: usize,
    /// Accepted from a depth over 13, with an entry of depth 13.
    depth_13_of_more: usize,
    /// Accepted from a depth over 13, without one.
    shallow_of_more: usize,
    /// Accepted from a depth below 13 that no entry has.
    shallow_of_less: usize,
}

impl Edges {
    fn add(&mut self, map: &Side<u64>, places: usize, answer: Result<Moved, Refusal>) {
        let deepest_of = |zuniqs: &[u64]| {
            let cells = zuniqs.iter().filter_map(|&z| plain::cell_of(z));
            cells.map(|(d, _)| d).max().unwrap_or(0)
        };
        let deepest = deepest_of(&map.zuniqs);
        match answer.map_err(|refusal| (refusal.number(), refusal.place())) {
            Err((5, place)) => {
                self.deep_before_invalid += (deepest_of(&map.zuniqs[..place]) > 13) as usize;
            }
            Err((13, place)) => {
                self.deep_later += (place > 0) as usize;
                self.deep_without_space += (places < map.zuniqs.len()) as usize;
            }
            Err(_) => {}
            Ok(_) => {
                self.depth_13_of_more += (map.depth > 13 && deepest == 13) as usize;
                self.shallow_of_more += (map.depth > 13 && deepest < 13) as usize;
                self.shallow_of_less += (map.depth < 13 && deepest < map.depth) as usize;
            }
        }
    }

    fn assert_all(self) {
        for (times, what) in [
            (self.deep_before_invalid, "a deep entry before a faulty one"),
            (self.deep_later, "the first deep entry behind others"),
            (self.deep_without_space, "a deep entry and too few places"),
            (self.depth_13_of_more, "depth 13 out of a larger one"),
            (self.shallow_of_more, "less than 13 out of a larger one"),
            (self.shallow_of_less, "less than the map's depth below 13"),
        ] {
            assert_some("narrowing", what, times);
        }
    }
}

#[test]
fn narrowing() {
    let (mut met, mut edges) = (Met::default(), Edges::default());
    rounds("narrowing", |draw| {
        let (map, places, moved) = there_and_back(draw, narrow, widen);
        met.add(&moved);
        edges.add(&map, places, moved);
    });
    edges.assert_all();
    met.assert_all(&[0, 1, 4, 5, 11, 13]);
}

#[test]
fn widening() {
    let mut met = Met::default();
    rounds("widening", |draw| {
        let (_, _, moved) = there_and_back(draw, widen, narrow);
        met.add(&moved);
    });
    met.assert_all(&[0, 1, 4, 5, 11]);
}
