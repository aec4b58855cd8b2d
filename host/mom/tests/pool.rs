//! Pooling two count maps by the scope: its cases, what is split, and blank sky, in both orders, and every
//! refusal with its number and place.

use mom::{pool, to_zuniq, Added, Map, Refusal};

type Entry = (u8, u64, u32);

/// A map with memory of its own.
#[derive(Clone, Debug)]
struct Owned {
    depth: u8,
    zuniqs: Vec<u64>,
    counts: Vec<u32>,
}

fn map(depth: u8, entries: &[Entry]) -> Owned {
    let zuniq = |&(depth, hash, _): &Entry| to_zuniq(depth, hash).unwrap();
    Owned {
        depth,
        zuniqs: entries.iter().map(zuniq).collect(),
        counts: entries.iter().map(|entry| entry.2).collect(),
    }
}

impl Owned {
    fn lent(&self) -> Map<'_, u32> {
        Map {
            depth: self.depth,
            zuniqs: &self.zuniqs,
            values: &self.counts,
        }
    }
}

/// The pool into so many places. The rest is 0, and the total is that of the entries.
fn pooled(l: &Owned, r: &Owned, m: u8, t: f64, places: usize) -> Result<Vec<Entry>, Refusal> {
    let (mut zuniqs, mut counts) = (vec![5; places], vec![5; places]);
    let answer = pool(l.lent(), r.lent(), m, t, &[], &mut zuniqs, &mut counts);
    let Ok(Added { entries, total }) = answer else {
        assert_eq!((zuniqs, counts), (vec![5; places], vec![5; places]));
        return Err(answer.unwrap_err());
    };
    assert!(zuniqs[entries..].iter().all(|&zuniq| zuniq == 0));
    assert!(counts[entries..].iter().all(|&count| count == 0));
    let of_both = l.counts.iter().chain(&r.counts).sum::<u32>();
    assert_eq!((total, counts.iter().sum()), (of_both, of_both));
    let entry = |place: usize| {
        let (depth, hash) = mom::from_zuniq(zuniqs[place]).unwrap();
        (depth, hash, counts[place])
    };
    Ok((0..entries).map(entry).collect())
}

const NO_SPACE: Refusal = Refusal::NoSpace;

/// The pool of both orders, of `cells` cells before merging: into just as many places, into more, and
/// into one fewer.
fn assert_pooled(l: &Owned, r: &Owned, m: u8, t: f64, cells: usize, entries: &[Entry]) {
    for (l, r) in [(l, r), (r, l)] {
        for places in [cells, cells + 1, cells + 9] {
            let pooled = pooled(l, r, m, t, places);
            assert_eq!(pooled.as_deref(), Ok(entries), "{l:?} {r:?}");
        }
        if cells > 0 {
            assert_eq!(pooled(l, r, m, t, cells - 1), Err(NO_SPACE));
        }
    }
}

/// At M = 0.
#[test]
fn no_case_of_the_scope_is_missed() {
    let (l, r) = (map(0, &[(0, 0, 10)]), map(1, &[(1, 1, 3)]));
    let apart = [(1, 0, 3), (1, 1, 6), (1, 2, 2), (1, 3, 2)];
    assert_pooled(&l, &r, 0, 2.0, 4, &apart);
    assert_pooled(&l, &r, 0, 3.5, 4, &[(0, 0, 13)]);
    assert_pooled(&l, &r, 1, 3.5, 4, &apart);
}

/// Which children get one more, by h mod 4 and v mod 4.
const EXTRA: [[[u32; 4]; 4]; 4] = [
    [[0, 0, 0, 0], [1, 0, 0, 0], [1, 1, 0, 0], [1, 1, 1, 0]],
    [[0, 0, 0, 0], [0, 1, 0, 0], [0, 1, 1, 0], [0, 1, 1, 1]],
    [[0, 0, 0, 0], [0, 0, 1, 0], [0, 0, 1, 1], [1, 0, 1, 1]],
    [[0, 0, 0, 0], [0, 0, 0, 1], [1, 0, 0, 1], [1, 1, 0, 1]],
];

/// The children of a cell of hash h and count v.
fn children((depth, hash, count): Entry) -> [Entry; 4] {
    let extra = EXTRA[hash as usize % 4][count as usize % 4];
    let child = |i: u64| (depth + 1, 4 * hash + i, count / 4 + extra[i as usize]);
    [0, 1, 2, 3].map(child)
}

/// The first eight hashes of a depth, and the last eight.
fn both_ends(depth: u8) -> impl Iterator<Item = u64> {
    let n = 12 << (2 * depth);
    (0..8).chain(n - 8..n)
}

/// Split over any of its children. Kept by M, since no T keeps four of 0.
#[test]
fn no_remainder_goes_to_other_children_than_those_from_h_mod_4_on() {
    let counts = (0..12).chain(u32::MAX - 3..=u32::MAX);
    for depth in [0, 1, 13, 28] {
        for (hash, count) in both_ends(depth).flat_map(|h| counts.clone().map(move |v| (h, v))) {
            let entry = (depth, hash, count);
            let four = children(entry);
            for (d, h, _) in four {
                let (l, r) = (map(depth, &[entry]), map(29, &[(d, h, 0)]));
                assert_pooled(&l, &r, d, f64::NEG_INFINITY, 4, &four);
                if count > 0 {
                    assert_pooled(&l, &r, 0, f64::NEG_INFINITY, 4, &four);
                }
            }
        }
    }
}

/// A split through two levels, over any of the sixteen cells: the four of the second level start by the hash
/// of the child that they are in.
#[test]
fn no_level_takes_the_start_of_another() {
    for depth in [0, 1, 27] {
        for (hash, count) in both_ends(depth).flat_map(|h| (0..32).map(move |v| (h, v))) {
            let entry = (depth, hash, count);
            let four = children(entry);
            for cell in four.into_iter().flat_map(children) {
                let in_child = |child: Entry| child.1 == cell.1 / 4;
                let entries = four.into_iter().flat_map(|child| match in_child(child) {
                    true => children(child).to_vec(),
                    false => vec![child],
                });
                let entries: Vec<Entry> = entries.collect();
                let (l, r) = (map(depth, &[entry]), map(29, &[(cell.0, cell.1, 0)]));
                assert_pooled(&l, &r, 29, 0.0, 7, &entries);
            }
        }
    }
    // By hand: 7 is 1, 2, 2, 2 under hash 1, and 2 is 1, 0, 0, 1 under hash 7.
    let (l, r) = (map(0, &[(0, 1, 7)]), map(2, &[(2, 30, 5)]));
    let entries = [
        (1, 4, 1),
        (1, 5, 2),
        (1, 6, 2),
        (2, 28, 1),
        (2, 29, 0),
        (2, 30, 5),
        (2, 31, 1),
    ];
    assert_pooled(&l, &r, 29, 0.0, 7, &entries);
}

/// Numbers that are the same in every run (Knuth's MMIX), of 31 bits.
fn numbers() -> impl Iterator<Item = u64> {
    let next = |n: &u64| {
        let next = n.wrapping_mul(6364136223846793005);
        Some(next.wrapping_add(1442695040888963407))
    };
    std::iter::successors(Some(10), next).map(|n| n >> 33)
}

/// Of any count under any hash; that none is lost is asked of every pool.
#[test]
fn no_child_gets_two_more_than_another() {
    let mut numbers = numbers();
    let mut number = || numbers.next().unwrap();
    for depth in (0..=28).cycle().take(29 * 100) {
        let hash = (number() << 31 | number()) % (12 << (2 * depth));
        let count = number() as u32 >> (number() % 31);
        let child = (depth + 1, 4 * hash + number() % 4, 0);
        let (l, r) = (map(depth, &[(depth, hash, count)]), map(29, &[child]));
        let parts = pooled(&l, &r, 29, 0.0, 4).unwrap();
        let parts = parts.iter().map(|&(.., part)| part);
        assert!(parts.clone().max() <= parts.min().map(|least| least + 1));
    }
}

/// The scope's own rule, whatever h is: "children 0 to (v mod 4) − 1 one more".
fn former_children((depth, hash, count): Entry) -> [Entry; 4] {
    let part = |i: u64| count / 4 + (i < count as u64 % 4) as u32;
    [0, 1, 2, 3].map(|i| (depth + 1, 4 * hash + i, part(i)))
}

/// Through three levels, on each of which the first child is split.
#[test]
fn no_parent_of_hash_0_mod_4_shares_otherwise_than_before() {
    for (depth, hash) in [(0, 0), (0, 4), (0, 8), (5, 1000), (20, 4), (26, 12 << 50)] {
        for count in (0..70).chain([1000, u32::MAX]) {
            let entry = (depth, hash, count);
            let one = former_children(entry);
            let two = former_children(one[0]);
            let three = former_children(two[0]);
            let entries = [&three[..], &two[1..], &one[1..]].concat();
            let (l, r) = (map(depth, &[entry]), map(29, &[(depth + 3, 64 * hash, 0)]));
            assert_pooled(&l, &r, 29, 0.0, 10, &entries);
        }
    }
}

const NOT_ABOVE_0: [f64; 5] = [0.0, -0.0, -1.0, -f64::MAX, f64::NEG_INFINITY];

/// "Four siblings of count 0 now merge at any T, where the parent depth is at least M": those of one map,
/// of both, and those that a blank entry is split into, however far down.
#[test]
fn no_blank_sky_is_left_apart_and_none_is_merged_below_m() {
    let quad = [(1, 0, 0), (1, 1, 0), (1, 2, 0), (1, 3, 0)];
    let base = map(0, &[(0, 0, 0)]);
    for t in NOT_ABOVE_0.into_iter().chain([5e-324, f64::INFINITY]) {
        for cut in 0..=4 {
            let (l, r) = (map(1, &quad[..cut]), map(1, &quad[cut..]));
            assert_pooled(&l, &r, 0, t, 4, &[(0, 0, 0)]);
            assert_pooled(&l, &r, 1, t, 4, &quad);
        }
        assert_pooled(&map(1, &quad), &map(1, &quad), 0, t, 4, &[(0, 0, 0)]);
        assert_pooled(&base, &map(1, &quad[1..2]), 0, t, 4, &[(0, 0, 0)]);
        assert_pooled(&base, &map(1, &quad[1..2]), 1, t, 4, &quad);
        for last in [0, 1 << 57, (1 << 58) - 1] {
            let deep = map(29, &[(29, last, 0)]);
            assert_pooled(&base, &deep, 0, t, 88, &[(0, 0, 0)]);
            assert_eq!(pooled(&base, &deep, 29, t, 88).map(|map| map.len()), Ok(88));
            // Down from (20, ..), which is merged: three siblings on each of the depths 1 to 20.
            assert_eq!(pooled(&base, &deep, 20, t, 88).map(|map| map.len()), Ok(61));
        }
        let none = map(0, &[]);
        assert_pooled(
            &map(0, &[(0, 5, 0), (0, 6, 0)]),
            &none,
            0,
            t,
            2,
            &[(0, 5, 0), (0, 6, 0)],
        );
    }
}

/// (0, 0) of 1 is split into 1, 0, 0, 0: three blanks and a source have chi 1. A blank quad beside them is
/// merged.
#[test]
fn no_source_is_lost_in_blank_sky_and_none_keeps_what_lies_beside_it() {
    let (l, r) = (map(0, &[(0, 0, 1)]), map(2, &[(2, 7, 0)]));
    let apart = [(1, 0, 1), (1, 1, 0), (1, 2, 0), (1, 3, 0)];
    for t in NOT_ABOVE_0.into_iter().chain([1.0]) {
        assert_pooled(&l, &r, 0, t, 7, &apart);
    }
    assert_pooled(&l, &r, 0, 1.5, 7, &[(0, 0, 1)]);
}

#[test]
fn no_last_quad_is_left_untried() {
    // The last one of the sky comes from one map, from the other, from both, or from a split.
    let quad = [(1, 44, 1), (1, 45, 1), (1, 46, 1), (1, 47, 1)];
    for cut in 0..=4 {
        let (l, r) = (map(1, &quad[..cut]), map(1, &quad[cut..]));
        assert_pooled(&l, &r, 0, 3.5, 4, &[(0, 11, 4)]);
    }
    assert_pooled(&map(1, &quad), &map(1, &quad), 0, 3.5, 4, &[(0, 11, 8)]);
    let last = map(1, &quad[3..]);
    let (none, base) = (map(0, &[]), map(0, &[(0, 11, 4)]));
    assert_pooled(&base, &last, 0, 3.5, 4, &[(0, 11, 5)]);
    assert_pooled(&map(1, &quad), &none, 0, 3.5, 4, &[(0, 11, 4)]);
}

#[test]
fn no_empty_and_no_equal_map_is_refused() {
    let (none, base) = (map(0, &[]), map(0, &[(0, 0, 1), (0, 3, 0), (0, 11, 5)]));
    assert_pooled(&none, &none, 0, 3.5, 0, &[]);
    assert_pooled(&none, &map(29, &[]), 29, 3.5, 0, &[]);
    let alone = [(0, 0, 1), (0, 3, 0), (0, 11, 5)];
    assert_pooled(&base, &none, 0, f64::INFINITY, 3, &alone);
    let twice = [(0, 0, 2), (0, 3, 0), (0, 11, 10)];
    assert_pooled(&base, &base, 0, f64::INFINITY, 3, &twice);
    // The four are siblings of no parent.
    let four = [(0, 0, 1), (0, 1, 1), (0, 2, 1), (0, 3, 1)];
    assert_pooled(
        &map(0, &four[1..3]),
        &map(0, &[four[0], four[3]]),
        0,
        f64::INFINITY,
        4,
        &four,
    );
}

/// One source goes down to the same corner on every level: child h mod 4 of hash h is of that hash mod 4
/// itself. What is split through 29 levels is merged through 29.
#[test]
fn no_level_is_left_out_however_far_the_split_goes() {
    for (top, corner) in (0..48).map(|way| (way / 4, way % 4)) {
        let bottom = (top << 58) + corner * (((1 << 58) - 1) / 3);
        let (l, r) = (map(0, &[(0, top, 1)]), map(29, &[(29, bottom, 7)]));
        assert_pooled(&l, &r, 0, f64::INFINITY, 88, &[(0, top, 8)]);
        let kept = pooled(&l, &r, 29, f64::NEG_INFINITY, 88).unwrap();
        assert_eq!(kept.len(), 88);
        let found = kept.iter().find(|entry| (entry.0, entry.1) == (29, bottom));
        let of_bottom = (top % 4 == corner) as u32;
        assert_eq!(found, Some(&(29, bottom, 7 + of_bottom)));
    }
}

/// A call on two maps and an output, changed in one thing or two.
struct Call {
    left: Owned,
    right: Owned,
    m: u8,
    t: f64,
    places: [usize; 2],
}

impl Call {
    fn answer(&self) -> Result<Added, Refusal> {
        let (mut zuniqs, mut counts) = (vec![5; self.places[0]], vec![5; self.places[1]]);
        let (left, right) = (self.left.lent(), self.right.lent());
        let answer = pool(left, right, self.m, self.t, &[], &mut zuniqs, &mut counts);
        if answer.is_err() {
            assert!(zuniqs.iter().all(|&zuniq| zuniq == 5));
            assert!(counts.iter().all(|&count| count == 5));
        }
        answer
    }
}

/// The answer of a call that is good but for the changes.
fn changed(change: impl FnOnce(&mut Call)) -> Result<Added, Refusal> {
    let mut call = Call {
        left: map(0, &[(0, 0, 10), (0, 1, 1)]),
        right: map(1, &[(1, 1, 3), (1, 2, 4), (1, 47, 5)]),
        m: 0,
        t: 2.0,
        places: [6, 6],
    };
    change(&mut call);
    call.answer()
}

fn assert_refused(number: u8, place: usize, change: impl FnOnce(&mut Call)) {
    assert_eq!(changed(change), Err(Refusal::of(number, place).unwrap()));
}

#[test]
fn no_good_call_is_refused() {
    let added = Ok(Added {
        entries: 6,
        total: 23,
    });
    assert_eq!(changed(|_| {}), added);
    assert_eq!(changed(|call| call.m = 29), added);
    assert_eq!(changed(|call| call.t = f64::NEG_INFINITY), added);
    assert_eq!(changed(|call| call.left.depth = 29), added);
    assert_eq!(changed(|call| call.right.depth = 29), added);
}

#[test]
fn no_bad_setting_and_no_bad_length_is_accepted() {
    for depth in [30, 255] {
        assert_refused(1, 0, |call| call.left.depth = depth);
        assert_refused(1, 0, |call| call.right.depth = depth);
        assert_refused(2, 0, |call| call.m = depth);
    }
    assert_refused(3, 0, |call| call.t = f64::NAN);
    assert_refused(3, 0, |call| call.t = -f64::NAN);
    assert_refused(4, 0, |call| call.left.zuniqs.truncate(1));
    assert_refused(4, 0, |call| call.left.counts.truncate(1));
    assert_refused(4, 0, |call| call.right.zuniqs.clear());
    assert_refused(4, 0, |call| call.right.counts.clear());
    assert_refused(4, 0, |call| call.places[0] = 7);
    assert_refused(4, 0, |call| call.places[1] = 7);
    assert_refused(11, 0, |call| call.places = [5; 2]);
    assert_refused(11, 0, |call| call.places = [0; 2]);
}

#[test]
fn no_map_that_is_none_is_accepted() {
    let first = 1 << 56;
    for (place, entry) in [(0, 0), (0, 2), (1, 1 << 58), (1, first), (1, 2), (1, 1)] {
        assert_refused(5, place, |call| call.left.zuniqs[place] = entry);
    }
    for (place, entry) in [
        (0, 0),
        (1, 1 << 58),
        (1, 3 * first),
        (1, first),
        (2, 2),
        (2, 1),
    ] {
        assert_refused(5, place, |call| call.right.zuniqs[place] = entry);
    }
    // Of depth 1 in a map of depth 0.
    assert_refused(5, 0, |call| call.right.depth = 0);
}

#[test]
fn no_counts_that_overflow_together_are_accepted() {
    let rest = 10 + 1 + 3 + 4;
    let most = u32::MAX - rest;
    let added = Ok(Added {
        entries: 6,
        total: u32::MAX,
    });
    assert_eq!(changed(|call| call.right.counts[2] = most), added);
    assert_refused(10, 0, |call| call.right.counts[2] = most + 1);
    assert_refused(10, 0, |call| call.left.counts = vec![u32::MAX; 2]);
    assert_refused(10, 0, |call| call.right.counts = vec![u32::MAX; 3]);
}

/// Each refusal before the next one of the table, and in each row the left map before the right one.
#[test]
fn no_refusal_is_given_out_of_order() {
    assert_refused(1, 0, |call| {
        call.right.depth = 30;
        call.m = 30;
    });
    assert_refused(2, 0, |call| {
        call.m = 30;
        call.t = f64::NAN;
    });
    assert_refused(3, 0, |call| {
        call.t = f64::NAN;
        call.left.zuniqs.clear();
    });
    assert_refused(4, 0, |call| {
        call.places[0] = 0;
        call.left.zuniqs[0] = 0;
    });
    assert_refused(4, 0, |call| {
        call.right.zuniqs.pop();
        call.left.zuniqs[1] = 0;
    });
    assert_refused(5, 1, |call| {
        call.left.zuniqs[1] = 0;
        call.right.zuniqs[0] = 0;
    });
    assert_refused(5, 2, |call| {
        call.right.zuniqs[2] = 0;
        call.left.counts[0] = u32::MAX;
    });
    assert_refused(10, 0, |call| {
        call.left.counts[0] = u32::MAX;
        call.places = [0; 2];
    });
}
