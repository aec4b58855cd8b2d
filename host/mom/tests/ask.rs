//! A pool asked before it is done, note 8 of the change requests: the figures that asking answers, in both
//! orders, that committing does what the single call does, and every refusal with its number and place.

use mom::{ask, commit, from_zuniq, pool, to_zuniq, Added, Figures, Map, Refusal};

type Cell = (u8, u64);
type Entry = (u8, u64, u32);

const INFINITY: f64 = f64::INFINITY;

/// A map with memory of its own.
#[derive(Clone, Debug)]
struct Owned {
    depth: u8,
    zuniqs: Vec<u64>,
    counts: Vec<u32>,
}

fn zuniq((depth, hash): Cell) -> u64 {
    to_zuniq(depth, hash).unwrap()
}

fn map(depth: u8, entries: &[Entry]) -> Owned {
    Owned {
        depth,
        zuniqs: entries.iter().map(|&(d, h, _)| zuniq((d, h))).collect(),
        counts: entries.iter().map(|entry| entry.2).collect(),
    }
}

/// The list of these parents.
fn list(parents: &[Cell]) -> Vec<u64> {
    let mut list: Vec<u64> = parents.iter().map(|&parent| zuniq(parent)).collect();
    list.sort();
    list.dedup();
    list
}

fn figures(cells: usize, entries: usize, total: u32) -> Figures {
    Figures {
        cells,
        entries,
        total,
    }
}

fn refusal<T>(number: u8, place: usize) -> Result<T, Refusal> {
    Err(Refusal::of(number, place).unwrap())
}

/// The answer of a call, and its output afterwards, which held 5s.
type Left = (Result<Added, Refusal>, Vec<u64>, Vec<u32>);

/// The inputs that asking, committing and the single call have in common.
#[derive(Clone, Debug)]
struct Call {
    left: Owned,
    right: Owned,
    m: u8,
    t: f64,
    list: Vec<u64>,
}

impl Call {
    fn of(left: &Owned, right: &Owned, (m, t): (u8, f64), list: &[u64]) -> Call {
        Call {
            left: left.clone(),
            right: right.clone(),
            m,
            t,
            list: list.to_vec(),
        }
    }

    fn swapped(&self) -> Call {
        let setting = (self.m, self.t);
        Call::of(&self.right, &self.left, setting, &self.list)
    }

    fn maps(&self) -> [Map<'_, u32>; 2] {
        [&self.left, &self.right].map(|map| Map {
            depth: map.depth,
            zuniqs: &map.zuniqs,
            values: &map.counts,
        })
    }

    fn asked(&self) -> Result<Figures, Refusal> {
        let [left, right] = self.maps();
        ask(left, right, self.m, self.t, &self.list)
    }

    fn committed(&self, figures: Figures, places: [usize; 2]) -> Left {
        let ([left, right], list) = (self.maps(), &self.list);
        let (mut z, mut c) = (vec![5; places[0]], vec![5; places[1]]);
        let answer = commit(left, right, self.m, self.t, list, figures, &mut z, &mut c);
        (answer, z, c)
    }

    /// By the single call.
    fn pooled(&self, places: [usize; 2]) -> Left {
        let [left, right] = self.maps();
        let (mut z, mut c) = (vec![5; places[0]], vec![5; places[1]]);
        let answer = pool(left, right, self.m, self.t, &self.list, &mut z, &mut c);
        (answer, z, c)
    }

    fn assert_refused(&self, figures: Figures, places: [usize; 2], number: u8, place: usize) {
        let untouched = (vec![5; places[0]], vec![5; places[1]]);
        let (answer, z, c) = self.committed(figures, places);
        assert_eq!(answer, refusal(number, place), "{self:?} {figures:?}");
        assert_eq!((z, c), untouched, "{self:?} {figures:?}");
    }
}

/// What is asked is what the single call does: it needs just so many places, and leaves so many entries
/// and such a total. Committed, it leaves the same. Both in both orders.
fn assert_as_pooled(call: &Call) -> Figures {
    let asked = call.asked().unwrap();
    let Figures {
        cells,
        entries,
        total,
    } = asked;
    assert_eq!(call.swapped().asked(), Ok(asked), "{call:?}");
    for places in [cells, cells + 1, cells + 9] {
        let pooled = call.pooled([places; 2]);
        assert_eq!(pooled.0, Ok(Added { entries, total }), "{call:?}");
        for call in [call, &call.swapped()] {
            let committed = call.committed(asked, [places; 2]);
            assert_eq!(committed, pooled, "{call:?}");
        }
    }
    if cells > 0 {
        let too_few = [cells - 1; 2];
        assert_eq!(call.pooled(too_few).0, refusal(11, 0), "{call:?}");
        call.assert_refused(asked, too_few, 11, 0);
        call.assert_refused(asked, [0; 2], 11, 0);
    }
    asked
}

fn assert_asked(call: &Call, cells: usize, entries: usize, total: u32) {
    let asked = assert_as_pooled(call);
    assert_eq!(asked, figures(cells, entries, total), "{call:?}");
}

/// The scope's pool: (0, 0) of 10 and (1, 1) of 3.
fn worked(m: u8, t: f64, list: &[u64]) -> Call {
    let (left, right) = (map(0, &[(0, 0, 10)]), map(1, &[(1, 1, 3)]));
    Call::of(&left, &right, (m, t), list)
}

#[test]
fn no_case_of_the_scope_is_missed() {
    assert_asked(&worked(0, 2.0, &[]), 4, 4, 13);
    assert_asked(&worked(0, 3.5, &[]), 4, 1, 13);
    assert_asked(&worked(1, 3.5, &[]), 4, 4, 13);

    let quad = [0, 1, 2, 3].map(|hash| zuniq((1, hash)));
    let (answer, z, c) = worked(0, 2.0, &[]).committed(figures(4, 4, 13), [4; 2]);
    let added = |entries| Ok(Added { entries, total: 13 });
    assert_eq!(
        (answer, &z[..], &c[..]),
        (added(4), &quad[..], &[3, 6, 2, 2][..])
    );
    let (answer, z, c) = worked(0, 3.5, &[]).committed(figures(4, 1, 13), [5; 2]);
    assert_eq!(
        (answer, z, c),
        (added(1), vec![1 << 58, 0, 0, 0, 0], vec![13, 0, 0, 0, 0])
    );
}

/// 5 is shared as 2, 1, 1, 1, from child h mod 4 on, and 3 more in one child. In the child that got one more
/// they make 5, 1, 1, 1, of chi 3, and in another one 4, 2, 1, 1, of chi less than 2.2.
#[test]
fn no_remainder_is_shared_otherwise_than_the_pool_shares_it() {
    for (depth, hash) in (0..8).flat_map(|h| [(0, h), (1, h), (28, h)]) {
        for child in 0..4 {
            let (left, right) = (
                map(depth, &[(depth, hash, 5)]),
                map(depth + 1, &[(depth + 1, 4 * hash + child, 3)]),
            );
            let call = Call::of(&left, &right, (0, 2.5), &[]);
            let entries = if child == hash % 4 { 4 } else { 1 };
            assert_asked(&call, 4, entries, 8);
        }
    }
}

/// A figure and others: one beside it, far ones, those that a narrower number would take for it, and the
/// two numbers that were asked.
fn others(n: usize, asked: Figures) -> Vec<usize> {
    let mut others = vec![n, n.wrapping_sub(1), n + 1, 0, 1, usize::MAX];
    others.extend([asked.cells, asked.entries]);
    others.extend([8, 16, 31, 32, 48, 63].map(|bit| n ^ 1 << bit));
    others.sort();
    others.dedup();
    others
}

/// All figures of which one, two or all three are others.
fn all_others(asked: Figures) -> Vec<Figures> {
    let mut all = vec![];
    for cells in others(asked.cells, asked) {
        for entries in others(asked.entries, asked) {
            for total in others(asked.total as usize, asked) {
                all.push(figures(cells, entries, total as u32));
            }
        }
    }
    all.retain(|&figures| figures != asked);
    all
}

/// Into enough places, into too few and into none.
#[test]
fn no_figures_but_those_asked_are_taken() {
    let wide = map(0, &[(0, 0, u32::MAX)]);
    for call in [
        worked(0, 2.0, &[]),
        worked(0, 3.5, &[]),
        worked(0, 3.5, &list(&[(0, 0)])),
        Call::of(&wide, &map(29, &[(29, 7, 0)]), (0, INFINITY), &[]),
        Call::of(&map(0, &[]), &map(29, &[]), (0, 3.5), &[]),
    ] {
        let asked = call.asked().unwrap();
        for others in all_others(asked) {
            for places in [asked.cells + 2, asked.cells, asked.cells / 2, 0] {
                call.assert_refused(others, [places; 2], 16, 0);
            }
        }
    }
}

/// The output needs as many places as there are cells: not as there are entries, and not one more.
#[test]
fn no_other_number_of_places_is_asked_for() {
    let (call, asked) = (worked(0, 3.5, &[]), figures(4, 1, 13));
    let (entries, total) = (asked.entries, asked.total);
    for places in 0..4 {
        call.assert_refused(asked, [places; 2], 11, 0);
    }
    for places in 4..9 {
        let (answer, ..) = call.committed(asked, [places; 2]);
        assert_eq!(answer, Ok(Added { entries, total }), "{places}");
    }
}

// ---- Maps

#[test]
fn no_empty_map_and_no_base_cell_is_refused() {
    let none = map(0, &[]);
    let base = map(0, &[(0, 0, 1), (0, 3, 0), (0, 11, 5)]);
    let all: Vec<Entry> = (0..12).map(|hash| (0, hash, 1)).collect();
    for setting in [(0, INFINITY), (0, 0.0), (29, 3.5)] {
        assert_asked(&Call::of(&none, &none, setting, &[]), 0, 0, 0);
        assert_asked(&Call::of(&none, &map(29, &[]), setting, &[]), 0, 0, 0);
        assert_asked(&Call::of(&base, &none, setting, &[]), 3, 3, 6);
        assert_asked(&Call::of(&base, &base, setting, &[]), 3, 3, 12);
        // Base cells have no parent, and four of them are no siblings.
        assert_asked(&Call::of(&map(0, &all), &none, setting, &[]), 12, 12, 12);
        assert_asked(
            &Call::of(&map(0, &all[..2]), &map(0, &all[2..]), setting, &[]),
            12,
            12,
            12,
        );
    }
}

#[test]
fn no_total_is_cut_off() {
    let most = map(0, &[(0, 0, u32::MAX - 5)]);
    for rest in [0, 1, 4, 5] {
        let call = Call::of(&most, &map(1, &[(1, 2, rest)]), (0, 0.0), &[]);
        assert_asked(&call, 4, 4, u32::MAX - 5 + rest);
    }
    let over = Call::of(&most, &map(1, &[(1, 2, 6)]), (0, 0.0), &[]);
    assert_eq!(over.asked(), refusal(10, 0));
}

/// Of sixteen cells of depth 2, each the only one that is left out, added to or named by the list.
#[test]
fn no_gap_and_no_protected_parent_is_overlooked() {
    let ones: Vec<Entry> = (0..16).map(|hash| (2, hash, 1)).collect();
    let (all, none) = (map(2, &ones), map(0, &[]));
    assert_asked(&Call::of(&all, &none, (0, 3.5), &[]), 16, 1, 16);
    assert_asked(&Call::of(&all, &none, (1, 3.5), &[]), 16, 4, 16);
    assert_asked(&Call::of(&all, &none, (2, 3.5), &[]), 16, 16, 16);
    assert_asked(
        &Call::of(&all, &none, (0, 3.5), &list(&[(0, 0)])),
        16,
        4,
        16,
    );
    for place in 0..16 {
        let rest = [&ones[..place], &ones[place + 1..]].concat();
        assert_asked(&Call::of(&map(2, &rest), &none, (0, 3.5), &[]), 15, 6, 15);
        let one = map(2, &ones[place..=place]);
        assert_asked(&Call::of(&map(2, &rest), &one, (0, 3.5), &[]), 16, 1, 16);
        // 1,000 beside three of 1 are kept, and so is what is over them.
        let source = map(2, &[(2, place as u64, 999)]);
        assert_asked(&Call::of(&all, &source, (0, 3.5), &[]), 16, 7, 1015);
        let parent = list(&[(1, place as u64 / 4)]);
        assert_asked(&Call::of(&all, &none, (0, 3.5), &parent), 16, 7, 16);
        // A cell of the list that is no parent protects nothing.
        let cell = list(&[(2, place as u64), (1, 4), (0, 1)]);
        assert_asked(&Call::of(&all, &none, (0, 3.5), &cell), 16, 1, 16);
    }
}

/// From M on blank sky is merged at any T but into a protected parent, and below M never. A commit that
/// counts on the list's keeping none of it, as before note 11, is refused.
#[test]
fn no_blank_sky_is_counted_apart_but_below_m_and_under_a_protected_parent() {
    let blanks: Vec<Entry> = (0..16).map(|hash| (2, hash, 0)).collect();
    let (first, rest) = (map(2, &blanks[..7]), map(2, &blanks[7..]));
    let (base, second) = (map(0, &[(0, 0, 0)]), map(2, &[(2, 5, 0)]));
    // By M, how many there are of the sixteen, and of the seven that the base cell is split into.
    let unlisted = [(1, 1), (4, 4), (16, 7)];
    for (parents, by_m) in [
        (&[][..], unlisted),
        (&[(0, 1), (1, 4), (2, 0), (2, 5)], unlisted),
        (&[(0, 0)], [(4, 4), (4, 4), (16, 7)]),
        (&[(1, 3)], [(7, 1), (7, 4), (16, 7)]),
        (&[(0, 0), (1, 1), (1, 3)], [(10, 7), (10, 7), (16, 7)]),
    ] {
        for t in [0.0, -0.0, -1.0, f64::NEG_INFINITY, 5e-324, INFINITY] {
            for (m, (of_sixteen, of_seven)) in by_m.into_iter().enumerate() {
                let (setting, list) = ((m as u8, t), &list(parents));
                let of_sixteen = (Call::of(&first, &rest, setting, list), 16, of_sixteen);
                let of_seven = (Call::of(&base, &second, setting, list), 7, of_seven);
                let before = [unlisted[m].0, unlisted[m].1];
                for ((call, cells, entries), before) in
                    [of_sixteen, of_seven].into_iter().zip(before)
                {
                    assert_asked(&call, cells, entries, 0);
                    if before != entries {
                        call.assert_refused(figures(cells, before, 0), [cells; 2], 16, 0);
                    }
                }
            }
        }
    }
}

/// Every way to fill the four quads of (0, 0): with a cell of depth 1, with four that are merged, kept or
/// blank, with three, or not at all; beside maps that lie over them, in them and apart.
#[test]
fn no_small_pool_is_asked_for_wrongly() {
    let quad = |parent: u64, kind: usize| -> Vec<Entry> {
        let four = |counts: [u32; 4]| [0, 1, 2, 3].map(|i| (2, 4 * parent + i, counts[i as usize]));
        match kind {
            0 => vec![(1, parent, 4)],
            1 => four([1; 4]).to_vec(),
            2 => four([1, 1, 90, 1]).to_vec(),
            3 => four([0; 4]).to_vec(),
            4 => four([1; 4])[1..].to_vec(),
            _ => vec![],
        }
    };
    let others = [
        map(0, &[]),
        map(0, &[(0, 0, 7), (0, 5, 2)]),
        map(1, &[(1, 0, 0), (1, 2, 8), (1, 47, 1)]),
        map(3, &[(3, 1, 1), (2, 9, 3), (3, 63, 0)]),
    ];
    let lists = [vec![], list(&[(0, 0)]), list(&[(1, 1), (1, 2)])];
    for kinds in 0..6usize.pow(4) {
        let kind = |parent: u64| kinds / 6usize.pow(parent as u32) % 6;
        let entries: Vec<Entry> = (0..4)
            .flat_map(|parent| quad(parent, kind(parent)))
            .collect();
        let left = map(2, &entries);
        for (i, right) in others.iter().enumerate() {
            let list = &lists[(kinds + i) % 3];
            for setting in [(0, 0.0), (0, 3.5), (1, 3.5), (0, INFINITY)] {
                assert_as_pooled(&Call::of(&left, right, setting, list));
            }
        }
    }
}

// ---- From the base cells down to depth 29

/// Three siblings on each of the depths 1 to 29 beside a way down, and the last cell of the way. The way
/// is the hash of that cell.
fn beside(way: u64, count: impl Fn(u8) -> u32) -> Vec<Entry> {
    let mut entries = vec![(29, way, count(29))];
    for depth in 1..=29 {
        let on_way = way >> (2 * (29 - depth));
        let four = (on_way / 4 * 4..on_way / 4 * 4 + 4).filter(|&hash| hash != on_way);
        entries.extend(four.map(|hash| (depth, hash, count(depth))));
    }
    entries.sort_by_key(|&(d, h, _)| zuniq((d, h)));
    entries
}

/// The first and the last cell of a base cell, so that no or all siblings stand before the way, and two
/// between.
fn ways() -> [u64; 4] {
    let last = (12 << 58) - 1;
    [5 << 58, last, 0x2aaa_aaaa_aaaa_aaaa, 0x0123_4567_89ab_cdef]
}

/// A base cell over a cell of depth 29 is split through all depths; what is merged again goes up to M, to
/// the children of a protected parent, or all the way.
#[test]
fn no_depth_is_left_out_however_far_a_split_goes() {
    for way in ways() {
        let (top, bottom) = (map(0, &[(0, way >> 58, 1)]), map(29, &[(29, way, 7)]));
        assert_asked(&Call::of(&top, &bottom, (0, INFINITY), &[]), 88, 1, 8);
        assert_asked(&Call::of(&top, &bottom, (29, INFINITY), &[]), 88, 88, 8);
        for depth in 0..=28 {
            let entries = 3 * depth as usize + 1;
            assert_asked(
                &Call::of(&top, &bottom, (depth, INFINITY), &[]),
                88,
                entries,
                8,
            );
            let parent = list(&[(depth, way >> (2 * (29 - depth)))]);
            assert_asked(
                &Call::of(&top, &bottom, (0, INFINITY), &parent),
                88,
                entries + 3,
                8,
            );
        }
    }
}

/// Siblings on every depth are merged through all of them, from one map or shared out to two.
#[test]
fn no_nested_quads_are_left_apart() {
    for way in ways() {
        let (blank, full) = (beside(way, |_| 0), beside(way, |depth| depth as u32));
        let none = map(0, &[]);
        assert_asked(&Call::of(&map(29, &blank), &none, (0, 0.0), &[]), 88, 1, 0);
        // 29 × 30 / 2 on three cells, and 29 on the last one.
        let total = 3 * 435 + 29;
        assert_asked(
            &Call::of(&map(29, &full), &none, (0, INFINITY), &[]),
            88,
            1,
            total,
        );
        for part in [2, 3, 5] {
            let pick = |chosen: bool| {
                let entries = full.iter().enumerate();
                let entries = entries.filter(|(place, _)| (place % part == 0) == chosen);
                map(29, &entries.map(|(_, &entry)| entry).collect::<Vec<_>>())
            };
            let call = Call::of(&pick(true), &pick(false), (0, INFINITY), &[]);
            assert_asked(&call, 88, 1, total);
        }
    }
}

/// A gap, a source that keeps its quad, or a protected parent on one depth: what lies below is merged up to
/// it, and nothing above.
#[test]
fn no_quad_is_merged_over_one_that_stays() {
    for way in ways() {
        let blank = beside(way, |_| 0);
        let none = map(0, &[]);
        for (place, &(depth, hash, _)) in blank.iter().enumerate() {
            let above = 3 * (depth as usize - 1);
            let rest = map(29, &[&blank[..place], &blank[place + 1..]].concat());
            assert_asked(&Call::of(&rest, &none, (0, 0.0), &[]), 87, above + 3, 0);
            let source = map(29, &[(depth, hash, 1)]);
            assert_asked(&Call::of(&rest, &source, (0, 0.0), &[]), 88, above + 4, 1);
            assert_asked(&Call::of(&rest, &source, (0, 1.5), &[]), 88, 1, 1);
            let parent = list(&[(depth - 1, hash / 4)]);
            for count in [0, 1] {
                let one = map(29, &[(depth, hash, count)]);
                let call = Call::of(&rest, &one, (0, 1.5), &parent);
                assert_asked(&call, 88, above + 4, count);
            }
        }
    }
}

/// Numbers that are the same in every run (Knuth's MMIX).
struct Numbers(u64);

impl Numbers {
    fn below(&mut self, n: u64) -> u64 {
        self.0 = self
            .0
            .wrapping_mul(6364136223846793005)
            .wrapping_add(1442695040888963407);
        (self.0 >> 33) % n
    }

    /// Entries in a cell: itself, none, or those in its children, mostly along the way.
    fn cover(&mut self, (depth, hash): Cell, way: u64, deepest: u8, entries: &mut Vec<Entry>) {
        let on_way = way >> (2 * (29 - depth)) == hash;
        if depth < deepest && (on_way && self.below(16) > 0 || self.below(8) == 0) {
            for child in 0..4 {
                self.cover((depth + 1, 4 * hash + child), way, deepest, entries);
            }
        } else if self.below(32) > 0 {
            let counts = [0, 0, 0, 1, 1, 2, 3, 40];
            entries.push((depth, hash, counts[self.below(8) as usize]));
        }
    }

    fn map(&mut self, way: u64) -> Owned {
        let deepest = [0, 1, 2, 3, 13, 29, 29, 29][self.below(8) as usize];
        let (mut entries, first) = (vec![], way >> 58);
        for base in first..12.min(first + 1 + self.below(2)) {
            self.cover((0, base), way, deepest, &mut entries);
        }
        map(deepest, &entries)
    }

    /// The parents of some of a map's entries, and what is over these.
    fn list(&mut self, map: &Owned) -> Vec<u64> {
        let cells: Vec<Cell> = map.zuniqs.iter().filter_map(|&z| from_zuniq(z)).collect();
        let mut parents = vec![];
        for (depth, hash) in cells {
            let up = 1 + self.below(2) as u8;
            if self.below(8) == 0 && up <= depth {
                parents.push((depth - up, hash >> (2 * up)));
            }
        }
        list(&parents)
    }
}

#[test]
fn no_pool_is_another_than_an_ask_followed_by_its_commit() {
    let mut numbers = Numbers(8);
    // Those merged in part, to one entry and not at all, and those of over 88 cells.
    let mut met = [0; 4];
    for round in 0..4_000 {
        let way = ways()[round % 4];
        let (left, right) = (numbers.map(way), numbers.map(way));
        let list = [vec![], numbers.list(&left), numbers.list(&right)];
        let list = &list[numbers.below(3) as usize];
        let m = [0, 0, 0, 1, 5, 28][numbers.below(6) as usize];
        let t = [0.0, 1.5, 3.5, 40.0, INFINITY][numbers.below(5) as usize];
        let asked = assert_as_pooled(&Call::of(&left, &right, (m, t), list));
        met[0] += (1 < asked.entries && asked.entries < asked.cells) as usize;
        met[1] += (1 == asked.entries && asked.entries < asked.cells) as usize;
        met[2] += (1 < asked.entries && asked.entries == asked.cells) as usize;
        met[3] += (asked.cells > 88) as usize;
    }
    assert!(met.iter().all(|&times| times > 100), "{met:?}");
}

/// The whole sky at depth 6, under its base cells.
#[test]
fn no_large_pool_is_asked_for_wrongly() {
    let sky: Vec<Entry> = (0..12 << 12).map(|hash| (6, hash, 1)).collect();
    let base: Vec<Entry> = (0..12).map(|hash| (0, hash, 1 << 12)).collect();
    let call = Call::of(&map(6, &sky), &map(0, &base), (0, 3.5), &[]);
    assert_asked(&call, 12 << 12, 12, 24 << 12);
    let call = Call::of(&map(6, &sky), &map(0, &base), (4, 3.5), &[]);
    assert_asked(&call, 12 << 12, 12 << 8, 24 << 12);
}

// ---- Figures of inputs that have changed

/// What was asked is committed for other inputs: taken where an ask for these would answer the same, and
/// refused by 16 if not.
fn assert_stale(before: &Call, after: &Call, is_taken: bool) {
    let asked = before.asked().unwrap();
    let now = after.asked().unwrap();
    assert_eq!(now == asked, is_taken, "{before:?} {after:?}");
    if is_taken {
        let places = [now.cells; 2];
        assert_eq!(after.committed(asked, places), after.pooled(places));
    } else {
        for places in [now.cells.max(asked.cells), 0] {
            after.assert_refused(asked, [places; 2], 16, 0);
        }
    }
}

#[test]
fn no_stale_figures_are_taken_and_none_that_still_hold_are_refused() {
    let before = worked(0, 3.5, &[]);
    let assert_changed = |is_taken: bool, change: &dyn Fn(&mut Call)| {
        let mut after = before.clone();
        change(&mut after);
        assert_stale(&before, &after, is_taken);
        assert_stale(&after, &before, is_taken);
    };
    // Another total.
    assert_changed(false, &|call| call.left.counts[0] = 11);
    assert_changed(false, &|call| call.right.counts[0] = 2);
    // Other entries, of the same total or not.
    assert_changed(false, &|call| call.right.counts[0] = 90);
    assert_changed(false, &|call| {
        (call.left.counts[0], call.right.counts[0]) = (0, 13)
    });
    assert_changed(false, &|call| call.t = 2.0);
    assert_changed(false, &|call| call.m = 1);
    assert_changed(false, &|call| call.list = list(&[(0, 0)]));
    // Other cells.
    assert_changed(false, &|call| call.right = map(2, &[(2, 5, 3)]));
    assert_changed(false, &|call| call.right = map(0, &[(0, 0, 3)]));
    // Another pool with the same figures.
    assert_changed(true, &|call| {
        (call.left.counts[0], call.right.counts[0]) = (9, 4)
    });
    assert_changed(true, &|call| call.right = map(1, &[(1, 2, 3)]));
    assert_changed(true, &|call| call.right.depth = 29);
    assert_changed(true, &|call| call.t = INFINITY);
    assert_changed(true, &|call| call.list = list(&[(0, 1), (1, 1)]));
    assert_changed(true, &|call| *call = call.swapped());
    assert_changed(true, &|call| {
        call.left = map(0, &[(0, 11, 10)]);
        call.right = map(1, &[(1, 44, 3)]);
    });
}

// ---- Refusals

/// A call that is good but for the changes: six cells, six entries, of 23.
fn changed(change: impl FnOnce(&mut Call)) -> Call {
    let left = map(0, &[(0, 0, 10), (0, 1, 1)]);
    let right = map(1, &[(1, 1, 3), (1, 2, 4), (1, 47, 5)]);
    let mut call = Call::of(&left, &right, (0, 2.0), &list(&[(1, 1), (0, 3)]));
    change(&mut call);
    call
}

const GOOD: Figures = Figures {
    cells: 6,
    entries: 6,
    total: 23,
};

const OTHERS: Figures = Figures {
    cells: 0,
    entries: usize::MAX,
    total: 22,
};

/// Asked, committed by any figures into any number of places and pooled, it is refused alike.
fn assert_refused(number: u8, place: usize, change: impl FnOnce(&mut Call)) {
    let call = changed(change);
    assert_eq!(call.asked(), refusal(number, place), "{call:?}");
    for places in [9, 6, 5, 0] {
        assert_eq!(call.pooled([places; 2]).0, refusal(number, place));
        for figures in [GOOD, OTHERS] {
            call.assert_refused(figures, [places; 2], number, place);
        }
    }
}

#[test]
fn no_good_call_is_refused() {
    for change in [
        |_: &mut Call| {},
        |call: &mut Call| call.m = 29,
        |call: &mut Call| call.t = f64::NEG_INFINITY,
        |call: &mut Call| call.left.depth = 29,
        |call: &mut Call| call.right.depth = 29,
        |call: &mut Call| call.list.clear(),
    ] {
        assert_eq!(assert_as_pooled(&changed(change)), GOOD);
    }
}

#[test]
fn no_bad_setting_no_bad_list_and_no_bad_length_is_accepted() {
    for depth in [30, 255] {
        assert_refused(1, 0, |call| call.left.depth = depth);
        assert_refused(1, 0, |call| call.right.depth = depth);
        assert_refused(2, 0, |call| call.m = depth);
    }
    assert_refused(3, 0, |call| call.t = f64::NAN);
    assert_refused(3, 0, |call| call.t = -f64::NAN);
    assert_refused(15, 0, |call| call.list[0] = 0);
    assert_refused(15, 1, |call| call.list[1] = 2);
    assert_refused(15, 1, |call| call.list[1] = call.list[0]);
    assert_refused(15, 1, |call| call.list.reverse());
    assert_refused(15, 2, |call| call.list.push(1));
    assert_refused(4, 0, |call| call.left.zuniqs.truncate(1));
    assert_refused(4, 0, |call| call.left.counts.truncate(1));
    assert_refused(4, 0, |call| call.right.zuniqs.clear());
    assert_refused(4, 0, |call| call.right.counts.clear());
}

#[test]
fn no_map_that_is_none_is_accepted() {
    let first = 1 << 56;
    for (place, entry) in [(0, 0), (0, 2), (1, 1 << 58), (1, first), (1, 2), (1, 1)] {
        assert_refused(5, place, |call| call.left.zuniqs[place] = entry);
    }
    for (place, entry) in [
        (0, 0),
        (1, 1 << 58),
        (1, 3 * first),
        (1, first),
        (2, 2),
        (2, 1),
    ] {
        assert_refused(5, place, |call| call.right.zuniqs[place] = entry);
    }
    // Of depth 1 in a map of depth 0.
    assert_refused(5, 0, |call| call.right.depth = 0);
}

#[test]
fn no_counts_that_overflow_together_are_accepted() {
    let most = u32::MAX - (10 + 1 + 3 + 4);
    let largest = changed(|call| call.right.counts[2] = most);
    assert_asked(&largest, 6, 6, u32::MAX);
    assert_refused(10, 0, |call| call.right.counts[2] = most + 1);
    assert_refused(10, 0, |call| call.left.counts = vec![u32::MAX; 2]);
    assert_refused(10, 0, |call| call.right.counts = vec![u32::MAX; 3]);
}

/// Each refusal before the next one of the table, and in each row the left map before the right one. 16
/// and 11 stand behind them all: `assert_refused` tries other figures and too few places.
#[test]
fn no_refusal_is_given_out_of_order() {
    assert_refused(1, 0, |call| {
        call.right.depth = 30;
        call.m = 30;
    });
    assert_refused(2, 0, |call| {
        call.m = 30;
        call.t = f64::NAN;
    });
    assert_refused(3, 0, |call| {
        call.t = f64::NAN;
        call.list[0] = 0;
    });
    assert_refused(15, 0, |call| {
        call.list[0] = 0;
        call.left.zuniqs.clear();
    });
    assert_refused(4, 0, |call| {
        call.right.zuniqs.pop();
        call.left.zuniqs[1] = 0;
    });
    assert_refused(5, 1, |call| {
        call.left.zuniqs[1] = 0;
        call.right.zuniqs[0] = 0;
    });
    assert_refused(5, 2, |call| {
        call.right.zuniqs[2] = 0;
        call.left.counts[0] = u32::MAX;
    });
}

/// "16, the figures are not those an ask would answer, tried after 10", and before 11.
#[test]
fn no_figures_are_looked_at_before_10_and_no_places_before_the_figures() {
    let over = changed(|call| call.left.counts[0] = u32::MAX);
    let good = changed(|_| {});
    for places in [9, 0] {
        over.assert_refused(OTHERS, [places; 2], 10, 0);
        good.assert_refused(OTHERS, [places; 2], 16, 0);
    }
    for places in 0..6 {
        good.assert_refused(GOOD, [places; 2], 11, 0);
        // Figures of just so many cells as there are places, and of fewer.
        for cells in 0..=places {
            let fewer = Figures { cells, ..GOOD };
            good.assert_refused(fewer, [places; 2], 16, 0);
        }
    }
}

/// An output of two lengths is refused by 4 as in the single call: before 5, 10, 16 and 11, and after 15.
/// Asking has none.
#[test]
fn no_output_of_two_lengths_is_taken_and_none_is_looked_at_too_early() {
    for places in [[6, 7], [7, 6], [0, 6], [6, 0], [0, 1]] {
        for figures in [GOOD, OTHERS] {
            for change in [
                |_: &mut Call| {},
                |call: &mut Call| call.left.zuniqs[0] = 0,
                |call: &mut Call| call.right.counts[0] = u32::MAX,
            ] {
                let call = changed(change);
                call.assert_refused(figures, places, 4, 0);
                assert_eq!(call.pooled(places).0, refusal(4, 0));
            }
            let call = changed(|call| call.list[0] = 0);
            call.assert_refused(figures, places, 15, 0);
        }
    }
    assert_eq!(
        changed(|call| call.left.zuniqs[0] = 0).asked(),
        refusal(5, 0)
    );
    assert_eq!(
        changed(|call| call.left.counts[0] = u32::MAX).asked(),
        refusal(10, 0)
    );
    assert_eq!(changed(|_| {}).asked(), Ok(GOOD));
}

#[test]
fn refused_figures_say_their_number_and_why() {
    let refusal = changed(|_| {}).committed(OTHERS, [6; 2]).0.unwrap_err();
    assert_eq!(refusal, Refusal::FiguresDiffer);
    assert_eq!((refusal.number(), refusal.place()), (16, 0));
    let words =
        "refused by 16 at place 0: the figures are not those that asking for the pool answers";
    assert_eq!(refusal.to_string(), words);
}
