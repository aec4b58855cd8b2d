//! Protected parents, notes 7 and 11 of the change requests: every call that merges keeps their children,
//! blank or not, and a list that is none is refused by 15 with its index.

use std::fmt::Debug;

use mom::{
    add_counts, add_densities, ask, chi2_count_merger, chi2_density_merger, commit, from_zuniq,
    narrow, pool, product, to_zuniq, Added, CountMerge, DensityMerge, Figures, Map, Refusal,
};

type Cell = (u8, u64);
type Entry = (u8, u64, u32);

const INFINITY: f64 = f64::INFINITY;

fn n(depth: u8) -> u64 {
    12 << (2 * depth)
}

fn zuniq((depth, hash): Cell) -> u64 {
    to_zuniq(depth, hash).unwrap()
}

/// The list of these parents.
fn list(parents: &[Cell]) -> Vec<u64> {
    let mut list: Vec<u64> = parents.iter().map(|&parent| zuniq(parent)).collect();
    list.sort();
    list.dedup();
    list
}

/// The same of narrow zuniqs, with those parents that have one.
fn narrow_list(parents: &[Cell]) -> Vec<u32> {
    let is_narrow = |zuniq: &u64| zuniq % (1 << 32) == 0;
    let list = list(parents).into_iter().filter(is_narrow);
    list.map(|zuniq| (zuniq >> 32) as u32).collect()
}

fn cells_of(zuniqs: &[u64]) -> Vec<Cell> {
    let cells = zuniqs.iter().map(|&zuniq| from_zuniq(zuniq));
    cells.map(Option::unwrap).collect()
}

fn map<'a, V>(depth: u8, zuniqs: &'a [u64], values: &'a [V]) -> Map<'a, V> {
    Map {
        depth,
        zuniqs,
        values,
    }
}

// ---- What is kept

/// A parent and its four children, which no call would keep without a list: T is infinite and M is 0.
struct Quad {
    parent: Cell,
    hashes: [u64; 4],
    zuniqs: [u64; 4],
}

impl Quad {
    fn of((depth, hash): Cell) -> Quad {
        let hashes = [0, 1, 2, 3].map(|child| 4 * hash + child);
        Quad {
            parent: (depth, hash),
            hashes,
            zuniqs: hashes.map(|hash| zuniq((depth + 1, hash))),
        }
    }

    /// Whether these entries are the children, which have to be as they were; if not, they have to be the
    /// parent.
    fn is_kept<V: Copy + Debug + Default + PartialEq>(
        &self,
        (zuniqs, values): ([u64; 4], [V; 4]),
        kept: [V; 4],
        merged: V,
    ) -> bool {
        if zuniqs == self.zuniqs {
            assert_eq!(values, kept);
            return true;
        }
        assert_eq!(zuniqs, [zuniq(self.parent), 0, 0, 0]);
        let none = V::default();
        assert_eq!(values, [merged, none, none, none]);
        false
    }

    fn merger_keeps_counts(&self, list: &[u64]) -> bool {
        let (depth, hash) = self.parent;
        match chi2_count_merger(depth, hash, 0, INFINITY, list, [1, 2, 4, 4]).unwrap() {
            CountMerge::Kept(chi) => {
                assert_eq!(chi, 3.0);
                true
            }
            CountMerge::Merged(count) => {
                assert_eq!(count, 11);
                false
            }
        }
    }

    fn merger_keeps_densities(&self, list: &[u64]) -> bool {
        let (depth, hash) = self.parent;
        let four = [1.0, 2.0, 4.0, 5.0];
        match chi2_density_merger(depth, hash, 0, INFINITY, list, four).unwrap() {
            DensityMerge::Kept(_) => true,
            DensityMerge::Merged(density) => {
                assert_eq!(density, 3.0);
                false
            }
        }
    }

    fn counts_are_kept(&self, list: &[u64]) -> bool {
        let (depth, hashes) = (self.parent.0 + 1, &self.hashes);
        let (mut z, mut c) = ([5; 4], [5; 4]);
        let batch = [1, 2, 4, 4];
        let added = add_counts(depth, 0, INFINITY, list, 0, &mut z, &mut c, hashes, &batch);
        assert_eq!(added.map(|added| added.total), Ok(11));
        self.is_kept((z, c), batch, 11)
    }

    fn densities_are_kept(&self, list: &[u64]) -> bool {
        let (depth, hashes) = (self.parent.0 + 1, &self.hashes);
        let (mut z, mut x) = ([5; 4], [5.5; 4]);
        let batch = [1.0, 2.0, 4.0, 5.0];
        add_densities(depth, 0, INFINITY, list, 0, &mut z, &mut x, hashes, &batch).unwrap();
        self.is_kept((z, x), batch, 3.0)
    }

    /// The parent, which is split, with child 1.
    fn pool_is_kept(&self, list: &[u64]) -> bool {
        let (depth, _) = self.parent;
        let (mut z, mut c) = ([5; 4], [5; 4]);
        let parent = [zuniq(self.parent)];
        let left = map(depth, &parent, &[8]);
        let right = map(depth + 1, &self.zuniqs[1..2], &[3]);
        let pooled = pool(left, right, 0, INFINITY, list, &mut z, &mut c);
        assert_eq!(pooled.map(|pooled| pooled.total), Ok(11));
        self.is_kept((z, c), [2, 5, 2, 2], 11)
    }

    /// The same, asked for and then committed.
    fn asked_pool_is_kept(&self, list: &[u64]) -> bool {
        let (depth, _) = self.parent;
        let (mut z, mut c) = ([5; 4], [5; 4]);
        let parent = [zuniq(self.parent)];
        let left = map(depth, &parent, &[8]);
        let right = map(depth + 1, &self.zuniqs[1..2], &[3]);
        let asked = ask(left, right, 0, INFINITY, list).unwrap();
        assert_eq!((asked.cells, asked.total), (4, 11));
        commit(left, right, 0, INFINITY, list, asked, &mut z, &mut c).unwrap();
        let is_kept = self.is_kept((z, c), [2, 5, 2, 2], 11);
        assert_eq!(asked.entries, if is_kept { 4 } else { 1 });
        is_kept
    }

    fn product_is_kept(&self, list: &[u64]) -> bool {
        let (depth, _) = self.parent;
        let (mut z, mut x) = ([5; 4], [5.5; 4]);
        let parent = [zuniq(self.parent)];
        let left = map(depth, &parent, &[0.5]);
        let right = map(depth + 1, &self.zuniqs, &[2.0, 4.0, 8.0, 10.0]);
        product(left, right, 0, INFINITY, 1.0, list, &mut z, &mut x).unwrap();
        self.is_kept((z, x), [1.0, 2.0, 4.0, 5.0], 3.0)
    }

    fn narrow_counts_are_kept(&self, list: &[u32]) -> bool {
        let (depth, hashes) = (self.parent.0 + 1, self.hashes.map(|hash| hash as u32));
        let (mut z, mut c) = ([5; 4], [5; 4]);
        let batch = [1, 2, 4, 4];
        let (places, counts) = (&mut z, &mut c);
        let added =
            narrow::add_counts(depth, 0, INFINITY, list, 0, places, counts, &hashes, &batch);
        assert_eq!(added.map(|added| added.total), Ok(11));
        let zuniqs = z.map(|zuniq| (zuniq as u64) << 32);
        self.is_kept((zuniqs, c), batch, 11)
    }
}

/// Every call on the children of a parent, under these protected ones: all of them keep the four, or all
/// merge them.
fn assert_quad(parent: Cell, protected: &[Cell], is_kept: bool) {
    let (quad, list) = (Quad::of(parent), &list(protected));
    let shown = || format!("{parent:?} {protected:?}");
    assert_eq!(quad.merger_keeps_counts(list), is_kept, "{}", shown());
    assert_eq!(quad.merger_keeps_densities(list), is_kept, "{}", shown());
    assert_eq!(quad.counts_are_kept(list), is_kept, "{}", shown());
    assert_eq!(quad.densities_are_kept(list), is_kept, "{}", shown());
    assert_eq!(quad.pool_is_kept(list), is_kept, "{}", shown());
    assert_eq!(quad.asked_pool_is_kept(list), is_kept, "{}", shown());
    assert_eq!(quad.product_is_kept(list), is_kept, "{}", shown());
    if parent.0 < narrow::MAX_DEPTH {
        let list = &narrow_list(protected);
        assert_eq!(quad.narrow_counts_are_kept(list), is_kept, "{}", shown());
    }
}

/// The first, the middle and the last cells that are parents, of every depth.
fn parents() -> impl Iterator<Item = Cell> {
    (0..=28).flat_map(|depth| [0, n(depth) / 2, n(depth) - 1].map(|hash| (depth, hash)))
}

#[test]
fn no_call_lets_a_protected_parent_swallow_its_children() {
    for parent in parents() {
        assert_quad(parent, &[], false);
        assert_quad(parent, &[parent], true);
    }
}

/// Every list out of eight parents, of which some lie inside others and three have hash 0: what is first
/// in it, last or in the middle is found, and nothing else.
#[test]
fn no_place_of_a_list_is_overlooked_and_no_other_parent_is_protected() {
    let eight = [
        (2, 0),
        (1, 0),
        (2, 1),
        (0, 0),
        (1, 3),
        (2, 15),
        (0, 11),
        (1, 47),
    ];
    for chosen in 0..1 << 8 {
        let is_chosen = |place: usize| chosen >> place & 1 == 1;
        let places = (0..8).filter(|&place| is_chosen(place));
        let protected: Vec<Cell> = places.map(|place| eight[place]).collect();
        for (place, &parent) in eight.iter().enumerate() {
            assert_quad(parent, &protected, is_chosen(place));
        }
    }
}

/// All cells of the first depths, so that each parent lies in one or has others in it.
#[test]
fn no_list_is_too_long_to_be_searched() {
    let all: Vec<Cell> = (0..=2)
        .flat_map(|depth| (0..n(depth)).map(move |hash| (depth, hash)))
        .collect();
    for (place, &parent) in all.iter().enumerate() {
        assert_quad(parent, &all, true);
        let others = [&all[..place], &all[place + 1..]].concat();
        assert_quad(parent, &others, false);
    }
}

/// What lies in the parent, over it and beside it, and the cells of other depths that have its hash.
fn others((depth, hash): Cell) -> Vec<Cell> {
    let mut others: Vec<Cell> = (0..4).map(|child| (depth + 1, 4 * hash + child)).collect();
    others.extend((0..depth).map(|over| (over, hash >> (2 * (depth - over)))));
    others.extend((0..=29).map(|other| (other, hash)));
    others.extend([hash.wrapping_sub(1), hash + 1].map(|beside| (depth, beside)));
    others.retain(|&(d, h)| h < n(d) && (d, h) != (depth, hash));
    others
}

#[test]
fn no_cell_but_the_parent_itself_protects_its_children() {
    for parent in parents() {
        let mut others = others(parent);
        for &other in &others {
            assert_quad(parent, &[other], false);
        }
        assert_quad(parent, &others, false);
        others.push(parent);
        assert_quad(parent, &others, true);
    }
}

/// Kept by the list, they have the chi that they have where M keeps them.
#[test]
fn no_chi_is_lost_or_another_under_a_protected_parent() {
    let values = [0, 1, 2, 3, 5, 65_535, (1 << 30) - 1];
    let counts = |i: usize| [i / 343, i / 49, i / 7, i].map(|i| values[i % 7]);
    let infinite = [f64::MAX, f64::MAX, 0.0, 0.0];
    for parent @ (depth, hash) in [(0, 0), (0, 11), (3, 100), (28, n(28) - 1)] {
        let list = &list(&[parent]);
        for counts in (0..values.len().pow(4)).map(counts) {
            let of = |m, t, list| chi2_count_merger(depth, hash, m, t, list, counts).unwrap();
            let CountMerge::Kept(chi) = of(29, INFINITY, &[]) else {
                panic!("{counts:?} are merged below M");
            };
            for t in [INFINITY, chi, -1.0] {
                assert_eq!(of(0, t, list), CountMerge::Kept(chi), "{counts:?} {t}");
            }
        }
        for four in [
            [0.0; 4],
            [-0.0; 4],
            [1.0, 2.0, 4.0, 5.0],
            [1e9; 4],
            infinite,
        ] {
            let of = |m, list| chi2_density_merger(depth, hash, m, INFINITY, list, four).unwrap();
            assert_eq!(of(0, list), of(29, &[]), "{four:?}");
            assert!(matches!(of(0, list), DensityMerge::Kept(_)), "{four:?}");
        }
        let of_nan = chi2_density_merger(depth, hash, 0, INFINITY, list, [f64::MAX; 4]);
        assert!(matches!(of_nan, Ok(DensityMerge::Kept(chi)) if chi.is_nan()));
    }
}

// ---- Maps

/// The map of the cells under the list, cut at `cut` into two calls.
fn built(
    (depth, m, t): (u8, u8, f64),
    list: &[u64],
    cells: &[(u64, u32)],
    cut: usize,
) -> Vec<Entry> {
    let (hashes, batch): (Vec<u64>, Vec<u32>) = cells.iter().copied().unzip();
    let (mut zuniqs, mut counts) = (vec![5; cells.len()], vec![5; cells.len()]);
    let (z, c) = (&mut zuniqs, &mut counts);
    let first = add_counts(depth, m, t, list, 0, z, c, &hashes[..cut], &batch[..cut]).unwrap();
    let held = first.entries;
    let (hashes, batch) = (&hashes[cut..], &batch[cut..]);
    let Added { entries, total } =
        add_counts(depth, m, t, list, held, z, c, hashes, batch).unwrap();
    assert_eq!(total, cells.iter().map(|cell| cell.1).sum::<u32>());
    assert!(zuniqs[entries..].iter().all(|&z| z == 0));
    assert!(counts[entries..].iter().all(|&n| n == 0));
    let cells = cells_of(&zuniqs[..entries]).into_iter().zip(counts);
    cells.map(|((d, h), count)| (d, h, count)).collect()
}

/// The same of narrow zuniqs.
fn narrow_built(
    (depth, m, t): (u8, u8, f64),
    list: &[u32],
    cells: &[(u64, u32)],
    cut: usize,
) -> Vec<Entry> {
    let cells = cells.iter().map(|&(hash, count)| (hash as u32, count));
    let (hashes, batch): (Vec<u32>, Vec<u32>) = cells.unzip();
    let (mut zuniqs, mut counts) = (vec![5; hashes.len()], vec![5; hashes.len()]);
    let (z, c) = (&mut zuniqs, &mut counts);
    let add = narrow::add_counts;
    let first = add(depth, m, t, list, 0, z, c, &hashes[..cut], &batch[..cut]).unwrap();
    let held = first.entries;
    let (hashes, batch) = (&hashes[cut..], &batch[cut..]);
    let Added { entries, .. } = add(depth, m, t, list, held, z, c, hashes, batch).unwrap();
    assert!(zuniqs[entries..].iter().all(|&z| z == 0));
    let zuniqs: Vec<u64> = zuniqs.iter().map(|&zuniq| (zuniq as u64) << 32).collect();
    let cells = cells_of(&zuniqs[..entries]).into_iter().zip(counts);
    cells.map(|((d, h), count)| (d, h, count)).collect()
}

/// At every cut, the calls having the same list.
fn assert_built(
    setting: (u8, u8, f64),
    protected: &[Cell],
    cells: &[(u64, u32)],
    entries: &[Entry],
) {
    let (list, narrow_list) = (&list(protected), &narrow_list(protected));
    for cut in 0..=cells.len() {
        let built = built(setting, list, cells, cut);
        assert_eq!(built, entries, "{protected:?} {cells:?} {cut}");
        let built = narrow_built(setting, narrow_list, cells, cut);
        assert_eq!(built, entries, "{protected:?} {cells:?} {cut}");
    }
}

fn sixteen(count: u32) -> Vec<(u64, u32)> {
    (0..16).map(|hash| (hash, count)).collect()
}

/// (0, 0) and its children.
const FIVE: [Cell; 5] = [(0, 0), (1, 0), (1, 1), (1, 2), (1, 3)];

/// What is merged beside a protected parent, below it and up to it stays as it is without a list.
#[test]
fn no_merge_but_that_into_a_protected_parent_is_left_undone() {
    let setting = (2, 0, INFINITY);
    let ones = sixteen(1);
    let four = [(1, 0, 4), (1, 1, 4), (1, 2, 4), (1, 3, 4)];
    assert_built(setting, &[(0, 0)], &ones, &four);
    let third = [(2, 8, 1), (2, 9, 1), (2, 10, 1), (2, 11, 1)];
    let apart = [&four[..2], &third, &four[3..]].concat();
    assert_built(setting, &[(1, 2)], &ones, &apart);
    assert_built(setting, &[(0, 0), (1, 2)], &ones, &apart);
    let all: Vec<Entry> = (0..16).map(|hash| (2, hash, 1)).collect();
    assert_built(setting, &FIVE, &ones, &all);
    assert_built(setting, &FIVE[1..], &ones, &all);
}

/// The stored maps of the scope's cases, with no list and with one that protects nothing of them.
#[test]
fn no_empty_list_and_no_list_of_other_parents_changes_a_map() {
    let mixed = [(0, 1), (1, 2), (2, 4), (3, 4), (5, 0)];
    let straddling = [(1, 1), (2, 1), (3, 1), (4, 1)];
    let kept = [(1, 1, 1), (1, 2, 1), (1, 3, 1), (1, 4, 1)];
    let four = [(1, 0, 4), (1, 1, 4), (1, 2, 4), (1, 3, 4)];
    let beside = [(0, 1), (0, 11), (1, 4), (2, 0), (2, 3), (2, 15), (13, 0)];
    for protected in [&[][..], &beside] {
        assert_built((2, 0, 3.5), protected, &sixteen(1), &[(0, 0, 16)]);
        assert_built((2, 1, 3.5), protected, &sixteen(1), &four);
        assert_built((1, 0, 3.5), protected, &straddling, &kept);
        let of_mixed = [(1, 0, 11), (2, 5, 0)];
        assert_built((2, 1, 3.5), protected, &mixed, &of_mixed);
        assert_built((1, 0, 3.5), protected, &[], &[]);
    }
    // Below M and at a T that keeps them, protected parents change nothing either.
    assert_built((2, 1, 3.5), &[(0, 0)], &sixteen(1), &four);
    let all: Vec<Entry> = (0..16).map(|hash| (2, hash, 1)).collect();
    for protected in [&[][..], &FIVE] {
        assert_built((2, 0, 0.0), protected, &sixteen(1), &all);
    }
}

/// Base cells have no parent, and a list of them keeps nothing apart that wouldn't be.
#[test]
fn no_base_cell_is_changed_by_a_list() {
    let cells: Vec<(u64, u32)> = (0..12).map(|hash| (hash, 1)).collect();
    let kept: Vec<Entry> = (0..12).map(|hash| (0, hash, 1)).collect();
    let all: Vec<Cell> = (0..12).map(|hash| (0, hash)).collect();
    assert_built((0, 0, INFINITY), &all, &cells, &kept);
}

/// "The defined map": the value of a cell, if it is whole. Cells of depth 2 are listed, as quads.
fn value(
    (d, h): Cell,
    quads: &[[Option<u32>; 4]; 4],
    merges: &dyn Fn(Cell, &[u32]) -> bool,
) -> Option<u32> {
    if d == 2 {
        return quads[h as usize / 4][h as usize % 4];
    }
    let children = (4 * h..4 * h + 4).map(|child| value((d + 1, child), quads, merges));
    let values: Vec<u32> = children.collect::<Option<_>>()?;
    merges((d, h), &values).then(|| values.iter().sum())
}

/// "All whole cells whose parent isn't whole, rising by zuniq."
fn defined_map(quads: &[[Option<u32>; 4]; 4], merges: &dyn Fn(Cell, &[u32]) -> bool) -> Vec<Entry> {
    let cells = (0..=2).flat_map(|d| (0..4u64.pow(d as u32)).map(move |h| (d, h)));
    let entry = |(d, h): Cell| {
        let in_another = d > 0 && value((d - 1, h / 4), quads, merges).is_some();
        let value = value((d, h), quads, merges).filter(|_| !in_another)?;
        Some((d, h, value))
    };
    let mut entries: Vec<Entry> = cells.filter_map(entry).collect();
    entries.sort_by_key(|&(d, h, _)| zuniq((d, h)));
    entries
}

/// Every list out of (0, 0) and its children.
fn lists_of_five() -> impl Iterator<Item = Vec<Cell>> {
    (0..1 << FIVE.len()).map(|chosen| {
        let places = (0..FIVE.len()).filter(|place| chosen >> place & 1 == 1);
        places.map(|place| FIVE[place]).collect()
    })
}

/// Four quads of ones, of blanks or with a cell left out, under a list, M and T.
#[derive(Debug)]
struct Sky {
    quads: [[Option<u32>; 4]; 4],
    protected: Vec<Cell>,
    m: u8,
    t: f64,
}

/// All of them, under every list out of five.
fn skies() -> impl Iterator<Item = Sky> {
    let kinds = [
        [Some(1); 4],
        [Some(0); 4],
        [Some(1), Some(1), None, Some(1)],
    ];
    let settings = [(0, INFINITY), (1, INFINITY), (2, INFINITY), (0, 0.0)];
    lists_of_five().flat_map(move |protected| {
        (0..81 * settings.len()).map(move |way| {
            let (m, t) = settings[way / 81];
            Sky {
                quads: [way / 27, way / 9, way / 3, way].map(|kind| kinds[kind % 3]),
                protected: protected.clone(),
                m,
                t,
            }
        })
    })
}

impl Sky {
    /// From M on no chi is below a T of 0, and each is below infinity.
    fn merges_unlisted(&self, (depth, _): Cell, counts: &[u32]) -> bool {
        depth >= self.m && (counts == [0; 4] || self.t > 0.0)
    }

    /// "Protection now comes first."
    fn map(&self) -> Vec<Entry> {
        defined_map(&self.quads, &|parent, counts| {
            !self.protected.contains(&parent) && self.merges_unlisted(parent, counts)
        })
    }

    /// By the rule that was before note 11: "though blank quads of Note 4 merge first."
    fn merged_before(&self, parent: Cell, counts: &[u32]) -> bool {
        let is_kept = self.protected.contains(&parent) && counts != [0; 4];
        !is_kept && self.merges_unlisted(parent, counts)
    }

    fn map_before(&self) -> Vec<Entry> {
        defined_map(&self.quads, &|parent, counts| {
            self.merged_before(parent, counts)
        })
    }

    /// Whether a parent is listed, from M on, of which that rule has four blank children.
    fn protects_blanks(&self) -> bool {
        self.protected.iter().any(|&(d, h)| {
            let merges = |parent: Cell, counts: &[u32]| self.merged_before(parent, counts);
            let of_child = |child| value((d + 1, child), &self.quads, &merges);
            d >= self.m && (4 * h..4 * h + 4).all(|child| of_child(child) == Some(0))
        })
    }

    /// What is built, at several cuts and both widths.
    fn built(&self) -> Vec<Entry> {
        let counts = self.quads.concat().into_iter().enumerate();
        let cells = counts.filter_map(|(hash, count)| Some((hash as u64, count?)));
        let cells: Vec<(u64, u32)> = cells.collect();
        let (setting, list) = ((2, self.m, self.t), &list(&self.protected));
        let whole = built(setting, list, &cells, 0);
        for cut in [3, cells.len() / 2, cells.len()] {
            assert_eq!(built(setting, list, &cells, cut), whole, "{cells:?} {cut}");
        }
        let list = &narrow_list(&self.protected);
        assert_eq!(narrow_built(setting, list, &cells, 3), whole, "{cells:?}");
        whole
    }
}

#[test]
fn no_list_builds_another_map_than_the_defined_one() {
    for sky in skies() {
        assert_eq!(sky.built(), sky.map(), "{sky:?}");
    }
}

/// "Every list that protects no blank quad's parent gives its former map." Every other one gives another.
#[test]
fn no_map_is_another_than_before_but_where_blank_sky_is_protected() {
    let mut met = [0; 2];
    for sky in skies() {
        let is_other = sky.built() != sky.map_before();
        assert_eq!(is_other, sky.protects_blanks(), "{sky:?}");
        met[is_other as usize] += 1;
    }
    assert!(met.iter().all(|&times| times > 1_000), "{met:?}");
}

/// Neither a protected parent nor what it lies in is there unless it was given.
#[test]
fn no_entry_lies_over_the_children_of_a_protected_parent() {
    for sky in skies() {
        for (depth, hash, _) in sky.built() {
            let over = |&(d, h): &Cell| d >= depth && h >> (2 * (d - depth)) == hash;
            assert!(!sky.protected.iter().any(over), "{sky:?}");
        }
    }
}

// ---- Blank sky

/// Of either sign, at 0 and far from it.
const THRESHOLDS: [f64; 6] = [0.0, -1.0, f64::NEG_INFINITY, 5e-324, 3.5, INFINITY];

/// "Protection now comes first": at any T and M, with a chi of +0. Another parent has its blank sky merged,
/// from M on.
#[test]
fn no_threshold_merges_blank_sky_into_a_protected_parent_and_none_keeps_it_from_another() {
    for t in THRESHOLDS {
        for (p, h) in parents() {
            let (listed, beside) = (&list(&[(p, h), (29, 0)]), &list(&others((p, h))));
            for m in 0..=29 {
                let kept = chi2_count_merger(p, h, m, t, listed, [0; 4]);
                let is_0 = |chi: f64| chi.to_bits() == 0;
                assert!(
                    matches!(kept, Ok(CountMerge::Kept(chi)) if is_0(chi)),
                    "({p}, {h}) {m} {t}"
                );
                let merged = chi2_count_merger(p, h, m, t, beside, [0; 4]);
                let expected = match p >= m {
                    true => CountMerge::Merged(0),
                    false => CountMerge::Kept(0.0),
                };
                assert_eq!(merged, Ok(expected), "({p}, {h}) {m} {t}");
            }
        }
    }
}

/// Every list out of five: what it names is not merged, nor what lies over it, and all else is.
#[test]
fn no_list_keeps_or_merges_other_blank_sky_than_it_names() {
    let blanks = sixteen(0);
    for protected in lists_of_five() {
        for m in 0..=2 {
            let merges = |parent: Cell, _: &[u32]| parent.0 >= m && !protected.contains(&parent);
            let entries = defined_map(&[[Some(0); 4]; 4], &merges);
            for t in THRESHOLDS {
                assert_built((2, m, t), &protected, &blanks, &entries);
            }
        }
    }
    let third = [(2, 8, 0), (2, 9, 0), (2, 10, 0), (2, 11, 0)];
    let apart = [&[(1, 0, 0), (1, 1, 0)], &third[..], &[(1, 3, 0)]].concat();
    assert_built((2, 0, 0.0), &[(1, 2)], &blanks, &apart);
}

/// One source among sixteen: the blank sky beside it is merged but into a protected parent.
#[test]
fn no_blank_sky_beside_a_source_is_merged_or_kept_against_a_list() {
    let mut cells = sixteen(0);
    cells[5].1 = 1;
    let quad = [(2, 4, 0), (2, 5, 1), (2, 6, 0), (2, 7, 0)];
    let apart = [&[(1, 0, 0)], &quad[..], &[(1, 2, 0), (1, 3, 0)]].concat();
    let all: Vec<Entry> = cells
        .iter()
        .map(|&(hash, count)| (2, hash, count))
        .collect();
    let last = [&apart[..6], &all[12..]].concat();
    for t in [INFINITY, 1.5, 1.0, 0.0] {
        assert_built((2, 0, t), &FIVE, &cells, &all);
        assert_built((2, 0, t), &[(1, 1)], &cells, &apart);
        assert_built((2, 0, t), &[(1, 1), (1, 3)], &cells, &last);
    }
    let four = [(1, 0, 0), (1, 1, 1), (1, 2, 0), (1, 3, 0)];
    assert_built((2, 0, INFINITY), &[(0, 0)], &cells, &four);
}

/// A blank entry that is split, and blank quads of one map or both: under a list with their parent, and
/// under one with what lies in it.
#[test]
fn no_pool_merges_blank_sky_into_a_protected_parent_and_none_keeps_it_from_another() {
    let base = [zuniq((0, 0))];
    let quad = [0, 1, 2, 3].map(|hash| zuniq((1, hash)));
    let (listed, beside) = (&list(&FIVE)[..], &list(&FIVE[1..])[..]);
    for (left, right) in [(&base[..], &quad[1..2]), (&quad[..2], &quad[2..])] {
        let l = map(1, left, &[0; 2][..left.len()]);
        let r = map(1, right, &[0; 2][..right.len()]);
        for t in THRESHOLDS {
            for (list, m, entries) in [
                (listed, 0, &quad[..]),
                (listed, 1, &quad),
                (beside, 0, &base),
                (beside, 1, &quad),
            ] {
                let (mut z, mut c) = ([5; 4], [5; 4]);
                let pooled = pool(l, r, m, t, list, &mut z, &mut c);
                let added = Added {
                    entries: entries.len(),
                    total: 0,
                };
                assert_eq!(pooled, Ok(added), "{left:?} {right:?} {m} {t}");
                assert_eq!((&z[..entries.len()], c), (entries, [0; 4]));
            }
        }
    }
}

/// The figures of blank sky under a list, which has more entries than before: the former ones are refused.
#[test]
fn no_commit_takes_the_former_figures_of_protected_blank_sky() {
    let (base, one) = ([zuniq((0, 0))], [zuniq((2, 5))]);
    let (l, r) = (map(0, &base, &[0]), map(2, &one, &[0]));
    for (protected, entries) in [(&[][..], 1), (&[(0, 0)], 4), (&[(1, 1)], 7), (&[(1, 2)], 1)] {
        let list = &list(protected);
        for t in THRESHOLDS {
            let asked = ask(l, r, 0, t, list).unwrap();
            assert_eq!((asked.cells, asked.entries, asked.total), (7, entries, 0));
            let (mut z, mut c) = ([5; 7], [5; 7]);
            let former = Figures {
                entries: 1,
                ..asked
            };
            let committed = commit(l, r, 0, t, list, former, &mut z, &mut c);
            if entries > 1 {
                assert_eq!(committed, refusal(16, 0), "{protected:?} {t}");
                assert_eq!((z, c), ([5; 7], [5; 7]));
            } else {
                assert_eq!(committed, Ok(Added { entries, total: 0 }));
            }
        }
    }
}

/// Adding to a map of one width.
type Add<Z> =
    fn(u8, u8, f64, &[Z], usize, &mut [Z], &mut [u32], &[Z], &[u32]) -> Result<Added, Refusal>;

/// Four blanks and then two cells of 1, into five places.
fn add_twice<Z: Copy + Debug + From<u8> + PartialEq>(
    add: Add<Z>,
    list: &[Z],
) -> [Result<Added, Refusal>; 2] {
    let hashes = [0, 1, 2, 3, 4, 5].map(Z::from);
    let (mut z, mut c) = ([hashes[5]; 5], [5; 5]);
    let first = add(1, 0, 0.0, list, 0, &mut z, &mut c, &hashes[..4], &[0; 4]);
    let (before, held) = ((z, c), first.unwrap().entries);
    let second = add(1, 0, 0.0, list, held, &mut z, &mut c, &hashes[4..], &[1; 2]);
    assert!(second.is_ok() || (z, c) == before);
    [first, second]
}

/// "Calls handed the longer map judge by it": the four leave the two cells space where they are merged.
#[test]
fn no_space_is_counted_on_that_protected_blank_sky_takes_up() {
    let added = |entries, total| Ok(Added { entries, total });
    for (protected, answers) in [
        (&[][..], [added(1, 0), added(3, 2)]),
        (&[(0, 1), (1, 0)], [added(1, 0), added(3, 2)]),
        (&[(0, 0)], [added(4, 0), refusal(11, 0)]),
    ] {
        assert_eq!(add_twice(add_counts, &list(protected)), answers);
        assert_eq!(
            add_twice(narrow::add_counts, &narrow_list(protected)),
            answers
        );
    }
}

/// There is no blank sky among densities: four of 0 are kept like others.
#[test]
fn no_densities_of_0_are_merged_under_a_protected_parent() {
    let quad = [0, 1, 2, 3].map(|hash| zuniq((1, hash)));
    let (base, list) = ([zuniq((0, 0))], &list(&[(0, 0)]));
    for zero in [0.0, -0.0] {
        let zeros = [zero; 4];
        let kept = chi2_density_merger(0, 0, 0, INFINITY, list, zeros);
        assert!(matches!(kept, Ok(DensityMerge::Kept(chi)) if chi < -3.9));
        let (mut z, mut x) = ([5; 4], [5.5; 4]);
        let hashes = [0, 1, 2, 3];
        let added = add_densities(1, 0, INFINITY, list, 0, &mut z, &mut x, &hashes, &zeros);
        assert_eq!((added, z), (Ok(4), quad));
        let (l, r) = (map(0, &base, &[1.0]), map(1, &quad, &zeros));
        let (mut z, mut x) = ([5; 4], [5.5; 4]);
        let multiplied = product(l, r, 0, INFINITY, 1.0, list, &mut z, &mut x);
        assert_eq!((multiplied, z), (Ok(4), quad));
    }
}

// ---- Pools in both orders

/// Every list out of (0, 0) and its children.
#[test]
fn no_list_tells_a_pool_from_the_swapped_one() {
    let [base, one] = [[zuniq((0, 0))], [zuniq((1, 1))]];
    let deep = [zuniq((2, 5)), zuniq((29, 9 << 54))];
    let quad = [0, 1, 2, 3].map(|hash| zuniq((2, hash)));
    let maps = [
        map(0, &base, &[10]),
        map(1, &one, &[3]),
        map(29, &deep, &[4, 1]),
        map(2, &quad, &[0; 4]),
        map(0, &[], &[]),
    ];
    for protected in lists_of_five() {
        let list = &list(&protected);
        for l in maps {
            for r in maps {
                for t in [0.0, 3.5, INFINITY] {
                    let pooled = |l, r| {
                        let (mut z, mut c) = ([5; 99], [5; 99]);
                        let answer = pool(l, r, 0, t, list, &mut z, &mut c);
                        (answer, z, c)
                    };
                    assert_eq!(pooled(l, r), pooled(r, l), "{l:?} {r:?} {t}");
                }
            }
        }
    }
}

/// (0, 0) is split down to depth 29, and merged again up to the protected parent's children.
#[test]
fn no_pool_merges_into_a_protected_parent_on_the_way_up() {
    let (base, last) = ([zuniq((0, 0))], [zuniq((29, 0))]);
    for depth in 0..=28 {
        let list = &list(&[(depth, 0)]);
        for (counts, t) in [([1, 7], INFINITY), ([0; 2], INFINITY), ([0; 2], 0.0)] {
            let (mut z, mut c) = ([5; 88], [5; 88]);
            let (l, r) = (map(0, &base, &counts[..1]), map(29, &last, &counts[1..]));
            let pooled = pool(l, r, 0, t, list, &mut z, &mut c);
            let (entries, total) = (3 * depth as usize + 4, counts.iter().sum());
            assert_eq!(pooled, Ok(Added { entries, total }), "{depth} {t}");
            let children = [0, 1, 2, 3].map(|hash| (depth + 1, hash));
            assert_eq!(cells_of(&z[..4]), children);
        }
    }
}

// ---- Refusals

/// What is wrong with a call besides its list, by numbers of the table.
struct Faults<'a>(&'a [u8]);

impl Faults<'_> {
    fn has(&self, number: u8) -> bool {
        self.0.contains(&number)
    }

    fn depth(&self) -> u8 {
        if self.has(1) {
            return 30;
        }
        1
    }

    fn m(&self) -> u8 {
        if self.has(2) {
            return 30;
        }
        0
    }

    fn t(&self) -> f64 {
        if self.has(3) {
            return f64::NAN;
        }
        3.5
    }

    /// The lengths of two paired buffers.
    fn lengths(&self) -> [usize; 2] {
        [2, 2 - self.has(4) as usize]
    }

    /// (1, 0), or what is no zuniq.
    fn entry(&self) -> u64 {
        if self.has(5) {
            return 2;
        }
        zuniq((1, 0))
    }

    fn hash(&self) -> u64 {
        if self.has(7) {
            return 48;
        }
        1
    }
}

type Answer = Result<(), Refusal>;

/// What the mergers answer; by 10 or 9 they would refuse too.
fn mergers(faults: &Faults, list: &[u64]) -> [Answer; 2] {
    let (depth, hash, m, t) = (faults.depth(), faults.hash(), faults.m(), faults.t());
    let counts = chi2_count_merger(depth, hash, m, t, list, [u32::MAX; 4]);
    let densities = chi2_density_merger(depth, hash, m, t, list, [f64::NAN; 4]);
    [counts.map(|_| ()), densities.map(|_| ())]
}

/// What the add calls answer, with an entry held and a cell to be added; a refusal leaves the buffers.
fn add_calls(faults: &Faults, list: &[u64]) -> [Answer; 2] {
    let (depth, m, t) = (faults.depth(), faults.m(), faults.t());
    let ([places, values], hashes) = (faults.lengths(), [faults.hash()]);
    let zuniqs = [faults.entry(), 5];
    let (mut z, mut c) = (zuniqs, [7; 2]);
    let (places, counts) = (&mut z[..places], &mut c[..values]);
    let of_counts = add_counts(depth, m, t, list, 1, places, counts, &hashes, &[1]);
    assert!(of_counts.is_ok() || (z, c) == (zuniqs, [7; 2]));

    let (mut z, mut x) = (zuniqs, [7.5; 2]);
    let (places, densities) = (&mut z, &mut x[..values]);
    let of_densities = add_densities(depth, m, t, list, 1, places, densities, &hashes, &[1.0]);
    assert!(of_densities.is_ok() || (z, x) == (zuniqs, [7.5; 2]));
    [of_counts.map(|_| ()), of_densities.map(|_| ())]
}

/// What the narrow one answers.
fn narrow_add_call(faults: &Faults, list: &[u32]) -> Answer {
    let (depth, m, t) = (faults.depth(), faults.m(), faults.t());
    let ([places, values], hashes) = (faults.lengths(), [faults.hash() as u32]);
    let zuniqs = [(faults.entry() >> 32) as u32, 5];
    let (mut z, mut c) = (zuniqs, [7; 2]);
    let (places, counts) = (&mut z[..places], &mut c[..values]);
    let added = narrow::add_counts(depth, m, t, list, 1, places, counts, &hashes, &[1]);
    assert!(added.is_ok() || (z, c) == (zuniqs, [7; 2]));
    added.map(|_| ())
}

/// What the combining calls answer.
fn combining_calls(faults: &Faults, list: &[u64]) -> [Answer; 2] {
    let (depth, m, t) = (faults.depth(), faults.m(), faults.t());
    let ([places, values], zuniqs) = (faults.lengths(), [faults.entry()]);
    let (mut z, mut c) = ([5; 2], [7; 2]);
    let (l, r) = (map(1, &zuniqs, &[1]), map(depth, &zuniqs, &[1]));
    let pooled = pool(l, r, m, t, list, &mut z[..places], &mut c[..values]);
    assert!(pooled.is_ok() || (z, c) == ([5; 2], [7; 2]));

    let (mut z, mut x) = ([5; 2], [7.5; 2]);
    let (l, r) = (map(1, &zuniqs, &[1.0]), map(depth, &zuniqs, &[1.0]));
    let (places, densities) = (&mut z[..places], &mut x[..values]);
    let multiplied = product(l, r, m, t, 1.0, list, places, densities);
    assert!(multiplied.is_ok() || (z, x) == ([5; 2], [7.5; 2]));
    [pooled.map(|_| ()), multiplied.map(|_| ())]
}

fn refusal<T>(number: u8, place: usize) -> Result<T, Refusal> {
    Err(Refusal::of(number, place).unwrap())
}

/// Every call with this list is refused by 15, whatever is wrong behind it in the table.
fn assert_refused(list: &[u64], place: usize) {
    let refused = refusal(15, place);
    for faults in [&[][..], &[4], &[5], &[7], &[4, 5, 7]] {
        let faults = &Faults(faults);
        let shown = || format!("{list:?} {:?}", faults.0);
        assert_eq!(mergers(faults, list), [refused; 2], "{}", shown());
        assert_eq!(add_calls(faults, list), [refused; 2], "{}", shown());
        assert_eq!(combining_calls(faults, list), [refused; 2], "{}", shown());
    }
}

/// The same of the narrow call.
fn assert_narrow_refused(list: &[u32], place: usize) {
    for faults in [&[][..], &[4], &[5], &[7], &[4, 5, 7]] {
        let answer = narrow_add_call(&Faults(faults), list);
        assert_eq!(answer, refusal(15, place), "{list:?} {faults:?}");
    }
}

/// The first and the last zuniq of a width and some between, one inside the other.
fn good_list() -> Vec<u64> {
    let last = (29, n(29) - 1);
    list(&[(29, 0), (1, 0), (0, 0), (29, 1 << 57), (0, 11), last])
}

fn good_narrow_list() -> Vec<u32> {
    let last = (13, n(13) - 1);
    narrow_list(&[(13, 0), (1, 0), (0, 0), (13, 1 << 25), (0, 11), last])
}

#[test]
fn no_good_list_is_refused() {
    let (good, good_narrow) = (good_list(), good_narrow_list());
    for number in 0..=good.len() {
        let (list, narrow_list) = (&good[..number], &good_narrow[..number]);
        let none = &Faults(&[]);
        assert_eq!(add_calls(none, list), [Ok(()); 2], "{list:?}");
        assert_eq!(combining_calls(none, list), [Ok(()); 2], "{list:?}");
        assert_eq!(narrow_add_call(none, narrow_list), Ok(()), "{list:?}");
        // Of counts and densities that are none.
        let refused = [refusal(10, 0), refusal(9, 0)];
        assert_eq!(mergers(none, list), refused, "{list:?}");
    }
}

/// 0 is no zuniq either, though it is below the others.
#[test]
fn no_value_that_is_no_zuniq_is_taken_wherever_it_stands() {
    for place in 0..6 {
        for faulty in [0, 2, 1 << 60, 6917529027641081857, u64::MAX] {
            let mut list = good_list();
            list[place] = faulty;
            assert_refused(&list, place);
            list[place..].fill(faulty);
            assert_refused(&list, place);
            assert_refused(&list[..=place], place);
        }
        // The last four are zuniqs, but not narrow ones.
        for faulty in [
            0,
            2,
            1610612737,
            u32::MAX - 1,
            1 << 28,
            1 << 30,
            3 << 28,
            5 << 28,
        ] {
            let mut list = good_narrow_list();
            list[place] = faulty;
            assert_narrow_refused(&list, place);
            assert_narrow_refused(&list[..=place], place);
        }
    }
}

#[test]
fn no_value_that_is_not_above_the_one_before_is_taken_wherever_it_stands() {
    for place in 1..6 {
        let mut twice = good_list();
        twice[place] = twice[place - 1];
        assert_refused(&twice, place);
        assert_refused(&twice[..=place], place);
        let mut below = good_list();
        below.swap(place - 1, place);
        assert_refused(&below, place);
        let mut first_again = good_list();
        first_again[place] = 1;
        assert_refused(&first_again, place);

        let mut twice = good_narrow_list();
        twice[place] = twice[place - 1];
        assert_narrow_refused(&twice, place);
        let mut below = good_narrow_list();
        below.swap(place - 1, place);
        assert_narrow_refused(&below, place);
        assert_narrow_refused(&below[..=place], place);
    }
}

/// A list that doesn't rise is refused by the place of the value that is too low, also where one behind it
/// is no zuniq.
#[test]
fn no_later_fault_of_a_list_hides_an_earlier_one() {
    let (first, second) = (zuniq((1, 0)), zuniq((1, 1)));
    assert_refused(&[second, first, 2], 1);
    assert_refused(&[2, second, first], 0);
    assert_refused(&[first, 2, 2], 1);
    assert_refused(&[first, second, second, first], 2);
}

/// "Tried after 3."
#[test]
fn no_list_is_looked_at_before_1_2_and_3() {
    for list in [&[2][..], &[3, 1]] {
        let narrow: Vec<u32> = list.iter().map(|&zuniq| zuniq as u32).collect();
        for (faults, number) in [
            (&[1, 2, 3, 4, 5, 7][..], 1),
            (&[2, 3, 4, 5, 7], 2),
            (&[3, 4, 5, 7], 3),
            (&[1], 1),
            (&[2], 2),
            (&[3], 3),
        ] {
            let (faults, refused) = (&Faults(faults), refusal(number, 0));
            assert_eq!(mergers(faults, list), [refused; 2], "{number}");
            assert_eq!(add_calls(faults, list), [refused; 2], "{number}");
            assert_eq!(combining_calls(faults, list), [refused; 2], "{number}");
            assert_eq!(narrow_add_call(faults, &narrow), refused, "{number}");
        }
        let first = [zuniq((1, 0))];
        let one = map(1, &first, &[1.0]);
        for k in [f64::NAN, -1.0, INFINITY] {
            let multiplied = product(one, one, 0, 3.5, k, list, &mut [5; 2], &mut [7.5]);
            assert_eq!(multiplied, refusal(3, 0), "{k}");
        }
    }
}

/// With an empty list and with a longer one, what stands behind 15 in the table has its turn as before.
#[test]
fn no_good_list_hides_what_is_refused_after_it() {
    let (good, good_narrow) = (good_list(), good_narrow_list());
    for (list, narrow_list) in [(&[][..], &[][..]), (&good, &good_narrow)] {
        for (faults, number) in [(&[4, 5, 7][..], 4), (&[5, 7], 5)] {
            let (faults, refused) = (&Faults(faults), refusal(number, 0));
            assert_eq!(add_calls(faults, list), [refused; 2], "{number}");
            assert_eq!(combining_calls(faults, list), [refused; 2], "{number}");
            assert_eq!(narrow_add_call(faults, narrow_list), refused, "{number}");
        }
        let (faults, refused) = (&Faults(&[7]), refusal(7, 0));
        assert_eq!(mergers(faults, list), [refused; 2]);
        assert_eq!(add_calls(faults, list), [refused; 2]);
        assert_eq!(narrow_add_call(faults, narrow_list), refused);
    }
}

/// "A merger call now takes the parent's hash too, 7 if out of range."
#[test]
fn no_parent_hash_out_of_range_is_taken_and_none_in_range_is_refused() {
    for depth in 0..=28 {
        for list in [&[][..], &good_list()] {
            for hash in [n(depth), n(depth) + 1, n(29), 1 << 63, u64::MAX] {
                for (m, t) in [(0, INFINITY), (29, 0.0)] {
                    let counts = chi2_count_merger(depth, hash, m, t, list, [u32::MAX; 4]);
                    assert_eq!(counts, refusal(7, 0), "({depth}, {hash})");
                    let blank = chi2_count_merger(depth, hash, m, t, list, [0; 4]);
                    assert_eq!(blank, refusal(7, 0), "({depth}, {hash})");
                    let densities = chi2_density_merger(depth, hash, m, t, list, [f64::NAN; 4]);
                    assert_eq!(densities, refusal(7, 0), "({depth}, {hash})");
                }
            }
            for hash in [0, 1, n(depth) / 2, n(depth) - 1] {
                assert!(chi2_count_merger(depth, hash, 0, 3.5, list, [1; 4]).is_ok());
                assert!(chi2_density_merger(depth, hash, 0, 3.5, list, [1.0; 4]).is_ok());
            }
        }
    }
}

#[test]
fn a_refused_list_says_its_number_its_place_and_why() {
    let refusal = chi2_count_merger(0, 0, 0, 3.5, &[1, 3, 3], [1; 4]).unwrap_err();
    assert_eq!(refusal, Refusal::InvalidProtected(2));
    assert_eq!((refusal.number(), refusal.place()), (15, 2));
    let words = "refused by 15 at place 2: the protected parent is not a valid zuniq, \
                 or not above the one before";
    assert_eq!(refusal.to_string(), words);
}
