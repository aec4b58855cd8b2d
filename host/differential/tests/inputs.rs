//! The inputs, against faults that would have the comparison say less than it seems to.

mod kept;

use std::{
    collections::{BTreeMap, HashSet},
    ops::Range,
};

use differential::{
    cells::{cells_to, n_hash, Cell, DEPTH_MAX},
    compare::Kind,
    floats::Float,
    kinds::{ClipInput, CountChi, CountMerger, CoverInput, LayOutInput, MoveInput, Piece},
    lists::{Add, Build, Input, Value},
    maps::Map,
    protected::faulty_place,
    quads::{unit_density, Call, Quad, PARENT_DEPTH_MAX},
    random::Random,
    reach::{clipped_by_tree, coverage_by_hash, coverage_of, hashes, SKY},
    widths::Width,
};
use mom::Refusal;

const DRAWN: u64 = 200_000;

fn drawn<Z: Width>() -> impl Iterator<Item = Cell> {
    let mut random = Random::new(1);
    (0..DRAWN).map(move |_| Cell::random::<Z>(&mut random))
}

fn lies_in(inner: Cell, outer: Cell) -> bool {
    inner.depth >= outer.depth && inner.ancestor(outer.depth) == outer
}

#[test]
fn no_cell_is_out_of_range() {
    fn at<Z: Width>() {
        let mut random = Random::new(2);
        for cell in drawn::<Z>() {
            for cell in [cell, cell.neighbour(), cell.relative::<Z>(&mut random)] {
                assert!(
                    cell.depth <= Z::DEPTH_MAX && cell.hash < n_hash(cell.depth),
                    "{cell:?}"
                );
                assert_eq!(Cell::of_zuniq(cell.zuniq::<Z>()), Some(cell));
            }
        }
    }
    at::<u64>();
    at::<u32>();
}

#[test]
fn no_zuniq_is_of_the_other_width() {
    for (cell, wide, narrow) in [
        (Cell { depth: 0, hash: 0 }, 1 << 58, 1 << 26),
        (Cell { depth: 0, hash: 11 }, 23 << 58, 23 << 26),
        (Cell { depth: 13, hash: 1 }, 3 << 32, 3),
    ] {
        assert_eq!(cell.zuniq::<u64>(), wide);
        assert_eq!(cell.zuniq::<u32>(), narrow);
    }
    for none in [0, 2, 1 << 27, 1 << 28, 25 << 26, 1610612737, u32::MAX] {
        assert_eq!(Cell::of_zuniq(none), None, "{none}");
    }
}

#[test]
fn no_depth_and_no_end_of_a_depth_is_missed() {
    fn at<Z: Width>(least_different: u64) {
        let drawn: HashSet<_> = drawn::<Z>().map(|cell| (cell.depth, cell.hash)).collect();
        for depth in 0..=Z::DEPTH_MAX {
            for hash in [0, 1, n_hash(depth) - 2, n_hash(depth) - 1] {
                assert!(drawn.contains(&(depth, hash)), "({depth}, {hash})");
            }
        }
        assert!(drawn.len() as u64 > least_different, "{}", drawn.len());
    }
    at::<u64>(DRAWN / 3);
    at::<u32>(DRAWN / 4);
}

#[test]
fn no_small_cell_is_left_out() {
    assert_eq!(cells_to(2).count(), 12 + 48 + 192);
    let cells: HashSet<u64> = cells_to(4).map(Cell::zuniq).collect();
    assert_eq!(cells.len(), 12 + 48 + 192 + 768 + 3072);
}

#[test]
fn no_answer_of_the_overlap_test_is_rare() {
    fn at<Z: Width>() {
        let mut random = Random::new(3);
        let overlapping = drawn::<Z>()
            .filter(|&cell| {
                let relative = cell.relative::<Z>(&mut random);
                lies_in(cell, relative) || lies_in(relative, cell)
            })
            .count() as u64;
        assert!(overlapping > DRAWN / 4 && overlapping < DRAWN * 3 / 4);
    }
    at::<u64>();
    at::<u32>();
}

fn drawn_counts() -> impl Iterator<Item = Call<u32>> {
    let mut random = Random::new(4);
    (0..DRAWN).map(move |_| Call::<u32>::sound(&mut random))
}

fn drawn_densities() -> impl Iterator<Item = Call<Float>> {
    let mut random = Random::new(5);
    (0..DRAWN).map(move |_| Call::<Float>::sound(&mut random))
}

/// The parent depth, M, chi and T of all of them.
fn drawn_settings() -> impl Iterator<Item = (u8, u8, f64, f64)> {
    fn setting<V>(chi: f64, call: Call<V>) -> (u8, u8, f64, f64) {
        let t = call.chi2_threshold.0;
        (call.quad.parent_depth, call.depth_threshold, chi, t)
    }
    let of_counts = drawn_counts().map(|call| setting(call.quad.chi(), call));
    let of_densities = drawn_densities().map(|call| setting(call.quad.chi(), call));
    of_counts.chain(of_densities)
}

/// A name, and whether an input belongs to it.
type Class<T> = (&'static str, fn(&T) -> bool);

/// None may have less than one input in a thousand.
fn assert_none_is_rare<T>(inputs: impl Iterator<Item = T>, classes: &[Class<T>]) {
    let inputs: Vec<T> = inputs.collect();
    for (name, belongs) in classes {
        let members = inputs.iter().filter(|input| belongs(input)).count();
        let number = inputs.len();
        assert!(members * 1000 > number, "{name}: {members} of {number}");
    }
}

#[test]
fn no_quad_and_no_setting_is_refused() {
    for call in drawn_counts() {
        let sum: u64 = call.quad.values.map(u64::from).iter().sum();
        assert!(sum <= u32::MAX as u64, "{call:?}");
    }
    for call in drawn_densities() {
        let densities = call.quad.densities();
        assert!(
            densities.iter().all(|m| m.is_finite() && *m >= 0.0),
            "{call:?}"
        );
    }
    for (p, m, _, t) in drawn_settings() {
        assert!(
            p <= PARENT_DEPTH_MAX && m <= DEPTH_MAX && !t.is_nan(),
            "{p} {m} {t}"
        );
    }
}

#[test]
fn no_parent_depth_and_no_side_of_m_is_missed() {
    let drawn: HashSet<_> = drawn_settings().map(|(p, m, ..)| (p, m)).collect();
    for p in 0..=PARENT_DEPTH_MAX {
        for m in [0, p.saturating_sub(1), p, p + 1, DEPTH_MAX] {
            assert!(drawn.contains(&(p, m)), "({p}, {m})");
        }
    }
}

#[test]
fn no_answer_of_a_merger_is_rare() {
    let merged = drawn_settings().filter(|(p, m, chi, t)| p >= m && chi < t);
    let (merged, all) = (merged.count() as u64, 2 * DRAWN);
    assert!(merged > all / 4 && merged < all * 3 / 4, "{merged}");
}

#[test]
fn no_threshold_is_rare() {
    assert_none_is_rare(
        drawn_settings().map(|(_, _, chi, t)| (chi, t)),
        &[
            ("chi", |&(chi, t)| t == chi),
            ("next above chi", |&(chi, t)| t == chi.next_up()),
            ("next below chi", |&(chi, t)| t == chi.next_down()),
            ("0", |&(_, t)| Float(t) == Float(0.0)),
            ("-0", |&(_, t)| Float(t) == Float(-0.0)),
            ("infinity", |&(_, t)| t == f64::INFINITY),
            ("-infinity", |&(_, t)| t == f64::NEG_INFINITY),
            ("negative", |&(_, t)| t < 0.0 && t.is_finite()),
            ("recommended", |&(_, t)| t == 16.266),
        ],
    );
}

#[test]
fn no_counts_are_rare() {
    assert_none_is_rare(
        drawn_counts().map(|call| (call.quad.values, call.quad.chi())),
        &[
            ("small", |(n, _)| n.iter().all(|&n| n < 8)),
            ("a zero", |(n, _)| n.contains(&0)),
            ("no zero", |(n, _)| !n.contains(&0)),
            ("all equal", |(n, _)| *n == [n[0]; 4] && n[0] > 0),
            ("near 2^32", |(n, _)| n.iter().any(|&n| n > u32::MAX - 16)),
            ("sum 2^32 - 1", |(n, _)| {
                n.map(u64::from).iter().sum::<u64>() == u32::MAX as u64
            }),
            ("chi 0", |(_, chi)| *chi == 0.0),
            ("chi below 0", |(_, chi)| *chi < 0.0),
            ("usual chi", |(_, chi)| *chi > 1.0 && *chi < 20.0),
        ],
    );
}

/// Whether the call is on a blank quad, and is as `is` asks: the parent's depth less M, and T.
fn is_blank(call: &Call<u32>, is: impl Fn(i16, f64) -> bool) -> bool {
    let above = call.quad.parent_depth as i16 - call.depth_threshold as i16;
    call.quad.values == [0; 4] && is(above, call.chi2_threshold.0)
}

/// With M below the parent's depth, at it and above it.
#[test]
fn no_blank_quad_at_a_threshold_of_0_or_less_is_rare() {
    let classes: &[Class<Call<u32>>] = &[
        ("0", |call| {
            is_blank(call, |above, t| above >= 0 && Float(t) == Float(0.0))
        }),
        ("-0", |call| {
            is_blank(call, |above, t| above >= 0 && Float(t) == Float(-0.0))
        }),
        ("below 0", |call| {
            is_blank(call, |above, t| above >= 0 && t < 0.0 && t.is_finite())
        }),
        ("-infinity", |call| {
            is_blank(call, |above, t| above >= 0 && t == f64::NEG_INFINITY)
        }),
        ("M at the parent's depth", |call| {
            is_blank(call, |above, t| above == 0 && t <= 0.0)
        }),
        ("M below it", |call| {
            is_blank(call, |above, t| above > 0 && t <= 0.0)
        }),
        ("M just above it", |call| {
            is_blank(call, |above, t| above == -1 && t <= 0.0)
        }),
        ("M above it, T above 0", |call| {
            is_blank(call, |above, t| above < 0 && t > 0.0)
        }),
        ("the least T above 0", |call| {
            is_blank(call, |above, t| above >= 0 && t == 5e-324)
        }),
        ("a single source", |call| {
            let low = call.chi2_threshold.0 <= 0.0;
            low && call.quad.values.iter().sum::<u32>() == 1
        }),
    ];
    assert_none_is_rare(drawn_counts(), classes);
    for (name, belongs) in classes {
        assert!(CountMerger::small().any(|call| belongs(&call)), "{name}");
    }
}

/// Whether the parent is in the list, and the cells of the list are as `is` asks.
fn is_listed<V: Value>(call: &Call<V>, is: impl Fn(Cell, &[Cell]) -> bool) -> bool {
    let cells = call.protected.iter();
    let cells: Vec<Cell> = cells.filter_map(|&zuniq| Cell::of_zuniq(zuniq)).collect();
    cells.contains(&call.parent()) && is(call.parent(), &cells)
}

/// What counts and densities have in common.
fn classes_of_lists<V: Value>() -> Vec<Class<Call<V>>> {
    vec![
        ("empty", |call| call.protected.is_empty()),
        ("over 20", |call| call.protected.len() > 20),
        ("alone", |call| is_listed(call, |_, cells| cells.len() == 1)),
        ("the first", |call| {
            is_listed(call, |parent, cells| cells.len() > 1 && cells[0] == parent)
        }),
        ("the last", |call| {
            is_listed(call, |parent, cells| {
                cells.len() > 1 && cells[cells.len() - 1] == parent
            })
        }),
        ("among over 20", |call| {
            is_listed(call, |_, cells| cells.len() > 20)
        }),
        ("in another one", |call| {
            is_listed(call, |parent, cells| {
                let mut others = cells.iter();
                others.any(|cell| cell.depth < parent.depth && cell.overlaps(parent))
            })
        }),
        ("over another one", |call| {
            is_listed(call, |parent, cells| {
                let mut others = cells.iter();
                others.any(|cell| cell.depth > parent.depth && cell.overlaps(parent))
            })
        }),
        ("the last parent of a depth", |call| {
            is_listed(call, |parent, _| parent.hash + 1 == n_hash(parent.depth))
        }),
        ("merged but for the list", |call| {
            let above = call.quad.parent_depth >= call.depth_threshold;
            let chi = V::chi2(call.quad.values, call.quad.parent_depth);
            is_listed(call, |_, _| above && chi < call.chi2_threshold.0)
        }),
        ("a child in place of the parent", |call| {
            let mut children = call.parent().children().into_iter();
            let listed = |cell: Cell| call.protected.contains(&cell.zuniq());
            !listed(call.parent()) && children.any(listed)
        }),
        ("its hash at another depth", |call| {
            let cells = call.protected.iter();
            let mut cells = cells.filter_map(|&zuniq| Cell::of_zuniq(zuniq));
            let parent = call.parent();
            cells.any(|cell| cell.hash == parent.hash && cell.depth != parent.depth)
        }),
    ]
}

#[test]
fn no_list_of_protected_parents_is_rare() {
    assert_none_is_rare(drawn_counts(), &classes_of_lists());
    assert_none_is_rare(drawn_densities(), &classes_of_lists());
}

/// Under a listed parent, and under one that is not in the list that there is.
#[test]
fn no_blank_quad_under_a_list_is_rare() {
    let classes: &[Class<Call<u32>>] = &[
        ("listed, T up to 0", |call| {
            is_listed(call, |_, _| {
                is_blank(call, |above, t| above >= 0 && t <= 0.0)
            })
        }),
        ("listed, T above 0", |call| {
            is_listed(call, |_, _| {
                is_blank(call, |above, t| above >= 0 && t > 0.0)
            })
        }),
        ("listed, M at the parent's depth", |call| {
            is_listed(call, |_, _| is_blank(call, |above, _| above == 0))
        }),
        ("listed, below M", |call| {
            is_listed(call, |_, _| is_blank(call, |above, _| above < 0))
        }),
        ("beside a list, T up to 0", |call| {
            let is_beside = !call.protected.is_empty() && !is_listed(call, |_, _| true);
            is_beside && is_blank(call, |above, t| above >= 0 && t <= 0.0)
        }),
        ("a single source, listed", |call| {
            call.quad.values.iter().sum::<u32>() == 1 && is_listed(call, |_, _| true)
        }),
    ];
    assert_none_is_rare(drawn_counts(), classes);
    for (name, belongs) in classes {
        assert!(CountMerger::small().any(|call| belongs(&call)), "{name}");
    }
}

/// Of four blanks that are kept it is 0, and +0.
#[test]
fn no_chi_of_a_blank_quad_is_rare() {
    let mut random = Random::new(24);
    let drawn = (0..DRAWN).map(|_| Quad::<u32>::random(&mut random));
    assert_none_is_rare(drawn, &[("blank", |quad| quad.values == [0; 4])]);
    let blank = CountChi::small().next().expect("the first quad");
    assert_eq!(CountChi::original(&blank), [Ok(Some(Float(0.0))); 4]);
}

fn is_refused_call<V: Value>(call: &Call<V>, number: u8) -> bool {
    let refusal = call.refusal();
    refusal.is_some_and(|refusal| refusal.number() == number)
}

#[test]
fn no_refusal_of_a_merger_is_rare() {
    fn classes<V: Value>(own: Class<Call<V>>) -> Vec<Class<Call<V>>> {
        vec![
            ("none", |call| call.refusal().is_none()),
            ("1", |call| is_refused_call(call, 1)),
            ("2", |call| is_refused_call(call, 2)),
            ("3", |call| is_refused_call(call, 3)),
            ("15", |call| is_refused_call(call, 15)),
            ("15 past place 0", |call| {
                let place = faulty_place(&call.protected);
                is_refused_call(call, 15) && place.is_some_and(|place| place > 0)
            }),
            ("15 and 7", |call| {
                is_refused_call(call, 15) && call.parent_hash >= n_hash(call.quad.parent_depth)
            }),
            ("7", |call| is_refused_call(call, 7)),
            ("7 by one", |call| {
                is_refused_call(call, 7) && call.parent_hash == n_hash(call.quad.parent_depth)
            }),
            own,
        ]
    }
    let mut random = Random::new(21);
    let counts = (0..DRAWN).map(|_| Call::<u32>::random(&mut random));
    assert_none_is_rare(counts, &classes(("10", |call| is_refused_call(call, 10))));
    let densities = (0..DRAWN).map(|_| Call::<Float>::random(&mut random));
    assert_none_is_rare(densities, &classes(("9", |call| is_refused_call(call, 9))));
}

#[test]
fn no_densities_are_rare() {
    let drawn = drawn_densities().map(|call| {
        let c = unit_density(call.quad.parent_depth);
        (c, call.quad.densities(), call.quad.chi())
    });
    assert_none_is_rare(
        drawn,
        &[
            ("a 0", |(_, m, _)| m.map(Float).contains(&Float(0.0))),
            ("a -0", |(_, m, _)| m.map(Float).contains(&Float(-0.0))),
            ("all -0", |(_, m, _)| m.map(Float) == [Float(-0.0); 4]),
            ("subnormal", |(_, m, _)| m.iter().any(|m| m.is_subnormal())),
            ("least normal", |(_, m, _)| m.contains(&f64::MIN_POSITIVE)),
            ("largest", |(_, m, _)| m.contains(&f64::MAX)),
            ("c", |(c, m, _)| m.contains(c)),
            ("next above c", |(c, m, _)| m.contains(&c.next_up())),
            ("next below c", |(c, m, _)| m.contains(&c.next_down())),
            ("all equal", |(_, m, _)| *m == [m[0]; 4] && m[0] > 0.0),
            ("chi 0", |(_, _, chi)| *chi == 0.0),
            ("chi below 0", |(_, _, chi)| *chi < 0.0),
            ("usual chi", |(_, _, chi)| *chi > 1.0 && *chi < 20.0),
            ("chi NaN", |(_, _, chi)| chi.is_nan()),
            ("chi infinite", |(_, _, chi)| *chi == f64::INFINITY),
            ("chi -infinite", |(_, _, chi)| *chi == f64::NEG_INFINITY),
        ],
    );
}

#[test]
fn no_small_quad_is_left_out() {
    let quads: HashSet<_> = Quad::<u32>::small(0).map(|quad| quad.values).collect();
    assert_eq!(quads.len(), 8 * 8 * 8 * 8);
    assert!(quads.contains(&[7, 0, 3, 5]));
    assert_eq!(Quad::<Float>::small(0).count(), 10_000);
}

/// All small lists of cells are there without protected parents, cut at every point, and one in eleven of them with
/// each list of parents.
#[test]
fn no_small_list_is_left_out() {
    fn at<V: Build<Z>, Z: Width>() {
        let (mut unlisted, mut listed) = (0, BTreeMap::new());
        for input in Add::<V, Z>::small() {
            match &input.protected[..] {
                [] => unlisted += 1,
                list => *listed.entry(list.to_vec()).or_insert(0) += 1,
            }
        }
        let cuts = 256 * (1 + 8 / 2) + 17;
        assert_eq!(unlisted, cuts * V::small().len() * 6);
        assert_eq!(listed.len(), 5);
        assert!(listed.values().all(|number| number * 12 > unlisted));
    }
    at::<u32, u64>();
    at::<u32, u32>();
    at::<Float, u64>();
}

/// Random maps of every depth, each with a query.
fn drawn_maps<Z: Width>() -> impl Iterator<Item = (u8, Map, Cell)> {
    let mut random = Random::new(8);
    (0..DRAWN / 4).map(move |_| {
        let depth = random.below(Z::DEPTH_MAX as u64 + 1) as u8;
        let map = Map::random::<Z>(depth, &mut random);
        let query = map.query::<Z>(&mut random);
        (depth, map, query)
    })
}

#[test]
fn no_map_is_invalid() {
    let drawn = drawn_maps::<u64>().chain(drawn_maps::<u32>());
    let drawn = drawn.map(|(depth, map, _)| (depth, map));
    for (depth, map) in drawn.chain(Map::small().map(|map| (2, map))) {
        let cells = map.cells();
        assert!(cells.iter().all(|cell| cell.depth <= depth), "{map:?}");
        let rises = |pair: &[Cell]| pair[0].is_before(pair[1]);
        assert!(cells.windows(2).all(rises), "{map:?}");
        let apart = |i: usize| cells[..i].iter().all(|&cell| !cell.overlaps(cells[i]));
        assert!((0..cells.len()).all(apart), "{map:?}");
    }
}

#[test]
fn no_map_and_no_query_is_rare() {
    fn found((_, map, query): &(u8, Map, Cell)) -> Vec<usize> {
        let places = 0..map.cells().len();
        places
            .filter(|&place| map.cells()[place].overlaps(*query))
            .collect()
    }
    fn depths(map: &Map) -> HashSet<u8> {
        map.cells().iter().map(|cell| cell.depth).collect()
    }
    fn at<Z: Width>() {
        assert_none_is_rare(drawn_maps::<Z>(), &classes::<Z>());
    }
    fn classes<Z: Width>() -> [Class<(u8, Map, Cell)>; 10] {
        [
            ("empty", |(_, map, _)| map.cells().is_empty()),
            ("one entry", |(_, map, _)| map.cells().len() == 1),
            ("over 30 entries", |(_, map, _)| map.cells().len() > 30),
            ("four depths", |(_, map, _)| depths(map).len() >= 4),
            ("the largest depth", |(_, map, _)| {
                depths(map).contains(&Z::DEPTH_MAX)
            }),
            ("none found", |drawn| found(drawn).is_empty()),
            ("entry 0 found", |drawn| found(drawn).contains(&0)),
            ("the last found", |drawn| {
                let last = drawn.1.cells().len().wrapping_sub(1);
                last > 0 && found(drawn) == [last]
            }),
            ("one in the middle found", |drawn| {
                let found = found(drawn);
                found.len() == 1 && found[0] > 0 && found[0] + 1 < drawn.1.cells().len()
            }),
            ("a run in the middle found", |drawn| {
                let found = found(drawn);
                found.len() > 2 && found[0] > 0 && found[0] + found.len() < drawn.1.cells().len()
            }),
        ]
    }
    at::<u64>();
    at::<u32>();
}

/// A step of a list of add calls, as the table and the original's building make it.
struct Step<V> {
    depth: u8,
    /// M
    depth_threshold: u8,
    /// T
    chi2_threshold: f64,
    /// The cells of the list.
    protected: Vec<Cell>,
    refusal: Option<Refusal>,
    /// The entries before the call.
    held: Vec<(Cell, V)>,
    entries: Vec<(Cell, V)>,
    places: usize,
}

fn steps_of<V: Build<Z>, Z: Width>(input: &Input<V, Z>) -> Vec<Step<V>> {
    let mut held = Vec::new();
    let protected = input.protected.iter();
    let protected: Vec<Cell> = protected.filter_map(|&z| Cell::of_zuniq(z)).collect();
    let steps = Add::<V, Z>::original(input).into_iter();
    steps
        .map(|(answer, zuniqs, values)| {
            let places = zuniqs.len();
            let number = answer.map_or(0, |(entries, _)| entries);
            let cells = zuniqs.into_iter().take(number).filter_map(Cell::of_zuniq);
            let entries: Vec<(Cell, V)> = cells.zip(values).collect();
            let step = Step {
                depth: input.depth,
                depth_threshold: input.depth_threshold,
                chi2_threshold: input.chi2_threshold.0,
                protected: protected.clone(),
                refusal: answer.err(),
                held: held.clone(),
                entries: entries.clone(),
                places,
            };
            if answer.is_ok() {
                held = entries;
            }
            step
        })
        .collect()
}

fn drawn_steps<V: Build<Z>, Z: Width>(seed: u64) -> impl Iterator<Item = Step<V>> {
    let mut random = Random::new(seed);
    (0..DRAWN / 20).flat_map(move |_| steps_of::<V, Z>(&Input::random(&mut random)))
}

impl<V: Value> Step<V> {
    fn is_refused(&self, number: u8) -> bool {
        self.refusal
            .is_some_and(|refusal| refusal.number() == number)
    }

    fn is_refused_past_0(&self, number: u8) -> bool {
        self.is_refused(number) && self.refusal.is_some_and(|refusal| refusal.place() > 0)
    }

    fn merges(&self) -> u8 {
        let least = self.entries.iter().map(|(cell, _)| cell.depth).min();
        self.depth - least.unwrap_or(self.depth)
    }

    /// Whether an entry of such a value is there; a merged one.
    fn merged(&self, is: impl Fn(V) -> bool) -> bool {
        let mut entries = self.entries.iter();
        entries.any(|&(cell, value)| cell.depth < self.depth && is(value))
    }

    /// Whether four stay that would be merged but for the list, and their parent is as `is` asks.
    fn keeps_listed(&self, is: impl Fn(Cell) -> bool) -> bool {
        self.entries.windows(4).any(|four| {
            let first = four[0].0;
            let Some(depth) = first.depth.checked_sub(1) else {
                return false;
            };
            let parent = first.ancestor(depth);
            let chi = V::chi2([0, 1, 2, 3].map(|child: usize| four[child].1), depth);
            four.iter().map(|entry| entry.0).eq(parent.children())
                && depth >= self.depth_threshold
                && chi < self.chi2_threshold
                && self.protected.contains(&parent)
                && is(parent)
        })
    }

    /// What lists show with counts and densities.
    fn classes_of_lists() -> Vec<Class<Self>> {
        vec![
            ("15", |step| step.is_refused(15)),
            ("15 past place 0", |step| step.is_refused_past_0(15)),
            ("no list", |step| {
                step.refusal.is_none() && step.protected.is_empty()
            }),
            ("over 20 listed", |step| {
                step.refusal.is_none() && step.protected.len() > 20
            }),
            ("kept by the list", |step| step.keeps_listed(|_| true)),
            ("kept among over 20", |step| {
                step.protected.len() > 20 && step.keeps_listed(|_| true)
            }),
            ("kept after a merge", |step| {
                step.keeps_listed(|parent| parent.depth + 1 < step.depth)
            }),
            ("kept by the first of several", |step| {
                let several = step.protected.len() > 1;
                several && step.keeps_listed(|parent| step.protected[0] == parent)
            }),
            ("kept by the last of several", |step| {
                let several = step.protected.len() > 1;
                several && step.keeps_listed(|parent| step.protected.last() == Some(&parent))
            }),
            ("kept inside another listed one", |step| {
                step.keeps_listed(|parent| {
                    let mut others = step.protected.iter();
                    others.any(|cell| cell.depth < parent.depth && cell.overlaps(parent))
                })
            }),
            ("kept across batches", |step| {
                step.keeps_listed(|parent| {
                    let held = step.held.iter().filter(|(cell, _)| cell.overlaps(parent));
                    (1..4).contains(&held.count())
                })
            }),
            ("merged beside a listed one", |step| {
                step.merges() > 0 && step.keeps_listed(|_| true)
            }),
        ]
    }

    /// What counts and densities have in common.
    fn classes<Z: Width>() -> Vec<Class<Self>> {
        vec![
            ("accepted", |step| step.refusal.is_none()),
            ("no entries", |step| {
                step.refusal.is_none() && step.entries.is_empty()
            }),
            ("over 50 entries", |step| step.entries.len() > 50),
            ("one merge deep", |step| step.merges() == 1),
            ("three merges deep", |step| step.merges() == 3),
            ("the first cell", |step| {
                step.entries.first().is_some_and(|(cell, _)| cell.hash == 0)
            }),
            ("the last cell", |step| {
                let last = step.entries.last();
                last.is_some_and(|(cell, _)| cell.hash == n_hash(cell.depth) - 1)
            }),
            ("all places held", |step| {
                step.entries.len() == step.places && step.places > 0
            }),
            ("depth 1", |step| step.depth == 1),
            ("the largest depth", |step| step.depth == Z::DEPTH_MAX),
            ("1", |step| step.is_refused(1)),
            ("2", |step| step.is_refused(2)),
            ("3", |step| step.is_refused(3)),
            ("4", |step| step.is_refused(4)),
            ("5", |step| step.is_refused(5)),
            ("5 past place 0", |step| step.is_refused_past_0(5)),
            ("7", |step| step.is_refused(7)),
            ("7 past place 0", |step| step.is_refused_past_0(7)),
            ("8", |step| step.is_refused(8)),
            ("8 past place 0", |step| step.is_refused_past_0(8)),
            ("11", |step| step.is_refused(11)),
        ]
    }
}

#[test]
fn no_refusal_and_no_kind_of_building_is_rare_among_counts() {
    fn at<Z: Width>() {
        let mut classes = Step::<u32>::classes::<Z>();
        classes.extend([
            ("10", (|step| step.is_refused(10)) as fn(&Step<u32>) -> bool),
            ("10 past place 0", |step| step.is_refused_past_0(10)),
            ("a merged 0", |step| step.merged(|count| count == 0)),
        ]);
        assert_none_is_rare(drawn_steps::<u32, Z>(9), &classes);
    }
    at::<u64>();
    at::<u32>();
}

#[test]
fn no_protection_is_rare_in_building() {
    fn at<Z: Width>() {
        assert_none_is_rare(drawn_steps::<u32, Z>(22), &Step::classes_of_lists());
    }
    at::<u64>();
    at::<u32>();
    assert_none_is_rare(drawn_steps::<Float, u64>(23), &Step::classes_of_lists());
}

impl Step<u32> {
    fn of<'a>(&'a self, entries: &'a [(Cell, u32)]) -> kept::Map<'a> {
        kept::Map {
            entries,
            listed: &self.protected,
            depth_threshold: self.depth_threshold,
            chi2_threshold: self.chi2_threshold,
        }
    }

    /// Whether the list keeps blank sky that the call completes.
    fn keeps_blanks(&self) -> bool {
        self.of(&self.entries).keeps_blanks() && !self.holds_blanks()
    }

    /// Whether it kept some before the call.
    fn holds_blanks(&self) -> bool {
        self.of(&self.held).keeps_blanks()
    }

    /// Whether there is an entry of 0 that was merged where T is not above 0, and that is as `is` asks.
    fn merges_blanks(&self, is: impl Fn(Cell) -> bool) -> bool {
        self.chi2_threshold <= 0.0 && {
            let mut entries = self.entries.iter();
            entries.any(|&(cell, count)| cell.depth < self.depth && count == 0 && is(cell))
        }
    }

    /// Whether four siblings stay where T is not above 0, with that total.
    fn keeps_four(&self, total: u32) -> bool {
        self.chi2_threshold <= 0.0
            && self.entries.windows(4).any(|four| {
                let first = four[0].0;
                let cells: Vec<Cell> = four.iter().map(|entry| entry.0).collect();
                let counts = four.iter().map(|entry| entry.1 as u64);
                first.depth > 0
                    && cells == first.ancestor(first.depth - 1).children()
                    && counts.sum::<u64>() == total as u64
            })
    }

    /// Whether some of a merged blank was there before the call.
    fn merges_held_blanks(&self) -> bool {
        self.merges_blanks(|cell| {
            let mut held = self.held.iter();
            held.any(|(entry, _)| entry.depth > cell.depth && entry.overlaps(cell))
        })
    }
}

/// What the small lists reach, too.
const BLANK_STEPS: &[Class<Step<u32>>] = &[
    ("0", |step| {
        step.merges_blanks(|_| Float(step.chi2_threshold) == Float(0.0))
    }),
    ("-infinity", |step| {
        step.merges_blanks(|_| step.chi2_threshold == f64::NEG_INFINITY)
    }),
    ("two merges deep", |step| {
        step.merges_blanks(|cell| cell.depth + 2 == step.depth)
    }),
    ("across batches", |step| step.merges_held_blanks()),
    ("as far as M", |step| {
        step.merges_blanks(|cell| cell.depth == step.depth_threshold && cell.depth > 0)
    }),
    ("blanks kept below M", |step| {
        step.protected.is_empty() && step.keeps_four(0)
    }),
];

const MORE_BLANK_STEPS: &[Class<Step<u32>>] = &[
    ("-0", |step| {
        step.merges_blanks(|_| Float(step.chi2_threshold) == Float(-0.0))
    }),
    ("below 0", |step| {
        step.merges_blanks(|_| step.chi2_threshold < 0.0 && step.chi2_threshold.is_finite())
    }),
    ("three merges deep", |step| {
        step.merges_blanks(|cell| cell.depth + 3 <= step.depth)
    }),
    ("beside a source", |step| {
        step.merges_blanks(|_| step.entries.iter().any(|&(_, count)| count > 0))
    }),
    ("a single source kept", |step| step.keeps_four(1)),
];

/// Blank sky under a list (note 11), which the small lists reach too.
const LISTED_BLANK_STEPS: &[Class<Step<u32>>] = &[
    ("kept, T up to 0", |step| {
        step.chi2_threshold <= 0.0 && step.keeps_blanks()
    }),
    ("kept, T above 0", |step| {
        step.chi2_threshold > 0.0 && step.keeps_blanks()
    }),
    ("kept, with what is above", |step| {
        step.of(&step.entries).is_apart_above_blanks()
    }),
    ("kept among those held", |step| {
        step.refusal.is_none() && step.entries != step.held && step.holds_blanks()
    }),
    ("merged beside kept ones", |step| {
        step.merged(|count| count == 0) && step.of(&step.entries).keeps_blanks()
    }),
    ("merged at T up to 0 where none is kept", |step| {
        let is_kept = step.of(&step.entries).keeps_blanks();
        !step.protected.is_empty() && !is_kept && step.merges_blanks(|_| true)
    }),
];

#[test]
fn no_blank_sky_is_rare_in_building() {
    fn at<Z: Width>() {
        for classes in [BLANK_STEPS, MORE_BLANK_STEPS, LISTED_BLANK_STEPS] {
            assert_none_is_rare(drawn_steps::<u32, Z>(16), classes);
        }
        let small = Add::<u32, Z>::small().flat_map(|input| steps_of(&input));
        let small: Vec<Step<u32>> = small.collect();
        for (name, belongs) in BLANK_STEPS.iter().chain(LISTED_BLANK_STEPS) {
            assert!(small.iter().any(belongs), "{name}");
        }
    }
    at::<u64>();
    at::<u32>();
}

#[test]
fn no_refusal_and_no_kind_of_building_is_rare_among_densities() {
    let mut classes = Step::<Float>::classes::<u64>();
    classes.extend([
        ("6", (|step| step.is_refused(6)) as fn(&Step<Float>) -> bool),
        ("6 past place 0", |step| step.is_refused_past_0(6)),
        ("9", |step| step.is_refused(9)),
        ("9 past place 0", |step| step.is_refused_past_0(9)),
        ("a merged 0", |step| step.merged(|m| m == Float(0.0))),
        ("a merged −0", |step| step.merged(|m| m == Float(-0.0))),
        ("a merged subnormal", |step| {
            step.merged(|m| m.0.is_subnormal())
        }),
        ("a huge one", |step| {
            step.entries.iter().any(|(_, m)| m.0 > 1e307)
        }),
        ("a merged one above c", |step| {
            let c = unit_density(step.depth - 1);
            step.merged(|m| m.0 > c && m.0 < 1000.0 * c)
        }),
    ]);
    assert_none_is_rare(drawn_steps::<Float, u64>(10), &classes);
}

fn drawn_moves<Z: Width>() -> impl Iterator<Item = MoveInput<Z>> {
    let mut random = Random::new(14);
    (0..DRAWN / 4).map(move |_| MoveInput::random(&mut random))
}

fn is_refused<Z: Width>(input: &MoveInput<Z>, number: u8) -> bool {
    let refusal = input.refusal();
    refusal.is_some_and(|refusal| refusal.number() == number)
}

fn is_refused_past_0<Z: Width>(input: &MoveInput<Z>, number: u8) -> bool {
    let refusal = input.refusal();
    refusal.is_some_and(|refusal| refusal.number() == number && refusal.place() > 0)
}

/// Whether the map is moved, and is as `is` asks.
fn is_moved<Z: Width>(input: &MoveInput<Z>, is: impl Fn(u8, &[Cell]) -> bool) -> bool {
    let cells = input.map.zuniqs.iter();
    let cells: Vec<Cell> = cells.filter_map(|&zuniq| Cell::of_zuniq(zuniq)).collect();
    input.refusal().is_none() && is(input.map.depth, &cells)
}

/// What narrowing and widening have in common.
fn classes_of_moves<Z: Width>() -> Vec<Class<MoveInput<Z>>> {
    vec![
        ("moved", |input| is_moved(input, |_, _| true)),
        ("empty", |input| {
            is_moved(input, |_, cells| cells.is_empty())
        }),
        ("over 20 entries", |input| {
            is_moved(input, |_, cells| cells.len() > 20)
        }),
        ("an entry of depth 13", |input| {
            is_moved(input, |_, cells| cells.iter().any(|cell| cell.depth == 13))
        }),
        ("deeper than its entries", |input| {
            is_moved(input, |depth, cells| {
                cells.iter().all(|cell| cell.depth < depth)
            })
        }),
        ("the last cell", |input| {
            let is_last = |cell: &Cell| cell.hash == n_hash(cell.depth) - 1;
            is_moved(input, |_, cells| cells.last().is_some_and(is_last))
        }),
        ("no place left", |input| {
            is_moved(input, |_, cells| cells.len() == input.places[0])
        }),
        ("places left", |input| {
            is_moved(input, |_, cells| cells.len() < input.places[0])
        }),
        ("1", |input| is_refused(input, 1)),
        ("4", |input| is_refused(input, 4)),
        ("5", |input| is_refused(input, 5)),
        ("5 past place 0", |input| is_refused_past_0(input, 5)),
        ("11", |input| is_refused(input, 11)),
        ("5 and 11", |input| {
            is_refused(input, 5) && input.map.zuniqs.len() > input.places[0]
        }),
    ]
}

#[test]
fn no_refusal_and_no_kind_of_moving_is_rare() {
    assert_none_is_rare(drawn_moves::<u32>(), &classes_of_moves());
    let mut classes = classes_of_moves::<u64>();
    classes.extend([
        (
            "13",
            (|input| is_refused(input, 13)) as fn(&MoveInput<u64>) -> bool,
        ),
        ("13 past place 0", |input| is_refused_past_0(input, 13)),
        ("13 and 11", |input| {
            is_refused(input, 13) && input.map.zuniqs.len() > input.places[0]
        }),
        ("5 behind a deep entry", |input| {
            let cells = input.map.zuniqs.iter();
            let depths = cells.map(|&zuniq| Cell::of_zuniq(zuniq).map_or(0, |cell| cell.depth));
            let before = input.refusal().map_or(0, Refusal::place);
            is_refused(input, 5) && depths.take(before).any(|depth| depth > 13)
        }),
        ("of a depth over 13", |input| {
            is_moved(input, |depth, _| depth > 13)
        }),
    ]);
    assert_none_is_rare(drawn_moves(), &classes);
}

/// Whether the call is accepted, and its rows are as `is` asks: how long one is, and how many they are.
fn is_laid_out(input: &LayOutInput, is: impl Fn(usize, usize) -> bool) -> bool {
    let accepted = input.refusal().is_none();
    accepted && is(input.row_size, input.bytes.len() / input.row_size)
}

fn is_named(input: &LayOutInput) -> bool {
    [8, 12, 16].contains(&input.row_size)
}

fn is_whole(input: &LayOutInput) -> bool {
    input.bytes.len().checked_rem(input.row_size) == Some(0)
}

const ACCEPTED_LAYOUTS: &[Class<LayOutInput>] = &[
    ("8 bytes", |input| is_laid_out(input, |size, _| size == 8)),
    ("12 bytes", |input| is_laid_out(input, |size, _| size == 12)),
    ("16 bytes", |input| is_laid_out(input, |size, _| size == 16)),
    ("no rows", |input| is_laid_out(input, |_, rows| rows == 0)),
    ("one row", |input| is_laid_out(input, |_, rows| rows == 1)),
    ("256 rows", |input| {
        is_laid_out(input, |_, rows| rows == 256)
    }),
    ("over 256 rows", |input| {
        is_laid_out(input, |_, rows| rows > 256)
    }),
    ("just as long", |input| {
        is_laid_out(input, |_, _| input.places == input.bytes.len())
    }),
    ("longer, not of zeros", |input| {
        input.content > 0 && is_laid_out(input, |_, _| input.places > input.bytes.len())
    }),
];

const REFUSED_LAYOUTS: &[Class<LayOutInput>] = &[
    ("rows of no bytes", |input| input.row_size == 0),
    ("whole rows of 4 bytes", |input| {
        input.row_size == 4 && is_whole(input) && !input.bytes.is_empty()
    }),
    ("whole rows not named", |input| {
        is_whole(input) && !is_named(input)
    }),
    ("no whole rows", |input| is_named(input) && !is_whole(input)),
    ("11", |input| input.refusal() == Some(Refusal::NoSpace)),
    ("11 by one byte", |input| {
        input.refusal() == Some(Refusal::NoSpace) && input.places + 1 == input.bytes.len()
    }),
    ("4 and 11", |input| {
        let refused = input.refusal() == Some(Refusal::LengthMismatch);
        refused && input.places < input.bytes.len()
    }),
];

#[test]
fn no_refusal_and_no_kind_of_laying_out_is_rare() {
    for classes in [ACCEPTED_LAYOUTS, REFUSED_LAYOUTS] {
        let mut random = Random::new(17);
        let drawn = (0..DRAWN / 4).map(|_| LayOutInput::random(&mut random));
        assert_none_is_rare(drawn, classes);
    }
}

/// Whether the coverage is written, and the cells and their ranges are as `is` asks.
fn is_covered(input: &CoverInput, is: impl Fn(&[Cell], &[Range<u64>]) -> bool) -> bool {
    let accepted = input.refusal().is_none();
    accepted && is(&input.cells(), &coverage_of(&input.cells()))
}

/// Whether two entries touch whose depths are as `is` asks.
fn touch(cells: &[Cell], is: impl Fn(u8, u8) -> bool) -> bool {
    let mut pairs = cells.windows(2);
    pairs.any(|pair| {
        hashes(pair[0]).end == hashes(pair[1]).start && is(pair[0].depth, pair[1].depth)
    })
}

fn is_not_covered(input: &CoverInput, number: u8) -> bool {
    let refusal = input.refusal();
    refusal.is_some_and(|refusal| refusal.number() == number)
}

const COVERED: &[Class<CoverInput>] = &[
    ("empty", |input| {
        is_covered(input, |cells, _| cells.is_empty())
    }),
    ("over 20 ranges", |input| {
        is_covered(input, |_, ranges| ranges.len() > 20)
    }),
    ("no entries touch", |input| {
        is_covered(input, |cells, ranges| {
            cells.len() > 1 && cells.len() == ranges.len()
        })
    }),
    ("entries of one depth touch", |input| {
        is_covered(input, |cells, _| touch(cells, |left, right| left == right))
    }),
    ("the next one is larger", |input| {
        is_covered(input, |cells, _| touch(cells, |left, right| left > right))
    }),
    ("the next one is smaller", |input| {
        is_covered(input, |cells, _| touch(cells, |left, right| left < right))
    }),
    ("a gap of one hash", |input| {
        is_covered(input, |_, ranges| {
            let mut pairs = ranges.windows(2);
            pairs.any(|pair| pair[0].end + 1 == pair[1].start)
        })
    }),
    ("both ends of the sky", |input| {
        is_covered(input, |_, ranges| {
            let (first, last) = (ranges.first(), ranges.last());
            first.is_some_and(|range| range.start == 0)
                && last.is_some_and(|range| range.end == SKY)
        })
    }),
    ("judged hash by hash", |input| {
        is_covered(input, |cells, _| {
            cells.len() > 1 && coverage_by_hash(cells).is_some()
        })
    }),
    ("fewer places than entries", |input| {
        is_covered(input, |cells, _| input.places[0] < cells.len())
    }),
    ("places left, not of zeros", |input| {
        input.content > 0 && is_covered(input, |_, ranges| ranges.len() < input.places[0])
    }),
    ("1", |input| is_not_covered(input, 1)),
    ("4", |input| is_not_covered(input, 4)),
    ("5", |input| is_not_covered(input, 5)),
    ("5 past place 0", |input| {
        is_not_covered(input, 5) && input.refusal().is_some_and(|refusal| refusal.place() > 0)
    }),
    ("11", |input| is_not_covered(input, 11)),
    ("11 by one place", |input| {
        is_not_covered(input, 11) && input.places[0] + 1 == coverage_of(&input.cells()).len()
    }),
];

#[test]
fn no_refusal_and_no_kind_of_coverage_is_rare() {
    let mut random = Random::new(19);
    let drawn = (0..DRAWN / 4).map(|_| CoverInput::random(&mut random));
    assert_none_is_rare(drawn, COVERED);
}

/// Whether the map is clipped, and its entries, the ranges and what is left are as `is` asks.
fn is_clipped(input: &ClipInput, is: impl Fn(&[Piece], &[Range<u64>], &[Piece]) -> bool) -> bool {
    let accepted = input.refusal().is_none();
    accepted
        && is(
            &input.map.entries(),
            &input.coverage.ranges(),
            &input.cells(),
        )
}

/// How many of the ranges have a hash of the cell.
fn reaching(ranges: &[Range<u64>], cell: Cell) -> usize {
    let inside = hashes(cell);
    let reaches = |range: &&Range<u64>| range.start < inside.end && inside.start < range.end;
    ranges.iter().filter(reaches).count()
}

/// Four siblings of one density one after the other, which a merger might take.
fn has_quad(pieces: &[Piece]) -> bool {
    pieces.windows(4).any(|four| {
        let (first, density) = four[0];
        let parent = first
            .depth
            .checked_sub(1)
            .map(|depth| first.ancestor(depth));
        let cells = four.iter().map(|piece| piece.0);
        four.iter().all(|piece| piece.1 == density)
            && parent.is_some_and(|parent| cells.eq(parent.children()))
    })
}

const CLIPPED: &[Class<ClipInput>] = &[
    ("an empty coverage", |input| {
        is_clipped(input, |map, ranges, _| !map.is_empty() && ranges.is_empty())
    }),
    ("an empty map", |input| {
        is_clipped(input, |map, ranges, _| map.is_empty() && !ranges.is_empty())
    }),
    ("nothing in common", |input| {
        is_clipped(input, |map, ranges, left| {
            !map.is_empty() && !ranges.is_empty() && left.is_empty()
        })
    }),
    ("the entries, to several ranges", |input| {
        is_clipped(input, |map, ranges, left| {
            map.len() > 2 && ranges.len() > 1 && map == left
        })
    }),
    ("an entry cut into cells", |input| {
        is_clipped(input, |map, _, left| {
            let depths = |pieces: &[Piece]| pieces.iter().map(|piece| piece.0.depth).max();
            depths(left) > depths(map)
        })
    }),
    ("over 100 cells", |input| {
        is_clipped(input, |_, _, left| left.len() > 100)
    }),
    ("an entry in three ranges", |input| {
        is_clipped(input, |map, ranges, _| {
            map.iter().any(|piece| reaching(ranges, piece.0) > 2)
        })
    }),
    ("a range over two entries that touch", |input| {
        is_clipped(input, |_, ranges, left| {
            left.windows(2).any(|pair| {
                let end = hashes(pair[0].0).end;
                let is_inside = |range: &Range<u64>| range.start < end && end < range.end;
                pair[0].1 != pair[1].1
                    && end == hashes(pair[1].0).start
                    && ranges.iter().any(is_inside)
            })
        })
    }),
    ("four siblings of one density", |input| {
        is_clipped(input, |_, _, left| has_quad(left))
    }),
    ("judged down the tree", |input| {
        is_clipped(input, |map, ranges, left| {
            left.len() > 2 && clipped_by_tree(map, ranges).is_some()
        })
    }),
    ("a first range at 0", |input| {
        is_clipped(input, |_, ranges, left| {
            !left.is_empty() && ranges.first().is_some_and(|range| range.start == 0)
        })
    }),
    ("a last range to the end of the sky", |input| {
        is_clipped(input, |_, ranges, left| {
            !left.is_empty() && ranges.last().is_some_and(|range| range.end == SKY)
        })
    }),
    ("places left, not of zeros", |input| {
        input.content > 0 && is_clipped(input, |_, _, left| left.len() < input.places[0])
    }),
];

/// Whether the call is refused by 14, and the range and the end before it are as `is` asks.
fn is_no_range(input: &ClipInput, is: impl Fn(&Range<u64>, Option<u64>) -> bool) -> bool {
    let Some(Refusal::InvalidRange(place)) = input.refusal() else {
        return false;
    };
    let ranges = input.coverage.ranges();
    let before = ranges[..place].last().map(|range| range.end);
    is(&ranges[place], before)
}

fn is_not_clipped(input: &ClipInput, number: u8) -> bool {
    let refusal = input.refusal();
    refusal.is_some_and(|refusal| refusal.number() == number)
}

const NOT_CLIPPED: &[Class<ClipInput>] = &[
    ("1", |input| is_not_clipped(input, 1)),
    ("4 of the map", |input| {
        is_not_clipped(input, 4) && input.map.zuniqs.len() != input.map.values.len()
    }),
    ("4 of the coverage", |input| {
        let coverage = &input.coverage;
        is_not_clipped(input, 4) && coverage.starts.len() != coverage.ends.len()
    }),
    ("4 of the output", |input| {
        is_not_clipped(input, 4) && input.places[0] != input.places[1]
    }),
    ("5", |input| is_not_clipped(input, 5)),
    ("5 and 14", |input| {
        is_not_clipped(input, 5) && input.coverage.faulty_range().is_some()
    }),
    ("6", |input| is_not_clipped(input, 6)),
    ("6 and 14", |input| {
        is_not_clipped(input, 6) && input.coverage.faulty_range().is_some()
    }),
    ("14, empty", |input| {
        is_no_range(input, |range, _| range.start == range.end)
    }),
    ("14, turned round", |input| {
        is_no_range(input, |range, _| range.start > range.end)
    }),
    ("14, past the sky", |input| {
        is_no_range(input, |range, _| range.start < range.end && range.end > SKY)
    }),
    ("14, past the sky by one", |input| {
        is_no_range(input, |range, _| range.end == SKY + 1)
    }),
    ("14, touching", |input| {
        is_no_range(input, |range, before| {
            range.start < range.end && before == Some(range.start)
        })
    }),
    ("14, falling back", |input| {
        is_no_range(input, |range, before| {
            range.start < range.end && before.is_some_and(|before| range.start < before)
        })
    }),
    ("14 and no place", |input| {
        is_not_clipped(input, 14) && input.places[0] == 0
    }),
    ("11", |input| is_not_clipped(input, 11)),
    ("11 by one place", |input| {
        is_not_clipped(input, 11) && input.places[0] + 1 == input.cells().len()
    }),
];

#[test]
fn no_refusal_and_no_kind_of_clip_is_rare() {
    for classes in [CLIPPED, NOT_CLIPPED] {
        let mut random = Random::new(20);
        let drawn = (0..DRAWN / 4).map(|_| ClipInput::random(&mut random));
        assert_none_is_rare(drawn, classes);
    }
}
