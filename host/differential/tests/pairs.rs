//! The pairs of maps drawn: none of what they are to show is rare, and pooling has no order.

mod kept;

use std::{collections::BTreeSet, fmt::Display};

use differential::{
    cells::{cells_to, Cell, DEPTH_MAX},
    compare::Kind,
    floats::Float,
    kinds::Pool,
    lists::Step,
    maps::Map,
    pairs::{overlay, Combine, Input, Seen},
    random::Random,
};

const DRAWN: usize = 10_000;

/// A pair with what is to come out.
struct Drawn<V: Combine> {
    input: Input<V>,
    judged: Step<V>,
    /// The overlay, and what is split for it on each level, where the call is accepted.
    seen: Vec<Seen<V>>,
    split: Vec<(Cell, V)>,
}

fn drawn<V: Combine>(seed: u64) -> Vec<Drawn<V>> {
    let mut random = Random::new(seed);
    let draw = |_| Drawn::new(Input::<V>::random(&mut random));
    (0..DRAWN).map(draw).collect()
}

type Class<V> = (&'static str, fn(&Drawn<V>) -> bool);

fn assert_none_is_rare<V: Combine>(
    drawn: &[Drawn<V>],
    classes: &[(impl Display, impl Fn(&Drawn<V>) -> bool)],
) {
    for (name, is_in) in classes {
        let found = drawn.iter().filter(|pair| is_in(pair)).count();
        assert!(found * 1000 > DRAWN, "{name}: {found} of {DRAWN}");
    }
}

impl<V: Combine> Drawn<V> {
    fn new(input: Input<V>) -> Self {
        let judged = input.judged();
        let (seen, split) = match judged.0 {
            Ok(_) => input.overlaid(),
            Err(_) => (vec![], vec![]),
        };
        Drawn {
            input,
            judged,
            seen,
            split,
        }
    }

    fn is_refused(&self, number: u8) -> bool {
        self.judged
            .0
            .is_err_and(|refusal| refusal.number() == number)
    }

    fn is_refused_past_0(&self, number: u8) -> bool {
        let refusal = self.judged.0.err();
        refusal.is_some_and(|refusal| refusal.number() == number && refusal.place() > 0)
    }

    fn entries(&self) -> Vec<(Cell, V)> {
        let held = self.judged.0.map_or(0, |(entries, _)| entries);
        let cells = self.judged.1.iter().take(held);
        let cells = cells.filter_map(|&zuniq| Cell::of_zuniq(zuniq));
        cells.zip(self.judged.2.iter().copied()).collect()
    }

    /// How many levels an entry of the left map, or of the right one, is split through.
    fn splits(&self) -> [u8; 2] {
        [&self.input.left, &self.input.right].map(|map| {
            let levels = self.seen.iter().filter_map(|seen| {
                let mut entries = map.zuniqs.iter().filter_map(|&zuniq| Cell::of_zuniq(zuniq));
                let over = entries.find(|entry| entry.overlaps(seen.cell))?;
                Some(seen.cell.depth.saturating_sub(over.depth))
            });
            levels.max().unwrap_or(0)
        })
    }

    /// How many levels above the overlay's deepest cell in it an entry is.
    fn merges(&self) -> u8 {
        let levels = self.entries().into_iter().map(|(entry, _)| {
            let cells = self.seen.iter().map(|seen| seen.cell);
            let inside = cells.filter(|cell| cell.overlaps(entry));
            inside.map(|cell| cell.depth).max().unwrap_or(0) - entry.depth
        });
        levels.max().unwrap_or(0)
    }

    fn both(&self) -> usize {
        let both = |seen: &&Seen<V>| seen.left.is_some() && seen.right.is_some();
        self.seen.iter().filter(both).count()
    }

    fn is_empty(&self) -> [bool; 2] {
        [&self.input.left, &self.input.right].map(|map| map.zuniqs.is_empty())
    }

    fn is_accepted(&self) -> bool {
        self.judged.0.is_ok()
    }

    fn listed(&self) -> Vec<Cell> {
        let list = self.input.protected.iter();
        list.filter_map(|&zuniq| Cell::of_zuniq(zuniq)).collect()
    }

    /// Whether four stay that would be merged but for the list, and their parent is as `is` asks.
    fn keeps_listed(&self, is: impl Fn(Cell, &[Cell]) -> bool) -> bool {
        let listed = self.listed();
        self.entries().windows(4).any(|four| {
            let first = four[0].0;
            let Some(depth) = first.depth.checked_sub(1) else {
                return false;
            };
            let parent = first.ancestor(depth);
            let chi = V::chi2([0, 1, 2, 3].map(|child: usize| four[child].1), depth);
            four.iter().map(|entry| entry.0).eq(parent.children())
                && depth >= self.input.depth_threshold
                && chi < self.input.chi2_threshold.0
                && listed.contains(&parent)
                && is(parent, &listed)
        })
    }

    /// What lists show with counts and densities.
    fn classes_of_lists() -> Vec<Class<V>> {
        vec![
            ("15", |pair| pair.is_refused(15)),
            ("15 past place 0", |pair| pair.is_refused_past_0(15)),
            ("no list", |pair| {
                pair.is_accepted() && pair.input.protected.is_empty()
            }),
            ("over 20 listed", |pair| {
                pair.is_accepted() && pair.input.protected.len() > 20
            }),
            ("kept by the list", |pair| pair.keeps_listed(|_, _| true)),
            ("kept after a merge", |pair| {
                pair.keeps_listed(|parent, _| {
                    let mut seen = pair.seen.iter().map(|seen| seen.cell);
                    seen.any(|cell| cell.depth > parent.depth + 1 && cell.overlaps(parent))
                })
            }),
            ("kept after a split", |pair| {
                pair.keeps_listed(|parent, _| {
                    let zuniqs = [&pair.input.left.zuniqs, &pair.input.right.zuniqs];
                    zuniqs.iter().any(|zuniqs| zuniqs.contains(&parent.zuniq()))
                })
            }),
            ("kept by the first of several", |pair| {
                pair.keeps_listed(|parent, list| list.len() > 1 && list[0] == parent)
            }),
            ("kept by the last of several", |pair| {
                pair.keeps_listed(|parent, list| list.len() > 1 && list.last() == Some(&parent))
            }),
            ("kept inside another listed one", |pair| {
                pair.keeps_listed(|parent, list| {
                    let mut others = list.iter();
                    others.any(|cell| cell.depth < parent.depth && cell.overlaps(parent))
                })
            }),
            ("merged beside a listed one", |pair| {
                pair.merges() > 0 && pair.keeps_listed(|_, _| true)
            }),
        ]
    }

    /// What counts and densities have in common.
    fn classes() -> Vec<Class<V>> {
        vec![
            ("accepted", |pair| pair.is_accepted()),
            ("merged", |pair| pair.merges() > 0),
            ("merged through three levels", |pair| pair.merges() > 2),
            ("merged through ten levels", |pair| pair.merges() > 9),
            ("the left split", |pair| pair.splits()[0] > 0),
            ("the right split", |pair| pair.splits()[1] > 0),
            ("both split", |pair| pair.splits().iter().all(|&n| n > 0)),
            ("the left split through 20", |pair| pair.splits()[0] > 19),
            ("the right split through 20", |pair| pair.splits()[1] > 19),
            ("in both maps", |pair| pair.both() > 0),
            ("in no two maps", |pair| {
                pair.both() == 0 && !pair.seen.is_empty()
            }),
            ("the left empty", |pair| {
                pair.is_accepted() && pair.is_empty() == [true, false]
            }),
            ("the right empty", |pair| {
                pair.is_accepted() && pair.is_empty() == [false, true]
            }),
            ("both empty", |pair| {
                pair.is_accepted() && pair.is_empty() == [true, true]
            }),
            ("equal cells", |pair| {
                let (left, right) = (&pair.input.left, &pair.input.right);
                pair.is_accepted() && left.zuniqs == right.zuniqs && left.zuniqs.len() > 2
            }),
            ("over 50 entries", |pair| pair.entries().len() > 50),
            ("exactly full", |pair| {
                let kept = pair.seen.len();
                pair.is_accepted() && pair.input.places[0] == kept && kept > 0
            }),
            ("depth 0", |pair| {
                pair.is_accepted() && pair.input.left.depth == 0 && pair.input.right.depth == 0
            }),
            ("depth 29", |pair| {
                pair.is_accepted() && pair.input.left.depth == DEPTH_MAX
            }),
            ("the last cell of the sky", |pair| {
                let last = pair.seen.last().map(|seen| seen.cell);
                last.is_some_and(|cell| cell.descendant(DEPTH_MAX, u64::MAX).hash + 1 == 12 << 58)
            }),
            ("1", |pair| pair.is_refused(1)),
            ("2", |pair| pair.is_refused(2)),
            ("3", |pair| pair.is_refused(3)),
            ("4", |pair| pair.is_refused(4)),
            ("5", |pair| pair.is_refused(5)),
            ("5 past place 0", |pair| pair.is_refused_past_0(5)),
            ("10", |pair| pair.is_refused(10)),
            ("11", |pair| pair.is_refused(11)),
        ]
    }
}

#[test]
fn no_kind_of_pool_is_rare() {
    let mut classes = Drawn::<u32>::classes();
    classes.extend([
        (
            "a count of a split 0",
            (|pair| {
                let zero = |seen: &Seen<u32>| seen.left == Some(0) && seen.right.is_some();
                pair.seen.iter().any(zero)
            }) as fn(&Drawn<u32>) -> bool,
        ),
        ("a merged 0", |pair| {
            pair.merges() > 0 && pair.entries().iter().any(|&(_, count)| count == 0)
        }),
        ("over 2^31", |pair| {
            pair.judged.0.is_ok_and(|(_, total)| total > 1 << 31)
        }),
    ]);
    assert_none_is_rare(&drawn(21), &classes);
}

impl Drawn<u32> {
    fn t(&self) -> f64 {
        self.input.chi2_threshold.0
    }

    /// Whether T is not above 0 and there is a merged entry of 0 that is as `is` asks, by its cell and
    /// the overlay cells in it.
    fn merges_blanks(&self, is: impl Fn(Cell, &[&Seen<u32>]) -> bool) -> bool {
        self.t() <= 0.0
            && self.entries().iter().any(|&(entry, count)| {
                let below =
                    |seen: &&Seen<u32>| seen.cell.depth > entry.depth && seen.cell.overlaps(entry);
                let inside: Vec<_> = self.seen.iter().filter(below).collect();
                count == 0 && !inside.is_empty() && is(entry, &inside)
            })
    }

    /// Whether a cell is split that shares so many extra ones from its child `first` on.
    fn shares(&self, first: u64, extra: u32) -> bool {
        let mut split = self.split.iter();
        split.any(|&(cell, count)| cell.hash % 4 == first && count % 4 == extra)
    }

    /// Whether that is so, with any number of them, where the cell got one of its parent's extra ones.
    fn shares_on(&self, first: u64) -> bool {
        self.split.iter().any(|&(cell, count)| {
            let got_one = |&(parent, of_parent): &(Cell, u32)| {
                parent.children().contains(&cell) && count > of_parent / 4
            };
            cell.hash % 4 == first && count % 4 > 0 && self.split.iter().any(got_one)
        })
    }

    /// Whether the map is as `is` asks, with its list.
    fn is_listed(&self, is: impl Fn(kept::Map) -> bool) -> bool {
        is(kept::Map {
            entries: &self.entries(),
            listed: &self.listed(),
            depth_threshold: self.input.depth_threshold,
            chi2_threshold: self.t(),
        })
    }

    /// Whether T is not above 0 and four siblings of 0 stay.
    fn keeps_blanks(&self) -> bool {
        self.t() <= 0.0
            && self.entries().windows(4).any(|four| {
                let first = four[0].0;
                let is_child = |place: usize| {
                    let (cell, count) = four[place];
                    count == 0 && cell == first.ancestor(first.depth - 1).children()[place]
                };
                first.depth > 0 && (0..4).all(is_child)
            })
    }
}

/// "The extra ones go to children h mod 4, (h + 1) mod 4 and onwards, (v mod 4) of them."
#[test]
fn no_remainder_under_any_hash_is_rare() {
    let drawn = drawn(28);
    let remainders = (0..12).map(|way| (way / 3, way as u32 % 3 + 1));
    let classes = remainders.map(|(first, extra)| {
        let name = format!("{extra} from child {first} on");
        (name, move |pair: &Drawn<u32>| pair.shares(first, extra))
    });
    assert_none_is_rare(&drawn, &classes.collect::<Vec<_>>());
    let classes = (0..4).map(|first| {
        let name = format!("an extra one shared on from child {first} on");
        (name, move |pair: &Drawn<u32>| pair.shares_on(first))
    });
    assert_none_is_rare(&drawn, &classes.collect::<Vec<_>>());
}

const BLANK_POOLS: &[Class<u32>] = &[
    ("0", |pair| {
        pair.merges_blanks(|_, _| Float(pair.t()) == Float(0.0))
    }),
    ("-0", |pair| {
        pair.merges_blanks(|_, _| Float(pair.t()) == Float(-0.0))
    }),
    ("below 0", |pair| {
        pair.merges_blanks(|_, _| pair.t() < 0.0 && pair.t().is_finite())
    }),
    ("-infinity", |pair| {
        pair.merges_blanks(|_, _| pair.t() == f64::NEG_INFINITY)
    }),
    ("through three levels", |pair| {
        pair.merges_blanks(|entry, inside| inside.iter().any(|s| s.cell.depth > entry.depth + 2))
    }),
    ("of both maps", |pair| {
        pair.merges_blanks(|_, inside| {
            inside.iter().any(|s| s.left.is_some()) && inside.iter().any(|s| s.right.is_some())
        })
    }),
    ("as far as M", |pair| {
        pair.merges_blanks(|entry, _| entry.depth == pair.input.depth_threshold && entry.depth > 0)
    }),
    ("beside a source", |pair| {
        pair.merges_blanks(|_, _| pair.entries().iter().any(|&(_, count)| count > 0))
    }),
    ("kept below M", |pair| {
        pair.input.protected.is_empty() && pair.keeps_blanks()
    }),
];

/// Blank sky under a list (note 11), which the small pairs reach too.
const LISTED_BLANK_POOLS: &[Class<u32>] = &[
    ("kept, T up to 0", |pair| {
        pair.t() <= 0.0 && pair.is_listed(|map| map.keeps_blanks())
    }),
    ("kept, T above 0", |pair| {
        pair.t() > 0.0 && pair.is_listed(|map| map.keeps_blanks())
    }),
    ("kept, with what is above", |pair| {
        pair.is_listed(|map| map.is_apart_above_blanks())
    }),
    ("kept of a larger cell", |pair| {
        pair.splits().iter().any(|&n| n > 0) && pair.is_listed(|map| map.keeps_blanks())
    }),
    ("merged beside kept ones", |pair| {
        pair.merges_blanks(|_, _| true) && pair.is_listed(|map| map.keeps_blanks())
    }),
    ("merged where none is kept", |pair| {
        let is_kept = pair.is_listed(|map| map.keeps_blanks());
        !pair.input.protected.is_empty() && !is_kept && pair.merges_blanks(|_, _| true)
    }),
];

#[test]
fn no_blank_sky_is_rare_among_pools() {
    let drawn = drawn(25);
    assert_none_is_rare(&drawn, BLANK_POOLS);
    assert_none_is_rare(&drawn, LISTED_BLANK_POOLS);
    let small = Pool::small().filter(|pair| !pair.protected.is_empty());
    let small: Vec<_> = small.map(Drawn::new).collect();
    for (name, is_in) in LISTED_BLANK_POOLS {
        assert!(small.iter().any(is_in), "{name}");
    }
}

#[test]
fn no_protection_is_rare_in_combining() {
    assert_none_is_rare(&drawn(26), &Drawn::<u32>::classes_of_lists());
    assert_none_is_rare(&drawn(27), &Drawn::<Float>::classes_of_lists());
}

#[test]
fn no_kind_of_product_is_rare() {
    let mut classes = Drawn::<Float>::classes();
    classes.extend([
        (
            "6",
            (|pair| pair.is_refused(6)) as fn(&Drawn<Float>) -> bool,
        ),
        ("6 past place 0", |pair| pair.is_refused_past_0(6)),
        ("a product of 0", |pair| {
            pair.entries().iter().any(|&(_, m)| m == Float(0.0))
        }),
        ("a product of −0", |pair| {
            pair.entries().iter().any(|&(_, m)| m == Float(-0.0))
        }),
        ("a subnormal product", |pair| {
            pair.entries().iter().any(|(_, m)| m.0.is_subnormal())
        }),
        ("a huge product", |pair| {
            pair.entries().iter().any(|(_, m)| m.0 > 1e300)
        }),
        ("k 0", |pair| {
            pair.is_accepted() && pair.input.factor.0 == 0.0
        }),
    ]);
    assert_none_is_rare(&drawn(22), &classes);
}

/// All of them are there without a list: 83 maps in a base cell with two values, or 17 with 0, at four settings;
/// an entry in another one of 465 pairs of depths, at three places with three values and two T; and one under each of
/// eight hashes, at four depths, with twelve counts and four ways down. Under a list there are some that it changes.
#[test]
fn no_small_pair_is_left_out() {
    let is_unlisted = |pair: &Input<u32>| pair.protected.is_empty();
    let (unlisted, listed): (Vec<_>, Vec<_>) = Pool::small().partition(is_unlisted);
    let (nested, shared) = (465 * 3 * 3 * 2, 8 * 4 * 12 * 4);
    assert_eq!(unlisted.len(), (83 * 83 + 17 * 17) * 4 + nested + shared);
    let changed = listed.iter().filter(|pair| {
        let unlisted = Input {
            protected: vec![],
            ..(*pair).clone()
        };
        u32::original(pair) != u32::original(&unlisted)
    });
    let (of_one, of_more): (Vec<_>, Vec<_>) = changed.partition(|pair| pair.protected.len() == 1);
    assert!(of_one.len() > 100 && of_more.len() > 100);
    assert!(listed.len() * 3 < unlisted.len());
}

/// Under every hash mod 4, each count mod 4 is split over each child: of a base cell and of a parent of depth 28,
/// and through three levels, from a base cell and down to depth 29.
#[test]
fn no_small_remainder_is_left_out() {
    let apart = Pool::small().filter(|pair| pair.depth_threshold == DEPTH_MAX);
    let split = apart.map(|pair| {
        let ((over, count), (under, _)) = (pair.left.entries()[0], pair.right.entries()[0]);
        let depths = (over.depth, under.depth);
        (depths, over.hash % 4, count % 4, under.hash % 4)
    });
    let split: BTreeSet<_> = split.collect();
    for depths in [(0, 1), (28, 29), (0, 3), (26, 29)] {
        for way in 0..64 {
            let remainder = (depths, way / 16, way as u32 / 4 % 4, way % 4);
            assert!(split.contains(&remainder), "{remainder:?}");
        }
    }
}

/// "The largest cells that lie in an entry of at least one map and, for each map, lie in one of its
/// entries or overlap none", among all cells of depths 0 to 3.
#[test]
fn no_cell_of_an_overlay_is_made_up_or_missed() {
    let lies_in = |inner: Cell, outer: Cell| inner.depth >= outer.depth && inner.overlaps(outer);
    let mut random = Random::new(24);
    for _ in 0..300 {
        let maps = [0, 1].map(|_| {
            let depth = random.below(4) as u8;
            Map::random::<u64>(depth, &mut random)
        });
        let counted =
            |map: &Map| -> Vec<(Cell, u32)> { map.cells().iter().map(|&cell| (cell, 1)).collect() };
        let fits = |cell: Cell| {
            let over = |map: &Map| map.cells().iter().any(|&entry| lies_in(cell, entry));
            let apart = |map: &Map| !map.cells().iter().any(|&entry| cell.overlaps(entry));
            maps.iter().any(over) && maps.iter().all(|map| over(map) || apart(map))
        };
        let is_largest =
            |cell: &Cell| fits(*cell) && !(0..cell.depth).any(|depth| fits(cell.ancestor(depth)));
        let mut largest: Vec<Cell> = cells_to(3).filter(is_largest).collect();
        largest.sort_by_key(|cell| cell.zuniq::<u64>());
        let seen = overlay(&counted(&maps[0]), &counted(&maps[1]), |_, count| {
            [count; 4]
        });
        let seen: Vec<Cell> = seen.iter().map(|seen| seen.cell).collect();
        assert_eq!(seen, largest, "{maps:?}");
    }
}

/// "Swapped, with all else handed in alike, they give the same answer and output."
#[test]
fn no_order_changes_the_pool() {
    let mut random = Random::new(23);
    for _ in 0..DRAWN {
        let input = Input::<u32>::random(&mut random);
        let [given, swapped] = Pool::ours(&input);
        // Two invalid maps are told apart by which comes first.
        if given.0.is_err_and(|refusal| refusal.number() == 5) {
            continue;
        }
        assert_eq!(given, swapped, "{input:?}");
    }
}
