//! The asks and commits drawn: none of what they are to show is rare, and a pool is an ask followed by its
//! commit.

mod kept;

use differential::{
    cells::Cell,
    compare::Kind,
    kinds::{Ask, Commit, CommitInput},
    pairs::{Input, Pooled},
    random::Random,
};
use mom::{Figures, Refusal};

const DRAWN: usize = 10_000;

type Class<T> = (&'static str, fn(&T) -> bool);

fn assert_none_is_rare<T>(drawn: &[T], classes: &[Class<T>]) {
    for (name, is_in) in classes {
        let found = drawn.iter().filter(|drawn| is_in(drawn)).count();
        assert!(found * 1000 > DRAWN, "{name}: {found} of {DRAWN}");
    }
}

/// A pair with what an ask of it comes to, and the overlay cells where it is not refused.
struct Asked {
    input: Input<u32>,
    asked: Result<Pooled, Refusal>,
    cells: Vec<Cell>,
}

impl Asked {
    fn new(input: Input<u32>) -> Self {
        let asked = input.asked();
        let kept = asked.as_ref().map_or(vec![], |_| input.kept());
        let cells = kept.into_iter().map(|(cell, _)| cell).collect();
        Asked {
            input,
            asked,
            cells,
        }
    }

    fn is_refused(&self, number: u8) -> bool {
        self.asked
            .as_ref()
            .is_err_and(|refusal| refusal.number() == number)
    }

    /// Whether the pool is refused by this number though the ask is not.
    fn is_output_refused(&self, number: u8) -> bool {
        let refusal = self.input.refusal();
        self.asked.is_ok() && refusal.is_some_and(|refusal| refusal.number() == number)
    }

    /// Whether it is answered as `is` asks, by the figures and by how many entries the two maps have.
    fn is_answered(&self, is: impl Fn(Figures, usize) -> bool) -> bool {
        let given = self.input.left.zuniqs.len() + self.input.right.zuniqs.len();
        self.asked
            .as_ref()
            .is_ok_and(|pooled| is(pooled.figures(), given))
    }

    /// Whether an entry is merged from cells of which the last is so many levels below it: up to then all
    /// before it stay open, three on each level.
    fn is_open_through(&self, levels: u8) -> bool {
        let entries = self.asked.iter().flat_map(|pooled| &pooled.entries);
        let mut entries = entries.filter_map(|&(zuniq, _)| Cell::of_zuniq(zuniq));
        entries.any(|entry| {
            let last = self.cells.iter().rfind(|cell| cell.overlaps(entry));
            last.is_some_and(|last| last.depth >= entry.depth + levels)
        })
    }

    /// Whether the map that is asked for is as `is` says, with its list.
    fn is_listed(&self, is: impl Fn(kept::Map) -> bool) -> bool {
        let listed = self.input.protected.iter();
        let listed: Vec<Cell> = listed.filter_map(|&zuniq| Cell::of_zuniq(zuniq)).collect();
        let entries = self.asked.iter().flat_map(|pooled| &pooled.entries);
        let entries = entries.filter_map(|&(z, count)| Some((Cell::of_zuniq(z)?, count)));
        is(kept::Map {
            entries: &entries.collect::<Vec<_>>(),
            listed: &listed,
            depth_threshold: self.input.depth_threshold,
            chi2_threshold: self.input.chi2_threshold.0,
        })
    }

    /// Whether something merges, and some cell doesn't follow on the one before.
    fn is_merged_about_a_gap(&self) -> bool {
        let gap = |pair: &[Cell]| {
            let first = |cell: Cell| cell.descendant(29, 0).hash;
            let width = 1 << (2 * (29 - pair[0].depth));
            first(pair[0]) + width < first(pair[1])
        };
        self.is_answered(|figures, _| figures.entries < figures.cells)
            && self.cells.windows(2).any(gap)
    }
}

const ASKS: &[Class<Asked>] = &[
    ("answered", |asked| asked.asked.is_ok()),
    ("no cells", |asked| {
        asked.is_answered(|figures, _| figures.cells == 0)
    }),
    ("over 50 cells", |asked| {
        asked.is_answered(|figures, _| figures.cells > 50)
    }),
    ("fewer cells than given", |asked| {
        asked.is_answered(|figures, given| figures.cells < given)
    }),
    ("more cells than given", |asked| {
        asked.is_answered(|figures, given| figures.cells > given)
    }),
    ("merged", |asked| {
        asked.is_answered(|figures, _| figures.entries < figures.cells)
    }),
    ("all of over 50 merged to one", |asked| {
        asked.is_answered(|figures, _| figures.cells > 50 && figures.entries == 1)
    }),
    ("nothing merged of over 20", |asked| {
        asked.is_answered(|figures, _| figures.cells > 20 && figures.entries == figures.cells)
    }),
    ("a total of 0", |asked| {
        asked.is_answered(|figures, _| figures.cells > 0 && figures.total == 0)
    }),
    ("a total over 2^31", |asked| {
        asked.is_answered(|figures, _| figures.total > 1 << 31)
    }),
    ("open through 3 levels", |asked| asked.is_open_through(3)),
    ("open through 20 levels", |asked| asked.is_open_through(20)),
    ("merged about a gap", |asked| asked.is_merged_about_a_gap()),
    ("1", |asked| asked.is_refused(1)),
    ("2", |asked| asked.is_refused(2)),
    ("3", |asked| asked.is_refused(3)),
    ("15", |asked| asked.is_refused(15)),
    ("4", |asked| asked.is_refused(4)),
    ("5", |asked| asked.is_refused(5)),
    ("10", |asked| asked.is_refused(10)),
    ("4 of an output", |asked| asked.is_output_refused(4)),
    ("11 of an output", |asked| asked.is_output_refused(11)),
];

/// Blank sky under a list (note 11), which the small pairs reach too.
const LISTED_BLANKS: &[Class<Asked>] = &[
    ("kept", |asked| asked.is_listed(|map| map.keeps_blanks())),
    ("kept, with what is above", |asked| {
        asked.is_listed(|map| map.is_apart_above_blanks())
    }),
    ("entries that are more than before", |asked| {
        let former = asked.input.former_figures();
        let is_more = |asked: Figures| former.is_some_and(|former| former.entries < asked.entries);
        asked.is_answered(|figures, _| is_more(figures))
    }),
];

#[test]
fn no_kind_of_ask_is_rare() {
    let mut random = Random::new(45);
    let draw = |_| Asked::new(Input::random(&mut random));
    let drawn: Vec<Asked> = (0..DRAWN).map(draw).collect();
    assert_none_is_rare(&drawn, ASKS);
    assert_none_is_rare(&drawn, LISTED_BLANKS);
    let small = Ask::small().filter(|pair| !pair.protected.is_empty());
    let small: Vec<Asked> = small.map(Asked::new).collect();
    for (name, is_in) in LISTED_BLANKS {
        assert!(small.iter().any(is_in), "{name}");
    }
}

/// A commit with the figures that are asked for, and how it is refused.
struct Drawn {
    input: CommitInput,
    asked: Option<Figures>,
    refusal: Option<Refusal>,
}

impl Drawn {
    fn new(input: CommitInput) -> Self {
        let asked = input.pair.asked().ok().map(|pooled| pooled.figures());
        let refusal = input.judged().given.0.err();
        Drawn {
            input,
            asked,
            refusal,
        }
    }

    fn is_refused(&self, number: u8) -> bool {
        self.refusal
            .is_some_and(|refusal| refusal.number() == number)
    }

    /// Whether it is refused by 16, and figures given and asked for are as `is` says.
    fn differ(&self, is: impl Fn(Figures, Figures) -> bool) -> bool {
        let asked = self.asked;
        self.is_refused(16) && asked.is_some_and(|asked| is(self.input.figures(), asked))
    }

    /// Whether it is refused by 16 with the figures that an ask told before note 11.
    fn has_former_figures(&self) -> bool {
        self.differ(|given, _| self.input.pair.former_figures() == Some(given))
    }

    fn places(&self) -> usize {
        self.input.pair.places[0]
    }

    fn is_accepted(&self, is: impl Fn(Figures) -> bool) -> bool {
        self.refusal.is_none() && self.asked.is_some_and(is)
    }

    /// Whether it is refused by this number, whatever its figures: an ask is refused too.
    fn is_refused_with(&self, number: u8, is: impl Fn(Figures) -> bool) -> bool {
        self.is_refused(number) && self.asked.is_none() && is(self.input.figures())
    }
}

const NONE: Figures = Figures {
    cells: 0,
    entries: 0,
    total: 0,
};

const COMMITS: &[Class<Drawn>] = &[
    ("accepted", |drawn| drawn.is_accepted(|_| true)),
    ("merged", |drawn| {
        drawn.is_accepted(|asked| asked.entries < asked.cells)
    }),
    ("exactly full", |drawn| {
        drawn.is_accepted(|asked| asked.cells > 0 && drawn.places() == asked.cells)
    }),
    ("a cell more", |drawn| {
        drawn.differ(|given, asked| {
            given
                == Figures {
                    cells: asked.cells + 1,
                    ..asked
                }
        })
    }),
    ("a cell less", |drawn| {
        drawn.differ(|given, asked| {
            asked
                == Figures {
                    cells: given.cells.wrapping_add(1),
                    ..given
                }
        })
    }),
    ("an entry more", |drawn| {
        drawn.differ(|given, asked| {
            given
                == Figures {
                    entries: asked.entries + 1,
                    ..asked
                }
        })
    }),
    ("an entry less", |drawn| {
        drawn.differ(|given, asked| {
            asked
                == Figures {
                    entries: given.entries.wrapping_add(1),
                    ..given
                }
        })
    }),
    ("one more in total", |drawn| {
        drawn.differ(|given, asked| {
            given
                == Figures {
                    total: asked.total.wrapping_add(1),
                    ..asked
                }
        })
    }),
    ("one less in total", |drawn| {
        drawn.differ(|given, asked| {
            asked
                == Figures {
                    total: given.total.wrapping_add(1),
                    ..given
                }
        })
    }),
    ("a high bit of the cells", |drawn| {
        drawn.differ(|given, asked| {
            given.cells != asked.cells && given.cells as u32 == asked.cells as u32
        })
    }),
    ("a high bit of the entries", |drawn| {
        drawn.differ(|given, asked| {
            given.entries != asked.entries && given.entries as u32 == asked.entries as u32
        })
    }),
    ("cells and entries for each other", |drawn| {
        drawn.differ(|given, asked| {
            given.cells < given.entries
                && (given.cells, given.entries) == (asked.entries, asked.cells)
        })
    }),
    ("the former figures", |drawn| drawn.has_former_figures()),
    ("no figures", |drawn| drawn.differ(|given, _| given == NONE)),
    ("16 where 11 applies", |drawn| {
        drawn.differ(|_, asked| drawn.places() < asked.cells)
    }),
    ("16 where the places are as many as said", |drawn| {
        drawn.differ(|given, asked| given.cells != asked.cells && drawn.places() == given.cells)
    }),
    ("11", |drawn| drawn.is_refused(11)),
    ("10", |drawn| drawn.is_refused_with(10, |_| true)),
    ("10 with other figures", |drawn| {
        drawn.is_refused_with(10, |given| given != NONE)
    }),
    ("5", |drawn| drawn.is_refused_with(5, |_| true)),
    ("4", |drawn| drawn.is_refused_with(4, |_| true)),
    ("4 of the output alone", |drawn| {
        drawn.is_refused(4) && drawn.asked.is_some()
    }),
    ("15", |drawn| drawn.is_refused_with(15, |_| true)),
    ("1, 2 or 3", |drawn| {
        (1..=3).any(|number| drawn.is_refused_with(number, |_| true))
    }),
];

#[test]
fn no_kind_of_commit_is_rare() {
    let mut random = Random::new(46);
    let draw = |_| Drawn::new(CommitInput::random(&mut random));
    let drawn: Vec<Drawn> = (0..DRAWN).map(draw).collect();
    assert_none_is_rare(&drawn, COMMITS);
    let mut small = Commit::small().map(Drawn::new);
    assert!(small.any(|drawn| drawn.has_former_figures()));
}

/// "Where its output buffers are of equal length, equals an ask followed by its commit, in its refusals too."
/// Where they are not, a pool is refused by 4 before an invalid map is looked at, and an ask by 5.
#[test]
fn no_pool_is_other_than_its_ask_and_commit() {
    let mut random = Random::new(47);
    let (mut same, mut other) = (0, 0);
    for _ in 0..DRAWN {
        let input = CommitInput::random(&mut random);
        let [places, of_counts] = input.pair.places;
        for done in Commit::ours(&input) {
            if places == of_counts {
                assert_eq!(done.asked, done.pool, "{input:?}");
                same += 1;
            } else if done.asked != done.pool {
                let numbers = [done.asked, done.pool].map(|step| step.0.map_err(Refusal::number));
                assert!(matches!(numbers, [Err(5 | 10), Err(4)]), "{input:?}");
                other += 1;
            }
        }
    }
    assert!(same > DRAWN && other > 0, "{same} and {other}");
}

/// The cells that the original's rule is handed are those of the overlay's definition.
#[test]
fn no_cell_of_an_overlay_is_counted_otherwise_by_the_original() {
    let mut random = Random::new(48);
    for _ in 0..DRAWN {
        let input = Input::<u32>::random(&mut random);
        if let Ok(pooled) = input.asked() {
            assert_eq!(pooled.cells, input.kept().len(), "{input:?}");
        }
    }
}
