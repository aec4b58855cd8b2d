//! Wrong asks and commits of note 8 of 02: the pairs and figures drawn must tell each from the original's
//! `merge` and the table often enough for a short run to find it. The right ones stand here a third time, an
//! ask counting its entries as it goes, with no map at hand, so that each wrong one differs in one thing.

mod decisions;

use decisions::{decide, wrong_decisions, Decision, Four};
use differential::{
    cells::Cell,
    kinds::CommitInput,
    lists::{Answer, Step, Value},
    pairs::{overlay, Combine, Input},
    random::Random,
};
use mom::{Figures, Refusal};

const DRAWN: usize = 5_000;

fn assert_often(wrong: &str, differing: usize) {
    assert!(differing * 1000 > DRAWN, "{wrong}: {differing} of {DRAWN}");
}

/// How the entries of a pool are counted while its cells come: those to which more may come are live, with
/// their counts, and the others settled, which leaves no more of them than their number.
struct Counting {
    /// How many of the live ones, from the first on, the next cell settles.
    settled: fn(&[(Cell, u32)], Cell) -> usize,
    /// How many are counted of so many that a cell settles, by whether it follows on them.
    counted: fn(usize, bool) -> usize,
    /// How many of the live ones are counted at the end.
    at_end: fn(usize) -> usize,
    /// How many merges may follow a cell, by the cells behind.
    most_merges: fn(usize) -> usize,
    decides: Decision,
}

/// The first hash of depth 29 in a cell, and the first behind it.
fn ends(cell: Cell) -> (u64, u64) {
    let width = 1 << (2 * (29 - cell.depth));
    (cell.hash * width, (cell.hash + 1) * width)
}

/// Whether a cell comes under the parent of another one.
fn shares_parent(cell: Cell, next: Cell) -> bool {
    let parent = cell.depth.checked_sub(1).map(|depth| cell.ancestor(depth));
    parent.is_some_and(|parent| parent.overlaps(next) && parent.depth < next.depth)
}

/// Up to the last one whose parent the next cell doesn't lie in.
fn out_of_reach(live: &[(Cell, u32)], next: Cell) -> usize {
    let last = live
        .iter()
        .rposition(|&(cell, _)| !shares_parent(cell, next));
    last.map_or(0, |last| last + 1)
}

impl Counting {
    fn right() -> Self {
        Counting {
            settled: out_of_reach,
            counted: |settled, _| settled,
            at_end: |live| live,
            most_merges: |_| 29,
            decides: decide,
        }
    }

    fn entries(&self, input: &Input<u32>, kept: &[(Cell, u32)]) -> usize {
        let mut live: Vec<(Cell, u32)> = Vec::new();
        let mut entries = 0;
        for (place, &(cell, count)) in kept.iter().enumerate() {
            let follows = live
                .last()
                .is_some_and(|last| ends(last.0).1 == ends(cell).0);
            let settled = (self.settled)(&live, cell);
            entries += (self.counted)(settled, follows);
            live.drain(..settled);
            live.push((cell, count));
            for _ in 0..(self.most_merges)(kept.len() - 1 - place) {
                let Some(parent) = self.parent(input, &live) else {
                    break;
                };
                live.truncate(live.len() - 4);
                live.push(parent);
            }
        }
        entries + (self.at_end)(live.len())
    }

    /// What the last four become, if they are merged.
    fn parent(&self, input: &Input<u32>, live: &[(Cell, u32)]) -> Option<(Cell, u32)> {
        let four: [(Cell, u32); 4] = *live.last_chunk()?;
        let (cells, counts) = (four.map(|entry| entry.0), four.map(|entry| entry.1));
        let depth = cells[0].depth.checked_sub(1)?;
        let parent = cells[0].ancestor(depth);
        if cells != parent.children() || depth < input.depth_threshold {
            return None;
        }
        let merges = (self.decides)(Four {
            is_blank: u32::are_blank(counts),
            is_listed: input.protected.contains(&parent.zuniq()),
            has_list: !input.protected.is_empty(),
            by_chi: u32::chi2(counts, depth) < input.chi2_threshold.0,
            t: input.chi2_threshold.0,
        });
        merges.then(|| (parent, u32::merged(counts)))
    }
}

/// A pair with what an ask of it is answered, and the overlay cells where it is not refused.
struct Asked {
    input: Input<u32>,
    right: Result<Figures, Refusal>,
    kept: Vec<(Cell, u32)>,
}

fn drawn(seed: u64) -> Vec<Asked> {
    let mut random = Random::new(seed);
    let draw = |_| {
        let input = Input::<u32>::random(&mut random);
        let right = input.asked().map(|pooled| pooled.figures());
        let kept = right.map_or(vec![], |_| input.kept());
        Asked { input, right, kept }
    };
    (0..DRAWN).map(draw).collect()
}

impl Asked {
    /// With the entries counted so.
    fn figures(&self, counting: &Counting) -> Figures {
        Figures {
            cells: self.kept.len(),
            entries: counting.entries(&self.input, &self.kept),
            total: self.kept.iter().map(|&(_, count)| count).sum(),
        }
    }
}

/// How many are answered otherwise by these figures, or by this refusal.
fn differing(drawn: &[Asked], ask: impl Fn(&Asked) -> Result<Figures, Refusal>) -> usize {
    drawn
        .iter()
        .filter(|asked| ask(asked) != asked.right)
        .count()
}

/// By the right ones.
type WrongFigures = (&'static str, fn(&Asked, Figures) -> Figures);

const WRONG_FIGURES: [WrongFigures; 9] = [
    ("entries before merging", |_, right| Figures {
        entries: right.cells,
        ..right
    }),
    ("cells after merging", |_, right| Figures {
        cells: right.entries,
        ..right
    }),
    ("two figures for each other", |_, right| Figures {
        cells: right.entries,
        entries: right.cells,
        ..right
    }),
    ("the entries of both maps for cells", |asked, right| {
        let cells = asked.input.left.zuniqs.len() + asked.input.right.zuniqs.len();
        Figures { cells, ..right }
    }),
    ("the larger map's entries for cells", |asked, right| {
        let (left, other) = (&asked.input.left.zuniqs, &asked.input.right.zuniqs);
        let cells = left.len().max(other.len());
        Figures { cells, ..right }
    }),
    ("a cell of both maps counted twice", |asked, right| {
        let (left, other) = (asked.input.left.entries(), asked.input.right.entries());
        let seen = overlay(&left, &other, u32::split).into_iter();
        let both = seen.filter(|seen| seen.left.is_some() && seen.right.is_some());
        let cells = right.cells + both.count();
        Figures { cells, ..right }
    }),
    ("remainders shared from child 0 on", |asked, right| {
        let (left, other) = (asked.input.left.entries(), asked.input.right.entries());
        let split = |cell, count| u32::split(Cell { hash: 0, ..cell }, count);
        let seen = overlay(&left, &other, split).into_iter();
        let kept =
            seen.filter_map(|seen| Some((seen.cell, u32::rule(1.0, seen.left, seen.right)?)));
        let entries = Counting::right().entries(&asked.input, &kept.collect::<Vec<_>>());
        Figures { entries, ..right }
    }),
    ("blank cells not counted", |asked, right| {
        let blanks = asked.kept.iter().filter(|(_, count)| *count == 0);
        let cells = right.cells - blanks.count();
        Figures { cells, ..right }
    }),
    ("the total of the left map", |asked, right| {
        let total = asked.input.left.values.iter().sum();
        Figures { total, ..right }
    }),
];

#[test]
fn no_wrong_figure_is_missed() {
    let drawn = drawn(41);
    let right = Counting::right();
    let answer = |asked: &Asked| asked.right.map(|_| asked.figures(&right));
    assert_eq!(differing(&drawn, answer), 0);
    for (name, wrong) in WRONG_FIGURES {
        let answer = |asked: &Asked| asked.right.map(|right| wrong(asked, right));
        assert_often(name, differing(&drawn, answer));
    }
}

/// Of what counts entries without a map at hand.
#[test]
fn no_chain_that_is_settled_wrongly_is_missed() {
    let drawn = drawn(42);
    macro_rules! found {
        ($wrong:literal, $field:ident: $rule:expr) => {
            let counting = Counting {
                $field: $rule,
                ..Counting::right()
            };
            let answer = |asked: &Asked| asked.right.map(|_| asked.figures(&counting));
            assert_often($wrong, differing(&drawn, answer));
        };
    }
    found!("the last chain forgotten", at_end: |_| 0);
    found!("the last one of the last chain alone", at_end: |live| live.min(1));
    found!("all but the last one of the last chain", at_end: |live| live.saturating_sub(1));
    found!("forgotten at a gap", counted: |settled, follows| if follows { settled } else { 0 });
    found!("forgotten without a gap", counted: |settled, follows| if follows { 0 } else { settled });
    found!("one for all that are settled at once", counted: |settled, _| settled.min(1));
    found!("a smaller cell settles what is before it", settled: |live, next| {
        let larger = live.iter().rposition(|(cell, _)| cell.depth < next.depth);
        out_of_reach(live, next).max(larger.map_or(0, |last| last + 1))
    });
    found!("no more than 60 live", settled: |live, next| {
        out_of_reach(live, next).max(live.len().saturating_sub(60))
    });
    found!("three levels live alone", settled: |live, next| {
        let far = live.iter().rposition(|(cell, _)| cell.depth + 3 < next.depth);
        out_of_reach(live, next).max(far.map_or(0, |last| last + 1))
    });
    found!("nothing merged", most_merges: |_| 0);
    found!("one merge a cell", most_merges: |_| 1);
    found!("the last quad untried", most_merges: |behind| if behind == 0 { 0 } else { 29 });
}

#[test]
fn no_entry_of_blank_sky_is_counted_by_another_rule() {
    let drawn = drawn(51);
    for (wrong, decides) in wrong_decisions() {
        let counting = Counting {
            decides,
            ..Counting::right()
        };
        let answer = |asked: &Asked| asked.right.map(|_| asked.figures(&counting));
        assert_often(wrong, differing(&drawn, answer));
    }
}

#[test]
fn no_wrong_refusal_of_an_ask_is_missed() {
    let drawn = drawn(43);
    let assert_found = |wrong: &str, refusal: &dyn Fn(&Asked) -> Option<Refusal>| {
        let asked = drawn.iter();
        let differing = asked.filter(|asked| refusal(asked) != asked.right.err());
        assert_often(wrong, differing.count());
    };
    let right = |asked: &Asked| asked.right.err();
    for number in [1, 2, 3, 15, 4, 5, 10] {
        assert_found(&format!("never by {number}"), &|asked| {
            right(asked).filter(|refusal| refusal.number() != number)
        });
    }
    for number in [4, 11] {
        assert_found(&format!("by {number} of an output"), &|asked| {
            let of_pool = asked.input.refusal();
            let of_output = of_pool.filter(|refusal| refusal.number() == number);
            of_output.or(right(asked))
        });
    }
    assert_found("the place lost", &|asked| {
        right(asked).and_then(|refusal| Refusal::of(refusal.number(), 0))
    });
    assert_found("the right map before the left", &|asked| {
        asked.input.swapped().refusal_of_ask()
    });
}

/// A commit by rules of its own.
struct Program {
    /// Whether the figures given are taken for those asked for.
    same: fn(Figures, Figures) -> bool,
    /// Whether 11 is tried before 16.
    space_first: bool,
    /// How many places are asked for.
    places: fn(Figures) -> usize,
    /// What it tells in place of a refusal before 16.
    before: fn(Refusal) -> Refusal,
    /// What becomes of the output of a call that is refused, and of one that is not, as it is to be.
    refused: fn(Refusal, &mut [u64], &mut [u32]),
    accepted: fn(&Step<u32>, &mut [u64], &mut [u32]),
}

fn refusal(number: u8) -> Refusal {
    Refusal::of(number, 0).unwrap()
}

impl Program {
    fn right() -> Self {
        Program {
            same: |given, asked| given == asked,
            space_first: false,
            places: |asked| asked.cells,
            before: |refusal| refusal,
            refused: |_, _, _| {},
            accepted: |(_, left_zuniqs, left_counts), zuniqs, counts| {
                zuniqs.copy_from_slice(left_zuniqs);
                counts.copy_from_slice(left_counts);
            },
        }
    }

    /// What it leaves, by what an ask is answered and by what the pool leaves where it has places enough.
    fn step(&self, drawn: &Drawn) -> Step<u32> {
        let Drawn {
            input, asked, pool, ..
        } = drawn;
        input
            .pair
            .step(|zuniqs, counts| match self.refusal(input, *asked) {
                Some(refusal) => {
                    (self.refused)(refusal, zuniqs, counts);
                    Err(refusal)
                }
                None => self.accept(asked.unwrap(), pool, zuniqs, counts),
            })
    }

    fn accept(
        &self,
        asked: Figures,
        pool: &Step<u32>,
        zuniqs: &mut [u64],
        counts: &mut [u32],
    ) -> Answer<u32> {
        if pool.0.is_ok() {
            (self.accepted)(pool, zuniqs, counts);
        }
        Ok((asked.entries, asked.total))
    }

    fn refusal(&self, input: &CommitInput, asked: Result<Figures, Refusal>) -> Option<Refusal> {
        let before = input
            .pair
            .refusal()
            .filter(|refusal| refusal.number() != 11);
        let Ok(asked) = asked else {
            return before.map(self.before);
        };
        let differ = (16, !(self.same)(input.figures(), asked));
        let full = (11, input.pair.places[0] < (self.places)(asked));
        let rows = match self.space_first {
            true => [full, differ],
            false => [differ, full],
        };
        let row = rows.into_iter().find(|&(_, refused)| refused);
        before
            .map(self.before)
            .or(row.map(|(number, _)| refusal(number)))
    }
}

struct Drawn {
    input: CommitInput,
    asked: Result<Figures, Refusal>,
    pool: Step<u32>,
    right: Step<u32>,
}

fn drawn_commits(seed: u64) -> Vec<Drawn> {
    let mut random = Random::new(seed);
    let draw = |_| {
        let input = CommitInput::random(&mut random);
        let asked = input.pair.asked().map(|pooled| pooled.figures());
        let (pool, right) = (input.pair.judged(), input.judged().given);
        Drawn {
            input,
            asked,
            pool,
            right,
        }
    };
    (0..DRAWN).map(draw).collect()
}

/// The right commit, and then each wrong one, in which a rule is another.
macro_rules! assert_found {
    ($seed:literal, $($wrong:literal, $field:ident: $rule:expr;)*) => {
        let drawn = drawn_commits($seed);
        let differing = |program: &Program| {
            let commits = drawn.iter();
            commits.filter(|commit| program.step(commit) != commit.right).count()
        };
        assert_eq!(differing(&Program::right()), 0);
        $(
            let program = Program {
                $field: $rule,
                ..Program::right()
            };
            assert_often($wrong, differing(&program));
        )*
    };
}

#[test]
fn no_wrong_comparison_of_figures_is_missed() {
    assert_found! { 44,
        "any figures", same: |_, _| true;
        "never accepted", same: |_, _| false;
        "the cells not compared", same: |given, asked| {
            (given.entries, given.total) == (asked.entries, asked.total)
        };
        "the entries not compared", same: |given, asked| {
            (given.cells, given.total) == (asked.cells, asked.total)
        };
        "the total not compared", same: |given, asked| {
            (given.cells, given.entries) == (asked.cells, asked.entries)
        };
        "the cells alone", same: |given, asked| given.cells == asked.cells;
        "the entries alone", same: |given, asked| given.entries == asked.entries;
        "the total alone", same: |given, asked| given.total == asked.total;
        "more than there is", same: |given, asked| {
            given.cells >= asked.cells && given.entries >= asked.entries && given.total >= asked.total
        };
        "less than there is", same: |given, asked| {
            given.cells <= asked.cells && given.entries <= asked.entries && given.total <= asked.total
        };
        "the low bits of a number", same: |given, asked| {
            let low = |figures: Figures| [figures.cells as u32, figures.entries as u32, figures.total];
            low(given) == low(asked)
        };
        "the sum of the figures", same: |given, asked| {
            let sum = |f: Figures| f.cells.wrapping_add(f.entries).wrapping_add(f.total as usize);
            sum(given) == sum(asked)
        };
        "cells and entries in any order", same: |given, asked| {
            let swapped = Figures { cells: asked.entries, entries: asked.cells, ..asked };
            given == asked || given == swapped
        };
    }
}

/// In place of a refusal by this number.
fn early(number: u8, before: Refusal) -> Refusal {
    match before.number() == number {
        true => refusal(16),
        false => before,
    }
}

#[test]
fn no_wrong_order_of_a_commit_is_missed() {
    assert_found! { 49,
        "16 before 10", before: |before| early(10, before);
        "16 before 5", before: |before| early(5, before);
        "16 before 4", before: |before| early(4, before);
        "16 before 15", before: |before| early(15, before);
        "16 before 3", before: |before| early(3, before);
        "16 before 2", before: |before| early(2, before);
        "16 before 1", before: |before| early(1, before);
        "16 after 11", space_first: true;
        "places for the entries alone", places: |asked| asked.entries;
        "a place more than there are cells", places: |asked| asked.cells + 1;
    }
}

#[test]
fn no_wrong_output_of_a_commit_is_missed() {
    assert_found! { 50,
        "cleared by 16", refused: |refusal, zuniqs, _| {
            if refusal.number() == 16 {
                zuniqs.fill(0);
            }
        };
        "a count written by 16", refused: |refusal, _, counts| {
            if let (16, Some(first)) = (refusal.number(), counts.first_mut()) {
                *first = 0;
            }
        };
        "a count written by 11", refused: |refusal, _, counts| {
            if let (11, Some(first)) = (refusal.number(), counts.first_mut()) {
                *first = 0;
            }
        };
        "nothing pooled", accepted: |_, _, _| {};
        "the zuniqs alone", accepted: |(_, left, _), zuniqs, _| zuniqs.copy_from_slice(left);
        "the counts alone", accepted: |(_, _, left), _, counts| counts.copy_from_slice(left);
    }
}
