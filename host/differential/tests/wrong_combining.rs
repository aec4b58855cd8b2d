//! Wrong pool and product calls: the pairs of maps drawn must tell each from the original's `merge` and
//! the scope's table often enough for a short run to find it. What is right stands here a third time,
//! so that each wrong one differs from it in one thing.

mod decisions;
mod readings;

use std::ops::Range;

use decisions::{decide, decide_before, wrong_decisions, Decision, Four};
use differential::{
    cells::{Cell, DEPTH_MAX},
    compare::Kind,
    floats::Float,
    kinds::Pool,
    lists::{Answer, Step},
    pairs::{overlay, Combine, Given, Input},
    protected,
    random::Random,
};
use mom::Refusal;
use readings::{early, is_listed, late, wrong_checks, wrong_searches, Search};

const DRAWN: usize = 5_000;

struct Program<V: Combine> {
    /// By the cell that is split.
    split: fn(Cell, V) -> [V; 4],
    /// The cell that a split looks at, by the one that is split.
    split_by: fn(&Input<V>, Cell) -> Cell,
    rule: fn(f64, Option<V>, Option<V>) -> Option<V>,
    /// How many merges may follow a cell, by the cells behind.
    most_merges: fn(usize) -> usize,
    are_siblings: fn([Cell; 4]) -> bool,
    /// By the parent's depth less M, chi and T.
    merges: fn(i16, f64, f64) -> bool,
    /// Whether the four children of a parent of that depth are merged whatever their chi is.
    merges_blank: fn(&Input<V>, u8, [V; 4]) -> bool,
    /// Whether four are kept by the list of protected parents.
    is_listed: Search<u64>,
    decides: Decision,
    merged: fn([V; 4]) -> V,
    /// How many places behind the last entry are cleared: of zuniqs, and of values.
    cleared: fn(usize) -> [usize; 2],
    refuse: fn(Refusal, &mut [u64], &mut [V]) -> Refusal,
    /// Whether what the table refuses by 11 is, by the places and the entries of the map.
    is_full: fn(usize, usize) -> bool,
    total: fn(&Input<V>) -> V::Total,
}

fn total_of<V: Combine>(maps: &[&Given<V>]) -> V::Total {
    let entries: Vec<_> = maps.iter().flat_map(|map| map.entries()).collect();
    V::total(&entries)
}

impl<V: Combine> Program<V> {
    /// The scope's.
    fn right() -> Self {
        Program {
            split: V::split,
            split_by: |_, cell| cell,
            rule: V::rule,
            most_merges: |_| 29,
            are_siblings: |cells| {
                let [first, ..] = cells;
                first.depth > 0 && cells == first.ancestor(first.depth - 1).children()
            },
            merges: |above, chi, t| above >= 0 && chi < t,
            merges_blank: |input, parent, values| {
                parent >= input.depth_threshold && V::are_blank(values)
            },
            is_listed,
            decides: decide,
            merged: V::merged,
            cleared: |places| [places; 2],
            refuse: |refusal, _, _| refusal,
            is_full: |_, _| true,
            total: |input| total_of(&[&input.left, &input.right]),
        }
    }

    fn combined(&self, input: &Input<V>) -> Vec<(Cell, V)> {
        let (left, right) = (input.left.entries(), input.right.entries());
        let split = |cell, value| (self.split)((self.split_by)(input, cell), value);
        let seen = overlay(&left, &right, split).into_iter();
        let k = input.factor.0;
        let kept =
            seen.filter_map(|seen| Some((seen.cell, (self.rule)(k, seen.left, seen.right)?)));
        let kept: Vec<(Cell, V)> = kept.collect();
        let mut map = Vec::new();
        for (place, &entry) in kept.iter().enumerate() {
            map.push(entry);
            for _ in 0..(self.most_merges)(kept.len() - 1 - place) {
                let Some(parent) = self.parent(&map, input) else {
                    break;
                };
                map.truncate(map.len() - 4);
                map.push(parent);
            }
        }
        map
    }

    /// What the last four entries become, if they are merged.
    fn parent(&self, map: &[(Cell, V)], input: &Input<V>) -> Option<(Cell, V)> {
        let &[a, b, c, d] = map.last_chunk()?;
        let (cells, values) = ([a, b, c, d].map(|x| x.0), [a, b, c, d].map(|x| x.1));
        if !(self.are_siblings)(cells) {
            return None;
        }
        let depth = a.0.depth - 1;
        let above = depth as i16 - input.depth_threshold as i16;
        let chi = V::chi2(values, depth);
        let parent = a.0.ancestor(depth);
        let merges = (self.decides)(Four {
            is_blank: (self.merges_blank)(input, depth, values),
            is_listed: (self.is_listed)(&input.protected, parent),
            has_list: !input.protected.is_empty(),
            by_chi: (self.merges)(above, chi, input.chi2_threshold.0),
            t: input.chi2_threshold.0,
        });
        merges.then(|| (parent, (self.merged)(values)))
    }

    fn step(&self, input: &Input<V>, refusal: Option<Refusal>) -> Step<V> {
        input.step(|zuniqs, values| self.answer(input, refusal, zuniqs, values))
    }

    fn answer(
        &self,
        input: &Input<V>,
        refusal: Option<Refusal>,
        zuniqs: &mut [u64],
        values: &mut [V],
    ) -> Answer<V> {
        if let Some(refusal) = refusal.filter(|refusal| refusal.number() != 11) {
            return Err((self.refuse)(refusal, zuniqs, values));
        }
        let map = self.combined(input);
        let (places, entries) = (zuniqs.len(), map.len());
        if let Some(refusal) = refusal.filter(|_| (self.is_full)(places, entries)) {
            return Err((self.refuse)(refusal, zuniqs, values));
        }
        // A wrong rule may keep more than there are places for.
        let written = entries.min(places);
        for (place, &(cell, value)) in map[..written].iter().enumerate() {
            zuniqs[place] = cell.zuniq();
            values[place] = value;
        }
        let [of_zuniqs, of_values] = (self.cleared)(places - written);
        zuniqs[written..][..of_zuniqs].fill(0);
        values[written..][..of_values].fill(V::ZERO);
        Ok((entries, (self.total)(input)))
    }
}

/// Pairs, with what the table says of each and what is to come out.
struct Drawn<V: Combine>(Vec<(Input<V>, Option<Refusal>, Step<V>)>);

impl<V: Combine> Drawn<V> {
    fn new(seed: u64) -> Self {
        let mut random = Random::new(seed);
        Self::of((0..DRAWN).map(|_| Input::random(&mut random)))
    }

    fn of(inputs: impl Iterator<Item = Input<V>>) -> Self {
        let pairs = inputs.map(|input| {
            let (refusal, judged) = (input.refusal(), input.judged());
            (input, refusal, judged)
        });
        Drawn(pairs.collect())
    }

    fn differing(&self, program: &Program<V>) -> usize {
        let pairs = self.0.iter();
        pairs
            .filter(|(input, refusal, judged)| program.step(input, *refusal) != *judged)
            .count()
    }

    fn assert_found(&self, wrong: &str, program: Program<V>) {
        let differing = self.differing(&program);
        assert!(
            differing * 1000 > DRAWN,
            "{wrong}, {}: {differing} of {DRAWN}",
            V::CALL
        );
    }

    /// A program that refuses as `refusal` says, and is right in all else.
    fn assert_refusal_is_found(&self, wrong: &str, refusal: impl Fn(&Input<V>) -> Option<Refusal>) {
        let pairs = self.0.iter();
        let differing = pairs
            .filter(|(input, right, _)| refusal(input) != *right)
            .count();
        assert!(
            differing * 1000 > DRAWN,
            "{wrong}, {}: {differing} of {DRAWN}",
            V::CALL
        );
    }

    /// Wrong readings of note 7 that counts and densities have in common.
    fn assert_protection_is_found(&self) {
        assert_eq!(self.differing(&Program::right()), 0);
        for (wrong, is_listed) in wrong_searches() {
            let program = Program {
                is_listed,
                ..Program::right()
            };
            self.assert_found(wrong, program);
        }
        for (wrong, check) in wrong_checks() {
            self.assert_refusal_is_found(wrong, |input| input.refusal_by(check));
        }
        for number in [4, 5] {
            let wrong = format!("15 after {number}");
            self.assert_refusal_is_found(&wrong, |input| {
                late(number, input.refusal(), input.refusal_by(|_| None))
            });
        }
        for number in [1, 2, 3] {
            let wrong = format!("15 before {number}");
            self.assert_refusal_is_found(&wrong, |input| {
                early(number, input.refusal(), &input.protected)
            });
        }
    }

    /// What counts and densities have in common.
    fn assert_all_found(&self) {
        assert_eq!(self.differing(&Program::right()), 0);
        self.assert_refusal_is_found("the right map before the left", |input| {
            input.swapped().refusal()
        });
        macro_rules! found {
            ($wrong:literal, $field:ident: $rule:expr) => {
                let program = Program {
                    $field: $rule,
                    ..Program::right()
                };
                self.assert_found($wrong, program);
            };
        }
        found!("no merge", most_merges: |_| 0);
        found!("one merge a cell", most_merges: |_| 1);
        found!("the last quad untried", most_merges: |behind| if behind == 0 { 0 } else { 29 });
        found!("chi at T", merges: |above, chi, t| above >= 0 && chi <= t);
        found!("the child's depth", merges: |above, chi, t| above >= -1 && chi < t);
        found!("above M alone", merges: |above, chi, t| above > 0 && chi < t);
        found!("without T", merges: |above, _, _| above >= 0);
        found!("quads that straddle two parents", are_siblings: |cells| {
            let [first, ..] = cells;
            first.depth > 0 && (0..4).all(|place| {
                cells[place].depth == first.depth && cells[place].hash == first.hash + place as u64
            })
        });
        found!("a zuniq not cleared", cleared: |places| [places.saturating_sub(1), places]);
        found!("a value not cleared", cleared: |places| [places, places.saturating_sub(1)]);
        found!("the output cleared before 11 is known", refuse: |refusal, zuniqs, _| {
            if refusal.number() == 11 {
                zuniqs.fill(0);
            }
            refusal
        });
        found!("a value written before 11 is known", refuse: |refusal, _, values| {
            if let (11, Some(first)) = (refusal.number(), values.first_mut()) {
                *first = V::ZERO;
            }
            refusal
        });
        found!("a refused call clears the last value", refuse: |refusal, _, values| {
            if let Some(last) = values.last_mut() {
                *last = V::ZERO;
            }
            refusal
        });
        found!("the place of a refusal lost", refuse: |refusal, _, _| Refusal::of(refusal.number(), 0).unwrap());
        found!("places for the merged entries alone", is_full: |places, entries| places < entries);
        found!("both taking the left alone", rule: |k, left, right| match (left, right) {
            (Some(left), Some(_)) => Some(left),
            _ => V::rule(k, left, right),
        });
        found!("both taking the right alone", rule: |k, left, right| match (left, right) {
            (Some(_), Some(right)) => Some(right),
            _ => V::rule(k, left, right),
        });
    }
}

#[test]
fn no_wrong_pool_is_missed() {
    let drawn = Drawn::<u32>::new(31);
    drawn.assert_all_found();
    assert_eq!(drawn.differing(&splitting(u32::split)), 0);
    drawn.assert_found("a copy for each child", splitting(|_, count| [count; 4]));
    drawn.assert_found(
        "all to the first child",
        splitting(|_, count| [count, 0, 0, 0]),
    );
    drawn.assert_found(
        "a level's split skipped",
        splitting(|cell, count| match cell.depth {
            5 => [count, 0, 0, 0],
            _ => u32::split(cell, count),
        }),
    );
    drawn.assert_found(
        "the last level's split skipped",
        splitting(|cell, count| match cell.depth {
            28 => [count, 0, 0, 0],
            _ => u32::split(cell, count),
        }),
    );
    drawn.assert_found(
        "the first level's split skipped",
        splitting(|cell, count| match cell.depth {
            0 => [count, 0, 0, 0],
            _ => u32::split(cell, count),
        }),
    );
    let rule = |rule| Program {
        rule,
        ..Program::right()
    };
    drawn.assert_found(
        "the left alone dropped",
        rule(|_, left, right| Some(left.unwrap_or(0) + right?)),
    );
    drawn.assert_found(
        "the right alone dropped",
        rule(|_, left, right| Some(left? + right.unwrap_or(0))),
    );
    drawn.assert_found(
        "the right alone as 0",
        rule(|_, left, right| Some(left.map_or(0, |count| count + right.unwrap_or(0)))),
    );
    drawn.assert_found(
        "the total of the left map",
        Program {
            total: |input| total_of(&[&input.left]),
            ..Program::right()
        },
    );
    drawn.assert_found(
        "the merged mean",
        Program {
            merged: |counts| u32::merged(counts) / 4,
            ..Program::right()
        },
    );
}

/// A pool with another split. Counts that it makes too large are cut off.
fn splitting(split: fn(Cell, u32) -> [u32; 4]) -> Program<u32> {
    Program {
        split,
        rule: |_, left, right| Some(left.unwrap_or(0u32).saturating_add(right.unwrap_or(0))),
        merged: |counts| counts.into_iter().fold(0, u32::saturating_add),
        ..Program::right()
    }
}

/// A quarter for each child, and one more as often as it is given.
fn quarters(count: u32, given: impl Iterator<Item = u64>) -> [u32; 4] {
    let mut four = [count / 4; 4];
    given.for_each(|child| four[child as usize] += 1);
    four
}

/// The extra ones, from 0 on.
fn extra(count: u32) -> Range<u64> {
    0..u64::from(count % 4)
}

/// The entry that was split first, down to this cell.
fn entry_over(input: &Input<u32>, cell: Cell) -> Cell {
    let zuniqs = input.left.zuniqs.iter().chain(&input.right.zuniqs);
    let mut entries = zuniqs.filter_map(|&zuniq| Cell::of_zuniq(zuniq));
    let is_over = |entry: &Cell| entry.depth <= cell.depth && entry.overlaps(cell);
    entries.find(is_over).expect("what is split")
}

/// "The extra ones go to children h mod 4, (h + 1) mod 4 and onwards, (v mod 4) of them." Among the pairs
/// drawn, and among the small ones of which nothing is merged.
#[test]
fn no_wrong_sharing_of_a_remainder_is_missed() {
    assert_sharing_is_found(&Drawn::new(37));
    let small = Pool::small().filter(|pair| pair.depth_threshold == DEPTH_MAX);
    assert_sharing_is_found(&Drawn::of(small));
}

fn assert_sharing_is_found(drawn: &Drawn<u32>) {
    macro_rules! found {
        ($wrong:literal, split: $split:expr) => {
            drawn.assert_found($wrong, splitting($split));
        };
        ($wrong:literal, split_by: $split_by:expr) => {
            let program = Program {
                split_by: $split_by,
                ..Program::right()
            };
            drawn.assert_found($wrong, program);
        };
    }
    let right = splitting(|cell, count| quarters(count, extra(count).map(|n| (cell.hash + n) % 4)));
    assert_eq!(drawn.differing(&right), 0);
    found!("from child 0 on, as before", split_by: |_, cell| Cell { hash: 0, ..cell });
    found!("from the next child on", split_by: |_, cell| Cell { hash: cell.hash + 1, ..cell });
    found!("by the depth", split_by: |_, cell| Cell { hash: cell.depth.into(), ..cell });
    found!("by the cell one level above", split_by: |_, cell| Cell { hash: cell.hash / 4, ..cell });
    found!("by the base cell", split_by: |_, cell| cell.ancestor(0));
    found!("by the entry that was split first", split_by: entry_over);
    found!("by the hash on the first level alone", split_by: |input, cell| {
        if cell == entry_over(input, cell) { cell } else { Cell { hash: 0, ..cell } }
    });
    found!("by h mod 2", split_by: |_, cell| Cell { hash: cell.hash % 2, ..cell });
    found!("by the hash of each child", split: |cell, count| {
        let takes = |child: &u64| (child + 4 - (4 * cell.hash + child) % 4) % 4 < extra(count).end;
        quarters(count, (0..4).filter(takes))
    });
    found!("one too many", split: |cell, count| {
        quarters(count, (0..=extra(count).end).map(|n| (cell.hash + n) % 4))
    });
    found!("one too few", split: |cell, count| {
        quarters(count, extra(count).skip(1).map(|n| (cell.hash + n) % 4))
    });
    found!("all lost", split: |_, count| [count / 4; 4]);
    found!("downwards", split: |cell, count| {
        quarters(count, extra(count).map(|n| (cell.hash + 4 - n) % 4))
    });
    found!("the children before h mod 4", split: |cell, count| {
        quarters(count, extra(count).map(|n| (cell.hash + 3 - n) % 4))
    });
    found!("not going round", split: |cell, count| {
        quarters(count, extra(count).map(|n| cell.hash % 4 + n).filter(|&child| child < 4))
    });
    found!("the last child taking what would go round", split: |cell, count| {
        quarters(count, extra(count).map(|n| (cell.hash % 4 + n).min(3)))
    });
    found!("all to child h mod 4", split: |cell, count| {
        quarters(count, extra(count).map(|_| cell.hash % 4))
    });
    found!("all to child 0", split: |_, count| quarters(count, extra(count).map(|_| 0)));
    found!("to the last children", split: |_, count| {
        quarters(count, extra(count).map(|n| 3 - n))
    });
    found!("the children in falling order", split: |cell, count| {
        let [a, b, c, d] = u32::split(cell, count);
        [d, c, b, a]
    });
    found!("a remainder of 3 alone", split: |cell, count| match count % 4 {
        3 => u32::split(cell, count),
        _ => quarters(count, extra(count)),
    });
}

#[test]
fn no_wrong_rule_of_blank_sky_is_missed() {
    let drawn = Drawn::<u32>::new(33);
    macro_rules! found {
        ($wrong:literal, $rule:expr) => {
            let program = Program {
                merges_blank: $rule,
                ..Program::right()
            };
            drawn.assert_found($wrong, program);
        };
    }
    found!("by chi alone", |_, _, _| false);
    found!("below M too", |_, _, counts| counts == [0; 4]);
    found!("the child's depth", |input, parent, counts| {
        parent + 1 >= input.depth_threshold && counts == [0; 4]
    });
    found!("above M alone", |input, parent, counts| {
        parent > input.depth_threshold && counts == [0; 4]
    });
    found!("at T = 0 alone", |input, parent, counts| {
        input.chi2_threshold.0 == 0.0 && is_blank(input, parent, counts)
    });
    found!("at T below 0 alone", |input, parent, counts| {
        input.chi2_threshold.0 < 0.0 && is_blank(input, parent, counts)
    });
    found!("at a finite T alone", |input, parent, counts| {
        input.chi2_threshold.0.is_finite() && is_blank(input, parent, counts)
    });
    found!("three blanks and a source", |input, parent, counts| {
        parent >= input.depth_threshold && counts.iter().sum::<u32>() <= 1
    });
    found!("four that are equal", |input, parent, counts| {
        parent >= input.depth_threshold && counts == [counts[0]; 4]
    });
}

#[test]
fn no_wrong_protection_is_missed() {
    let drawn = Drawn::<u32>::new(35);
    drawn.assert_protection_is_found();
    for (wrong, decides) in wrong_decisions() {
        let program = Program {
            decides,
            ..Program::right()
        };
        drawn.assert_found(wrong, program);
    }
    Drawn::<Float>::new(36).assert_protection_is_found();
}

/// "Every list that protects no blank quad's parent gives its former map."
#[test]
fn no_list_tells_the_former_rule_that_protects_no_blank_sky() {
    let mut random = Random::new(38);
    let drawn = (0..DRAWN).filter_map(|_| {
        let mut input = Input::<u32>::random(&mut random);
        input.refusal().is_none().then(|| {
            input.protected = protected::without_blanks(&input.protected, &input.kept());
            input
        })
    });
    let drawn = Drawn::of(drawn);
    let listed = drawn.0.iter().filter(|pair| !pair.0.protected.is_empty());
    assert!(listed.count() > DRAWN / 10);
    let former = Program {
        decides: decide_before,
        ..Program::right()
    };
    assert_eq!(drawn.differing(&former), 0);
}

fn is_blank(input: &Input<u32>, parent_depth: u8, counts: [u32; 4]) -> bool {
    parent_depth >= input.depth_threshold && counts == [0; 4]
}

/// Four products of 0 are judged by their chi.
#[test]
fn no_rule_of_blank_sky_for_products_is_missed() {
    let blank = Program {
        merges_blank: |input, parent, densities| {
            parent >= input.depth_threshold && densities == [Float(0.0); 4]
        },
        ..Program::right()
    };
    Drawn::<Float>::new(34).assert_found("four densities of 0 at any T", blank);
}

#[test]
fn no_wrong_product_is_missed() {
    let drawn = Drawn::<Float>::new(32);
    drawn.assert_all_found();
    let rule = |rule| Program {
        rule,
        ..Program::right()
    };
    drawn.assert_found(
        "alone kept",
        rule(|k, left, right| match (left, right) {
            (Some(_), Some(_)) => Float::rule(k, left, right),
            _ => left.or(right),
        }),
    );
    drawn.assert_found(
        "left × right first",
        rule(|k, left, right| Some(Float(k * (left?.0 * right?.0)))),
    );
    drawn.assert_found(
        "k × right first",
        rule(|k, left, right| Some(Float((k * right?.0) * left?.0))),
    );
    drawn.assert_found(
        "without k",
        rule(|_, left, right| Some(Float(left?.0 * right?.0))),
    );
    drawn.assert_found(
        "without the sign of −0",
        rule(|k, left, right| Some(Float(Float::rule(k, left, right)?.0 + 0.0))),
    );
    drawn.assert_found(
        "subnormal ones as 0",
        rule(|k, left, right| {
            let product = Float::rule(k, left, right)?;
            match product.0.is_subnormal() {
                true => Some(Float(0.0)),
                false => Some(product),
            }
        }),
    );
    drawn.assert_found(
        "a quarter for each child",
        Program {
            split: |_, density| [Float(density.0 / 4.0); 4],
            ..Program::right()
        },
    );
    drawn.assert_found(
        "a level's split skipped",
        Program {
            split: |cell, density| match cell.depth {
                5 => [density, Float(0.0), Float(0.0), Float(0.0)],
                _ => Float::split(cell, density),
            },
            ..Program::right()
        },
    );
}
