//! Wrong add calls: the lists drawn must tell each from the original's building and the scope's table
//! often enough for a short run to find it. What is right stands here a third time, so that each
//! wrong one differs from it in one thing.

mod decisions;
mod readings;

use decisions::{decide, wrong_decisions, Decision};
use differential::{
    cells::Cell,
    compare::Kind,
    floats::Float,
    lists::{replay, Add, Answer, Arguments, Build, Input, Step, Value},
    random::Random,
    widths::Width,
};
use mom::Refusal;
use readings::{early, is_listed, late, wrong_checks, wrong_searches, Search};

const DRAWN: usize = 5_000;

/// What is answered before anything is added, by what the table refuses.
type Judge<V, Z> = fn(Option<Refusal>, &mut Arguments<V, Z>) -> Option<Answer<V>>;

/// The last four entries of a map, which are siblings.
struct Four<V> {
    /// The place of the first.
    place: usize,
    parent_depth: u8,
    values: [V; 4],
}

struct Program<V: Value, Z> {
    /// How many of so many cells are taken.
    taken: fn(usize) -> usize,
    /// How many merges may follow a cell, by the number held before the call and the cells behind.
    most_merges: fn(usize, usize) -> usize,
    are_siblings: fn([Cell; 4]) -> bool,
    /// By the parent's depth less M, chi and T.
    merges: fn(i16, f64, f64) -> bool,
    /// Whether the four are merged whatever their chi is.
    merges_blank: fn(&Arguments<V, Z>, Four<V>) -> bool,
    /// Whether four are kept by the list of protected parents.
    is_listed: Search<Z>,
    decides: Decision,
    merged: fn([V; 4]) -> V,
    /// How many places behind the last entry are cleared: of zuniqs, and of values.
    cleared: fn(usize) -> [usize; 2],
    judge: Judge<V, Z>,
}

impl<V: Value, Z: Width> Program<V, Z> {
    /// The scope's.
    fn right(merged: fn([V; 4]) -> V) -> Self {
        Program {
            taken: |cells| cells,
            most_merges: |_, _| 29,
            are_siblings: |cells| {
                let [first, ..] = cells;
                first.depth > 0 && cells == first.ancestor(first.depth - 1).children()
            },
            merges: |above, chi, t| above >= 0 && chi < t,
            merges_blank: |call, four| {
                four.parent_depth >= call.depth_threshold && V::are_blank(four.values)
            },
            is_listed,
            decides: decide,
            merged,
            cleared: |places| [places; 2],
            judge: |due, _| due.map(Err),
        }
    }

    fn add(
        &self,
        map: &mut Vec<(Cell, V)>,
        mut call: Arguments<V, Z>,
        refusal: Option<Refusal>,
    ) -> Answer<V> {
        if let Some(answer) = (self.judge)(refusal, &mut call) {
            return answer;
        }
        let (held, cells) = (map.len(), call.hashes.len());
        for place in 0..(self.taken)(cells) {
            let (depth, hash) = (call.depth, call.hashes[place].bits());
            map.push((Cell { depth, hash }, call.batch[place]));
            for _ in 0..(self.most_merges)(held, cells - 1 - place) {
                let Some(parent) = self.parent(map, &call) else {
                    break;
                };
                map.truncate(map.len() - 4);
                map.push(parent);
            }
        }
        for (place, &(cell, value)) in map.iter().enumerate() {
            call.zuniqs[place] = cell.zuniq();
            call.values[place] = value;
        }
        let entries = map.len();
        let [zuniqs, values] = (self.cleared)(call.zuniqs.len() - entries);
        call.zuniqs[entries..][..zuniqs].fill(Z::of(0));
        call.values[entries..][..values].fill(V::ZERO);
        let entries: Vec<_> = map
            .iter()
            .map(|&(cell, value)| (cell.hash, value))
            .collect();
        Ok((entries.len(), V::total(&entries)))
    }

    /// What the last four entries become, if they are merged.
    fn parent(&self, map: &[(Cell, V)], call: &Arguments<V, Z>) -> Option<(Cell, V)> {
        let &[a, b, c, d] = map.last_chunk()?;
        let (cells, values) = ([a, b, c, d].map(|x| x.0), [a, b, c, d].map(|x| x.1));
        if !(self.are_siblings)(cells) {
            return None;
        }
        let depth = a.0.depth - 1;
        let above = depth as i16 - call.depth_threshold as i16;
        let chi = V::chi2(values, depth);
        let four = Four {
            place: map.len() - 4,
            parent_depth: depth,
            values,
        };
        let parent = a.0.ancestor(depth);
        let merges = (self.decides)(decisions::Four {
            is_blank: (self.merges_blank)(call, four),
            is_listed: (self.is_listed)(call.protected, parent),
            has_list: !call.protected.is_empty(),
            by_chi: (self.merges)(above, chi, call.chi2_threshold),
            t: call.chi2_threshold,
        });
        merges.then(|| (parent, (self.merged)(values)))
    }

    fn steps(&self, input: &Input<V, Z>) -> Vec<Step<V, Z>> {
        let mut map = Vec::new();
        replay(input, |call, refusal| self.add(&mut map, call, refusal))
    }
}

/// A list, with what the original makes of it.
type Judged<V, Z> = (Input<V, Z>, Vec<Step<V, Z>>);

struct Drawn<V: Value, Z>(Vec<Judged<V, Z>>);

impl<V: Build<Z>, Z: Width> Drawn<V, Z> {
    fn new(seed: u64) -> Self {
        let mut random = Random::new(seed);
        let lists = (0..DRAWN).map(|_| {
            let input = Input::random(&mut random);
            let steps = Add::<V, Z>::original(&input);
            (input, steps)
        });
        Drawn(lists.collect())
    }

    fn differing(&self, program: &Program<V, Z>) -> usize {
        let lists = self.0.iter();
        lists
            .filter(|(input, steps)| program.steps(input) != *steps)
            .count()
    }

    fn assert_found(&self, wrong: &str, program: Program<V, Z>) {
        let differing = self.differing(&program);
        assert!(
            differing * 1000 > DRAWN,
            "{wrong}, {}: {differing} of {DRAWN}",
            V::NAME
        );
    }

    /// A program that refuses as `refusal` says, and is right in all else.
    fn assert_refusal_is_found(
        &self,
        wrong: &str,
        merged: fn([V; 4]) -> V,
        refusal: impl Fn(&Arguments<V, Z>) -> Option<Refusal>,
    ) {
        let right = Program::right(merged);
        let lists = self.0.iter().filter(|(input, _)| {
            let (mut map, mut differs) = (Vec::new(), false);
            replay(input, |call, due| {
                differs |= refusal(&call) != due;
                right.add(&mut map, call, due)
            });
            differs
        });
        let differing = lists.count();
        assert!(
            differing * 1000 > DRAWN,
            "{wrong}, {}: {differing} of {DRAWN}",
            V::NAME
        );
    }

    /// Wrong readings of note 7 that counts and densities have in common.
    fn assert_protection_is_found(&self, merged: fn([V; 4]) -> V) {
        assert_eq!(self.differing(&Program::right(merged)), 0);
        for (wrong, is_listed) in wrong_searches() {
            let program = Program {
                is_listed,
                ..Program::right(merged)
            };
            self.assert_found(wrong, program);
        }
        for (wrong, check) in wrong_checks() {
            self.assert_refusal_is_found(wrong, merged, |call| call.refusal_by(check));
        }
        for number in [4, 5, 7, 8, 11] {
            let wrong = format!("15 after {number}");
            self.assert_refusal_is_found(&wrong, merged, |call| {
                late(number, call.refusal(), call.refusal_by(|_| None))
            });
        }
        for number in [1, 2, 3] {
            let wrong = format!("15 before {number}");
            self.assert_refusal_is_found(&wrong, merged, |call| {
                early(number, call.refusal(), call.protected)
            });
        }
    }

    /// What counts and densities have in common.
    fn assert_all_found(&self, merged: fn([V; 4]) -> V) {
        let right = || Program::right(merged);
        assert_eq!(self.differing(&right()), 0);
        macro_rules! found {
            ($wrong:literal, $field:ident: $rule:expr) => {
                let program = Program {
                    $field: $rule,
                    ..right()
                };
                self.assert_found($wrong, program);
            };
        }
        found!("the last cell dropped", taken: |cells| cells.saturating_sub(1));
        found!("no merge", most_merges: |_, _| 0);
        found!("one merge a cell", most_merges: |_, _| 1);
        found!("merges in the first batch alone", most_merges: |held, _| if held > 0 { 0 } else { 29 });
        found!("the batch's last quad untried", most_merges: |_, behind| if behind == 0 { 0 } else { 29 });
        found!("quads that straddle two parents", are_siblings: |cells| {
            let [first, ..] = cells;
            first.depth > 0 && (0..4).all(|place| {
                cells[place].depth == first.depth && cells[place].hash == first.hash + place as u64
            })
        });
        found!("chi at T", merges: |above, chi, t| above >= 0 && chi <= t);
        found!("the child's depth", merges: |above, chi, t| above >= -1 && chi < t);
        found!("above M alone", merges: |above, chi, t| above > 0 && chi < t);
        found!("without M", merges: |_, chi, t| chi < t);
        found!("without T", merges: |above, _, _| above >= 0);
        found!("a zuniq not cleared", cleared: |places| [places.saturating_sub(1), places]);
        found!("a value not cleared", cleared: |places| [places, places.saturating_sub(1)]);
        found!("a refused call clears the zuniqs", judge: |due, call| {
            due.map(|refusal| {
                call.zuniqs.fill(Z::of(0));
                Err(refusal)
            })
        });
        found!("a refused call clears the last value", judge: |due, call| {
            due.map(|refusal| {
                if let Some(last) = call.values.last_mut() {
                    *last = V::ZERO;
                }
                Err(refusal)
            })
        });
        found!("the place of a refusal lost", judge: |due, _| {
            due.map(|refusal| Err(Refusal::of(refusal.number(), 0).unwrap()))
        });
    }
}

fn sum(counts: [u32; 4]) -> u32 {
    counts.iter().sum()
}

#[test]
fn no_wrong_building_from_counts_is_missed() {
    fn at<Z: Width>() {
        let drawn = Drawn::<u32, Z>::new(11);
        drawn.assert_all_found(sum);
        let wrong = |merged| Program::right(merged);
        drawn.assert_found("the mean", wrong(|counts| sum(counts) / 4));
        drawn.assert_found("three counts", wrong(|[n0, n1, n2, _]| n0 + n1 + n2));
    }
    at::<u64>();
    at::<u32>();
}

/// A right program but for the four that it merges whatever their chi is.
fn assert_blanks_are_found<Z: Width>(
    drawn: &Drawn<u32, Z>,
    wrong: &str,
    merges_blank: fn(&Arguments<u32, Z>, Four<u32>) -> bool,
) {
    let program = Program {
        merges_blank,
        ..Program::right(sum)
    };
    drawn.assert_found(wrong, program);
}

#[test]
fn no_wrong_thresholds_of_blank_sky_are_missed() {
    fn at<Z: Width>() {
        let drawn = Drawn::<u32, Z>::new(18);
        let found = |wrong, rule| assert_blanks_are_found(&drawn, wrong, rule);
        found("by chi alone", |_, _| false);
        found("below M too", |_, four| four.values == [0; 4]);
        found("the child's depth", |call, four| {
            four.parent_depth + 1 >= call.depth_threshold && four.values == [0; 4]
        });
        found("above M alone", |call, four| {
            four.parent_depth > call.depth_threshold && four.values == [0; 4]
        });
        found("at T = 0 alone", |call, four| {
            call.chi2_threshold == 0.0 && is_blank(call, &four)
        });
        found("at T below 0 alone", |call, four| {
            call.chi2_threshold < 0.0 && is_blank(call, &four)
        });
        found("at a finite T alone", |call, four| {
            call.chi2_threshold.is_finite() && is_blank(call, &four)
        });
    }
    at::<u64>();
    at::<u32>();
}

#[test]
fn no_wrong_four_of_blank_sky_are_missed() {
    fn at<Z: Width>() {
        let drawn = Drawn::<u32, Z>::new(19);
        let found = |wrong, rule| assert_blanks_are_found(&drawn, wrong, rule);
        found("three blanks and a source", |call, four| {
            four.parent_depth >= call.depth_threshold && sum(four.values) <= 1
        });
        found("four that are equal", |call, four| {
            let [first, ..] = four.values;
            four.parent_depth >= call.depth_threshold && four.values == [first; 4]
        });
        found("cells of the list alone", |call, four| {
            four.parent_depth + 1 == call.depth && is_blank(call, &four)
        });
        found("cells of one batch alone", |call, four| {
            four.place >= call.held && is_blank(call, &four)
        });
    }
    at::<u64>();
    at::<u32>();
}

fn is_blank<Z>(call: &Arguments<u32, Z>, four: &Four<u32>) -> bool {
    four.parent_depth >= call.depth_threshold && four.values == [0; 4]
}

#[test]
fn no_wrong_protection_is_missed() {
    fn at<Z: Width>() {
        let drawn = Drawn::<u32, Z>::new(35);
        drawn.assert_protection_is_found(sum);
        for (wrong, decides) in wrong_decisions() {
            let program = Program {
                decides,
                ..Program::right(sum)
            };
            drawn.assert_found(wrong, program);
        }
        drawn.assert_refusal_is_found("11 by the former map", sum, refused_by_former_map);
    }
    at::<u64>();
    at::<u32>();
    Drawn::<Float, u64>::new(36).assert_protection_is_found(quarter);
}

/// What is refused where 11 is judged as if the held map had its blank quads merged.
fn refused_by_former_map<Z: Width>(call: &Arguments<u32, Z>) -> Option<Refusal> {
    let refusal = call.refusal()?;
    if refusal != Refusal::NoSpace {
        return Some(refusal);
    }
    let unlisted = Arguments {
        protected: &[],
        zuniqs: &mut [],
        values: &mut [],
        ..*call
    };
    let mut map = Vec::new();
    for (&zuniq, &count) in call.zuniqs.iter().zip(&*call.values).take(call.held) {
        map.push((Cell::of_zuniq(zuniq).expect("a valid map"), count));
        while let Some((parent, 0)) = Program::right(sum).parent(&map, &unlisted) {
            map.truncate(map.len() - 4);
            map.push((parent, 0));
        }
    }
    (map.len() + call.hashes.len() > call.zuniqs.len()).then_some(refusal)
}

/// What a narrow call answers that takes depths up to 29: where nothing else is refused, that the map
/// stays.
fn taken_to_29(due: Option<Refusal>, call: &mut Arguments<u32, u32>) -> Option<Answer<u32>> {
    if due != Some(Refusal::DepthOutOfRange) || call.depth > 29 {
        return due.map(Err);
    }
    call.depth = 13;
    Some(call.refusal().map_or(Ok((call.held, 0)), Err))
}

#[test]
fn no_wrong_limit_of_narrow_building_is_missed() {
    let drawn = Drawn::<u32, u32>::new(13);
    let depths_to_29 = Program {
        judge: taken_to_29,
        ..Program::right(sum)
    };
    drawn.assert_found("29 for 13", depths_to_29);
    let m_to_13 = Program {
        judge: |due, call| match call.depth_threshold {
            14..=29 if call.depth <= 13 => Some(Err(Refusal::DepthThresholdOutOfRange)),
            _ => due.map(Err),
        },
        ..Program::right(sum)
    };
    drawn.assert_found("13 for the 29 of M", m_to_13);
}

fn quarter([m0, m1, m2, m3]: [Float; 4]) -> Float {
    Float((((m0.0 + m1.0) + m2.0) + m3.0) / 4.0)
}

/// Four densities of 0 are judged by their chi.
#[test]
fn no_rule_of_blank_sky_for_densities_is_missed() {
    let blank = Program {
        merges_blank: |call, four| {
            four.parent_depth >= call.depth_threshold && four.values == [Float(0.0); 4]
        },
        ..Program::right(quarter)
    };
    Drawn::<Float, u64>::new(20).assert_found("four densities of 0 at any T", blank);
}

#[test]
fn no_wrong_building_from_densities_is_missed() {
    let drawn = Drawn::<Float, u64>::new(12);
    drawn.assert_all_found(quarter);
    let wrong = |merged| Program::right(merged);
    drawn.assert_found("the first", wrong(|[m0, ..]| m0));
    drawn.assert_found("the sum", wrong(|m| Float(quarter(m).0 * 4.0)));
    drawn.assert_found(
        "the sum in pairs",
        wrong(|[m0, m1, m2, m3]| Float(((m0.0 + m1.0) + (m2.0 + m3.0)) / 4.0)),
    );
    drawn.assert_found(
        "quarters added up",
        wrong(|m| {
            let [m0, m1, m2, m3] = m.map(|m| m.0 / 4.0);
            Float(((m0 + m1) + m2) + m3)
        }),
    );
    drawn.assert_found("as an f32", wrong(|m| Float(quarter(m).0 as f32 as f64)));
    drawn.assert_found(
        "without the sign of −0",
        wrong(|m| Float(quarter(m).0 + 0.0)),
    );
    drawn.assert_found(
        "subnormal ones as 0",
        wrong(|m| {
            let m = quarter(m);
            if m.0.is_subnormal() {
                Float(0.0)
            } else {
                m
            }
        }),
    );
}
