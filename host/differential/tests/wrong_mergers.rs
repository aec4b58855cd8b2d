//! Wrong mergers: the random inputs must tell each from the scope's often enough for a short run to
//! find it, by whether the four are merged alone, or by what is refused.

mod decisions;
mod readings;

use decisions::{decide, wrong_decisions, Four};
use differential::{
    floats::Float,
    lists::Value,
    quads::{unit_density, Call, Quad},
    random::Random,
};
use mom::Refusal;
use readings::{early, is_listed, late, wrong_checks, wrong_searches};

const DRAWN: usize = 200_000;

/// The parent's depth less M.
fn above<V>(call: &Call<V>) -> i16 {
    call.quad.parent_depth as i16 - call.depth_threshold as i16
}

fn merges<V>(chi: f64, call: &Call<V>) -> bool {
    above(call) >= 0 && chi < call.chi2_threshold.0
}

/// Whether four counts are merged whatever their chi is, where no list keeps them.
fn merges_blank(call: &Call<u32>) -> bool {
    above(call) >= 0 && call.quad.values == [0; 4]
}

/// Whether four are kept whatever they are.
fn is_protected<V: Value>(call: &Call<V>) -> bool {
    is_listed(&call.protected, call.parent())
}

fn drawn_counts() -> impl Iterator<Item = Call<u32>> {
    let mut random = Random::new(6);
    (0..DRAWN).map(move |_| Call::<u32>::sound(&mut random))
}

fn drawn_densities() -> impl Iterator<Item = Call<Float>> {
    let mut random = Random::new(7);
    (0..DRAWN).map(move |_| Call::<Float>::sound(&mut random))
}

/// Those that are judged by their chi.
fn counts_by_chi() -> impl Iterator<Item = Call<u32>> {
    drawn_counts().filter(|call| !merges_blank(call) && !is_protected(call))
}

fn densities_by_chi() -> impl Iterator<Item = Call<Float>> {
    drawn_densities().filter(|call| !is_protected(call))
}

fn assert_found(wrong: &str, differing: usize) {
    assert!(differing * 1000 > DRAWN, "{wrong}: {differing} of {DRAWN}");
}

/// The rule is asked the parent's depth less M, chi, and T.
fn assert_rule_is_found(wrong: &str, rule: fn(i16, f64, f64) -> bool) {
    fn differs<V>(rule: fn(i16, f64, f64) -> bool, chi: f64, call: &Call<V>) -> bool {
        rule(above(call), chi, call.chi2_threshold.0) != merges(chi, call)
    }
    let counts = counts_by_chi().filter(|call| differs(rule, call.quad.chi(), call));
    assert_found(wrong, counts.count());
    let densities = densities_by_chi().filter(|call| differs(rule, call.quad.chi(), call));
    assert_found(wrong, densities.count());
}

#[test]
fn no_wrong_rule_is_missed() {
    assert_rule_is_found("chi at T", |above, chi, t| above >= 0 && chi <= t);
    assert_rule_is_found("the child's depth", |above, chi, t| above >= -1 && chi < t);
    assert_rule_is_found("above M alone", |above, chi, t| above > 0 && chi < t);
    assert_rule_is_found("without M", |_, chi, t| chi < t);
    assert_rule_is_found("T as an f32", |above, chi, t| {
        above >= 0 && chi < t as f32 as f64
    });
}

/// The rule is asked, beside chi below T, the parent's depth less M, T, and the counts.
fn assert_rule_of_blanks_is_found(wrong: &str, rule: fn(i16, f64, [u32; 4]) -> bool) {
    let unprotected = drawn_counts().filter(|call| !is_protected(call));
    let differing = unprotected.filter(|call| {
        let wrong = rule(above(call), call.chi2_threshold.0, call.quad.values);
        let by_chi = merges(call.quad.chi(), call);
        (wrong || by_chi) != (merges_blank(call) || by_chi)
    });
    assert_found(wrong, differing.count());
}

#[test]
fn no_wrong_rule_of_blank_quads_is_missed() {
    assert_rule_of_blanks_is_found("by chi alone", |_, _, _| false);
    assert_rule_of_blanks_is_found("below M too", |_, _, n| n == [0; 4]);
    assert_rule_of_blanks_is_found("the child's depth", |above, _, n| {
        above >= -1 && n == [0; 4]
    });
    assert_rule_of_blanks_is_found("above M alone", |above, _, n| above > 0 && n == [0; 4]);
    assert_rule_of_blanks_is_found("at T = 0 alone", |above, t, n| {
        above >= 0 && t == 0.0 && n == [0; 4]
    });
    assert_rule_of_blanks_is_found("at T below 0 alone", |above, t, n| {
        above >= 0 && t < 0.0 && n == [0; 4]
    });
    assert_rule_of_blanks_is_found("at a finite T alone", |above, t, n| {
        above >= 0 && t.is_finite() && n == [0; 4]
    });
    assert_rule_of_blanks_is_found("three blanks and a source", |above, _, n| {
        above >= 0 && n.iter().filter(|&&n| n > 0).count() <= 1 && n.iter().all(|&n| n <= 1)
    });
    assert_rule_of_blanks_is_found("four that are equal", |above, _, n| {
        above >= 0 && n == [n[0]; 4]
    });
}

/// Four densities of 0 are judged by their chi.
#[test]
fn no_rule_of_blank_quads_for_densities_is_missed() {
    let differing = densities_by_chi().filter(|call| {
        let blank = above(call) >= 0 && call.quad.densities() == [0.0; 4];
        blank && !merges(call.quad.chi(), call)
    });
    assert_found("four densities of 0 at any T", differing.count());
}

fn sum([x0, x1, x2, x3]: [f64; 4]) -> f64 {
    ((x0 + x1) + x2) + x3
}

fn in_pairs([x0, x1, x2, x3]: [f64; 4]) -> f64 {
    (x0 + x1) + (x2 + x3)
}

fn backwards([x0, x1, x2, x3]: [f64; 4]) -> f64 {
    x0 + (x1 + (x2 + x3))
}

fn excess(sum: f64, w: f64) -> f64 {
    sum - 4.0 * (4.0 / w)
}

/// The 1/n.
fn inverse(n: [f64; 4]) -> [f64; 4] {
    n.map(|n| 1.0 / n)
}

fn assert_count_chi_is_found(wrong: &str, chi: fn([f64; 4]) -> f64) {
    let differing = counts_by_chi().filter(|call| {
        let wrong = chi(call.quad.values.map(f64::from));
        merges(wrong, call) != merges(call.quad.chi(), call)
    });
    assert_found(wrong, differing.count());
}

#[test]
fn no_wrong_chi_of_counts_is_missed() {
    assert_count_chi_is_found("w in pairs", |n| excess(sum(n), in_pairs(inverse(n))));
    assert_count_chi_is_found("w backwards", |n| excess(sum(n), backwards(inverse(n))));
    assert_count_chi_is_found("zeros left out", |n| {
        excess(sum(n), sum(n.map(|n| if n > 0.0 { 1.0 / n } else { 0.0 })))
    });
    assert_count_chi_is_found("counts as f32s", |n| {
        let n = n.map(|n| n as f32 as f64);
        excess(sum(n), sum(inverse(n)))
    });
}

/// The 1/max(m, c).
fn bounded(c: f64, m: [f64; 4]) -> [f64; 4] {
    m.map(|m| 1.0 / if m > c { m } else { c })
}

fn assert_density_chi_is_found(wrong: &str, chi: fn(f64, [f64; 4]) -> f64) {
    let differing = densities_by_chi().filter(|call| {
        let c = unit_density(call.quad.parent_depth);
        let wrong = chi(c, call.quad.densities());
        merges(wrong, call) != merges(call.quad.chi(), call)
    });
    assert_found(wrong, differing.count());
}

#[test]
fn no_wrong_chi_of_densities_is_missed() {
    assert_density_chi_is_found("sum in pairs", |c, m| {
        excess(in_pairs(m), sum(bounded(c, m))) / c
    });
    assert_density_chi_is_found("w backwards", |c, m| {
        excess(sum(m), backwards(bounded(c, m))) / c
    });
    assert_density_chi_is_found("without the max", |c, m| {
        excess(sum(m), sum(inverse(m))) / c
    });
    assert_density_chi_is_found("the min", |c, m| {
        excess(sum(m), sum(inverse(m.map(|m| m.min(c))))) / c
    });
    assert_density_chi_is_found("not over c", |c, m| excess(sum(m), sum(bounded(c, m))));
    assert_density_chi_is_found("times 1/c", |c, m| {
        excess(sum(m), sum(bounded(c, m))) * (1.0 / c)
    });
    assert_density_chi_is_found("the children's c", |c, m| {
        excess(sum(m), sum(bounded(4.0 * c, m))) / (4.0 * c)
    });
    assert_density_chi_is_found("c one f64 above", |c, m| {
        excess(sum(m), sum(bounded(c.next_up(), m))) / c.next_up()
    });
}

/// What decides of a call, where a parent is listed or not.
fn four_if<V: Value>(is_listed: bool, call: &Call<V>) -> Four {
    let Quad {
        values,
        parent_depth,
    } = call.quad;
    Four {
        is_blank: above(call) >= 0 && V::are_blank(values),
        is_listed,
        has_list: !call.protected.is_empty(),
        by_chi: merges(V::chi2(values, parent_depth), call),
        t: call.chi2_threshold.0,
    }
}

#[test]
fn no_wrong_search_of_a_list_is_missed() {
    fn among<V: Value>(drawn: impl Iterator<Item = Call<V>>) {
        let drawn: Vec<Call<V>> = drawn.collect();
        for (wrong, search) in wrong_searches() {
            let differing = drawn.iter().filter(|call| {
                let [wrong, right] = [search(&call.protected, call.parent()), is_protected(call)];
                decide(four_if(wrong, call)) != decide(four_if(right, call))
            });
            assert_found(wrong, differing.count());
        }
    }
    among(drawn_counts());
    among(drawn_densities());
}

/// Below M a blank quad is kept whichever rule is tried first.
#[test]
fn no_wrong_protection_of_blank_quads_is_missed() {
    for (wrong, decision) in wrong_decisions() {
        let differing = drawn_counts().filter(|call| {
            let four = four_if(is_protected(call), call);
            decision(four) != decide(four)
        });
        assert_found(wrong, differing.count());
    }
    let below_m = drawn_counts().filter(|call| {
        let blank = call.quad.values == [0; 4];
        blank && above(call) < 0 && is_protected(call)
    });
    assert_found("blanks below M", below_m.count());
}

/// A merger that refuses otherwise.
fn assert_refusal_is_found<V: Value>(
    wrong: &str,
    drawn: &[Call<V>],
    refusal: impl Fn(&Call<V>) -> Option<Refusal>,
) {
    let differing = drawn.iter().filter(|call| refusal(call) != call.refusal());
    assert_found(wrong, differing.count());
}

#[test]
fn no_wrong_refusal_is_missed() {
    fn among<V: Value>(drawn: impl Iterator<Item = Call<V>>) {
        let drawn: Vec<Call<V>> = drawn.collect();
        for (wrong, check) in wrong_checks() {
            assert_refusal_is_found(wrong, &drawn, |call| call.refusal_by(check));
        }
        for number in [7, 9, 10] {
            let without = |call: &Call<V>| call.refusal_by(|_| None);
            let wrong = format!("15 after {number}");
            // Counts are refused by 10 alone, densities by 9.
            if drawn
                .iter()
                .any(|call| call.refusal().is_some_and(|r| r.number() == number))
            {
                assert_refusal_is_found(&wrong, &drawn, |call| {
                    late(number, call.refusal(), without(call))
                });
            }
        }
        for number in [1, 2, 3] {
            let wrong = format!("15 before {number}");
            assert_refusal_is_found(&wrong, &drawn, |call| {
                early(number, call.refusal(), &call.protected)
            });
        }
        assert_refusal_is_found("any hash taken", &drawn, |call| {
            let sound = Call {
                parent_hash: 0,
                ..call.clone()
            };
            sound.refusal()
        });
    }
    let mut random = Random::new(8);
    among((0..DRAWN).map(|_| Call::<u32>::random(&mut random)));
    among((0..DRAWN).map(|_| Call::<Float>::random(&mut random)));
}
