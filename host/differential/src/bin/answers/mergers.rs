//! Section 2: the mergers. Where the four are kept the original hands them back and keeps its chi to
//! itself, so that chi is found by the T from which on it merges; calls with a chi that no T finds, NaN
//! or infinite, are left out.

use differential::{
    cells::Cell,
    floats::Float,
    protected,
    quads::{Call, Quad},
    random::Random,
};
use oracle::run;

use crate::{Line, Number, MOST_PROTECTED};

/// The scope's cases and those of blank quads, at T and M.
const CASES: [([u32; 4], f64, u8); 14] = [
    ([1, 2, 4, 4], 3.0, 0),
    ([1, 2, 4, 4], 3.5, 0),
    ([1, 2, 4, 4], 3.5, 1),
    ([0, 0, 0, 5], 5.0, 0),
    ([0, 0, 0, 5], 6.0, 0),
    ([4, 4, 4, 4], 0.0, 0),
    ([4, 4, 4, 4], 5e-324, 0),
    ([0, 0, 0, 0], 3.5, 0),
    ([0, 0, 0, 0], 0.0, 0),
    ([0, 0, 0, 0], -1.0, 0),
    ([0, 0, 0, 0], f64::NEG_INFINITY, 0),
    ([0, 0, 0, 0], 0.0, 1),
    ([0, 0, 0, 1], 0.0, 0),
    ([1, 0, 0, 0], -1.0, 0),
];

const DRAWN: usize = 40;

pub fn print(random: &mut Random) {
    let cases = CASES.map(|(values, t, m)| Call {
        quad: Quad {
            values,
            parent_depth: 0,
        },
        depth_threshold: m,
        chi2_threshold: Float(t),
        protected: vec![],
        parent_hash: 0,
    });
    let drawn: Vec<Call<u32>> = (0..DRAWN).map(|_| Call::<u32>::any(random)).collect();
    for mut call in cases.into_iter().chain(drawn) {
        call.protected.truncate(MOST_PROTECTED);
        print_counts(&call);
    }
    for _ in 0..DRAWN {
        let mut call = Call::<Float>::sound(random);
        call.protected.truncate(MOST_PROTECTED);
        let (densities, p) = (call.quad.densities(), call.quad.parent_depth);
        let (m, t) = (call.depth_threshold, call.chi2_threshold.0);
        let (parent, protects) = ((p, call.parent_hash), run::listed(&call.protected));
        let merged = run::merge_densities(parent, m, t, protects, densities).map(Float);
        let chi = || run::chi_of_densities(p, densities);
        print_call("chi2_density_merger", &call, merged, chi);
    }
}

/// Under a listed parent and under its neighbour: from M on, at any T, and below M.
pub fn print_protected_blank() {
    let listed = [(0, 5), (28, 9)].map(|(depth, hash)| Cell { depth, hash });
    for parent in [
        listed[0],
        listed[1],
        Cell { depth: 0, hash: 4 },
        Cell { depth: 28, hash: 8 },
    ] {
        let p = parent.depth;
        for (m, t) in [
            (0, f64::NEG_INFINITY),
            (p, 0.0),
            (0, f64::INFINITY),
            (p + 1, 3.5),
        ] {
            print_counts(&Call {
                quad: Quad {
                    values: [0; 4],
                    parent_depth: p,
                },
                depth_threshold: m,
                chi2_threshold: Float(t),
                protected: protected::list_of(&listed),
                parent_hash: parent.hash,
            });
        }
    }
}

fn print_counts(call: &Call<u32>) {
    let (values, p) = (call.quad.values, call.quad.parent_depth);
    let (m, t) = (call.depth_threshold, call.chi2_threshold.0);
    let (parent, protects) = ((p, call.parent_hash), run::listed(&call.protected));
    let merged = run::merge_counts(parent, m, t, protects, values);
    print_call("chi2_count_merger", call, merged, || {
        run::chi_of_counts(p, values)
    });
}

fn print_call<V: Number>(
    word: &'static str,
    call: &Call<V>,
    merged: Option<V>,
    chi: impl Fn() -> Option<f64>,
) {
    let line = Line::new(word)
        .with(call.quad.parent_depth)
        .with(call.parent_hash)
        .with(call.depth_threshold)
        .with(call.chi2_threshold)
        .with_list(&call.protected)
        .with_all(&call.quad.values);
    match (merged, chi()) {
        (Some(value), _) => line.with(1u8).with(value).print(),
        (None, Some(chi)) => line.with(0u8).with(Float(chi)).print(),
        (None, None) => {}
    }
}
