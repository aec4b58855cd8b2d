//! Lists of add calls with densities, which are told apart by their bits.

use oracle::run;

use crate::{
    floats::{near, Float},
    lists::{stretch, Answer, Arguments, Build, Value},
    quads::{around_one, density, unit_density, valid, Quad},
    random::Random,
};

fn numbers(values: &[Float]) -> Vec<f64> {
    values.iter().map(|value| value.0).collect()
}

impl Value for Float {
    const ZERO: Float = Float(0.0);
    /// Of four densities far below c.
    const LEAST_CHI2: f64 = -4.0;
    type Total = ();

    fn of_content(content: u64) -> Float {
        Float(f64::from_bits(content))
    }

    fn is_invalid(self) -> bool {
        !self.0.is_finite() || self.0 < 0.0
    }

    fn overflow(_held: &[Float], _batch: &[Float]) -> Option<usize> {
        None
    }

    fn chi2(values: [Float; 4], parent_depth: u8) -> f64 {
        Quad {
            values,
            parent_depth,
        }
        .chi()
    }

    fn are_blank(_values: [Float; 4]) -> bool {
        false
    }

    fn faulty() -> &'static [Float] {
        &[
            Float(f64::NAN),
            Float(-f64::NAN),
            Float(f64::INFINITY),
            Float(f64::NEG_INFINITY),
            Float(-1.0),
            Float(-5e-324),
        ]
    }

    fn small() -> &'static [Float] {
        &[Float(0.0), Float(-0.0), Float(5e-324), Float(16.0)]
    }

    /// About c of some parent: the cells', or one that merges lead to. A stretch is of one density, of
    /// those next to it, or of those around it.
    fn random(random: &mut Random, depth: u8, len: usize) -> Vec<Float> {
        let mut densities = Vec::new();
        while densities.len() < len {
            let parent = match random.coin() {
                true => depth - 1,
                false => random.below(depth as u64) as u8,
            };
            let value = density(random, unit_density(parent));
            let stretch = stretch(random);
            let about = random.below(4);
            densities.extend((0..stretch).map(|_| match about {
                0 => valid(near(random, value)),
                1 => valid(value * around_one(random)),
                _ => value,
            }));
        }
        densities.truncate(len);
        densities.into_iter().map(Float).collect()
    }

    fn total<C>(_cells: &[(C, Float)]) {}
}

impl Build<u64> for Float {
    const NAME: &'static str = "add_densities";

    fn add(call: Arguments<Float>) -> Answer<Float> {
        let mut densities = numbers(call.values);
        let answer = mom::add_densities(
            call.depth,
            call.depth_threshold,
            call.chi2_threshold,
            call.protected,
            call.held,
            call.zuniqs,
            &mut densities,
            call.hashes,
            &numbers(call.batch),
        );
        for (place, density) in densities.into_iter().enumerate() {
            call.values[place] = Float(density);
        }
        answer.map(|entries| (entries, ()))
    }

    fn build(
        depth: u8,
        m: u8,
        t: f64,
        protected: &[u64],
        cells: &[(u64, Float)],
    ) -> Vec<(u64, Float)> {
        let cells = cells.iter().map(|&(hash, density)| (hash, density.0));
        let entries = run::build_densities(depth, m, t, run::listed(protected), cells).into_iter();
        entries.map(|(zuniq, m)| (zuniq, Float(m))).collect()
    }
}
