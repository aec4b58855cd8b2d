//! Two density maps multiplied.

use mom::Map;
use oracle::run;

use crate::{
    cells::Cell,
    floats::{magnitude, near, Float},
    lists::Answer,
    pairs::{Call, Combine, Input},
    quads::{around_one, density, unit_density, valid},
    random::{any_of, Random},
};

impl Combine for Float {
    const CALL: &'static str = "product";

    fn split(_parent: Cell, density: Float) -> [Float; 4] {
        [density; 4]
    }

    fn rule(k: f64, left: Option<Float>, right: Option<Float>) -> Option<Float> {
        Some(Float((k * left?.0) * right?.0))
    }

    fn merged([m0, m1, m2, m3]: [Float; 4]) -> Float {
        Float((((m0.0 + m1.0) + m2.0) + m3.0) / 4.0)
    }

    fn is_invalid_factor(k: f64) -> bool {
        !k.is_finite() || k < 0.0
    }

    fn exceed(_left: &[Float], _right: &[Float]) -> bool {
        false
    }

    /// One density, or those about it.
    fn even(random: &mut Random, cells: &[Cell]) -> Vec<Float> {
        let depth = cells.last().map_or(0, |cell| cell.depth);
        let value = density(random, unit_density(depth.saturating_sub(1)));
        let about = random.below(3);
        let values = cells.iter().map(|_| match about {
            0 => value,
            1 => valid(near(random, value)),
            _ => valid(value * around_one(random)),
        });
        values.map(Float).collect()
    }

    /// One that leads from the square of a value to the value, so that products are as likely to merge as
    /// densities are; or any.
    fn factor(random: &mut Random, values: &[Float]) -> f64 {
        let k = match random.below(4) {
            0 => magnitude(random),
            1 => any_of(
                random,
                &[
                    0.0,
                    -0.0,
                    1.0,
                    5e-324,
                    f64::MIN_POSITIVE,
                    1e-300,
                    1e300,
                    f64::MAX,
                ],
            ),
            _ if values.is_empty() => 1.0,
            _ => 1.0 / any_of(random, values).0,
        };
        match Float::is_invalid_factor(k) {
            true => 1.0,
            false => k,
        }
    }

    fn few() -> &'static [Float] {
        &[Float(-0.0), Float(3.0)]
    }

    fn shared() -> &'static [Float] {
        &[]
    }

    fn original(input: &Input<Float>) -> Vec<(u64, Float)> {
        let [left, right] = [&input.left, &input.right].map(|map| {
            let densities = map.values.iter().map(|density| density.0);
            run::mom(
                map.depth,
                map.zuniqs.iter().copied().zip(densities).collect(),
            )
        });
        let (k, m, t) = (
            input.factor.0,
            input.depth_threshold,
            input.chi2_threshold.0,
        );
        // Without a list its own product, which takes no merger.
        let (_, entries) = match &input.protected[..] {
            [] => run::product_by_chi(left, right, k, m, t),
            list => run::product(left, right, k, m, t, run::listed(list)),
        };
        let entries = entries.into_iter();
        entries.map(|(zuniq, m)| (zuniq, Float(m))).collect()
    }
}

impl Call for Float {
    fn combine(input: &Input<Float>, zuniqs: &mut [u64], values: &mut [Float]) -> Answer<Float> {
        let numbers = |values: &[Float]| -> Vec<f64> { values.iter().map(|m| m.0).collect() };
        let given = [&input.left, &input.right].map(|map| numbers(&map.values));
        let left = Map {
            depth: input.left.depth,
            zuniqs: &input.left.zuniqs,
            values: &given[0],
        };
        let right = Map {
            depth: input.right.depth,
            zuniqs: &input.right.zuniqs,
            values: &given[1],
        };
        let (m, t, k) = (
            input.depth_threshold,
            input.chi2_threshold.0,
            input.factor.0,
        );
        let mut densities = numbers(values);
        let list = &input.protected;
        let answer = mom::product(left, right, m, t, k, list, zuniqs, &mut densities);
        for (place, density) in densities.into_iter().enumerate() {
            values[place] = Float(density);
        }
        answer.map(|entries| (entries, ()))
    }
}
