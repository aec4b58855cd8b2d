//! Pooling and multiplying. The original takes its two maps for its own: they are copied for it
//! outside the time. Ours walks the overlay of lent maps into lent buffers, which hold what the
//! round before left there and have just as many places as there are cells before merging. Under protected
//! parents the original's merger stands behind a `binary_search`, as in adding. Last, what it takes to ask for
//! a pool before it is done, beside the pool alone.

use mom::{Added, Figures, Refusal};
use oracle::run;

use super::Plan;
use crate::{
    inputs::{count_map, density_map, parents_of, split_maps, Map},
    measure::{
        alone, contest, heading_of_asking, heading_with_extra, in_turns, row_of_asking,
        row_with_extra, timed, Extra,
    },
};

const CHI2: f64 = 7.815;

const FACTOR: f64 = 1e-6;

pub fn run(plan: Plan) {
    let depth = 10 - plan.shallower;
    let number = 1_000_000 >> (2 * plan.shallower);
    let (left, right) = (count_map(depth, number, 1), count_map(depth, number, 2));
    let shallow = count_map(depth - 5, number, 3);
    let pair = Pair {
        left: &left,
        right: &right,
        chi2_threshold: CHI2,
        protected: &[],
    };
    let apart = Pair {
        chi2_threshold: -1.0,
        ..pair
    };
    let deep = Pair {
        left: &shallow,
        ..pair
    };
    let [over, under] = split_maps(depth - 2, number / 8);
    let split = Pair {
        left: &over,
        right: &under,
        ..apart
    };
    heading_with_extra("Combining", "entry", "entries");
    pool(plan, "pool, T 7.815", pair);
    pool(plan, "pool, T -1", apart);
    pool(plan, "pool, shallow with deep, T 7.815", deep);
    pool(plan, "pool, all split five levels down, T -1", split);
    products(plan, [&left, &right, &shallow].map(density_map));
    let lists = [0, 1, 1_000, 100_000].map(|protected| {
        let cells = left.cells().chain(right.cells());
        parents_of(cells, plan.smaller(protected))
    });
    heading_with_extra("Pooling under protected parents", "entry", "entries");
    for protected in &lists {
        let work = format!("pool, T 7.815, {} protected", protected.len());
        pool(plan, &work, Pair { protected, ..pair });
    }
    heading_of_asking("Pooling, asked for before");
    ask(plan, "T 7.815", pair);
    ask(plan, "T -1", apart);
    ask(plan, "shallow with deep, T 7.815", deep);
    ask(plan, "all split five levels down, T -1", split);
    let [.., protected] = &lists;
    let work = format!("T 7.815, {} protected", protected.len());
    ask(plan, &work, Pair { protected, ..pair });
}

/// Two maps to be pooled, at an M of 0.
#[derive(Clone, Copy)]
struct Pair<'a> {
    left: &'a Map<u32>,
    right: &'a Map<u32>,
    chi2_threshold: f64,
    protected: &'a [u64],
}

type Entries<V> = Vec<(u64, V)>;

impl Pair<'_> {
    fn pool(&self, zuniqs: &mut [u64], counts: &mut [u32]) -> Result<Added, Refusal> {
        let (left, right) = (self.left.lent(), self.right.lent());
        let t = self.chi2_threshold;
        mom::pool(left, right, 0, t, self.protected, zuniqs, counts)
    }

    fn ask(&self) -> Result<Figures, Refusal> {
        let (left, right) = (self.left.lent(), self.right.lent());
        mom::ask(left, right, 0, self.chi2_threshold, self.protected)
    }

    fn commit(
        &self,
        figures: Figures,
        zuniqs: &mut [u64],
        counts: &mut [u32],
    ) -> Result<Added, Refusal> {
        let (left, right) = (self.left.lent(), self.right.lent());
        let t = self.chi2_threshold;
        mom::commit(left, right, 0, t, self.protected, figures, zuniqs, counts)
    }

    /// Of the two maps as the original takes them.
    fn original(&self, left: Entries<u32>, right: Entries<u32>) -> Entries<u32> {
        let left = run::mom(self.left.depth, left);
        let right = run::mom(self.right.depth, right);
        let t = self.chi2_threshold;
        match self.protected {
            [] => run::pool(left, right, 0, t, run::unprotected).1,
            list => run::pool(left, right, 0, t, run::searched(list)).1,
        }
    }

    fn original_figures(&self) -> Figures {
        let [left, right] = [self.left, self.right].map(|map| run::mom(map.depth, map.entries()));
        let (t, protects) = (self.chi2_threshold, run::searched(self.protected));
        let (cells, entries) = run::pool_with_cells(left, right, 0, t, protects);
        Figures {
            cells,
            entries: entries.len(),
            total: entries.iter().map(|&(_, count)| count).sum(),
        }
    }
}

fn pool(plan: Plan, work: &str, pair: Pair) {
    let ours = |left: &Map<u32>, right: &Map<u32>, zuniqs: &mut [u64], counts: &mut [u32]| {
        let pair = Pair {
            left,
            right,
            ..pair
        };
        pair.pool(zuniqs, counts).map(|pooled| pooled.entries)
    };
    let original = |left, right, _| pair.original(left, right);
    combine(plan, work, pair.left, pair.right, ours, original);
}

/// Times a pool, an ask, an ask followed by its commit, and the original's pool.
fn ask(plan: Plan, work: &str, pair: Pair) {
    let figures = pair.ask().unwrap();
    assert_eq!(figures, pair.original_figures(), "{work}: answers differ");
    let buffers = || (vec![0; figures.cells], vec![0; figures.cells]);
    let (mut pooled, mut committed) = (buffers(), buffers());
    let times = in_turns(
        plan.rounds,
        [
            &mut || timed(|| pair.pool(&mut pooled.0, &mut pooled.1)),
            &mut || timed(|| pair.ask()),
            &mut || {
                timed(|| {
                    let figures = pair.ask()?;
                    pair.commit(figures, &mut committed.0, &mut committed.1)
                })
            },
            &mut || {
                let (left, right) = (pair.left.entries(), pair.right.entries());
                timed(|| pair.original(left, right))
            },
        ],
    );
    assert!(pooled == committed, "{work}: answers differ");
    let work = format!("{work}: {} cells", figures.cells);
    row_of_asking(&work, pair.left.len() + pair.right.len(), times);
}

/// Of two deep maps and a shallow one.
fn products(plan: Plan, [left, right, shallow]: [Map<f64>; 3]) {
    product(plan, "product, T 7.815", &left, &right, CHI2);
    product(plan, "product, T -1", &left, &right, -1.0);
    let work = "product, shallow with deep, T 7.815";
    product(plan, work, &shallow, &right, CHI2);
}

fn product(plan: Plan, work: &str, left: &Map<f64>, right: &Map<f64>, chi2_threshold: f64) {
    let ours = |left: &Map<f64>, right: &Map<f64>, zuniqs: &mut [u64], values: &mut [f64]| {
        mom::product(
            left.lent(),
            right.lent(),
            0,
            chi2_threshold,
            FACTOR,
            &[],
            zuniqs,
            values,
        )
    };
    let original = |left: Vec<(u64, f64)>, right: Vec<(u64, f64)>, depths: (u8, u8)| {
        let (left, right) = (run::mom(depths.0, left), run::mom(depths.1, right));
        run::product_by_chi(left, right, FACTOR, 0, chi2_threshold).1
    };
    combine(plan, work, left, right, ours, original);
}

/// Times combining two maps, by `ours` into two buffers.
fn combine<V: Copy + Default + PartialEq>(
    plan: Plan,
    work: &str,
    left: &Map<V>,
    right: &Map<V>,
    ours: impl Fn(&Map<V>, &Map<V>, &mut [u64], &mut [V]) -> Result<usize, Refusal>,
    original: impl Fn(Vec<(u64, V)>, Vec<(u64, V)>, (u8, u8)) -> Vec<(u64, V)>,
) {
    // More places than the overlay of the two has cells.
    let most = (8 * (left.len() + right.len())).min(12 << (2 * left.depth.max(right.depth)));
    let (mut zuniqs, mut values) = (vec![0; most], vec![V::default(); most]);
    let needed = least_accepted(most, |n| {
        ours(left, right, &mut zuniqs[..n], &mut values[..n]).is_ok()
    });
    let (zuniqs, values) = (&mut zuniqs[..needed], &mut values[..needed]);
    let depths = (left.depth, right.depth);
    let times = contest(
        plan.rounds,
        || timed(|| ours(left, right, zuniqs, values)),
        || {
            let (left, right) = (left.entries(), right.entries());
            timed(|| original(left, right, depths))
        },
    );
    let entries = ours(left, right, zuniqs, values).unwrap();
    let held = zuniqs.iter().copied().zip(values.iter().copied());
    let expected = original(left.entries(), right.entries(), depths);
    assert!(held.take(entries).eq(expected), "{work}: answers differ");
    let checks = alone(plan.rounds, || {
        let (z, v) = (&mut zuniqs[..needed - 1], &mut values[..needed - 1]);
        timed(|| ours(left, right, z, v).unwrap_err())
    });
    let empty = Map::of(0, &[]);
    let clearing = alone(plan.rounds, || {
        let (z, v) = (&mut zuniqs[entries..], &mut values[entries..]);
        timed(|| ours(&empty, &empty, z, v).unwrap())
    });
    let work = format!("{work}: {needed} cells");
    row_with_extra(
        &work,
        left.len() + right.len(),
        times,
        Extra { checks, clearing },
    );
}

/// The least number of places that a call accepts, found by halving.
fn least_accepted(most: usize, mut accepts: impl FnMut(usize) -> bool) -> usize {
    assert!(accepts(most));
    let (mut refused, mut accepted) = (0, most);
    while accepted - refused > 1 {
        let middle = refused + (accepted - refused) / 2;
        if accepts(middle) {
            accepted = middle;
        } else {
            refused = middle;
        }
    }
    accepted
}
