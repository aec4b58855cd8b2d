//! What note 4 leaves as it was, where there is no list: wherever T is above 0, and wherever one of four is
//! not blank, ours answers as the original with its own merger does.

use differential::{
    compare::Kind,
    kinds::{CountMerger, Pool},
    lists::{List, Value},
    pairs::Input,
    quads::Call,
    random::Random,
    widths::Width,
};
use oracle::run;

const DRAWN: usize = 5_000;

/// A tenth of those drawn are compared, at least.
fn assert_enough(compared: usize, drawn: usize) {
    assert!(compared * 10 > drawn, "{compared} of {drawn}");
}

#[test]
fn no_merger_answers_otherwise_but_of_blanks_at_a_threshold_of_0_or_less() {
    let mut random = Random::new(41);
    let (mut compared, drawn) = (0, 100 * DRAWN);
    for _ in 0..drawn {
        let call = Call {
            protected: vec![],
            ..Call::<u32>::sound(&mut random)
        };
        let (p, m) = (call.quad.parent_depth, call.depth_threshold);
        let (t, counts) = (call.chi2_threshold.0, call.quad.values);
        if counts == [0; 4] && p >= m && t <= 0.0 {
            assert_eq!(CountMerger::ours(&call), Ok(Some(0)), "{call:?}");
            continue;
        }
        compared += 1;
        let by_chi = run::merge_counts_by_chi(p, m, t, counts);
        assert_eq!(CountMerger::ours(&call), Ok(by_chi), "{call:?}");
    }
    assert_enough(compared, drawn);
}

#[test]
fn no_map_is_built_otherwise_at_a_threshold_above_0() {
    fn at<Z: Width>() {
        let mut random = Random::new(42);
        let mut compared = 0;
        for _ in 0..DRAWN {
            let list = List::<u32>::random::<Z>(&mut random);
            let (depth, m, t) = (list.depth, list.depth_threshold, list.chi2_threshold.0);
            let (hashes, batch): (Vec<Z>, Vec<u32>) = list.cells::<Z>().into_iter().unzip();
            if t <= 0.0 || u32::overflow(&[], &batch).is_some() {
                continue;
            }
            compared += 1;
            let (mut zuniqs, mut counts) = (vec![Z::of(0); batch.len()], vec![0; batch.len()]);
            let (z, n) = (&mut zuniqs, &mut counts);
            let added = (Z::OURS.add_counts)(depth, m, t, &[], 0, z, n, &hashes, &batch).unwrap();
            let entries = zuniqs.into_iter().zip(counts).take(added.entries);
            let by_chi = run::build_counts_by_chi(depth, m, t, list.cells::<Z>().into_iter());
            assert_eq!(entries.collect::<Vec<_>>(), by_chi, "{list:?}");
        }
        assert_enough(compared, DRAWN);
    }
    at::<u64>();
    at::<u32>();
}

#[test]
fn no_pool_is_another_at_a_threshold_above_0() {
    let mut random = Random::new(43);
    let mut compared = 0;
    for _ in 0..DRAWN {
        let input = Input {
            protected: vec![],
            ..Input::<u32>::random(&mut random)
        };
        let (m, t) = (input.depth_threshold, input.chi2_threshold.0);
        if t <= 0.0 || input.refusal().is_some() {
            continue;
        }
        compared += 1;
        let [(answer, zuniqs, counts), _] = Pool::ours(&input);
        let (number, _) = answer.unwrap();
        let entries = zuniqs.into_iter().zip(counts).take(number);
        let [left, right] = [&input.left, &input.right].map(|map| {
            let entries = map.zuniqs.iter().copied().zip(map.values.iter().copied());
            run::mom(map.depth, entries.collect())
        });
        let (_, by_chi) = run::pool_by_chi(left, right, m, t);
        assert_eq!(entries.collect::<Vec<_>>(), by_chi, "{input:?}");
    }
    assert_enough(compared, DRAWN);
}
