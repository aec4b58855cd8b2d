//! Wrong rows, maps of rows and densities: the random inputs must tell each from the original's often enough for a
//! short run to find it.

use differential::{
    compare::Kind,
    floats::Float,
    kinds::{CheckOfRows, ContainingInRows, OverlappedInRows},
    kinds::{DensityOfCount, Read, RowValue, Write},
    random::Random,
    widths::Width,
};

const DRAWN: usize = 20_000;

/// How often a wrong answer differs from the original's.
fn assert_found<K: Kind>(wrong: &str, answer: impl Fn(&K::Input) -> K::Answer) {
    let mut random = Random::new(8);
    let differs = |_: &usize| {
        let input = K::random(&mut random).unwrap();
        answer(&input) != K::original(&input)
    };
    let differing = (0..DRAWN).filter(differs).count();
    assert!(differing * 100 > DRAWN, "{wrong}: {differing} of {DRAWN}");
}

/// The wrong function is asked the count and N(depth).
fn assert_density_is_found(wrong: &str, density: fn(f64, f64) -> f64) {
    assert_found::<DensityOfCount>(wrong, |input| {
        let cells = 12u64 << (2 * input.depth);
        Ok(Float(density(input.count as f64, cells as f64)))
    });
}

const PI: f64 = std::f64::consts::PI;

/// 4π/N(d) and (4/N(d))π are the same f64 at every depth, so that no input tells them apart.
#[test]
fn no_wrong_density_is_missed() {
    assert_density_is_found("in one division", |n, cells| n * cells / (4.0 * PI));
    assert_density_is_found("of the parent", |n, cells| n / (4.0 * PI / (cells / 4.0)));
    assert_density_is_found("as an f32", |n, cells| n as f32 as f64 / (4.0 * PI / cells));
    assert_density_is_found("pi one f64 above", |n, cells| {
        n / (4.0 * PI.next_up() / cells)
    });
}

type Entries<V, Z = u64> = Vec<(Z, V)>;

fn assert_reading_is_found<V: RowValue<Z>, Z: Width>(
    wrong: &str,
    change: fn(Entries<V, Z>) -> Entries<V, Z>,
) {
    assert_found::<Read<V, Z>>(wrong, |bytes| {
        let (entries, _) = Read::<V, Z>::ours(bytes)?;
        let entries = change(entries);
        let number = entries.len();
        Ok((entries, number))
    });
}

#[test]
fn no_wrong_reading_is_missed() {
    fn at<Z: Width>() {
        assert_reading_is_found::<u32, Z>("big-endian counts", |rows| {
            rows.iter().map(|&(z, n)| (z, n.swap_bytes())).collect()
        });
        assert_reading_is_found::<u32, Z>("without the last row", |mut rows| {
            rows.pop();
            rows
        });
        assert_reading_is_found::<u32, Z>("zuniqs without their last bit", |rows| {
            let all = Z::of(u64::MAX) >> 1;
            rows.iter().map(|&(z, n)| (z & all, n)).collect()
        });
    }
    at::<u64>();
    at::<u32>();
    assert_reading_is_found::<u32, u32>("counts before zuniqs", |rows| {
        rows.iter().map(|&(z, n)| (n, z)).collect()
    });
    assert_reading_is_found::<u64, u64>("one NaN for all", |rows| {
        let one = |p| {
            if f64::from_bits(p).is_nan() {
                f64::NAN.to_bits()
            } else {
                p
            }
        };
        rows.iter().map(|&(z, p)| (z, one(p))).collect()
    });
    assert_reading_is_found::<u64, u64>("values before zuniqs", |rows| {
        rows.iter().map(|&(z, p)| (p, z)).collect()
    });
}

#[test]
fn no_wrong_writing_is_missed() {
    assert_found::<Write<u32>>("in 16 bytes a row", |entries| {
        let wide: Entries<u64> = entries.iter().map(|&(z, n)| (z, n as u64)).collect();
        Write::<u64>::ours(&wide)
    });
    assert_found::<Write<u32, u32>>("in 12 bytes a row", |entries| {
        let wide: Entries<u32> = entries.iter().map(|&(z, n)| (z as u64, n)).collect();
        Write::<u32>::ours(&wide)
    });
    assert_found::<Write<u64>>("the quiet NaN", |entries| {
        let quiet = |p| {
            if f64::from_bits(p).is_nan() {
                p | 1 << 51
            } else {
                p
            }
        };
        Write::<u64>::ours(&entries.iter().map(|&(z, p)| (z, quiet(p))).collect())
    });
}

/// The wrong check is asked the hashes, all of one depth.
#[test]
fn no_wrong_check_of_rows_is_missed() {
    fn of_hashes<Z: Width>(wrong: &str, change: fn(&mut Vec<u64>)) {
        assert_found::<CheckOfRows<Z>>(wrong, |input| {
            let mut input = input.clone();
            change(&mut input.hashes);
            CheckOfRows::<Z>::original(&input)
        });
    }
    fn at<Z: Width>() {
        of_hashes::<Z>("without the last row", |hashes| {
            hashes.pop();
        });
        of_hashes::<Z>("without the first row", |hashes| {
            hashes.drain(..hashes.len().min(1));
        });
        of_hashes::<Z>("equal rows taken for one", |hashes| hashes.dedup());
        assert_found::<CheckOfRows<Z>>("any rows are a map", |_| Ok(Ok(())));
    }
    at::<u64>();
    at::<u32>();
}

/// Wrong answers that are right where no entry is found.
#[test]
fn no_wrong_containing_in_rows_is_missed() {
    fn found_in<Z: Width>(wrong: &str, is_seen: fn(u32) -> bool) {
        assert_found::<ContainingInRows<Z>>(wrong, |input| {
            let entry = ContainingInRows::<Z>::original(input)?;
            Ok(entry.filter(|entry| is_seen(entry.1)))
        });
    }
    fn at<Z: Width>() {
        found_in::<Z>("none", |_| false);
        found_in::<Z>("never the first row", |row| row > 0);
        found_in::<Z>("never past the first row", |row| row == 0);
        assert_found::<ContainingInRows<Z>>("only the query itself", |input| {
            let entry = ContainingInRows::<Z>::original(input)?;
            Ok(entry.filter(|entry| entry.0 == input.query.zuniq()))
        });
    }
    at::<u64>();
    at::<u32>();
}

#[test]
fn no_wrong_overlapping_over_rows_is_missed() {
    fn of_run<Z: Width>(wrong: &str, change: fn(&mut Entries<u32, Z>)) {
        assert_found::<OverlappedInRows<Z>>(wrong, |input| {
            let mut run = OverlappedInRows::<Z>::original(input)?;
            change(&mut run);
            Ok(run)
        });
    }
    fn at<Z: Width>() {
        of_run::<Z>("none", |run| run.clear());
        of_run::<Z>("only the first", |run| run.truncate(1));
        of_run::<Z>("without the first of several", |run| {
            if run.len() > 1 {
                run.remove(0);
            }
        });
        of_run::<Z>("without the last of several", |run| {
            if run.len() > 1 {
                run.pop();
            }
        });
        assert_found::<OverlappedInRows<Z>>("only what lies before the query", |input| {
            let mut run = OverlappedInRows::<Z>::original(input)?;
            run.retain(|entry| entry.0 <= input.query.zuniq());
            Ok(run)
        });
    }
    at::<u64>();
    at::<u32>();
}
