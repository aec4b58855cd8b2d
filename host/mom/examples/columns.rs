//! What byte columns are for: count rows as a file has them, compressed as rows and as byte columns.
//!
//!     cargo run --release --example columns [ROWS [COMPRESSOR..]]
//!
//! Makes the first ROWS (1,000,000) rows of a map as a survey would leave it: Poisson counts, high in
//! the plane of the galaxy and low at its poles, and four cells that are alike merged. Hands the rows,
//! and then their byte columns, to COMPRESSOR (`gzip -6`; `zstd -3` or `xz -6` will do too), which reads
//! standard input and writes standard output, and prints both sizes. The status is 1 where the columns
//! are not smaller, or don't give the rows again.

use std::{
    env,
    error::Error,
    io::{ErrorKind, Write},
    process::{Command, ExitCode, Stdio},
    thread,
};

use mom::{
    columns::{columns_to_rows, rows_to_columns},
    rows::{write_count_rows, COUNT_ROW},
    Refusal,
};

fn main() -> ExitCode {
    let arguments: Vec<String> = env::args().skip(1).collect();
    match compare(&arguments) {
        Ok(report) => {
            println!("{report}");
            ExitCode::SUCCESS
        }
        Err(error) => {
            eprintln!("columns: {error}");
            ExitCode::FAILURE
        }
    }
}

/// What the compressor makes of the rows and of their columns; an error where the columns are no use.
fn compare(arguments: &[String]) -> Result<String, Box<dyn Error>> {
    let (number, compressor) = match arguments {
        [] => ("1000000", "gzip -6".into()),
        [number] => (number.as_str(), "gzip -6".into()),
        [number, compressor @ ..] => (number.as_str(), compressor.join(" ")),
    };
    let number = number.parse();
    let number = number.map_err(|error| format!("ROWS: {error}"))?;
    let depth = depth_for(number)?;
    let rows = count_rows(depth, number)?;
    let columns = laid_out(&rows)?;
    let bytes = rows.len();
    let of_rows = compressed(&compressor, &rows)?;
    let of_columns = compressed(&compressor, &columns)?;
    let ratio = of_columns as f64 / of_rows as f64;
    let report = format!(
        "{number} count rows of a map of depth {depth}: {bytes} bytes\n\
         as rows, {compressor}: {of_rows} bytes\n\
         as byte columns, {compressor}: {of_columns} bytes, {ratio:.3} of that"
    );
    if of_columns >= of_rows {
        return Err(format!("{report}\nthe columns are not smaller").into());
    }
    Ok(report)
}

/// The byte columns of count rows, tried the way back.
fn laid_out(rows: &[u8]) -> Result<Vec<u8>, Box<dyn Error>> {
    let (mut columns, mut again) = (vec![0; rows.len()], vec![0; rows.len()]);
    rows_to_columns(COUNT_ROW, rows, &mut columns)?;
    columns_to_rows(COUNT_ROW, &columns, &mut again)?;
    if again != rows {
        return Err("the columns don't give the rows again".into());
    }
    Ok(columns)
}

/// How many bytes the command makes of these.
fn compressed(command: &str, bytes: &[u8]) -> Result<usize, Box<dyn Error>> {
    let mut words = command.split_whitespace();
    let program = words.next().ok_or("COMPRESSOR names no program")?;
    let mut compressor = Command::new(program);
    compressor
        .args(words)
        .stdin(Stdio::piped())
        .stdout(Stdio::piped());
    let mut child = compressor.spawn().map_err(|error| match error.kind() {
        ErrorKind::NotFound => format!("the compressor {program} is not on this machine"),
        _ => format!("{program}: {error}"),
    })?;
    let mut input = child.stdin.take().ok_or("no standard input")?;
    // By a thread of its own, since a compressor writes before it has read everything.
    let (output, written) = thread::scope(|scope| {
        let writing = scope.spawn(move || input.write_all(bytes));
        (child.wait_with_output(), writing.join().unwrap())
    });
    let output = output?;
    if !output.status.success() {
        return Err(format!("{command}: {}", output.status).into());
    }
    written?;
    Ok(output.stdout.len())
}

/// The depth at which the map has so many entries: merging leaves a little more than one cell in
/// twelve, which is as many as a base cell has.
fn depth_for(number: usize) -> Result<u8, Box<dyn Error>> {
    let depth = (1..=29).find(|depth| number <= 1 << (2 * depth));
    Ok(depth.ok_or("ROWS: no map has so many")?)
}

/// The first rows of the map, so many.
fn count_rows(depth: u8, number: usize) -> Result<Vec<u8>, Box<dyn Error>> {
    let (zuniqs, counts) = map(depth)?;
    if zuniqs.len() < number {
        return Err(format!("the map has only {} rows", zuniqs.len()).into());
    }
    let mut rows = vec![0; number * COUNT_ROW];
    write_count_rows(&zuniqs[..number], &counts[..number], &mut rows)?;
    Ok(rows)
}

/// Chance alone brings the chi-square of four equal cells above this 5 times in 100.
const CHI2_THRESHOLD: f64 = 7.815;

/// A map of the whole sky, as zuniqs and counts. Each base cell is a batch of its own.
fn map(depth: u8) -> Result<(Vec<u64>, Vec<u32>), Refusal> {
    let mut random = Random(1);
    let (mut zuniqs, mut counts) = (Vec::new(), Vec::new());
    for base in 0..12 {
        let hashes: Vec<u64> = (base << (2 * depth)..(base + 1) << (2 * depth)).collect();
        let count = |&hash| poisson(&mut random, mean(depth, hash));
        let batch: Vec<u32> = hashes.iter().map(count).collect();
        let held = zuniqs.len();
        zuniqs.resize(held + batch.len(), 0);
        counts.resize(held + batch.len(), 0);
        let (z, c) = (&mut zuniqs, &mut counts);
        let added = mom::add_counts(depth, 0, CHI2_THRESHOLD, &[], held, z, c, &hashes, &batch)?;
        zuniqs.truncate(added.entries);
        counts.truncate(added.entries);
    }
    Ok((zuniqs, counts))
}

/// The north pole and the centre of the galaxy in equatorial coordinates, in which the map is.
const POLE: [f64; 3] = [-0.8677, -0.1981, 0.4560];
const CENTRE: [f64; 3] = [-0.0549, -0.8734, -0.4838];

/// The mean count of a cell: 0.3 at the poles, and up to 16 in the plane towards the centre.
fn mean(depth: u8, hash: u64) -> f64 {
    let direction = direction(depth, hash);
    let along = |axis: [f64; 3]| -> f64 { (0..3).map(|i| axis[i] * direction[i]).sum() };
    let plane = (-along(POLE).abs() / 0.15).exp();
    0.3 + 8.0 * plane * (1.0 + along(CENTRE))
}

/// Where the middle of a cell lies on the sphere (Górski et al. 2005).
fn direction(depth: u8, hash: u64) -> [f64; 3] {
    let side = (1u64 << depth) as f64;
    let base = hash >> (2 * depth);
    let (x, y) = (
        every_second_bit(depth, hash),
        every_second_bit(depth, hash >> 1),
    );
    // The ring, counted from the north pole, and how many cells a quarter of it has.
    let ring = (base / 4 + 2) as f64 * side - x - y - 1.0;
    let quarter = ring.min(4.0 * side - ring).min(side);
    let cap = 1.0 - quarter * quarter / (3.0 * side * side);
    let z = match ring {
        _ if ring < side => cap,
        _ if ring > 3.0 * side => -cap,
        _ => (2.0 * side - ring) * 2.0 / (3.0 * side),
    };
    let eighth = [1.0, 3.0, 5.0, 7.0, 0.0, 2.0, 4.0, 6.0][base as usize % 8];
    let longitude = (eighth + (x - y) / quarter) * std::f64::consts::FRAC_PI_4;
    let radius = (1.0 - z * z).sqrt();
    [radius * longitude.cos(), radius * longitude.sin(), z]
}

fn every_second_bit(depth: u8, bits: u64) -> f64 {
    let bit = |place: u8| (bits >> (2 * place) & 1) << place;
    (0..depth).map(bit).sum::<u64>() as f64
}

/// SplitMix64 (Steele, Lea and Flood 2014).
struct Random(u64);

impl Random {
    fn unit(&mut self) -> f64 {
        self.0 = self.0.wrapping_add(0x9e37_79b9_7f4a_7c15);
        let z = (self.0 ^ self.0 >> 30).wrapping_mul(0xbf58_476d_1ce4_e5b9);
        let z = (z ^ z >> 27).wrapping_mul(0x94d0_49bb_1331_11eb);
        ((z ^ z >> 31) >> 11) as f64 / (1u64 << 53) as f64
    }
}

/// How many uniform factors it takes to fall below e^−mean (Knuth).
fn poisson(random: &mut Random, mean: f64) -> u32 {
    let limit = (-mean).exp();
    let (mut product, mut number) = (random.unit(), 0);
    while product > limit {
        product *= random.unit();
        number += 1;
    }
    number
}

#[cfg(test)]
mod tests {
    use super::*;

    fn report(arguments: &[&str]) -> Result<String, String> {
        let arguments: Vec<String> = arguments.iter().map(|word| word.to_string()).collect();
        compare(&arguments).map_err(|error| error.to_string())
    }

    #[test]
    fn no_map_is_invalid_or_short_of_rows() {
        for depth in 1..=6 {
            let (zuniqs, _) = map(depth).unwrap();
            assert_eq!(mom::check_is_mom(depth, &zuniqs), Ok(mom::MapCheck::Valid));
            let most = 1 << (2 * depth);
            for number in [most / 4 + 1, most] {
                assert_eq!(depth_for(number).unwrap(), depth);
                let rows = count_rows(depth, number).unwrap();
                assert_eq!(rows.len(), number * COUNT_ROW);
            }
        }
    }

    /// Entries of several depths and counts of all sizes, as a real map has them.
    #[test]
    fn no_map_is_of_one_depth() {
        let (zuniqs, counts) = map(6).unwrap();
        let depths = zuniqs
            .iter()
            .map(|&zuniq| mom::from_zuniq(zuniq).unwrap().0);
        for depth in 3..=6 {
            assert!(
                depths.clone().filter(|&d| d == depth).count() > 100,
                "{depth}"
            );
        }
        assert!(counts.contains(&0) && counts.iter().any(|&count| count > 100));
    }

    /// The middle of four base cells, and of all cells together.
    #[test]
    fn no_cell_lies_elsewhere() {
        let north = 5f64.sqrt() / 3.0;
        for (base, [x, y, z]) in [
            (0, [north * 0.5f64.sqrt(), north * 0.5f64.sqrt(), 2.0 / 3.0]),
            (4, [1.0, 0.0, 0.0]),
            (7, [0.0, -1.0, 0.0]),
            (
                9,
                [-north * 0.5f64.sqrt(), north * 0.5f64.sqrt(), -2.0 / 3.0],
            ),
        ] {
            let [a, b, c] = direction(0, base);
            assert!([a - x, b - y, c - z]
                .iter()
                .all(|difference| difference.abs() < 1e-12));
        }
        let all = (0..768).map(|hash| direction(3, hash));
        let sum = all.fold([0.0; 3], |sum, d| [0, 1, 2].map(|i| sum[i] + d[i]));
        assert!(sum.iter().all(|x| x.abs() < 1e-9), "{sum:?}");
    }

    #[test]
    fn no_missing_or_failing_compressor_goes_unnamed() {
        let missing = "the compressor no-such-compressor is not on this machine";
        assert_eq!(
            report(&["9", "no-such-compressor", "-6"]),
            Err(missing.into())
        );
        assert_eq!(
            report(&["9", ""]),
            Err("COMPRESSOR names no program".into())
        );
        let failing = report(&["9", "false"]).unwrap_err();
        assert!(failing.starts_with("false: exit status: 1"), "{failing}");
    }

    #[test]
    fn no_columns_pass_that_are_not_smaller() {
        let error = report(&["9", "cat"]).unwrap_err();
        assert!(error.ends_with("the columns are not smaller"), "{error}");
    }

    #[test]
    fn no_other_number_of_rows_is_taken() {
        assert_eq!(
            report(&["x"]),
            Err("ROWS: invalid digit found in string".into())
        );
        let huge = u64::MAX.to_string();
        assert_eq!(report(&[&huge]), Err("ROWS: no map has so many".into()));
    }
}
