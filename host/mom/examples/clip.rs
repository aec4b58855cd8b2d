//! Clips a file of density rows to the area that an observer can reach.
//!
//!     clip MAP RANGES CLIPPED
//!
//! MAP holds density rows of 16 bytes: the zuniq of an entry, then the 64-bit pattern of its density.
//! RANGES holds ranges of 16 bytes: the first hash of depth 29, then the hash behind the last one. Each
//! of these numbers is a little-endian u64, and nothing stands before, between or after them. Writes the
//! clipped map to CLIPPED, as density rows, and prints how many entries, ranges and cells there are, and
//! how many cells of depth 29 lie both in the map and in the ranges.
//!
//! What is refused is told on standard error with its number and place, and in words; then nothing is
//! written, and the status is 1.

use std::{env, error::Error, fs, process::ExitCode};

use mom::{
    reach::{clip, coverage},
    rows::{read_density_rows, write_density_rows, DENSITY_ROW},
    Refusal,
};

fn main() -> ExitCode {
    let arguments: Vec<String> = env::args().skip(1).collect();
    match clip_file(&arguments) {
        Ok(report) => {
            println!("{report}");
            ExitCode::SUCCESS
        }
        Err(error) => {
            eprintln!("clip: {error}");
            ExitCode::FAILURE
        }
    }
}

/// Rows don't tell the depth of their map. This one will do for any: no entry is deeper.
const DEPTH: u8 = 29;

fn clip_file(arguments: &[String]) -> Result<String, Box<dyn Error>> {
    let [map, ranges, clipped] = arguments else {
        return Err("MAP RANGES CLIPPED".into());
    };
    let (zuniqs, patterns) = pairs_of(map)?;
    // A range is as long as a row, and its two numbers stand as in a row.
    let (starts, ends) = pairs_of(ranges)?;
    let densities: Vec<f64> = patterns.into_iter().map(f64::from_bits).collect();
    let (cells, values) = clipped_map(&zuniqs, &densities, &starts, &ends)?;
    let hashes = hashes_in(&cells)?;
    fs::write(clipped, rows_of(&cells, &values)?).map_err(|error| format!("{clipped}: {error}"))?;
    Ok(format!(
        "{} entries, {} ranges: {} cells, which hold {hashes} cells of depth 29",
        zuniqs.len(),
        starts.len(),
        cells.len()
    ))
}

/// The two numbers of each row of a file.
fn pairs_of(file: &str) -> Result<(Vec<u64>, Vec<u64>), Box<dyn Error>> {
    let bytes = fs::read(file).map_err(|error| format!("{file}: {error}"))?;
    let number = bytes.len() / DENSITY_ROW;
    let (mut firsts, mut seconds) = (vec![0; number], vec![0; number]);
    read_density_rows(&bytes, &mut firsts, &mut seconds)
        .map_err(|refusal| format!("{file}: {refusal}"))?;
    Ok((firsts, seconds))
}

/// Nothing tells beforehand how many cells there are. A refused call has written nothing, so that it may
/// be made again with twice the space.
fn clipped_map(
    zuniqs: &[u64],
    densities: &[f64],
    starts: &[u64],
    ends: &[u64],
) -> Result<(Vec<u64>, Vec<f64>), Refusal> {
    let mut places = zuniqs.len() + starts.len();
    loop {
        let (mut cells, mut values) = (vec![0; places], vec![0.0; places]);
        let (z, m) = (&mut cells, &mut values);
        match clip(DEPTH, zuniqs, densities, starts, ends, z, m) {
            Err(Refusal::NoSpace) => places *= 2,
            answer => {
                let number = answer?;
                cells.truncate(number);
                values.truncate(number);
                return Ok((cells, values));
            }
        }
    }
}

/// How many cells of depth 29 lie in a map.
fn hashes_in(zuniqs: &[u64]) -> Result<u64, Refusal> {
    let (mut starts, mut ends) = (vec![0; zuniqs.len()], vec![0; zuniqs.len()]);
    coverage(DEPTH, zuniqs, &mut starts, &mut ends)?;
    // The places behind the last range are 0, and add nothing.
    let ranges = starts.iter().zip(&ends);
    Ok(ranges.map(|(start, end)| end - start).sum())
}

fn rows_of(zuniqs: &[u64], densities: &[f64]) -> Result<Vec<u8>, Refusal> {
    let patterns: Vec<u64> = densities.iter().map(|density| density.to_bits()).collect();
    let mut bytes = vec![0; zuniqs.len() * DENSITY_ROW];
    write_density_rows(zuniqs, &patterns, &mut bytes)?;
    Ok(bytes)
}

#[cfg(test)]
mod tests {
    use super::*;
    use std::{path::PathBuf, process};

    /// A directory of this name for the three files, which goes with it.
    struct Files(PathBuf);

    impl Files {
        fn new(name: &str) -> Files {
            let directory = env::temp_dir().join(format!("clip-{name}-{}", process::id()));
            fs::create_dir(&directory).unwrap();
            Files(directory)
        }

        fn path(&self, file: &str) -> String {
            self.0.join(file).into_os_string().into_string().unwrap()
        }

        /// Clips these bytes; what was told, and what the third file holds.
        fn clip(&self, map: &[u8], ranges: &[u8]) -> (Result<String, String>, Option<Vec<u8>>) {
            let files = ["map", "ranges", "clipped"].map(|file| self.path(file));
            fs::write(&files[0], map).unwrap();
            fs::write(&files[1], ranges).unwrap();
            let told = clip_file(&files).map_err(|error| error.to_string());
            (told, fs::read(&files[2]).ok())
        }
    }

    impl Drop for Files {
        fn drop(&mut self) {
            let _ = fs::remove_dir_all(&self.0);
        }
    }

    /// Numbers, little-endian.
    fn bytes_of(numbers: &[[u64; 2]]) -> Vec<u8> {
        let numbers = numbers.iter().flatten();
        numbers.flat_map(|number| number.to_le_bytes()).collect()
    }

    /// The pattern of a half and of 1.5.
    const HALF: u64 = 0x3fe0 << 48;
    const MORE: u64 = 0x3ff8 << 48;

    /// (28, 0), which holds the hashes 0 to 3, (29, 4) and (28, 2), which holds 8 to 11.
    const MAP: [[u64; 2]; 3] = [[4, HALF], [9, MORE], [20, HALF]];

    #[test]
    fn a_file_is_clipped_to_ranges() {
        let files = Files::new("ranges");
        let ranges = bytes_of(&[[1, 6], [7, 10]]);
        let (told, clipped) = files.clip(&bytes_of(&MAP), &ranges);
        let report = "3 entries, 2 ranges: 6 cells, which hold 6 cells of depth 29";
        assert_eq!(told, Ok(report.into()));
        // (29, 1), (29, 2) and (29, 3) of the first entry, the second, (29, 8) and (29, 9) of the third.
        let cells = [
            [3, HALF],
            [5, HALF],
            [7, HALF],
            [9, MORE],
            [17, HALF],
            [19, HALF],
        ];
        assert_eq!(clipped, Some(bytes_of(&cells)));
    }

    /// A base cell without its first hash is cut into 87 cells, which is more than there is at first.
    #[test]
    fn no_file_lacks_space() {
        let files = Files::new("space");
        let (map, ranges) = ([[1 << 58, 0]], [[1, 1 << 58]]);
        let (told, clipped) = files.clip(&bytes_of(&map), &bytes_of(&ranges));
        let hashes = (1u64 << 58) - 1;
        let report =
            format!("1 entries, 1 ranges: 87 cells, which hold {hashes} cells of depth 29");
        assert_eq!(told, Ok(report));
        assert_eq!(clipped.map(|bytes| bytes.len()), Some(87 * DENSITY_ROW));
    }

    /// What the file held before is gone too.
    #[test]
    fn an_empty_file_clips_everything_away() {
        let files = Files::new("empty");
        fs::write(files.path("clipped"), "former").unwrap();
        let (told, clipped) = files.clip(&bytes_of(&MAP), &[]);
        let report = "3 entries, 0 ranges: 0 cells, which hold 0 cells of depth 29";
        assert_eq!((told, clipped), (Ok(report.into()), Some(vec![])));
        let (told, clipped) = files.clip(&[], &[]);
        let report = "0 entries, 0 ranges: 0 cells, which hold 0 cells of depth 29";
        assert_eq!((told, clipped), (Ok(report.into()), Some(vec![])));
    }

    #[test]
    fn no_refused_file_is_clipped_or_goes_unnamed() {
        let files = Files::new("refused");
        let (map, ranges) = (bytes_of(&MAP), bytes_of(&[[1, 6], [6, 10]]));
        let (told, clipped) = files.clip(&map, &ranges);
        let words = "refused by 14 at place 1: the range is empty, ends past N(29), \
                     or doesn't start above the end of the one before";
        assert_eq!((told, clipped), (Err(words.into()), None));

        let nan = bytes_of(&[[4, HALF], [9, f64::NAN.to_bits()]]);
        let (told, clipped) = files.clip(&nan, &ranges);
        let words = "refused by 6 at place 1: a held or given density is NaN, infinite or below 0 \
                     at this entry";
        assert_eq!((told, clipped), (Err(words.into()), None));

        let twice = bytes_of(&[[4, HALF], [9, HALF], [9, HALF]]);
        let (told, clipped) = files.clip(&twice, &ranges);
        let words = "refused by 5 at place 2: a held or given map is invalid at this entry";
        assert_eq!((told, clipped), (Err(words.into()), None));

        let (told, clipped) = files.clip(&map, &ranges[1..]);
        let file = files.path("ranges");
        let told = told.unwrap_err();
        assert!(
            told.starts_with(&format!("{file}: refused by 4 at place 0: ")),
            "{told}"
        );
        assert_eq!(clipped, None);
    }

    #[test]
    fn no_missing_file_goes_unnamed() {
        let files = Files::new("missing");
        let missing = files.path("map");
        let told = clip_file(&[missing.clone(), missing.clone(), files.path("clipped")]);
        let told = told.unwrap_err().to_string();
        assert!(told.starts_with(&format!("{missing}: ")), "{told}");
        let told = clip_file(&[missing]).unwrap_err().to_string();
        assert_eq!(told, "MAP RANGES CLIPPED");
    }
}
