//! Takes a file of count rows in, as an ingest process would: checks that it is a map, then looks
//! cells up in it.
//!
//!     ingest FILE DEPTH [ZUNIQ..]
//!
//! Prints the number of rows, and for each cell the counts of the entries that it overlaps. A cell
//! that is refused is named with the reason on standard error; the others are answered all the same,
//! and the status is 1.

use std::{env, error::Error, fs, ops::Range, process::ExitCode};

use mom::{rows, MapCheck};

fn main() -> ExitCode {
    let arguments: Vec<String> = env::args().skip(1).collect();
    let lines = ingest(&arguments).unwrap_or_else(|error| vec![Err(error)]);
    let mut status = ExitCode::SUCCESS;
    for line in lines {
        match line {
            Ok(line) => println!("{line}"),
            Err(error) => {
                eprintln!("ingest: {error}");
                status = ExitCode::FAILURE;
            }
        }
    }
    status
}

type Line = Result<String, Box<dyn Error>>;

/// The number of rows, then a line for each cell.
fn ingest(arguments: &[String]) -> Result<Vec<Line>, Box<dyn Error>> {
    let [file, depth, cells @ ..] = arguments else {
        return Err("FILE DEPTH [ZUNIQ..]".into());
    };
    let bytes = fs::read(file).map_err(|error| format!("{file}: {error}"))?;
    let depth = depth
        .parse()
        .map_err(|error| format!("DEPTH {depth}: {error}"))?;
    let counts = take_in(&bytes, depth)?;
    let rows = Ok(format!("{} rows", counts.len()));
    let found = cells.iter().map(|cell| match look_up(&bytes, cell) {
        Ok(run) => Ok(format!("{cell}: {:?}", &counts[run])),
        Err(error) => Err(format!("{cell}: {error}").into()),
    });
    Ok([rows].into_iter().chain(found).collect())
}

/// The rows of the entries that overlap a cell.
fn look_up(bytes: &[u8], cell: &str) -> Result<Range<usize>, Box<dyn Error>> {
    Ok(rows::get_overlapped_cells(bytes, cell.parse()?)?)
}

/// The counts of a valid map, row by row.
fn take_in(bytes: &[u8], depth: u8) -> Result<Vec<u32>, Box<dyn Error>> {
    if let MapCheck::Faulty { place, fault } = rows::check_is_mom(depth, bytes)? {
        return Err(format!("row {place} is {fault}").into());
    }
    // The check took the bytes, so they are whole rows, and not many.
    let number = bytes.len() / rows::COUNT_ROW;
    let (mut zuniqs, mut counts) = (vec![0; number], vec![0; number]);
    rows::read_count_rows(bytes, &mut zuniqs, &mut counts)?;
    Ok(counts)
}

#[cfg(test)]
mod tests {
    use super::*;

    /// The rows of a map in a file of this name.
    fn file_of(name: &str, zuniqs: &[u64], counts: &[u32]) -> String {
        let mut bytes = vec![0; zuniqs.len() * rows::COUNT_ROW];
        rows::write_count_rows(zuniqs, counts, &mut bytes).unwrap();
        let file = env::temp_dir().join(format!("{name}-{}", std::process::id()));
        fs::write(&file, bytes).unwrap();
        file.into_os_string().into_string().unwrap()
    }

    fn answers(arguments: &[&str]) -> Result<Vec<Result<String, String>>, String> {
        let arguments: Vec<String> = arguments.iter().map(|word| word.to_string()).collect();
        let told = |error: Box<dyn Error>| error.to_string();
        let lines = ingest(&arguments).map_err(told)?.into_iter();
        Ok(lines.map(|line| line.map_err(told)).collect())
    }

    #[test]
    fn a_map_is_taken_in_and_looked_up() {
        let (a, b) = (1 << 56, 3 << 56);
        let file = file_of("ingest-map", &[a, b], &[10, 3]);
        let base = (1u64 << 58).to_string();
        let answer = answers(&[&file, "1", &base, &b.to_string(), "1"]);
        fs::remove_file(&file).unwrap();
        let lines = [
            "2 rows",
            "288230376151711744: [10, 3]",
            "216172782113783808: [3]",
            "1: [10]",
        ];
        assert_eq!(answer, Ok(lines.map(|line| Ok(line.into())).to_vec()));
    }

    #[test]
    fn no_refused_cell_goes_unnamed_or_hides_the_others() {
        let file = file_of("ingest-refused", &[1, 3], &[10, 3]);
        let lines = answers(&[&file, "29", "2", "3", "x", "1"]).unwrap();
        fs::remove_file(&file).unwrap();
        let refused = Err(
            "2: refused by 12 at place 0: the query is not a valid zuniq, \
                           or in containing not at the map's depth"
                .into(),
        );
        let unreadable = Err("x: invalid digit found in string".into());
        let [rows, three, one] = ["2 rows", "3: [3]", "1: [10]"].map(|line| Ok(line.into()));
        assert_eq!(lines, [rows, refused, three, unreadable, one]);
    }

    #[test]
    fn no_other_rows_are_taken_in() {
        let file = file_of("ingest-rows", &[3, 1], &[10, 3]);
        let (falling, deep) = (answers(&[&file, "29"]), answers(&[&file, "30"]));
        fs::remove_file(&file).unwrap();
        assert_eq!(falling, Err("row 1 is not above the entry before".into()));
        let words = "refused by 1 at place 0: the depth is over 29, or over 13 for a narrow map, \
                     or a merger's parent depth is over 28";
        assert_eq!(deep, Err(words.into()));
    }
}
