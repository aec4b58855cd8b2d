//! Rows and maps that come as rows, against the scope's section 7 as it is read there.

use mom::{
    density_of_count,
    rows::{self, COUNT_ROW, DENSITY_ROW, MAX_ROWS},
    Fault, MapCheck, Refusal,
};

/// Patterns of all kinds: zeros, the least and the largest, infinities, NaNs quiet and signalling.
const PATTERNS: [u64; 12] = [
    0,
    1 << 63,
    1,
    0x7fef_ffff_ffff_ffff,
    0x7ff0_0000_0000_0000,
    0xfff0_0000_0000_0000,
    0x7ff0_0000_0000_0001,
    0x7ff8_0000_0000_0000,
    0xfff4_dead_beef_cafe,
    u64::MAX,
    0x400921fb54442d18,
    0x0123_4567_89ab_cdef,
];

const COUNTS: [u32; 12] = [
    0,
    1,
    2,
    255,
    256,
    258,
    65_535,
    65_536,
    1 << 24,
    u32::MAX,
    0x89ab_cdef,
    0x0102_0304,
];

fn refused<T>(number: u8) -> Result<T, Refusal> {
    Err(Refusal::of(number, 0).unwrap())
}

/// "u64 zuniq, then u32 count or f64 density, little-endian."
fn count_rows(zuniqs: &[u64], counts: &[u32]) -> Vec<u8> {
    let row = |(z, n): (&u64, &u32)| [&z.to_le_bytes()[..], &n.to_le_bytes()].concat();
    zuniqs.iter().zip(counts).flat_map(row).collect()
}

fn density_rows(zuniqs: &[u64], patterns: &[u64]) -> Vec<u8> {
    let row = |(z, p): (&u64, &u64)| [z.to_le_bytes(), p.to_le_bytes()].concat();
    zuniqs.iter().zip(patterns).flat_map(row).collect()
}

/// The map of the first cells at depth 29.
fn first_cells(number: usize) -> Vec<u8> {
    let zuniqs: Vec<u64> = (0..number as u64).map(|h| 2 * h + 1).collect();
    count_rows(&zuniqs, &vec![1; number])
}

#[test]
fn no_count_row_is_changed_by_writing_and_reading() {
    for number in 0..=COUNTS.len() {
        let (zuniqs, counts) = (&PATTERNS[..number], &COUNTS[..number]);
        let mut bytes = vec![7; number * COUNT_ROW];
        let answer = rows::write_count_rows(zuniqs, counts, &mut bytes);
        assert_eq!(answer, Ok(number));
        assert_eq!(bytes, count_rows(zuniqs, counts));

        let (mut z, mut n) = (vec![7; number], vec![7; number]);
        assert_eq!(rows::read_count_rows(&bytes, &mut z, &mut n), Ok(number));
        assert_eq!((&z[..], &n[..]), (zuniqs, counts));
    }
}

#[test]
fn no_density_row_is_changed_by_writing_and_reading() {
    for number in 0..=PATTERNS.len() {
        let (zuniqs, patterns) = (&PATTERNS[12 - number..], &PATTERNS[..number]);
        let mut bytes = vec![7; number * DENSITY_ROW];
        let answer = rows::write_density_rows(zuniqs, patterns, &mut bytes);
        assert_eq!(answer, Ok(number));
        assert_eq!(bytes, density_rows(zuniqs, patterns));

        let (mut z, mut p) = (vec![7; number], vec![7; number]);
        assert_eq!(rows::read_density_rows(&bytes, &mut z, &mut p), Ok(number));
        assert_eq!((&z[..], &p[..]), (zuniqs, patterns));
    }
}

#[test]
fn nothing_past_the_rows_is_touched() {
    let bytes = count_rows(&PATTERNS[..3], &COUNTS[..3]);
    let (mut z, mut n) = ([7; 5], [7; 5]);
    assert_eq!(rows::read_count_rows(&bytes, &mut z, &mut n), Ok(3));
    assert_eq!((&z[3..], &n[3..]), (&[7, 7][..], &[7, 7][..]));

    for longer in 0..40 {
        let mut out = vec![7; bytes.len() + longer];
        let answer = rows::write_count_rows(&z[..3], &n[..3], &mut out);
        assert_eq!(answer, Ok(3));
        assert_eq!(out[..bytes.len()], bytes);
        assert_eq!(out[bytes.len()..], vec![7; longer]);
    }
}

#[test]
fn bytes_that_are_no_whole_rows_are_refused_and_touch_nothing() {
    let bytes = first_cells(3);
    for length in (0..=bytes.len()).filter(|length| length % COUNT_ROW != 0) {
        let (mut z, mut n) = ([7; 5], [7; 5]);
        let short = &bytes[..length];
        assert_eq!(rows::read_count_rows(short, &mut z, &mut n), refused(4));
        assert_eq!((z, n), ([7; 5], [7; 5]));
        assert_eq!(rows::check_is_mom(29, short), refused(4));
        assert_eq!(rows::get_cell_containing(29, short, 1), refused(4));
        assert_eq!(rows::get_overlapped_cells(short, 1), refused(4));
    }
    for length in (0..=bytes.len()).filter(|length| length % DENSITY_ROW != 0) {
        let (mut z, mut p) = ([7; 5], [7; 5]);
        let answer = rows::read_density_rows(&bytes[..length], &mut z, &mut p);
        assert_eq!(answer, refused(4));
        assert_eq!((z, p), ([7; 5], [7; 5]));
    }
}

#[test]
fn paired_buffers_of_two_lengths_are_refused_before_too_little_space() {
    let bytes = first_cells(4);
    let (mut z, mut n, mut p) = ([7; 5], [7; 5], [7; 5]);
    for (i, j) in [(0, 1), (1, 0), (4, 5), (5, 4)] {
        let answer = rows::read_count_rows(&bytes, &mut z[..i], &mut n[..j]);
        assert_eq!(answer, refused(4), "{i} {j}");
        let answer = rows::read_density_rows(&bytes, &mut z[..i], &mut p[..j]);
        assert_eq!(answer, refused(4), "{i} {j}");
        let answer = rows::write_count_rows(&z[..i], &n[..j], &mut []);
        assert_eq!(answer, refused(4), "{i} {j}");
        let answer = rows::write_density_rows(&z[..i], &p[..j], &mut []);
        assert_eq!(answer, refused(4), "{i} {j}");
    }
    assert_eq!((z, n, p), ([7; 5], [7; 5], [7; 5]));
}

#[test]
fn too_little_space_is_refused_and_touches_nothing() {
    let bytes = first_cells(4);
    for places in 0..4 {
        let (mut z, mut n) = (vec![7; places], vec![7; places]);
        assert_eq!(rows::read_count_rows(&bytes, &mut z, &mut n), refused(11));
        assert_eq!((z, n), (vec![7; places], vec![7; places]));
    }
    for length in 0..4 * COUNT_ROW {
        let mut out = vec![7; length];
        let answer = rows::write_count_rows(&[1, 3, 5, 7], &[9; 4], &mut out);
        assert_eq!(answer, refused(11));
        assert_eq!(out, vec![7; length]);
    }
    for length in 0..4 * DENSITY_ROW {
        let mut out = vec![7; length];
        let answer = rows::write_density_rows(&[1, 3, 5, 7], &[9; 4], &mut out);
        assert_eq!(answer, refused(11));
        assert_eq!(out, vec![7; length]);
    }
}

#[test]
fn a_map_of_4096_rows_is_taken_and_one_more_refused() {
    let last = 2 * MAX_ROWS as u64 - 1;
    let most = first_cells(MAX_ROWS);
    assert_eq!(rows::check_is_mom(29, &most), Ok(MapCheck::Valid));
    let row = rows::get_cell_containing(29, &most, last);
    assert_eq!(row, Ok(Some(MAX_ROWS - 1)));
    assert_eq!(rows::get_cell_containing(29, &most, last + 2), Ok(None));
    assert_eq!(rows::get_overlapped_cells(&most, 1 << 58), Ok(0..MAX_ROWS));

    let more = first_cells(MAX_ROWS + 1);
    assert_eq!(rows::check_is_mom(29, &more), refused(11));
    assert_eq!(rows::get_cell_containing(29, &more, 0), refused(11));
    assert_eq!(rows::get_overlapped_cells(&more, 0), refused(11));
}

#[test]
fn a_fault_in_the_last_of_4096_rows_is_found() {
    let place = MAX_ROWS - 1;
    // 2^14 is the zuniq of a cell at depth 22 in which all the others lie.
    for (zuniq, fault) in [
        (0, Fault::NotAZuniq),
        (1, Fault::NotAbove),
        (1 << 14, Fault::Overlapping),
    ] {
        let mut bytes = first_cells(MAX_ROWS);
        bytes[place * COUNT_ROW..][..8].copy_from_slice(&u64::to_le_bytes(zuniq));
        let faulty = MapCheck::Faulty { place, fault };
        assert_eq!(rows::check_is_mom(29, &bytes), Ok(faulty), "{zuniq}");
    }
}

#[test]
fn the_depth_is_refused_before_the_rows_and_those_before_the_query() {
    for bytes in [&[0; 5][..], &[0; 12 * 4097]] {
        assert_eq!(rows::check_is_mom(30, bytes), refused(1));
        assert_eq!(rows::get_cell_containing(30, bytes, 0), refused(1));
    }
    assert_eq!(rows::get_cell_containing(29, &[0; 5], 0), refused(4));
    assert_eq!(rows::get_cell_containing(29, &[], 0), refused(12));
    assert_eq!(rows::get_cell_containing(28, &[], 1), refused(12));
    assert_eq!(rows::get_overlapped_cells(&[], 0), refused(12));
    assert_eq!(rows::get_overlapped_cells(&[], 1), Ok(0..0));
}

#[test]
fn no_pattern_but_a_density_s_is_taken_for_one() {
    for pattern in PATTERNS {
        let x = f64::from_bits(pattern);
        let density = (x >= 0.0 && x.is_finite()).then_some(pattern);
        let found = rows::density_of_pattern(pattern);
        assert_eq!(found.map(f64::to_bits), density, "{pattern:x}");
        assert_eq!(rows::pattern_of_density(x), density, "{pattern:x}");
    }
}

#[test]
fn a_density_is_the_count_by_the_area_of_a_cell() {
    for depth in 0..=29 {
        let area = 4.0 * std::f64::consts::PI / (12u64 << (2 * depth)) as f64;
        for count in COUNTS {
            let density = density_of_count(depth, count).map(f64::to_bits);
            assert_eq!(density, Ok((count as f64 / area).to_bits()));
        }
    }
    assert_eq!(density_of_count(30, 1), refused(1));
    assert_eq!(density_of_count(255, 1), refused(1));
}
