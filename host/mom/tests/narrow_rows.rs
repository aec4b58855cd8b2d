//! Narrow rows and maps that come as such, against the scope's section 7 with a u32 zuniq.

use mom::{
    narrow::rows::{self, MAX_ROWS, ROW},
    Fault, MapCheck, Refusal,
};

const NUMBERS: [u32; 12] = [
    0,
    1,
    2,
    255,
    256,
    258,
    65_535,
    65_536,
    1 << 24,
    u32::MAX,
    0x89ab_cdef,
    0x0102_0304,
];

fn refused<T>(number: u8) -> Result<T, Refusal> {
    Err(Refusal::of(number, 0).unwrap())
}

/// A u32 zuniq, then the u32 count, little-endian.
fn rows_of(zuniqs: &[u32], counts: &[u32]) -> Vec<u8> {
    let row = |(z, n): (&u32, &u32)| [z.to_le_bytes(), n.to_le_bytes()].concat();
    zuniqs.iter().zip(counts).flat_map(row).collect()
}

/// The map of the first cells at depth 13.
fn first_cells(number: usize) -> Vec<u8> {
    let zuniqs: Vec<u32> = (0..number as u32).map(|h| 2 * h + 1).collect();
    rows_of(&zuniqs, &vec![1; number])
}

#[test]
fn no_row_is_changed_by_writing_and_reading() {
    assert_eq!((ROW, MAX_ROWS), (8, 4096));
    for number in 0..=NUMBERS.len() {
        let (zuniqs, counts) = (&NUMBERS[12 - number..], &NUMBERS[..number]);
        let mut bytes = vec![7; number * ROW];
        let answer = rows::write_count_rows(zuniqs, counts, &mut bytes);
        assert_eq!(answer, Ok(number));
        assert_eq!(bytes, rows_of(zuniqs, counts));

        let (mut z, mut n) = (vec![7; number], vec![7; number]);
        assert_eq!(rows::read_count_rows(&bytes, &mut z, &mut n), Ok(number));
        assert_eq!((&z[..], &n[..]), (zuniqs, counts));
    }
}

#[test]
fn nothing_past_the_rows_is_touched() {
    let bytes = rows_of(&NUMBERS[9..], &NUMBERS[..3]);
    let (mut z, mut n) = ([7; 5], [7; 5]);
    assert_eq!(rows::read_count_rows(&bytes, &mut z, &mut n), Ok(3));
    assert_eq!((&z[3..], &n[3..]), (&[7, 7][..], &[7, 7][..]));

    for longer in 0..40 {
        let mut out = vec![7; bytes.len() + longer];
        let answer = rows::write_count_rows(&z[..3], &n[..3], &mut out);
        assert_eq!(answer, Ok(3));
        assert_eq!(out[..bytes.len()], bytes);
        assert_eq!(out[bytes.len()..], vec![7; longer]);
    }
}

#[test]
fn bytes_that_are_no_whole_rows_are_refused_and_touch_nothing() {
    let bytes = first_cells(4);
    for length in (0..=bytes.len()).filter(|length| length % ROW != 0) {
        let (mut z, mut n) = ([7; 5], [7; 5]);
        let short = &bytes[..length];
        assert_eq!(rows::read_count_rows(short, &mut z, &mut n), refused(4));
        assert_eq!((z, n), ([7; 5], [7; 5]));
        assert_eq!(rows::check_is_mom(13, short), refused(4));
        assert_eq!(rows::get_cell_containing(13, short, 1), refused(4));
        assert_eq!(rows::get_overlapped_cells(short, 1), refused(4));
    }
}

#[test]
fn paired_buffers_of_two_lengths_are_refused_before_too_little_space() {
    let bytes = first_cells(4);
    let (mut z, mut n) = ([7; 5], [7; 5]);
    for (i, j) in [(0, 1), (1, 0), (4, 5), (5, 4)] {
        let answer = rows::read_count_rows(&bytes, &mut z[..i], &mut n[..j]);
        assert_eq!(answer, refused(4), "{i} {j}");
        let answer = rows::write_count_rows(&z[..i], &n[..j], &mut []);
        assert_eq!(answer, refused(4), "{i} {j}");
    }
    assert_eq!((z, n), ([7; 5], [7; 5]));
}

#[test]
fn too_little_space_is_refused_and_touches_nothing() {
    let bytes = first_cells(4);
    for places in 0..4 {
        let (mut z, mut n) = (vec![7; places], vec![7; places]);
        assert_eq!(rows::read_count_rows(&bytes, &mut z, &mut n), refused(11));
        assert_eq!((z, n), (vec![7; places], vec![7; places]));
    }
    for length in 0..4 * ROW {
        let mut out = vec![7; length];
        let answer = rows::write_count_rows(&[1, 3, 5, 7], &[9; 4], &mut out);
        assert_eq!(answer, refused(11));
        assert_eq!(out, vec![7; length]);
    }
}

/// The limit is on maps; reading and writing have none but their buffers.
#[test]
fn a_map_of_4096_rows_is_taken_and_one_more_refused() {
    let last = 2 * MAX_ROWS as u32 - 1;
    let most = first_cells(MAX_ROWS);
    assert_eq!(rows::check_is_mom(13, &most), Ok(MapCheck::Valid));
    let row = rows::get_cell_containing(13, &most, last);
    assert_eq!(row, Ok(Some(MAX_ROWS - 1)));
    assert_eq!(rows::get_cell_containing(13, &most, last + 2), Ok(None));
    assert_eq!(rows::get_overlapped_cells(&most, 1 << 26), Ok(0..MAX_ROWS));

    let more = first_cells(MAX_ROWS + 1);
    assert_eq!(rows::check_is_mom(13, &more), refused(11));
    assert_eq!(rows::get_cell_containing(13, &more, 0), refused(11));
    assert_eq!(rows::get_overlapped_cells(&more, 0), refused(11));
    let (mut z, mut n) = (vec![7; MAX_ROWS + 1], vec![7; MAX_ROWS + 1]);
    let read = rows::read_count_rows(&more, &mut z, &mut n);
    assert_eq!(read, Ok(MAX_ROWS + 1));
    let mut out = vec![7; more.len()];
    assert_eq!(rows::write_count_rows(&z, &n, &mut out), Ok(MAX_ROWS + 1));
    assert_eq!(out, more);
}

#[test]
fn a_fault_in_the_last_of_4096_rows_is_found() {
    let place = MAX_ROWS - 1;
    // 2^14 is the zuniq of a cell at depth 6 in which all the others lie.
    for (zuniq, fault) in [
        (0, Fault::NotAZuniq),
        (1, Fault::NotAbove),
        (1 << 14, Fault::Overlapping),
    ] {
        let mut bytes = first_cells(MAX_ROWS);
        bytes[place * ROW..][..4].copy_from_slice(&u32::to_le_bytes(zuniq));
        let faulty = MapCheck::Faulty { place, fault };
        assert_eq!(rows::check_is_mom(13, &bytes), Ok(faulty), "{zuniq}");
    }
    let fault = Fault::TooDeep;
    let shallow = rows::check_is_mom(12, &first_cells(MAX_ROWS));
    assert_eq!(shallow, Ok(MapCheck::Faulty { place: 0, fault }));
}

#[test]
fn the_depth_is_refused_before_the_rows_and_those_before_the_query() {
    for depth in [14, 29, 30, 255] {
        for bytes in [&[][..], &[0; 5], &[0; 8 * 4097]] {
            assert_eq!(rows::check_is_mom(depth, bytes), refused(1));
            assert_eq!(rows::get_cell_containing(depth, bytes, 0), refused(1));
        }
    }
    assert_eq!(rows::get_cell_containing(13, &[0; 5], 0), refused(4));
    assert_eq!(rows::get_cell_containing(13, &[], 0), refused(12));
    assert_eq!(rows::get_cell_containing(12, &[], 1), refused(12));
    assert_eq!(rows::get_overlapped_cells(&[], 0), refused(12));
    assert_eq!(rows::get_overlapped_cells(&[], 1), Ok(0..0));
}

/// The rows answer what their zuniqs do, over maps and over what is none.
#[test]
fn no_row_is_looked_up_otherwise_than_its_zuniq() {
    let lists = [
        &[][..],
        &[1 << 26],
        &[1, 3, 5, 7],
        &[3, 1 << 4, 3 << 24, 7 << 24, 3 << 26, 1610612735],
        &[3 << 24, 0, 7 << 24],
        &[3 << 26, 1 << 26],
    ];
    let queries = [1, 3, 9, 1 << 2, 1 << 4, 3 << 24, 1 << 26, 3 << 26, 23 << 26];
    for zuniqs in lists {
        let bytes = rows_of(zuniqs, &vec![9; zuniqs.len()]);
        for depth in 0..=14 {
            let check = mom::narrow::check_is_mom(depth, zuniqs);
            assert_eq!(rows::check_is_mom(depth, &bytes), check, "{zuniqs:?}");
            if check != Ok(MapCheck::Valid) {
                continue;
            }
            for query in queries {
                let place = mom::narrow::get_cell_containing(depth, zuniqs, query);
                let row = rows::get_cell_containing(depth, &bytes, query);
                assert_eq!(row, place, "{zuniqs:?} {query}");
                let (first, part) = mom::narrow::get_overlapped_cells(zuniqs, query).unwrap();
                let run = rows::get_overlapped_cells(&bytes, query);
                assert_eq!(run, Ok(first..first + part.len()), "{zuniqs:?} {query}");
            }
        }
    }
}
