//! Rows laid out by byte column and back, against note 3 of the change requests.

use mom::{
    columns::{columns_to_rows, rows_to_columns},
    Refusal,
};

/// The row lengths that are named there.
const NAMED: [usize; 3] = [8, 12, 16];

type Call = fn(usize, &[u8], &mut [u8]) -> Result<usize, Refusal>;
const CALLS: [Call; 2] = [rows_to_columns, columns_to_rows];

fn refused<T>(number: u8) -> Result<T, Refusal> {
    Err(Refusal::of(number, 0).unwrap())
}

/// So many bytes, which no short shift of them gives again.
fn bytes(number: usize) -> Vec<u8> {
    (0..number).map(|i| (i * i / 7 + i) as u8).collect()
}

/// "Byte j of row i stands at j × rows + i."
fn laid_out(row_size: usize, rows: &[u8]) -> Vec<u8> {
    let number = rows.len() / row_size;
    let mut columns = vec![0; rows.len()];
    for i in 0..number {
        for j in 0..row_size {
            columns[j * number + i] = rows[i * row_size + j];
        }
    }
    columns
}

#[test]
fn three_rows_worked_out_by_hand() {
    let rows = [
        [11, 12, 13, 14, 15, 16, 17, 18],
        [21, 22, 23, 24, 25, 26, 27, 28],
        [31, 32, 33, 34, 35, 36, 37, 38],
    ]
    .concat();
    let columns = [
        [11, 21, 31],
        [12, 22, 32],
        [13, 23, 33],
        [14, 24, 34],
        [15, 25, 35],
        [16, 26, 36],
        [17, 27, 37],
        [18, 28, 38],
    ]
    .concat();
    let mut out = [0; 24];
    assert_eq!(rows_to_columns(8, &rows, &mut out), Ok(3));
    assert_eq!(out[..], columns);
    assert_eq!(columns_to_rows(8, &columns, &mut out), Ok(3));
    assert_eq!(out[..], rows);
}

#[test]
fn no_byte_of_a_row_stands_elsewhere() {
    for row_size in NAMED {
        for number in (0..70).chain([255, 256, 257, 4095, 4096, 4097]) {
            let rows = bytes(number * row_size);
            let mut columns = vec![7; rows.len()];
            let answer = rows_to_columns(row_size, &rows, &mut columns);
            assert_eq!(answer, Ok(number), "{row_size}");
            assert_eq!(columns, laid_out(row_size, &rows), "{row_size} {number}");
        }
    }
}

#[test]
fn no_bytes_are_changed_there_and_back() {
    for [there, back] in [[CALLS[0], CALLS[1]], [CALLS[1], CALLS[0]]] {
        for row_size in NAMED {
            for number in (0..70).chain([255, 256, 257, 4095, 4096, 4097]) {
                let before = bytes(number * row_size);
                let (mut between, mut after) = (before.clone(), before.clone());
                after.fill(7);
                assert_eq!(there(row_size, &before, &mut between), Ok(number));
                assert_eq!(back(row_size, &between, &mut after), Ok(number));
                assert_eq!(before, after, "{row_size} {number}");
            }
        }
    }
}

/// Whole rows all the same; an output that is too short must not be told first.
#[test]
fn no_row_length_but_8_12_and_16_is_accepted() {
    for row_size in 0..=40 {
        let input = bytes(3 * row_size);
        let named = NAMED.contains(&row_size);
        for call in CALLS {
            let mut out = vec![7; 3 * row_size + 1];
            let answer = call(row_size, &input, &mut out);
            assert_eq!(answer, if named { Ok(3) } else { refused(4) });
            if !named {
                assert_eq!(call(row_size, &input, &mut out[..row_size]), refused(4));
                assert_eq!(call(row_size, &[], &mut out), refused(4), "{row_size}");
                assert_eq!(out, vec![7; 3 * row_size + 1], "{row_size}");
            }
        }
    }
}

/// The second and third are 8 in a u8 and in a u32.
#[test]
fn no_large_row_length_is_taken_for_a_small_one() {
    for row_size in [240, (1 << 8) + 8, (1 << 32) + 8, 1 << 63, usize::MAX] {
        for call in CALLS {
            let mut out = [7; 240];
            assert_eq!(call(row_size, &bytes(240), &mut out), refused(4));
            assert_eq!(call(row_size, &[], &mut out), refused(4), "{row_size}");
            assert_eq!(out, [7; 240], "{row_size}");
        }
    }
}

#[test]
fn no_rows_are_accepted_and_touch_nothing() {
    for call in CALLS {
        for row_size in NAMED {
            assert_eq!(call(row_size, &[], &mut []), Ok(0));
            let mut out = [7; 16];
            assert_eq!(call(row_size, &[], &mut out), Ok(0));
            assert_eq!(out, [7; 16]);
        }
    }
}

#[test]
fn bytes_that_are_no_whole_rows_are_refused_before_too_little_space() {
    let input = bytes(96);
    for call in CALLS {
        for row_size in NAMED {
            for length in (0..=96).filter(|length| length % row_size != 0) {
                for places in [0, length - 1, length, 96] {
                    let mut out = vec![7; places];
                    let answer = call(row_size, &input[..length], &mut out);
                    assert_eq!(answer, refused(4), "{row_size} {length} {places}");
                    assert_eq!(out, vec![7; places]);
                }
            }
        }
    }
}

#[test]
fn nothing_past_the_rows_is_touched() {
    for row_size in NAMED {
        let rows = bytes(5 * row_size);
        let columns = laid_out(row_size, &rows);
        for longer in 0..40 {
            for (call, input, output) in [(CALLS[0], &rows, &columns), (CALLS[1], &columns, &rows)]
            {
                let mut out = vec![7; input.len() + longer];
                assert_eq!(call(row_size, input, &mut out), Ok(5));
                assert_eq!(out[..input.len()], output[..]);
                assert_eq!(out[input.len()..], vec![7; longer]);
            }
        }
    }
}

#[test]
fn too_little_space_is_refused_and_touches_nothing() {
    for call in CALLS {
        for row_size in NAMED {
            let input = bytes(3 * row_size);
            for places in 0..input.len() {
                let mut out = vec![7; places];
                assert_eq!(call(row_size, &input, &mut out), refused(11));
                assert_eq!(out, vec![7; places]);
            }
        }
    }
}

/// Both buffers may begin at any byte.
#[test]
fn no_place_in_memory_is_asked_for() {
    let input = bytes(16 * 33 + 16);
    for row_size in NAMED {
        let length = 33 * row_size;
        let mut out = vec![7; length + 16];
        for from in 0..16 {
            let to = (from * 5 + 3) % 16;
            let rows = &input[from..][..length];
            let columns = laid_out(row_size, rows);
            let answer = rows_to_columns(row_size, rows, &mut out[to..][..length]);
            assert_eq!(answer, Ok(33));
            assert_eq!(out[to..][..length], columns);
            let answer = columns_to_rows(row_size, &columns, &mut out[to..][..length]);
            assert_eq!(answer, Ok(33));
            assert_eq!(&out[to..][..length], rows);
        }
    }
}
