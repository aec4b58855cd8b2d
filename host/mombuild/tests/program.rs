//! The program beside the reading of the rules in `src/lib.rs`. Each test is named for what it
//! rules out.

use mombuild::{outcome, printed, printed_broken_off, Entry, Outcome};
use std::{
    collections::BTreeMap,
    env,
    fs::File,
    io::{ErrorKind, Write},
    os::fd::{FromRawFd, OwnedFd},
    path::PathBuf,
    process::{Command, Stdio},
    time::{Duration, Instant},
};

/// The program that the gate has built, or the one that MOMBUILD names.
fn program() -> PathBuf {
    let path = match env::var_os("MOMBUILD") {
        Some(path) => PathBuf::from(path),
        None => {
            PathBuf::from(env!("CARGO_MANIFEST_DIR")).join("../../crates/mombuild/out/mombuild")
        }
    };
    assert!(
        path.is_file(),
        "{} is not there: run `rt run` in crates/mombuild of the repository, or set MOMBUILD",
        path.display()
    );
    path
}

fn run(text: &[u8]) -> String {
    let mut child = Command::new(program())
        .stdin(Stdio::piped())
        .stdout(Stdio::piped())
        .spawn()
        .unwrap();
    let written = child.stdin.take().unwrap().write_all(text);
    // The program reads no more than the longest readable text and a byte.
    if let Err(error) = written {
        assert_eq!(error.kind(), ErrorKind::BrokenPipe);
    }
    let output = child.wait_with_output().unwrap();
    assert!(output.status.success());
    String::from_utf8(output.stdout).unwrap()
}

extern "C" {
    fn pipe2(ends: *mut i32, flags: i32) -> i32;
}

/// A pipe whose reads fail (EAGAIN) while it is empty and somebody may still write: the end to read
/// from, and the one to write to.
fn failing_pipe() -> (OwnedFd, File) {
    const O_NONBLOCK: i32 = 0o4000;
    const O_CLOEXEC: i32 = 0o2000000;
    let mut ends = [-1; 2];
    // SAFETY: pipe2 writes two numbers, and nobody else owns the ends that it opens.
    unsafe {
        assert_eq!(pipe2(ends.as_mut_ptr(), O_NONBLOCK | O_CLOEXEC), 0);
        (OwnedFd::from_raw_fd(ends[0]), File::from_raw_fd(ends[1]))
    }
}

fn run_on(input: impl Into<Stdio>) -> String {
    let output = Command::new(program()).stdin(input).output().unwrap();
    assert!(output.status.success());
    String::from_utf8(output.stdout).unwrap()
}

/// What the program prints where a read fails behind `text`, of at most 65,536 bytes.
fn run_broken_off(text: &[u8]) -> String {
    let (input, mut feed) = failing_pipe();
    feed.write_all(text).unwrap();
    // `feed` is open until the program has ended, so that its last read fails.
    run_on(input)
}

#[track_caller]
fn assert_breaks_off(text: impl AsRef<[u8]>, line: usize) {
    let text = text.as_ref();
    let expected = format!("refused,0,{line}\n");
    let shown = String::from_utf8_lossy(&text[..text.len().min(200)]);
    assert_eq!(
        printed_broken_off(text),
        expected,
        "the rules, of {shown:?}"
    );
    assert_eq!(run_broken_off(text), expected, "the program, of {shown:?}");
}

#[track_caller]
fn assert_prints(text: impl AsRef<[u8]>, expected: &str) {
    let text = text.as_ref();
    let shown = String::from_utf8_lossy(&text[..text.len().min(200)]);
    assert_eq!(printed(text), expected, "the rules, of {shown:?}");
    assert_eq!(run(text), expected, "the program, of {shown:?}");
}

#[track_caller]
fn assert_unreadable(text: impl AsRef<[u8]>, line: usize) {
    assert_prints(text, &format!("refused,0,{line}\n"));
}

/// A text of `cells` lines behind the settings.
fn text(settings: &str, cells: impl IntoIterator<Item = String>) -> String {
    let lines = cells.into_iter().map(|cell| cell + "\n");
    format!("{settings}\n") + &lines.collect::<String>()
}

fn rising(cells: usize) -> impl Iterator<Item = String> {
    (0..cells).map(|hash| format!("{hash},1"))
}

#[test]
fn no_other_answer_to_the_scope_s_example() {
    let example = "2,1,3500\n0,1\n1,2\n2,4\n3,4\n5,0\n";
    assert_prints(example, "1,0,11\n2,5,0\nend,2,11\n");
}

#[test]
fn no_cell_at_all_is_no_fault() {
    assert_prints("1,0,3500\n", "end,0,0\n");
    assert_prints("29,29,4294967295\n", "end,0,0\n");
}

#[test]
fn no_map_of_the_scope_is_missed() {
    let sixteen = (0..16).map(|hash| format!("{hash},1"));
    assert_prints(text("2,0,3500", sixteen.clone()), "0,0,16\nend,1,16\n");
    let four = "1,0,4\n1,1,4\n1,2,4\n1,3,4\nend,4,16\n";
    assert_prints(text("2,1,3500", sixteen), four);
    let kept = "1,0,1\n1,1,2\n1,2,4\n1,3,4\nend,4,11\n";
    assert_prints("1,0,3000\n0,1\n1,2\n2,4\n3,4\n", kept);
    assert_prints("1,0,3001\n0,1\n1,2\n2,4\n3,4\n", "0,0,11\nend,1,11\n");
    let straddling = "1,1,1\n1,2,1\n1,3,1\n1,4,1\nend,4,4\n";
    assert_prints("1,0,3500\n1,1\n2,1\n3,1\n4,1\n", straddling);
    assert_prints(
        "1,0,0\n0,4\n1,4\n2,4\n3,4\n",
        "1,0,4\n1,1,4\n1,2,4\n1,3,4\nend,4,16\n",
    );
}

/// "Four siblings of count 0 now merge at any T, where the parent depth is at least M." A text has no T
/// below 0.
#[test]
fn no_blank_cells_are_left_apart_at_a_threshold_of_0() {
    let blank = |cells: u64| (0..cells).map(|hash| format!("{hash},0"));
    for thousandths in [0, 1, 3500, u32::MAX] {
        let printed = |d, m| text(&format!("{d},{m},{thousandths}"), blank(16));
        assert_prints(printed(2, 0), "0,0,0\nend,1,0\n");
        assert_prints(printed(2, 1), "1,0,0\n1,1,0\n1,2,0\n1,3,0\nend,4,0\n");
        let kept = (0..16).map(|hash| format!("2,{hash},0\n"));
        assert_prints(printed(2, 2), &(kept.collect::<String>() + "end,16,0\n"));
    }
    // As many as a text may hold are two cells of depth 23.
    assert_prints(text("28,0,0", blank(2048)), "23,0,0\n23,1,0\nend,2,0\n");
    let cells = "1,0,0\n2,4,0\n2,5,1\n2,6,0\n2,7,0\n1,2,0\n1,3,0\nend,7,1\n";
    let source = (0..16).map(|hash| format!("{hash},{}", (hash == 5) as u8));
    assert_prints(text("2,0,0", source.clone()), cells);
    assert_prints(text("2,0,1000", source.clone()), cells);
    assert_prints(text("2,0,1001", source), "0,0,1\nend,1,1\n");
}

/// Twelve monitors, one a base cell: as many entries, at any M and T. There is no thirteenth.
#[test]
fn no_base_cell_is_merged() {
    let twelve = (0..12).map(|hash| format!("0,{hash},1\n"));
    let stay = twelve.collect::<String>() + "end,12,12\n";
    for settings in ["0,0,4294967295", "0,0,3500", "0,0,0", "0,29,4294967295"] {
        assert_prints(text(settings, rising(12)), &stay);
        assert_prints(text(settings, rising(13)), "refused,7,12\n");
    }
    let blank = "0,0,0\n0,1,0\n0,2,0\n0,3,0\n0,5,9\nend,5,9\n";
    assert_prints("0,0,3500\n0,0\n1,0\n2,0\n3,0\n5,9\n", blank);
    assert_prints("0,0,3500\n", "end,0,0\n");
}

#[test]
fn no_readable_number_is_unreadable() {
    assert_prints(
        "001,000,03500\n0,00000000000000000007\n",
        "1,0,7\nend,1,7\n",
    );
    assert_prints(
        "1,0,4294967295\n47,4294967295\n",
        "1,47,4294967295\nend,1,4294967295\n",
    );
    let last = 12 * 4u64.pow(29) - 1;
    assert_prints(
        format!("29,0,0\n{last},0\n"),
        &format!("29,{last},0\nend,1,0\n"),
    );
}

#[test]
fn no_refusal_has_another_number_or_place() {
    for (text, number, place) in [
        ("30,30,3500\n999,1\n", 1, 0),
        ("0,30,3500\n12,1\n", 2, 0),
        ("0,0,3500\n12,1\n", 7, 0),
        ("0,0,3500\n5,1\n5,1\n", 8, 1),
        ("0,0,3500\n3,4294967295\n4,1\n", 10, 1),
        ("255,255,0\n", 1, 0),
        ("1,30,3500\n999,1\n", 2, 0),
        ("1,0,3500\n48,1\n", 7, 0),
        ("1,0,3500\n0,1\n18446744073709551615,1\n1,1\n", 7, 1),
        ("1,0,3500\n0,1\n7,1\n7,1\n99,1\n", 8, 2),
        ("1,0,3500\n5,4294967295\n3,1\n", 8, 1),
        ("1,0,3500\n0,1\n2,4294967294\n3,0\n4,1\n5,9\n", 10, 3),
        ("1,0,3500\n0,4294967295\n2,4294967295\n", 10, 1),
    ] {
        assert_prints(text, &format!("refused,{number},{place}\n"));
    }
}

/// "All text is read before anything is checked."
#[test]
fn no_refusal_comes_before_an_unreadable_line() {
    assert_unreadable("99,99,1\n5,1\n5,1\n5,-1\n", 4);
    assert_unreadable("30,0,1\n0,1", 2);
    assert_unreadable("1,0,1\n99,4294967295\n99,4294967296\n", 3);
}

#[test]
fn no_text_without_a_whole_line_is_readable() {
    assert_unreadable("", 1);
    assert_unreadable("\n", 1);
    assert_unreadable("1,0,3500", 1);
    assert_unreadable("1,0,3500\n0,1", 2);
    assert_unreadable("1,0,3500\n0,1\n1,1\n2", 4);
    assert_unreadable("1,0,3500\n\n", 2);
    assert_unreadable("1,0,3500\n0,1\n\n", 3);
    assert_unreadable("1,0,3500\n0,1\n ", 3);
}

#[test]
fn no_byte_but_a_digit_is_read() {
    for strange in [
        "-1", "+1", " 1", "1 ", "1.", "0x1", "1e0", "\"1\"", "1\0", "\0", "1\r", "\u{b9}", "l",
        "/", ":",
    ] {
        assert_unreadable(format!("{strange},0,3500\n0,1\n"), 1);
        assert_unreadable(format!("1,{strange},3500\n0,1\n"), 1);
        assert_unreadable(format!("1,0,{strange}\n0,1\n"), 1);
        assert_unreadable(format!("1,0,3500\n{strange},1\n"), 2);
        assert_unreadable(format!("1,0,3500\n0,1\n1,{strange}\n"), 3);
    }
    assert_unreadable(b"1,0,3500\n0,1\n1,\xff\n", 3);
    assert_unreadable(b"\xef\xbb\xbf1,0,3500\n0,1\n", 1);
}

#[test]
fn no_field_too_few_or_too_many_is_read() {
    for line in [
        "",
        ",",
        ",,",
        "1",
        "1,",
        "1,0",
        "1,0,",
        "1,,3500",
        ",0,3500",
        "1,0,3500,",
        "1,0,3500,1",
        ",1,0,3500",
    ] {
        assert_unreadable(format!("{line}\n0,1\n"), 1);
    }
    for line in [
        "", ",", "1", "1,", ",1", "1,1,", "1,1,1", ",1,1", "1,,1", "1;1",
    ] {
        assert_unreadable(format!("1,0,3500\n0,1\n{line}\n5,1\n"), 3);
    }
}

#[test]
fn no_number_too_large_or_too_long_is_read() {
    assert_unreadable("256,0,3500\n", 1);
    assert_unreadable("1,256,3500\n", 1);
    assert_unreadable("1,0,4294967296\n", 1);
    assert_unreadable("99999999999999999999,0,3500\n", 1);
    assert_unreadable("1,0,3500\n18446744073709551616,1\n", 2);
    assert_unreadable("1,0,3500\n99999999999999999999,1\n", 2);
    assert_unreadable("1,0,3500\n0,4294967296\n", 2);
    assert_unreadable("1,0,3500\n0,18446744073709551615\n", 2);
    // 21 digits, whatever they make.
    assert_unreadable("000000000000000000001,0,3500\n", 1);
    assert_unreadable("1,0,000000000000000003500\n", 1);
    assert_unreadable("1,0,3500\n000000000000000000000,1\n", 2);
    assert_unreadable("1,0,3500\n0,000000000000000000001\n", 2);
}

#[test]
fn no_more_than_2048_cells_are_read() {
    let map = printed(text("6,7,3500", rising(2048)).as_bytes());
    assert_eq!(map.lines().count(), 2049);
    assert_prints(text("6,7,3500", rising(2048)), &map);
    assert_unreadable(text("6,7,3500", rising(2049)), 2050);
    assert_unreadable(text("6,7,3500", rising(2048)) + "\n", 2050);
    assert_unreadable(text("6,7,3500", rising(2048)) + "1", 2050);
    assert_unreadable(text("6,7,3500", rising(2048)) + "x", 2050);
    assert_unreadable(text("6,7,3500", rising(3000)), 2050);
    assert_unreadable(
        text(
            "6,7,3500",
            rising(9).chain(["x".into()]).chain(rising(3000)),
        ),
        11,
    );
}

/// The longest readable text has 86,079 bytes, and the program's buffer one more.
#[test]
fn no_text_longer_than_the_buffer_has_another_first_unreadable_line() {
    let settings = format!("{:020},{:020},{:020}", 6, 0, 3500);
    let cell = |hash: usize| format!("{hash:020},{:020}", 1);
    let longest = text(&settings, (0..2048).map(cell));
    assert_eq!(longest.len(), 86079);
    assert_prints(&longest, &printed(longest.as_bytes()));
    assert!(printed(longest.as_bytes()).starts_with("1,0,1024\n"));
    for more in ["x", "0", "\n", "0,1\n", "00,1\n\n\n"] {
        assert_unreadable(longest.clone() + more, 2050);
    }
    assert_unreadable(longest.clone() + &longest, 2050);
    assert_unreadable(&longest[..86078], 2049);
    // A line that the buffer cuts off, and one behind it.
    let nearly = text(&settings, (0..2047).map(cell));
    assert_unreadable(nearly.clone() + "5", 2049);
    assert_unreadable(nearly.clone() + &"5".repeat(100) + ",1\n", 2049);
    assert_unreadable(nearly.clone() + &cell(2047) + "0\n", 2049);
    assert_unreadable(nearly + &cell(2047) + "\n" + &"0".repeat(1 << 20), 2050);
    // Very long lines, and very much text.
    let digits = "0".repeat(1 << 20);
    assert_unreadable(&digits, 1);
    assert_unreadable(format!("{digits},0,3500\n"), 1);
    assert_unreadable(format!("1,0,3500\n0,1\n1,{digits}\n"), 3);
    assert_unreadable(format!("1,0,3500\n0,1\n{}", ",".repeat(200_000)), 3);
    assert_unreadable("\n".repeat(200_000), 1);
    assert_unreadable(text("6,0,3500", rising(500_000)), 2050);
    assert_unreadable([0; 500_000], 1);
}

/// Each of these is printed as a map where the input ends behind it.
#[test]
fn no_failed_read_is_taken_for_the_end_of_the_text() {
    for (text, line) in [
        ("2,1,3500\n", 2),
        ("2,1,3500\n0,1\n", 3),
        ("2,1,3500\n0,1\n1,2\n2,4\n3,4\n5,0\n", 7),
    ] {
        assert!(printed(text.as_bytes()).contains("end,"));
        assert_breaks_off(text, line);
    }
    assert_breaks_off(text("6,7,3500", rising(2047)), 2049);
    assert_breaks_off(text("6,7,3500", rising(2048)), 2050);
    // Nor is a refusal printed, since not all text was read.
    assert_breaks_off("30,0,3500\n0,1\n", 3);
    assert_breaks_off("1,0,3500\n7,1\n7,1\n", 4);
}

#[test]
fn no_other_line_is_told_where_a_read_fails() {
    assert_breaks_off("", 1);
    assert_breaks_off("2", 1);
    assert_breaks_off("2,1,3500", 1);
    assert_breaks_off("2,1,3500\n0,1\n1,2", 3);
    // An unreadable line before it comes first.
    assert_breaks_off("\n", 1);
    assert_breaks_off("2,1\n0,1\n", 1);
    assert_breaks_off("2,1,3500\nx\n1,2\n", 2);
    assert_breaks_off("2,1,3500\n0,1\n1,-2\n2,4\n3", 3);
    assert_breaks_off(text("6,7,3500", rising(2048)) + "1", 2050);
    assert_breaks_off(text("6,7,3500", rising(3000)), 2050);
}

#[test]
fn no_directory_is_read_as_a_text() {
    assert_eq!(run_on(File::open("/").unwrap()), "refused,0,1\n");
}

/// A text that comes in two pieces is read whole.
#[test]
fn no_pause_is_taken_for_the_end_of_the_text() {
    let mut child = Command::new(program())
        .stdin(Stdio::piped())
        .stdout(Stdio::piped())
        .spawn()
        .unwrap();
    let mut feed = child.stdin.take().unwrap();
    feed.write_all(b"2,1,3500\n0,1\n1,").unwrap();
    std::thread::sleep(Duration::from_millis(50));
    feed.write_all(b"2\n2,4\n3,4\n5,0\n").unwrap();
    drop(feed);
    let output = child.wait_with_output().unwrap();
    assert_eq!(output.stdout, b"1,0,11\n2,5,0\nend,2,11\n");
}

/// SplitMix64 (Steele, Lea and Flood 2014).
struct Random(u64);

impl Random {
    fn bits(&mut self) -> u64 {
        self.0 = self.0.wrapping_add(0x9e37_79b9_7f4a_7c15);
        let z = (self.0 ^ self.0 >> 30).wrapping_mul(0xbf58_476d_1ce4_e5b9);
        let z = (z ^ z >> 27).wrapping_mul(0x94d0_49bb_1331_11eb);
        z ^ z >> 31
    }

    fn below(&mut self, n: u64) -> u64 {
        self.bits() % n
    }

    fn one_in(&mut self, n: u64) -> bool {
        self.below(n) == 0
    }

    /// A number as text, now and then with zeros in front.
    fn number(&mut self, n: u64) -> String {
        let width = if self.one_in(20) {
            self.below(21) as usize
        } else {
            0
        };
        let width = if self.one_in(2000) { 21 } else { width };
        format!("{n:0width$}")
    }
}

/// A text that is mostly readable: runs of neighbouring cells, so that some are merged.
fn nearly_valid(random: &mut Random) -> Vec<u8> {
    let depth = if random.one_in(40) {
        random.below(300)
    } else {
        random.below(30)
    };
    let threshold = if random.one_in(40) {
        random.below(300)
    } else {
        random.below(depth + 2)
    };
    let thousandths = [0, 1000, 3500, 6000, 50_000, u32::MAX as u64][random.below(6) as usize];
    let fields = [depth, threshold, thousandths].map(|field| random.number(field));
    let mut text = fields.join(",") + "\n";
    let most = if random.one_in(20) {
        2060
    } else {
        1 + random.below(120)
    };
    let limit = 12u64 << (2 * depth.min(29));
    let largest = [0, 1, 2, 5, 100, u32::MAX as u64 / 40, u32::MAX as u64];
    let largest = largest[random.below(7) as usize];
    let mut hash = 4 * random.below(limit / 4);
    for _ in 0..random.below(most) {
        let count = random.below(largest + 1);
        text += &format!("{},{}\n", random.number(hash), random.number(count));
        hash = match random.below(600) {
            0 => hash.wrapping_add(random.bits() >> random.below(64)),
            1 => hash,
            2..=80 => hash.wrapping_add(1 + random.below(9)),
            _ => hash.wrapping_add(1),
        };
    }
    text.into_bytes()
}

/// A text with some bytes put in, taken out, changed or cut off.
fn spoilt(random: &mut Random, mut text: Vec<u8>) -> Vec<u8> {
    const BYTES: &[u8] = b"0123456789,,,\n\n\n -+.\0\r\xff";
    for _ in 0..random.below(3) {
        let at = random.below(text.len() as u64 + 1) as usize;
        let byte = BYTES[random.below(BYTES.len() as u64) as usize];
        match random.below(4) {
            0 => text.insert(at, byte),
            1 if at < text.len() => text[at] = byte,
            2 if at < text.len() => drop(text.remove(at)),
            3 if random.one_in(3) => text.truncate(at),
            _ => {}
        }
    }
    text
}

/// Some bytes, mostly those that a text is made of.
fn noise(random: &mut Random) -> Vec<u8> {
    (0..random.below(60))
        .map(|_| match random.below(12) {
            0 => random.bits() as u8,
            1..=3 => b',',
            4 => b'\n',
            digit => b'0' + (digit as u8 - 5) % 3,
        })
        .collect()
}

#[test]
fn no_generated_text_breaks_off_otherwise() {
    let mut random = Random(2);
    for _ in 0..500 {
        let mut text = nearly_valid(&mut random);
        if random.one_in(2) {
            text = spoilt(&mut random, text);
        }
        text.truncate(random.below(text.len().min(65_536) as u64 + 1) as usize);
        let shown = String::from_utf8_lossy(&text);
        assert_eq!(
            run_broken_off(&text),
            printed_broken_off(&text),
            "{shown:?}"
        );
    }
}

/// Whether blank cells are merged at a T of 0.
fn merges_blanks_at_0(text: &[u8], entries: &[Entry]) -> bool {
    let line = text.split(|&byte| byte == b'\n').next().unwrap_or_default();
    let line = String::from_utf8_lossy(line);
    let settings: Vec<u64> = line.split(',').filter_map(|n| n.parse().ok()).collect();
    let is_merged = |&(depth, _, count): &Entry| count == 0 && u64::from(depth) < settings[0];
    settings.len() == 3 && settings[2] == 0 && entries.iter().any(is_merged)
}

/// What the generated texts are to bring.
fn kind_of(text: &[u8]) -> String {
    match outcome(text) {
        Outcome::Map(entries) if merges_blanks_at_0(text, &entries) => "blanks at 0".into(),
        Outcome::Map(entries) if entries.is_empty() => "an empty map".into(),
        Outcome::Map(entries) if entries.iter().any(|e| e.0 != entries[0].0) => "depths".into(),
        Outcome::Map(_) => "one depth".into(),
        Outcome::Refused { number, .. } => format!("refused by {number}"),
    }
}

/// Three thousand texts, and more for as long as MOMBUILD_SECONDS says.
#[test]
fn no_generated_text_is_read_otherwise() {
    let seconds = env::var("MOMBUILD_SECONDS").ok();
    let end = seconds.map(|s| Instant::now() + Duration::from_secs(s.parse().unwrap()));
    let mut random = Random(1);
    let mut outcomes: BTreeMap<String, usize> = BTreeMap::new();
    let mut texts = 0;
    while texts < 3_000 || end.is_some_and(|end| Instant::now() < end) {
        texts += 1;
        let text = match random.below(10) {
            0 => noise(&mut random),
            1..=4 => nearly_valid(&mut random),
            _ => {
                let text = nearly_valid(&mut random);
                spoilt(&mut random, text)
            }
        };
        assert_eq!(
            run(&text),
            printed(&text),
            "{:?}",
            String::from_utf8_lossy(&text)
        );
        *outcomes.entry(kind_of(&text)).or_default() += 1;
    }
    println!("{texts} generated texts: {outcomes:?}");
    for number in [0, 1, 2, 7, 8, 10] {
        let refused = outcomes.get(&format!("refused by {number}"));
        assert!(refused.is_some_and(|&texts| texts >= 10), "{outcomes:?}");
    }
    for kind in ["an empty map", "depths", "one depth", "blanks at 0"] {
        assert!(
            outcomes.get(kind).is_some_and(|&texts| texts >= 10),
            "{outcomes:?}"
        );
    }
}
