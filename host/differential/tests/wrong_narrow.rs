//! Wrong calls of narrow maps, and wrong moves between the widths: the random inputs must tell each from
//! the original's often enough for a short run to find it. Wrong building of narrow maps stands in
//! `wrong_building.rs`, wrong rows in `wrong_rows.rs`.

use std::iter::repeat_n;

use differential::{
    cells::Cell,
    compare::Kind,
    kinds::{told, CheckIsMom, FromZuniq, GetCellContaining, Move, MoveInput, ToZuniq},
    random::Random,
    widths::Width,
};
use mom::{moving::Moved, Refusal};

const DRAWN: usize = 20_000;

fn differing<K: Kind>(answer: impl Fn(&K::Input) -> K::Answer) -> usize {
    let mut random = Random::new(15);
    let inputs = (0..DRAWN).map(|_| K::random(&mut random).unwrap());
    inputs
        .filter(|input| answer(input) != K::original(input))
        .count()
}

fn assert_found<K: Kind>(wrong: &str, answer: impl Fn(&K::Input) -> K::Answer) {
    let differing = differing::<K>(answer);
    assert!(differing * 1000 > DRAWN, "{wrong}: {differing} of {DRAWN}");
}

/// The codec with another largest depth in place of 13.
#[test]
fn no_wrong_narrow_codec_is_missed() {
    for largest in [14, 29] {
        let wrong = format!("{largest} for 13");
        assert_found::<ToZuniq<u32>>(&wrong, |&Cell { depth, hash }| {
            [Ok(((2 * hash + 1) << (2 * (largest - depth))) as u32); 2]
        });
        assert_found::<FromZuniq<u32>>(&wrong, |&zuniq| {
            let zeros = zuniq.trailing_zeros();
            let hash = zuniq >> (zeros + 1);
            [Some((largest - zeros as u8 / 2, hash as u64)); 2]
        });
    }
    assert_found::<ToZuniq<u32>>("a hash of 16 bits", |&Cell { depth, hash }| {
        let hash = hash as u16 as u64;
        [Ok(Cell { depth, hash }.zuniq()); 2]
    });
}

fn as_wide(zuniqs: Vec<u32>) -> Vec<u64> {
    zuniqs.into_iter().map(u64::from).collect()
}

/// The wide calls, narrow zuniqs being read as the wide ones of the same number: 29 for 13. The overlap
/// test and the overlapping are right by that, since they look at differences of depths alone.
#[test]
fn no_narrow_map_read_as_a_wide_one_is_missed() {
    assert_found::<CheckIsMom<u32>>("check", |input| {
        let zuniqs = as_wide(input.zuniqs());
        Ok(told(mom::check_is_mom(input.depth, &zuniqs)?, &zuniqs))
    });
    assert_found::<GetCellContaining<u32>>("containing", |input| {
        let (zuniqs, query) = (input.map.zuniqs(), input.query.zuniq::<u32>());
        let wide = as_wide(zuniqs.clone());
        let place = mom::get_cell_containing(input.query.depth, &wide, query as u64);
        [place.map(|place| place.map(|place| (zuniqs[place], place as u32))); 2]
    });
}

/// Entries, and so many zeros behind them.
fn write<T: Copy>(buffer: &mut [T], entries: impl Iterator<Item = T>, zero: T, zeros: usize) {
    let content = entries.chain(repeat_n(zero, zeros));
    for (place, value) in buffer.iter_mut().zip(content) {
        *place = value;
    }
}

/// A move, of which each wrong one differs from the right one in one thing.
struct Program<Z: Width> {
    refusal: fn(&MoveInput<Z>) -> Option<Refusal>,
    depth: fn(u8) -> u8,
    zuniq: fn(Z) -> Z::Other,
    /// How many of so many entries are moved.
    moved: fn(usize) -> usize,
    /// How many places behind the last entry are cleared: of zuniqs, and of counts.
    cleared: fn(usize) -> [usize; 2],
    /// What a refused call does.
    refuse: fn(&mut [Z::Other], &mut [u32]),
}

impl<Z: Width> Program<Z> {
    fn right(depth: fn(u8) -> u8, zuniq: fn(Z) -> Z::Other) -> Self {
        Program {
            refusal: MoveInput::refusal,
            depth,
            zuniq,
            moved: |entries| entries,
            cleared: |places| [places; 2],
            refuse: |_, _| {},
        }
    }

    fn call(
        &self,
        input: &MoveInput<Z>,
        zuniqs: &mut [Z::Other],
        counts: &mut [u32],
    ) -> Result<Moved, Refusal> {
        if let Some(refusal) = (self.refusal)(input) {
            (self.refuse)(zuniqs, counts);
            return Err(refusal);
        }
        let map = &input.map;
        let entries = (self.moved)(map.zuniqs.len());
        let [of_zuniqs, of_counts] = (self.cleared)(zuniqs.len().saturating_sub(entries));
        let moved = map.zuniqs.iter().map(|&zuniq| (self.zuniq)(zuniq));
        write(zuniqs, moved.take(entries), Z::Other::of(0), of_zuniqs);
        let moved = map.values.iter().copied();
        write(counts, moved.take(entries), 0, of_counts);
        let depth = (self.depth)(map.depth);
        Ok(Moved { depth, entries })
    }

    fn differing(&self) -> usize {
        differing::<Move<Z>>(|input| {
            let step = input.step(|zuniqs, counts| self.call(input, zuniqs, counts));
            [step.clone(), step]
        })
    }

    fn assert_found(self, wrong: &str) {
        let differing = self.differing();
        assert!(differing * 1000 > DRAWN, "{wrong}: {differing} of {DRAWN}");
    }
}

macro_rules! found {
    ($right:expr, $wrong:literal, $field:ident: $rule:expr) => {
        let program = Program {
            $field: $rule,
            ..$right
        };
        program.assert_found($wrong);
    };
}

/// What narrowing and widening have in common.
fn assert_all_found<Z: Width>(right: fn() -> Program<Z>) {
    assert_eq!(right().differing(), 0);
    found!(right(), "the last entry dropped", moved: |entries| entries.saturating_sub(1));
    found!(right(), "a zuniq not cleared", cleared: |places| [places.saturating_sub(1), places]);
    found!(right(), "a count not cleared", cleared: |places| [places, places.saturating_sub(1)]);
    found!(right(), "a refused call clears the zuniqs", refuse: |zuniqs, _| zuniqs.fill(Z::Other::of(0)));
    found!(right(), "a refused call clears the counts", refuse: |_, counts| counts.fill(0));
    found!(right(), "the place of a refusal lost", refusal: |input| {
        input.refusal().and_then(|refusal| Refusal::of(refusal.number(), 0))
    });
    found!(right(), "the largest depth", depth: |_| Z::Other::DEPTH_MAX);
    found!(right(), "11 before 5", refusal: |input| match input.refusal() {
        Some(Refusal::InvalidMap(_)) if is_short(input) => Some(Refusal::NoSpace),
        refusal => refusal,
    });
    found!(right(), "any depth taken", refusal: |input| match input.refusal() {
        Some(Refusal::DepthOutOfRange) => None,
        refusal => refusal,
    });
}

fn is_short<Z: Width>(input: &MoveInput<Z>) -> bool {
    input.map.zuniqs.len() > input.places[0]
}

/// The first entry of a wide map that is deeper than 13.
fn deep(input: &MoveInput<u64>) -> Option<usize> {
    let mut cells = input.map.zuniqs.iter().map(|&zuniq| Cell::of_zuniq(zuniq));
    cells.position(|cell| cell.is_some_and(|cell| cell.depth > 13))
}

#[test]
fn no_wrong_narrowing_is_missed() {
    let right = || Program::<u64>::right(|depth| depth.min(13), |zuniq| (zuniq >> 32) as u32);
    assert_all_found(right);
    found!(right(), "the low half", zuniq: |zuniq| zuniq as u32);
    found!(right(), "14 for 13", zuniq: |zuniq| (zuniq >> 30) as u32);
    found!(right(), "the depth kept", depth: |depth| depth);
    found!(right(), "maps of a depth over 13 refused", refusal: |input| match input.map.depth {
        14..=29 => Some(Refusal::DepthOutOfRange),
        _ => input.refusal(),
    });
    found!(right(), "deep entries cut", refusal: |input| match input.refusal() {
        Some(Refusal::EntryTooDeep(_)) => is_short(input).then_some(Refusal::NoSpace),
        refusal => refusal,
    });
    found!(right(), "deep entries as faulty ones", refusal: |input| match input.refusal() {
        Some(Refusal::EntryTooDeep(place)) => Some(Refusal::InvalidMap(place)),
        refusal => refusal,
    });
    found!(right(), "11 before 13", refusal: |input| match input.refusal() {
        Some(Refusal::EntryTooDeep(_)) if is_short(input) => Some(Refusal::NoSpace),
        refusal => refusal,
    });
    found!(right(), "13 before 5", refusal: |input| match (input.refusal(), deep(input)) {
        (Some(Refusal::InvalidMap(_)), Some(place)) => Some(Refusal::EntryTooDeep(place)),
        (refusal, _) => refusal,
    });
}

#[test]
fn no_wrong_widening_is_missed() {
    let right = || Program::<u32>::right(|depth| depth, |zuniq| (zuniq as u64) << 32);
    assert_all_found(right);
    found!(right(), "the number kept", zuniq: |zuniq| zuniq as u64);
    found!(right(), "28 for 29", zuniq: |zuniq| (zuniq as u64) << 30);
    found!(right(), "16 depths deeper", depth: |depth| depth + 16);
    found!(right(), "29 for 13", refusal: |input| match input.refusal() {
        Some(Refusal::DepthOutOfRange) if input.map.depth <= 29 => None,
        refusal => refusal,
    });
}
