//! Wrong readings of note 7 of 02, for all tests of wrong programs: of what it is that a list is searched
//! for, of what a list is, and of when that is looked at.

use differential::{cells::Cell, protected::faulty_place, widths::Width};
use mom::Refusal;

/// Whether a parent counts as listed.
pub type Search<Z> = fn(&[Z], Cell) -> bool;

/// The first place at which a list is none.
pub type Check<Z> = fn(&[Z]) -> Option<usize>;

pub fn is_listed<Z: Width>(list: &[Z], cell: Cell) -> bool {
    list.contains(&cell.zuniq())
}

fn cells<Z: Width>(list: &[Z]) -> impl Iterator<Item = Cell> + '_ {
    list.iter().filter_map(|&zuniq| Cell::of_zuniq(zuniq))
}

pub fn wrong_searches<Z: Width>() -> [(&'static str, Search<Z>); 8] {
    [
        ("no list", |_, _| false),
        ("the first child in place of the parent", |list, parent| {
            is_listed(list, parent.children()[0])
        }),
        ("any child in place of the parent", |list, parent| {
            parent
                .children()
                .iter()
                .any(|&child| is_listed(list, child))
        }),
        ("by hash", |list, parent| {
            cells(list).any(|cell| cell.hash == parent.hash)
        }),
        ("the last listed one never found", |list, parent| {
            is_listed(&list[..list.len().saturating_sub(1)], parent)
        }),
        ("the first listed one never found", |list, parent| {
            is_listed(list.get(1..).unwrap_or(&[]), parent)
        }),
        ("what lies in a listed one too", |list, parent| {
            cells(list).any(|cell| cell.depth <= parent.depth && cell.overlaps(parent))
        }),
        ("what a listed one lies in too", |list, parent| {
            cells(list).any(|cell| cell.depth >= parent.depth && cell.overlaps(parent))
        }),
    ]
}

fn is_none<Z: Width>(zuniq: Z) -> bool {
    Cell::of_zuniq(zuniq).is_none()
}

pub fn wrong_checks<Z: Width>() -> [(&'static str, Check<Z>); 8] {
    [
        ("any list taken", |_| None),
        ("an unsorted list taken", |list| {
            list.iter().position(|&zuniq| is_none(zuniq))
        }),
        ("equal ones taken", |list| {
            let falls = |place: usize| place > 0 && list[place - 1] > list[place];
            (0..list.len()).find(|&place| is_none(list[place]) || falls(place))
        }),
        ("what is no zuniq taken", |list| {
            (1..list.len()).find(|&place| list[place - 1] >= list[place])
        }),
        ("the first one not looked at", |list| {
            faulty_place(list).filter(|&place| place > 0)
        }),
        ("the last one not looked at", |list| {
            faulty_place(&list[..list.len().saturating_sub(1)])
        }),
        ("one inside another refused", |list| {
            let overlaps = |place: usize| {
                let before = place.checked_sub(1).and_then(|b| Cell::of_zuniq(list[b]));
                let cell = Cell::of_zuniq(list[place]);
                before.is_some_and(|before| cell.is_some_and(|cell| cell.overlaps(before)))
            };
            let faulty = faulty_place(list);
            (0..list.len()).find(|&place| faulty == Some(place) || overlaps(place))
        }),
        ("the place lost", |list| faulty_place(list).map(|_| 0)),
    ]
}

/// What a program answers that looks at the list after this number, by what is right and by what is right
/// of the call without its list.
pub fn late(number: u8, right: Option<Refusal>, without: Option<Refusal>) -> Option<Refusal> {
    let due = |refusal: &Refusal| refusal.number() == number;
    match right {
        Some(refusal) if refusal.number() == 15 => without.filter(due).or(right),
        _ => right,
    }
}

/// What one answers that looks at the list before this number.
pub fn early<Z: Width>(number: u8, right: Option<Refusal>, list: &[Z]) -> Option<Refusal> {
    match (right, faulty_place(list)) {
        (Some(refusal), Some(place)) if refusal.number() == number => Refusal::of(15, place),
        _ => right,
    }
}
