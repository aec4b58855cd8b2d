//! Wrong readings of note 11 of 02, for all tests of wrong programs: of what becomes of blank sky under a
//! list.

/// What decides whether four siblings are merged.
#[derive(Clone, Copy)]
pub struct Four {
    /// Whether they are blank, from M on.
    pub is_blank: bool,
    /// Whether their parent is listed, and whether anything is.
    pub is_listed: bool,
    pub has_list: bool,
    /// Whether they are merged by their chi, from M on.
    pub by_chi: bool,
    /// T
    pub t: f64,
}

pub type Decision = fn(Four) -> bool;

/// "Protection now comes first."
pub fn decide(four: Four) -> bool {
    !four.is_listed && (four.is_blank || four.by_chi)
}

/// "Though blank quads of Note 4 merge first."
pub fn decide_before(four: Four) -> bool {
    four.is_blank || decide(four)
}

pub fn wrong_decisions() -> [(&'static str, Decision); 5] {
    [
        ("blanks merged first, as before", decide_before),
        ("blanks kept by any list", |four| {
            decide(four) && !(four.is_blank && four.has_list)
        }),
        ("blanks judged by chi under any list", |four| {
            decide(four) && (four.by_chi || !four.has_list)
        }),
        ("blanks protected at T above 0 alone", |four| {
            four.is_blank && four.t <= 0.0 || decide(four)
        }),
        ("blanks protected at T up to 0 alone", |four| {
            four.is_blank && four.t > 0.0 || decide(four)
        }),
    ]
}
