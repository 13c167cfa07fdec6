//! What both ways to the stack have in common: matches and refusals, by the numbers of the header for C.

#[cfg(not(feature = "heads"))]
pub use crate::library::Ours;
#[cfg(feature = "heads")]
pub use crate::heads::Ours;

pub const EMPTY_LOOP: u32 = 7;
pub const TOO_LARGE: u32 = 8;
pub const HAYSTACK_NOT_UTF8: u32 = 12;

/// What heads can't be asked, and where a search for them gives up, by numbers that the library doesn't use.
pub const UNSUPPORTED: u32 = 10;
pub const GAVE_UP: u32 = 11;

/// One match, and the number of its pattern.
#[derive(Clone, Copy, Debug, PartialEq, Eq)]
pub struct Match {
    pub pattern: usize,
    pub start: usize,
    pub end: usize,
}

/// The offsets of the groups of a match, that of the whole match first; none of one that took no part.
pub type Groups = Vec<Option<(usize, usize)>>;

/// Why a call failed.
#[derive(Clone, Copy, Debug, Default, PartialEq, Eq)]
pub struct Refusal {
    pub status: u32,
    pub cause: u32,
    pub pattern: usize,
    pub start: usize,
    pub byte: usize,
}

/// A list of matches, and why it ends before its end, if it does.
#[derive(Clone, Debug, PartialEq, Eq)]
pub struct Listed {
    pub matches: Vec<Match>,
    pub refusal: Option<Refusal>,
}
