//! What a case sets, for both sides.

use crate::random::Random;

/// The options that say what patterns mean, as flags of the library and as letters of a flag group.
const MEANINGS: [(u32, char); 5] = [(1 << 0, 'i'), (1 << 1, 'm'), (1 << 2, 's'), (1 << 3, 'U'), (1 << 4, 'x')];
const NO_UNICODE: u32 = 1 << 7;

/// The options of one case.
#[derive(Clone, Copy, Debug, Default)]
pub struct Settings {
    /// Of the options that say what patterns mean, these are on.
    pub meaning: u32,
    /// Whether haystacks have to be UTF-8.
    pub utf8: bool,
    /// Whether caches are as small as can be.
    pub least: bool,
    /// Whether bytes share no transitions.
    pub apart: bool,
    /// Whether the automaton that finds starts shares states.
    pub shrink: bool,
    /// Whether an unbounded repetition of what may be empty is taken.
    pub empty_loops: bool,
    /// Whether it will be asked which patterns match.
    pub which: bool,
}

impl Settings {
    /// The case with this number: what can't change an answer goes through all its eight combinations in turn, and so
    /// does whether haystacks are UTF-8.
    pub fn in_turn(number: u64) -> Settings {
        Settings {
            least: number & 1 != 0,
            apart: number & 2 != 0,
            shrink: number & 4 != 0,
            utf8: number & 8 != 0,
            ..Settings::default()
        }
    }

    /// Turns some options on that say what patterns mean, mostly none.
    pub fn with_meaning(mut self, random: &mut Random) -> Settings {
        if random.once_in(4) {
            self.meaning = random.pick(&MEANINGS).0;
        }
        if random.once_in(8) {
            self.meaning |= NO_UNICODE;
        }
        self
    }

    pub fn is_unicode(&self) -> bool {
        self.meaning & NO_UNICODE == 0
    }

    /// Whether the option with this letter is on.
    #[cfg(not(feature = "heads"))]
    pub fn means(&self, letter: char) -> bool {
        MEANINGS.iter().any(|it| it.1 == letter && self.meaning & it.0 != 0)
    }

    /// The same options as a group of flags before a pattern: the crate's engines can't be chosen with options.
    pub fn spelled(&self, pattern: &str) -> String {
        let on: String = MEANINGS.iter().filter(|it| self.meaning & it.0 != 0).map(|it| it.1).collect();
        match (on.is_empty(), self.is_unicode()) {
            (true, true) => pattern.to_string(),
            (_, true) => format!("(?{on}){pattern}"),
            (_, false) => format!("(?{on}-u){pattern}"),
        }
    }
}
