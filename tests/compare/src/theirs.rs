//! The crate `regex`, by two of its engines.

use crate::ours::{Groups, Match};
use crate::settings::Settings;
use regex::internal::{Exec, ExecBuilder};
use regex::{bytes, Regex};

/// Which engine is asked.
#[derive(Clone, Copy, Debug, PartialEq, Eq)]
pub enum Which {
    /// The Pike machine, which goes through the automaton state by state and makes none.
    Simplest,
    /// What the crate chooses by itself: literals, lazy automata, or backtracking.
    Fastest,
}

/// One compiled pattern, over text or over bytes.
pub enum Engine {
    Text(Regex),
    Bytes(bytes::Regex),
}

fn made(which: Which, pattern: &str, settings: &Settings) -> Result<Exec, regex::Error> {
    let builder = ExecBuilder::new(&settings.spelled(pattern)).only_utf8(settings.utf8);
    match which {
        Which::Simplest => builder.nfa().build(),
        Which::Fastest => builder.build(),
    }
}

fn text_of(haystack: &[u8]) -> &str {
    std::str::from_utf8(haystack).expect("a haystack that was seen to be UTF-8")
}

impl Engine {
    pub fn new(which: Which, pattern: &str, settings: &Settings) -> Result<Engine, regex::Error> {
        let exec = made(which, pattern, settings)?;
        Ok(if settings.utf8 { Engine::Text(exec.into_regex()) } else { Engine::Bytes(exec.into_byte_regex()) })
    }

    pub fn find_at(&self, haystack: &[u8], from: usize) -> Option<(usize, usize)> {
        match self {
            Engine::Text(it) => it.find_at(text_of(haystack), from).map(|m| (m.start(), m.end())),
            Engine::Bytes(it) => it.find_at(haystack, from).map(|m| (m.start(), m.end())),
        }
    }

    pub fn is_match(&self, haystack: &[u8]) -> bool {
        match self {
            Engine::Text(it) => it.is_match(text_of(haystack)),
            Engine::Bytes(it) => it.is_match(haystack),
        }
    }

    fn find_iter(&self, haystack: &[u8]) -> Vec<Match> {
        let of = |(start, end)| Match { pattern: 0, start, end };
        match self {
            Engine::Text(it) => it.find_iter(text_of(haystack)).map(|m| of((m.start(), m.end()))).collect(),
            Engine::Bytes(it) => it.find_iter(haystack).map(|m| of((m.start(), m.end()))).collect(),
        }
    }

    /// The groups of the first match from an offset on.
    fn groups_at(&self, haystack: &[u8], from: usize) -> Option<Groups> {
        match self {
            Engine::Text(it) => {
                let mut groups = it.capture_locations();
                it.captures_read_at(&mut groups, text_of(haystack), from)?;
                Some((0..groups.len()).map(|group| groups.get(group)).collect())
            }
            Engine::Bytes(it) => {
                let mut groups = it.capture_locations();
                it.captures_read_at(&mut groups, haystack, from)?;
                Some((0..groups.len()).map(|group| groups.get(group)).collect())
            }
        }
    }

    fn replacen(&self, haystack: &[u8], limit: usize, template: &str) -> Vec<u8> {
        match self {
            Engine::Text(it) => it.replacen(text_of(haystack), limit, template).into_owned().into_bytes(),
            Engine::Bytes(it) => it.replacen(haystack, limit, template.as_bytes()).into_owned(),
        }
    }

    /// The next place where a search may begin.
    fn offset_after(&self, haystack: &[u8], at: usize) -> usize {
        match self {
            Engine::Text(_) => {
                let text = text_of(haystack);
                (at + 1..).find(|it| *it > text.len() || text.is_char_boundary(*it)).expect("one lies behind")
            }
            Engine::Bytes(_) => at + 1,
        }
    }
}

/// Some patterns, each by an engine of its own.
pub struct Theirs {
    engines: Vec<Engine>,
}

impl Theirs {
    pub fn new(which: Which, patterns: &[String], settings: &Settings) -> Result<Theirs, regex::Error> {
        let engines = patterns.iter().map(|it| Engine::new(which, it, settings)).collect::<Result<_, _>>()?;
        Ok(Theirs { engines })
    }

    /// Of the patterns' own matches from a place on the leftmost, and of these the first pattern's.
    pub fn find_at(&self, haystack: &[u8], from: usize) -> Option<Match> {
        let found = self.engines.iter().enumerate().filter_map(|(pattern, engine)| {
            engine.find_at(haystack, from).map(|(start, end)| Match { pattern, start, end })
        });
        found.min_by_key(|it| (it.start, it.pattern))
    }

    /// All matches: the crate's own list for one pattern, and for several the same rule over `find_at`.
    pub fn find_all(&self, haystack: &[u8]) -> Vec<Match> {
        if let [engine] = &self.engines[..] {
            return engine.find_iter(haystack);
        }
        let mut matches: Vec<Match> = Vec::new();
        let mut at = 0;
        while at <= haystack.len() {
            let Some(found) = self.find_at(haystack, at) else { break };
            let is_repeat = found.start == found.end && matches.last().is_some_and(|it| it.end == found.end);
            if !is_repeat {
                matches.push(found);
            }
            at = if found.start == found.end {
                self.engines[0].offset_after(haystack, found.end)
            } else {
                found.end
            };
        }
        matches
    }

    /// The haystack with its first matches replaced by a template. Only one pattern has that.
    pub fn replacen(&self, haystack: &[u8], limit: usize, template: &str) -> Option<Vec<u8>> {
        match &self.engines[..] {
            [engine] => Some(engine.replacen(haystack, limit, template)),
            _ => None,
        }
    }

    /// These matches with their groups. Each is searched for from its start on, by its pattern alone.
    pub fn groups_of(&self, haystack: &[u8], matches: &[Match]) -> Vec<(Match, Groups)> {
        let of = |it: &Match| (*it, self.engines[it.pattern].groups_at(haystack, it.start).unwrap_or_default());
        matches.iter().map(of).collect()
    }

    pub fn which(&self, haystack: &[u8]) -> Vec<bool> {
        self.engines.iter().map(|it| it.is_match(haystack)).collect()
    }

    pub fn is_match(&self, haystack: &[u8]) -> bool {
        self.engines.iter().any(|it| it.is_match(haystack))
    }
}

/// Which patterns match anywhere, by the crate's own sets.
pub enum SetOf {
    Text(regex::RegexSet),
    Bytes(bytes::RegexSet),
}

impl SetOf {
    pub fn new(patterns: &[String], settings: &Settings) -> Result<SetOf, regex::Error> {
        let spelled = patterns.iter().map(|it| settings.spelled(it));
        Ok(if settings.utf8 {
            SetOf::Text(regex::RegexSet::new(spelled)?)
        } else {
            SetOf::Bytes(bytes::RegexSet::new(spelled)?)
        })
    }

    pub fn which(&self, haystack: &[u8], count: usize) -> Vec<bool> {
        match self {
            SetOf::Text(it) => {
                let matched = it.matches(text_of(haystack));
                (0..count).map(|pattern| matched.matched(pattern)).collect()
            }
            SetOf::Bytes(it) => {
                let matched = it.matches(haystack);
                (0..count).map(|pattern| matched.matched(pattern)).collect()
            }
        }
    }
}
