//! The stack by the library for C, through its crate for Rust.

use crate::ours::{Groups, Listed, Match, Refusal};
use crate::settings::Settings;
use hanneddois::{Error, Regex, RegexBuilder};

/// A compiled regex with its caches.
pub struct Ours(Regex);

fn refused(error: Error) -> Refusal {
    let start = error.span().map_or(error.offset(), |it| Some(it.start));
    Refusal {
        status: error.status(),
        cause: error.cause(),
        pattern: error.pattern().unwrap_or_default(),
        start: start.unwrap_or_default(),
        byte: 0,
    }
}

fn match_of(found: hanneddois::Match) -> Match {
    Match { pattern: found.pattern(), start: found.start(), end: found.end() }
}

fn row_of(captures: &hanneddois::Captures) -> (Match, Groups) {
    let groups: Groups = captures.iter().map(|it| it.map(|it| (it.start(), it.end()))).collect();
    let whole = groups[0].expect("group 0 takes part");
    (Match { pattern: captures.pattern(), start: whole.0, end: whole.1 }, groups)
}

fn builder_of(patterns: &[String], settings: &Settings) -> RegexBuilder {
    let mut builder = RegexBuilder::new_many(patterns);
    builder
        .case_insensitive(settings.means('i'))
        .multi_line(settings.means('m'))
        .dot_matches_new_line(settings.means('s'))
        .swap_greed(settings.means('U'))
        .ignore_whitespace(settings.means('x'))
        .unicode(settings.is_unicode())
        .utf8(settings.utf8)
        .empty_loops(settings.empty_loops)
        .matching_patterns(settings.which)
        .byte_classes(!settings.apart)
        .shrink(settings.shrink);
    if settings.least {
        builder.dfa_size_limit(1).skip_cache_capacity_check(true);
    }
    builder
}

impl Ours {
    pub fn new(patterns: &[String], settings: &Settings) -> Result<Ours, Refusal> {
        builder_of(patterns, settings).build().map(Ours).map_err(refused)
    }

    pub fn is_match(&mut self, haystack: &[u8]) -> Result<bool, Refusal> {
        self.0.is_match(haystack).map_err(refused)
    }

    pub fn find_at(&mut self, haystack: &[u8], from: usize) -> Result<Option<Match>, Refusal> {
        self.0.find_at(haystack, from).map(|it| it.map(match_of)).map_err(refused)
    }

    /// The first match.
    pub fn first(&mut self, haystack: &[u8]) -> Result<Option<Match>, Refusal> {
        self.find_at(haystack, 0)
    }

    /// All matches. The list that is expected isn't needed. The crate's iterator has to find what the library lists.
    pub fn find_all(&mut self, haystack: &[u8], _expected: &[Match]) -> Listed {
        let listed = self.0.find_all(haystack);
        let iterated: Result<Vec<_>, Error> = self.0.find_iter(haystack).collect();
        assert!(listed == iterated, "the iterator finds {iterated:?} rather than {listed:?}");
        match listed {
            Ok(matches) => Listed { matches: matches.into_iter().map(match_of).collect(), refusal: None },
            Err(error) => Listed { matches: Vec::new(), refusal: Some(refused(error)) },
        }
    }

    /// All matches with their groups, one search after the other.
    pub fn find_groups(&mut self, haystack: &[u8]) -> Result<Vec<(Match, Groups)>, Refusal> {
        self.0.captures_iter(haystack).map(|it| it.map(|it| row_of(&it)).map_err(refused)).collect()
    }

    /// The first match from an offset on with its groups.
    pub fn groups_at(&mut self, haystack: &[u8], from: usize) -> Result<Option<(Match, Groups)>, Refusal> {
        self.0.captures_at(haystack, from).map(|it| it.map(|it| row_of(&it))).map_err(refused)
    }

    /// The haystack with its first matches replaced by a template.
    pub fn replacen(&mut self, haystack: &[u8], limit: usize, template: &str) -> Result<Vec<u8>, Refusal> {
        self.0.replacen(haystack, limit, template).map(|it| it.into_owned()).map_err(refused)
    }

    /// Which patterns match anywhere.
    pub fn which(&mut self, haystack: &[u8]) -> Result<Vec<bool>, Refusal> {
        let matches = self.0.matching_patterns(haystack).map_err(refused)?;
        Ok((0..matches.len()).map(|it| matches.matched(it)).collect())
    }

    /// How often its caches were cleared.
    pub fn clear_count(&mut self) -> usize {
        self.0.searcher().map_or(0, |mut it| it.clear_count())
    }
}
