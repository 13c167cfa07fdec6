//! A regex of one pattern or several.

use crate::builders::RegexBuilder;
use crate::captures::{CaptureMatches, Captures};
use crate::error::Error;
use crate::matches::{Match, Matches, Split};
use crate::pool::{Pool, Searcher};
use crate::replace::Replacer;
use crate::set::SetMatches;
use crate::sys;
use std::borrow::Cow;
use std::fmt;
use std::str::FromStr;
use std::sync::Arc;

/// A compiled regex that searches bytes.
///
/// Its methods have the names of `regex::bytes::Regex`. They return a [`Result`], since a search may run out of memory.
///
/// Threads may share a regex. It keeps as many caches as searches ran at the same time, at most one for each thread and
/// each [`Matches`] or [`Searcher`] that is alive. Further ones are made when they are first needed, and nothing is
/// compiled again. A clone shares all of them.
///
/// ```
/// use hanneddois::Regex;
///
/// # fn main() -> Result<(), hanneddois::Error> {
/// let regex = Regex::new(r"[0-9]{3}-[0-9]{4}")?;
/// let found = regex.find(b"phone: 555-1234")?.unwrap();
/// assert_eq!(found.range(), 7..15);
/// assert_eq!(found.as_bytes(), b"555-1234");
/// # Ok(())
/// # }
/// ```
#[derive(Clone)]
pub struct Regex(Arc<Pool>);

impl Regex {
    /// Compiles a pattern in the syntax of the crate `regex`. [`RegexBuilder`] has options for this.
    pub fn new(pattern: &str) -> Result<Regex, Error> {
        RegexBuilder::new(pattern).build()
    }

    /// Compiles several patterns. If matches of several start at the same offset, the one of the earlier pattern is
    /// preferred.
    ///
    /// ```
    /// # fn main() -> Result<(), hanneddois::Error> {
    /// let regex = hanneddois::Regex::new_many(["[a-z]+", "[0-9]+"])?;
    /// let found = regex.find(b"42 foo")?.unwrap();
    /// assert_eq!((found.pattern(), found.range()), (1, 0..2));
    /// # Ok(())
    /// # }
    /// ```
    ///
    /// # Errors
    ///
    /// Without any pattern the error is [`BadArgument`](crate::ErrorKind::BadArgument).
    pub fn new_many<I, S>(patterns: I) -> Result<Regex, Error>
    where
        I: IntoIterator<Item = S>,
        S: AsRef<str>,
    {
        RegexBuilder::new_many(patterns).build()
    }

    pub(crate) fn of(pool: Pool) -> Regex {
        Regex(Arc::new(pool))
    }

    /// Whether there is a match.
    pub fn is_match(&self, haystack: &[u8]) -> Result<bool, Error> {
        self.searcher()?.is_match(haystack)
    }

    /// The leftmost match, and of those that start there the preferred one.
    pub fn find<'h>(&self, haystack: &'h [u8]) -> Result<Option<Match<'h>>, Error> {
        self.find_at(haystack, 0)
    }

    /// The leftmost match that starts at this offset or after it. Looks, as `^` and `\b`, see the bytes before the
    /// offset.
    ///
    /// ```
    /// # fn main() -> Result<(), hanneddois::Error> {
    /// let regex = hanneddois::Regex::new(r"\bchew\b")?;
    /// // Without the bytes before it, there would be a word boundary at this offset.
    /// assert!(regex.find(&b"eschew"[2..])?.is_some());
    /// assert!(regex.find_at(b"eschew", 2)?.is_none());
    /// # Ok(())
    /// # }
    /// ```
    ///
    /// # Errors
    ///
    /// If the offset is after the end of the haystack, the error is [`BadArgument`](crate::ErrorKind::BadArgument).
    pub fn find_at<'h>(&self, haystack: &'h [u8], start: usize) -> Result<Option<Match<'h>>, Error> {
        self.searcher()?.find_at(haystack, start)
    }

    /// All matches from left to right, each searched for when it is asked for.
    ///
    /// Each is the leftmost one from the end of the one before it. An empty match right at the end of the one before it
    /// is skipped.
    ///
    /// The iterator has caches of its own until it is dropped. Another search by this regex meanwhile uses others.
    ///
    /// ```
    /// # fn main() -> Result<(), hanneddois::Error> {
    /// let regex = hanneddois::Regex::new(r"\b\w{13}\b")?;
    /// let haystack = b"Retroactively relinquishing remunerations is reprehensible.";
    /// let words: Vec<&[u8]> = regex
    ///     .find_iter(haystack)
    ///     .map(|found| found.map(|it| it.as_bytes()))
    ///     .collect::<Result<_, _>>()?;
    /// assert_eq!(words, [&b"Retroactively"[..], b"relinquishing", b"remunerations", b"reprehensible"]);
    /// # Ok(())
    /// # }
    /// ```
    pub fn find_iter<'r, 'h>(&'r self, haystack: &'h [u8]) -> Matches<'r, 'h> {
        Matches::new(&self.0, haystack)
    }

    /// All matches in a list: those of [`find_iter`](Regex::find_iter), or the first error.
    pub fn find_all<'h>(&self, haystack: &'h [u8]) -> Result<Vec<Match<'h>>, Error> {
        self.searcher()?.find_all(haystack)
    }

    /// The leftmost match with its groups.
    ///
    /// ```
    /// # fn main() -> Result<(), hanneddois::Error> {
    /// let regex = hanneddois::Regex::new(r"'(?<title>[^']+)'\s+\((\d{4})\)")?;
    /// let groups = regex.captures(b"Not my favorite movie: 'Citizen Kane' (1941).")?.unwrap();
    /// assert_eq!((&groups["title"], &groups[2]), (&b"Citizen Kane"[..], &b"1941"[..]));
    /// # Ok(())
    /// # }
    /// ```
    pub fn captures<'h>(&self, haystack: &'h [u8]) -> Result<Option<Captures<'h>>, Error> {
        self.captures_at(haystack, 0)
    }

    /// The leftmost match that starts at this offset or after it, with its groups.
    pub fn captures_at<'h>(&self, haystack: &'h [u8], start: usize) -> Result<Option<Captures<'h>>, Error> {
        self.searcher()?.captures_at(haystack, start)
    }

    /// All matches from left to right with their groups, as [`find_iter`](Regex::find_iter) finds them.
    pub fn captures_iter<'r, 'h>(&'r self, haystack: &'h [u8]) -> CaptureMatches<'r, 'h> {
        CaptureMatches::new(&self.0, haystack)
    }

    /// The number of the groups of the pattern, with group 0; of several patterns, those of the first one.
    pub fn captures_len(&self) -> usize {
        self.group_names(0).len()
    }

    /// The names of the groups by their numbers; of several patterns, those of the first one. Group 0 has none.
    pub fn capture_names(&self) -> impl Iterator<Item = Option<&str>> {
        self.group_names(0).iter().map(Option::as_deref)
    }

    /// The names of the groups of a pattern by their numbers.
    ///
    /// # Panics
    ///
    /// If there is no pattern of this number.
    pub fn group_names(&self, pattern: usize) -> &[Option<String>] {
        &self.0.names()[pattern]
    }

    /// The haystack with the first match replaced.
    pub fn replace<'h, R: Replacer>(&self, haystack: &'h [u8], by: R) -> Result<Cow<'h, [u8]>, Error> {
        self.replacen(haystack, 1, by)
    }

    /// The haystack with all matches replaced. Without a match it is borrowed.
    ///
    /// ```
    /// # fn main() -> Result<(), hanneddois::Error> {
    /// let regex = hanneddois::Regex::new(r"(?<last>[^,\s]+),\s+(?<first>\S+)")?;
    /// let replaced = regex.replace_all(b"Springsteen, Bruce", "$first $last")?;
    /// assert_eq!(replaced, &b"Bruce Springsteen"[..]);
    /// # Ok(())
    /// # }
    /// ```
    pub fn replace_all<'h, R: Replacer>(&self, haystack: &'h [u8], by: R) -> Result<Cow<'h, [u8]>, Error> {
        self.replacen(haystack, 0, by)
    }

    /// The haystack with at most so many matches replaced, or with all if the limit is 0.
    pub fn replacen<'h, R: Replacer>(
        &self,
        haystack: &'h [u8],
        limit: usize,
        mut by: R,
    ) -> Result<Cow<'h, [u8]>, Error> {
        if let Some(text) = by.no_expansion() {
            return self.replace_by(haystack, limit, &text, sys::LITERAL);
        }
        if let Some(template) = by.template() {
            return self.replace_by(haystack, limit, &template, 0);
        }
        let limit = if limit == 0 { usize::MAX } else { limit };
        let mut replaced = Vec::new();
        let mut last = 0;
        for found in self.captures_iter(haystack).take(limit) {
            let found = found?;
            let whole = found.get(0).expect("the whole match takes part");
            replaced.extend_from_slice(&haystack[last..whole.start()]);
            by.replace_append(&found, &mut replaced);
            last = whole.end();
        }
        Ok(joined(haystack, replaced, last))
    }

    /// The haystack with matches replaced by a template or by bytes as they are, by one call of the library.
    fn replace_by<'h>(&self, haystack: &'h [u8], limit: usize, by: &[u8], flags: u32) -> Result<Cow<'h, [u8]>, Error> {
        let replaced = self.searcher()?.handle.replace_all(haystack, by, limit, flags)?;
        Ok(replaced.map_or(Cow::Borrowed(haystack), Cow::Owned))
    }

    /// What is between the matches.
    ///
    /// ```
    /// # fn main() -> Result<(), hanneddois::Error> {
    /// let regex = hanneddois::Regex::new(r"[ \t]+")?;
    /// let parts: Vec<&[u8]> = regex.split(b"a b \t  c\td    e").collect::<Result<_, _>>()?;
    /// assert_eq!(parts, [b"a", b"b", b"c", b"d", b"e"]);
    /// # Ok(())
    /// # }
    /// ```
    pub fn split<'r, 'h>(&'r self, haystack: &'h [u8]) -> Split<'r, 'h> {
        Split::new(self.find_iter(haystack), haystack, usize::MAX)
    }

    /// What is between the matches, in at most so many parts: the last one is the rest of the haystack.
    pub fn splitn<'r, 'h>(&'r self, haystack: &'h [u8], limit: usize) -> Split<'r, 'h> {
        Split::new(self.find_iter(haystack), haystack, limit)
    }

    /// Which patterns match anywhere in the haystack, also if their matches overlap, as
    /// [`RegexSet::matches`](crate::RegexSet::matches).
    pub fn matching_patterns(&self, haystack: &[u8]) -> Result<SetMatches, Error> {
        self.searcher()?.matching_patterns(haystack)
    }

    /// A searcher with caches of its own, for many searches by one thread. It fails only if it is out of memory.
    pub fn searcher(&self) -> Result<Searcher<'_>, Error> {
        Searcher::new(&self.0)
    }

    /// The pattern; of several, the first one.
    pub fn as_str(&self) -> &str {
        &self.patterns()[0]
    }

    /// All patterns.
    pub fn patterns(&self) -> &[String] {
        self.0.patterns()
    }
}

/// What was replaced, and the rest of the haystack. If nothing was written, and no byte is left out, that is the haystack.
fn joined(haystack: &[u8], mut replaced: Vec<u8>, last: usize) -> Cow<'_, [u8]> {
    if last == 0 && replaced.is_empty() {
        return Cow::Borrowed(haystack);
    }
    replaced.extend_from_slice(&haystack[last..]);
    Cow::Owned(replaced)
}

impl fmt::Display for Regex {
    fn fmt(&self, f: &mut fmt::Formatter<'_>) -> fmt::Result {
        f.write_str(self.as_str())
    }
}

impl fmt::Debug for Regex {
    fn fmt(&self, f: &mut fmt::Formatter<'_>) -> fmt::Result {
        match self.patterns() {
            [pattern] => f.debug_tuple("Regex").field(pattern).finish(),
            patterns => f.debug_tuple("Regex").field(&patterns).finish(),
        }
    }
}

impl FromStr for Regex {
    type Err = Error;

    fn from_str(pattern: &str) -> Result<Regex, Error> {
        Regex::new(pattern)
    }
}

impl TryFrom<&str> for Regex {
    type Error = Error;

    fn try_from(pattern: &str) -> Result<Regex, Error> {
        Regex::new(pattern)
    }
}

impl TryFrom<String> for Regex {
    type Error = Error;

    fn try_from(pattern: String) -> Result<Regex, Error> {
        Regex::new(&pattern)
    }
}
