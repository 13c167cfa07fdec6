//! Several patterns, and which of them match.

use crate::builders::RegexSetBuilder;
use crate::error::Error;
use crate::regex::Regex;
use std::fmt;
use std::iter::FusedIterator;

/// Several patterns, of which one search reports which match. Its methods have the names of `regex::bytes::RegexSet`.
///
/// ```
/// use hanneddois::RegexSet;
///
/// # fn main() -> Result<(), hanneddois::Error> {
/// let set = RegexSet::new([r"\w+", r"\d+", r"\pL+", "foo", "bar", "barfoo", "foobar"])?;
/// let matches = set.matches(b"foobar")?;
/// assert_eq!(matches.iter().collect::<Vec<_>>(), [0, 2, 3, 4, 6]);
/// assert!(!matches.matched(5));
/// assert!(matches.matched(6));
/// # Ok(())
/// # }
/// ```
#[derive(Clone)]
pub struct RegexSet(Option<Regex>);

impl RegexSet {
    /// Compiles the patterns. [`RegexSetBuilder`] has options for this.
    pub fn new<I, S>(patterns: I) -> Result<RegexSet, Error>
    where
        I: IntoIterator<Item = S>,
        S: AsRef<str>,
    {
        RegexSetBuilder::new(patterns).build()
    }

    /// A set without patterns, which matches nothing.
    pub fn empty() -> RegexSet {
        RegexSet(None)
    }

    pub(crate) fn of(regex: Regex) -> RegexSet {
        RegexSet(Some(regex))
    }

    /// Whether any pattern matches.
    pub fn is_match(&self, haystack: &[u8]) -> Result<bool, Error> {
        self.0.as_ref().map_or(Ok(false), |regex| regex.is_match(haystack))
    }

    /// Which patterns match anywhere in the haystack, also if their matches overlap.
    pub fn matches(&self, haystack: &[u8]) -> Result<SetMatches, Error> {
        let none = SetMatches::new(Vec::new(), 0);
        self.0.as_ref().map_or(Ok(none), |regex| regex.matching_patterns(haystack))
    }

    /// The number of patterns.
    pub fn len(&self) -> usize {
        self.patterns().len()
    }

    /// Whether there is no pattern.
    pub fn is_empty(&self) -> bool {
        self.0.is_none()
    }

    /// All patterns, by their numbers.
    pub fn patterns(&self) -> &[String] {
        self.0.as_ref().map_or(&[], Regex::patterns)
    }
}

impl Default for RegexSet {
    fn default() -> RegexSet {
        RegexSet::empty()
    }
}

impl fmt::Debug for RegexSet {
    fn fmt(&self, f: &mut fmt::Formatter<'_>) -> fmt::Result {
        f.debug_tuple("RegexSet").field(&self.patterns()).finish()
    }
}

/// Which patterns of a set match.
#[derive(Clone, Debug)]
pub struct SetMatches {
    marks: Vec<u8>,
    matched: usize,
}

impl SetMatches {
    pub(crate) fn new(marks: Vec<u8>, matched: usize) -> SetMatches {
        SetMatches { marks, matched }
    }

    /// Whether any pattern matches.
    pub fn matched_any(&self) -> bool {
        self.matched > 0
    }

    /// Whether each pattern matches.
    pub fn matched_all(&self) -> bool {
        self.matched == self.marks.len()
    }

    /// Whether the pattern with this number matches.
    ///
    /// # Panics
    ///
    /// If there is no pattern with this number.
    pub fn matched(&self, pattern: usize) -> bool {
        self.marks[pattern] != 0
    }

    /// The number of patterns of the set, whether they match or not.
    #[allow(clippy::len_without_is_empty)] // as in the crate `regex`
    pub fn len(&self) -> usize {
        self.marks.len()
    }

    /// The numbers of the patterns that match, ascending.
    pub fn iter(&self) -> SetMatchesIter<'_> {
        SetMatchesIter(self.marks.iter().enumerate())
    }
}

/// The numbers of the patterns that match, ascending, from a borrowed [`SetMatches`].
#[derive(Clone, Debug)]
pub struct SetMatchesIter<'a>(std::iter::Enumerate<std::slice::Iter<'a, u8>>);

/// The numbers of the patterns that match, ascending, from an owned [`SetMatches`].
#[derive(Debug)]
pub struct SetMatchesIntoIter(std::iter::Enumerate<std::vec::IntoIter<u8>>);

impl Iterator for SetMatchesIter<'_> {
    type Item = usize;

    fn next(&mut self) -> Option<usize> {
        self.0.find(|(_, mark)| **mark != 0).map(|it| it.0)
    }
}

impl DoubleEndedIterator for SetMatchesIter<'_> {
    fn next_back(&mut self) -> Option<usize> {
        self.0.rfind(|(_, mark)| **mark != 0).map(|it| it.0)
    }
}

impl FusedIterator for SetMatchesIter<'_> {}

impl Iterator for SetMatchesIntoIter {
    type Item = usize;

    fn next(&mut self) -> Option<usize> {
        self.0.find(|(_, mark)| *mark != 0).map(|it| it.0)
    }
}

impl DoubleEndedIterator for SetMatchesIntoIter {
    fn next_back(&mut self) -> Option<usize> {
        self.0.rfind(|(_, mark)| *mark != 0).map(|it| it.0)
    }
}

impl FusedIterator for SetMatchesIntoIter {}

impl<'a> IntoIterator for &'a SetMatches {
    type Item = usize;
    type IntoIter = SetMatchesIter<'a>;

    fn into_iter(self) -> SetMatchesIter<'a> {
        self.iter()
    }
}

impl IntoIterator for SetMatches {
    type Item = usize;
    type IntoIter = SetMatchesIntoIter;

    fn into_iter(self) -> SetMatchesIntoIter {
        SetMatchesIntoIter(self.marks.into_iter().enumerate())
    }
}
