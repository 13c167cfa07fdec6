//! One match, and the iterator over all matches.

use crate::error::Error;
use crate::pool::{Pool, Searcher};
use crate::sys;
use std::fmt;
use std::iter::FusedIterator;
use std::ops::Range;

/// One match: which pattern it is of, and which bytes of the haystack it has.
#[derive(Clone, Copy, PartialEq, Eq)]
pub struct Match<'h> {
    bytes: &'h [u8],
    start: usize,
    pattern: usize,
}

impl<'h> Match<'h> {
    #[inline]
    pub(crate) fn new(haystack: &'h [u8], row: sys::Match) -> Match<'h> {
        Match { bytes: &haystack[row.start..row.end], start: row.start, pattern: row.pattern }
    }

    /// The offset of its first byte in the haystack.
    #[inline]
    pub fn start(&self) -> usize {
        self.start
    }

    /// The offset after its last byte.
    #[inline]
    pub fn end(&self) -> usize {
        self.start + self.bytes.len()
    }

    /// The number of bytes.
    #[inline]
    pub fn len(&self) -> usize {
        self.bytes.len()
    }

    /// Whether the match has no bytes.
    #[inline]
    pub fn is_empty(&self) -> bool {
        self.bytes.is_empty()
    }

    /// The offsets of the match, from its start up to its end.
    #[inline]
    pub fn range(&self) -> Range<usize> {
        self.start..self.end()
    }

    /// The bytes that matched.
    #[inline]
    pub fn as_bytes(&self) -> &'h [u8] {
        self.bytes
    }

    /// The number of the pattern that matched, counted from 0.
    #[inline]
    pub fn pattern(&self) -> usize {
        self.pattern
    }
}

impl fmt::Debug for Match<'_> {
    fn fmt(&self, f: &mut fmt::Formatter<'_>) -> fmt::Result {
        f.debug_struct("Match")
            .field("pattern", &self.pattern)
            .field("start", &self.start)
            .field("end", &self.end())
            .field("bytes", &format_args!("\"{}\"", self.bytes.escape_ascii()))
            .finish()
    }
}

impl<'h> From<Match<'h>> for &'h [u8] {
    fn from(found: Match<'h>) -> &'h [u8] {
        found.bytes
    }
}

impl From<Match<'_>> for Range<usize> {
    fn from(found: Match<'_>) -> Range<usize> {
        found.range()
    }
}

/// The matches of a haystack from left to right, as [`Regex::find_iter`](crate::Regex::find_iter) returns them.
///
/// An item is a match, or why the search for the next one failed. After an error the iterator ends.
#[derive(Debug)]
pub struct Matches<'r, 'h> {
    haystack: &'h [u8],
    state: State<'r>,
}

#[derive(Debug)]
enum State<'r> {
    /// No search was made yet.
    Begun(&'r Pool),
    /// A match ended at this offset, and the next is searched for when it is asked for.
    Searching {
        searcher: Searcher<'r>,
        end: usize,
    },
    /// All matches were searched for, and after them there may be an error.
    Listed {
        rows: std::vec::IntoIter<sys::Match>,
        outcome: Result<(), Error>,
    },
    Ended,
}

impl<'r, 'h> Matches<'r, 'h> {
    pub(crate) fn new(pool: &'r Pool, haystack: &'h [u8]) -> Matches<'r, 'h> {
        Matches { haystack, state: State::Begun(pool) }
    }

    /// Makes the first search. In UTF-8 mode each search checks the whole haystack, so one search lists all matches
    /// there.
    fn begin(&mut self, pool: &'r Pool) -> Result<Option<sys::Match>, Error> {
        let mut searcher = Searcher::new(pool)?;
        if pool.is_utf8() {
            let (rows, outcome) = searcher.handle.find_all(self.haystack);
            self.state = State::Listed { rows: rows.into_iter(), outcome };
            return self.advance();
        }
        let found = searcher.handle.find_at(self.haystack, 0)?;
        if let Some(it) = found {
            self.state = State::Searching { searcher, end: it.end };
        }
        Ok(found)
    }

    fn advance(&mut self) -> Result<Option<sys::Match>, Error> {
        match &mut self.state {
            State::Searching { searcher, end } => {
                let found = searcher.handle.find_after(self.haystack, *end)?;
                *end = found.map_or(*end, |it| it.end);
                Ok(found)
            }
            State::Listed { rows, outcome } => match rows.next() {
                None => outcome.map(|_| None),
                row => Ok(row),
            },
            State::Begun(pool) => {
                let pool = *pool;
                self.begin(pool)
            }
            State::Ended => Ok(None),
        }
    }
}

impl<'h> Iterator for Matches<'_, 'h> {
    type Item = Result<Match<'h>, Error>;

    fn next(&mut self) -> Option<Self::Item> {
        match self.advance() {
            Ok(Some(row)) => Some(Ok(Match::new(self.haystack, row))),
            outcome => {
                self.state = State::Ended;
                outcome.err().map(Err)
            }
        }
    }
}

impl FusedIterator for Matches<'_, '_> {}

/// What is between the matches of a haystack, as [`Regex::split`](crate::Regex::split) returns it.
///
/// An item is a part, or why the search for the next match failed. After an error the iterator ends.
#[derive(Debug)]
pub struct Split<'r, 'h> {
    matches: Matches<'r, 'h>,
    haystack: &'h [u8],
    /// Where the next part starts.
    last: usize,
    /// How many parts there may still be.
    left: usize,
}

impl<'r, 'h> Split<'r, 'h> {
    pub(crate) fn new(matches: Matches<'r, 'h>, haystack: &'h [u8], limit: usize) -> Split<'r, 'h> {
        Split { matches, haystack, last: 0, left: limit }
    }
}

impl<'h> Iterator for Split<'_, 'h> {
    type Item = Result<&'h [u8], Error>;

    fn next(&mut self) -> Option<Self::Item> {
        self.left = self.left.checked_sub(1)?;
        let found = if self.left == 0 { None } else { self.matches.next() };
        match found {
            Some(Ok(found)) => {
                let part = &self.haystack[self.last..found.start()];
                self.last = found.end();
                Some(Ok(part))
            }
            Some(Err(error)) => {
                self.left = 0;
                Some(Err(error))
            }
            None => {
                self.left = 0;
                Some(Ok(&self.haystack[self.last..]))
            }
        }
    }
}

impl FusedIterator for Split<'_, '_> {}
