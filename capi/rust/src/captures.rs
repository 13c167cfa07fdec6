//! The groups of a match, and the iterator over all matches with their groups.

use crate::error::Error;
use crate::handle::with_room;
use crate::matches::Match;
use crate::pool::{Pool, Searcher};
use crate::sys;
use std::fmt;
use std::iter::FusedIterator;
use std::ops::Index;
use std::sync::Arc;

/// The names of the groups of each pattern. Group 0, the whole match, has none.
pub(crate) type Names = Vec<Vec<Option<String>>>;

/// The groups of one match. Group 0 is the whole match, and the others are numbered within the pattern that matched.
#[derive(Clone)]
pub struct Captures<'h> {
    haystack: &'h [u8],
    pattern: usize,
    /// Start and end of each group, or twice `NO_OFFSET` for one that took no part.
    slots: Vec<usize>,
    names: Arc<Names>,
}

impl<'h> Captures<'h> {
    pub(crate) fn new(haystack: &'h [u8], pattern: usize, mut slots: Vec<usize>, names: &Arc<Names>) -> Captures<'h> {
        slots.truncate(2 * names[pattern].len());
        Captures { haystack, pattern, slots, names: Arc::clone(names) }
    }

    fn group_names(&self) -> &[Option<String>] {
        &self.names[self.pattern]
    }

    /// The match of a group by its number. It is `None` if the group took no part, or if there is none of this number.
    pub fn get(&self, group: usize) -> Option<Match<'h>> {
        let slots = self.slots.get(group.checked_mul(2)?..)?;
        match *slots {
            [start, end, ..] if start != sys::NO_OFFSET => {
                Some(Match::new(self.haystack, sys::Match { pattern: self.pattern, start, end }))
            }
            _ => None,
        }
    }

    /// The match of a group by its name. It is `None` if the group took no part, or if there is none of this name.
    pub fn name(&self, name: &str) -> Option<Match<'h>> {
        self.get(self.group_names().iter().position(|it| it.as_deref() == Some(name))?)
    }

    /// The bytes of all groups but 0, if there are `N` of them and all took part.
    ///
    /// # Panics
    ///
    /// If the pattern has another number of groups, or if one took no part.
    ///
    /// ```
    /// # fn main() -> Result<(), hanneddois::Error> {
    /// let regex = hanneddois::Regex::new(r"([0-9]{4})-([0-9]{2})-([0-9]{2})")?;
    /// let (date, [year, month, day]) = regex.captures(b"on 2010-03-14")?.unwrap().extract();
    /// assert_eq!((date, year, month, day), (&b"2010-03-14"[..], &b"2010"[..], &b"03"[..], &b"14"[..]));
    /// # Ok(())
    /// # }
    /// ```
    pub fn extract<const N: usize>(&self) -> (&'h [u8], [&'h [u8]; N]) {
        assert_eq!(self.len(), N + 1, "the pattern has another number of groups");
        let bytes = |group| self.get(group).expect("a group took no part").as_bytes();
        let mut groups = [&b""[..]; N];
        for (at, group) in groups.iter_mut().enumerate() {
            *group = bytes(at + 1);
        }
        (bytes(0), groups)
    }

    /// Appends a template, in which `$1`, `$name` and `${name}` stand for groups and `$$` for a dollar sign. A group
    /// that took no part, or that isn't there, is empty.
    pub fn expand(&self, template: &[u8], to: &mut Vec<u8>) {
        crate::replace::expand(self, template, to);
    }

    /// All groups by their numbers, from 0 on.
    pub fn iter(&self) -> impl Iterator<Item = Option<Match<'h>>> + '_ {
        (0..self.len()).map(|group| self.get(group))
    }

    /// The number of the groups, with group 0.
    #[allow(clippy::len_without_is_empty)]
    pub fn len(&self) -> usize {
        self.slots.len() / 2
    }

    /// The number of the pattern that matched, counted from 0.
    pub fn pattern(&self) -> usize {
        self.pattern
    }
}

impl fmt::Debug for Captures<'_> {
    fn fmt(&self, f: &mut fmt::Formatter<'_>) -> fmt::Result {
        f.debug_list().entries(self.iter()).finish()
    }
}

/// The bytes of a group. Panics if it took no part.
impl Index<usize> for Captures<'_> {
    type Output = [u8];

    fn index(&self, group: usize) -> &[u8] {
        self.get(group).unwrap_or_else(|| panic!("no group {group}")).as_bytes()
    }
}

/// The bytes of a group. Panics if it took no part.
impl Index<&str> for Captures<'_> {
    type Output = [u8];

    fn index(&self, name: &str) -> &[u8] {
        self.name(name).unwrap_or_else(|| panic!("no group named {name:?}")).as_bytes()
    }
}

/// The matches of a haystack with their groups, as [`Regex::captures_iter`](crate::Regex::captures_iter) returns them.
///
/// An item is a match, or why the search for the next one failed. After an error the iterator ends.
#[derive(Debug)]
pub struct CaptureMatches<'r, 'h> {
    haystack: &'h [u8],
    names: &'r Arc<Names>,
    state: State<'r>,
}

/// A match, and the offsets of its groups.
type Row = (sys::Match, Vec<usize>);

#[derive(Debug)]
enum State<'r> {
    /// No search was made yet.
    Begun(&'r Pool),
    /// A match ended at this offset, and the next is searched for when it is asked for.
    Searching {
        searcher: Searcher<'r>,
        end: usize,
        is_utf8: bool,
    },
    Ended,
}

impl<'r, 'h> CaptureMatches<'r, 'h> {
    pub(crate) fn new(pool: &'r Pool, haystack: &'h [u8]) -> CaptureMatches<'r, 'h> {
        CaptureMatches { haystack, names: pool.names(), state: State::Begun(pool) }
    }

    /// Makes the first search. In UTF-8 mode each search checks the whole haystack, so one search does that, and handles
    /// that don't check it find the matches.
    fn begin(&mut self, pool: &'r Pool) -> Result<Option<Row>, Error> {
        let is_utf8 = pool.is_utf8();
        if is_utf8 && !Searcher::new(pool)?.handle.is_match(self.haystack)? {
            return Ok(None);
        }
        let mut searcher = Searcher::new(pool.unchecked()?)?;
        let found = search_from(&mut searcher, self.haystack, 0, is_utf8)?;
        if let Some((it, _)) = &found {
            self.state = State::Searching { searcher, end: it.end, is_utf8 };
        }
        Ok(found)
    }

    fn advance(&mut self) -> Result<Option<Row>, Error> {
        match &mut self.state {
            State::Searching { searcher, end, is_utf8 } => {
                let found = search_after(searcher, self.haystack, *end, *is_utf8)?;
                *end = found.as_ref().map_or(*end, |(it, _)| it.end);
                Ok(found)
            }
            State::Begun(pool) => {
                let pool = *pool;
                self.begin(pool)
            }
            State::Ended => Ok(None),
        }
    }
}

/// Searches from an offset on.
pub(crate) fn search(searcher: &mut Searcher<'_>, haystack: &[u8], start: usize) -> Result<Option<Row>, Error> {
    let count = searcher.pool().slot_count();
    let mut slots = with_room(count)?;
    slots.resize(count, sys::NO_OFFSET);
    let found = searcher.handle.captures_at(haystack, start, &mut slots)?;
    Ok(found.map(|it| (it, slots)))
}

/// Searches from an offset on. In UTF-8 mode an empty match inside a character is skipped.
fn search_from(
    searcher: &mut Searcher<'_>,
    haystack: &[u8],
    mut start: usize,
    is_utf8: bool,
) -> Result<Option<Row>, Error> {
    loop {
        match search(searcher, haystack, start)? {
            Some((found, _)) if is_utf8 && is_inside_character(haystack, found.start) => start = found.start + 1,
            found => return Ok(found),
        }
    }
}

/// Whether a byte of UTF-8 isn't the first one of its character.
fn is_inside_character(haystack: &[u8], offset: usize) -> bool {
    haystack.get(offset).map_or(false, |it| it & 0xC0 == 0x80)
}

/// Searches for the match that follows one that ended at this offset: an empty one at that offset is skipped.
fn search_after(searcher: &mut Searcher<'_>, haystack: &[u8], end: usize, is_utf8: bool) -> Result<Option<Row>, Error> {
    match search_from(searcher, haystack, end, is_utf8)? {
        Some((found, _)) if found.end == end && end == haystack.len() => Ok(None),
        Some((found, _)) if found.end == end => search_from(searcher, haystack, end + 1, is_utf8),
        found => Ok(found),
    }
}

impl<'h> Iterator for CaptureMatches<'_, 'h> {
    type Item = Result<Captures<'h>, Error>;

    fn next(&mut self) -> Option<Self::Item> {
        match self.advance() {
            Ok(Some((row, slots))) => Some(Ok(Captures::new(self.haystack, row.pattern, slots, self.names))),
            outcome => {
                self.state = State::Ended;
                outcome.err().map(Err)
            }
        }
    }
}

impl FusedIterator for CaptureMatches<'_, '_> {}
