//! Why a call failed.

use crate::sys;
use std::fmt;
use std::ops::Range;

/// Why a regex can't be made, or why a search failed.
///
/// [`kind`](Error::kind) is what happened. The other methods return what the kind comes with, such as the part of the
/// pattern that has a syntax error. As text, an error is its message and these numbers.
///
/// ```
/// use hanneddois::{ErrorKind, Regex};
///
/// let error = Regex::new("a(b").unwrap_err();
/// assert_eq!(error.kind(), ErrorKind::Syntax);
/// assert_eq!(error.span(), Some(1..2));
/// assert_eq!(error.message(), "unclosed group");
/// assert_eq!(error.to_string(), "unclosed group (pattern 0, bytes 1..2)");
/// ```
#[derive(Clone, Copy, PartialEq, Eq)]
pub struct Error(pub(crate) sys::Error);

/// What happened. A later version of the library may report other kinds.
#[derive(Clone, Copy, Debug, PartialEq, Eq, Hash)]
#[non_exhaustive]
pub enum ErrorKind {
    /// An argument isn't one that the call takes, such as an offset after the end of the haystack.
    BadArgument,
    /// An allocation failed. A search may be tried again.
    NoMemory,
    /// A pattern has a syntax error.
    Syntax,
    /// A pattern nests deeper than [`nest_limit`](crate::RegexBuilder::nest_limit) allows.
    NestsTooDeep,
    /// A pattern has an unbounded repetition whose body can match the empty string, as `(a*)*`. The option
    /// [`empty_loops`](crate::RegexBuilder::empty_loops) accepts it.
    EmptyLoop,
    /// The automata take more bytes than [`size_limit`](crate::RegexBuilder::size_limit) allows. From a search: the
    /// slower regexes that it needs are too large.
    TooLarge,
    /// A cache may take fewer bytes than it needs: see [`dfa_size_limit`](crate::RegexBuilder::dfa_size_limit).
    CapacityTooSmall,
    /// A pattern for a [`StreamSet`](crate::StreamSet) has a Unicode word boundary.
    WordBoundary,
    /// A [`Stream`](crate::Stream) was closed, and not reset since then.
    Closed,
    /// The haystack isn't UTF-8, and the regex is made with [`utf8`](crate::RegexBuilder::utf8).
    HaystackNotUtf8,
    /// Anything else. [`status`](Error::status) has its number.
    Other,
}

impl Error {
    pub(crate) fn of(status: u32) -> Error {
        Error(sys::Error { status, ..sys::Error::default() })
    }

    /// What happened.
    pub fn kind(&self) -> ErrorKind {
        match self.0.status {
            sys::BAD_ARGUMENT => ErrorKind::BadArgument,
            sys::NO_MEMORY => ErrorKind::NoMemory,
            sys::SYNTAX_ERROR => ErrorKind::Syntax,
            sys::NESTS_TOO_DEEP => ErrorKind::NestsTooDeep,
            sys::EMPTY_LOOP => ErrorKind::EmptyLoop,
            sys::TOO_LARGE => ErrorKind::TooLarge,
            sys::CAPACITY_TOO_SMALL => ErrorKind::CapacityTooSmall,
            sys::WORD_BOUNDARY => ErrorKind::WordBoundary,
            sys::CLOSED => ErrorKind::Closed,
            sys::HAYSTACK_NOT_UTF8 => ErrorKind::HaystackNotUtf8,
            _ => ErrorKind::Other,
        }
    }

    /// The number of the pattern that is rejected, counted from 0.
    pub fn pattern(&self) -> Option<usize> {
        let is_of_pattern = matches!(
            self.0.status,
            sys::NOT_UTF8 | sys::SYNTAX_ERROR | sys::NESTS_TOO_DEEP | sys::EMPTY_LOOP | sys::WORD_BOUNDARY
        );
        is_of_pattern.then_some(self.0.pattern)
    }

    /// The bytes of the pattern at which it has a syntax error, or nests too deep.
    pub fn span(&self) -> Option<Range<usize>> {
        let has_span = matches!(self.0.status, sys::SYNTAX_ERROR | sys::NESTS_TOO_DEEP);
        has_span.then_some(self.0.start..self.0.end)
    }

    /// The offset in the haystack at which it stops being UTF-8.
    pub fn offset(&self) -> Option<usize> {
        (self.0.status == sys::HAYSTACK_NOT_UTF8).then_some(self.0.start)
    }

    /// How many bytes the automata may take, or how many a cache needs.
    pub fn limit(&self) -> Option<usize> {
        (self.0.limit > 0).then_some(self.0.limit)
    }

    /// The number of what happened, as `hanneddois_status` of the C header.
    pub fn status(&self) -> u32 {
        self.0.status
    }

    /// The number of what is wrong with a pattern, as the field `cause` of the C header; 0 for other errors.
    pub fn cause(&self) -> u32 {
        self.0.cause
    }

    /// The message without numbers, such as `unclosed group`.
    pub fn message(&self) -> String {
        let mut bytes = [0; 256];
        // SAFETY: the error is one, and the buffer has the length that is passed with it.
        let length = unsafe { sys::hanneddois_error_text(&self.0, bytes.as_mut_ptr(), bytes.len()) };
        String::from_utf8_lossy(&bytes[..length.min(bytes.len())]).into_owned()
    }
}

impl fmt::Display for Error {
    fn fmt(&self, f: &mut fmt::Formatter<'_>) -> fmt::Result {
        f.write_str(&self.message())?;
        match (self.pattern(), self.span(), self.offset(), self.limit()) {
            (Some(pattern), Some(span), _, _) => write!(f, " (pattern {pattern}, bytes {}..{})", span.start, span.end),
            (Some(pattern), _, _, _) => write!(f, " (pattern {pattern})"),
            (_, _, Some(offset), _) => write!(f, " (offset {offset})"),
            (_, _, _, Some(limit)) => write!(f, " ({limit} bytes)"),
            _ => Ok(()),
        }
    }
}

impl fmt::Debug for Error {
    fn fmt(&self, f: &mut fmt::Formatter<'_>) -> fmt::Result {
        write!(f, "Error({:?}: {self})", self.kind())
    }
}

impl std::error::Error for Error {}
