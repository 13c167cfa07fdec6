#![doc = include_str!("../README.md")]
#![warn(missing_docs, missing_debug_implementations)]

mod builders;
mod captures;
mod error;
mod handle;
mod matches;
mod pool;
mod regex;
mod replace;
mod set;
mod stream;
mod sys;

pub use builders::{RegexBuilder, RegexSetBuilder};
pub use captures::{CaptureMatches, Captures};
pub use error::{Error, ErrorKind};
pub use matches::{Match, Matches, Split};
pub use pool::Searcher;
pub use regex::Regex;
pub use replace::{NoExpand, Replacer, ReplacerRef};
pub use set::{RegexSet, SetMatches, SetMatchesIntoIter, SetMatchesIter};
pub use stream::{Stream, StreamEnd, StreamSet};

/// The version of the library: 10000 times the major number, 100 times the minor one, and the patch.
pub fn version() -> u32 {
    // SAFETY: the call takes nothing.
    unsafe { sys::hanneddois_version() }
}

/// What the types don't allow. Each of these examples has to fail to compile.
///
/// A match can't outlive its haystack:
///
/// ```compile_fail,E0597
/// let regex = hanneddois::Regex::new("a").unwrap();
/// let found = {
///     let haystack = b"a".to_vec();
///     regex.find(&haystack).unwrap()
/// };
/// assert!(found.is_some());
/// ```
///
/// An iterator can't outlive its regex:
///
/// ```compile_fail,E0597
/// let matches = {
///     let regex = hanneddois::Regex::new("a").unwrap();
///     regex.find_iter(b"a")
/// };
/// assert_eq!(matches.count(), 1);
/// ```
///
/// A haystack can't change while it is searched:
///
/// ```compile_fail,E0502
/// let regex = hanneddois::Regex::new("a").unwrap();
/// let mut haystack = b"aa".to_vec();
/// for found in regex.find_iter(&haystack) {
///     haystack.push(b'b');
///     found.unwrap();
/// }
/// ```
///
/// Two threads can't share a searcher:
///
/// ```compile_fail,E0277
/// fn share<T: Sync>(_: T) {}
/// let regex = hanneddois::Regex::new("a").unwrap();
/// share(regex.searcher().unwrap());
/// ```
#[cfg(doctest)]
struct Misuse;
