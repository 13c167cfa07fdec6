//! The handles of a regex. A handle serves one search at a time, so a regex that threads share has several.

use crate::captures::{self, Captures, Names};
use crate::error::Error;
use crate::handle::{with_room, Handle};
use crate::matches::Match;
use crate::set::SetMatches;
use crate::sys;
use std::ffi::c_void;
use std::sync::atomic::{AtomicPtr, Ordering};
use std::sync::{Arc, Mutex, MutexGuard, PoisonError};

/// The patterns and options of a regex, and those of its handles that no search uses at the moment.
#[derive(Debug)]
pub(crate) struct Pool {
    patterns: Vec<String>,
    options: sys::Options,
    names: Arc<Names>,
    /// What the first handle owns, or null while a search uses it. One thread alone needs only this one, and takes it
    /// without a lock.
    first: AtomicPtr<c_void>,
    others: Mutex<Others>,
    /// In UTF-8 mode handles of the same patterns without that mode, or null until they are needed. The pool owns them, and
    /// nothing changes the pointer from then on.
    unchecked: AtomicPtr<Pool>,
}

/// What further threads search with.
#[derive(Debug)]
struct Others {
    /// The handle that was compiled. It does no search, and others are cloned of it.
    compiled: Handle,
    idle: Vec<Handle>,
}

impl Pool {
    pub(crate) fn new(patterns: Vec<String>, options: sys::Options) -> Result<Pool, Error> {
        let mut compiled = Handle::new(&patterns, &options)?;
        let names = Arc::new((0..patterns.len()).map(|pattern| compiled.group_names(pattern)).collect());
        let first = AtomicPtr::new(compiled.try_clone()?.into_raw());
        let others = Mutex::new(Others { compiled, idle: Vec::new() });
        Ok(Pool { patterns, options, names, first, others, unchecked: AtomicPtr::default() })
    }

    pub(crate) fn patterns(&self) -> &[String] {
        &self.patterns
    }

    pub(crate) fn names(&self) -> &Arc<Names> {
        &self.names
    }

    /// How many slots the groups of any pattern take.
    pub(crate) fn slot_count(&self) -> usize {
        2 * self.names.iter().map(Vec::len).max().unwrap_or(0)
    }

    pub(crate) fn is_utf8(&self) -> bool {
        self.options.flags & sys::UTF8 != 0
    }

    /// Handles that don't check their haystacks. What is no UTF-8 must not be searched with them in UTF-8 mode.
    pub(crate) fn unchecked(&self) -> Result<&Pool, Error> {
        if !self.is_utf8() {
            return Ok(self);
        }
        let mut pool = self.unchecked.load(Ordering::Acquire);
        if pool.is_null() {
            let options = sys::Options { flags: self.options.flags & !sys::UTF8, ..self.options };
            let made = Box::into_raw(Box::new(Pool::new(self.patterns.clone(), options)?));
            let null = std::ptr::null_mut();
            pool = match self.unchecked.compare_exchange(null, made, Ordering::AcqRel, Ordering::Acquire) {
                Ok(_) => made,
                Err(other) => {
                    // SAFETY: another thread was faster, so nobody else knows this box.
                    drop(unsafe { Box::from_raw(made) });
                    other
                }
            };
        }
        // SAFETY: the pointer comes from a box, which only `drop` frees.
        Ok(unsafe { &*pool })
    }

    /// Takes the first handle, if no search uses it.
    #[inline]
    fn take_first(&self) -> Option<Handle> {
        let first = self.first.swap(std::ptr::null_mut(), Ordering::Acquire);
        // SAFETY: the pointer was stored by `new` or `put_first`, and was taken out by this call alone.
        (!first.is_null()).then(|| unsafe { Handle::from_raw(first) })
    }

    /// Puts the first handle back. Only who took it does this, so the pointer is null before.
    #[inline]
    fn put_first(&self, handle: Handle) {
        self.first.store(handle.into_raw(), Ordering::Release);
    }

    /// Takes another handle, or clones one if all are in use.
    fn take_other(&self) -> Result<Handle, Error> {
        let mut others = self.others();
        match others.idle.pop() {
            Some(handle) => Ok(handle),
            None => others.compiled.try_clone(),
        }
    }

    fn put_other(&self, handle: Handle) {
        let idle = &mut self.others().idle;
        // Without memory for it in the list, the handle is freed.
        if idle.try_reserve(1).is_ok() {
            idle.push(handle);
        }
    }

    /// No call panics while it has the lock, so the list is whole also if the lock is poisoned.
    fn others(&self) -> MutexGuard<'_, Others> {
        self.others.lock().unwrap_or_else(PoisonError::into_inner)
    }
}

impl Drop for Pool {
    fn drop(&mut self) {
        // SAFETY: as in `take_first`.
        drop(unsafe { Handle::from_raw(*self.first.get_mut()) });
        let unchecked = *self.unchecked.get_mut();
        if !unchecked.is_null() {
            // SAFETY: the pointer comes from a box, and nobody borrows the pool any more.
            drop(unsafe { Box::from_raw(unchecked) });
        }
    }
}

/// A regex with caches of its own, for one thread and many short haystacks.
///
/// Each search of a [`Regex`](crate::Regex) takes caches from a pool and puts them back. A searcher does so once, when
/// it is made and dropped. It can be sent to another thread, but not be shared.
///
/// ```
/// # fn main() -> Result<(), hanneddois::Error> {
/// let regex = hanneddois::Regex::new("ERROR|WARN")?;
/// let mut searcher = regex.searcher()?;
/// let mut count = 0;
/// for line in ["one ERROR", "two", "three WARN"] {
///     count += usize::from(searcher.is_match(line.as_bytes())?);
/// }
/// assert_eq!(count, 2);
/// # Ok(())
/// # }
/// ```
#[derive(Debug)]
pub struct Searcher<'r> {
    pool: &'r Pool,
    /// Whether the handle is the first one of the pool.
    has_first: bool,
    pub(crate) handle: Handle,
}

impl<'r> Searcher<'r> {
    #[inline]
    pub(crate) fn new(pool: &'r Pool) -> Result<Searcher<'r>, Error> {
        let first = pool.take_first();
        let has_first = first.is_some();
        let handle = first.map_or_else(|| pool.take_other(), Ok)?;
        Ok(Searcher { pool, has_first, handle })
    }

    /// Whether there is a match, as [`Regex::is_match`](crate::Regex::is_match).
    pub fn is_match(&mut self, haystack: &[u8]) -> Result<bool, Error> {
        self.handle.is_match(haystack)
    }

    /// The leftmost match, as [`Regex::find`](crate::Regex::find).
    pub fn find<'h>(&mut self, haystack: &'h [u8]) -> Result<Option<Match<'h>>, Error> {
        self.find_at(haystack, 0)
    }

    /// The leftmost match from an offset on, as [`Regex::find_at`](crate::Regex::find_at).
    pub fn find_at<'h>(&mut self, haystack: &'h [u8], start: usize) -> Result<Option<Match<'h>>, Error> {
        let found = self.handle.find_at(haystack, start)?;
        Ok(found.map(|it| Match::new(haystack, it)))
    }

    pub(crate) fn pool(&self) -> &'r Pool {
        self.pool
    }

    /// The leftmost match with its groups, as [`Regex::captures`](crate::Regex::captures).
    pub fn captures<'h>(&mut self, haystack: &'h [u8]) -> Result<Option<Captures<'h>>, Error> {
        self.captures_at(haystack, 0)
    }

    /// The leftmost match from an offset on with its groups, as [`Regex::captures_at`](crate::Regex::captures_at).
    pub fn captures_at<'h>(&mut self, haystack: &'h [u8], start: usize) -> Result<Option<Captures<'h>>, Error> {
        let found = captures::search(self, haystack, start)?;
        Ok(found.map(|(it, slots)| Captures::new(haystack, it.pattern, slots, self.pool.names())))
    }

    /// All matches in a list, as [`Regex::find_all`](crate::Regex::find_all).
    pub fn find_all<'h>(&mut self, haystack: &'h [u8]) -> Result<Vec<Match<'h>>, Error> {
        let (rows, outcome) = self.handle.find_all(haystack);
        outcome?;
        let mut matches = with_room(rows.len())?;
        matches.extend(rows.into_iter().map(|it| Match::new(haystack, it)));
        Ok(matches)
    }

    /// Which patterns match, as [`Regex::matching_patterns`](crate::Regex::matching_patterns).
    pub fn matching_patterns(&mut self, haystack: &[u8]) -> Result<SetMatches, Error> {
        let count = self.pool.patterns.len();
        let mut marks = with_room(count)?;
        marks.resize(count, 0);
        let matched = self.handle.mark_matching(haystack, &mut marks)?;
        Ok(SetMatches::new(marks, matched))
    }

    /// An estimate of how many bytes the caches need now.
    pub fn memory_usage(&mut self) -> usize {
        self.handle.memory_usage()
    }

    /// How often the caches were cleared since they were made, also those that larger ones have replaced.
    pub fn clear_count(&mut self) -> usize {
        self.handle.clear_count()
    }
}

impl Drop for Searcher<'_> {
    fn drop(&mut self) {
        let handle = std::mem::replace(&mut self.handle, Handle::empty());
        if self.has_first {
            self.pool.put_first(handle);
        } else {
            self.pool.put_other(handle);
        }
    }
}
