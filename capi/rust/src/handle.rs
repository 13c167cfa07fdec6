//! A `hanneddois_regex`, used by the rules of the header: it begins empty, one caller at a time uses it, and it is
//! freed once.

use crate::error::Error;
use crate::sys;
use std::ffi::c_void;

/// The first list of matches has room for one match in so many bytes of the haystack.
const BYTES_PER_ROW: usize = 8;
/// It has at least the first number of rows, and at most the second one, which take 100 MB of addresses. The system
/// gives memory only for rows that are written. If there are more matches, the haystack is searched a second time.
const ROWS: (usize, usize) = (64, 1 << 22);

/// A compiled regex with its caches, or nothing.
#[derive(Debug)]
pub(crate) struct Handle(sys::Regex);

// SAFETY: any thread may use a regex, if no two do at the same time. Each call takes `&mut self`, so no two do. Clones
// may be used at the same time as what they were cloned of.
unsafe impl Send for Handle {}

/// Whether the call found something, by its status.
#[inline]
fn outcome(status: u32, error: sys::Error) -> Result<bool, Error> {
    match status {
        sys::OK => Ok(true),
        sys::NONE => Ok(false),
        _ => Err(Error(error)),
    }
}

/// An empty vector with room for so many elements.
pub(crate) fn with_room<T>(count: usize) -> Result<Vec<T>, Error> {
    let mut vec = Vec::new();
    vec.try_reserve_exact(count).map_err(|_| Error::of(sys::NO_MEMORY))?;
    Ok(vec)
}

impl Handle {
    /// A handle that holds nothing. Each search of it fails.
    pub(crate) fn empty() -> Handle {
        Handle(sys::Regex { inside: std::ptr::null_mut() })
    }

    /// Compiles patterns.
    pub(crate) fn new(patterns: &[String], options: &sys::Options) -> Result<Handle, Error> {
        let mut bytes: Vec<u8> = with_room(patterns.iter().map(String::len).sum())?;
        let mut lengths: Vec<usize> = with_room(patterns.len())?;
        for pattern in patterns {
            bytes.extend_from_slice(pattern.as_bytes());
            lengths.push(pattern.len());
        }
        let mut handle = Handle::empty();
        let mut error = sys::Error::default();
        // SAFETY: the handle is empty, and each slice has the length that is passed with it. So it is in the calls
        // below.
        let status = unsafe {
            sys::hanneddois_new(
                &mut handle.0,
                bytes.as_ptr(),
                bytes.len(),
                lengths.as_ptr(),
                lengths.len(),
                options,
                &mut error,
            )
        };
        outcome(status, error).map(|_| handle)
    }

    /// A second handle of the same regex, with caches of its own. Nothing is compiled.
    pub(crate) fn try_clone(&mut self) -> Result<Handle, Error> {
        let mut clone = Handle::empty();
        // SAFETY: as in `new`. The handles are two.
        match unsafe { sys::hanneddois_clone(&mut self.0, &mut clone.0) } {
            sys::OK => Ok(clone),
            status => Err(Error::of(status)),
        }
    }

    /// What the handle holds, as the pointer that owns it. It is null for an empty handle.
    pub(crate) fn into_raw(self) -> *mut c_void {
        let inside = self.0.inside;
        std::mem::forget(self);
        inside
    }

    /// Makes a handle of a pointer.
    ///
    /// # Safety
    ///
    /// The pointer has to come from `into_raw`, and no other handle may be made of it.
    pub(crate) unsafe fn from_raw(inside: *mut c_void) -> Handle {
        Handle(sys::Regex { inside })
    }

    #[inline]
    pub(crate) fn is_match(&mut self, haystack: &[u8]) -> Result<bool, Error> {
        let mut error = sys::Error::default();
        // SAFETY: as in `new`.
        let status = unsafe { sys::hanneddois_is_match(&mut self.0, haystack.as_ptr(), haystack.len(), &mut error) };
        outcome(status, error)
    }

    #[inline]
    pub(crate) fn find_at(&mut self, haystack: &[u8], from: usize) -> Result<Option<sys::Match>, Error> {
        let mut found = sys::Match::default();
        let mut error = sys::Error::default();
        // SAFETY: as in `new`.
        let status = unsafe {
            sys::hanneddois_find_at(&mut self.0, haystack.as_ptr(), haystack.len(), from, &mut found, &mut error)
        };
        Ok(outcome(status, error)?.then_some(found))
    }

    /// The match that follows one that ended at this offset: an empty one at that offset is skipped.
    #[inline]
    pub(crate) fn find_after(&mut self, haystack: &[u8], end: usize) -> Result<Option<sys::Match>, Error> {
        match self.find_at(haystack, end)? {
            Some(found) if found.end == end && end == haystack.len() => Ok(None),
            Some(found) if found.end == end => self.find_at(haystack, end + 1),
            found => Ok(found),
        }
    }

    /// All matches. After an error, the list has those before the search that failed.
    pub(crate) fn find_all(&mut self, haystack: &[u8]) -> (Vec<sys::Match>, Result<(), Error>) {
        let mut room = (haystack.len() / BYTES_PER_ROW).clamp(ROWS.0, ROWS.1);
        loop {
            let mut rows = match with_room(room) {
                Ok(rows) => rows,
                Err(error) => return (Vec::new(), Err(error)),
            };
            let mut count = 0;
            let mut error = sys::Error::default();
            // SAFETY: as in `new`. The call writes rows, and reads none.
            let status = unsafe {
                sys::hanneddois_find_all(
                    &mut self.0,
                    haystack.as_ptr(),
                    haystack.len(),
                    rows.as_mut_ptr(),
                    rows.capacity(),
                    &mut count,
                    &mut error,
                )
            };
            if count <= rows.capacity() {
                // SAFETY: the call wrote this many rows.
                unsafe { rows.set_len(count) };
                return (rows, outcome(status, error).map(|_| ()));
            }
            room = count;
        }
    }

    /// The next match, and the offsets of its groups as far as there is room.
    pub(crate) fn captures_at(
        &mut self,
        haystack: &[u8],
        from: usize,
        slots: &mut [usize],
    ) -> Result<Option<sys::Match>, Error> {
        let mut found = sys::Match::default();
        let mut error = sys::Error::default();
        // SAFETY: as in `new`.
        let status = unsafe {
            sys::hanneddois_captures(
                &mut self.0,
                haystack.as_ptr(),
                haystack.len(),
                from,
                &mut found,
                slots.as_mut_ptr(),
                slots.len(),
                &mut error,
            )
        };
        Ok(outcome(status, error)?.then_some(found))
    }

    /// The haystack with the first matches replaced, as many as `limit`, or with all of them replaced if that is 0. It is
    /// `None` without a match.
    pub(crate) fn replace_all(
        &mut self,
        haystack: &[u8],
        by: &[u8],
        limit: usize,
        flags: u32,
    ) -> Result<Option<Vec<u8>>, Error> {
        let mut room = haystack.len().saturating_add(haystack.len() / 8 + 64);
        loop {
            let mut output: Vec<u8> = with_room(room)?;
            let (mut length, mut count) = (0, 0);
            let mut error = sys::Error::default();
            // SAFETY: as in `new`. The call writes the output, and reads none of it.
            let status = unsafe {
                sys::hanneddois_replace_all(
                    &mut self.0,
                    haystack.as_ptr(),
                    haystack.len(),
                    by.as_ptr(),
                    by.len(),
                    limit,
                    flags,
                    output.as_mut_ptr(),
                    output.capacity(),
                    &mut length,
                    &mut count,
                    &mut error,
                )
            };
            if status == sys::OUTPUT_TOO_SMALL {
                room = length;
                continue;
            }
            let is_replaced = outcome(status, error)?;
            // SAFETY: the call wrote this many bytes.
            unsafe { output.set_len(length) };
            return Ok(is_replaced.then_some(output));
        }
    }

    /// The names of the groups of a pattern, by their numbers.
    pub(crate) fn group_names(&mut self, pattern: usize) -> Vec<Option<String>> {
        // SAFETY: as in `new`.
        let count = unsafe { sys::hanneddois_group_count(&mut self.0, pattern) };
        (0..count).map(|group| self.group_name(pattern, group)).collect()
    }

    fn group_name(&mut self, pattern: usize, group: usize) -> Option<String> {
        let mut name = vec![0; 64];
        loop {
            // SAFETY: as in `new`.
            let length =
                unsafe { sys::hanneddois_group_name(&mut self.0, pattern, group, name.as_mut_ptr(), name.len()) };
            if length <= name.len() {
                name.truncate(length);
                return String::from_utf8(name).ok().filter(|it| !it.is_empty());
            }
            name.resize(length, 0);
        }
    }

    /// Marks the patterns that match anywhere by 1, and the others by 0. Returns how many match.
    pub(crate) fn mark_matching(&mut self, haystack: &[u8], marks: &mut [u8]) -> Result<usize, Error> {
        let mut count = 0;
        let mut error = sys::Error::default();
        // SAFETY: as in `new`.
        let status = unsafe {
            sys::hanneddois_matching_patterns(
                &mut self.0,
                haystack.as_ptr(),
                haystack.len(),
                marks.as_mut_ptr(),
                marks.len(),
                &mut count,
                &mut error,
            )
        };
        outcome(status, error).map(|_| count)
    }

    pub(crate) fn memory_usage(&mut self) -> usize {
        // SAFETY: as in `new`.
        unsafe { sys::hanneddois_memory_usage(&mut self.0) }
    }

    pub(crate) fn clear_count(&mut self) -> usize {
        // SAFETY: as in `new`.
        unsafe { sys::hanneddois_clear_count(&mut self.0) }
    }
}

impl Drop for Handle {
    fn drop(&mut self) {
        // Searchers leave empty handles, which need no call.
        if !self.0.inside.is_null() {
            // SAFETY: the handle owns what it holds, and isn't used any more.
            unsafe { sys::hanneddois_free(&mut self.0) }
        }
    }
}
