//! What matches are replaced by.

use crate::captures::Captures;
use std::borrow::Cow;
use std::fmt;

/// What replaces a match: a template, a function of its groups, or text by [`NoExpand`].
///
/// In a template `$1`, `$name` and `${name}` stand for groups and `$$` for a dollar sign, as in the crate `regex`. A
/// name without braces is the longest one of ASCII letters, digits and `_`.
pub trait Replacer {
    /// Appends what replaces the match.
    fn replace_append(&mut self, captures: &Captures<'_>, to: &mut Vec<u8>);

    /// What replaces each match, if that doesn't depend on its groups. Then groups aren't searched for.
    fn no_expansion(&mut self) -> Option<Vec<u8>> {
        None
    }

    /// The template that this replacement is, if it is one. Then one call of the library replaces all matches.
    fn template(&mut self) -> Option<Vec<u8>> {
        None
    }

    /// This replacement, borrowed, so that it can be used again.
    fn by_ref(&mut self) -> ReplacerRef<'_, Self> {
        ReplacerRef(self)
    }
}

/// A replacement that is borrowed, as [`Replacer::by_ref`] returns it.
pub struct ReplacerRef<'r, R: ?Sized>(&'r mut R);

impl<R: ?Sized> fmt::Debug for ReplacerRef<'_, R> {
    fn fmt(&self, f: &mut fmt::Formatter<'_>) -> fmt::Result {
        f.write_str("ReplacerRef")
    }
}

impl<R: Replacer + ?Sized> Replacer for ReplacerRef<'_, R> {
    fn replace_append(&mut self, captures: &Captures<'_>, to: &mut Vec<u8>) {
        self.0.replace_append(captures, to);
    }

    fn no_expansion(&mut self) -> Option<Vec<u8>> {
        self.0.no_expansion()
    }

    fn template(&mut self) -> Option<Vec<u8>> {
        self.0.template()
    }
}

/// Text that replaces a match as it is: a dollar sign in it has no meaning.
#[derive(Clone, Copy, Debug)]
pub struct NoExpand<'t>(pub &'t [u8]);

impl Replacer for NoExpand<'_> {
    fn replace_append(&mut self, _: &Captures<'_>, to: &mut Vec<u8>) {
        to.extend_from_slice(self.0);
    }

    fn no_expansion(&mut self) -> Option<Vec<u8>> {
        Some(self.0.to_vec())
    }
}

macro_rules! template {
    ($($kind:ty),*) => {$(
        impl Replacer for $kind {
            fn replace_append(&mut self, captures: &Captures<'_>, to: &mut Vec<u8>) {
                let bytes: &[u8] = self.as_ref();
                expand(captures, bytes, to);
            }

            fn no_expansion(&mut self) -> Option<Vec<u8>> {
                let bytes: &[u8] = self.as_ref();
                (!bytes.contains(&b'$')).then(|| bytes.to_vec())
            }

            fn template(&mut self) -> Option<Vec<u8>> {
                let bytes: &[u8] = self.as_ref();
                Some(bytes.to_vec())
            }
        }
    )*};
}
template!(&[u8], Vec<u8>, &Vec<u8>, Cow<'_, [u8]>, &Cow<'_, [u8]>, &str, String, &String);

macro_rules! template_of_array {
    ($($kind:ty),*) => {$(
        impl<const N: usize> Replacer for $kind {
            fn replace_append(&mut self, captures: &Captures<'_>, to: &mut Vec<u8>) {
                (&self[..]).replace_append(captures, to);
            }

            fn no_expansion(&mut self) -> Option<Vec<u8>> {
                (&self[..]).no_expansion()
            }

            fn template(&mut self) -> Option<Vec<u8>> {
                Some(self.to_vec())
            }
        }
    )*};
}
template_of_array!([u8; N], &[u8; N]);

impl<F, T> Replacer for F
where
    F: FnMut(&Captures<'_>) -> T,
    T: AsRef<[u8]>,
{
    fn replace_append(&mut self, captures: &Captures<'_>, to: &mut Vec<u8>) {
        to.extend_from_slice(self(captures).as_ref());
    }
}

/// Appends a template with its references replaced.
pub(crate) fn expand(captures: &Captures<'_>, mut template: &[u8], to: &mut Vec<u8>) {
    while let Some(at) = template.iter().position(|it| *it == b'$') {
        to.extend_from_slice(&template[..at]);
        template = &template[at..];
        if template.get(1) == Some(&b'$') {
            to.push(b'$');
            template = &template[2..];
        } else if let Some((name, length)) = reference(template) {
            let group = name.parse().map_or_else(|_| captures.name(name), |number: usize| captures.get(number));
            to.extend_from_slice(group.map_or(&b""[..], |it| it.as_bytes()));
            template = &template[length..];
        } else {
            to.push(b'$');
            template = &template[1..];
        }
    }
    to.extend_from_slice(template);
}

/// The name that a reference at the start of a template has, and how many bytes the reference takes.
fn reference(template: &[u8]) -> Option<(&str, usize)> {
    let (name, length) = if template.get(1) == Some(&b'{') {
        let end = template.iter().position(|it| *it == b'}')?;
        (&template[2..end], end + 1)
    } else {
        let is_name = |it: &u8| it.is_ascii_alphanumeric() || *it == b'_';
        let end = 1 + template[1..].iter().take_while(|it| is_name(it)).count();
        (&template[1..end], end)
    };
    let name = std::str::from_utf8(name).ok()?;
    (!name.is_empty() || template.get(1) == Some(&b'{')).then_some((name, length))
}
