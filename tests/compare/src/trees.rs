//! What is seen of patterns as that crate's parser reads them.

use crate::settings::Settings;
use regex_syntax::hir::{Class, GroupKind, Hir, HirKind, Literal, Repetition, RepetitionKind, RepetitionRange, WordBoundary};
use regex_syntax::ParserBuilder;

/// The tree of a pattern, where that crate's grammar reads it.
pub fn tree_of(pattern: &str, settings: &Settings) -> Option<Hir> {
    let mut builder = ParserBuilder::new();
    builder.allow_invalid_utf8(!settings.utf8);
    builder.build().parse(&settings.spelled(pattern)).ok()
}

/// The least and the most rounds of a repetition; no most where it has no bound.
pub fn rounds_of(repetition: &Repetition) -> (u32, Option<u32>) {
    match repetition.kind {
        RepetitionKind::ZeroOrOne => (0, Some(1)),
        RepetitionKind::ZeroOrMore => (0, None),
        RepetitionKind::OneOrMore => (1, None),
        RepetitionKind::Range(RepetitionRange::Exactly(n)) => (n, Some(n)),
        RepetitionKind::Range(RepetitionRange::AtLeast(n)) => (n, None),
        RepetitionKind::Range(RepetitionRange::Bounded(n, m)) => (n, Some(m)),
    }
}

/// The trees right below one.
pub fn parts_of(tree: &Hir) -> Vec<&Hir> {
    match tree.kind() {
        HirKind::Repetition(it) => vec![&it.hir],
        HirKind::Group(it) => vec![&it.hir],
        HirKind::Concat(parts) | HirKind::Alternation(parts) => parts.iter().collect(),
        _ => Vec::new(),
    }
}

/// How many bytes what a tree matches has at least, whatever looks say; none where it matches nothing.
pub fn least_length(tree: &Hir) -> Option<usize> {
    match tree.kind() {
        HirKind::Empty | HirKind::Anchor(_) | HirKind::WordBoundary(_) => Some(0),
        HirKind::Literal(Literal::Unicode(c)) => Some(c.len_utf8()),
        HirKind::Literal(Literal::Byte(_)) => Some(1),
        HirKind::Class(Class::Unicode(it)) => it.ranges().first().map(|range| range.start().len_utf8()),
        HirKind::Class(Class::Bytes(it)) => it.ranges().first().map(|_| 1),
        HirKind::Group(it) => least_length(&it.hir),
        HirKind::Concat(parts) => parts.iter().map(least_length).sum(),
        HirKind::Alternation(parts) => parts.iter().filter_map(least_length).min(),
        HirKind::Repetition(it) => match rounds_of(it).0 {
            0 => Some(0),
            rounds => least_length(&it.hir).map(|length| length * rounds as usize),
        },
    }
}

/// Whether all that it matches is empty, seen by its form.
fn is_always_empty(tree: &Hir) -> bool {
    match tree.kind() {
        HirKind::Literal(_) | HirKind::Class(_) => false,
        HirKind::Repetition(it) if rounds_of(it).1 == Some(0) => true,
        _ => parts_of(tree).into_iter().all(is_always_empty),
    }
}

/// Whether a repetition without a bound has a body that may match the empty text, or matches nothing. Where all that
/// the body matches is empty, the grammars take one round in place of many.
pub fn has_empty_loop(tree: &Hir) -> bool {
    let is_one = match tree.kind() {
        HirKind::Repetition(it) => {
            rounds_of(it).1.is_none()
                && matches!(least_length(&it.hir), None | Some(0))
                && !is_always_empty(&it.hir)
        }
        _ => false,
    };
    is_one || parts_of(tree).into_iter().any(has_empty_loop)
}

/// Whether a group is in a repetition without a bound whose rounds are all empty. The grammar here reads one round in place of many.
pub fn repeats_empty_group(tree: &Hir) -> bool {
    let is_one = match tree.kind() {
        HirKind::Repetition(it) => rounds_of(it).1.is_none() && is_always_empty(&it.hir) && has_group(&it.hir),
        _ => false,
    };
    is_one || parts_of(tree).into_iter().any(repeats_empty_group)
}

fn has_group(tree: &Hir) -> bool {
    matches!(tree.kind(), HirKind::Group(it) if !matches!(it.kind, GroupKind::NonCapturing))
        || parts_of(tree).into_iter().any(has_group)
}

/// Whether it looks for words by characters.
pub fn has_unicode_word(tree: &Hir) -> bool {
    matches!(tree.kind(), HirKind::WordBoundary(WordBoundary::Unicode | WordBoundary::UnicodeNegate))
        || parts_of(tree).into_iter().any(has_unicode_word)
}

/// About how many states an automaton of the tree has: ranges of classes, times rounds.
pub fn size(tree: &Hir) -> usize {
    let own = match tree.kind() {
        HirKind::Class(Class::Unicode(it)) => it.ranges().len(),
        _ => 1,
    };
    let below = parts_of(tree).into_iter().map(size).fold(own, usize::saturating_add);
    match tree.kind() {
        HirKind::Repetition(it) => {
            let (low, high) = rounds_of(it);
            below.saturating_mul(high.unwrap_or(low.saturating_add(1)).max(1) as usize)
        }
        _ => below,
    }
}
