//! One case: some patterns and a haystack, searched on both sides.

use crate::ours::{Groups, Listed, Match, Ours, Refusal, GAVE_UP, HAYSTACK_NOT_UTF8, UNSUPPORTED};
use crate::random::Random;
use crate::settings::Settings;
use crate::theirs::{SetOf, Theirs, Which};
use crate::trees::{has_unicode_word, repeats_empty_group};
use regex_syntax::hir::Hir;

/// Patterns that both sides take, compiled by both.
pub struct Both {
    pub ours: Ours,
    pub simplest: Theirs,
    pub fastest: Theirs,
    set: SetOf,
    pub trees: Vec<Hir>,
    pub settings: Settings,
    has_words: bool,
    /// Whether a group is in a loop whose rounds are all empty.
    has_empty_groups: bool,
}

/// What a case showed.
#[derive(Clone, Debug, Default)]
pub struct Shown {
    /// What differs from the simplest engine, or from what the library promises of its refusals.
    pub differs: Vec<String>,
    /// What the fastest engine tells otherwise than the simplest.
    pub fastest: Vec<String>,
    /// What isn't compared by design, or beyond what is promised.
    pub apart: Vec<&'static str>,
    /// The matches that both sides listed, where both listed all.
    pub equal: Option<Vec<Match>>,
    /// How many matches have the same groups, and how many groups these have; nothing where they weren't compared.
    pub groups: Option<(usize, usize)>,
    /// Whether replaced matches were compared and are the same.
    pub replaced: bool,
}

impl Both {
    pub fn new(patterns: &[String], settings: Settings, ours: Ours, trees: Vec<Hir>) -> Result<Both, regex::Error> {
        Ok(Both {
            ours,
            simplest: Theirs::new(Which::Simplest, patterns, &settings)?,
            fastest: Theirs::new(Which::Fastest, patterns, &settings)?,
            set: SetOf::new(patterns, &settings)?,
            has_words: trees.iter().any(has_unicode_word),
            has_empty_groups: trees.iter().any(repeats_empty_group),
            trees,
            settings,
        })
    }

    /// Searches a haystack on both sides, also from a place in it on.
    pub fn show(&mut self, haystack: &[u8], from: usize) -> Shown {
        let mut shown = Shown::default();
        if self.settings.utf8 {
            if let Err(error) = std::str::from_utf8(haystack) {
                self.show_refused(haystack, error.valid_up_to(), &mut shown);
                return shown;
            }
        }
        let wanted = self.simplest.find_all(haystack);
        self.show_list(haystack, &wanted, &mut shown);
        self.show_any(haystack, !wanted.is_empty(), &mut shown);
        self.show_which(haystack, &mut shown);
        self.show_from(haystack, from, &mut shown);
        self.show_groups(haystack, &wanted, &mut shown);
        self.show_replaced(haystack, from, &mut shown);
        let fast = self.fastest.find_all(haystack);
        if fast != wanted {
            shown.fastest.push(format!("list {fast:?} by the fastest, {wanted:?} by the simplest"));
        }
        shown
    }

    /// A haystack that isn't UTF-8 where it has to be: each call tells the first place at which it isn't.
    fn show_refused(&mut self, haystack: &[u8], place: usize, shown: &mut Shown) {
        let is_it = |it: &Refusal| it.status == HAYSTACK_NOT_UTF8 && it.start == place;
        let listed = self.ours.find_all(haystack, &[]);
        if listed.refusal.is_some_and(|it| it.status == UNSUPPORTED) {
            return shown.apart.push("haystack that is no UTF-8, not asked for");
        }
        let told = [
            Err(listed.refusal.filter(|_| listed.matches.is_empty()).unwrap_or_default()),
            self.ours.is_match(haystack),
            self.ours.find_at(haystack, 0).map(|it| it.is_some()),
            self.ours.which(haystack).map(|it| it.contains(&true)),
        ];
        if told.iter().all(|it| it.as_ref().is_err_and(|it| is_it(it) || it.status == UNSUPPORTED)) {
            shown.apart.push("haystack refused as no UTF-8, at the right place");
        } else {
            shown.differs.push(format!("no UTF-8 at {place}, but {told:?}"));
        }
    }

    /// By heads a search may give up at a byte above 7F, where a pattern looks for words of Unicode.
    fn may_give_up(&self, haystack: &[u8], refusal: &Refusal) -> bool {
        let byte = haystack.get(refusal.start).copied();
        refusal.status == GAVE_UP
            && self.has_words
            && byte.is_some_and(|it| it > 0x7F && usize::from(it) == refusal.byte)
    }

    fn show_list(&mut self, haystack: &[u8], wanted: &[Match], shown: &mut Shown) {
        let Listed { matches, refusal } = self.ours.find_all(haystack, wanted);
        if let Some(refusal) = refusal {
            if refusal.status == UNSUPPORTED {
                shown.apart.push("empty loop: other sums, the list isn't told");
            } else if !self.may_give_up(haystack, &refusal) {
                shown.differs.push(format!("list refused: {refusal:?}"));
            } else if self.settings.empty_loops || wanted.starts_with(&matches) {
                shown.apart.push("list ended by giving up, equal up to there");
            } else {
                shown.differs.push(format!("list {matches:?} up to giving up, {wanted:?} by the simplest"));
            }
        } else if matches == wanted {
            shown.equal = Some(matches);
        } else if self.settings.empty_loops {
            self.show_loops(&matches, wanted, shown);
        } else {
            shown.differs.push(format!("list {matches:?}, {wanted:?} by the simplest"));
        }
    }

    /// Of an unbounded repetition of what may be empty only the first start is promised, and its pattern.
    fn show_loops(&self, matches: &[Match], wanted: &[Match], shown: &mut Shown) {
        let first = |list: &[Match]| list.first().map(|it| (it.pattern, it.start));
        if first(matches) == first(wanted) {
            shown.apart.push("empty loop: the same first start, another list");
        } else {
            shown.differs.push(format!("first start of {matches:?}, {wanted:?} by the simplest"));
        }
    }

    fn show_any(&mut self, haystack: &[u8], wanted: bool, shown: &mut Shown) {
        match self.ours.is_match(haystack) {
            Ok(any) if any == wanted => {}
            Ok(any) => shown.differs.push(format!("is_match {any}, {wanted} by the simplest")),
            Err(refusal) if self.may_give_up(haystack, &refusal) => shown.apart.push("is_match gave up"),
            Err(refusal) if refusal.status == UNSUPPORTED => shown.apart.push("is_match isn't there"),
            Err(refusal) => shown.differs.push(format!("is_match refused: {refusal:?}")),
        }
        if self.simplest.is_match(haystack) != wanted || self.fastest.is_match(haystack) != wanted {
            shown.fastest.push(format!("is_match isn't {wanted} by both"));
        }
    }

    fn show_which(&mut self, haystack: &[u8], shown: &mut Shown) {
        let wanted = self.simplest.which(haystack);
        match self.ours.which(haystack) {
            Ok(which) if which == wanted => {}
            Ok(which) => shown.differs.push(format!("which {which:?}, {wanted:?} by the simplest")),
            Err(refusal) if self.may_give_up(haystack, &refusal) => shown.apart.push("which gave up"),
            Err(refusal) if refusal.status == UNSUPPORTED => shown.apart.push("which isn't there"),
            Err(refusal) => shown.differs.push(format!("which refused: {refusal:?}")),
        }
        let set = self.set.which(haystack, wanted.len());
        if set != wanted {
            shown.fastest.push(format!("set {set:?}, {wanted:?} by the simplest"));
        }
    }

    fn show_from(&mut self, haystack: &[u8], from: usize, shown: &mut Shown) {
        let wanted = self.simplest.find_at(haystack, from);
        let part = |it: Option<Match>| it.map(|it| (it.pattern, it.start));
        match self.ours.find_at(haystack, from) {
            Ok(found) if found == wanted => {}
            Ok(found) if self.settings.empty_loops && part(found) == part(wanted) => {}
            Ok(found) => shown.differs.push(format!("from {from} {found:?}, {wanted:?} by the simplest")),
            Err(refusal) if self.may_give_up(haystack, &refusal) => shown.apart.push("find_at gave up"),
            Err(refusal) if refusal.status == UNSUPPORTED => shown.apart.push("find_at isn't there"),
            Err(refusal) => shown.differs.push(format!("from {from} refused: {refusal:?}")),
        }
        let fast = self.fastest.find_at(haystack, from);
        if fast != wanted {
            shown.fastest.push(format!("from {from} {fast:?} by the fastest, {wanted:?} by the simplest"));
        }
    }

    /// Whether rounds of a loop may be empty: version 1.7.1 returns other groups of these.
    fn has_empty_rounds(&self) -> bool {
        self.settings.empty_loops || self.has_empty_groups
    }

    /// The matches of one pattern, replaced by a template.
    fn show_replaced(&mut self, haystack: &[u8], from: usize, shown: &mut Shown) {
        let (template, limit) = template_for(haystack, from);
        let Some(wanted) = self.simplest.replacen(haystack, limit, &template) else { return };
        match self.ours.replacen(haystack, limit, &template) {
            Ok(found) if found == wanted => shown.replaced = true,
            Ok(_) if self.has_empty_rounds() => shown.apart.push("empty loop: something else is replaced"),
            Ok(found) => shown.differs.push(format!(
                "replaced by {template:?} up to {limit} {:?}, {:?} by the simplest",
                String::from_utf8_lossy(&found),
                String::from_utf8_lossy(&wanted)
            )),
            Err(refusal) if refusal.status == UNSUPPORTED => shown.apart.push("replacing isn't there"),
            Err(refusal) => shown.differs.push(format!("replaced refused: {refusal:?}")),
        }
        let fast = self.fastest.replacen(haystack, limit, &template);
        if fast != Some(wanted) {
            shown.fastest.push(format!("replaced by {template:?} up to {limit} otherwise"));
        }
    }

    /// All matches with their groups, whatever loops consume.
    fn show_groups(&mut self, haystack: &[u8], wanted: &[Match], shown: &mut Shown) {
        let wanted = self.simplest.groups_of(haystack, wanted);
        match self.ours.find_groups(haystack) {
            Ok(found) if found == wanted => shown.groups = Some((found.len(), found.iter().map(|it| it.1.len()).sum())),
            Ok(found) if self.has_empty_rounds() => shown.apart.push(kind_of_loop(&found, &wanted)),
            Ok(found) => shown.differs.push(format!("groups {found:?}, {wanted:?} by the simplest")),
            Err(refusal) if refusal.status == UNSUPPORTED => shown.apart.push("groups aren't there"),
            Err(refusal) => shown.differs.push(format!("groups refused: {refusal:?}")),
        }
        let matches: Vec<Match> = wanted.iter().map(|it| it.0).collect();
        let fast = self.fastest.groups_of(haystack, &matches);
        if fast != wanted {
            shown.fastest.push(format!("groups {fast:?} by the fastest, {wanted:?} by the simplest"));
        }
    }
}

/// What templates are made of. Random patterns name their groups n1 and n2.
const PARTS: [&str; 26] = [
    "a", "-", "é", "1", "{", "}", "$", "$$", "$0", "$1", "$2", "$3", "$1a", "${1}a", "$n1", "${n1}", "$n1x", "${n2}", "$9", "$10", "${ 1}",
    "$-", "$_", "${}", "$é", "${",
];

/// A template and a limit that depend on the haystack alone.
fn template_for(haystack: &[u8], from: usize) -> (String, usize) {
    let sum: u64 = haystack.iter().map(|it| u64::from(*it)).sum();
    let mut random = Random::new(sum.wrapping_mul(1_000_003).wrapping_add(from as u64));
    let count = random.below(6);
    let template = (0..count).map(|_| *random.pick(&PARTS)).collect();
    (template, *random.pick(&[0, 0, 1, 2]))
}

/// In what matches of a pattern with an empty loop differ, or the groups of the same matches.
fn kind_of_loop(found: &[(Match, Groups)], wanted: &[(Match, Groups)]) -> &'static str {
    if found.iter().map(|it| it.0).eq(wanted.iter().map(|it| it.0)) {
        "empty loop: the same matches with other groups"
    } else {
        "empty loop: other matches with groups"
    }
}
