//! Groups of cases: patterns with settings, and several haystacks.

use crate::haystacks::haystack;
use crate::judge::{Both, Shown};
use crate::ours::{Ours, Refusal, EMPTY_LOOP, TOO_LARGE};
use crate::patterns::Patterns;
use crate::published::Published;
use crate::random::Random;
use crate::report::Report;
use crate::settings::Settings;
use crate::shrink::shrink;
use crate::trees::{has_empty_loop, size, tree_of};
use regex::bytes::Regex;
use regex_syntax::hir::Hir;

/// Where patterns come from.
#[derive(Clone, Copy, Debug, PartialEq, Eq)]
pub enum Kind {
    Random,
    Published,
    Several,
    Large,
}

/// The patterns of one group, the options, and a haystack that its test has.
struct Group {
    name: String,
    patterns: Vec<String>,
    settings: Settings,
    given: Option<Vec<u8>>,
    is_large: bool,
}

/// Words in the names of properties that have other members since Unicode 14.
const CHANGED: [&str; 3] = ["pictographic", "prepend", "scontinue"];

/// Large patterns have up to so many states.
const LARGE: usize = 20_000;

/// What all groups have in common.
pub struct Run {
    pub seed: u64,
    pub kinds: Vec<Kind>,
    pub published: Vec<Published>,
    pub haystacks: usize,
    /// Patterns with more states than this are left out: a cache of the least capacity makes a state anew for each
    /// byte, which takes time by its size.
    pub largest: usize,
    unassigned: Regex,
}

/// What compiling some patterns on both sides came to.
enum Compiled {
    Both(Box<Both>),
    Refused(String),
}

impl Run {
    pub fn new(seed: u64, kinds: Vec<Kind>, published: Vec<Published>, haystacks: usize, largest: usize) -> Run {
        let unassigned = Regex::new(r"\p{Cn}").expect("a pattern");
        Run { seed, kinds, published, haystacks, largest, unassigned }
    }

    fn group(&self, number: u64, random: &mut Random) -> Group {
        let kind = self.kinds[(number % self.kinds.len() as u64) as usize];
        let turn = number / self.kinds.len() as u64;
        let mut settings = Settings::in_turn(turn).with_meaning(random);
        settings.which = number % 2 == 0;
        let mut given = None;
        let patterns = match kind {
            Kind::Random => vec![Patterns::new(random, !settings.utf8).pattern()],
            Kind::Published => {
                let it = &self.published[(turn % self.published.len() as u64) as usize];
                given = it.haystack.clone();
                vec![it.pattern.clone()]
            }
            Kind::Several => self.several(random, !settings.utf8),
            Kind::Large => {
                // A cache of the least capacity would make a large state anew for each byte.
                settings.least = false;
                let count = if random.once_in(3) { random.between(2, 4) } else { 1 };
                (0..count).map(|_| Patterns::new(random, !settings.utf8).large()).collect()
            }
        };
        Group { name: format!("group {number}"), patterns, settings, given, is_large: kind == Kind::Large }
    }

    fn several(&self, random: &mut Random, bytes: bool) -> Vec<String> {
        let count = random.between(2, 6);
        (0..count).map(|_| self.one_of_several(random, bytes)).collect()
    }

    fn one_of_several(&self, random: &mut Random, bytes: bool) -> String {
        if !self.published.is_empty() && random.once_in(4) {
            random.pick(&self.published).pattern.clone()
        } else {
            Patterns::new(random, bytes).pattern()
        }
    }

    /// Makes the group of this number, which depends on the seed and the number alone, and compares its cases.
    pub fn compare(&self, number: u64, report: &mut Report) -> u64 {
        let mut random = Random::new(self.seed.wrapping_mul(0x1_0000_0001).wrapping_add(number));
        let group = self.group(number, &mut random);
        report.add("patterns", group.patterns.len() as u64);
        let largest = if group.is_large { self.largest.max(LARGE) } else { self.largest };
        match compiled(&group.patterns, group.settings, largest) {
            Compiled::Refused(how) => {
                report.count_with(&how, || format!("{}: {:?} {:?}", group.name, group.patterns, group.settings));
                1
            }
            Compiled::Both(mut both) => {
                self.compare_haystacks(&group, &mut both, &mut random, report);
                self.haystacks as u64
            }
        }
    }

    fn compare_haystacks(&self, group: &Group, both: &mut Both, random: &mut Random, report: &mut Report) {
        for at in 0..self.haystacks {
            let (made, mut text) = haystack(random, &both.trees);
            if let (0, Some(given)) = (at, &group.given) {
                text = given.clone();
            }
            let from = place(random, &text);
            let shown = both.show(&text, from);
            report.count("cases");
            report.count(&format!("cases of {}", if both.settings.empty_loops { "empty loops" } else { "all else" }));
            report.count(&format!("haystacks made {made:?}"));
            self.tell(group, both, &text, from, &shown, report);
        }
        report.add("clears of caches", both.ours.clear_count() as u64);
    }

    fn tell(&self, group: &Group, both: &Both, text: &[u8], from: usize, shown: &Shown, report: &mut Report) {
        if let Some(matches) = &shown.equal {
            report.count("lists that are equal");
            report.add("matches in them", matches.len() as u64);
            report.add("sum of their starts", matches.iter().map(|it| it.start as u64).sum());
            report.add("sum of their ends", matches.iter().map(|it| it.end as u64).sum());
        }
        if let Some((matches, groups)) = shown.groups {
            report.count("cases whose groups are equal");
            report.add("matches with equal groups", matches as u64);
            report.add("groups of them", groups as u64);
        }
        if shown.replaced {
            report.count("cases whose replaced matches are equal");
        }
        for it in &shown.apart {
            report.count_with(&format!("apart: {it}"), || format!("{}: {:?} in {:?}", group.name, group.patterns, shown_text(text)));
        }
        let settings = both.settings;
        if !shown.differs.is_empty() {
            let name = self.name_of_difference(&group.patterns, settings, text);
            let told = report.wants(name).then(|| self.example(group, settings, text, from, &shown.differs, false));
            report.count_with(name, || told.unwrap_or_default());
        }
        if !shown.fastest.is_empty() {
            let loops = if settings.empty_loops { ", empty loop" } else { "" };
            let agrees = if shown.differs.is_empty() { "this agrees with the simplest" } else { "so does this" };
            let kinds = kinds_of(&shown.fastest);
            let name = format!("fastest differs from the simplest in {kinds}, {agrees}{loops}");
            let told = report.wants(&name).then(|| self.example(group, settings, text, from, &shown.fastest, true));
            report.count_with(&name, || told.unwrap_or_default());
        }
    }

    /// Under which name a difference is counted: docs/DIFFERENCES.md says why the first three are.
    fn name_of_difference(&self, patterns: &[String], settings: Settings, text: &[u8]) -> &'static str {
        let has = |word: &str| patterns.iter().any(|it| it.to_lowercase().contains(word));
        if self.unassigned.is_match(text) {
            "differs: text has characters unassigned there"
        } else if CHANGED.iter().any(|it| has(it)) {
            "differs: a property whose members changed since Unicode 14"
        } else if !settings.utf8 && patterns.iter().any(|it| it.contains(r"\B")) && !text.is_ascii() {
            r"differs: \B outside UTF-8 mode, and bytes above 7F"
        } else {
            "DIFFERS from the simplest"
        }
    }

    fn example(&self, group: &Group, settings: Settings, text: &[u8], from: usize, how: &[String], fast: bool) -> String {
        let shows = |patterns: &[String], text: &[u8]| {
            shown_by(patterns, settings, text, from).is_some_and(|it| {
                let is_one = if fast { !it.fastest.is_empty() } else { !it.differs.is_empty() };
                is_one && !self.unassigned.is_match(text)
            })
        };
        let whole = format!("{}: {:?} in {:?}: {how:?} {settings:?}", group.name, group.patterns, shown_text(text));
        if !shows(&group.patterns, text) {
            return format!("{whole} (not alone)");
        }
        let (patterns, smaller) = shrink(&group.patterns, text, &shows);
        let shown = shown_by(&patterns, settings, &smaller, from).unwrap_or_default();
        let less = if fast { shown.fastest } else { shown.differs };
        format!("{:?} in {:?}: {less:?}; {whole}", patterns, shown_text(&smaller))
    }
}

/// In what something differs: the first words of what is told.
fn kinds_of(told: &[String]) -> String {
    let words: std::collections::BTreeSet<&str> = told.iter().filter_map(|it| it.split(' ').next()).collect();
    words.into_iter().collect::<Vec<_>>().join(" and ")
}

fn shown_text(text: &[u8]) -> String {
    String::from_utf8(text.to_vec()).unwrap_or_else(|_| format!("bytes {}", text.escape_ascii()))
}

/// What a fresh compile shows in a haystack; nothing where it is refused, or asked for another kind of loops.
fn shown_by(patterns: &[String], settings: Settings, text: &[u8], from: usize) -> Option<Shown> {
    let mut settings_here = settings;
    settings_here.empty_loops = false;
    match compiled(patterns, settings_here, usize::MAX) {
        Compiled::Both(mut both) if both.settings.empty_loops == settings.empty_loops => {
            let from = (0..=from.min(text.len())).rev().find(|it| is_place(text, *it)).unwrap_or(0);
            Some(both.show(text, from))
        }
        _ => None,
    }
}

/// Whether no character is split here, as far as the text is one.
fn is_place(text: &[u8], at: usize) -> bool {
    std::str::from_utf8(text).map_or(true, |it| it.is_char_boundary(at))
}

fn place(random: &mut Random, text: &[u8]) -> usize {
    let at = random.below(text.len() + 1);
    (0..=at).rev().find(|it| is_place(text, *it)).unwrap_or(0)
}

/// The kind of a refusal of that crate: the last line of its text, without the numbers in it.
fn kind_of(error: &regex::Error) -> String {
    let text = error.to_string();
    let line = text.lines().last().unwrap_or_default().trim_start_matches("error: ");
    line.chars().filter(|it| !it.is_ascii_digit()).collect()
}

/// Compiles patterns on both sides; those with an unbounded repetition of what may be empty are taken on demand.
fn compiled(patterns: &[String], settings: Settings, largest: usize) -> Compiled {
    let trees: Option<Vec<Hir>> = patterns.iter().map(|it| tree_of(it, &settings)).collect();
    if trees.iter().flatten().map(size).sum::<usize>() > largest {
        return Compiled::Refused("left out: large".to_string());
    }
    let mut settings = settings;
    let ours = Ours::new(patterns, &settings);
    let Some(trees) = trees else { return refused_there(patterns, settings, ours.err()) };
    let wanted = trees.iter().position(has_empty_loop);
    let told = ours.as_ref().err().filter(|it| it.status == EMPTY_LOOP).map(|it| it.pattern);
    let is_other = ours.as_ref().err().is_some_and(|it| it.status != EMPTY_LOOP);
    if wanted != told && !is_other {
        return Compiled::Refused(format!("DIFFERS in empty loops: told {told:?}, wanted {wanted:?}"));
    }
    let ours = if told.is_some() {
        settings.empty_loops = true;
        Ours::new(patterns, &settings)
    } else {
        ours
    };
    let ours = match ours {
        Ok(ours) => ours,
        Err(it) if it.status == TOO_LARGE => return Compiled::Refused("refused here: too large".to_string()),
        Err(it) => return Compiled::Refused(format!("refused here alone: status {} cause {}", it.status, it.cause)),
    };
    match Both::new(patterns, settings, ours, trees) {
        Ok(both) => Compiled::Both(Box::new(both)),
        Err(error) => Compiled::Refused(format!("refused there alone: {}", kind_of(&error))),
    }
}

/// What to say where that crate's grammar refuses a pattern.
fn refused_there(patterns: &[String], settings: Settings, ours: Option<Refusal>) -> Compiled {
    let errors = patterns.iter().map(|it| {
        crate::theirs::Engine::new(crate::theirs::Which::Fastest, it, &settings).err().map(|it| kind_of(&it))
    });
    let kind = errors.flatten().next().unwrap_or_default();
    Compiled::Refused(match ours {
        Some(it) if it.status != EMPTY_LOOP => "refused by both".to_string(),
        _ => format!("refused there alone: {kind}"),
    })
}
