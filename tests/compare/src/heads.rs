//! The stack by heads in its notation: `hirhead` makes them of patterns, and the static library of `bench/exports`
//! searches by them in this process. It tells a count and sums; where these aren't the expected ones, and where a search is
//! refused, `hirscan` tells the list.

use crate::ours::{Groups, Listed, Match, Refusal, EMPTY_LOOP, GAVE_UP, HAYSTACK_NOT_UTF8, TOO_LARGE, UNSUPPORTED};
use crate::settings::Settings;
use std::io::Write;
use std::process::{Command, Stdio};

const SYNTAX_ERROR: u32 = 5;

/// How many matches there are, and the sums of their patterns, starts and ends.
#[repr(C)]
#[derive(Clone, Copy, Debug, Default, PartialEq, Eq)]
struct Totals {
    matches: u64,
    patterns: u64,
    starts: u64,
    ends: u64,
}

extern "C" {
    fn stack_matches(
        head: *const u8,
        head_length: usize,
        text: *const u8,
        text_length: usize,
        totals: *mut Totals,
    ) -> u32;
}

fn totals_of(matches: &[Match]) -> Totals {
    let sum = |part: fn(&Match) -> usize| matches.iter().map(|it| part(it) as u64).sum();
    Totals {
        matches: matches.len() as u64,
        patterns: sum(|it| it.pattern),
        starts: sum(|it| it.start),
        ends: sum(|it| it.end),
    }
}

fn program(name: &str) -> Command {
    let folder = std::env::var("CRATES").expect("CRATES names the folder of the built programs' crates");
    Command::new(format!("{folder}/{name}_main/out/{name}_main"))
}

/// The number behind some words in a line.
fn number_behind(line: &str, words: &str) -> Option<usize> {
    let rest = &line[line.find(words)? + words.len()..];
    let end = rest.find(|c: char| !c.is_ascii_digit()).unwrap_or(rest.len());
    rest[..end].parse().ok()
}

/// The head of the patterns, up to its `find` line.
fn query_for(patterns: &[String], settings: &Settings) -> Result<Vec<u8>, Refusal> {
    let utf8 = if settings.utf8 { "on" } else { "off" };
    // An argument has no byte 0.
    let spelled = patterns.iter().map(|it| settings.spelled(it).replace('\0', "\\x00"));
    let made = program("hirhead").args(["--utf8", utf8, "--"]).args(spelled).output().expect("hirhead runs");
    if !made.status.success() {
        let said = String::from_utf8_lossy(&made.stderr).into_owned();
        let pattern = number_behind(&said, "pattern ").unwrap_or_default();
        return Err(Refusal { status: SYNTAX_ERROR, pattern, ..Refusal::default() });
    }
    let mut head = Vec::new();
    let lines = [(settings.least, "capacity 1\n"), (settings.apart, "classes off\n"), (settings.shrink, "shrink on\n")];
    for (_, line) in lines.iter().filter(|it| it.0) {
        head.extend_from_slice(line.as_bytes());
    }
    head.extend_from_slice(&made.stdout);
    Ok(head)
}

/// What `hirscan` prints for a head and a haystack.
fn scanned(head: &[u8], haystack: &[u8]) -> String {
    let mut child =
        program("hirscan").stdin(Stdio::piped()).stdout(Stdio::piped()).spawn().expect("hirscan runs");
    let mut input = child.stdin.take().expect("a pipe");
    input.write_all(head).and_then(|_| input.write_all(haystack)).expect("hirscan reads");
    drop(input);
    let told = child.wait_with_output().expect("hirscan ends");
    String::from_utf8_lossy(&told.stdout).into_owned()
}

/// The refusal that a line of `hirscan` tells.
fn refusal_of(line: &str) -> Option<Refusal> {
    let status = |status| Refusal { status, ..Refusal::default() };
    if let Some(byte) = line.strip_prefix("quit: byte ") {
        let byte = usize::from_str_radix(&byte[..2], 16).expect("a byte");
        return Some(Refusal { byte, start: number_behind(line, " at ").expect("a place"), ..status(GAVE_UP) });
    }
    let cause = line.strip_prefix("refused: ")?;
    Some(if cause.ends_with("unbounded body may be empty") {
        Refusal { pattern: number_behind(cause, "pattern ").expect("a number"), ..status(EMPTY_LOOP) }
    } else if cause == "size limit" {
        status(TOO_LARGE)
    } else if let Some(start) = number_behind(cause, "haystack not UTF-8 at ") {
        Refusal { start, ..status(HAYSTACK_NOT_UTF8) }
    } else {
        status(SYNTAX_ERROR)
    })
}

fn match_of(line: &str) -> Match {
    let numbers: Vec<usize> = line.split(' ').map(|it| it.parse().expect("a number")).collect();
    Match { pattern: numbers[0], start: numbers[1], end: numbers[2] }
}

fn listed(told: &str) -> Listed {
    let mut listed = Listed { matches: Vec::new(), refusal: None };
    for line in told.lines() {
        match refusal_of(line) {
            Some(refusal) => listed.refusal = Some(refusal),
            None => listed.matches.push(match_of(line)),
        }
    }
    listed
}

/// The head of some patterns.
pub struct Ours {
    head: Vec<u8>,
    utf8: bool,
    /// Whether the program was asked for a haystack that is no UTF-8: of each group it is for one.
    has_asked: bool,
}

fn unsupported() -> Refusal {
    Refusal { status: UNSUPPORTED, ..Refusal::default() }
}

impl Ours {
    pub fn new(patterns: &[String], settings: &Settings) -> Result<Ours, Refusal> {
        let head = query_for(patterns, settings)?;
        match listed(&scanned(&head, b"")).refusal {
            Some(it) if !(it.status == EMPTY_LOOP && settings.empty_loops) => Err(it),
            _ => Ok(Ours { head, utf8: settings.utf8, has_asked: false }),
        }
    }

    /// What the program lists. It refuses unbounded repetitions of what may be empty.
    fn scan(&self, haystack: &[u8]) -> Listed {
        let told = listed(&scanned(&self.head, haystack));
        match &told.refusal {
            Some(it) if it.status == EMPTY_LOOP => Listed { matches: Vec::new(), refusal: Some(unsupported()) },
            _ => told,
        }
    }

    /// All matches. Where the count and the sums are those of the expected list, it is taken to be that.
    pub fn find_all(&mut self, haystack: &[u8], expected: &[Match]) -> Listed {
        if self.utf8 && std::str::from_utf8(haystack).is_err() {
            let none = Listed { matches: Vec::new(), refusal: Some(unsupported()) };
            return if std::mem::replace(&mut self.has_asked, true) { none } else { self.scan(haystack) };
        }
        let mut totals = Totals::default();
        // Safe: all parts live through the call, with the lengths that are told.
        let outcome = unsafe {
            stack_matches(self.head.as_ptr(), self.head.len(), haystack.as_ptr(), haystack.len(), &mut totals)
        };
        if outcome == 0 && totals == totals_of(expected) {
            return Listed { matches: expected.to_vec(), refusal: None };
        }
        let told = self.scan(haystack);
        match &told.refusal {
            _ if outcome == 0 && told.refusal.is_none() && totals != totals_of(&told.matches) => {
                panic!("the library's sums aren't those of the program: {totals:?}, {told:?}")
            }
            _ => told,
        }
    }

    /// The first match, by the program.
    pub fn first(&mut self, haystack: &[u8]) -> Result<Option<Match>, Refusal> {
        let listed = self.scan(haystack);
        match listed.refusal {
            Some(refusal) if listed.matches.is_empty() => Err(refusal),
            _ => Ok(listed.matches.first().copied()),
        }
    }

    pub fn is_match(&mut self, _haystack: &[u8]) -> Result<bool, Refusal> {
        Err(unsupported())
    }

    pub fn find_at(&mut self, _haystack: &[u8], _from: usize) -> Result<Option<Match>, Refusal> {
        Err(unsupported())
    }

    /// Heads have no groups.
    pub fn find_groups(&mut self, _haystack: &[u8]) -> Result<Vec<(Match, Groups)>, Refusal> {
        Err(Refusal { status: UNSUPPORTED, ..Refusal::default() })
    }

    /// Heads replace nothing.
    pub fn replacen(&mut self, _haystack: &[u8], _limit: usize, _template: &str) -> Result<Vec<u8>, Refusal> {
        Err(Refusal { status: UNSUPPORTED, ..Refusal::default() })
    }

    /// Heads have no groups.
    pub fn groups_at(&mut self, _haystack: &[u8], _from: usize) -> Result<Option<(Match, Groups)>, Refusal> {
        Err(Refusal { status: UNSUPPORTED, ..Refusal::default() })
    }

    pub fn which(&mut self, _haystack: &[u8]) -> Result<Vec<bool>, Refusal> {
        Err(unsupported())
    }

    pub fn clear_count(&mut self) -> usize {
        0
    }
}
