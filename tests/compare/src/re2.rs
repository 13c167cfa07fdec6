//! RE2's own tables of answers, as Go's sources have them.

use crate::ours::{Groups, Match, Ours, EMPTY_LOOP, UNSUPPORTED};
use crate::report::Report;
use crate::settings::Settings;
use std::io::BufRead;

/// The text of a line in quotes, by Go's rules; none where it has an escape that isn't known.
fn unquoted(line: &str) -> Option<String> {
    let inner = line.strip_prefix('"')?.strip_suffix('"')?;
    let mut text = String::new();
    let mut chars = inner.chars();
    while let Some(c) = chars.next() {
        if c != '\\' {
            text.push(c);
            continue;
        }
        let width = match chars.next()? {
            'x' => 2,
            'u' => 4,
            'U' => 8,
            c => {
                text.push(plain_escape(c)?);
                continue;
            }
        };
        let digits: String = chars.by_ref().take(width).collect();
        let number = u32::from_str_radix(&digits, 16).ok()?;
        text.push(char::from_u32(number).filter(|it| width > 2 || it.is_ascii())?);
    }
    Some(text)
}

fn plain_escape(c: char) -> Option<char> {
    Some(match c {
        'a' => '\x07',
        'b' => '\x08',
        'f' => '\x0C',
        'n' => '\n',
        'r' => '\r',
        't' => '\t',
        'v' => '\x0B',
        '\\' | '"' | '\'' => c,
        _ => return None,
    })
}

/// A pattern of RE2 in the syntax here: short classes and words are ASCII's there, `\C` is any byte, and a bracket
/// or a sign of a set in a class stands for itself.
fn translated(pattern: &str) -> String {
    let chars: Vec<char> = pattern.chars().collect();
    let mut text = String::new();
    let mut in_class = false;
    let mut at = 0;
    while at < chars.len() {
        let rest = &chars[at..];
        let (taken, part) = match rest {
            ['\\', c, ..] => (2, escape(*c, in_class)),
            ['[', '^', ']', ..] if !in_class => (3, "[^\\]".to_string()),
            ['[', ']', ..] if !in_class => (2, "[\\]".to_string()),
            ['[', ':', ..] if in_class => {
                let length = rest.windows(2).position(|it| it == [':', ']']).map_or(1, |it| it + 2);
                (length, rest[..length].iter().collect())
            }
            ['[' | '&' | '~', ..] if in_class => (1, format!("\\{}", rest[0])),
            [c, ..] => (1, c.to_string()),
            [] => break,
        };
        match part.chars().next() {
            Some('[') if !in_class && rest[0] == '[' => in_class = true,
            Some(']') if in_class => in_class = false,
            _ => {}
        }
        text.push_str(&part);
        at += taken;
    }
    text
}

fn escape(c: char, in_class: bool) -> String {
    let inside = match c {
        'w' | 'W' => "0-9A-Za-z_",
        'd' | 'D' => "0-9",
        's' | 'S' => "\\t\\n\\f\\r ",
        'C' => return "(?s-u:.)".to_string(),
        'b' | 'B' => return format!("(?-u:\\{c})"),
        _ => return format!("\\{c}"),
    };
    match (c.is_ascii_uppercase(), in_class) {
        (true, _) => format!("[^{inside}]"),
        (false, true) => inside.to_string(),
        (false, false) => format!("[{inside}]"),
    }
}

/// A compiled pattern, and whether it has an unbounded repetition of what may be empty.
struct Made {
    regex: Ours,
    is_loop: bool,
}

fn made(pattern: String, settings: Settings) -> Result<Made, String> {
    match Ours::new(&[pattern.clone()], &settings) {
        Ok(regex) => Ok(Made { regex, is_loop: false }),
        Err(it) if it.status == EMPTY_LOOP => {
            let loops = Settings { empty_loops: true, ..settings };
            let regex = Ours::new(&[pattern], &loops).map_err(|it| format!("status {}", it.status))?;
            Ok(Made { regex, is_loop: true })
        }
        Err(it) => Err(format!("status {}", it.status)),
    }
}

/// What is known while a table is read.
#[derive(Default)]
struct Table {
    strings: Vec<String>,
    is_strings: bool,
    pattern: String,
    /// For a whole match and for one anywhere.
    made: Option<(Made, Made)>,
    row: usize,
    number: u64,
    /// Of so many patterns one is compared.
    every: u64,
}

/// Reads a table and compares its rows: of each the whole match and the first match, as its first two columns tell.
pub fn compare(input: impl BufRead, every: u64, report: &mut Report) -> std::io::Result<()> {
    let mut table = Table { every, ..Table::default() };
    for line in input.lines() {
        let line = line?;
        match line.as_bytes().first() {
            Some(b'"') => table.text(&line, report),
            Some(b'-' | b'0'..=b'9') => table.answers(&line, report),
            _ if line == "strings" => {
                table.strings.clear();
                table.is_strings = true;
            }
            _ if line == "regexps" => table.is_strings = false,
            _ => {}
        }
    }
    Ok(())
}

/// The span at the beginning of a column; none where there is no match.
fn span_of(column: &str) -> Option<(usize, usize)> {
    let (start, end) = column.split(' ').next()?.split_once('-')?;
    Some((start.parse().ok()?, end.parse().ok()?))
}

/// The spans of the whole match and of its groups in a column; none where there is no match.
fn groups_in(column: &str) -> Option<Groups> {
    span_of(column)?;
    Some(column.split(' ').map(span_of).collect())
}

impl Table {
    fn text(&mut self, line: &str, report: &mut Report) {
        let text = unquoted(line).expect("a quoted text");
        if self.is_strings {
            self.strings.push(text);
            return;
        }
        self.row = 0;
        self.number += 1;
        self.made = None;
        self.pattern = text;
        if self.number % self.every != 0 {
            return report.count("patterns passed over");
        }
        self.make(report);
    }

    /// Compiles a pattern, with what can't change an answer in turn.
    fn make(&mut self, report: &mut Report) {
        let text = &self.pattern;
        let settings = Settings { which: false, utf8: false, ..Settings::in_turn(self.number / self.every) };
        let pattern = translated(text);
        report.count("patterns");
        let whole = made(format!("\\A(?:{pattern})\\z"), settings);
        let first = made(pattern.clone(), settings);
        self.made = match (whole, first) {
            (Ok(whole), Ok(first)) => Some((whole, first)),
            (whole, first) => {
                let why = whole.err().or(first.err()).unwrap_or_default();
                report.count_with(&format!("patterns refused here: {why}"), || format!("{text:?}"));
                None
            }
        };
    }

    fn answers(&mut self, line: &str, report: &mut Report) {
        let Some(text) = self.strings.get(self.row) else { panic!("a row without a string") };
        self.row += 1;
        let Some((whole, first)) = &mut self.made else { return report.count("rows of patterns that aren't compared") };
        report.count("rows");
        let mut columns = line.split(';');
        for (name, made) in [("whole", whole), ("first", first)] {
            let column = columns.next().unwrap_or_default();
            compare_one(name, made, &self.pattern, text, span_of(column), report);
            compare_groups(name, made, &self.pattern, text, groups_in(column), report);
        }
    }
}

fn compare_one(name: &str, made: &mut Made, pattern: &str, text: &str, wanted: Option<(usize, usize)>, report: &mut Report) {
    let found = made.regex.first(text.as_bytes());
    if found.is_err_and(|it| it.status == UNSUPPORTED) {
        return report.count(&format!("{name} match isn't asked for with an empty loop"));
    }
    let any = match made.regex.is_match(text.as_bytes()) {
        Err(it) if it.status == UNSUPPORTED => found.map(|it| it.is_some()),
        any => any,
    };
    let span = |it: Option<Match>| it.map(|it| (it.start, it.end));
    let is_same = found.map(span) == Ok(wanted) && any == Ok(wanted.is_some());
    let kind = if made.is_loop { "with an empty loop" } else { "" };
    if is_same {
        return report.count(&format!("{name} match is the same {kind}"));
    }
    let same_start = found.map(|it| it.map(|it| it.start)) == Ok(wanted.map(|it| it.0)) && any == Ok(wanted.is_some());
    let how = match (made.is_loop, same_start) {
        (true, true) => "apart: has the same start, another end,",
        _ => "DIFFERS",
    };
    report.count_with(&format!("{name} match {how} {kind}"), || {
        format!("{pattern:?} in {text:?}: {found:?} {any:?}, {wanted:?} by RE2")
    });
}

/// Whether there are the same groups but for the last ones, which took no part: a group that is repeated at most 0 times isn't counted here.
fn lacks_groups(found: &Option<Groups>, wanted: &Option<Groups>) -> bool {
    let (Some(found), Some(wanted)) = (found, wanted) else { return false };
    wanted.starts_with(found) && wanted[found.len()..].iter().all(Option::is_none)
}

/// Compares the groups of the first match, of which a column has each.
fn compare_groups(name: &str, made: &mut Made, pattern: &str, text: &str, wanted: Option<Groups>, report: &mut Report) {
    let found = made.regex.groups_at(text.as_bytes(), 0);
    if found.as_ref().is_err_and(|it| it.status == UNSUPPORTED) {
        return;
    }
    let found = found.map(|it| it.map(|it| it.1));
    let kind = if made.is_loop { "with an empty loop" } else { "" };
    if found.as_ref() == Ok(&wanted) {
        report.add(&format!("groups of the {name} match that are the same {kind}"), wanted.map_or(0, |it| it.len() as u64));
        return report.count(&format!("{name} match has the same groups {kind}"));
    }
    let how = match &found {
        Ok(found) if lacks_groups(found, &wanted) => "apart: has all groups but the last ones, which can't take part",
        _ if made.is_loop => "apart: has other groups,",
        _ => "DIFFERS in groups",
    };
    report.count_with(&format!("{name} match {how} {kind}"), || {
        format!("{pattern:?} in {text:?}: {found:?}, {wanted:?} by RE2")
    });
}
