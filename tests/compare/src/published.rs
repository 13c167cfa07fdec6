//! Patterns of that crate's own tests, read from its sources as the system's package installs them.

use std::path::Path;

/// A pattern of a test, with its haystack where the test has one.
pub struct Published {
    pub pattern: String,
    pub haystack: Option<Vec<u8>>,
}

/// The text of the literal at the beginning of some source, and what stands behind it.
fn literal(source: &str) -> Option<(String, &str)> {
    let source = source.trim_start();
    if let Some(rest) = source.strip_prefix('"') {
        return escaped(rest);
    }
    let rest = source.strip_prefix('r')?;
    let marks = rest.len() - rest.trim_start_matches('#').len();
    let rest = rest[marks..].strip_prefix('"')?;
    let end = format!("\"{}", "#".repeat(marks));
    let at = rest.find(&end)?;
    Some((rest[..at].to_string(), &rest[at + end.len()..]))
}

/// The text of a literal with escapes, behind its first mark.
fn escaped(source: &str) -> Option<(String, &str)> {
    let mut text = String::new();
    let mut rest = source;
    loop {
        let c = rest.chars().next()?;
        rest = &rest[c.len_utf8()..];
        match c {
            '"' => return Some((text, rest)),
            '\\' => rest = escape(rest, &mut text)?,
            _ => text.push(c),
        }
    }
}

/// Adds what an escape stands for, and tells what stands behind it.
fn escape<'a>(source: &'a str, text: &mut String) -> Option<&'a str> {
    let c = source.chars().next()?;
    let rest = &source[c.len_utf8()..];
    match c {
        'n' => text.push('\n'),
        't' => text.push('\t'),
        'r' => text.push('\r'),
        '0' => text.push('\0'),
        'x' => {
            text.push(u8::from_str_radix(rest.get(..2)?, 16).ok()? as char);
            return Some(&rest[2..]);
        }
        'u' => {
            let end = rest.find('}')?;
            text.push(char::from_u32(u32::from_str_radix(rest.get(1..end)?, 16).ok()?)?);
            return Some(&rest[end + 1..]);
        }
        '\n' => return Some(rest.trim_start()),
        _ => text.push(c),
    }
    Some(rest)
}

/// The patterns of the calls of macros in a source, as `mat!(name, "pattern", "haystack", ..)`.
fn of_source(source: &str, found: &mut Vec<Published>) {
    let mut rest = source;
    while let Some(at) = rest.find("!(") {
        rest = &rest[at + 2..];
        let Some(comma) = rest.find(',') else { continue };
        let name = rest[..comma].trim();
        if name.is_empty() || !name.chars().all(|c| c.is_alphanumeric() || c == '_') {
            continue;
        }
        let Some((pattern, behind)) = literal(&rest[comma + 1..]) else { continue };
        let text = behind.trim_start().strip_prefix(',').and_then(literal);
        found.push(Published { pattern, haystack: text.map(|it| it.0.into_bytes()) });
        rest = behind;
    }
}

/// The patterns of all tests in a folder, in the order of the files' names.
pub fn read(folder: &Path) -> std::io::Result<Vec<Published>> {
    let mut paths: Vec<_> = std::fs::read_dir(folder)?.filter_map(|it| it.ok().map(|it| it.path())).collect();
    paths.retain(|it| it.extension().is_some_and(|it| it == "rs"));
    paths.sort();
    let mut found = Vec::new();
    for path in paths {
        of_source(&std::fs::read_to_string(path)?, &mut found);
    }
    Ok(found)
}
