//! Prints the offsets of all matches of a pattern in standard input: find PATTERN < FILE

use hanneddois::{Error, Regex};
use std::io::{Read, Write};
use std::process::ExitCode;

/// Shows why a call failed, and at which byte of the pattern.
fn report(pattern: &str, error: &Error) {
    eprintln!("find: {}", error.message());
    if let Some(span) = error.span() {
        eprintln!("    {pattern}\n    {}^", " ".repeat(span.start));
    }
}

/// Prints all matches, and returns whether there is any.
fn find(pattern: &str, haystack: &[u8]) -> Result<bool, Error> {
    let regex = Regex::new(pattern)?;
    let mut output = std::io::BufWriter::new(std::io::stdout().lock());
    let mut has_match = false;
    for found in regex.find_iter(haystack) {
        let found = found?;
        has_match = true;
        if writeln!(output, "{} {}", found.start(), found.end()).is_err() {
            break;
        }
    }
    Ok(has_match)
}

fn main() -> ExitCode {
    let pattern = match std::env::args().nth(1) {
        Some(pattern) => pattern,
        None => {
            eprintln!("usage: find PATTERN < FILE");
            return 2.into();
        }
    };
    let mut haystack = Vec::new();
    if let Err(error) = std::io::stdin().read_to_end(&mut haystack) {
        eprintln!("find: {error}");
        return 2.into();
    }
    match find(&pattern, &haystack) {
        Ok(true) => 0.into(),
        Ok(false) => 1.into(),
        Err(error) => {
            report(&pattern, &error);
            2.into()
        }
    }
}
