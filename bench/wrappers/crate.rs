//! The tasks of `bare.c` through the crate for Rust, and those of a line by a searcher too.

use hanneddois::{Error, Regex, RegexBuilder};
use std::hint::black_box;

const CALLS: u32 = 20_000;
const LINE_ROUNDS: u32 = 100;
const LIST_ROUNDS: u32 = 7;
const LIST_BYTES: usize = 16 << 20;
const LINE: &[u8] = b"user=ben id=42 failed now";
const UNIT: &[u8] = b"2018-12-24 08:02:44 WARN  disk /var at 91% of 40 GB\n";

extern "C" {
    fn clock() -> std::os::raw::c_long;
}

/// Processor time in ns: the C library counts microseconds.
fn now() -> f64 {
    // SAFETY: the call takes nothing.
    (unsafe { clock() }) as f64 * 1e3
}

fn measure<F: FnMut() -> Result<usize, Error>>(task: &str, rounds: u32, each: u32, mut work: F) -> Result<(), Error> {
    let mut least = f64::MAX;
    for _ in 0..rounds {
        let begun = now();
        for _ in 0..each {
            black_box(work()?);
        }
        least = least.min((now() - begun) / f64::from(each));
    }
    println!("{task}\t{least:.1}");
    Ok(())
}

fn search_all(task: &str, pattern: &str, utf8: bool, haystack: &[u8]) -> Result<(), Error> {
    let regex = RegexBuilder::new(pattern).utf8(utf8).build()?;
    measure(task, LIST_ROUNDS, 1, || {
        let mut starts = 0;
        for found in regex.find_iter(haystack) {
            starts += found?.start();
        }
        Ok(starts)
    })
}

fn main() -> Result<(), Error> {
    let haystack: Vec<u8> = UNIT.iter().copied().cycle().take(LIST_BYTES).collect();
    let end = |found: Option<hanneddois::Match>| found.map_or(0, |it| it.end());
    let regex = Regex::new("[0-9]+")?;
    measure("is_match", LINE_ROUNDS, CALLS, || regex.is_match(black_box(LINE)).map(usize::from))?;
    measure("find", LINE_ROUNDS, CALLS, || regex.find(black_box(LINE)).map(end))?;
    let mut searcher = regex.searcher()?;
    measure("is_match by a searcher", LINE_ROUNDS, CALLS, || searcher.is_match(black_box(LINE)).map(usize::from))?;
    measure("find by a searcher", LINE_ROUNDS, CALLS, || searcher.find(black_box(LINE)).map(end))?;
    search_all("dates", "[0-9]{4}-[0-9]{2}-[0-9]{2}", false, &haystack)?;
    search_all("words", "[A-Za-z]+", false, &haystack)?;
    search_all("dates, UTF-8", "[0-9]{4}-[0-9]{2}-[0-9]{2}", true, &haystack)
}
