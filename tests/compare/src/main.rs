//! Compares the library with the crate `regex` in one process, and with RE2's tables of answers. README.md beside tells
//! what is compared; `run` builds and calls this.

mod groups;
mod haystacks;
#[cfg(feature = "heads")]
mod heads;
mod judge;
#[cfg(not(feature = "heads"))]
mod library;
mod ours;
mod patterns;
mod published;
mod random;
mod re2;
mod report;
mod settings;
mod shrink;
mod theirs;
mod trees;

use groups::{Kind, Run};
use report::Report;
use std::collections::HashMap;
use std::io::BufReader;
use std::path::Path;
use std::process::ExitCode;

type Arguments = HashMap<String, String>;

/// Arguments are pairs of a name and a value.
fn arguments() -> Arguments {
    let words: Vec<String> = std::env::args().skip(1).collect();
    words.chunks(2).map(|it| (it[0].clone(), it.get(1).cloned().unwrap_or_default())).collect()
}

fn number(arguments: &Arguments, name: &str, default: u64) -> u64 {
    arguments.get(name).map_or(default, |it| it.parse().unwrap_or_else(|_| panic!("{name} takes a number")))
}

fn kinds(arguments: &Arguments) -> Vec<Kind> {
    let names = arguments.get("--kinds").map_or("random,random,published,several", String::as_str);
    names
        .split(',')
        .map(|it| match it {
            "random" => Kind::Random,
            "published" => Kind::Published,
            "several" => Kind::Several,
            "large" => Kind::Large,
            _ => panic!("--kinds takes random, published, several and large"),
        })
        .collect()
}

fn compare_cases(arguments: &Arguments, report: &mut Report) {
    let tests = arguments.get("--tests").expect("--tests names that crate's tests");
    let published = published::read(Path::new(tests)).expect("that crate's tests can be read");
    println!("{} patterns of that crate's tests", published.len());
    let seed = number(arguments, "--seed", 1);
    let wanted = number(arguments, "--cases", 10_000);
    let haystacks = number(arguments, "--haystacks", 12) as usize;
    let largest = number(arguments, "--largest", 4000) as usize;
    let run = Run::new(seed, kinds(arguments), published, haystacks, largest);
    let (mut group, mut cases) = (number(arguments, "--group", 0), 0);
    let began = std::time::Instant::now();
    let seconds = number(arguments, "--seconds", u64::MAX);
    while cases < wanted && began.elapsed().as_secs() < seconds {
        cases += run.compare(group, report);
        group += 1;
    }
    println!("seed {seed}, groups before {group}");
}

fn compare_table(path: &str, every: u64, report: &mut Report) {
    let input: Box<dyn std::io::Read> = if path == "-" {
        Box::new(std::io::stdin())
    } else {
        Box::new(std::fs::File::open(path).expect("the table can be read"))
    };
    re2::compare(BufReader::new(input), every, report).expect("the table can be read");
}

fn main() -> ExitCode {
    let arguments = arguments();
    let mut report = Report::new(number(&arguments, "--show", 10) as usize);
    match arguments.get("--re2") {
        Some(path) => compare_table(path, number(&arguments, "--every", 1), &mut report),
        None => compare_cases(&arguments, &mut report),
    }
    report.print();
    let differs = report.sum("DIFFERS") + report.sum("whole match DIFFERS") + report.sum("first match DIFFERS");
    println!("\n{differs} cases differ beyond what is told apart");
    if differs == 0 { ExitCode::SUCCESS } else { ExitCode::FAILURE }
}
