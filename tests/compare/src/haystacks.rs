//! Random haystacks, and such as patterns are made for.

use crate::random::Random;
use crate::trees::{parts_of, rounds_of};
use regex_syntax::hir::{Class, Hir, HirKind, Literal};

const CHARS: [char; 24] = [
    'a', 'b', 'c', 'A', 'B', 'k', 's', 'z', '0', '1', '_', 'x', ' ', '\n', '.', '-', 'é', 'ß', 'σ', 'Σ', 'K', 'ſ', '中',
    '💩',
];
const BYTES: [u8; 8] = [0xFF, 0x80, 0xC3, 0xA9, 0xE4, 0xB8, 0xF0, 0x00];

/// How a haystack was made.
#[derive(Clone, Copy, Debug, PartialEq, Eq, PartialOrd, Ord)]
pub enum Made {
    Random,
    Derived,
    Edited,
    Broken,
}

/// A haystack for these trees. One that is `Broken` is mostly no UTF-8, all others are.
pub fn haystack(random: &mut Random, trees: &[Hir]) -> (Made, Vec<u8>) {
    match random.below(8) {
        0..=1 => (Made::Random, random_text(random)),
        2..=4 => (Made::Derived, only_text(derived(random, trees))),
        5..=6 => (Made::Edited, only_text(edited(random, trees))),
        _ => (Made::Broken, broken(random, trees)),
    }
}

/// A text as far as it is one: the bytes that are no UTF-8 are replaced.
fn only_text(bytes: Vec<u8>) -> Vec<u8> {
    match String::from_utf8(bytes) {
        Ok(text) => text.into_bytes(),
        Err(error) => String::from_utf8_lossy(error.as_bytes()).into_owned().into_bytes(),
    }
}

fn random_text(random: &mut Random) -> Vec<u8> {
    let length = if random.once_in(20) { random.between(60, 400) } else { random.below(24) };
    let few = random.between(2, CHARS.len());
    let from = random.below(CHARS.len());
    let text: String = (0..length).map(|_| CHARS[(from + random.below(few)) % CHARS.len()]).collect();
    text.into_bytes()
}

fn push_char(out: &mut Vec<u8>, c: char) {
    out.extend_from_slice(c.encode_utf8(&mut [0; 4]).as_bytes());
}

/// Several texts that trees match, looks aside, with a few characters between some.
fn derived(random: &mut Random, trees: &[Hir]) -> Vec<u8> {
    let mut out = Vec::new();
    let count = if random.once_in(16) { random.between(8, 24) } else { random.between(1, 4) };
    for _ in 0..count {
        if random.once_in(2) {
            push_char(&mut out, *random.pick(&CHARS));
        }
        let tree = random.pick(trees);
        sample(random, tree, &mut out);
        if out.len() > 600 {
            break;
        }
    }
    out
}

/// The same, with a few characters changed.
fn edited(random: &mut Random, trees: &[Hir]) -> Vec<u8> {
    let text = String::from_utf8_lossy(&derived(random, trees)).into_owned();
    let mut chars: Vec<char> = text.chars().collect();
    for _ in 0..random.between(1, 4) {
        let at = random.below(chars.len() + 1);
        match random.below(3) {
            0 => chars.insert(at, *random.pick(&CHARS)),
            1 if at < chars.len() => chars[at] = *random.pick(&CHARS),
            _ if at < chars.len() => {
                chars.remove(at);
            }
            _ => {}
        }
    }
    chars.into_iter().collect::<String>().into_bytes()
}

/// The same, with a few bytes changed.
fn broken(random: &mut Random, trees: &[Hir]) -> Vec<u8> {
    let mut bytes = if random.once_in(4) { random_text(random) } else { derived(random, trees) };
    for _ in 0..random.between(1, 4) {
        let at = random.below(bytes.len() + 1);
        let byte = if random.once_in(2) { random.next() as u8 } else { *random.pick(&BYTES) };
        match random.below(3) {
            0 => bytes.insert(at, byte),
            1 if at < bytes.len() => bytes[at] = byte,
            _ if at < bytes.len() => {
                bytes.remove(at);
            }
            _ => {}
        }
    }
    bytes
}

fn char_between(random: &mut Random, low: char, high: char) -> char {
    for _ in 0..4 {
        let number = random.between(low as usize, high as usize);
        if let Some(c) = char::from_u32(number as u32) {
            return c;
        }
    }
    low
}

/// A character of a class of characters: one of a few where the class has some of them, else any.
fn char_of(random: &mut Random, ranges: &[(char, char)]) -> Option<char> {
    let known = *random.pick(&CHARS);
    if ranges.iter().any(|range| range.0 <= known && known <= range.1) {
        return Some(known);
    }
    if ranges.is_empty() {
        return None;
    }
    let (low, high) = *random.pick(ranges);
    let end = if random.once_in(4) { high } else { low };
    Some(if random.once_in(2) { end } else { char_between(random, low, high) })
}

fn sample_class(random: &mut Random, class: &Class, out: &mut Vec<u8>) {
    match class {
        Class::Unicode(it) => {
            let ranges: Vec<(char, char)> = it.ranges().iter().map(|range| (range.start(), range.end())).collect();
            if let Some(c) = char_of(random, &ranges) {
                push_char(out, c);
            }
        }
        Class::Bytes(it) => {
            if !it.ranges().is_empty() {
                let range = random.pick(it.ranges());
                out.push(random.between(range.start() as usize, range.end() as usize) as u8);
            }
        }
    }
}

/// Adds a text that the tree matches where its looks hold.
fn sample(random: &mut Random, tree: &Hir, out: &mut Vec<u8>) {
    match tree.kind() {
        HirKind::Literal(Literal::Unicode(c)) => push_char(out, *c),
        HirKind::Literal(Literal::Byte(b)) => out.push(*b),
        HirKind::Class(class) => sample_class(random, class, out),
        HirKind::Alternation(parts) => {
            let part = random.below(parts.len());
            sample(random, &parts[part], out);
        }
        HirKind::Repetition(it) => {
            let (low, high) = rounds_of(it);
            let most = high.unwrap_or(low + 4).min(low + 4);
            for _ in 0..random.between(low as usize, most as usize).min(60) {
                sample(random, &it.hir, out);
            }
        }
        _ => {
            for part in parts_of(tree) {
                sample(random, part, out);
            }
        }
    }
}
