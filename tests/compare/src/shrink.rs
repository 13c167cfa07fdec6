//! Smaller cases that show the same.

/// Whether what is looked for is still shown by these patterns in this haystack.
pub type Shows<'a> = dyn Fn(&[String], &[u8]) -> bool + 'a;

/// Takes patterns, then parts of the haystack, then characters of the patterns away as long as it is still shown.
pub fn shrink(patterns: &[String], haystack: &[u8], shows: &Shows) -> (Vec<String>, Vec<u8>) {
    let (mut patterns, mut haystack) = (patterns.to_vec(), haystack.to_vec());
    loop {
        let before = (patterns.clone(), haystack.clone());
        drop_patterns(&mut patterns, &haystack, shows);
        cut_haystack(&patterns, &mut haystack, shows);
        cut_patterns(&mut patterns, &haystack, shows);
        if before == (patterns.clone(), haystack.clone()) {
            return before;
        }
    }
}

fn drop_patterns(patterns: &mut Vec<String>, haystack: &[u8], shows: &Shows) {
    let mut at = 0;
    while at < patterns.len() && patterns.len() > 1 {
        let mut fewer = patterns.clone();
        fewer.remove(at);
        if shows(&fewer, haystack) {
            *patterns = fewer;
        } else {
            at += 1;
        }
    }
}

fn cut_haystack(patterns: &[String], haystack: &mut Vec<u8>, shows: &Shows) {
    let mut size = haystack.len().max(1);
    while size > 0 {
        let mut at = 0;
        while at + size <= haystack.len() {
            let shorter = [&haystack[..at], &haystack[at + size..]].concat();
            if shows(patterns, &shorter) {
                *haystack = shorter;
            } else {
                at += 1;
            }
        }
        size = if size > 4 { size / 2 } else { size - 1 };
    }
}

fn cut_patterns(patterns: &mut [String], haystack: &[u8], shows: &Shows) {
    for number in 0..patterns.len() {
        for size in [8, 4, 3, 2, 1] {
            cut_pattern(patterns, number, size, haystack, shows);
        }
    }
}

/// Takes so many characters at a time out of one pattern.
fn cut_pattern(patterns: &mut [String], number: usize, size: usize, haystack: &[u8], shows: &Shows) {
    let mut at = 0;
    loop {
        let chars: Vec<char> = patterns[number].chars().collect();
        if at + size > chars.len() {
            return;
        }
        let shorter: String = chars[..at].iter().chain(&chars[at + size..]).collect();
        let old = std::mem::replace(&mut patterns[number], shorter);
        if !shows(patterns, haystack) {
            patterns[number] = old;
            at += 1;
        }
    }
}
