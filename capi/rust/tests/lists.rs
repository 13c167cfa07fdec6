//! Lists of matches in the table that `capi/tests/lists.py` writes by Python's `re`.

use hanneddois::{Regex, RegexBuilder};

/// One row: the regex, the haystack and the spans.
fn read(row: &str) -> (Regex, Vec<u8>, Vec<(usize, usize)>) {
    let fields: Vec<&str> = row.split('\t').collect();
    let mut builder = RegexBuilder::new(fields[1]);
    match fields[0] {
        "bytes" => builder.unicode(false),
        "utf8" => builder.utf8(true),
        kind => panic!("there is no kind {kind}"),
    };
    let byte = |at| u8::from_str_radix(&fields[2][at..at + 2], 16).unwrap();
    let haystack = (0..fields[2].len()).step_by(2).map(byte).collect();
    let span = |it: &str| {
        let (start, end) = it.split_once('-').unwrap();
        (start.parse().unwrap(), end.parse().unwrap())
    };
    (builder.build().unwrap(), haystack, fields[3].split_whitespace().map(span).collect())
}

#[test]
fn lists_are_those_of_python() {
    let mut count = 0;
    for row in include_str!("../../tests/lists.txt").lines() {
        let (regex, haystack, spans) = read(row);
        let found: Vec<_> = regex.find_iter(&haystack).map(|it| it.map(|it| (it.start(), it.end())).unwrap()).collect();
        assert_eq!(found, spans, "find_iter: {row}");
        let found: Vec<_> = regex.find_all(&haystack).unwrap().iter().map(|it| (it.start(), it.end())).collect();
        assert_eq!(found, spans, "find_all: {row}");
        assert_eq!(regex.is_match(&haystack).unwrap(), !spans.is_empty(), "is_match: {row}");
        let first = regex.find(&haystack).unwrap().map(|it| (it.start(), it.end()));
        assert_eq!(first, spans.first().copied(), "find: {row}");
        count += 1;
    }
    assert!(count > 1000);
}
