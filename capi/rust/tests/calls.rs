//! What the calls return. Expected values are from the documentation of the crate `regex`, or were written by hand.

use hanneddois::{ErrorKind, Match, Matches, Regex, RegexBuilder, RegexSet, RegexSetBuilder, Searcher, SetMatches};

fn spans(regex: &Regex, haystack: &[u8]) -> Vec<(usize, usize)> {
    regex.find_iter(haystack).map(|it| it.map(|it| (it.start(), it.end())).unwrap()).collect()
}

#[test]
fn a_match_has_its_bytes_and_offsets() {
    let regex = Regex::new(r"[0-9]{3}-[0-9]{3}-[0-9]{4}").unwrap();
    let haystack = b"phone: 111-222-3333";
    let found = regex.find(haystack).unwrap().unwrap();
    assert_eq!((found.start(), found.end(), found.len(), found.is_empty()), (7, 19, 12, false));
    assert_eq!((found.range(), found.as_bytes(), found.pattern()), (7..19, &b"111-222-3333"[..], 0));
    assert_eq!(<&[u8]>::from(found), b"111-222-3333");
    assert_eq!(std::ops::Range::from(found), 7..19);
    assert_eq!(format!("{found:?}"), r#"Match { pattern: 0, start: 7, end: 19, bytes: "111-222-3333" }"#);
    assert_eq!(regex.find(b"phone: none").unwrap(), None);
}

#[test]
fn searches_from_an_offset_see_what_is_before_it() {
    let regex = Regex::new(r"\bchew\b").unwrap();
    assert!(regex.find_at(b"eschew", 2).unwrap().is_none());
    let regex = Regex::new("^a|b").unwrap();
    assert_eq!(regex.find_at(b"aab", 1).unwrap().unwrap().range(), 2..3);
    assert!(regex.find_at(b"aab", 3).unwrap().is_none());
    let error = regex.find_at(b"aab", 4).unwrap_err();
    assert_eq!(error.kind(), ErrorKind::BadArgument);
    assert_eq!(regex.find_at(b"aab", usize::MAX).unwrap_err().kind(), ErrorKind::BadArgument);
}

#[test]
fn empty_matches_go_on() {
    // Of a lazy pattern each search finds the empty match first, and the next begins a byte later.
    assert_eq!(spans(&Regex::new("a*?").unwrap(), b"aa"), [(0, 0), (1, 1), (2, 2)]);
    assert_eq!(spans(&Regex::new("|a").unwrap(), b"a"), [(0, 0), (1, 1)]);
    // Over bytes an empty match may be inside a character, and in UTF-8 mode it may not.
    let snowman = "\u{2603}".as_bytes();
    assert_eq!(spans(&Regex::new("").unwrap(), snowman), [(0, 0), (1, 1), (2, 2), (3, 3)]);
    assert_eq!(spans(&RegexBuilder::new("").utf8(true).build().unwrap(), snowman), [(0, 0), (3, 3)]);
    assert_eq!(spans(&Regex::new("").unwrap(), b""), [(0, 0)]);
}

#[test]
fn an_iterator_stays_at_its_end() {
    let regex = Regex::new("a").unwrap();
    let mut matches = regex.find_iter(b"a");
    assert_eq!(matches.next().unwrap().unwrap().range(), 0..1);
    assert!(matches.next().is_none());
    assert!(matches.next().is_none());
}

#[test]
fn a_haystack_may_be_any_bytes() {
    let regex = Regex::new(r"(?-u)\xff+").unwrap();
    assert_eq!(spans(&regex, b"\x00\xff\xff\x80\xff"), [(1, 3), (4, 5)]);
    let every: Vec<u8> = (0..=255).collect();
    assert_eq!(spans(&Regex::new(r"(?s-u).").unwrap(), &every).len(), 256);
    // From the documentation of `regex::bytes`: the bytes up to a NUL.
    let regex = Regex::new(r"(?-u)(?P<cstr>[^\x00]+)\x00").unwrap();
    let text = b"foo\xFFbar\x00baz\x00";
    assert_eq!(spans(&regex, text), [(0, 8), (8, 12)]);
}

#[test]
fn word_boundaries_in_what_is_not_ascii() {
    // The automata give up there, and slower regexes answer.
    let regex = Regex::new(r"\bk\b").unwrap();
    assert_eq!(spans(&regex, "k k ék —k".as_bytes()), [(0, 1), (2, 3), (11, 12)]);
    assert!(!regex.is_match("a é b".as_bytes()).unwrap());
}

#[test]
fn several_patterns_have_numbers() {
    let regex = Regex::new_many(["ab", "a", "cd"]).unwrap();
    let found: Vec<_> =
        regex.find_iter(b"cdxabaa").map(|it| it.unwrap()).map(|it| (it.pattern(), it.start())).collect();
    assert_eq!(found, [(2, 0), (0, 3), (1, 5), (1, 6)]);
    let matches = regex.matching_patterns(b"xab").unwrap();
    assert_eq!(matches.iter().collect::<Vec<_>>(), [0, 1]);
    assert_eq!(regex.patterns(), ["ab", "a", "cd"]);
    assert_eq!(Regex::new_many::<_, &str>([]).unwrap_err().kind(), ErrorKind::BadArgument);
}

#[test]
fn a_set_has_which_patterns_match() {
    let set = RegexSet::new(["b+", "x", "ab", "^b", "$"]).unwrap();
    let matches = set.matches(b"abba").unwrap();
    assert_eq!((matches.len(), matches.matched_any(), matches.matched_all()), (5, true, false));
    assert_eq!((0..5).map(|it| matches.matched(it)).collect::<Vec<_>>(), [true, false, true, false, true]);
    assert_eq!((&matches).into_iter().rev().collect::<Vec<_>>(), [4, 2, 0]);
    assert_eq!(matches.clone().into_iter().rev().collect::<Vec<_>>(), [4, 2, 0]);
    assert_eq!(matches.into_iter().collect::<Vec<_>>(), [0, 2, 4]);
    assert!(set.is_match(b"x").unwrap());
    assert_eq!((set.len(), set.is_empty(), set.patterns()[1].as_str()), (5, false, "x"));
    assert!(!RegexSet::new(["b", "c"]).unwrap().matches(b"aaa").unwrap().matched_any());
    assert!(RegexSet::new(["b", "c"]).unwrap().matches(b"cb").unwrap().matched_all());
}

#[test]
fn a_set_may_be_empty() {
    for set in [RegexSet::empty(), RegexSet::default(), RegexSet::new::<_, &str>([]).unwrap()] {
        assert!(!set.is_match(b"a").unwrap());
        let matches = set.matches(b"a").unwrap();
        assert_eq!((matches.len(), matches.matched_any(), matches.iter().count()), (0, false, 0));
        assert_eq!((set.len(), set.is_empty()), (0, true));
    }
}

#[test]
#[should_panic]
fn a_set_has_no_pattern_with_a_larger_number() {
    RegexSet::new(["a"]).unwrap().matches(b"a").unwrap().matched(1);
}

/// The span of the first match under one option.
fn first(pattern: &str, set: fn(&mut RegexBuilder) -> &mut RegexBuilder, haystack: &str) -> Option<(usize, usize)> {
    let mut builder = RegexBuilder::new(pattern);
    let regex = set(&mut builder).build().unwrap();
    regex.find(haystack.as_bytes()).unwrap().map(|it| (it.start(), it.end()))
}

#[test]
fn options_change_what_matches() {
    assert_eq!(first("ab", |it| it.case_insensitive(true), "xAB"), Some((1, 3)));
    assert_eq!(first("ab", |it| it.case_insensitive(true).case_insensitive(false), "xAB"), None);
    assert_eq!(first("^b", |it| it.multi_line(true), "a\nb"), Some((2, 3)));
    assert_eq!(first("a.b", |it| it.dot_matches_new_line(true), "a\nb"), Some((0, 3)));
    assert_eq!(first("a*", |it| it.swap_greed(true), "aa"), Some((0, 0)));
    assert_eq!(first("a b # comment", |it| it.ignore_whitespace(true), "ab"), Some((0, 2)));
    assert_eq!(first("(?m)^b", |it| it.crlf(true), "a\rb"), Some((2, 3)));
    assert_eq!(first(r"\141", |it| it.octal(true), "a"), Some((0, 1)));
    assert_eq!(first(r"\w+", |it| it.unicode(false), "éa"), Some((2, 3)));
    assert_eq!(first(r"\w+", |it| it.unicode(true), "éa"), Some((0, 3)));
    assert_eq!(first("(?:a*)*b", |it| it.empty_loops(true), "aab"), Some((0, 3)));
    let set = RegexSetBuilder::new(["a", "b"]).case_insensitive(true).utf8(true).build().unwrap();
    assert_eq!(set.matches("éB".as_bytes()).unwrap().iter().collect::<Vec<_>>(), [1]);
}

#[test]
fn other_options_do_not() {
    let options: [fn(&mut RegexBuilder) -> &mut RegexBuilder; 4] = [
        |it| it.byte_classes(false),
        |it| it.shrink(true),
        |it| it.dfa_size_limit(1).skip_cache_capacity_check(true),
        |it| it.matching_patterns(true),
    ];
    for set in options {
        assert_eq!(first("[a-y]{3,9}z", set, "abcdefgh ijklmnopqrz"), Some((10, 20)));
    }
}

#[test]
fn errors_say_where_and_why() {
    let error = Regex::new("a(b").unwrap_err();
    assert_eq!((error.kind(), error.pattern(), error.span()), (ErrorKind::Syntax, Some(0), Some(1..2)));
    assert_eq!((error.offset(), error.limit(), error.status()), (None, None, 5));
    assert_eq!(error.message(), "unclosed group");
    assert_eq!(error.to_string(), "unclosed group (pattern 0, bytes 1..2)");
    assert_eq!(format!("{error:?}"), "Error(Syntax: unclosed group (pattern 0, bytes 1..2))");
    let error = RegexSet::new(["a", "b", "*"]).unwrap_err();
    assert_eq!((error.kind(), error.pattern()), (ErrorKind::Syntax, Some(2)));
    let error = "[z-a]".parse::<Regex>().unwrap_err();
    assert_eq!((error.kind(), error.span()), (ErrorKind::Syntax, Some(1..4)));
    let error = Regex::try_from("(a*)*").unwrap_err();
    assert_eq!((error.kind(), error.pattern(), error.span()), (ErrorKind::EmptyLoop, Some(0), None));
}

#[test]
fn limits_reject_patterns() {
    let error = RegexBuilder::new("(((a)))").nest_limit(2).build().unwrap_err();
    assert_eq!(error.kind(), ErrorKind::NestsTooDeep);
    let error = RegexBuilder::new("[a-z]{100}").size_limit(100).build().unwrap_err();
    assert_eq!((error.kind(), error.limit()), (ErrorKind::TooLarge, Some(100)));
    let error = RegexBuilder::new("[a-z]+").dfa_size_limit(1).build().unwrap_err();
    assert_eq!(error.kind(), ErrorKind::CapacityTooSmall);
    assert!(error.limit().unwrap() > 1);
}

#[test]
fn utf8_mode_rejects_other_haystacks() {
    let regex = RegexBuilder::new("b").utf8(true).build().unwrap();
    let haystack = b"ab\xffb";
    let error = regex.is_match(haystack).unwrap_err();
    assert_eq!((error.kind(), error.offset(), error.pattern()), (ErrorKind::HaystackNotUtf8, Some(2), None));
    assert_eq!(error.to_string(), "the haystack is no UTF-8 (offset 2)");
    assert_eq!(regex.find(haystack).unwrap_err(), error);
    assert_eq!(regex.find_all(haystack).unwrap_err(), error);
    assert_eq!(regex.matching_patterns(haystack).unwrap_err(), error);
    let mut matches = regex.find_iter(haystack);
    assert_eq!(matches.next(), Some(Err(error)));
    assert_eq!(matches.next(), None);
    assert_eq!(RegexBuilder::new(r"(?-u:\xff)").utf8(true).build().unwrap_err().kind(), ErrorKind::Syntax);
}

#[test]
fn utf8_mode_checks_a_haystack_once_for_all_matches() {
    // A check for each match would read half a million times a megabyte, which takes a minute.
    let regex = RegexBuilder::new("[0-9]").utf8(true).build().unwrap();
    let haystack = b"1 ".repeat(1 << 19);
    let begun = std::time::Instant::now();
    assert_eq!(regex.find_iter(&haystack).count(), 1 << 19);
    assert!(begun.elapsed().as_secs() < 20);
}

#[test]
fn a_regex_prints_its_patterns() {
    let regex = Regex::try_from(String::from("a+")).unwrap();
    assert_eq!((regex.to_string(), format!("{regex:?}"), regex.as_str()), ("a+".into(), r#"Regex("a+")"#.into(), "a+"));
    let regex = Regex::new_many(["a", "b"]).unwrap();
    assert_eq!(format!("{regex:?}"), r#"Regex(["a", "b"])"#);
    assert_eq!(format!("{:?}", RegexSet::new(["a"]).unwrap()), r#"RegexSet(["a"])"#);
}

#[test]
fn searches_may_be_nested() {
    let outer = Regex::new("[a-z]+").unwrap();
    let mut found = Vec::new();
    for word in outer.find_iter(b"ab cd") {
        for inner in outer.find_iter(word.unwrap().as_bytes()) {
            found.push(inner.unwrap().as_bytes());
        }
    }
    assert_eq!(found, [b"ab", b"cd"]);
}

#[test]
fn threads_share_a_regex() {
    let regex = Regex::new(r"\b[a-z]+[0-9]\b").unwrap();
    let haystack = "ab1 é2 cd3 ".repeat(500).into_bytes();
    let expected = regex.find_iter(&haystack).count();
    assert_eq!(expected, 1000);
    std::thread::scope(|scope| {
        for _ in 0..8 {
            let mine = regex.clone();
            scope.spawn(|| assert_eq!(regex.find_iter(&haystack).count(), expected));
            scope.spawn(move || {
                for _ in 0..200 {
                    assert_eq!(mine.find(b"x ab1").unwrap().unwrap().range(), 2..5);
                }
            });
        }
    });
}

#[test]
fn searches_at_the_same_time_have_the_same_options() {
    let regex = RegexBuilder::new("^a.*z$").case_insensitive(true).multi_line(true).utf8(true).build().unwrap();
    let mut searchers: Vec<Searcher> = (0..5).map(|_| regex.searcher().unwrap()).collect();
    for searcher in &mut searchers {
        assert_eq!(searcher.find(b"x\nAbZ\n").unwrap().unwrap().range(), 2..5);
        assert_eq!(searcher.is_match(b"\xff").unwrap_err().kind(), ErrorKind::HaystackNotUtf8);
    }
}

#[test]
fn a_searcher_has_caches_of_its_own() {
    let regex = RegexBuilder::new("[a-z]{3,9}x").dfa_size_limit(1).skip_cache_capacity_check(true).build().unwrap();
    let mut searcher = regex.searcher().unwrap();
    assert_eq!(searcher.clear_count(), 0);
    for _ in 0..20 {
        assert!(searcher.is_match(b"abcdefgh ijklmnopqrx").unwrap());
    }
    assert!(searcher.clear_count() > 0);
    assert!(searcher.memory_usage() > 0);
    // Its caches are in use, so these are others.
    assert_eq!(regex.searcher().unwrap().clear_count(), 0);
    assert_eq!(searcher.find_all(b"aaax bbbx").unwrap().len(), 2);
    assert_eq!(searcher.find(b"aaax bbbx").unwrap().unwrap().range(), 0..4);
    assert!(searcher.matching_patterns(b"aaax").unwrap().matched(0));
    std::thread::scope(|scope| {
        scope.spawn(move || assert!(searcher.is_match(b"aaax").unwrap()));
    });
}

#[test]
fn caches_are_put_back() {
    let regex = RegexBuilder::new("[a-z]{3,9}x").dfa_size_limit(1).skip_cache_capacity_check(true).build().unwrap();
    let clear = |searcher: &mut Searcher| {
        for _ in 0..20 {
            assert!(searcher.is_match(b"abcdefgh ijklmnopqrx").unwrap());
        }
        searcher.clear_count()
    };
    let mut first = regex.searcher().unwrap();
    let mut second = regex.searcher().unwrap();
    let count = clear(&mut second);
    assert!(count > 0);
    drop(second);
    assert_eq!(regex.searcher().unwrap().clear_count(), count);
    clear(&mut first);
    let more = clear(&mut first);
    assert!(more > count);
    drop(first);
    assert_eq!(regex.searcher().unwrap().clear_count(), more);
}

#[test]
fn what_threads_may_do() {
    fn may_be_sent<T: Send>() {}
    fn may_be_shared<T: Sync>() {}
    may_be_sent::<Regex>();
    may_be_shared::<Regex>();
    may_be_sent::<RegexSet>();
    may_be_shared::<RegexSet>();
    may_be_sent::<Searcher<'static>>();
    may_be_sent::<Matches<'static, 'static>>();
    may_be_sent::<Match<'static>>();
    may_be_shared::<Match<'static>>();
    may_be_sent::<SetMatches>();
    fn may_unwind<T: std::panic::UnwindSafe + std::panic::RefUnwindSafe>() {}
    may_unwind::<Regex>();
    may_unwind::<RegexSet>();
}

#[test]
fn the_version_is_that_of_the_crate() {
    let part = |text: &str| text.parse::<u32>().unwrap();
    let crate_version = 10000 * part(env!("CARGO_PKG_VERSION_MAJOR"))
        + 100 * part(env!("CARGO_PKG_VERSION_MINOR"))
        + part(env!("CARGO_PKG_VERSION_PATCH"));
    assert_eq!(hanneddois::version(), crate_version);
}
