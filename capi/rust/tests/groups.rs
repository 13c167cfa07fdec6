//! Groups, replacements and splits. Expected values are from the documentation of the crate `regex`, from Python's `re`,
//! or were written by hand.

use hanneddois::{Captures, ErrorKind, NoExpand, Regex, RegexBuilder, Replacer};
use std::borrow::Cow;

type Spans = Vec<Option<(usize, usize)>>;

fn spans(captures: &Captures) -> Spans {
    captures.iter().map(|it| it.map(|it| (it.start(), it.end()))).collect()
}

fn all_spans(regex: &Regex, haystack: &[u8]) -> Vec<Spans> {
    regex.captures_iter(haystack).map(|it| spans(&it.unwrap())).collect()
}

#[test]
fn groups_have_numbers_and_names() {
    let regex = Regex::new(r"(?<first>\w)(\w)?(?:\w)\w(?<last>\w)").unwrap();
    assert_eq!(regex.captures_len(), 4);
    assert_eq!(regex.capture_names().collect::<Vec<_>>(), [None, Some("first"), None, Some("last")]);
    let groups = regex.captures(b"- toady").unwrap().unwrap();
    assert_eq!(
        (&groups[0], &groups["first"], &groups[2], &groups["last"]),
        (&b"toady"[..], &b"t"[..], &b"o"[..], &b"y"[..])
    );
    assert_eq!((groups.len(), groups.pattern()), (4, 0));
    assert_eq!((groups.name("first").unwrap().range(), groups.name("none"), groups.get(4)), (2..3, None, None));
    assert!(groups.get(usize::MAX).is_none());
    assert!(regex.captures(b"abc").unwrap().is_none());
}

#[test]
fn a_group_may_take_no_part() {
    let regex = Regex::new("(a)|(b)(c)?").unwrap();
    let found = all_spans(&regex, b"ab-bc");
    assert_eq!(found[0], [Some((0, 1)), Some((0, 1)), None, None]);
    assert_eq!(found[1], [Some((1, 2)), None, Some((1, 2)), None]);
    assert_eq!(found[2], [Some((3, 5)), None, Some((3, 4)), Some((4, 5))]);
}

#[test]
fn the_last_round_of_a_loop_counts() {
    let regex = Regex::new("(?:([a-z])=([0-9]+);?)+").unwrap();
    assert_eq!(all_spans(&regex, b"a=1;b=22"), [[Some((0, 8)), Some((4, 5)), Some((6, 8))]]);
}

#[test]
fn groups_count_within_their_pattern() {
    let regex = Regex::new_many(["(x)(?<y>y)", "(?<z>z)"]).unwrap();
    let found: Vec<_> = regex.captures_iter(b"z xy").map(Result::unwrap).collect();
    assert_eq!((found[0].pattern(), found[0].len(), &found[0]["z"]), (1, 2, &b"z"[..]));
    assert_eq!((found[1].pattern(), found[1].len(), &found[1]["y"]), (0, 3, &b"y"[..]));
    assert!(found[0].name("y").is_none());
    assert_eq!(regex.group_names(1), [None, Some("z".to_owned())]);
}

#[test]
fn searches_begin_at_an_offset() {
    let regex = Regex::new(r"\b(a)").unwrap();
    assert_eq!(regex.captures_at(b"aa a", 1).unwrap().unwrap().get(1).unwrap().range(), 3..4);
    assert_eq!(regex.captures_at(b"a", 2).unwrap_err().kind(), ErrorKind::BadArgument);
    assert_eq!(regex.searcher().unwrap().captures(b"-a").unwrap().unwrap().get(0).unwrap().range(), 1..2);
}

#[test]
fn empty_matches_go_on() {
    for utf8 in [false, true] {
        let regex = RegexBuilder::new("(x*)").utf8(utf8).build().unwrap();
        let found = all_spans(&regex, b"axxb");
        assert_eq!(found.iter().map(|it| it[1].unwrap()).collect::<Vec<_>>(), [(0, 0), (1, 3), (4, 4)]);
    }
}

#[test]
fn utf8_mode_rejects_other_haystacks() {
    let regex = RegexBuilder::new("(b)").utf8(true).build().unwrap();
    assert_eq!(all_spans(&regex, "bé b".as_bytes()), [[Some((0, 1)); 2], [Some((4, 5)); 2]]);
    assert_eq!(regex.captures(b"b\xff").unwrap_err().kind(), ErrorKind::HaystackNotUtf8);
    let mut found = regex.captures_iter(b"b\xff");
    assert_eq!(found.next().unwrap().unwrap_err().kind(), ErrorKind::HaystackNotUtf8);
    assert!(found.next().is_none());
}

#[test]
fn utf8_mode_splits_no_character() {
    let regex = RegexBuilder::new("(x?)").utf8(true).build().unwrap();
    let found = all_spans(&regex, "éx€".as_bytes());
    assert_eq!(found.iter().map(|it| it[1].unwrap()).collect::<Vec<_>>(), [(0, 0), (2, 3), (6, 6)]);
    let replaced = regex.replace_all("éx€".as_bytes(), "<$1>").unwrap();
    assert_eq!(String::from_utf8(replaced.into_owned()).unwrap(), "<>é<x>€<>");
    let none = RegexBuilder::new("(z)").utf8(true).build().unwrap();
    assert!(none.captures_iter("é".as_bytes()).next().is_none());
}

#[test]
fn empty_loops_have_the_end_that_is_preferred() {
    let regex = RegexBuilder::new("(?:(a)|b*)*").empty_loops(true).build().unwrap();
    assert_eq!(regex.captures(b"aab-").unwrap().unwrap().get(0).unwrap().range(), 0..3);
    for utf8 in [false, true] {
        let regex = RegexBuilder::new("(a*)*b").empty_loops(true).utf8(utf8).build().unwrap();
        assert_eq!(regex.captures_iter(b"aabb").count(), 2);
    }
}

#[test]
fn the_same_replacement_serves_again() {
    let mut count = 0;
    let mut by = |_: &Captures| {
        count += 1;
        b"-"
    };
    let regex = Regex::new("a").unwrap();
    assert_eq!(regex.replace_all(b"aa", by.by_ref()).unwrap(), &b"--"[..]);
    assert_eq!(regex.replace(b"aa", by.by_ref()).unwrap(), &b"-a"[..]);
    assert_eq!(count, 3);
    assert_eq!(regex.replace(b"a", *b"[$0]").unwrap(), &b"[a]"[..]);
    assert_eq!(regex.replace(b"a", Cow::Borrowed(&b"$0$0"[..])).unwrap(), &b"aa"[..]);
}

fn replaced(pattern: &str, haystack: &str, template: &str) -> String {
    String::from_utf8(Regex::new(pattern).unwrap().replace_all(haystack.as_bytes(), template).unwrap().into()).unwrap()
}

#[test]
fn templates_refer_to_groups() {
    assert_eq!(replaced("(?<y>[0-9]{4})-([0-9]{2})", "2024-12 2025-01", "$2/$y"), "12/2024 01/2025");
    assert_eq!(replaced("(a)(b)?", "ab a", "[${1}x$2]"), "[axb] [ax]");
    assert_eq!(replaced("(a)", "a", "$1x"), "");
    assert_eq!(replaced("(a)", "a", "$$1 $ ${} $- ${"), "$1 $  $- ${");
    assert_eq!(replaced("(a)", "a", "<${ ${}>$"), "<>$");
    assert_eq!(replaced("(a)", "a", "$9$none${none}$99999999999999999999"), "");
    assert_eq!(replaced("x*", "axb", "-"), "-a-b-");
    let regex = Regex::new("(?<a>x)").unwrap();
    let mut to = b"<".to_vec();
    regex.captures(b"x").unwrap().unwrap().expand(b"$a$0$$", &mut to);
    assert_eq!(to, b"<xx$");
}

#[test]
fn functions_replace() {
    let regex = Regex::new("[a-z]+").unwrap();
    let upper = |groups: &Captures| groups[0].to_ascii_uppercase();
    assert_eq!(regex.replace_all(b"ab 1 cd", upper).unwrap(), &b"AB 1 CD"[..]);
    assert_eq!(regex.replace(b"ab 1 cd", upper).unwrap(), &b"AB 1 cd"[..]);
    assert_eq!(regex.replacen(b"a b c", 2, NoExpand(b"$0")).unwrap(), &b"$0 $0 c"[..]);
    assert_eq!(regex.replacen(b"a b c", 2, "$0$0").unwrap(), &b"aa bb c"[..]);
    assert!(matches!(regex.replace_all(b"12", "x").unwrap(), Cow::Borrowed(b"12")));
    assert!(matches!(regex.replace_all(b"12", "$0").unwrap(), Cow::Borrowed(b"12")));
}

#[test]
fn splits_are_between_matches() {
    let split = |pattern: &str, haystack: &str, limit: usize| {
        let regex = Regex::new(pattern).unwrap();
        let parts: Vec<_> = regex
            .splitn(haystack.as_bytes(), limit)
            .map(|it| String::from_utf8(it.unwrap().to_vec()).unwrap())
            .collect();
        parts
    };
    assert_eq!(split(r"\W+", "Hey! How are you?", 3), ["Hey", "How", "are you?"]);
    assert_eq!(split("X", "lionXXtigerXleopard", 99), ["lion", "", "tiger", "leopard"]);
    assert_eq!(split("0", "010", 99), ["", "1", ""]);
    assert_eq!(split("", "rust", 99), ["", "r", "u", "s", "t", ""]);
    assert_eq!(split("X", "", 99), [""]);
    assert_eq!(split("X", "abcXdef", 1), ["abcXdef"]);
    assert!(split("X", "abcXdef", 0).is_empty());
    let parts: Vec<_> = Regex::new("-").unwrap().split(b"a-b").collect::<Result<_, _>>().unwrap();
    assert_eq!(parts, [b"a", b"b"]);
}
