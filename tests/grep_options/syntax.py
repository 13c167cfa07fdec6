"""Patterns of GNU grep's extended (-E) and basic (-G) syntax that are rejected here or mean something else, one or two of each kind that
docs/DIFFERENCES.md lists. What a pattern selects here is written by hand, from the grammar of the crate regex; GNU grep has to do
otherwise, else the page says too much."""

LINES = ("", "a", "b", "ab", "aa", "d", "n", "7", "ä", "]", "a]", ")", "a)", "(a)", "{", "a{", "+", "a+")
LINES += ("?", "|", "\\", "&", "-", "~", ".", "=", "a^", "`a'", "\t")
WITH_A = ("a", "ab", "aa", "a]", "a)", "(a)", "a{", "a+", "a^", "`a'")

REJECTED = {
    "-E": ") a) *a +a ?a (*a) a|*b {1}a { a{ a{1 a{x a{,2}b (a)\\1 [a[b] \\y \\ä (?a)".split(),
    "-G": ["(", ")", "*a", "\\(*a\\)b)", "{", "a{", "\\(a\\)\\1", "[a[b]", "\\y"],
}

# by kind: the syntax that reads it otherwise, the pattern, and the lines that it selects here
OTHER = [
    # a question mark after a repetition asks for fewer rounds
    ("-E", "a+?", WITH_A),
    ("-E", "a{2}?", ("aa",)),
    # groups with flags and names
    ("-E", "(?:a)b", ("ab",)),
    ("-E", "(?i)Ä", ("ä",)),
    ("-E", "(?<x>a)b", ("ab",)),
    # letters after a backslash
    ("-E", "^\\d", ("7",)),
    ("-E", "\\n", ()),
    ("-E", "\\t", ("\t",)),
    ("-E", "\\x62", ("b", "ab")),
    ("-E", "^\\a", ()),
    ("-E", "\\pN", ("7",)),
    ("-E", "\\Ab", ("b",)),
    ("-E", "b\\z", ("b", "ab")),
    # quotes after a backslash
    ("-E", "\\`a", ("`a'",)),
    ("-E", "a\\'", ("`a'",)),
    # classes
    ("-E", "[\\d]", ("7",)),
    ("-E", "[\\]]", ("]", "a]")),
    ("-E", "[7[d]]", ("d", "7")),
    ("-E", "[a&&b]", ()),
    ("-E", "[a--b]b", ("ab",)),
    ("-E", "[b~~&]", ("b", "ab", "&")),
    ("-E", "[[.b.]]", ("b", "ab", ".")),
    ("-E", "[[=b=]]", ("b", "ab", "=")),
    ("-E", "^[[:alpha:]]$", ("a", "b", "d", "n")),
    ("-E", "^[[:^alpha:]]$", ("7", "ä", "]", ")", "{", "+", "?", "|", "\\", "&", "-", "~", ".", "=", "\t")),
    # basic syntax: signs with and without a backslash
    ("-G", "a+$", ("a", "aa")),
    ("-G", "a\\+", ("a+",)),
    ("-G", "b?a$", ("a", "aa")),
    ("-G", "d|7", ("d", "7")),
    ("-G", "d\\|7", ()),
    ("-G", "(b)", ("b", "ab")),
    ("-G", "\\(a\\)", ("(a)",)),
    ("-G", "a{2}", ("aa",)),
    ("-G", "a\\{2\\}", ()),
    ("-G", "^*b$", ("b", "ab")),
    ("-G", "a^", ()),
    ("-G", "^^b", ("b",)),
    ("-G", "b$$", ("b", "ab")),
]
