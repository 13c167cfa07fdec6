"""Why tests of GNU grep and ripgrep aren't passed, where what is printed doesn't say it."""

GREP_HABIT = "the habit of GNU grep"
WORDING = "the words of a message"
NOTICE = WORDING + ": the notice of a binary file"
AFTER_ZERO = "lines before the first zero byte of a skipped file aren't searched"
LOCALE = "the locale's characters: text is UTF-8 in every locale"
ENCODING = "another encoding, or a mark of it at the beginning of a file"

PRE = "the option `--pre` isn't there, and is taken for the beginning of `--pretty`"

RIPGREP = {
    "feature f196_persistent_config": "no file of options is read",
    "feature f411_single_threaded_search_stats": WORDING + ", which `--stats` prints to standard error",
    "feature f411_parallel_search_stats": WORDING + ", which `--stats` prints to standard error",
    "json r1095_crlf_empty_match": GREP_HABIT + ": a line feed in an argument separates patterns",
    "regression r1311_multi_line_term_replace": GREP_HABIT + ": a line feed in an argument separates patterns",
    "misc preprocessing": PRE,
    "misc preprocessing_glob": PRE,
    "feature f416_crlf_only_matching": "with `--crlf`, what isn't a whole line ends by a line feed",
    "feature f740_passthru": GREP_HABIT + ": `-o` prints no context lines",
    "feature f1_sjis": ENCODING,
    "feature f1_utf16_explicit": ENCODING,
    "feature f1_eucjp": ENCODING,
    "feature f1_utf16_auto": ENCODING,
    "feature f1207_auto_encoding": ENCODING,
    "regression r1163": ENCODING,
    "regression r1638": ENCODING,
    "misc include_zero_override": GREP_HABIT + ": `-c` prints 0 for files without a selected line",
    "feature f1404_nothing_searched_warning": "no warning that no file was searched",
    "regression r1446_respect_excludes_in_worktree": "`.git/info/exclude` is read in the main work tree alone",
    "regression r210": "a name that isn't UTF-8",
    "json notutf8": "a name that isn't UTF-8",
    "regression r599": "`--color` has the words of GNU grep",
    "regression r1130": GREP_HABIT + ": the status of `-L` says whether a line is selected",
}
for _name in """misc:unrestricted3 misc:binary_convert misc:binary_convert_mmap binary:after_match1_explicit binary:after_match1_stdin
binary:after_match1_implicit_binary binary:before_match1_explicit binary:before_match1_implicit_binary binary:before_match2_explicit""".split():
    RIPGREP[_name.replace(":", " ")] = NOTICE
for _name in """binary:after_match1_implicit binary:after_match1_implicit_path binary:after_match1_implicit_quiet
binary:after_match2_implicit""".split():
    RIPGREP[_name.replace(":", " ")] = AFTER_ZERO

GNU = {
    "bre": "rows of its table: see below",
    "spencer1": "rows of its table: see below",
    "spencer1-locale": "rows of its table: see below",
    "ere": "rows of its table: see below",
    "backref": "references to groups",
    "backref-multibyte-slow": "references to groups",
    "dfa-invalid-utf8": "references to groups",
    "unibyte-binary": LOCALE,
    "encoding-error": "bytes that aren't UTF-8 make no file binary",
    "c-locale": LOCALE,
    "pcre-utf8": LOCALE,
    "equiv-classes": LOCALE,
    "sjis-mb": LOCALE,
    "turkish-eyes": LOCALE,
    "filename-lineno.pl": WORDING,
    "help-version": WORDING + ": what `--help` and `--version` print",
    "reversed-range-endpoints": WORDING,
    "stack-overflow": "patterns of any depth are accepted, or too large",
    "pcre-abort": "no pattern makes a search give up",
    "posix-bracket": "`[.a.]` in brackets",
}
