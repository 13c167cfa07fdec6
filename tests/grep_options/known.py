"""Where GNU grep 3.8, or ripgrep 13, is known to do otherwise than hirgrep: each case with its reason. docs/DIFFERENCES.md has the same
for users. A case that stands in no entry has to be the same, byte for byte."""

import re
from dataclasses import dataclass, replace

from .files import FILES
from .options import Pattern, asked_of
from .report import are_strings, in_order, report

# files with bytes that aren't UTF-8
BROKEN = {"broken", "cut", "latin", "cr_broken", "beyond"}
# files with characters that aren't ASCII
LETTERS = {"letters", "wide", "bom"}
# files in which a carriage return stands elsewhere than at the end of a line, or the last line has one and no line feed
LONE = {"crlf_some", "crlf_open", "cr_lone", "cr_only", "crcr"}


@dataclass(frozen=True)
class Case:
    options: tuple
    pattern: Pattern
    files: tuple

    def has(self, *names):
        return any(it.name in names for it in self.options)

    def reads(self, names):
        return not names.isdisjoint(self.files)

    def has_empty_pattern(self):
        return self.pattern.text == "" or self.has("-f patterns_empty")

    def may_be_empty(self):
        return self.has_empty_pattern() or self.pattern.may_be_empty and not self.has("-F")

    def asked(self):
        return asked_of(self.pattern, self.options)

    def data(self):
        return {it: FILES[it] for it in self.files}


def takes_what_is_no_character(case):
    """GNU grep takes three and four bytes for a character that spell a surrogate, or a number above 10FFFF."""
    return case.reads({"beyond"})


def takes_fewer_than_none(case):
    """With -v and a negative number for -m GNU grep 3.8 selects no line, and without -v all."""
    return case.has("-v") and case.has("-m-1")


def is_perl_beyond_ascii(case):
    """With -P words, digits and spaces are those of ASCII in GNU grep 3.8, and \\A holds after bytes that aren't UTF-8."""
    return case.pattern.syntax == "-P" and case.reads(LETTERS | BROKEN)


def asks_for_words_next_to_broken_bytes(case):
    """Next to a byte that isn't UTF-8 `\\b` never holds for GNU grep, and `\\B` always. Here such a byte is no word for `\\b`, and `\\B`
    doesn't hold."""
    return ("\\b" in case.pattern.text or "\\B" in case.pattern.text) and case.reads(BROKEN)


def is_a_word_next_to_broken_bytes(case):
    """With -w a byte that isn't UTF-8 is no word for GNU grep. Here it counts as none only next to a match's own word character."""
    return case.has("-w") and case.reads(BROKEN) and not (case.pattern.begins_and_ends_words and not case.may_be_empty())


def is_the_empty_word(case):
    """With -w GNU grep tries shorter matches after a longer one, but not the empty match."""
    return case.has("-w") and case.may_be_empty() and not case.pattern.begins_and_ends_words


def is_by_the_order_of_patterns(case):
    """Of several patterns that aren't all strings the first that matches at a place counts, and in GNU grep the longest match: it shows with
    -o and in colours."""
    asked = case.asked()
    if len(asked.patterns) == 1 or are_strings(asked) or not (asked.matches or asked.color):
        return False
    return report(asked, case.data()) != report(replace(asked, patterns=asked.patterns[::-1]), case.data())


def is_the_longest_string(case):
    """Of several strings that match at a place the longest counts, as in GNU grep, and for ripgrep the first."""
    asked = case.asked()
    return are_strings(asked) and list(in_order(asked)) != list(asked.patterns)


def has_other_returns(case):
    """ripgrep takes the carriage return of a last line without a line feed for its end, skips two before a line feed for `$`, and no
    class, `.` or pattern matches one anywhere."""
    return case.reads(LONE) or case.has("-f patterns_cr")


def is_another_word(case):
    """ripgrep 13's -w takes a character that is no word in before and after a match, which differs for empty matches, for bytes that
    aren't UTF-8, with -o and in colours; and of -w and -x the last one counts."""
    return case.has("-w") and (
        case.reads(BROKEN) or case.may_be_empty() or case.has("-o", "-x", "-p") or not case.pattern.begins_and_ends_words
    )


def prints_empty_matches(case):
    """ripgrep's -o prints empty matches as empty lines, and lines with -v; with -c it counts matches."""
    return case.has("-o") and (case.may_be_empty() or case.has("-v", "-c"))


def is_the_start_of_the_file(case):
    """`\\A` is the start of the file for ripgrep, and that of the line here."""
    return "\\A" in case.pattern.text


def misses_matches(case):
    """ripgrep 13 finds one match in `xab abx` of the patterns `\\Ba` and `x`, of which there are three."""
    return case.has("-o", "--count-matches", "--color=always", "-p", "--vimgrep") and case.pattern.text == "\\Ba" and len(case.asked().patterns) > 1


def asks_for_words_after_the_end(case):
    """With --crlf ripgrep 13 reads `$` as `\\r??$`. In an alternation as `x|a$\\b` it then asks for the look after the carriage return, so a
    line that ends in `a` isn't selected, though `a$\\b` alone selects it."""
    return case.has("--crlf") and any(re.search(r"\$\)*\\[bB]", it) for it in case.asked().patterns)


def counts_though_names_are_asked_for(case):
    """Of -c or --count-matches and -l ripgrep takes the first."""
    return case.has("-c", "--count-matches") and case.has("-l")


def has_other_context(case):
    """ripgrep takes -C where -A and -B say otherwise, prints context of -o as lines, and ends with -m otherwise."""
    return sum(it.is_context or it.name in ("-o", "-m1", "-m2") for it in case.options) > 1 and any(it.is_context for it in case.options)


def has_other_empty_matches(case):
    """ripgrep 13 finds no empty match at the end of a last line without a line feed. Options on lines show where they are, and how many."""
    shows = case.has("--vimgrep", "--column", "--count-matches") or case.has("-M1", "-M4", "--max-columns 12") and case.has("--color=always", "-p")
    is_open = any(not it.endswith(b"\n") for it in case.data().values())
    return shows and case.may_be_empty() and is_open


def marks_the_line_feed(case):
    """With -w, -x and colours GNU grep 3.8 marks the line feed with the match."""
    return case.has("-w") and case.has("-x") and case.asked().color


def has_other_previews(case):
    """ripgrep's --max-columns-preview counts what a reader takes for a character, and -M bytes: so a line may be printed whole, and marked as
    cut. With -o it counts the
    other matches of the line, too, that begin after what it prints of one."""
    return case.has("--max-columns-preview") and (case.has("-o") or case.reads(LETTERS | BROKEN) or any(b"\r" in it for it in case.data().values()))


GREP = [
    takes_fewer_than_none,
    takes_what_is_no_character,
    is_perl_beyond_ascii,
    asks_for_words_next_to_broken_bytes,
    is_a_word_next_to_broken_bytes,
    is_the_empty_word,
    is_by_the_order_of_patterns,
    marks_the_line_feed,
]

RIPGREP = [
    is_the_longest_string,
    has_other_returns,
    is_another_word,
    prints_empty_matches,
    is_the_start_of_the_file,
    misses_matches,
    asks_for_words_after_the_end,
    counts_though_names_are_asked_for,
    has_other_context,
    has_other_empty_matches,
    has_other_previews,
]
