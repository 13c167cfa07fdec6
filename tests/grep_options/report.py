"""What hirgrep prints, by its definition, once more in Python: lines, matches, selected lines, context, and bytes. tests/grep compares it
with GNU grep, so that it may be believed where there is no GNU grep to ask: with --crlf."""

import itertools
import re
from dataclasses import dataclass, replace

BROKEN = "\udc80-\udcff"  # the bytes that aren't part of a character, as Python decodes them
TOKEN = re.compile(r"\\[WSD]|\\.|\[\^|\[|\.", re.S)
NEGATED = {"\\W": f"[^\\w{BROKEN}]", "\\S": f"[^\\s{BROKEN}]", "\\D": f"[^\\d{BROKEN}]", ".": f"[^\n{BROKEN}]", "[^": f"[^{BROKEN}"}
OPERATORS = set("\\.^$|*+?()[{")
WORD_START = f"(?:(?<!\\w)(?=\\w)|(?<![\\w{BROKEN}]))"
WORD_END = f"(?:(?<=\\w)(?!\\w)|(?![\\w{BROKEN}]))"


@dataclass(frozen=True)
class Asked:
    """What options ask for."""

    patterns: tuple = ()
    fixed: bool = False
    ignore: bool = False
    words: bool = False
    whole: bool = False
    crlf: bool = False
    invert: bool = False
    quiet: bool = False
    without: bool = False
    with_match: bool = False
    count: bool = False
    count_matches: bool = False
    matches: bool = False
    numbers: bool = False
    no_numbers: bool = False
    columns: bool = False
    no_columns: bool = False
    each: bool = False
    offsets: bool = False
    names: bool | None = None
    before: int | None = None
    after: int | None = None
    both: int | None = None
    passthru: bool = False
    most: int | None = None
    color: bool = False
    plain: bool = False  # --color was given, and doesn't mark what is printed
    heading: bool = False
    no_heading: bool = False
    pretty: bool = False
    zero_names: bool = False
    tab: bool = False
    trim: bool = False
    most_bytes: int | None = None
    preview: bool = False
    width: int = 0
    match_separator: bytes = b":"
    context_separator: bytes = b"-"
    group: bytes | None = b"--"
    colors: bytes = b""
    old_color: bytes = b""


@dataclass(frozen=True)
class Line:
    number: int
    offset: int
    printed: bytes
    matched: bytes
    is_ended: bool


def python_of(pattern):
    """A pattern in Python's syntax: nothing but a byte itself matches a byte that isn't part of a character."""
    return TOKEN.sub(lambda it: NEGATED.get(it[0], it[0]), pattern)


def are_strings(asked):
    """Whether all patterns stand for themselves alone."""
    return asked.fixed or not any(set(it) & OPERATORS for it in asked.patterns)


def in_order(asked):
    """The patterns in the order in which they are preferred: of strings the longest first."""
    return sorted(asked.patterns, key=len, reverse=True) if are_strings(asked) else asked.patterns


def wants_none(asked):
    """Whether the patterns select no line, whatever it is."""
    if asked.patterns == ("",):
        return asked.invert and not asked.words and not asked.whole
    return not asked.patterns and not asked.invert


def regex_of(asked):
    texts = [re.escape(it) if asked.fixed else python_of(it) for it in in_order(asked)]
    if asked.whole:
        texts = [f"\\A(?:{it})\\Z" for it in texts]
    elif asked.words:
        texts = [f"{WORD_START}(?:{it}){WORD_END}" for it in texts]
    return re.compile("|".join(f"(?:{it})" for it in texts) if texts else "(?!)", re.I if asked.ignore else 0)


def lines_of(asked, data):
    """Under --crlf one carriage return right before a line feed isn't matched, but printed."""
    lines, offset = [], 0
    for number, line in enumerate(data.split(b"\n")[: -1 if data.endswith(b"\n") or not data else None], 1):
        is_ended = offset + len(line) < len(data)
        matched = line[:-1] if asked.crlf and is_ended and line.endswith(b"\r") else line
        lines.append(Line(number, offset, line, matched, is_ended))
        offset += len(line) + 1
    return lines


def all_matches(regex, text):
    """All matches from left to right: none that is empty where the one before it ends."""
    at, last = 0, None
    while at <= len(text) and (found := regex.search(text, at)):
        if found.start() == found.end() == last:
            at, last = at + 1, None
            continue
        yield found.span()
        at = last = found.end()


def text_of(line):
    return line.matched.decode("utf-8", "surrogateescape")


def length_of(text):
    return len(text.encode("utf-8", "surrogateescape"))


def match_at(regex, line, offset):
    """The offsets of the match that starts at this one, if there is one. A character in which it is counts as bytes that aren't part of one."""
    before, after = (it.decode("utf-8", "surrogateescape") for it in (line[:offset], line[offset:]))
    found = regex.match(before + after, len(before))
    return found and (offset, offset + length_of(found[0]))


def spans_of(regex, line):
    """The offsets of the matches in bytes. Empty ones are found inside characters too."""
    if line.matched.isascii():
        return list(all_matches(regex, text_of(line)))
    at, last, spans = 0, None, []
    while found := next((it for it in (match_at(regex, line.matched, i) for i in range(at, len(line.matched) + 1)) if it), None):
        if found == (last, last):
            at, last = last + 1, None
            continue
        spans.append(found)
        at = last = found[1]
    return spans


def has_match(regex, line):
    return regex.search(text_of(line)) is not None


def selected_of(asked, regex, lines):
    selected, left = [], asked.most
    for line in lines:
        is_selected = has_match(regex, line) != asked.invert and left != 0
        selected.append(is_selected)
        left = left - 1 if is_selected and left else left
    return selected


def context_of(asked):
    before = asked.both if asked.before is None else asked.before
    after = asked.both if asked.after is None else asked.after
    return before, after


def is_near(selected, index, before, after):
    """Whether a line is printed, itself selected or not."""
    return any(selected[max(0, index - (after or 0)) : index + (before or 0) + 1])


DEFAULTS = {b"sl": b"", b"cx": b"", b"ms": b"01;31", b"mc": b"01;31", b"fn": b"35", b"ln": b"32", b"bn": b"32", b"se": b"36"}


def caps_of(asked):
    """GREP_COLOR and GREP_COLORS: the items before the first one with a character that isn't allowed take effect."""
    caps = dict(DEFAULTS, rv=False, ne=False)
    if asked.old_color and not asked.old_color.strip(b"0123456789;"):
        caps[b"ms"] = caps[b"mc"] = asked.old_color
    for item in asked.colors.split(b":"):
        name, equals, value = item.partition(b"=")
        if equals and (not name or value.strip(b"0123456789;")):
            return caps
        if equals and name in DEFAULTS:
            caps[name] = value
        if name == b"mt":
            caps[b"mc"] = caps[b"ms"] = value if equals else caps[b"ms"]
        if name in (b"rv", b"ne"):
            caps[name.decode()] = True
    return caps


def start(asked, code):
    return b"\33[%sm" % code + (b"" if caps_of(asked)["ne"] else b"\33[K") if asked.color and code else b""


def end(asked, code):
    return b"\33[m" + (b"" if caps_of(asked)["ne"] else b"\33[K") if asked.color and code else b""


def coloured(asked, cap, text):
    code = caps_of(asked)[cap]
    return start(asked, code) + text + end(asked, code)


def field(asked, code, text, sign):
    return coloured(asked, code, text) + coloured(asked, b"se", sign)


def name_before(asked, name, other):
    return coloured(asked, b"fn", name) + (b"\0" if asked.zero_names else other)


def name_field(asked, name, sign):
    return b"" if name is None else name_before(asked, name, coloured(asked, b"se", sign))


def fields(asked, name, line, column, offset, sign):
    """column is None for a line without a match that is shown."""
    shown = [(b"ln", line.number)] if asked.numbers else []
    shown += [(b"ln", column)] if asked.columns and column is not None else []
    shown += [(b"bn", offset)] if asked.offsets else []
    numbers = [field(asked, cap, b"%*d" % (asked.width, it), sign) for cap, it in shown]
    return name_field(asked, name, sign) + b"".join(numbers)


def tab(asked, name, text):
    return b"\t" if asked.tab and text and (name is not None or asked.numbers or asked.offsets) else b""


def trimmed(asked, text):
    return text.lstrip(b"\t\n\v\f\r ") if asked.trim else text


def line_cap(asked, is_selected):
    return b"sl" if is_selected != (asked.invert and caps_of(asked)["rv"]) else b"cx"


def marked(asked, text, left, spans, is_selected):
    """The text is a line without so many bytes at its beginning. Empty matches aren't marked."""
    caps = caps_of(asked)
    own, match = caps[line_cap(asked, is_selected)], b"ms" if is_selected else b"mc"
    parts, at = [], 0
    for first, last in spans if asked.color and caps[match] else ():
        first, last = max(first - left, 0), max(last - left, 0)
        if first < last and first < len(text):
            parts += [start(asked, own), text[at:first], coloured(asked, match, text[first:last])]
            at = last
    tail = text[at:]
    rest = b"\r" if own and asked.color and tail.endswith(b"\r") else b""
    tail = tail[: len(tail) - len(rest)]
    return b"".join(parts) + (start(asked, own) + tail + end(asked, own) if tail else b"") + rest


def omission(is_selected, count):
    if count:
        return b"[Omitted long line with %d matches]" % count
    return b"[Omitted long matching line]" if is_selected else b"[Omitted long context line]"


def exceeds(asked, length):
    return asked.most_bytes is not None and length > asked.most_bytes


def front(asked, text):
    """The beginning of a text that is too long: whole characters."""
    end = asked.most_bytes
    while 0 < end < len(text) and 0x80 <= text[end] < 0xC0:
        end -= 1
    return text[:end]


def more_note(count):
    return b" [... %d more match%s]" % (count, b"" if count == 1 else b"es")


def bytes_of(asked, line, is_selected, spans):
    text = trimmed(asked, line)
    return marked(asked, text, len(line) - len(text), spans, is_selected)


def line_text(asked, name, line, is_selected, spans, shown):
    """A line after its fields, with these of the matches that are shown in it marked."""
    if not exceeds(asked, len(line.printed) + line.is_ended):
        return tab(asked, name, trimmed(asked, line.printed)) + bytes_of(asked, line.printed, is_selected, spans) + b"\n"
    if not asked.preview:
        return tab(asked, name, b"x") + omission(is_selected, len(shown)) + b"\n"
    text = front(asked, line.printed)
    note = more_note(sum(it[0] >= len(text) for it in shown)) if shown else b" [... omitted end of long line]"
    return tab(asked, name, note) + bytes_of(asked, text, is_selected, spans) + note + b"\n"


def match_text(asked, name, text, is_selected):
    is_long = exceeds(asked, len(text))
    if is_long and not asked.preview:
        return tab(asked, name, b"x") + omission(is_selected, 0) + b"\n"
    note = more_note(0) if is_long else b""
    text = trimmed(asked, front(asked, text) if is_long else text)
    return tab(asked, name, text + note) + (coloured(asked, b"ms" if is_selected else b"mc", text) if text else b"") + note + b"\n"


def printed_line(asked, regex, name, line, is_selected):
    sign = asked.match_separator if is_selected else asked.context_separator
    spans = spans_of(regex, line) if is_selected != asked.invert else []
    if asked.matches:
        rows = [(it[0], it[0], match_text(asked, name, line.printed[slice(*it)], is_selected)) for it in spans if it[0] < it[1]]
    else:
        spans = spans if asked.color or asked.columns or asked.each else []
        texts = [(it[0], it[0], [it]) for it in spans] if asked.each else []
        texts = texts or [(spans[0][0] if spans else None, 0, spans)]
        rows = [(start, offset, line_text(asked, name, line, is_selected, it, spans)) for start, offset, it in texts]
    return b"".join(
        fields(asked, name, line, None if start is None else start + 1, line.offset + offset, sign) + row for start, offset, row in rows
    )


def printed_lines(asked, regex, name, lines, selected, known):
    """known is what was printed: nothing, the line before, or an earlier one."""
    before, after = context_of(asked)
    has_groups = before is not None or after is not None
    out = b""
    for index, line in enumerate(lines):
        if not asked.passthru and not is_near(selected, index, before, after):
            known = known and "earlier"
            continue
        if known == "earlier" and has_groups and not asked.passthru and asked.group is not None:
            out += coloured(asked, b"se", asked.group) + b"\n"
        out += printed_line(asked, regex, name, line, selected[index])
        known = "last"
    return out, known


def width_of(asked, data):
    """How wide numbers are under -T: as wide as the size of the file, or as the number of a line after all of its bytes."""
    return len(str(len(data) + asked.numbers)) if asked.tab else 0


def report_of_file(asked, regex, name, has_name, data, known):
    """What is printed of a file, whether a line is selected, and what is known for the next file."""
    asked = replace(asked, width=width_of(asked, data))
    lines = lines_of(asked, data)
    selected = selected_of(asked, regex, lines)
    is_any, shown = any(selected), name if has_name else None
    if asked.quiet:
        return b"", is_any, known
    if asked.without or asked.with_match:
        return (name_before(asked, name, b"\n") if is_any != asked.without else b""), is_any, known
    if asked.count or asked.count_matches:
        each = [1 if asked.count or asked.invert else len(spans_of(regex, it)) for it in lines]
        return name_field(asked, shown, b":") + b"%d\n" % sum(itertools.compress(each, selected)), is_any, known
    if asked.heading:
        return under_heading(asked, shown, printed_lines(asked, regex, None, lines, selected, None)[0], known), is_any, known
    out, known = printed_lines(asked, regex, shown, lines, selected, known)
    return out, is_any, known


def under_heading(asked, name, text, known):
    """The text under the name of its file. An empty line separates it from what is printed of earlier files."""
    if not text:
        return b""
    return (b"\n" if known else b"") + (b"" if name is None else name_before(asked, name, b"\n")) + text


def report(asked, files):
    """Status and output for these files, by name."""
    has_heading = (asked.heading or asked.pretty) and not (asked.no_heading or asked.each)
    asked = replace(asked, color=asked.color or asked.pretty and not (asked.plain or asked.each), heading=has_heading)
    has_numbers = not asked.no_numbers and (asked.numbers or asked.columns or asked.pretty or asked.each)
    asked = replace(asked, numbers=has_numbers, columns=not asked.no_columns and (asked.columns or asked.each))
    regex, known, out, status = regex_of(asked), None, b"", 1
    has_name = asked.each or len(files) > 1 if asked.names is None else asked.names
    prints_all = asked.passthru and not (asked.quiet or asked.with_match or asked.count or asked.count_matches)
    if (asked.most == 0 or wants_none(asked)) and not asked.without and not prints_all:
        return 1, b""
    for name, data in files.items():
        printed, is_any, known = report_of_file(asked, regex, name.encode(), has_name, data, known and "earlier")
        known = "earlier" if asked.heading and printed else known
        out += printed
        status = 0 if is_any else status
        if asked.quiet and is_any:
            break
    return status, out
