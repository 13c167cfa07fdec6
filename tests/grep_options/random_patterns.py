"""Random patterns that GNU grep, ripgrep, Python and hirgrep read alike, and what is known of each."""

from dataclasses import dataclass

from .options import Pattern

LITERALS = ["a", "b", "ab", "x", "_", "1", "-", " ", "\\.", "A", "word", "ERROR"]
BEYOND_ASCII = ["ä", "É", "щ", "€"]
CLASSES = ["[ab]", "[^a]", "[a-c]", "[0-9]", "[^ab]", "[-x]", "\\w", "\\W", "\\s", "\\S", "."]
PERL_CLASSES = ["\\d", "[\\w-]", "\\x61", "(?i:ab)", "\\D"]
REPEATS = ["*", "+", "?", "{2}", "{1,2}", "{2,}", "{0,1}", "{3}"]
UNBOUNDED = ("*", "+", "{2,}")
EMPTY = ("*", "?", "{0,1}")
DEPTH = 3


@dataclass(frozen=True)
class Part:
    """A part of a pattern: its text, and whether it can match the empty string, has an unbounded repetition, several ways to match from an
    offset, an assertion, or something that GNU grep has with -P alone."""

    text: str
    is_empty: bool = False
    is_unbounded: bool = False
    ways: int = 0
    has_look: bool = False
    is_perl: bool = False
    is_word: bool = False  # it starts and ends with a character of words


def joined(parts, sign=""):
    """Some parts in a row, or as alternatives."""
    return Part(
        sign.join(it.text for it in parts),
        any(it.is_empty for it in parts) if sign else all(it.is_empty for it in parts),
        any(it.is_unbounded for it in parts),
        sum(it.ways for it in parts) + (2 if sign else 0),
        any(it.has_look for it in parts),
        any(it.is_perl for it in parts),
        all(it.is_word for it in parts),
    )


def atom(pick, is_perl):
    kind = pick.random()
    if kind < 0.6:
        text = pick.choice(LITERALS)
        return Part(text, is_word=text not in ("-", " ", "\\."))
    if kind < 0.65:
        text = pick.choice(BEYOND_ASCII)
        return Part(text, is_word=text != "€")
    if kind < 0.75 and is_perl:
        return Part(pick.choice(PERL_CLASSES), is_perl=True)
    text = pick.choice(CLASSES)
    return Part(text, is_word=text in ("[ab]", "[a-c]", "[0-9]", "\\w"))


def group(pick, depth, is_perl):
    inner = alternatives(pick, depth + 1, is_perl)
    opening = "(?:" if is_perl and pick.random() < 0.5 else "("
    return Part(
        f"{opening}{inner.text})",
        inner.is_empty,
        inner.is_unbounded,
        inner.ways,
        inner.has_look,
        inner.is_perl or opening == "(?:",
        inner.is_word,
    )


def repeated(pick, part, is_perl):
    """The part with a repetition, unless it may be empty, looks, or has an unbounded one: neither Python nor PCRE end such loops soon."""
    if part.is_empty or part.has_look or part.is_unbounded or len(part.text) > 1 and part.text[0] not in "[(\\":
        return part
    sign = pick.choice(REPEATS)
    is_lazy = is_perl and pick.random() < 0.3
    return Part(
        part.text + sign + ("?" if is_lazy else ""),
        sign in EMPTY,
        sign in UNBOUNDED,
        part.ways + (0 if sign in ("{2}", "{3}") else 1),
        False,
        part.is_perl or is_lazy,
        part.is_word,
    )


def sequence(pick, depth, is_perl):
    parts = []
    if pick.random() < 0.1:
        parts.append(Part("^", True, has_look=True))
    for _ in range(pick.choice((1, 1, 2, 2, 3))):
        part = group(pick, depth, is_perl) if depth < DEPTH and pick.random() < 0.15 else atom(pick, is_perl)
        parts.append(repeated(pick, part, is_perl) if pick.random() < 0.35 else part)
        if pick.random() < 0.04:
            parts.append(Part(pick.choice(("\\b", "\\B")), True, has_look=True))
    if pick.random() < 0.1:
        parts.append(Part("$", True, has_look=True))
    return joined(parts)


def alternatives(pick, depth, is_perl):
    parts = [sequence(pick, depth, is_perl) for _ in range(pick.choice((1, 1, 1, 1, 2, 2, 3)))]
    return parts[0] if len(parts) == 1 else joined(parts, "|")


@dataclass(frozen=True)
class RandomPattern(Pattern):
    ways: int = 0
    has_look: bool = False


def random_pattern(pick):
    part = alternatives(pick, 0, pick.random() < 0.35)
    return RandomPattern(part.text, "-P" if part.is_perl else "-E", part.is_word and not part.is_empty, part.is_empty, part.ways, part.has_look)
