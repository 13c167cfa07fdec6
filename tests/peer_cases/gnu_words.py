"""The words of a command line of GNU grep as those that hirgrep has for the same: patterns of basic syntax are put into extended syntax, and
what GNU grep does with binary files is asked for. Run as a program, it runs another one: gnu_words.py PROGRAM NAME WORDS.., with the name by
which GNU grep is called."""

import os
import sys
import tempfile

LETTERS_WITH_VALUES = "efmABCdD"
LONG_WITH_VALUES = ("regexp", "file", "max-count", "after-context", "before-context", "context", "label", "directories", "devices", "binary-files", "include", "exclude",
                    "exclude-from", "exclude-dir", "group-separator")
SYNTAXES = {"-E": "extended", "-P": "perl", "-F": "fixed", "-G": "basic", "--extended-regexp": "extended", "--perl-regexp": "perl", "--fixed-strings": "fixed",
            "--basic-regexp": "basic"}
SWAPPED = "(){}+?|"


def extended(regex):
    """A regex of basic syntax in extended syntax. What is special only in some places is made plain in the others."""
    out, at, begins = [], 0, True
    while at < len(regex):
        c = regex[at]
        if c == "[":
            end = regex.find("]", at + (3 if regex[at + 1:at + 2] == "^" else 2))
            end = len(regex) if end < 0 else end + 1
            out.append(regex[at:end])
            at, begins = end, False
            continue
        following = regex[at + 1:at + 2]
        if c == "\\" and following and following in SWAPPED:
            out.append(following)
            at, begins = at + 2, following in "(|"
            continue
        if c == "\\":
            out.append(c + following)
            at, begins = at + 2, False
            continue
        plain = c in SWAPPED or (c == "*" and begins) or (c == "^" and not begins) or (c == "$" and regex[at + 1:] and not regex.startswith(("\\)", "\\|"), at + 1))
        out.append("\\" + c if plain else c)
        at, begins = at + 1, begins and c == "^"
    return "".join(out)


def all_extended(patterns):
    return "\n".join(extended(it) for it in patterns.split("\n"))


def extended_file(name):
    """The name of a file with the patterns of another one in extended syntax. What can't be read stays."""
    if name == "-" or not os.path.isfile(name):
        return name
    with open(name, encoding="utf-8", errors="surrogateescape", newline="") as file:
        patterns = file.read()
    handle, path = tempfile.mkstemp()
    with os.fdopen(handle, "w", encoding="utf-8", errors="surrogateescape", newline="") as file:
        file.write(all_extended(patterns))
    return path


class Reader:
    """Reads words as GNU grep does. Each option is a list of its words: two for one whose value may be changed."""

    def __init__(self, words):
        self.rest, self.options, self.operands = list(words), [], []
        self.syntax = None

    def value(self, text):
        if text is not None:
            return text
        return self.rest.pop(0) if self.rest else None

    def add(self, option, value):
        if option in SYNTAXES:
            self.syntax = SYNTAXES[option]
        self.options.append([option] if value is None else [option, value])

    def long(self, word):
        name, equals, text = word[2:].partition("=")
        if name in LONG_WITH_VALUES:
            self.add(f"--{name}", self.value(text if equals else None))
        else:
            self.add(word, None)

    def letters(self, word):
        for at, letter in enumerate(word[1:], 1):
            if letter in LETTERS_WITH_VALUES:
                self.add(f"-{letter}", self.value(word[at + 1:] or None))
                return
            self.add(f"-{letter}", None)

    def read(self):
        while self.rest:
            word = self.rest.pop(0)
            if word == "--":
                self.operands += self.rest
                return
            if word.startswith("--"):
                self.long(word)
            elif word.startswith("-") and word != "-":
                self.letters(word)
            else:
                self.operands.append(word)


def changed(option):
    """An option of a command line whose patterns have basic syntax."""
    if option[0] in ("-e", "--regexp") and len(option) > 1:
        return [option[0], all_extended(option[1])]
    if option[0] in ("-f", "--file") and len(option) > 1:
        return [option[0], extended_file(option[1])]
    return option


def joined(option):
    """The words of an option. A value is in the option's own word, unless it is empty after a letter."""
    if len(option) == 1 or not (option[1] or option[0].startswith("--")):
        return option
    return [option[0] + ("=" if option[0].startswith("--") else "") + option[1]]


def hirgrep_words(name, words):
    reader = Reader(words)
    reader.read()
    syntax = reader.syntax or {"egrep": "extended", "fgrep": "fixed"}.get(name, "basic")
    options, operands = reader.options, reader.operands
    if syntax == "basic":
        given = any(it[0] in ("-e", "-f", "--regexp", "--file") for it in options)
        options = [changed(it) for it in options if SYNTAXES.get(it[0]) != "basic"]
        if operands and not given:
            operands = [all_extended(operands[0]), *operands[1:]]
    if name == "fgrep" and reader.syntax is None:
        options = [["-F"], *options]
    return ["--binary-files=binary", *(word for it in options for word in joined(it)), *(["--", *operands] if operands else [])]


if __name__ == "__main__":
    os.execv(sys.argv[1], [sys.argv[1], *hirgrep_words(sys.argv[2], sys.argv[3:])])
