"""The words of a command line of ripgrep 13 as those that hirgrep has for the same.

ripgrep searches folders, leaves out ignored and hidden files, and prints neither headings nor line numbers if its output is no terminal.
Some of its letters mean other things to GNU grep and to hirgrep. What is left out here asks for what hirgrep does in any case. Binary files
are skipped in folders, and else a notice is printed instead of their lines."""

import re

# long options that take a value, and letters that do
VALUES = """after-context before-context color colors context context-separator dfa-size-limit encoding engine field-context-separator
field-match-separator file glob iglob ignore-file max-columns max-count max-depth maxdepth max-filesize path-separator pre pre-glob regexp
regex-size-limit replace sort sortr threads type type-add type-clear type-not""".split()
LETTER_VALUES = "ABCEMTefgjmrt"

# letters of ripgrep, as options of hirgrep
LETTERS = {"0": "--null", "E": "--encoding", "I": "--no-filename", "L": "-R", "N": "--no-line-number", "P": "--pcre2", "S": "--smart-case", "T": "--type-not",
           "U": "--multiline", "p": "--pretty", "r": "--replace", "s": "--no-ignore-case", "z": "--search-zip", ".": "--hidden", "j": "--threads",
           "h": "--help"}
LONG = {"case-sensitive": "no-ignore-case", "context-separator": "group-separator", "no-context-separator": "no-group-separator", "follow": "dereference-recursive",
        "maxdepth": "max-depth", "null-data": "null-data", "passthrough": "passthru", "no-unicode": "no-unicode"}
ALREADY = {"no-heading", "no-mmap", "mmap", "no-config", "threads", "no-pcre2", "no-stats"}
# options that undo another one
UNDOING = {"require-git": "--no-require-git", "ignore-vcs": "--no-ignore-vcs", "ignore-dot": "--no-ignore-dot", "ignore-parent": "--no-ignore-parent",
           "ignore-exclude": "--no-ignore-exclude", "ignore-files": "--no-ignore-files", "no-include-zero": "--include-zero", "no-trim": "--trim",
           "no-ignore-file-case-insensitive": "--ignore-file-case-insensitive", "no-crlf": "--crlf", "no-max-columns-preview": "--max-columns-preview"}
CASES = ("-i", "--ignore-case", "--no-ignore-case", "--smart-case")
SORTS = {"sort-files": ["--sort", "path"], "no-sort-files": ["--sort", "none"]}


def long_words(name, value):
    if name in ALREADY or (name, value) == ("path-separator", "/"):
        return []
    if name in SORTS:
        return SORTS[name]
    name = LONG.get(name, name)
    return [f"--{name}"] if value is None else [f"--{name}={value}"]


def letter_words(letter, value):
    if letter == "j":
        return []
    word = LETTERS.get(letter, f"-{letter}")
    if value is None:
        return [word]
    return [f"{word}={value}"] if word.startswith("--") else [word, value]


class Reader:
    """Reads the words of ripgrep one by one."""

    def __init__(self, words):
        self.rest = list(words)
        self.options = []
        self.operands = []

    def value(self, text):
        """The value of an option, which may be the next word."""
        if text is not None:
            return text
        return self.rest.pop(0) if self.rest else None

    def long(self, word):
        name, equals, text = word[2:].partition("=")
        value = self.value(text if equals else None) if name in VALUES else None
        if name in UNDOING:
            self.options = [it for it in self.options if it != UNDOING[name]]
            return
        if name in ("ignore-case", "case-sensitive", "smart-case"):
            self.options = [it for it in self.options if it not in CASES]
        self.options += long_words(name, value)

    def letters(self, word):
        at = 1
        while at < len(word):
            letter = word[at]
            at += 1
            if letter in LETTER_VALUES:
                text = word[at:].removeprefix("=") if at < len(word) else None
                self.options += letter_words(letter, self.value(text))
                return
            if letter in "isS":
                self.options = [it for it in self.options if it not in CASES]
            self.options += letter_words(letter, None)

    def read(self):
        while self.rest:
            word = self.rest.pop(0)
            if word == "--":
                self.operands += self.rest
                return
            if word.startswith("--"):
                self.long(word)
            elif word.startswith("-") and word != "-":
                self.letters(word)
            else:
                self.operands.append(word)


def without_empty_context(options):
    """Without options on context if the last ones ask for no lines of it, which is as if they weren't there."""
    words, lines, at = [], {}, 0
    while at < len(options):
        found = re.fullmatch(r"(?:-([ABC])|--(after|before)?-?context=)(\d*)", options[at])
        if found is None:
            words.append(options[at])
        elif found.group(1):
            at += 1
            lines[found.group(1)] = options[at]
        else:
            lines[{"after": "A", "before": "B", None: "C"}[found.group(2)]] = found.group(3)
        at += 1
    of_both = lines.get("C", "0")
    if lines and lines.get("A", of_both) == lines.get("B", of_both) == "0":
        return words
    return options


def counting_matches(options):
    """With what ripgrep makes of -c and -o together: it counts matches."""
    count = [it for it in options if it in ("-c", "--count")]
    if not count or not {"-o", "--only-matching"} & set(options):
        return options
    return ["--count-matches", *(it for it in options if it not in ("-c", "--count", "-o", "--only-matching"))]


def settled(options):
    """Without pairs of options of which the second one undoes the first, and with what they leave of ripgrep's habits."""
    count = options.count("-u") + options.count("--unrestricted")
    options = [it for it in options if it not in ("-u", "--unrestricted")]
    ignores = count == 0 and "--no-ignore" not in options
    hidden = count > 1 or "--hidden" in options
    text = bool({"-a", "--text"} & set(options))
    binary = count > 2 or "--binary" in options
    options = [it for it in options if it not in ("--no-ignore", "--ignore", "--hidden", "--no-hidden", "--binary")]
    options = counting_matches(without_empty_context(options))
    return options, ignores, hidden, (None if text else "binary" if binary else "without-match")


def hirgrep_words(words, reads_input, options_there):
    """The words for hirgrep. `reads_input` is whether something is piped to the command, and `options_there` are options that the program
    has."""
    reader = Reader(words)
    reader.read()
    options, ignores, hidden, binary = settled(reader.options)
    lists = "--files" in options
    given = any(it in ("-e", "-f") or it.startswith(("--regexp", "--file=")) for it in options)
    paths = reader.operands if given or lists else reader.operands[1:]
    searches_input = reads_input and not paths and not ("--file=-" in options or "-f -" in " ".join(options))
    if not searches_input:
        options.insert(0, "-r")
    if not hidden:
        options.insert(0, "--no-hidden" if "--no-hidden" in options_there else "--glob=!.*")
    if ignores and "--ignore" in options_there:
        options.insert(0, "--ignore")
    if binary and "--binary-files" in options_there:
        options.insert(0, f"--binary-files={'binary' if paths or searches_input else binary}")
    return [*options, "--", *reader.operands] if reader.operands else options
