"""The same options and operands in different words: short and long names, values apart or not, flags in one word, and operands first. GNU
grep and hirgrep read them alike."""

LONG = {
    "-i": ("--ignore-case",),
    "-y": ("--ignore-case",),
    "-w": ("--word-regexp",),
    "-x": ("--line-regexp",),
    "-F": ("--fixed-strings",),
    "-v": ("--invert-match",),
    "-n": ("--line-number",),
    "-b": ("--byte-offset",),
    "-H": ("--with-filename",),
    "-h": ("--no-filename",),
    "-c": ("--count",),
    "-o": ("--only-matching",),
    "-l": ("--files-with-matches",),
    "-L": ("--files-without-match",),
    "-q": ("--quiet", "--silent"),
    "-s": ("--no-messages",),
    "-r": ("--recursive",),
    "-R": ("--dereference-recursive",),
    "-a": ("--text",),
    "-U": ("--binary",),
    "-Z": ("--null",),
    "-T": ("--initial-tab",),
    "-1": ("--context=1",),
    "-d": ("--directories",),
    "-D": ("--devices",),
    "-e": ("--regexp",),
    "-f": ("--file",),
    "-m": ("--max-count",),
    "-A": ("--after-context",),
    "-B": ("--before-context",),
    "-C": ("--context",),
}
VALUED = ("-d", "-D", "-e", "-f", "-m", "-A", "-B", "-C")


def spelled(pick, words):
    """One option in one of its forms."""
    name, value = words[0][:2], words[1] if len(words) > 1 else words[0][2:]
    if name == "--":
        return list(words)
    if name not in VALUED:
        return [pick.choice(LONG[name])] if pick.random() < 0.25 else [name]
    kind = pick.random()
    if kind < 0.15:
        return [f"{pick.choice(LONG[name])}={value}"]
    if kind < 0.25:
        return [pick.choice(LONG[name]), value]
    return [name, value] if kind < 0.6 or value == "" else [name + value]


def is_flag(words):
    return len(words) == 1 and len(words[0]) == 2 and words[0] in LONG and words[0] not in VALUED


def clustered(pick, options):
    """Options, at times with several flags in one word, or flags before an option with a value."""
    words, is_open = [], False
    for option in options:
        if is_open and option[0][:2] in LONG and pick.random() < 0.3:
            words[-1] += option[0][1:]
            words += option[1:]
        else:
            words += option
        is_open = is_flag(option)
    return words


def random_words(pick, pattern, options, files):
    """A whole command line. The pattern is the first of the patterns: of several ones the order counts."""
    is_operand = not any(it[0][:2] in ("-e", "-f") for it in options) and pick.random() < 0.4
    given = [] if is_operand else [spelled(pick, ("-e", pattern))]
    words = clustered(pick, [*given, *(spelled(pick, it) for it in options)])
    operands = [pattern, *files] if is_operand else list(files)
    if not any(it.startswith("-") for it in operands) and pick.random() < 0.5:
        return [*operands, *words] if pick.random() < 0.3 else [*words, *operands]
    return [*words, "--", *operands]
