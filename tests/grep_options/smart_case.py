"""-S beside ripgrep: which patterns have capital letters. Random patterns are given to both over one small file."""

import os
import random

LINES = "".join(f"{it}\n" for it in ("ab", "AB", "aB", "x", "X", "0", "ä", "Ä", "ab x", "A-", "é", " ", "-", "s", "S", "p", "µ", "ſ", "K", "Ü]", "{2}"))
# patterns of which each part is a literal or none
PATTERNS = (
    "ab", "AB", "aB", "", "ä", "Ä", "\\x41b", "\\x61b", "\\x{41}", "\\u0041", "\\U00000041", "\\x{C4}", "\\pL", "\\p{Lu}", "\\PL", "\\p{Lu}a", "\\P{Lu}A", "\\S", "\\W", "\\Sa",
    "\\D", "\\B", "\\A", "\\Aa", "\\bA", "[ab]", "[A-C]", "[a-C]", "[^A]", "[^a]", "[]A]", "[]a]", "[^]A]", "[[:upper:]]", "[[:upper:]a]", "[[:alpha:]&&A]",
    "[\\W]", "[\\Wa]", "[\\pL]", "[\\p{Lu}a]", "[\\x41]", "[[A]b]", "[a[^B]]", "[a-z&&[^X]]", "[a--B]", "(?P<NAME>a)", "(?P<name>A)", "(?i)A", "(?-i)a", "(?U)a+", "(?R)a$",
    "(?s-U:a.)", "a{2}", "A{2}", "a|B", "a|b", "(a|B)c*", ".", "^$", "\\.", "\\.A", "\\-a", "\\n", "\\nA", "a\\tB", "\\p{Greek}x", "\\p{^Lu}x", "[\\]A]", "\\[A", "\\[a", "(?:A)", "(A)", "0", "A*?",
)
SEVERAL = (["a", "B"], ["a", "b"], ["\\pL", "B"], ["", "a"], ["", "A"], ["(a)", "\\x41"])
PIECES = ("a", "b", "A", "B", "ä", "Ä", "\\S", "\\W", "\\pL", "\\p{Lu}", "[a-z]", "[A-Z]", "[^A]", "[[:upper:]]", "[\\d&&0]", "(?:a)", "(A|b)", "(?i)", "(?-i:", ")", "|", ".", "*", "+", "{1,2}", "\\x41", "\\x61", "^", "$", "\\b", "-", " ")


def random_pattern(rng):
    return "".join(rng.choice(PIECES) for _ in range(rng.randrange(1, 5)))


def compare_smart_case(program, room, run, tell, count=400, seed=1):
    place = os.path.join(room, "smart")
    os.mkdir(place)
    with open(os.path.join(place, "lines"), "w", encoding="utf-8") as file:
        file.write(LINES)
    rng = random.Random(seed)
    cases = [[it] for it in PATTERNS] + list(SEVERAL) + [[random_pattern(rng)] for _ in range(count)]
    for patterns in cases:
        given = [word for it in patterns for word in ("-e", it)]
        for options in (["-S"], ["-S", "-F"], ["-i", "-S"], ["-S", "-i"], ["--smart-case", "-c"]):
            ours = run([program, *options, *given, "lines"], place)[:2]
            theirs = run(["rg", "--no-config", "--text", *options, *given, "lines"], place)[:2]
            # ripgrep rejects patterns that match a line feed, prints no count of 0, and has status 2 for what it rejects
            if theirs[0] != 2 and ours != theirs and ours[1:] != (b"0\n",):
                tell([*options, *given], f"{ours}, and not {theirs}")
