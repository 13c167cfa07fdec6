"""Which files are searched: the globs of GNU grep's options beside GNU grep, and --glob, --type, --files and --max-depth beside ripgrep, over a
small tree, with random globs."""

import os
import random

TREE = (
    "a.c", "a.h", "b.c", "B.C", "ab", "a b.txt", "a[b", "a-b", "]x", "!x", "-x", "a,b", "{a}", "x.tar.gz", ".hidden", ".config/x.c", "src/a.c", "src/b.h",
    "src/deep/a.c", "src/deep/er/b.c", "src/deep/er/.x", "lib/a.c", "lib/src/a.c", "lib/src/x.txt", "doc/a.txt", "doc/é.txt", "doc/ää.c", "a/b/c", "b/a/c",
)
# parts of globs
PARTS = ("a", "b", "c", "x", ".c", ".h", ".txt", "src", "deep", "lib", "*", "*", "*", "?", "?", "/", "[ab]", "[!a]", "[^b]", "[a-c]", "[]x]", "[a-]", "[!]]", ".", "-", "é")
GREP_PARTS = PARTS + ("\\*", "\\a", "[", "]", "[\\]]", "{a,b}", "**")
GLOB_PARTS = PARTS + ("**/", "/**", "/**/", "**", "{a,b}", "{*.c,*.h}", "{src,lib}", "\\*", "]", "{,a}")
# what a command line may give instead of random options
GREP_CASES = (
    ["--include=*.c"], ["--exclude=*.c"], ["--include=*.c", "--exclude=a*"], ["--exclude=a*", "--include=*.c"], ["--exclude=a*", "--include=a.c"],
    ["--exclude-dir=src"], ["--exclude-dir=src/"], ["--exclude-dir=.*"], ["--exclude-dir=deep", "--exclude-dir=lib"], ["--exclude-from=globs"],
    ["--exclude-from=globs", "--include=a.c"], ["--include=a.c", "--exclude-from=globs"], ["--include=src/*"], ["--exclude=src/a.c"], ["--exclude-dir=*"],
)
GREP_FILES = ([], ["."], ["src", "lib"], ["src/"], ["./src", "a.c"], ["src/a.c", "lib/src/a.c", "b.c"], ["doc", "src/deep/er"])


def make_tree(room):
    for path in TREE:
        full = os.path.join(room, path)
        os.makedirs(os.path.dirname(full), exist_ok=True)
        with open(full, "w", encoding="utf-8") as file:
            file.write("ab\n")
    with open(os.path.join(room, "globs"), "w", encoding="utf-8") as file:
        file.write("*.h\n\n  \nb.c  \n\\*\nzab\n")


def random_glob(rng, parts):
    return "".join(rng.choice(parts) for _ in range(rng.randrange(1, 5)))


def grep_options(rng):
    return [f"--{rng.choice(('include', 'exclude', 'exclude-dir'))}={random_glob(rng, GREP_PARTS)}" for _ in range(rng.randrange(1, 4))]


def lines(ran):
    return ran[0], sorted(it.removeprefix(b"./") for it in ran[1].split(b"\n"))


def ascii_lines(ran):
    """Leaves out names with other characters, of which ripgrep takes a byte for one."""
    return ran[0], [it for it in lines(ran)[1] if it.isascii()]


def has_class_name(words):
    return any(name in word for word in words for name in ("[:", "[.", "[="))


def beside_grep(program, room, run, tell, rng, count):
    cases = [(options, files) for options in GREP_CASES for files in GREP_FILES]
    cases += [(grep_options(rng), rng.choice(GREP_FILES)) for _ in range(count)]
    for options, files in cases:
        words = ["-rl", *options, "ab", *files]
        if has_class_name(words):
            continue
        ours, theirs = (lines(run([it, *words], room)) for it in (program, "grep"))
        if ours != theirs:
            tell(words, f"{ours}, and not {theirs}")


def type_options(rng):
    """Types of files that are in the tree, and the order in which ripgrep takes them: those that are left out come last."""
    return [rng.choice(("-tc", "-th", "--type=txt", "--type-not=c", "--type-not=txt", "--type-not=h")) for _ in range(rng.randrange(1, 3))]


def beside_ripgrep(program, room, run, tell, rng, count):
    for number in range(count):
        words = [f"-g{rng.choice(('', '', '!'))}{rng.choice(('', '', '/'))}{random_glob(rng, GLOB_PARTS)}{rng.choice(('', '', '/'))}" for _ in range(rng.randrange(1, 3))]
        # with both, a file has to be chosen by the globs and by the types, where ripgrep asks for no type of a file that a glob names
        words = type_options(rng) if number % 3 == 0 else words
        words += ["--max-depth", str(rng.randrange(4))] if number % 7 == 0 else []
        if any("//" in it for it in words):
            continue
        ours = ascii_lines(run([program, "--files", *words], room))
        theirs = ascii_lines(run(["rg", "--no-config", "--no-ignore", "--hidden", "--files", *words], room))
        if ours != theirs:
            tell(["--files", *words], f"{ours}, and not {theirs}")


def compare_globs(program, room, run, tell, tools, count=150, seed=1):
    """Runs the options that choose files, in a folder of their own, beside the tools that there are."""
    place = os.path.join(room, "globs")
    os.mkdir(place)
    make_tree(place)
    rng = random.Random(seed)
    if "grep" in tools:
        beside_grep(program, place, run, tell, rng, count)
    if "rg" in tools:
        beside_ripgrep(program, place, run, tell, rng, count)
