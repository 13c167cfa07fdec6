"""The searches whose system calls fail in turn: the files, the words, and what has to be printed of each file, by hand."""

import os
from dataclasses import dataclass

LONG = [b"ab %d" % it if it % 40 == 0 else b"a line without it, number %d" % it for it in range(4000)]
FILES = {
    "a.log": b"ab 1\nno\nab 2\n",
    "b.log": b"no\nab 3\n",
    "long": b"\n".join(LONG) + b"\n",
    "letters": "Füße\nMaß und maß\n".encode(),
    "wide": b"ab\n" + b"x" * 3_000_000 + b"\nab\n",
    "many": b"\n".join(b"word%d" % it for it in range(3000)) + b"\n",
    "patterns": b"ab\nzz\n",
    "tree/one": b"ab in one\nno\n",
    "tree/sub/two": b"no\nab in two\n",
    "tree/sub/none": b"no\n",
}


@dataclass(frozen=True)
class Search:
    name: str
    words: tuple
    pieces: tuple  # files, and what is printed of each
    status: int = 0
    stdin: str = "empty"
    folder: str = "."
    said: str = ""  # where a message begins without a fault
    is_of_whole: bool = False  # what is printed of a file depends on all of it
    is_silent: bool = False
    is_quiet: bool = False

    @property
    def answer(self):
        return b"".join(printed for _, printed in self.pieces)


def numbered(selected, sign=b":"):
    return b"".join(b"%d%s%s\n" % (it + 1, sign, LONG[it]) for it in selected)


def context(at):
    """A selected line of the long file with a line before and after it."""
    return (numbered([at - 1], b"-") if at else b"") + numbered([at]) + numbered([at + 1], b"-")


SELECTED = range(0, len(LONG), 40)
A, B = b"ab 1\nab 2\n", b"ab 3\n"
SEARCHES = [
    Search("lines", ("-n", "ab", "a.log"), (("a.log", b"1:ab 1\n3:ab 2\n"),)),
    Search("two files", ("ab", "a.log", "b.log"), (("a.log", b"a.log:ab 1\na.log:ab 2\n"), ("b.log", b"b.log:ab 3\n"))),
    Search("blocks", ("-n", "ab", "long"), (("long", numbered(SELECTED)),)),
    Search("context", ("-n", "-C1", "ab", "long"), (("long", b"--\n".join(map(context, SELECTED))),)),
    Search("input", ("ab",), (("a.log", A),), stdin="a.log"),
    Search("input by name", ("-h", "ab", "b.log", "-"), (("b.log", B), ("a.log", A)), stdin="a.log"),
    Search("folder", ("-r", "ab", "tree"), (("tree/one", b"tree/one:ab in one\n"), ("tree/sub/two", b"tree/sub/two:ab in two\n"))),
    Search(
        "this folder",
        ("--directory", "tree", "-r", "ab"),
        (("tree/one", b"one:ab in one\n"), ("tree/sub/two", b"sub/two:ab in two\n")),
        folder="tree",
    ),
    Search("counts", ("-c", "ab", "a.log", "b.log"), (("a.log", b"a.log:2\n"), ("b.log", b"b.log:1\n")), is_of_whole=True),
    Search("count of blocks", ("-c", "ab", "long"), (("long", b"100\n"),), is_of_whole=True),
    Search("names", ("-l", "ab", "a.log", "b.log"), (("a.log", b"a.log\n"), ("b.log", b"b.log\n"))),
    Search("names without", ("-L", "zz", "a.log", "long"), (("a.log", b"a.log\n"), ("long", b"long\n")), status=1, is_of_whole=True),
    Search("matches", ("-o", "ab [12]", "a.log", "b.log"), (("a.log", b"a.log:ab 1\na.log:ab 2\n"),)),
    Search("quiet", ("-q", "ab", "a.log", "b.log"), (), is_quiet=True),
    Search("quiet at the end", ("-q", "ab 3960", "long"), (), is_quiet=True),
    Search("no lines", ("zz", "a.log", "b.log"), (), status=1),
    Search("silent", ("-s", "ab", "a.log", "missing"), (("a.log", b"a.log:ab 1\na.log:ab 2\n"),), status=2, is_silent=True),
    Search("a missing file", ("ab", "missing", "a.log"), (("a.log", b"a.log:ab 1\na.log:ab 2\n"),), status=2, said="hirgrep: missing: "),
    Search("a file of patterns", ("-f", "patterns", "a.log"), (("a.log", A),)),
    Search("patterns of input", ("-f", "-", "a.log"), (("a.log", A),), stdin="patterns"),
    Search("letters", ("-w", "-o", "\\w+ß", "letters"), (("letters", "Maß\nmaß\n".encode()),)),
]
# what needs memory: as it starts, for a line, for lines that may be printed, and for automata
LIMITED = [
    *(it for it in SEARCHES if it.name in ("folder", "letters")),
    Search("a wide line", ("ab", "a.log", "wide"), (("a.log", b"a.log:ab 1\na.log:ab 2\n"), ("wide", b"wide:ab\nwide:ab\n"))),
    Search("wide context", ("-c", "-A1", "-B1", "b", "wide"), (("wide", b"2\n"),)),
    Search("many patterns", ("-f", "many", "-c", "many", "a.log"), (("many", b"many:3000\n"), ("a.log", b"a.log:0\n"))),
]
FEW = ("folder",)


def write_files(room):
    for name, data in {**FILES, "empty": b""}.items():
        path = os.path.join(room, name)
        os.makedirs(os.path.dirname(path), exist_ok=True)
        with open(path, "wb") as file:
            file.write(data)
