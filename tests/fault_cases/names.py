"""Names of files: long ones, and those with line feeds, escape sequences and bytes that aren't UTF-8.

Where a name is printed to a file or a pipe, each byte is printed, as GNU grep and ripgrep do, so that programs can read it. To a terminal
GNU grep and ripgrep also print each byte. GNU ls doesn't: since a name could change what a terminal shows, or what it does, `ls -q`, which
is the default there, prints a question mark for each control character. hirgrep does as `ls -q` does, unless a zero byte ends each name. A
message on standard error is one line whatever the name, so there the same is wanted, terminal or not."""

import os
import pty
import re
import select

from .runs import Check, Result, end, error, run, start

CONTROLS = ["a\nb", "esc\33[31mred\7", "del\x7f", "tab\there", "return\rx", "next\x85line", "csi\x9b31m"]
PLAIN = ["ab", "-x", "a:b", " a ", "ä ☺", "*", "'\"\\"]
MARK = re.compile("[\0-\x1f\x7f-\x9f]")
BROKEN = "x(\\?|\\\\xff|\ufffd)"  # some forms of x and FF that are clear
MIXED = "a\n\33[31m\7\x7f" * 27  # 243 bytes
MANY = 300
# words before a name, the status, and what is printed before and after it
SHOWN = [
    (("-H", "ab"), 0, b"", b":ab\n"),
    (("-o", "-H", "a"), 0, b"", b":a\n"),
    (("-c", "-H", "ab"), 0, b"", b":1\n"),
    (("-l", "ab"), 0, b"", b"\n"),
    (("-L", "abc"), 1, b"", b"\n"),
    (("--files",), 0, b"", b"\n"),
    (("--heading", "-H", "ab"), 0, b"", b"\nab\n"),
    (("--vimgrep", "ab"), 0, b"", b":1:1:ab\n"),
    (("--color=always", "-l", "ab"), 0, b"\33[35m\33[K", b"\33[m\33[K\n"),
]
ENDED_BY_ZERO = [(("-Z", "-H", "ab"), 0, b"", b"\0ab\n"), (("-Z", "-l", "ab"), 0, b"", b"\0"), (("-Z", "--files"), 0, b"", b"\0")]


def shown(name):
    """As `ls -q` prints it."""
    return MARK.sub("?", name)


def at_terminal(words, room, is_error=False, given=os.devnull):
    """A run whose standard output, or standard error, is a terminal. What comes there is the output, with line feeds as they were."""
    ours, theirs = pty.openpty()
    streams = {"stderr" if is_error else "stdout": theirs}
    with open(given, "rb") as file, start(words, room, stdin=file, **streams) as ran:
        os.close(theirs)
        printed = read_terminal(ours)
        os.close(ours)
        if printed is None:
            return end(ran)
        ran.wait()
    return Result(ran.returncode, printed.replace(b"\r\n", b"\n"))


def first_line(result):
    return Result(result.status, result.printed.splitlines(True)[0], result.said)


def read_terminal(ours):
    """All that comes to a terminal until no process has it open, or nothing if none comes for long."""
    printed = b""
    while select.select([ours], [], [], 20)[0]:
        try:
            printed += os.read(ours, 65536)
        except OSError:
            return printed
    return None


class Names:
    def __init__(self, program, room):
        self.program, self.room = program, room
        self.folder = os.path.join(room, "names")
        os.mkdir(self.folder)
        for name in (*CONTROLS, *PLAIN):
            self.write(name)

    def write(self, name):
        path = os.path.join(os.fsencode(self.folder), os.fsencode(name))
        os.makedirs(os.path.dirname(path), exist_ok=True)
        with open(path, "wb") as file:
            file.write(b"ab\n")

    def run(self, *words):
        return run([self.program, *words], self.folder)

    def sorted(self, *words):
        """A run over a folder, whose files may come in any order: so that names of several lines stay whole, with `;` after each."""
        result = self.run(*words)
        return Result(result.status, b";".join(sorted(result.printed.split(b":ab\n"))), result.said)

    def plain_checks(self):
        for name in (*CONTROLS, *PLAIN):
            raw = os.fsencode(name)
            yield Check(f"the name {name!r}, before lines", lambda it=name: self.run("-H", "ab", f"./{it}"), 0, b"./" + raw + b":ab\n")
            yield Check(f"the name {name!r}, with -l", lambda it=name: self.run("-l", "-e", "ab", "--", it), 0, raw + b"\n")
        all_of_them = b";".join(sorted([b"", *map(os.fsencode, (*CONTROLS, *PLAIN))]))
        yield Check("all names, of a folder", lambda: self.sorted("-r", "ab"), 0, all_of_them)

    def at_terminal(self, words, name, printed, status=0):
        """A check of a run over a file, of which the output comes to a terminal."""
        return Check(f"at a terminal, {' '.join(words)}, the name {name!r}", lambda: at_terminal([self.program, *words, f"./{name}"], self.folder), status, printed)

    def terminal_checks(self):
        for name in (*CONTROLS, *PLAIN):
            for words, status, before, after in SHOWN:
                yield self.at_terminal(words, name, before + b"./" + shown(name).encode() + after, status)
            for words, status, before, after in ENDED_BY_ZERO:
                yield self.at_terminal(words, name, before + b"./" + os.fsencode(name) + after, status)
        everything = sorted(f"./{shown(it)}" for it in (*CONTROLS, *PLAIN))
        yield Check("at a terminal, all names, of a folder", self.all_at_terminal, 0, "\n".join(everything).encode())
        label = CONTROLS[1]
        run = lambda: at_terminal([self.program, "-H", f"--label={label}", "ab", "-"], self.folder, given=os.path.join(self.folder, "ab"))
        yield Check("at a terminal, a label", run, 0, shown(label).encode() + b":ab\n")

    def all_at_terminal(self):
        """The names that a search of the folder lists, in an order that doesn't depend on the folder's."""
        result = at_terminal([self.program, "-rl", "ab", "."], self.folder)
        return Result(result.status, b"\n".join(sorted(result.printed.splitlines())), result.said)

    def message_checks(self):
        """No control character of a name is in a message, which has one line."""
        for name in CONTROLS:
            path = f"./{name} missing"
            said = error(shown(path), "No such file or directory")
            yield Check(f"a missing file {path!r}", lambda it=path: self.run("ab", it), 2, b"", said)
            run = lambda it=path: at_terminal([self.program, "ab", it], self.folder, True)
            plain = f"hirgrep: {shown(path)}: No such file or directory\n".encode()
            yield Check(f"a missing file {path!r}, at a terminal", run, 2, plain)

    def long_checks(self):
        longest = "x" * 255
        self.write(longest)
        yield Check("a name of 255 bytes", lambda: self.run("-H", "ab", longest), 0, longest.encode() + b":ab\n")
        too_long = "File name too long"
        said = error("y" * 256, too_long)
        yield Check("a name of 256 bytes", lambda: self.run("ab", "y" * 256), 2, b"", said)
        path = "./" * 2046 + "ab"
        yield Check("a path of 4,094 bytes", lambda: self.run("-H", "ab", path), 0, path.encode() + b":ab\n")
        said = error("./" + path, too_long)
        yield Check("a path of 4,096 bytes", lambda: self.run("ab", "./" + path), 2, b"", said)
        feeds = "./" * 1900 + "\n" * 250
        self.write("\n" * 250)
        yield Check("a path with 250 line feeds", lambda: self.run("-H", "ab", feeds), 0, feeds.encode() + b":ab\n")

    def mixed_checks(self):
        """A path of almost 4 KB whose last name has line feeds and escape sequences."""
        path = "./" * 1900 + MIXED
        self.write(MIXED)
        words = [self.program, "-H", "ab", path]
        yield Check("a path of 4,043 bytes with escape sequences", lambda: self.run(*words[1:]), 0, path.encode() + b":ab\n")
        yield Check("that path, at a terminal", lambda: at_terminal(words, self.folder), 0, shown(path).encode() + b":ab\n")
        said = error(shown(path) + "x", "No such file or directory")
        yield Check("that path of a missing file", lambda: self.run("ab", path + "x"), 2, b"", said)

    def listed(self, folder):
        """A run over a folder, of which counts whether each file is found."""
        result = run([self.program, "-rh", "ab", folder], self.room)
        return Result(result.status, b"all" if result.printed == b"ab\n" * MANY else b"some", result.said)

    def many_checks(self):
        """Folders with many files. The system lists as many names as a buffer has room for, and fails if that is none."""
        for length in (8, 20, 60, 255):
            folder = os.path.join(self.room, f"names{length}")
            os.mkdir(folder)
            for number in range(MANY):
                with open(os.path.join(folder, f"{number:03}".ljust(length, "n")), "wb") as file:
                    file.write(b"ab\n")
            yield Check(f"a folder of {MANY} names of {length} bytes", lambda it=f"names{length}": self.listed(it), 0, b"all", "")

    def make_deep(self):
        """A file below folders with long names, whose path is longer than a path may be, and one that is found on the way."""
        here = os.getcwd()
        os.mkdir(os.path.join(self.room, "deep"))
        os.chdir(os.path.join(self.room, "deep"))
        with open("first", "wb") as file:
            file.write(b"ab\n")
        for _ in range(20):
            os.mkdir("d" * 250)
            os.chdir("d" * 250)
        with open("last", "wb") as file:
            file.write(b"ab\n")
        os.chdir(here)

    def deep(self):
        """The path in a message is long, so only whether it is below the folder is kept of it."""
        result = run([self.program, "-r", "ab", "deep"], self.room)
        return Result(result.status, result.printed, re.sub(b"deep(/d{250})+", b"deep/..", result.said))

    def deep_checks(self):
        self.make_deep()
        said = error("deep/..", "File name too long")
        yield Check("a folder deeper than a path may be", self.deep, 2, b"deep/first:ab\n", said)

    def broken_checks(self):
        """Names that aren't UTF-8. GNU grep searches such files; hirgrep has to say which file it doesn't search."""
        said = f"hirgrep: .*{BROKEN}.*\n"
        yield Check("an argument that isn't UTF-8", lambda: self.run("ab", b"x\xff"), 2, b"", said)
        for name in (b"broken/x\xff", b"broken/ok"):
            self.write(os.fsdecode(name))
        said = f"hirgrep: broken/{BROKEN}: .*\n"
        name, printed = "a name in a folder that isn't UTF-8", b"broken/ok:ab\n"
        yield Check(name, lambda: self.run("-r", "ab", "broken"), 2, printed, said)
        yield Check(f"{name}, with -s", lambda: self.run("-rs", "ab", "broken"), 2, printed)

    def pattern_checks(self):
        """A rejected pattern is shown with the offset of the error; its control characters don't reach a terminal either."""
        said = "hirgrep: pattern 0: unclosed group\n    a?(\n      ^\n"
        run = lambda: at_terminal([self.program, "a\7(", "ab"], self.folder, True)
        yield Check("a pattern with a control character, at a terminal", run, 2, said.encode())
        option = "--\33[31m"
        said = f"error: unexpected argument '{shown(option)}' found\n"
        run = lambda: first_line(at_terminal([self.program, option], self.folder, True))
        yield Check("an option with a control character, at a terminal", run, 2, said.encode())

    def checks(self):
        yield from self.plain_checks()
        yield from self.terminal_checks()
        yield from self.message_checks()
        yield from self.long_checks()
        yield from self.mixed_checks()
        yield from self.many_checks()
        yield from self.deep_checks()
        yield from self.broken_checks()
        yield from self.pattern_checks()
