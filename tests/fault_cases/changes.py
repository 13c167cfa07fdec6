"""Files and folders that change while they are searched. The program waits in a write to a full pipe while a change is made, so that it is
known what was read before. The system's read returns the bytes that a file has when it is read, and a file that was opened stays the
same whatever becomes of its name."""

import fcntl
import os
import shutil
import time

from .runs import NO_END, Check, Result, ended, error, start

PIPE = 4096
LINES = b"".join(b"ab %06d of the first file\n" % it for it in range(20_000))
OTHERS = b"".join(b"ab %06d of the other file\n" % it for it in range(20_000))
MANY = b"ab\n" * 10_000


def write(path, data):
    with open(path, "wb") as file:
        file.write(data)


def is_asleep(process):
    with open(f"/proc/{process}/stat", encoding="utf-8", errors="replace") as file:
        return file.read().rpartition(")")[2].split()[0] == "S"


def wait_until_full(ran):
    """Waits until the program waits for room in its full output. It reads nothing that could make it wait."""
    for _ in range(2000):
        if ran.poll() is not None:
            return
        if all(is_asleep(ran.pid) and not time.sleep(0.002) for _ in range(5)):
            return
    raise TimeoutError


def run_with_change(words, room, change):
    """Runs a program, and makes the change, given the program's process, once its output is full."""
    reading, writing = os.pipe()
    fcntl.fcntl(writing, fcntl.F_SETPIPE_SZ, PIPE)
    with start(words, room, stdout=writing) as ran, os.fdopen(reading, "rb") as output:
        os.close(writing)
        wait_until_full(ran)
        change(ran.pid)
        printed = output.read()
        result = ended(ran)
    return result if result == NO_END else Result(result.status, printed, result.said)


def truncate(path, length):
    os.truncate(path, length)


def append(path, data):
    with open(path, "ab") as file:
        file.write(data)


def overwrite(path, data):
    with open(path, "r+b") as file:
        file.write(data)


def rename_over(path, data):
    write(f"{path}.new", data)
    os.rename(f"{path}.new", path)


def beginning(result, before, after):
    """The result, with `as read` for what was printed if that is a beginning of one content and the rest of another of the same length.
    Where the second begins isn't known: it is where the first read after the change began."""
    text = result.printed
    at = len(os.path.commonprefix([text, before]))
    fits = 0 < at < len(before) and text[at:] == after[at:]
    return Result(result.status, b"as read" if fits else text, result.said)


def shrunk(result, before):
    """The result, with `as read` for what was printed if that is a beginning of the content. The last line has a line feed in any case."""
    text = result.printed
    fits = PIPE // 2 <= len(text) < len(before) and (before.startswith(text) or before.startswith(text[:-1]) and text.endswith(b"\n"))
    return Result(result.status, b"as read" if fits else text, result.said)


class Changes:
    def __init__(self, program, room):
        self.program, self.room = program, room

    def path(self, name):
        return os.path.join(self.room, name)

    def file(self, change):
        """A run over a file that changes."""
        write(self.path("changing"), LINES)
        return run_with_change([self.program, "ab", "changing"], self.room, lambda _: change(self.path("changing")))

    def file_checks(self):
        """The name of each change, the change, and what has to be printed."""
        rows = [
            ("it grows", lambda path: append(path, OTHERS), LINES + OTHERS),
            ("it grows, without a last line feed", lambda path: append(path, b"ab"), LINES + b"ab\n"),
            ("another file gets its name", lambda path: rename_over(path, OTHERS), LINES),
            ("it is removed", os.remove, LINES),
            ("its name becomes that of a folder", lambda path: (os.remove(path), os.mkdir(path), os.rmdir(path)), LINES),
        ]
        for name, change, printed in rows:
            yield Check(f"a file is read, and {name}", lambda change=change: self.file(change), 0, printed)
        for length in (0, 100, PIPE + 5, 100_000):
            run = lambda length=length: shrunk(self.file(lambda path: truncate(path, length)), LINES)
            yield Check(f"a file is read, and is cut to {length} bytes", run, 0, b"as read")
        run = lambda: beginning(self.file(lambda path: overwrite(path, OTHERS)), LINES, OTHERS)
        yield Check("a file is read, and is overwritten", run, 0, b"as read")

    def make_tree(self):
        """A folder with three files, and one with one file, each larger than a pipe."""
        for name in ("changing.d", "first.d"):
            shutil.rmtree(self.path(name), ignore_errors=True)
            os.mkdir(self.path(name))
        for name in ("changing.d/a", "changing.d/b", "changing.d/c", "first.d/first"):
            write(self.path(name), MANY)

    def names(self, change, *words):
        """A run over a folder that changes, with the names of the files whose lines were all printed as the output."""
        self.make_tree()
        result = run_with_change([self.program, *words], self.room, change)
        lines = sorted(set(result.printed.split(b"\n")) - {b""})
        names = [it.split(b":")[0] for it in lines if result.printed.count(it) == 10_000]
        return Result(result.status, b" ".join(names), b"".join(sorted(result.said.splitlines(True))))

    def before_listing(self):
        """The folder changes before it is listed: all is as if it had been so from the start."""

        def change(_):
            os.remove(self.path("changing.d/a"))
            os.mkdir(self.path("changing.d/sub"))
            write(self.path("changing.d/sub/e"), MANY)
            os.symlink("b", self.path("changing.d/f"))
            os.mkfifo(self.path("changing.d/g"))

        return self.names(change, "-r", "ab", "first.d", "changing.d")

    def waiting(self, process):
        """The paths of the files that are in the listed folder and that the process hasn't opened."""
        opened = [os.readlink(f"/proc/{process}/fd/{it}") for it in os.listdir(f"/proc/{process}/fd")]
        paths = [os.path.realpath(self.path(f"changing.d/{it}")) for it in "abc"]
        return [it for it in paths if it not in opened]

    def removed(self):
        """A file is removed while the first of its folder is searched: that is an error, and the rest is found."""
        gone = []

        def change(process):
            gone.append(self.waiting(process)[0])
            os.remove(gone[0])

        result = self.names(change, "-r", "ab", "changing.d")
        name = os.path.basename(gone[0]).encode()
        return Result(result.status, b"%d files" % len(result.printed.split()), result.said.replace(b"/" + name + b":", b"/gone:"))

    def becomes(self, make):
        """The files that wait become something else while the first of their folder is searched."""

        def change(process):
            for path in self.waiting(process):
                os.remove(path)
                make(path)

        result = self.names(change, "-r", "ab", "changing.d")
        return Result(result.status, b"%d files" % len(result.printed.split()), result.said)

    def folder_checks(self):
        yield Check("a folder changes before it is listed", self.before_listing, 0, b"changing.d/b changing.d/c changing.d/sub/e first.d/first")
        missing = error("changing.d/gone", "No such file or directory")
        yield Check("a file is removed after its folder was listed", self.removed, 2, b"2 files", missing)
        rows = [
            ("links", lambda path: os.symlink("/etc/passwd", path), 1),
            ("FIFOs", os.mkfifo, 1),
            ("folders", lambda path: (os.mkdir(path), write(f"{path}/x", MANY)), 3),
        ]
        for name, make, count in rows:
            yield Check(f"files become {name} after they were listed", lambda make=make: self.becomes(make), 0, b"%d files" % count)

    def checks(self):
        yield from self.file_checks()
        yield from self.folder_checks()
