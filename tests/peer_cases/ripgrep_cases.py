"""Runs the tests of ripgrep with another program. Each test makes files in a folder, runs commands there and compares what they print."""

import json
import os
import re
import shutil
import subprocess
import tempfile

from peer_cases import rust_text
from peer_cases.ripgrep_words import hirgrep_words

FILES = ["feature", "misc", "regression", "multiline", "binary", "json"]
# no option of ripgrep either
UNKNOWN = {"--wat"}
REJECTED = re.compile(r"error: unexpected argument '(-[^'= ]+)")


class Differs(Exception):
    """What was printed isn't what the test expects."""


class Rejected(Exception):
    """The program hasn't got this option."""


class Text(str):
    """A string with the calls that it has in Rust."""

    def contains(self, part):
        return part in self

    def is_empty(self):
        return not self

    def repeat(self, times):
        return Text(self * times)

    def as_bytes(self):
        return self.encode()


class Items(list):
    def len(self):
        return len(self)


class Message(dict):
    """A JSON event, or a part of one."""

    def __getattr__(self, name):
        if name.startswith("unwrap_"):
            kind = name.removeprefix("unwrap_")
            if self["type"] != kind:
                raise Differs(f"an event of the kind {self['type']}, not {kind}")
            return lambda: self["data"]
        value = self[name]
        return Items(value) if isinstance(value, list) else value

    def clone(self):
        return self


class Data:
    @staticmethod
    def text(text):
        return {"text": text}

    @staticmethod
    def bytes(text):
        return {"bytes": text}


def record(**fields):
    return {"match" if key == "m" else key: value for key, value in fields.items()}


def bytes_of(it):
    return it if isinstance(it, bytes) else it.encode("utf-8", "surrogateescape")


class Output:
    def __init__(self, done):
        self.stdout, self.stderr, self.status = done.stdout, done.stderr, done.returncode

    def unwrap(self):
        return self


class Command:
    """A command line of ripgrep, run as one of the program."""

    def __init__(self, setting, folder):
        self.setting, self.folder, self.words, self.variables = setting, folder, [], {}

    def arg(self, word):
        self.words.append(word if isinstance(word, str) else os.fsdecode(word))
        return self

    def args(self, words):
        for word in words:
            self.arg(word)
        return self

    def current_dir(self, folder):
        self.folder = str(folder)
        return self

    def cmd(self):
        return self

    def env(self, name, value):
        self.variables[name] = value
        return self

    def output(self, given=None):
        words = self.setting.words(self.words, given is not None)
        self.setting.ran = True
        env = {**os.environ, "LC_ALL": "C.UTF-8", **self.variables}
        source = {"stdin": subprocess.DEVNULL} if given is None else {"input": given}
        done = subprocess.run(words, cwd=self.folder, capture_output=True, env=env, timeout=60, check=False, **source)
        found = REJECTED.search(done.stderr.decode(errors="replace")) if not self.setting.is_ripgrep else None
        if found and found.group(1) not in UNKNOWN:
            raise Rejected(found.group(1))
        self.setting.last = (words, done)
        return Output(done)

    def succeeded(self, output):
        if output.status != 0:
            raise Differs(f"status {output.status}: {output.stderr.decode(errors='replace')}")
        return Text(output.stdout.decode(errors="replace"))

    def stdout(self):
        return self.succeeded(self.output())

    def pipe(self, given):
        return self.succeeded(self.output(bytes_of(given)))

    def assert_err(self):
        if self.output().status == 0:
            raise Differs("status 0")

    def assert_exit_code(self, code):
        status = self.output().status
        if status != code:
            raise Differs(f"status {status}, not {code}")

    def assert_non_empty_stderr(self):
        output = self.output()
        if output.status == 0 or not output.stderr:
            raise Differs("no error")


class Path(str):
    def join(self, name):
        return Path(os.path.join(str(self), name))


class Done:
    def __init__(self, ok):
        self.ok = ok

    def is_ok(self):
        return self.ok


class Dir:
    """The folder of a test."""

    def __init__(self, setting, folder):
        self.setting, self.folder = setting, folder

    def named(self, name):
        return os.path.join(os.fsencode(self.folder), bytes_of(name))

    def create_bytes(self, name, data):
        with open(self.named(name), "wb") as file:
            file.write(data)

    def create(self, name, text):
        self.create_bytes(name, bytes_of(text))

    def try_create(self, name, text):
        self.create(name, text)
        return Done(True)

    def try_create_bytes(self, name, data):
        self.create_bytes(name, data)
        return Done(True)

    def create_size(self, name, size):
        self.create_bytes(name, b"")
        os.truncate(self.named(name), size)

    def create_dir(self, name):
        os.makedirs(self.named(name), exist_ok=True)

    def remove(self, name):
        os.remove(self.named(name))

    def link_dir(self, source, target):
        os.symlink(self.named(source), self.named(target))

    link_file = link_dir

    def command(self):
        return Command(self.setting, self.folder)

    def path(self):
        return Path(self.folder)

    def is_pcre2(self):
        return False


def sort_lines(text):
    return Text("\n".join(sorted(text.strip().splitlines())) + "\n")


def equal(expected, got):
    if expected != got:
        raise Differs(f"expected\n{expected}\ngot\n{got}")


def be(value):
    if not value:
        raise Differs("a condition doesn't hold")


class Setting:
    """The program, and what the command that ran last printed."""

    def __init__(self, program, is_ripgrep, options):
        self.program, self.is_ripgrep, self.options = program, is_ripgrep, options
        self.ran, self.last = False, None

    def words(self, words, reads_input):
        if self.is_ripgrep:
            return [self.program, "--no-config", "--path-separator", "/", *words]
        return [self.program, *hirgrep_words(words, reads_input, self.options)]


def names_for(folder):
    def include_bytes(name):
        with open(os.path.join(folder, name), "rb") as file:
            return file.read()
    def json_decode(text):
        return Items(json.loads(line, object_hook=Message) for line in text.splitlines())
    class String:
        @staticmethod
        def from_utf8_lossy(data):
            return Text(data.decode(errors="replace"))
    class OsStr:
        from_bytes = new = staticmethod(lambda it: it)
    return {"Text": Text, "Data": Data, "record": record, "include_bytes": include_bytes, "json_decode": json_decode, "sort_lines": sort_lines,
            "eqnice": equal, "eqnice_repr": equal, "assert_eq": equal, "assert_": be, "Some": lambda it: it, "String": String, "OsStr": OsStr,
            "cmd_exists": lambda it: True, "cfg": lambda **_: False, "format": lambda form, **parts: Text(form.format(**parts)), "true": True, "false": False, "__builtins__": {}}


def cases(folder):
    """Yields the file, the name and the code of each test, and the names that it may use."""
    for file in FILES:
        names = names_for(folder)
        for each in ("hay.rs", f"{file}.rs"):
            with open(os.path.join(folder, each), encoding="utf-8") as source:
                text = source.read()
            for line in rust_text.constants(text):
                exec(line, names)
        for name, code in rust_text.tests(text):
            yield file, name, code, names


def run_case(setting, code, names):
    """Runs a test. Returns what came of it, and a text that says more: passed, skipped, rejected with the option, differs, or unread."""
    room = tempfile.mkdtemp()
    setting.ran, setting.last = False, None
    try:
        names = dict(names)
        exec(code.replace("assert(", "assert_(").replace(".to_vec()", ""), names)
        names["test"](Dir(setting, room), Command(setting, room))
    except Rejected as error:
        return "rejected", str(error)
    except (Differs, AssertionError, UnicodeError, json.JSONDecodeError) as error:
        return "differs", str(error)
    except subprocess.TimeoutExpired:
        return "differs", "it didn't end"
    except (NameError, TypeError, AttributeError, KeyError, IndexError) as error:
        return "unread", repr(error)
    finally:
        shutil.rmtree(room, ignore_errors=True)
    return ("passed" if setting.ran else "skipped"), ""
