"""Runs the tests of GNU grep with another program: the shell scripts as they are, with a folder in front of PATH that has the program as
grep, egrep and fgrep. Their words are translated by gnu_words.py."""

import concurrent.futures
import os
import re
import shlex
import shutil
import signal
import subprocess
import sys
import tempfile

# What tells scripts how many bytes a character has in a locale. The package has it as a program in C.
MOST_BYTES = """#!/usr/bin/env python3
import ctypes, locale, sys
try:
    locale.setlocale(locale.LC_ALL, sys.argv[1])
except locale.Error:
    sys.exit(1)
library = ctypes.CDLL(None)
library.setlocale(locale.LC_ALL, sys.argv[1].encode())
library.__ctype_get_mb_cur_max.restype = ctypes.c_size_t
print(library.__ctype_get_mb_cur_max())
"""
WORDS = os.path.join(os.path.dirname(os.path.realpath(__file__)), "gnu_words.py")
# Messages are compared after the program's name.
WRAPPER = """#!/bin/bash
exec 3>&1
{ %s "$@" 2>&1 >&3 3>&- 4>&- | /bin/sed -u 's/^%s: /grep: /' >&2 3>&-; exit "${PIPESTATUS[0]}"; }
"""
# What is appended to the settings of all scripts: a locale counts as there if the system has it, whatever the program makes of its classes.
INIT = """
path_prepend_ "$abs_top_builddir/tests"
require_compiled_in_MB_support () { :; }
"""
SECONDS = 180
# names that scripts ask for, with their sources
LOCALES = {"en_US.UTF-8": ("en_US", "UTF-8"), "cs_CZ.UTF-8": ("cs_CZ", "UTF-8"), "tr_TR.UTF-8": ("tr_TR", "UTF-8"), "ru_RU.KOI8-R": ("ru_RU", "KOI8-R"),
           "ja_JP.EUC-JP": ("ja_JP", "EUC-JP"), "ja_JP.eucJP": ("ja_JP", "EUC-JP"), "ja_JP.SHIFT_JIS": ("ja_JP", "SHIFT_JIS"), "zh_CN.gb18030": ("zh_CN", "GB18030")}


def write(path, text):
    with open(path, "w", encoding="utf-8") as file:
        file.write(text)
    os.chmod(path, 0o755)


def make_locales(folder):
    """Makes the locales that scripts ask for. Returns those that can't be made."""
    missing = []
    for name, (source, charset) in LOCALES.items():
        path = os.path.join(folder, name)
        if os.path.isdir(path):
            continue
        os.makedirs(folder, exist_ok=True)
        try:
            subprocess.run(["localedef", "--no-archive", "-c", "-i", source, "-f", charset, path], capture_output=True, check=False)
        except OSError:
            pass
        if not os.path.isdir(path):
            missing.append(name)
    return missing


def names_of(folder):
    """The scripts, in the order of the package."""
    with open(os.path.join(folder, "tests", "Makefile.am"), encoding="utf-8") as file:
        listed = re.search(r"^TESTS =\s*\\\n(.*?)\n\n", file.read(), re.M | re.S).group(1)
    return listed.replace("\\", " ").split()


def prepare(folder, room, program):
    """A copy of the tests in a room, with the program in `src`."""
    shutil.copytree(os.path.join(folder, "tests"), os.path.join(room, "tests"))
    os.makedirs(os.path.join(room, "src"))
    name = os.path.basename(program)
    for each, words in (("grep", ""), ("egrep", "-E "), ("fgrep", "-F ")):
        run = " ".join(shlex.quote(it) for it in (sys.executable, "-ESB", WORDS, program, each))
        text = f'#!/bin/bash\nexec -a {each} {program} {words}"$@"\n' if name == "grep" else WRAPPER % (run, name)
        write(os.path.join(room, "src", each), text)
    write(os.path.join(room, "tests", "get-mb-cur-max"), MOST_BYTES)
    init = os.path.join(room, "tests", "init.cfg")
    with open(init, "a", encoding="utf-8") as file:
        file.write(INIT)


def variables(room, locales):
    kept = {key: os.environ[key] for key in ("HOME", "USER", "LOGNAME", "SHELL") if key in os.environ}
    return {**kept, "PATH": f"{room}/src:{os.environ['PATH']}", "LC_ALL": "C", "VERSION": "3.8", "LOCALE_FR": "none", "LOCALE_FR_UTF8": "none", "AWK": "awk",
            "abs_top_builddir": room, "abs_top_srcdir": room, "abs_srcdir": f"{room}/tests", "built_programs": "grep egrep fgrep", "host_triplet": "",
            "srcdir": ".", "top_srcdir": "..", "CC": "cc", "MAKE": "make", "MALLOC_PERTURB_": "1", "PACKAGE_VERSION": "3.8",
            "PACKAGE_BUGREPORT": "bug-grep@gnu.org", "PERL": "perl", "SHELL": "/bin/sh", "PCRE_WORKS": "1", "TMPDIR": room, "LOCPATH": locales}


def command_of(name):
    if name.endswith(".pl"):
        return ["perl", "-w", "-I.", "-MCoreutils", "-MCuSkip", f"-MCuTmpdir qw({name})", name]
    return ["sh", name]


def run_script(room, locales, name):
    """What came of a script: passed, skipped or differs, and what it printed."""
    words = ["bash", "-c", 'exec "$@" 9>&2', "bash", *command_of(name)]
    child = subprocess.Popen(words, cwd=f"{room}/tests", env=variables(room, locales), stdin=subprocess.DEVNULL, stdout=subprocess.PIPE, stderr=subprocess.STDOUT,
                             start_new_session=True)
    try:
        printed, _ = child.communicate(timeout=SECONDS)
    except subprocess.TimeoutExpired:
        os.killpg(child.pid, signal.SIGKILL)
        printed, _ = child.communicate()
        return "differs", "it didn't end\n" + printed.decode(errors="replace")
    kinds = {0: "passed", 77: "skipped"}
    return kinds.get(child.returncode, "differs"), printed.decode(errors="replace")


def run_scripts(folder, locales, program, names, jobs):
    """What came of each script."""
    room = os.path.realpath(tempfile.mkdtemp())
    try:
        prepare(folder, room, program)
        with concurrent.futures.ThreadPoolExecutor(jobs) as pool:
            return dict(zip(names, pool.map(lambda it: run_script(room, locales, it), names)))
    finally:
        subprocess.run(["chmod", "-R", "u+rwx", room], check=False, stderr=subprocess.DEVNULL)
        shutil.rmtree(room, ignore_errors=True)
