#!/usr/bin/env python3
"""The toolchain's rt, which computes each crate's checksum once in a call, and whose `try` doesn't look for reserved names. By itself the rt of
older kits computes a checksum once for each path through crates.txt, thousands for the upper crates: a minute or two for each check of these. `rt try`
reads all crates a second time for these names, next to the run, which takes as long as what it compiles; rt check finds them too. rt starts some
programs in a session of their own. Linux may give each session the same share of the processors, whatever its priority, so a session's is lowered too.

    tools/fast_rt.py WORD..    rt with these words

Other scripts import it for rt's own module (`load_rtlib`). If rt has another form than this file knows, it is run as it is."""

import contextlib
import importlib.machinery
import importlib.util
import os
import shutil
import subprocess
import sys
import threading

sys.dont_write_bytecode = True
RT = os.path.realpath(shutil.which("rt") or "rt")
HERE = os.path.realpath(__file__)


def load_rtlib():
    """Loads rt's own module, with checksums that are computed once for each crate of a list."""
    loader = importlib.machinery.SourceFileLoader("rtlib", f"{os.path.dirname(RT)}/rtlib.py")
    rtlib = importlib.util.module_from_spec(importlib.util.spec_from_loader("rtlib", loader))
    sys.modules["rtlib"] = rtlib
    loader.exec_module(rtlib)
    compute_once(rtlib)
    return rtlib


def compute_once(rtlib):
    """Lets a call of `stamp` compute each crate's checksum once, and `below` list each crate's libraries once."""
    plain, below, local = rtlib.Crate.stamp, rtlib.Crate.below, threading.local()

    def stamp(self):
        is_outer = getattr(local, "known", None) is None
        if is_outer:
            local.known = {}
        try:
            if id(self) not in local.known:
                local.known[id(self)] = plain(self)
            return local.known[id(self)]
        finally:
            if is_outer:
                local.known = None

    def all_below(self):
        kept = self.__dict__.get("kept_below")
        if kept is None or kept[0] != len(self.deps):
            kept = self.__dict__["kept_below"] = (len(self.deps), below(self))
        return list(kept[1])

    rtlib.Crate.stamp, rtlib.Crate.below = stamp, all_below


def leave_out_names(rtlib):
    """Lets the pass of rt try that looks for reserved names end at once."""
    plain = rtlib.Crate.words

    def words(self, flags, tests=False, keeps=True, as_source=False):
        return ["--help"] if as_source and "--start" in flags else plain(self, flags, tests, keeps, as_source)

    rtlib.Crate.words = words


def keep_priority():
    """Gives the sessions that this process starts its own priority."""
    priority = os.getpriority(os.PRIO_PROCESS, 0)

    class Popen(subprocess.Popen):
        """A process whose session, if it has one of its own, has this priority."""

        def __init__(self, *words, **how):
            super().__init__(*words, **how)
            if how.get("start_new_session") and priority > 0:
                with contextlib.suppress(OSError), open(f"/proc/{self.pid}/autogroup", "w", encoding="ascii") as file:
                    file.write(str(priority))

    subprocess.Popen = Popen


def run_rt(words):
    """Runs the toolchain's rt in this process."""
    with open(RT, encoding="utf-8") as file:
        source = file.read()
    line = "\nrtlib = load()\n"
    if line not in source:
        os.execv(RT, [RT, *words])
    sys.argv = [RT, *words]
    keep_priority()
    code = source.replace(line, f"{line}compute_once(rtlib)\n{'leave_out_names(rtlib)' if words[:1] == ['try'] else ''}\n", 1)
    names = {"__name__": "__main__", "__file__": RT, "compute_once": compute_once, "leave_out_names": leave_out_names}
    exec(compile(code, RT, "exec"), names)  # pylint: disable=exec-used


if __name__ == "__main__":
    sys.exit(run_rt(sys.argv[1:]))
