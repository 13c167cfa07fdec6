"""Reads the wrong edits of the crates.

The edits of a crate are in `crates/CRATE/edits/`: one file for each module, which is called after the first file that its edits change.
Those of `src/leaving.rt` are in `edits/leaving.edits`, those of `specs/Scans.antt` in `edits/specs/Scans.edits`. Such a file has a
section for each edit. A section begins with a line `# NAME`, or `# NAME (gate)` if the gate tries it, and has the edit's lines.

An edit may also stand in a file of its own, `NAME.edit`; the gate tries it if that file is in `edits/gate/`. If a crate has both, the
file of its own counts. `tools/edits_by_module` makes sections of such files."""

import os
import re
from dataclasses import dataclass

TOP = os.path.dirname(os.path.dirname(os.path.realpath(__file__)))
HEAD = re.compile(r"# (\S+?)( \(gate\))?")
MARKS = ("only:", "file:", "old:", "new:")


@dataclass(frozen=True)
class Written:
    """An edit as it stands in its file: its name, whether the gate tries it, and its lines."""

    path: str
    name: str
    is_gate: bool
    text: str


class Malformed(Exception):
    """A file of edits that can't be read, and why."""


def text_of(path):
    with open(path, encoding="utf-8") as file:
        return file.read()


def crates():
    """Returns the crates of crates.txt."""
    lines = (it.partition("#")[0].partition(":") for it in text_of(f"{TOP}/crates.txt").splitlines())
    return [name.split()[0] for name, colon, _ in lines if colon]


def sections_of(path):
    """Returns the edits of a file of sections."""
    found, lines = [], []

    def ended():
        if found:
            found[-1] = Written(path, found[-1].name, found[-1].is_gate, "".join(f"{it}\n" for it in lines))
        elif lines:
            raise Malformed(f"{path}: '{lines[0]}' stands before the first line '# NAME'")
        lines.clear()

    for number, line in enumerate(text_of(path).split("\n"), 1):
        head = HEAD.fullmatch(line)
        if head:
            ended()
            found.append(Written(path, head[1], bool(head[2]), ""))
        elif line.startswith(MARKS):
            lines.append(line)
        elif line:
            raise Malformed(f"{path}:{number}: no line of an edit, and no '# NAME': {line}")
    ended()
    return found


def single(path):
    """Returns the edit of a file of its own."""
    name = os.path.basename(path).removesuffix(".edit")
    return Written(path, name, os.path.basename(os.path.dirname(path)) == "gate", text_of(path))


def files_of(crate, ending, top=TOP):
    """Returns the files below the crate's folder of edits that have this ending."""
    found = [f"{at}/{name}" for at, _, names in os.walk(f"{top}/crates/{crate}/edits") for name in names if f"{at}/{name}".endswith(ending)]
    return sorted(found)


def edits_of(crate, top=TOP):
    """Returns the edits of a crate, in the order of their names."""
    found = {}
    for edit in (it for path in files_of(crate, ".edits", top) for it in sections_of(path)):
        if edit.name in found:
            raise Malformed(f"{edit.path}: {edit.name} is in {os.path.relpath(found[edit.name].path, top)} too")
        found[edit.name] = edit
    own = [single(it) for it in files_of(crate, ".edit", top)]
    for edit in own:
        if sum(it.name == edit.name for it in own) > 1:
            raise Malformed(f"{edit.path}: {edit.name} stands in two files")
        found[edit.name] = edit
    return [found[it] for it in sorted(found)]
