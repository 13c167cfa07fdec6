#!/usr/bin/env python3
"""Lists the definitions on which the contract of a function rests: each one that it cites, and each one that these cite in turn.

    tools/definitions.py grep_core reading report_input [CLAUSE..]

names the crate, the module and the function, and the clauses of it that are meant, if not all. Definitions of this repository and of
the toolchain's libraries count. Words of the standard library `std` and of the logic, and names that code declares (types and their
variants), end the search. Prints a line for each definition: the library, the file, the name, and the comment above it."""
import functools
import os
import re
import shutil
import sys

TOP = os.path.dirname(os.path.dirname(os.path.realpath(__file__)))
NAME = re.compile(r"[^\W\d][\w']*")


def kit():
    """Returns the folder of the toolchain's libraries, or None where the toolchain isn't installed."""
    rt = shutil.which("rt")
    path = rt and os.path.join(os.path.dirname(os.path.dirname(os.path.realpath(rt))), "rattle")
    return path if path and os.path.isdir(path) else None


def library(name):
    """Returns the folder of a library: a crate of this repository, or one of the toolchain."""
    own = f"{TOP}/crates/{name}"
    return own if os.path.isdir(own) else f"{kit()}/{name}"


def without_comments(text):
    return re.sub(r"(?m)--.*$|//.*$", "", text)


@functools.lru_cache(None)
def imports_of(text):
    """Returns what each name of a file stands for, as (module path, name there)."""
    found = {}
    for path, names in re.findall(r"\buse ([\w.]+)\.\{([^}]*)\}", text):
        for item in names.split(","):
            words = item.split(" as ")
            if words[0].strip():
                found[words[-1].strip()] = (path, words[0].strip())
    return found


HEAD = re.compile(r"^(?:abbrev |unfoldable )?(?:pub )?(?:abbrev |unfoldable )?(?:(record|data|syntax|ruleset|axiom) )?(\S+)(?=[^\n]*:)")


def flat_lines(path):
    """Returns the lines of a file; what is within a module of parameters or a mutual block stands as if it were alone."""
    opened = []  # of each block that is open its indent, and that of what is in it
    waiting = None  # the indent of a module whose parameters go on in the next line
    with open(path, encoding="utf-8") as file:
        for line in file.read().split("\n"):
            indent = len(line) - len(line.lstrip())
            if waiting is not None:
                if line.endswith(" where") or line.strip() == "where":
                    opened.append([waiting, None])
                    waiting = None
                yield ""
                continue
            while line.strip() and opened and indent <= opened[-1][0]:
                opened.pop()
            if line.strip() and opened and opened[-1][1] is None:
                opened[-1][1] = indent
            base = opened[-1][1] or 0 if opened else 0
            if re.match(r"\s*(module _ .*where|(abbrev |unfoldable )?mutual)$", line) and indent == base:
                opened.append([indent, None])
                yield ""
            elif re.match(r"\s*module _ ", line) and indent == base:
                waiting = indent
                yield ""
            else:
                yield line[base:] if line.startswith(" " * base) else line


@functools.lru_cache(None)
def definitions_in(path):
    """Returns the definitions of a file by their names, each with its text and the line of comment above it. What a data type's
    constructors are called leads to the type."""
    found, name, comment = {}, None, ""
    for line in flat_lines(path):
        if line.startswith("--"):
            comment = (comment + " " + line.lstrip("- ")).strip() if comment and name is None else line.lstrip("- ")
            name = None
            continue
        if not line.strip():
            comment = ""
            continue
        if line.startswith(("use ", "pub mod ", "mod ", "pub use ", "module ")):
            name = None
        elif not line[0].isspace():
            head = HEAD.match(line)
            if line.split()[0] in found:
                name = line.split()[0]
            elif head:
                name = head[2]
                found.setdefault(name, [head[1] or "value", "", comment])
            comment = ""
        if name:
            found[name][1] += without_comments(line) + "\n"
    for name, (kind, text, comment) in list(found.items()):
        if kind == "data":
            for each in re.findall(r"(?m)^  (\S+) :", text):
                found.setdefault(each, ["constructor", name, comment])
    return found


def file_of(path):
    """Returns the file of a module path as Rattle.grep_core.specs.Report, or None where that is the logic's own."""
    parts = path.split(".")
    if parts[0] != "Rattle" or len(parts) < 4 or parts[2] != "specs" or parts[3] == "declared":
        return None
    name = f"{library(parts[1])}/specs/{'/'.join(parts[3:])}.antt"
    return name if os.path.isfile(name) else None


def contract_of(crate, module, function, clauses=()):
    """Returns the text of a function's contract, or of these clauses of it, and the text of its file."""
    with open(f"{TOP}/crates/{crate}/src/{module}.rt", encoding="utf-8") as file:
        text = file.read()
    tried = [re.search(rf"(?m)^( *)pub fn {name}\b(.*?)^\1\{{$", text, re.S) for name in function.split("|")]
    found = next((it for it in tried if it), None)
    if not found:
        raise LookupError(f"crates/{crate}/src/{module}.rt has no public function {function}")
    parts = re.split(r"(?m)^\s*(?:ensures|requires)\b\s*", found[2])[1:]
    if clauses:
        parts = [it for it in parts if it.split()[0] in clauses]
        if len(parts) != len(clauses):
            raise LookupError(f"{function} in crates/{crate}/src/{module}.rt hasn't each of the clauses {', '.join(clauses)}")
    return "\n".join(parts), text


def fold(functions):
    """Returns the definitions on which the contracts of these functions rest, and the words of `std` and of code that end the search.
    Each function is a crate, a module, a name, and the names of its clauses, if only these are meant."""
    return fold_texts([contract_of(*each) for each in functions])


def cited(text, names, path):
    """Returns the definitions that a text cites, as pairs of file and name, and the words of `std` and of code that it names. `names` are
    the imports of its file; `path` is that file, if its definitions may be meant."""
    found, ends = [], []
    own = definitions_in(path) if path else {}
    operators = [it for it in [*names, *own] if "◌" in it and it.replace("◌", "") in text]
    for word in dict.fromkeys([*NAME.findall(text), *operators]):
        if word in names:
            module_path, name = names[word]
            file = file_of(module_path)
            if module_path.startswith("Rattle.std.") or file is None:
                ends.append((module_path, name))
                continue
        elif word in own:
            file, name = path, word
        else:
            continue
        each = definitions_in(file).get(name)
        if each and each[0] == "constructor":
            name = each[1]
            each = definitions_in(file)[name]
        if each is None:
            ends.append((module_path if word in names else path, name))
        else:
            found.append((file, name))
    return found, ends


@functools.lru_cache(None)
def cited_by(file, name):
    """Returns what a definition cites, as `cited` does."""
    with open(file, encoding="utf-8") as source:
        return cited(definitions_in(file)[name][1], imports_of(without_comments(source.read())), file)


def fold_texts(contracts):
    """Returns the same of contracts that are given as their text and the text of their file."""
    reached, ends, queue = {}, set(), []
    for text, whole in contracts:
        found, words = cited(text, imports_of(without_comments(whole)), None)
        queue += found
        ends.update(words)
    while queue:
        key = queue.pop(0)
        if key not in reached:
            reached[key] = definitions_in(key[0])[key[1]]
            found, words = cited_by(*key)
            queue += found
            ends.update(words)
    return reached, ends


def where(file):
    """Returns the library and the file below its folder."""
    base = TOP + "/crates/" if file.startswith(TOP + "/crates/") else kit() + "/"
    name, _, rest = file[len(base) :].partition("/specs/")
    return name, rest


def main():
    if len(sys.argv) < 4:
        sys.exit(__doc__)
    try:
        reached, ends = fold([(*sys.argv[1:4], tuple(sys.argv[4:]))])
    except LookupError as error:
        sys.exit(f"definitions: {error}")
    for file, name in reached:
        library_name, inside = where(file)
        print(f"{library_name} {inside} {name}: {reached[file, name][2]}")
    print(f"{len(reached)} definitions; {len(ends)} words of std and of code", file=sys.stderr)


if __name__ == "__main__":
    sys.exit(main())
