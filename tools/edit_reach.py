"""Finds what of a crate depends on a definition, by the names in its texts, so that wrong edits of definitions may share a check with
others.

Functions and types are followed by their names alone: a name stands for each one in the crate that has it. A function leads to what its
text and its answers name, and to the type that it is a method of. Definitions and lemmas are followed by their imports. So what is found
may be too much. A lemma that fails leaves the others of its file as they are."""

import os
import re

FUNCTION = re.compile(r"^( *)(?:pub(?:\([a-z]+\))? )?(?:const )?(?:extern \"C\" )?fn (\w+)", re.M)
IMPL = re.compile(r"^(?:unsafe )?(?:impl|trait|pub trait)\b[^\n{]*", re.M)
WORD = re.compile(r"[^\s(){}\[\].,;:&*<>!?|\"`#=+/\\]+")
KIND = re.compile(r"(?:(?:pub|abbrev|unfoldable|mutual) )*(record|data|module)?")
TOP = re.compile(r"^(?:(?:pub|abbrev|unfoldable|mutual|record|data) )*(?!unfolding |module |use )([^\s(){}]+)", re.M)
NESTED = re.compile(r"^ +(?:(?:pub|abbrev|unfoldable|record|data) )*([^\s(){}]+)(?= : | \(.* : )", re.M)
COMMENT = re.compile(r"^ *(?://|--).*", re.M)
IMPORT = re.compile(r"Rattle\.(\w+)\.([^\s{;]+?)(?:\.\{([^}]*)\}| as (\w+)|[\s;])")


def read(folder):
    """Returns the texts of the crate in the folder, by their paths there, without comments."""
    found = {}
    for part in ("src", "specs", "proofs"):
        for at, _, names in os.walk(f"{folder}/{part}"):
            for name in names:
                with open(f"{at}/{name}", encoding="utf-8") as file:
                    found[os.path.relpath(f"{at}/{name}", folder)] = COMMENT.sub("", file.read())
    return found


def end_of(text, head):
    """Returns where the function of this head ends: after the line that has its last bracket, or all of its body, or -1."""
    found = re.compile(rf"^{head[1]}(?:\{{\}}|\}})", re.M).search(text, head.end())
    return found.end() if found else -1


def blocks(text):
    """Returns the declarations of a file of definitions: what begins without a space after a line that is empty."""
    return re.split(r"\n\s*\n(?=\S)", text)


def declared(block):
    """Returns the names that a block declares, without the fields of a record: what has one names the record."""
    block = block.strip("\n")
    if re.match(r"(?:pub )?use ", block):
        return set()
    inside = NESTED.findall(block) if KIND.match(block)[1] in ("data", "module") else []
    return {*TOP.findall(block), *inside}


class Reach:
    """The names of a crate, and which lead to which. A definition or lemma is (its file, its name), a whole file (the file, ""), and
    a function or type ("", its name)."""

    def __init__(self, crate, folder):
        self.crate, self.texts, self.edges = crate, read(folder), {}
        sources = "\n".join(text for path, text in self.texts.items() if path.startswith("src/"))
        self.types = {"Self", *re.findall(r"\b(?:struct|enum|trait|type|union) (\w+)", sources), *re.findall(r" as (\w+)", sources)}
        self.declared = {path: set().union(*map(declared, blocks(text))) for path, text in self.texts.items() if path.endswith(".antt")}
        self.imported = {path: self.imports(path) for path in self.texts}
        for path, text in self.texts.items():
            if path.startswith("src/"):
                self.add_source(path, text)
                continue
            self.add([(path, "")], path, text)
            for block in blocks(text):
                self.add([(path, name) for name in declared(block)], path, block)
            if path.startswith("proofs/") and path.count("/") > 1:  # answers of a function or a cycle
                self.edges.setdefault(("", path.split("/")[-2].lstrip("+")), set()).add((path, ""))

    def add_source(self, path, text):
        """Adds the functions of a source file, each with the head of its impl, and its other items by the types that they name."""
        rest, at, above = "", 0, re.findall(r"^#!\[.*", text, re.M)
        for head in FUNCTION.finditer(text):
            start = max(text.rfind("}\n", 0, head.start()), text.rfind("{\n", 0, head.start()), text.rfind("\n\n", 0, head.start()), 0)
            end = end_of(text, head)
            impl = [it[0] for it in IMPL.finditer(text) if it.start() < head.start()][-1:] if head[1] else []
            of = [("", f"+{it}") for it in re.findall(r"#\[cycle\((\w+)\)\]", text[start : head.start()])]
            self.add([("", head[2])], path, "\n".join([*above, *impl, text[start:end]]))
            self.edges[("", head[2])].update(("", name[1].lstrip("+")) for name in of)
            rest, at = rest + text[at:start], max(at, end)
        for block in re.split(r"\n\s*\n", rest + text[at:]):
            lines = "\n".join(it for it in block.split("\n") if not re.match(r"\s*(?:pub )?(?:ghost )?use ", it))
            names = re.findall(r"\b(?:struct|enum|trait|type|const|static|union|macro_rules!) (\w+)", lines)
            names += [name for it in IMPL.findall(lines) for name in WORD.findall(it) if name in self.types]
            self.add([("", name) for name in names], path, lines)

    def file_of(self, words):
        """Returns the file of definitions or lemmas that these words name, or something in it, or ""."""
        paths = (f"{'/'.join(words[:n])}.antt" for n in range(len(words), 0, -1))
        return next((it for it in paths if it in self.texts), "")

    def imports(self, path):
        """Returns what the names mean that a file imports from its own crate."""
        found = {}
        for crate, module, names, name in IMPORT.findall(self.texts[path]):
            words = module.split(".")
            if crate != self.crate:
                continue
            file = self.file_of(words)
            for it in names.split(",") if names else [name]:
                meant, _, local = it.strip().partition(" as ")
                of_source = {("", word.lstrip("+")) for word in [*words[1:], meant]}
                found.setdefault(local or meant, set()).update({(file, meant if meant in self.declared[file] else "")} if file else of_source)
        return found

    def add(self, nodes, path, text):
        """Notes what these names lead to: what their text names."""
        known, words = self.imported[path], set(WORD.findall(self.without_others(text)))
        found = {("", it) for it in words} if path.startswith("src/") else {(path, it) for it in words & self.declared[path]}
        found.update(*(known[it] for it in {*words, ""} if it in known))
        for words in (it.split("::") for it in re.findall(r"crate::(proofs(?:::[\w-]+)+)", text)):
            file = self.file_of(words)
            found.add((file, words[-1] if words[-1] in self.declared.get(file, ()) else ""))
        for node in nodes:
            self.edges.setdefault(node, set()).update(found)

    def without_others(self, text):
        """Returns the text without the names of functions of other crates' types, as `new` of `Vec::new`, and without `set.new`."""
        text = re.sub(r"\.(?:new|old|now|result)\b(?!\()", "", text)
        return re.sub(r"\b([A-Z]\w*)(?:::<[^()]*?>)?::\w+", lambda it: it[0] if it[1] in self.types else it[1], text)

    def users(self, changed):
        """Returns all that may depend on one of these definitions."""
        users = {}
        for node, others in self.edges.items():
            for other in others:
                users.setdefault(other, []).append(node)
        found, left = set(), list(changed)
        while left:
            node = left.pop()
            if node not in found:
                found.add(node)
                left += users.get(node, ())
        return found

    def changed(self, pairs):
        """Returns the definitions that the pairs of an edit change, or None where they change anything else."""
        found = set()
        for path, old, _ in pairs:
            of = [declared(it) for it in blocks(self.texts[path]) if old in it]
            if not path.startswith("specs/") or len(of) != 1:
                return None
            found |= {(path, it) for it in of[0]}
        return found or None
