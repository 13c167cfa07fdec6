"""Reads the tests of ripgrep, which are functions in Rust, as statements of Python. It knows the few forms that occur in them: `let`, `if`,
calls, literals, lists and records. What it doesn't know is an error of the test."""

import ast
import re

TOKEN = re.compile(
    r"""(?P<skip>\s+|//[^\n]*)
    |(?P<raw>b?r(?P<hashes>\#*)"(?P<plain>.*?)"(?P=hashes))
    |(?P<string>b?"(?:[^"\\]|\\.)*")
    |(?P<word>[A-Za-z_][A-Za-z_0-9]*!?)
    |(?P<number>[0-9]+)
    |(?P<sign>::|\.\.|==|!=|&&|\|\||.)""",
    re.X | re.S,
)
TEST = re.compile(r"^((?:#\[[^\n]*\n)?)rgtest!\(\s*(\w+),\s*\|([^|]*)\|\s*\{$(.*?)^(?:\}\);|    \}\n\);)", re.M | re.S)
ESCAPES = {"n": "\n", "t": "\t", "r": "\r", "0": "\0", "\\": "\\", '"': '"', "'": "'"}
RECORDS = {"Begin", "Context", "Match", "SubMatch", "End", "Summary"}


def unescaped(text):
    """What a string literal means: a backslash at the end of a line leaves out the white space that follows."""
    text = re.sub(r"\\\n\s*", "", text)
    def one(found):
        mark = found.group(1)
        if mark[0] == "x":
            return chr(int(mark[1:], 16))
        return chr(int(mark[2:-1], 16)) if mark[0] == "u" else ESCAPES[mark]
    return re.sub(r"\\(x[0-9a-fA-F]{2}|u\{[0-9a-fA-F]+\}|.)", one, text, flags=re.S)


def literal(found):
    if found["raw"]:
        text = found["plain"]
        return repr(text.encode()) if found["raw"][0] == "b" else f"Text({text!r})"
    given = found["string"]
    if given[0] == "b":
        return repr(unescaped(given[2:-1]).encode("latin-1"))
    return f"Text({unescaped(given[1:-1])!r})"


def tokens(text):
    """Yields kinds and tokens; literals are those of Python."""
    at = 0
    while at < len(text):
        found = TOKEN.match(text, at)
        at = found.end()
        if found["skip"]:
            continue
        if found["raw"] or found["string"]:
            yield "literal", literal(found)
        else:
            kind = next(it for it in ("word", "number", "sign") if found[it])
            yield kind, found[kind]


def expression(found):
    """The expression of Python for tokens of Rust."""
    out, closing, before = [], [], None
    for at, (kind, word) in enumerate(found):
        following = found[at + 1][1] if at + 1 < len(found) else None
        starts = before in (None, "(", "[", ",", "=", "==", "{", ":", "!", "&", "return", "&&", "||")
        if word in ("&", "*") and starts or word == "mut":
            pass
        elif word == "!" and starts:
            out.append(" not ")
        elif kind == "word" and word.endswith("!"):
            out.append("" if word == "vec!" else word[:-1])
        elif word == "::":
            out.append(".")
        elif word == ".." and following == "]":
            out.append(":")
        elif word == "{" and before in RECORDS:
            out[-1] = "record("
            closing.append(")")
        elif word == "}" and closing:
            out.append(closing.pop())
        elif word == ":" and closing:
            out.append("=")
        elif word in ("&&", "||"):
            out.append(" and " if word == "&&" else " or ")
        else:
            out.append(word)
        before = word
    return "".join(out)


def name_of(found):
    """The name in `let mut NAME: TYPE`."""
    return next(word for kind, word in found if kind == "word" and word not in ("let", "mut", "const"))


def statement(found):
    words = [word for _, word in found]
    if words[0] == "use":
        return "pass"
    if words[0] in ("let", "const"):
        at = words.index("=")
        return f"{name_of(found[:at])} = {expression(found[at + 1:])}"
    return expression(found)


def block(found, indent):
    """The lines of Python for the statements of a block."""
    lines, at, depth, begin = [], 0, 0, 0
    while at < len(found):
        word = found[at][1]
        if depth == 0 and at == begin and word == "if":
            opened = next(i for i in range(at, len(found)) if found[i][1] == "{")
            closed = end_of(found, opened)
            lines.append(f"{indent}if {expression(found[at + 1:opened])}:")
            lines += block(found[opened + 1:closed], indent + "  ")
            at = begin = closed + 1
            continue
        depth += (word in "([{") - (word in ")]}")
        at += 1
        if word == ";" and depth == 0:
            if at - 1 > begin:
                lines.append(indent + statement(found[begin:at - 1]))
            begin = at
    if begin < len(found):
        lines.append(indent + statement(found[begin:]))
    return lines or [indent + "pass"]


def end_of(found, opened):
    depth = 0
    for at in range(opened, len(found)):
        depth += (found[at][1] == "{") - (found[at][1] == "}")
        if depth == 0:
            return at
    raise ValueError("an open brace")


def constants(text):
    """Constants outside of tests, as the haystacks."""
    found = re.findall(r"""^(?:pub )?(const \w+:[^=]*=(?:[^;"]|"(?:[^"\\]|\\.)*")*;)$""", text, re.M | re.S)
    return [statement(list(tokens(it))[:-1]) for it in found]


def tests(text):
    """Yields the name of each test that is one of this system, and its code."""
    for attribute, name, parameters, body in TEST.findall(text):
        if "target_pointer_width" in attribute:
            continue
        names = [it.split(":")[0].replace("mut", "").strip() for it in parameters.split(",")]
        lines = [f"def test({names[0]}, {'_2' if names[1] == '_' else names[1]}):", *block(list(tokens(body)), "  ")]
        code = "\n".join(lines)
        ast.parse(code)
        yield name, code
