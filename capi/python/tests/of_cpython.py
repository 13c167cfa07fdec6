"""Runs CPython's own tests of `re` over the package hanneddois, as far as both have the same syntax.

    PYTHONPATH=FOLDER python3 of_cpython.py [--list | --table]

The tests are the rows of test/re_tests.py and the statements of the methods in test/test_re.py, as they are installed with Python (Debian:
libpython3.11-testsuite). Nothing of them is copied. A row or a statement that has another result here needs a reason: one of REASONS,
whose expression has to match it, or one of METHODS for all statements of a method. DIFFERENCES.md has a table of how many there are of
each reason, which is compared for the version of Python that it names. --list prints each of them, and --table the table.

Prints what is wrong. The status is 77 if this Python has no such tests.
"""

import ast
import contextlib
import hashlib
import inspect
import io
import pathlib
import re
import sys
import types
import unittest
import warnings

import hanneddois

PAGE = pathlib.Path(__file__).resolve().parent.parent / "DIFFERENCES.md"
# Where the page has the counts, and the checksum of the tests for which they hold.
TABLE = re.compile(r"^\| (.+?) \| (\d+) \| (\d+) \|$", re.MULTILINE)
COUNTED_FOR = re.compile(r"checksum `([0-9a-f]+)`")

# Why a row or a statement has another result here, with an expression that is in its source or in the error. The first one counts.
REASONS = [
    ("Look-around assertions", r"look-around"),
    ("Conditions, as `(?(1)a)`", r"\(\?\("),
    ("Atomic groups and possessive repetitions", r"\(\?>|[*+?}]\+"),
    ("Comments, as `(?#a)`", r"\(\?#"),
    ("Octal escapes", r"\\0|%0?3?o|\\141|\[\\+\d"),
    ("Back-references", r"backreferences|\(\?P="),
    ("`\\Z`, `\\b` in a class, and escapes that only one of both has", r"\\Z|\[\\*b\]|ceghijk|\\u1234|\\U0001"),
    ("Characters by names, as `\\N{DIGIT ONE}`", r"\\N"),
    ("The flags `A`, `L`, `T` and `DEBUG`, also in a pattern", r"has no attribute '(A|ASCII|L|LOCALE|T|TEMPLATE|DEBUG|template)'|\(\?[a-z-]*[aL]|re\.A\b|LOCALE"),
    ("Flags are numbers, and those of a pattern are no flags of the regex", r"flags_repr|\.flags, re|str\(re\."),
    ("Messages and offsets of errors, and which patterns are errors", r"check(Pattern|Template)Error|err\.|at position|DeprecationWarning|warns\."),
    ("Repetitions, as `a**`, `a{}` and `a{,2}`", r"\*\*|\^\*|\{\}|\{,|2\*\*12|6553|MAXREPEAT\b"),
    ("Operations on classes, as `[a--b]`", r"assertWarns\(FutureWarning"),
    ("`\\B` in an empty haystack", r"B\", \"\"\)"),
    ("Another match where an empty one was, as of `\\b\\|a`", r"\\b\|"),
    ("Patterns and haystacks of two kinds", r"assertRaises\(TypeError"),
    ("Lone surrogates", r"surrogates not allowed"),
    ("`scanner`", r"scanner"),
    ("`repr` of a regex and of flags", r"self\.check(_flags)?\(|repr\("),
    ("Patterns for bytes are Unicode's and are UTF-8", r"bytes\(\[i\]\)"),
    ("Groups of a loop whose last round is empty, as of `(a?)*`", r"xyyzy"),
]
# Methods that aren't run: what they compare are times, or they compile patterns of 65,535 repetitions, which takes minutes.
LEFT_OUT = {"test_search_anchor_at_beginning", "test_repeat_minmax_overflow", "test_repeat_minmax_overflow_maxrepeat"}
# Why no statement of a method counts.
METHODS = {
    "test_large_search": "Gigabytes of memory",
    "test_large_subn": "Gigabytes of memory",
    "test_possible_set_operations": "Operations on classes, as `[a--b]`",
    "test_dollar_matches_twice": "`$` before a last line feed",
    "test_template_function_and_flag_is_deprecated": "The flags `A`, `L`, `T` and `DEBUG`, also in a pattern",
    "test_ascii_and_unicode_flag": "The flags `A`, `L`, `T` and `DEBUG`, also in a pattern",
    "test_symbolic_groups": "Conditions, as `(?(1)a)`",
    "test_re_groupref_exists": "Conditions, as `(?(1)a)`",
    "test_bug_6509": "Patterns for bytes are Unicode's and are UTF-8",
    "test_debug_flag": "The flags `A`, `L`, `T` and `DEBUG`, also in a pattern",
    "test_locale_caching": "The flags `A`, `L`, `T` and `DEBUG`, also in a pattern",
    "test_locale_compiled": "The flags `A`, `L`, `T` and `DEBUG`, also in a pattern",
    "test_error": "Messages and offsets of errors, and which patterns are errors",
    "test_long_pattern": "`repr` of a regex and of flags",
    "test_re_tests": "Each row is run by itself",
}


class Outcome:
    """What was compared, and what differs by reason."""

    def __init__(self):
        self.same, self.by_reason, self.wrong = 0, {}, []

    def add(self, name, source, error, reason=None):
        """Adds a row or a statement, with what it raised or None, and returns the reason for that."""
        if error is None:
            self.same += 1
            return None
        whole = f"{source}\n{error}"
        reason = reason or next((it for it, expression in REASONS if re.search(expression, whole)), None)
        if reason is None:
            self.wrong.append((name, source, error))
        else:
            self.by_reason.setdefault(reason, []).append((name, source, error))
        return reason


def lacks_what_failed(error):
    """Whether a statement needs what an earlier one of its method should have made."""
    return isinstance(error, NameError) or "_AssertWarnsContext" in str(error) or "'NoneType' object has no" in str(error)


def expect(row):
    """Checks a row of re_tests.py, and raises an error if the result differs."""
    from test import re_tests

    pattern, haystack, outcome, *rest = row
    if outcome == re_tests.SYNTAX_ERROR:
        try:
            hanneddois.compile(pattern)
        except hanneddois.Error:
            return
        raise AssertionError("the pattern is accepted")
    regex = hanneddois.compile(pattern)
    match = regex.search(haystack)
    if (match is None) != (outcome == re_tests.FAIL):
        raise AssertionError(f"found {match}")
    if match is None:
        return
    values = {"found": match.group(), "groups": match.groups(), "flags": regex.flags, **match.groupdict()}
    values.update({f"g{number}": match.group(number) if number <= regex.groups else "Error" for number in range(100)})
    values = {name: "None" if value is None else value for name, value in values.items()}
    result = eval(rest[0], values)
    if result != rest[1]:
        raise AssertionError(f"{rest[0]} is {result!r} and not {rest[1]!r}")
    # CPython's tests repeat each search between two offsets and in bytes.
    if hanneddois.compile(pattern).search(haystack, match.start(), match.end() + 1) is None and "^" not in pattern and "\\A" not in pattern:
        raise AssertionError("nothing is found from the start of the match on")
    with contextlib.suppress(UnicodeEncodeError):
        found = hanneddois.compile(pattern.encode("ascii")).search(haystack.encode("ascii"))
        if found is None or found.regs != match.regs:
            raise AssertionError(f"in bytes {found}")


def run_rows(outcome):
    from test import re_tests

    for number, row in enumerate(re_tests.tests):
        error = None
        try:
            expect(row)
        except Exception as failed:
            error = failed
        outcome.add(f"row {number}", repr(row), error)


def make_module():
    """Returns a module re that is hanneddois."""
    module = types.ModuleType("re")
    for name in hanneddois.__all__:
        setattr(module, name, getattr(hanneddois, name))
    return module


def run_statement(code, names):
    """Runs a statement, and returns what it raised or None."""
    try:
        with warnings.catch_warnings(), contextlib.redirect_stdout(io.StringIO()):
            warnings.simplefilter("ignore")
            exec(code, names)
    except unittest.SkipTest:
        return None
    except Exception as failed:
        return failed
    return None


def run_methods(outcome):
    """Runs each statement of each method by itself: an error in one says nothing of the others."""
    from test import test_re

    globals_of_tests = {**vars(test_re), "re": make_module()}
    source = inspect.getsource(test_re)
    lines = source.splitlines()
    for kind in (it for it in ast.parse(source).body if isinstance(it, ast.ClassDef) and it.name.endswith("Tests")):
        # The methods that the tests call have to see this module too.
        exec(compile(ast.Module([kind], []), test_re.__file__, "exec"), globals_of_tests)
        for method in (it for it in kind.body if isinstance(it, ast.FunctionDef) and it.name.startswith("test")):
            names = {**globals_of_tests, "self": globals_of_tests[kind.name]()}
            reason = METHODS.get(method.name)
            if method.name in LEFT_OUT:
                continue
            for statement in method.body:
                code = compile(ast.Module([statement], []), test_re.__file__, "exec")
                text = "\n".join(lines[statement.lineno - 1 : statement.end_lineno])
                error = run_statement(code, names)
                found = METHODS.get(method.name) or (reason if lacks_what_failed(error) else None)
                reason = outcome.add(f"{method.name}:{statement.lineno}", text, error, found) or reason


def count(rows, statements):
    """Returns how many rows and statements there are of each reason, in the order in which the reasons are listed."""
    reasons = dict.fromkeys([*(reason for reason, _ in REASONS), *METHODS.values()])
    counted = {reason: tuple(len(it.by_reason.get(reason, ())) for it in (rows, statements)) for reason in reasons}
    return {"The same result": (rows.same, statements.same), **{reason: it for reason, it in counted.items() if any(it)}}


def checksum():
    from test import re_tests, test_re

    return hashlib.sha256("".join(map(inspect.getsource, (re_tests, test_re))).encode()).hexdigest()[:16]


def check_table(rows, statements):
    """Compares the page with what was counted, and prints what is wrong."""
    counted = count(rows, statements)
    if "--table" in sys.argv:
        print(*(f"| {reason} | {first} | {second} |" for reason, (first, second) in counted.items()), sep="\n")
        print(f"checksum {checksum()}")
    page = PAGE.read_text()
    written = {reason: (int(first), int(second)) for reason, first, second in TABLE.findall(page)}
    if COUNTED_FOR.findall(page) != [checksum()] or written == counted:
        return 0
    for reason in sorted({*written, *counted}):
        if written.get(reason) != counted.get(reason):
            print(f"of_cpython.py: {reason}: the page has {written.get(reason)}, and there are {counted.get(reason)}")
    return 1


def main():
    try:
        from test import re_tests, test_re  # noqa: F401
    except ImportError:
        print("of_cpython.py: this Python has no tests of its own")
        return 77
    rows, statements = Outcome(), Outcome()
    run_rows(rows)
    run_methods(statements)
    for outcome in (rows, statements):
        for name, source, error in outcome.wrong:
            print(f"of_cpython.py: {name}: {source.strip()}: {type(error).__name__}: {error}")
        if "--list" in sys.argv:
            for reason, found in outcome.by_reason.items():
                for name, source, error in found:
                    print(f"{reason}: {name}: {source.strip()}: {type(error).__name__}: {error}")
    status = check_table(rows, statements) if not rows.wrong + statements.wrong else 1
    kinds = [f"{outcome.same} of {outcome.same + sum(map(len, outcome.by_reason.values())) + len(outcome.wrong)} {what}"
             for outcome, what in ((rows, "rows"), (statements, "statements"))]
    print(f"of_cpython.py: by {hanneddois.backend}, {' and '.join(kinds)} have the same result")
    return status


if __name__ == "__main__":
    sys.exit(main())
