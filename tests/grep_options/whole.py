"""-z, --multiline, --json and --max-size: rows with what is printed, written by hand, and random cases beside GNU grep 3.8 and the definitions
of null_data.py, multiline.py and json_lines.py, which are compared with ripgrep 13 there."""

import os
import random

from . import json_lines, multiline, null_data

FILES = {
    "records": b"one ab\nab\0two\0\n ab\0last ab",
    "lines": b"one ab\nab two\n\nthree\nab",
    "returns": b"ab\r\nab\r\nc",
    "broken": b"\xff ab\nab\0ab\n",
    "large": b"ab\n" * 1000,
}
EVENT = b'{"type":"%s","data":{"path":{"text":"%s"}'
NO_TIME = b'{"secs":0,"nanos":0,"human":"0.000000s"}'
ROWS = [
    # records end in zero bytes, and so does what is printed for them
    (("-z", "two", "records"), 0, b"two\0"),
    (("-z", "last", "records"), 0, b"last ab\0"),
    (("-z", "-n", "-b", "ab", "records"), 0, b"1:0:one ab\nab\0" b"3:14:\n ab\0" b"4:19:last ab\0"),
    (("-z", "-c", "ab", "records"), 0, b"3\n"),
    (("-z", "-o", "-H", "t.o", "records"), 0, b"records:two\0"),
    (("-z", "-l", "two", "records"), 0, b"records\n"),
    (("-z", "--null", "-l", "two", "records"), 0, b"records\0"),
    (("-z", "-x", "two", "records"), 0, b"two\0"),
    (("-z", "^ab", "records"), 1, b""),
    (("-z", "ab.ab", "records"), 0, b"one ab\nab\0"),
    (("-z", "[^e]ab", "records"), 0, b"one ab\nab\0\n ab\0last ab\0"),
    (("-z", "--heading", "-H", "two", "records"), 0, b"records\ntwo\0"),
    (("-z", "-A1", "one|last", "records"), 0, b"one ab\nab\0two\0--\nlast ab\0"),
    (("-z", "--binary-files=without-match", "two", "records"), 0, b"two\0"),
    (("-z", "--crlf", "ab$", "returns"), 0, b"ab\r\nab\r\n"),
    (("--crlf", "-z", "ab$", "returns"), 1, b""),
    # matches span lines, and each line that a match touches is printed
    (("--multiline", r"ab\nab", "lines"), 0, b"one ab\nab two\n"),
    (("--multiline", "-n", r"ab\nab", "lines"), 0, b"1:one ab\n2:ab two\n"),
    (("--multiline", "-c", r"ab\nab", "lines"), 0, b"2\n"),
    (("--multiline", "--count-matches", r"ab\nab", "lines"), 0, b"1\n"),
    (("--multiline", "-o", r"ab\nab", "lines"), 0, b"ab\nab\n"),
    (("--multiline", "-v", r"ab\nab", "lines"), 0, b"\nthree\nab\n"),
    (("--multiline", "-x", r"ab two\n", "lines"), 0, b"ab two\n"),
    (("--multiline", "-x", r"two\n", "lines"), 1, b""),
    (("--multiline", r"o.*e", "lines"), 0, b"one ab\n"),
    (("--multiline", "--multiline-dotall", "-c", r"two.*e", "lines"), 0, b"3\n"),
    (("--multiline", "--multiline-dotall", "--no-multiline-dotall", "-c", r"two.*e", "lines"), 1, b"0\n"),
    (("--multiline-dotall", "-c", r"o.*e", "lines"), 0, b"1\n"),
    (("--multiline", "--no-multiline", "-c", "ab$", "lines"), 0, b"2\n"),
    (("--no-multiline", "--multiline", "-c", r"ab\n", "lines"), 0, b"1\n"),
    (("--multiline", "--heading", "-H", r"b\na", "lines"), 0, b"lines\none ab\nab two\n"),
    (("--multiline", "-q", r"ab\nab", "lines"), 0, b""),
    (("--multiline", "-l", r"ab\nab", "lines", "records"), 0, b"lines\nrecords\n"),
    # matches over several lines are replaced, and what comes of adjacent lines is printed line by line
    (("--multiline", "--replace=<$1>", r"(a)b\nab", "lines"), 0, b"one <a> two\n"),
    (("--multiline", "--replace=x", "-n", "-b", r"ab\nab|h|e$", "lines"), 0, b"1:0:one x two\n4:15:txrex\n"),
    (("--multiline", "--replace=x", "-o", "-n", "-b", "--column", r"ab\nab|e$", "lines"), 0, b"1:5:4:x\n4:5:19:x\n"),
    (("--multiline", "--replace=x\ny", "-n", r"ab\nab", "lines"), 0, b"1:one x\n2:y two\n"),
    (("--multiline", "--replace=x", "-n", r"two\n|ab$", "lines"), 0, b"1:one x\n2:ab x\n5:x\n"),
    (("--multiline", "--replace=", r"three\n", "lines"), 0, b""),
    (("--multiline", "--replace=-", "-A1", "-n", r"ab\nab", "lines"), 0, b"1:one - two\n3-\n"),
    (("--multiline", "--replace=-", "--passthru", r"ab\nab", "lines"), 0, b"one - two\n\nthree\nab\n"),
    (("--multiline", "--replace=x", "-v", "-B1", r"ab\nab", "lines"), 0, b" two\n\nthree\nab\n"),
    (("--multiline", "--replace=x", "-m1", "-A1", r"ab\nab", "lines"), 0, b"one x\n two\n"),
    (("--multiline", "--replace=x", "--vimgrep", r"ab\nab", "lines"), 0, b"lines:1:5:one x two\n"),
    (("--multiline", "--replace=x", "-c", r"ab\nab", "lines"), 0, b"2\n"),
    (("--multiline", "--replace=x", "--count-matches", r"ab\nab", "lines"), 0, b"1\n"),
    (("--multiline", "--replace=x", "-l", r"ab\nab", "lines"), 0, b"lines\n"),
    (("--multiline", "--replace=<$0>", "--crlf", r"b$", "returns"), 0, b"a<b>\r\na<b>\r\n"),
    (("--multiline", "--replace=x", "--trim", "-M5", r"e ab\nab", "lines"), 0, b"[Omitted long line with 1 matches]\n"),
    # lines as JSON
    (("--json", "-q", "ab", "lines"), 0, b""),
    (("--json", "--no-json", "-c", "ab", "lines"), 0, b"3\n"),
    (
        ("--json", "two", "lines"),
        0,
        EVENT % (b"begin", b"lines")
        + b"}}\n"
        + EVENT % (b"match", b"lines")
        + b',"lines":{"text":"ab two\\n"},"line_number":2,"absolute_offset":7,"submatches":[{"match":{"text":"two"},"start":3,"end":6}]}}\n'
        + EVENT % (b"end", b"lines")
        + b',"binary_offset":null,"stats":{"elapsed":'
        + NO_TIME
        + b',"searches":1,"searches_with_match":1,"bytes_searched":23,"bytes_printed":222,"matched_lines":1,"matches":1}}}\n'
        b'{"data":{"elapsed_total":{"human":"0.000000s","nanos":0,"secs":0},"stats":{"bytes_printed":222,"bytes_searched":23,'
        b'"elapsed":{"human":"0.000000s","nanos":0,"secs":0},"matched_lines":1,"matches":1,"searches":1,"searches_with_match":1}},"type":"summary"}\n',
    ),
    # adjacent lines that a match touches are one event
    (
        ("--json", "--multiline", r"ab\nab", "lines"),
        0,
        EVENT % (b"begin", b"lines")
        + b"}}\n"
        + EVENT % (b"match", b"lines")
        + b',"lines":{"text":"one ab\\nab two\\n"},"line_number":1,"absolute_offset":0,'
        b'"submatches":[{"match":{"text":"ab\\nab"},"start":4,"end":9}]}}\n'
        + EVENT % (b"end", b"lines")
        + b',"binary_offset":null,"stats":{"elapsed":'
        + NO_TIME
        + b',"searches":1,"searches_with_match":1,"bytes_searched":23,"bytes_printed":233,"matched_lines":2,"matches":1}}}\n'
        b'{"data":{"elapsed_total":{"human":"0.000000s","nanos":0,"secs":0},"stats":{"bytes_printed":233,"bytes_searched":23,'
        b'"elapsed":{"human":"0.000000s","nanos":0,"secs":0},"matched_lines":2,"matches":1,"searches":1,"searches_with_match":1}},"type":"summary"}\n',
    ),
    (("--json", "--multiline", "-q", r"ab\nab", "lines"), 0, b""),
    # inputs that are too large
    (("--multiline", "--max-size=3000", "-c", "ab", "large"), 0, b"1000\n"),
    (("--multiline", "--max-size=2999", "-c", "ab", "large", "returns"), 2, b"returns:2\n"),
    (("-z", "--max-size=2K", "-c", "ab", "large"), 2, b""),
    (("--max-size=1", "-c", "ab", "large"), 0, b"1000\n"),
]
REJECTED = [
    ("-z", "--multiline", "ab"),
    ("-z", "--json", "ab"),
    ("--json", "-c", "ab"),
    ("--json", "--count-matches", "ab"),
    ("--json", "-l", "ab"),
    ("--json", "--files-without-match", "ab"),
    ("--json", "--files"),
    ("--max-size=1T", "--multiline", "ab"),
    ("--max-size", "--multiline"),
]


def check_rows(program, place, run, tell):
    for words, status, printed in ROWS:
        done = run([program, *words], place)
        if done[:2] != (status, printed):
            tell(words, f"{done[:2]}, and not {(status, printed)}")
        if (status == 2) != (b"--max-size allows" in done[2] and done[2].count(b"\n") == 1):
            tell(words, f"on standard error {done[2]}")
    for words in REJECTED:
        done = run([program, *words, "lines"], place)
        if done[0] != 2 or done[1] or not done[2]:
            tell(words, f"{done}, and not status 2 with an error")


def compare_records(program, place, run, tell, rng, has_grep):
    pats, text, o = null_data.case(rng)
    words = null_data.words(o)
    given = [it for p in pats for it in ("-e", null_data.gnu_pattern(p))] + ["-"]
    ours = run([program, *words, *given], place, text)[:2]
    wanted = null_data.report(null_data.model_patterns(pats), text, o)
    if ours[1] != wanted:
        tell([*words, *given], f"{ours}, and by the definition {wanted}, of {text}")
    if has_grep and ours != run(["grep", *words, *given], place, text)[:2]:
        tell([*words, *given], f"{ours}, and not as GNU grep, of {text}")


def multiline_words(o):
    """The options in the words of hirgrep."""
    words = ["--multiline"]
    words += ["--crlf" if it == "crlf" else f"-{it}" for it in o["how"]]
    longs = {"n": "-n", "b": "-b", "o": "-o", "v": "-v", "count": "-c", "l": "-l", "L": "-L", "q": "-q", "count_matches": "--count-matches"}
    for name in ("n", "b", "o", "v", "count", "l", "L", "q", "count_matches", "column", "trim", "vimgrep", "passthru", "heading"):
        if o.get(name):
            words.append(longs.get(name, f"--{name}"))
    words += ["-H" if o.get("H") else "-h"]
    words += [] if o.get("n") else ["-N"]
    words += [] if o.get("column") else ["--no-column"]
    words += [f"--replace={o['r'].decode()}"] if o.get("r") is not None else []
    return words + [it for name in "mABM" if o.get(name) is not None for it in (f"-{name}", str(o[name]))]


def compare_multiline(program, place, run, tell, rng):
    pats, text, o = multiline.case(rng)
    if rng.random() < 0.4:
        o["r"] = rng.choice(multiline.TEMPLATES + [b"x\ny", b"\n", b"z\n"])
    o.pop("color", None)
    if not o.get("A") and not o.get("B"):  # ripgrep separates no groups then, and GNU grep does
        o.pop("A", None), o.pop("B", None)
    with open(os.path.join(place, "f"), "wb") as file:
        file.write(text)
    words = [*multiline_words(o), *(it for p in pats for it in ("-e", p.decode())), "f"]
    ours = run([program, *words], place)
    wanted = multiline.report(pats, text, o)
    if ours[1] != wanted:
        tell(words, f"{ours}, and not {wanted}, of {text}")


def compare_json(program, place, run, tell, rng):
    pats, texts, o = json_lines.json_case(rng)
    texts = [(name, text) for name, text in texts if json_lines.is_utf8(name)] or [(b"f", texts[0][1])]
    for name, text in texts:
        with open(os.path.join(place.encode(), name), "wb") as file:
            file.write(text)
    words = ["--json", *("--crlf" if it == "crlf" else f"-{it}" for it in o["how"])]
    words += [word for name, word in (("U", "--multiline"), ("v", "-v"), ("passthru", "--passthru"), ("N", "-N"), ("q", "-q")) if o.get(name)]
    words += [it for it in o["rest"] if it != "-rX"]
    words += [it for name in "mAB" if o.get(name) is not None for it in (f"-{name}", str(o[name]))]
    words += [it for p in pats for it in ("-e", p.decode())]
    ours = run([program, *words, "--", *(name.decode() for name, _ in texts)], place)
    printed = json_lines.without_searched(ours[1], o)
    if printed != json_lines.all_reports(pats, texts, o):
        tell(words, f"{ours}, and not {json_lines.all_reports(pats, texts, o)}, of {texts}")


def compare_whole(program, room, run, tell, tools, count=400, seed=1):
    place = os.path.join(room, "whole")
    os.mkdir(place)
    for name, data in FILES.items():
        with open(os.path.join(place, name), "wb") as file:
            file.write(data)
    check_rows(program, place, run, tell)
    rng = random.Random(seed)
    for _ in range(count):
        compare_records(program, place, run, tell, rng, "grep" in tools)
        compare_multiline(program, place, run, tell, rng)
        compare_json(program, place, run, tell, rng)
