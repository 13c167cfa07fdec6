#!/usr/bin/env python3
"""What --json prints, as a model that is compared with `rg --json` of ripgrep 13 over random patterns, texts and options: -v -A -B -C -m -N
--passthru -x -i -F --crlf --multiline, and those that change nothing: -n -b -H -o -r --column --trim -M --vimgrep --heading --color. `report` is the
definition of hirgrep in Python. Lines and matches are those of multiline.py, with its names for ripgrep's differences. Elapsed times
are left out of the comparison: whatever they are, they are printed in ripgrep's form. Run it in tests/ with rg 13 in PATH: python3 -m
grep_options.json_lines [SEED [COUNT]]. It prints how many runs differ."""
import base64
import os
import random
import re
import subprocess
import sys
import tempfile

from .multiline import QUIRKS, blocks_of, can_feed, case, expression, limited, matches, rg_output, text_lines, touches, whole, words

# ---- strings and data, as serde_json writes them

SHORT = {8: 'b', 9: 't', 10: 'n', 12: 'f', 13: 'r', 34: '"', 92: '\\'}

def quoted(text):
    out = b'"'
    for b in text:
        if b in SHORT: out += b'\\' + SHORT[b].encode()
        elif b < 32: out += b'\\u%04x' % b
        else: out += bytes([b])
    return out + b'"'

def is_utf8(text):
    try: text.decode('utf-8'); return True
    except UnicodeDecodeError: return False

def data(text):
    """A text, or the bytes in base64 if they aren't UTF-8."""
    return b'{"text":' + quoted(text) + b'}' if is_utf8(text) else b'{"bytes":' + quoted(base64.b64encode(text)) + b'}'

# ---- events

def begin(name): return b'{"type":"begin","data":{"path":' + data(name) + b'}}\n'

def lines_event(kind, name, number, place, text, spans):
    subs = b','.join(b'{"match":' + data(text[s:e]) + b',"start":%d,"end":%d}' % (s, e) for s, e in spans)
    return (b'{"type":"' + kind + b'","data":{"path":' + data(name) + b',"lines":' + data(text) + b',"line_number":' +
            (b'null' if number is None else b'%d' % number) + b',"absolute_offset":%d,"submatches":[' % place + subs + b']}}\n')

def human(secs, nanos): return b'"%d.%06ds"' % (secs, nanos // 1000)

def end(name, stats, time):
    return (b'{"type":"end","data":{"path":' + data(name) + b',"binary_offset":null,"stats":{"elapsed":{"secs":%d,"nanos":%d,"human":' % time + human(*time) +
            b'},"searches":%d,"searches_with_match":%d,"bytes_searched":%d,"bytes_printed":%d,"matched_lines":%d,"matches":%d}}}\n' % stats)

def summary(stats, time, total):
    n, w, searched, printed, lines, found = stats
    return (b'{"data":{"elapsed_total":{"human":' + human(*total) + b',"nanos":%d,"secs":%d},"stats":{"bytes_printed":%d,"bytes_searched":%d,"elapsed":{"human":' % (total[1], total[0], printed, searched) +
            human(*time) + b',"nanos":%d,"secs":%d},"matched_lines":%d,"matches":%d,"searches":%d,"searches_with_match":%d}},"type":"summary"}\n' % (time[1], time[0], lines, found, n, w))

# ---- the report: with --multiline adjacent selected lines are one event, unless -v is given

QUIRKS = dict(QUIRKS, single="with --multiline a pattern that can't match a line feed has an event for each line")

def report(patterns, text, o, name=b'f', quirks=frozenset(), time=(0, 0)):
    """The events of an input, and its statistics if there is one."""
    how = o['how']; crlf = 'crlf' in how; inv = bool(o.get('v')); multiline = bool(o.get('U'))
    rg = 'returns' in quirks and multiline
    rx = expression(patterns, how if multiline else [h for h in how if h != 'crlf'], rg)
    lines = text_lines(text)
    multi = multiline and can_feed(patterns, how)
    q = quirks if multi else quirks & {'last', 'lines'}
    strips = rg and crlf and ('x' in how or 'F' not in how and all(p.endswith(b'$') for p in patterns))
    def own(line): return line[2][:-1] if crlf and line[3] and line[2].endswith(b'\r') else line[2]
    if multiline and not ('lines' in q and not multi): found = list(matches(rx, text, 0, strips))
    else: found = [(line[1] + s, line[1] + e) for line in lines for s, e in matches(rx, own(line))]
    touched = [any(touches(s, e, line) for s, e in found) for line in lines]
    if multiline and not multi and 'lines' in q: touched = [rx.search(line[2]) is not None for line in lines]
    if 'last' in q and not text.endswith(b'\n'): found = [m for m in found if m[0] < len(text)]
    phantom = False; blocks = []
    if multi and q:
        blocks, found, seen, phantom = blocks_of(rx, text, lines, inv, found, 'slices' in q and ('reverse' if 'reverse' in q else True), strips)
        if not inv: touched = [any(a <= i < b for a, b, _ in blocks) for i in range(len(lines))]
        elif 'invert' in q: touched = seen
    wanted = [t != inv for t in touched]
    if 'limit' in q and o.get('m') is not None and not inv:
        sel = [False] * len(lines)
        for a, b, _ in blocks[:o['m']]:
            for i in range(a, b): sel[i] = True
    else: sel = limited(o.get('m'), wanted)
    A, B = o.get('A', 0), o.get('B', 0)
    def is_beside(i):
        return not sel[i] and (o.get('passthru') or any(sel[max(0, i - A):i]) or any(sel[i + 1:i + 1 + B]) or ('after' in q and phantom and i + B >= len(lines)))
    grouped = multi if 'single' in quirks else multiline
    events = []; i = 0; counted = 0; matched = 0; last = 0
    while i < len(lines):
        if sel[i]:
            j = i + 1
            if grouped and not inv:
                while j < len(lines) and sel[j]: j += 1
            a, b = lines[i][1], lines[j - 1][1] + whole(lines[j - 1])
            inside = [] if inv else [(max(s, a) - a, min(e, b) - a) for s, e in found if touches(s, e, (None, a, text[a:b - lines[j - 1][3]], lines[j - 1][3]))]
            if inv and 'alone' in q and multi:
                inside = [(s - a, e - a) for s, e in matches(rx, text[:b + 128], a, strips) if s < b]
            if 'lines' in q and not multi and inv and multiline: inside = [(s - a, e - a) for s, e in found if a <= s < b]
            events.append((b'match', lines[i][0], a, text[a:b], [(s, min(e, b - a)) for s, e in inside]))
            counted += len(inside); matched += j - i; last = b; i = j
            continue
        if is_beside(i):
            a, b = lines[i][1], lines[i][1] + whole(lines[i])
            inside = []
            if inv:
                inside = [(max(s, a) - a, min(e, b) - a) for s, e in found if touches(s, e, lines[i])]
                if 'alone' in q: inside = [(s, e) for s, e in matches(rx, text[a:b], 0, strips) if s < b - a]
                if 'lines' in q and not multi: inside = [(s - a, e - a) for s, e in found if a <= s < b or (s == b == len(text) and not text.endswith(b'\n') and 'last' not in q)]
            events.append((b'context', lines[i][0], a, text[a:b], inside)); last = b
        i += 1
    if not events: return b'', None
    over = o.get('m') is not None and sum(wanted) > 0 and (sum(sel) >= o['m'] if 'limit' not in q or inv else len(blocks) >= o['m'])
    searched = last if over and not o.get('passthru') else len(text)
    out = begin(name)
    for kind, number, place, lt, spans in events: out += lines_event(kind, name, None if o.get('N') else number, place, lt, spans)
    stats = (1, 1 if any(k == b'match' for k, *_ in events) else 0, searched, len(out), matched, counted)
    return out + end(name, stats, time), stats

def all_reports(patterns, texts, o, quirks=frozenset()):
    out = b''; total = [0] * 6
    for name, text in texts:
        shown, stats = report(patterns, text, o, name, quirks)
        out += shown
        if stats: total = [a + b for a, b in zip(total, stats)]
    if o.get('q'): return b''
    return without_searched(out + summary(tuple(total), (0, 0), (0, 0)), o)

# ---- the comparison

NO_TIME = [(rb'"elapsed":\{"secs":\d+,"nanos":\d+,"human":"[^"]*"\}', b'"elapsed":{"secs":0,"nanos":0,"human":"0.000000s"}'),
           (rb'"(elapsed|elapsed_total)":\{"human":"[^"]*","nanos":\d+,"secs":\d+\}', rb'"\1":{"human":"0.000000s","nanos":0,"secs":0}')]

def rg_json(pats, texts, o, folder):
    for name, text in texts:
        with open(os.path.join(folder.encode(), name), 'wb') as f: f.write(text)
    args = ['rg', '--json', '--no-config', '-a', '--sort', 'path']
    for k in o['how']: args += ['--crlf'] if k == 'crlf' else ['-' + k]
    for k, x in [('U', '-U'), ('v', '-v'), ('passthru', '--passthru'), ('N', '-N'), ('q', '-q')]:
        if o.get(k): args.append(x)
    args += o['rest']
    for k in 'mAB':
        if o.get(k) is not None: args += ['-' + k, str(o[k])]
    for p in pats: args += ['-e', p.decode()]
    args += ['--'] + [name for name, _ in texts]
    r = subprocess.run(args, cwd=folder, capture_output=True, timeout=200)
    if r.returncode == 101: return None  # it panicked
    if r.returncode not in (0, 1): raise SystemExit((args, r.stderr))
    out = r.stdout
    for old, new in NO_TIME: out = re.sub(old, new, out)
    return without_searched(out, o)

def without_searched(out, o):
    """With -m the definition counts the bytes up to the end of the last line that is printed. So does ripgrep, unless it looks for the next match
    before it stops, as with --multiline, or reads a block of lines, as with -v."""
    return re.sub(rb'"bytes_searched":\d+', b'"bytes_searched":0', out) if o.get('m') is not None and (o.get('U') or o.get('v')) else out

NAMES = [b'f', b'a"b', b'\xc3\xa9\\', b'\xff.txt', b'tab\there', b'\x01\x7f', b'\xe2\x80\xa8']

def json_case(rnd):
    pats, text, o = case(rnd)
    o = {k: v for k, v in o.items() if k in ('how', 'v', 'm', 'A', 'B', 'passthru')}
    if rnd.random() < .5: o['U'] = True
    elif any(re.search(rb'\\n|A\nB', p) for p in pats) or 'F' in o['how'] and any(b'\n' in p for p in pats): pats = [rnd.choice([b'a', b'x*', b'^', b'$', b'b|c', b'[^a]+', b'\\s', b'\\w+'])]
    for k in ['N']:
        if rnd.random() < .15: o[k] = True
    if rnd.random() < .03: o['q'] = True
    o['rest'] = [w for w in ['-b', '-o', '--column', '--trim', '-M3', '--heading', '--color=always', '-rX', '-H', '--vimgrep'] if rnd.random() < .1]
    if o.get('m') is not None: o.pop('A', None); o.pop('B', None)
    strange = not any(re.search(rb'\[\^|\.|\\[wWb]', p) for p in pats)  # these mean characters in ripgrep, and bytes here
    def change(t):
        if not strange: return t.replace(b'\xff', b'x')
        return b''.join(bytes([c]) if rnd.random() > .1 else rnd.choice([b'\xff', b'\xc3\xa9', b'"', b'\\', b'\x01', b'\x0c', b'\x7f', b'\xe2\x82\xac', b'\x1b', b'\x08']) if c not in b'\r\n' else bytes([c]) for c in t)
    texts = [(name, change(text if k == 0 else case(rnd)[1])) for k, name in enumerate(rnd.sample(NAMES, rnd.choice([1, 1, 2, 3])))]
    texts.sort(key=lambda p: p[0])
    return pats, texts, o

def main():
    seed = int(sys.argv[1]) if len(sys.argv) > 1 else 1
    count = int(sys.argv[2]) if len(sys.argv) > 2 else 2000
    rnd = random.Random(seed); wrong = plain = panics = 0; everything = frozenset(QUIRKS); explained = {k: 0 for k in QUIRKS}
    with tempfile.TemporaryDirectory() as folder:
        for t in range(count):
            pats, texts, o = json_case(rnd)
            is_ = rg_json(pats, texts, o, folder)
            if is_ is None: panics += 1; continue
            if all_reports(pats, texts, o) == is_: plain += 1; continue
            if all_reports(pats, texts, o, everything) != is_:
                wrong += 1
                if wrong <= 5: print('DIFFERS', pats, texts, {k: v for k, v in o.items() if v is not False}, '\n   rg', is_.decode('latin-1'), '\n  def', all_reports(pats, texts, o, everything).decode('latin-1'))
                continue
            for k in QUIRKS:
                if all_reports(pats, texts, o, everything - {k}) != is_: explained[k] += 1
    print(count, 'runs;', plain, 'equal the definition;', wrong, 'differ from the model with all quirks; ripgrep panicked in', panics)
    for k, n in explained.items():
        if n: print('%6d need %s: %s' % (n, k, QUIRKS[k]))
    return wrong

if __name__ == '__main__': sys.exit(1 if main() else 0)
