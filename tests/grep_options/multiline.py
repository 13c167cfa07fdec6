#!/usr/bin/env python3
"""What --multiline prints, as a model that is compared with `rg -U` of ripgrep 13 over random patterns, texts and options: -n -b -H
--column -c --count-matches -o -v -m -A -B -C -l -L -q --passthru --trim -M --vimgrep --heading --color -x -i -F --crlf -r. `report` is the definition of hirgrep in
Python: matches are those of the whole text, and each line is printed with the parts of matches that are in it. Each
difference from ripgrep has a name in QUIRKS, and stands at the line of `report` that it changes. With all of them the model prints what
ripgrep prints. Run it with rg 13 in PATH: multiline.py [SEED [COUNT]]. It prints how many runs differ, and how many of them differ
without each of the quirks alone, which says what each one explains."""
import os, random, re, subprocess, sys, tempfile

QUIRKS = {
    'slices': "after a match ripgrep searches the rest of the text as if it began there, and takes an empty match at the end of the one before",
    'reverse': "ripgrep's engine looks back for the start of a match in the text from the end of the match before, so `^` holds there",
    'returns': "with --crlf `$` is `\\r??$` and nothing else ends a line, where the definition has (?R)",
    'none': "-c and --count-matches print nothing if they count none",
    'column': "each line of a block of matches has the column of the first match in the block",
    'offset': "-o has the offset of the match before each part of it, and columns count from the first line of the block",
    'vimgrep': "the offset with --vimgrep is that of the line",
    'count': "-c counts the matches of blocks if the pattern can match a line feed, and with -v those of lines without one; -l, -L and -m go by that number",
    'start': "an empty match at the start of a line isn't printed with --vimgrep",
    'long': "with --vimgrep and -M the next line of a match is printed if the text for a long line stands for its first one",
    'lines': "a pattern that can't match a line feed is searched line by line, without line ends: so none of its empty matches is between a carriage return and a line feed",
    'last': "an empty match at the end of a last line without a line feed isn't seen",
    'after': "a match after the last line feed has context lines before it",
    'hidden': "with --vimgrep the lines of a match after its first one aren't context lines either",
    'limit': "-m counts blocks of matches, and not lines",
    'invert': "with -v the search goes on after the lines of a match, so the next match isn't seen that begins in its last line",
    'alone': "with -v each context line is searched by itself for the matches that are marked in it",
    'trim': "with -o the white space at the beginning of the line is left out, and not that of each match",
    'omitted': "the matches of the block are counted in the text that stands for a long line",
    'apart': "with -r adjacent lines aren't replaced together if the pattern can't match a line feed, so the offsets of each count by themselves",
    'gone': "with -r context lines are also printed around lines of which nothing is left",
    'beyond': "with -r an empty match after the last line feed is replaced there",
    'absent': "-o prints nothing for a part of a replacement that is empty",
    'edge': "with --vimgrep an empty replacement isn't printed at the end of a line without a line feed",
    'bare': "with --vimgrep a line of what is replaced is printed also if no replacement begins in it",
    'rest': "with -r the text from each block to the end is printed with its matches replaced, and not the block alone",
    'heading': "with -o the heading stands also above nothing",
    'empty': "-o prints empty matches if the pattern can't match a line feed (a difference without --multiline, too)",
}

# ---- the engine: matches of a whole text

def find(rx, text, at, strips, reverse):
    """The next match. With --crlf ripgrep strips a carriage return at its end, if all patterns end in `$`."""
    m = rx.search(text, at)
    if not m: return None
    s, e = m.span()
    if reverse and s > at:
        if rx.fullmatch(text[at:], 0, e - at): s = at
    return (s, e - 1) if strips and e > s and text[e - 1:e] == b'\r' else (s, e)

def matches(rx, text, start=0, strips=False, reverse=False):
    """All matches from left to right. An empty one at the end of the one before is left out."""
    at = start; last = None
    while at <= len(text):
        m = find(rx, text, at, strips, reverse)
        if not m: return
        s, e = m
        if s == e == last: at = e + 1; continue
        yield s, e
        last = at = e

def in_order(patterns, how):
    """The patterns in the order in which they are preferred: if all are strings, the longest first."""
    if 'F' not in how and any(re.search(rb'[\\.^$|*+?()\[{]', p) for p in patterns): return patterns
    return sorted(patterns, key=lambda p: len(p.decode(errors='surrogateescape')), reverse=True)

def expression(patterns, how, rg):
    """The patterns as one, in Python's syntax. With --crlf the definition has the meaning of (?R): a carriage return ends a line too. In
    ripgrep `$` is `\\r??$`, and the carriage return is cut off a match."""
    out = []
    for p in patterns if rg else in_order(patterns, how):
        if 'F' in how: p = re.escape(p)
        if 'x' in how: p = b'^(?:' + p + b')$'
        if 'crlf' in how: p = with_returns(p, rg)
        out.append(b'(?:' + p + b')')
    return re.compile(b'|'.join(out), re.M | (re.I if 'i' in how else 0))

LINE_START, LINE_END = rb'(?:(?<![\s\S])|(?<=\n)|(?<=\r)(?!\n))', rb'(?:(?![\s\S])|(?=\r)|(?<!\r)(?=\n))'

def with_returns(p, rg):
    out = b''
    for t in re.findall(rb'\[\^?(?:\\.|[^\]])*\]|\\.|[\s\S]', p):
        if rg: t = {b'$': rb'(?:\r??$)'}.get(t, t)
        else: t = {b'^': LINE_START, b'$': LINE_END, b'.': rb'[^\r\n]'}.get(t, t)
        out += t
    return out

def can_feed(patterns, how):
    """Whether ripgrep takes a pattern for one that may match a line feed. If it doesn't, it searches line by line."""
    return 'x' in how or any((b'\n' in p) if 'F' in how else re.search(rb'\\n|\\s|\^|\$|\\W|\[\^|\(\?s', p) for p in patterns)

# ---- lines

def split_lines(text):
    parts = text.split(b'\n')
    return [(l, True) for l in parts[:-1]] + ([(parts[-1], False)] if parts[-1] else [])

def text_lines(text):
    out = []; place = 0
    for n, (l, ended) in enumerate(split_lines(text), 1):
        out.append((n, place, l, ended)); place += len(l) + 1
    return out

def whole(line):
    """The length of a line with its line feed."""
    return len(line[2]) + (1 if line[3] else 0)

def touches(s, e, line):
    """A match touches a line if one of its bytes is in it, the line feed being one of the line's, or if it is empty and at an offset of
    the line. After a last line without a line feed there is an offset, too."""
    n, place, l, ended = line
    if s < e: return s < place + whole(line) and place < e
    return place <= s and (s < place + whole(line) or (not ended and s == place + len(l)))

def begins_in(s, line):
    n, place, l, ended = line
    return place <= s and (s < place + whole(line) or (not ended and s == place + len(l)))

def cut(s, e, line, crlf):
    """The part of a match that is in a line, as offsets in the line, without the line's end."""
    n, place, l, ended = line
    size = len(l) - (1 if crlf and ended and l.endswith(b'\r') else 0)
    start = min(max(s, place) - place, len(l))
    return start, max(start, min(max(e, place) - place, size))

# ---- replaced lines

def expanded(template, m):
    """The template for a match. Only `$0`, `$1` and `$$` are used here."""
    return re.sub(rb'\$(\$|[0-9])', lambda t: b'$' if t[1] == b'$' else (m.group(int(t[1])) or b'') if int(t[1]) <= m.re.groups else b'', template)

def replaced_block(rx, template, text, start, end, found, beyond):
    """The text between two offsets with the template instead of each match that begins there, and where the templates are in it."""
    at = max([start] + [min(e, end) for s, e in found if s < start]); out = b''; spans = []
    for s, e in found:
        if not (start <= s < end or s == e == end == len(text) and (beyond or not text.endswith(b'\n'))): continue
        m = rx.match(text, s)
        out += text[at:s]; first = len(out)
        out += expanded(template, m)
        spans.append((start + first, start + len(out)))
        at = max(at, min(e, end))
    return out + text[at:end], spans

def replaced(rx, template, text, lines, sel, found, inv, each, q):
    """The lines that are printed if matches are replaced. Adjacent selected lines are replaced together, and with -v each line by itself, as
    each that isn't selected is. The numbers and offsets of the lines that come of it count on from those of the first line. If a line is printed
    for each match, a selected one in which no replacement begins isn't printed."""
    new, new_sel, own, new_blocks = [], [], {}, {}
    i = 0
    while i < len(lines):
        j = i + 1
        while sel[i] and not inv and 'apart' not in q and j < len(lines) and sel[j]: j += 1
        number, start = lines[i][0], lines[i][1]
        end = lines[j - 1][1] + whole(lines[j - 1])
        out, spans = replaced_block(rx, template, text, start, len(text) if 'rest' in q and sel[i] and not inv else end, found, 'beyond' in q and sel[i])
        a = len(new)
        for k, p, l, ended in text_lines(out):
            row = (number + k - 1, start + p, l, ended)
            if each and not inv and sel[i] and not any(begins_in(s, row) for s, e in spans): continue
            own[len(new)] = spans
            new.append(row); new_sel.append(sel[i])
        if 'gone' in q and sel[i] and a == len(new): new.append((0, -1, b'', True)); new_sel.append(True)
        if sel[i]:
            for k in range(a, len(new)): new_blocks[k] = (a, len(new), spans)
        i = j
    return new, new_sel, own, new_blocks

# ---- the report

def limited(most, wanted):
    if most is None: return wanted
    out = []; left = most
    for w in wanted:
        out.append(w and left > 0)
        if w and left > 0: left -= 1
    return out

def report(patterns, text, o, quirks=frozenset()):
    how = o['how']; rg = 'returns' in quirks
    crlf = 'crlf' in how
    rx = expression(patterns, how, rg)
    lines = text_lines(text)
    multi = can_feed(patterns, how)
    q = quirks - {'apart'} if multi else quirks & {'last', 'heading', 'empty', 'lines', 'returns', 'none', 'apart'}
    inv = bool(o.get('v'))
    strips = rg and crlf and ('x' in how or 'F' not in how and all(p.endswith(b'$') for p in patterns))
    found = list(matches(rx, text, 0, strips))
    if 'lines' in q and not multi:
        found = [(place + s, place + e) for n, place, l, ended in lines for s, e in matches(rx, l[:-1] if crlf and ended and l.endswith(b'\r') else l)]
    every = found
    if 'last' in q and not text.endswith(b'\n'): found = [m for m in found if m[0] < len(text)]
    phantom = False  # whether there is a match after the last line feed
    blocks = []  # ripgrep's blocks of adjacent lines, as first and last line with the matches in them
    touched = [any(touches(s, e, line) for s, e in found) for line in lines]
    if 'lines' in q and not multi: touched = [rx.search(line[2]) is not None for line in lines]
    if q and multi:
        blocks, found, seen, phantom = blocks_of(rx, text, lines, inv, found, 'slices' in q and ('reverse' if 'reverse' in q else True), strips)
        if not inv: touched = [any(a <= i < b for a, b, _ in blocks) for i in range(len(lines))]
        elif 'invert' in q: touched = seen
    wanted = [t != inv for t in touched]
    if o.get('vimgrep') and not inv and o.get('r') is None and not (multi and 'hidden' in quirks):  # a line is selected if a match begins in it
        wanted = [t and any(begins_in(s, line) for s, e in found) for t, line in zip(touched, lines)]
    if 'limit' in q and o.get('m') is not None and not inv:
        sel = [False] * len(lines)
        for a, b, _ in blocks[:o['m']]:
            for i in range(a, b): sel[i] = True
    else: sel = limited(o.get('m'), wanted)
    any_sel = any(sel)
    if 'count' in q:
        def begun(a, b): return sum(1 for m in matches(rx, text[:b + 128], a, strips) if m[0] < b)
        units = [begun(lines[i][1], lines[i][1] + whole(lines[i])) for i in range(len(lines)) if wanted[i]] if inv else [len(ms) for a, b, ms in blocks]
        total = 0
        for u in units:
            total += u
            if o.get('m') is not None and total >= o['m']: break
        if not units and o.get('m') is not None and 0 >= o['m']: pass
        any_sel = total > 0
    name = b'f' if o.get('H') else None
    # what is counted, and names
    if o.get('q'): return b''
    if o.get('L'): return b'' if any_sel else b'f\n'
    if o.get('l'): return b'f\n' if any_sel else b''
    if o.get('count_matches') or (o.get('count') and 'count' in q):
        if 'count' in q: n = total
        else:
            n = sum(1 for s, e in found if any(begins_in(s, lines[i]) for i in range(len(lines)) if sel[i]))
        return (name + b':' if name else b'') + b'%d\n' % n if n or 'none' not in quirks or any_sel else b''
    if o.get('count'):
        n = sum(sel)
        return (name + b':' if name else b'') + b'%d\n' % n if n or 'none' not in quirks or any_sel else b''
    # lines
    block_at = {}
    for a, b, ms in blocks:
        for i in range(a, b): block_at[i] = (a, b, ms)
    own = {}
    printed = touched
    if o.get('r') is not None:
        lines, sel, own, block_at = replaced(rx, o['r'], text, lines, sel, every if 'last' in q else found, inv, o.get('vimgrep') and 'bare' not in q, q)
        printed = sel
    A, B = o.get('A', 0), o.get('B', 0)
    passthru = o.get('passthru')
    heading = o.get('heading') and name
    red = (lambda t: b'\x1b[0m\x1b[31m' + t + b'\x1b[0m' if t else b'') if o.get('color') else (lambda t: t)
    out = b''; last = None
    for i, line in enumerate(lines):
        n, place, l, ended = line
        beside = not sel[i] and (passthru or any(sel[max(0, i - A):i]) or any(sel[i + 1:i + 1 + B]) or ('after' in q and phantom and i + B >= len(lines)))
        if not sel[i] and not beside: continue
        if (A or B) and not passthru and last is not None and i != last + 1: out += b'--\n'
        last = i
        if place < 0: continue
        sep = b':' if sel[i] else b'-'
        has_marks = sel[i] != inv
        block = block_at.get(i)
        mine = [m for m in own.get(i, found) if touches(*m, line)] if has_marks and (i in own or o.get('r') is None) else []
        if 'alone' in q and has_marks and inv:
            mine = [(place + s, place + e) for s, e in matches(rx, text[place:place + whole(line)], 0, strips) if s < whole(line)]
        spans = [cut(s, e, line, crlf) for s, e in mine]
        if beside and not inv: mine = spans = []
        def fields(column, offset):
            f = b''
            if name and not heading: f += name + sep
            if o.get('n'): f += b'%d' % n + sep
            if o.get('column') and column is not None: f += b'%d' % column + sep
            if o.get('b'): f += b'%d' % offset + sep
            return f
        def trimmed(t): return len(t) - len(t.lstrip(b' \t\n\r\x0b\x0c')) if o.get('trim') else 0
        def is_long(size): return o.get('M') is not None and size > o['M']
        def omission(count):
            if count: return b'[Omitted long line with %d matches]' % count
            return b'[Omitted long matching line]' if sel[i] else b'[Omitted long context line]'
        def marked(marks):
            t = b''; at = trimmed(l)
            for s, e in marks:
                s = max(s, at)
                if s < e: t += l[at:s] + red(l[s:e]); at = e
            return t + l[at:]
        def body(marks, count):
            if is_long(whole(line)): return omission(count)
            return marked(marks)
        shown = len(spans)
        if o.get('vimgrep') and not inv: shown = sum(1 for m in mine if begins_in(m[0], line))  # those that are printed
        if 'omitted' in q and block and has_marks and not inv: shown = len(block[2])
        if not (o.get('column') or o.get('color') or o.get('vimgrep') or i in own) and not o.get('o'): shown = 0
        if o.get('o') and not ('last' in q and (block and not block[2] if multi else printed[i] and not mine)):
            if not has_marks: continue
            for (s, e), (ms, me) in zip(spans, mine):
                part = l[s:e]
                column, offset = s + 1, place + s
                if 'trim' in q and o.get('trim'):
                    skip = trimmed(l)
                    part = l[max(s, skip):e]; drop = 0
                else: drop = trimmed(part) if not is_long(len(part)) else 0
                if 'offset' in q and block:
                    column, offset = ms - lines[block[0]][1] + 1, ms
                if not part and not ('empty' in q and not multi or o.get('r') is not None and 'absent' not in q): continue
                if is_long(len(part)): out += fields(column, offset) + omission(0) + b'\n'
                else: out += fields(column, offset) + red(part[drop:]) + b'\n'
        elif o.get('vimgrep') and has_marks and (mine or (block and block[2])):
            for (s, e), (ms, me) in zip(spans, mine):
                first = i if beside else next(k for k in range(len(lines)) if begins_in(ms, lines[k]) and own.get(k) is own.get(i))
                if first != i and not ('long' in q and not beside and all(is_long(whole(lines[k])) for k in range(first, i))): continue
                if 'start' in q and ms == me == place and not beside: continue
                if 'edge' in q and ms == me == place + whole(line): continue
                offset = place if 'vimgrep' in q and not beside else place + s
                out += fields(s + 1, offset) + body([(s, e)], 1 if 'omitted' in q and block and False else shown) + b'\n'
        else:
            column = spans[0][0] + 1 if spans else None
            if 'column' in q and block and spans is not None and has_marks and not inv:
                column = block[2][0][0] - lines[block[0]][1] + 1 if block[2] else None
            out += fields(column, place) + body(spans if o.get('color') else [], shown) + b'\n'
    if heading and (out or ('heading' in q and any_sel)): out = name + b'\n' + out
    return out

# ---- how ripgrep finds blocks

def locate(text, s, e):
    first = text.rfind(b'\n', 0, s) + 1
    if e > first and text[e - 1:e] == b'\n': return first, e
    k = text.find(b'\n', e)
    return first, (len(text) if k < 0 else k + 1)

def blocks_of(rx, text, lines, inv, all_found, slices, strips):
    """The blocks of adjacent lines that matches touch, each with its matches, all matches, with -v which lines ripgrep takes for touched ones,
    and whether there is a match after the last line feed."""
    ranges = []; at = 0; touched = [False] * len(lines)
    index = {line[1]: i for i, line in enumerate(lines)}
    def number(offset):  # the line that begins there, or the number of lines
        return index.get(offset, len(lines))
    pending = list(all_found)
    while at < len(text):
        if slices:
            m = find(rx, text[at:], 0, strips, False)
            if not m: break
            s, e = m[0] + at, m[1] + at
        else:
            pending = [m for m in pending if m[0] >= at]
            if not pending: break
            s, e = pending[0]
        a, b = locate(text, s, e)
        if inv:
            for i in range(number(a), number(b) if b < len(text) else len(lines)):
                if lines[i][1] < b: touched[i] = True
            at = b + 1 if a == b and b < len(text) else b
            if a == b: break
            ranges.append((a, b))
            continue
        at = e + 1 if s == e and e < len(text) else e
        if not slices: pending = pending[1:]
        if ranges and ranges[-1][1] >= a: ranges[-1] = (ranges[-1][0], b)
        else: ranges.append((a, b))
        if s == e == len(text): break
    blocks = []; found = []; phantom = False
    if inv: return [], all_found, touched, False
    for a, b in ranges:
        if a == b: phantom = True; continue
        ms = [m for m in (matches(rx, text[:b + 128], a, strips, slices == 'reverse') if slices else all_found) if a <= m[0] < b]
        found += ms
        blocks.append((number(a), number(b) if b < len(text) else len(lines), ms))
    return blocks, found, touched, phantom

# ---- the comparison

PATTERNS = [rb'a\nb', rb'b\n', rb'\na', rb'\n', rb'a\n+b', rb'[^a]+', rb'a[^b]*b', rb'^a', rb'b$', rb'^', rb'$', rb'^$', rb'a', rb'ab', rb'\s+', rb'b\s*a', rb'x*', rb'(?:a|b\n)+',
            rb'c?\n', rb'^b\n^a', rb'a$\n', rb'\w+\n\w', rb'a|b\n', rb' a', rb'b\n ', rb'\n\n', rb'c\b', rb'[ab]\n[ab]', rb'[^\n]+\n', rb'A\nB', rb'.+\n', rb'a.', rb'(?s:a.b)']

TEMPLATES = [b'', b'X', b'<$0>', b'yy zz', b'$$']

def words(o):
    w = ['-U', '--no-config', '-a']
    for k in o['how']: w += ['--crlf'] if k == 'crlf' else ['-' + k]
    for k, x in [('n', '-n'), ('b', '-b'), ('column', '--column'), ('o', '-o'), ('v', '-v'), ('trim', '--trim'), ('vimgrep', '--vimgrep'), ('passthru', '--passthru'),
                 ('count', '-c'), ('count_matches', '--count-matches'), ('l', '-l'), ('L', '--files-without-match'), ('q', '-q')]:
        if o.get(k): w.append(x)
    w.append('-H' if o.get('H') else '--no-filename')
    w.append('--heading' if o.get('heading') else '--no-heading')
    if not o.get('n'): w.append('-N')
    if not o.get('column'): w.append('--no-column')
    w += ['--color', 'always', '--colors', 'path:none', '--colors', 'line:none', '--colors', 'column:none', '--colors', 'match:none', '--colors', 'match:fg:red'] if o.get('color') else ['--color', 'never']
    for k in 'mABM':
        if o.get(k) is not None: w += ['-' + k, str(o[k])]
    if o.get('r') is not None: w += ['-r', o['r'].decode()]
    return w

def case(rnd, replaces=False):
    o = {'how': []}
    r = rnd.random()
    if r < .12: o['how'].append('x')
    if rnd.random() < .1: o['how'].append('i')
    if rnd.random() < .1: o['how'].append('F')
    if rnd.random() < .12: o['how'].append('crlf')
    pats = rnd.sample(PATTERNS, rnd.choice([1, 1, 1, 2]))
    if 'F' in o['how']: pats = [rnd.choice([b'a', b'ab', b'b', b' '])]
    for k in ['n', 'b', 'column', 'v', 'trim', 'H', 'color', 'heading']:
        if rnd.random() < .25: o[k] = True
    r = rnd.random()
    if r < .1: o['vimgrep'] = True
    elif r < .18: o['passthru'] = True
    elif r < .25: o['count'] = True
    elif r < .32: o['count_matches'] = True
    elif r < .35: o['l'] = True
    elif r < .38: o['L'] = True
    elif r < .39: o['q'] = True
    elif r < .59: o['o'] = True
    if rnd.random() < .2: o['A'] = rnd.randrange(3)
    if rnd.random() < .2: o['B'] = rnd.randrange(3)
    if rnd.random() < .15: o['A'] = o['B'] = rnd.randrange(3)
    if rnd.random() < .15: o['M'] = rnd.choice([1, 3, 5, 8, 12])
    if rnd.random() < .12: o['m'] = rnd.randrange(1, 3)
    # what is combined in other ways elsewhere: DIFFERENCES.md
    if o.get('vimgrep'): o['n'] = o['column'] = o['H'] = True; o.pop('heading', None)
    if o.get('o'):
        for k in ['v', 'A', 'B', 'passthru']: o.pop(k, None)
    if o.get('passthru'):
        for k in 'ABm': o.pop(k, None)
    if o.get('count_matches'): o.pop('v', None)
    if o.get('m') is not None and (o.get('A') or o.get('B')): o.pop('m')
    if o.get('v') and o.get('color') and rnd.random() < .5: o['A'] = o['B'] = 1; o.pop('m', None); o.pop('passthru', None)
    if replaces:
        o['r'] = rnd.choice(TEMPLATES)
        for k in ['v', 'count', 'count_matches', 'l', 'L', 'q', 'passthru', 'M']: o.pop(k, None)  # with -M ripgrep counts the matches of the rest
    letters = b'aabbcx AB \t' if any(re.search(rb'\[\^|\.|\\W', p) for p in pats) else b'aabbcx AB \t\xff'  # a byte that isn't UTF-8 is no character
    end = b'\r\n' if 'crlf' in o['how'] and rnd.random() < .8 else b'\n'
    text = end.join(bytes(rnd.choice(letters) for _ in range(rnd.choice([0, 0, 1, 1, 2, 3, 5]))) for _ in range(rnd.randrange(1, 7)))
    if rnd.random() < .8 and text: text += end
    return pats, text, o

def rg_output(pats, text, o, folder):
    with open(os.path.join(folder, 'f'), 'wb') as f: f.write(text)
    args = ['rg'] + words(o)
    for p in pats: args += ['-e', p.decode()]
    args.append('f')
    r = subprocess.run(args, cwd=folder, capture_output=True, timeout=200)
    if r.returncode == 101: return None  # it panicked
    if r.returncode not in (0, 1): raise SystemExit((args, r.stderr))
    return r.stdout

def plain_marks(text):
    """ripgrep's output with the marks that `report` has, and without resets of parts that have no colour."""
    out = b''; inside = False
    for t in re.split(b'(\x1b\\[0m\x1b\\[31m|\x1b\\[0m)', text):
        if t == b'\x1b[0m\x1b[31m': out += t; inside = True
        elif t == b'\x1b[0m': out += t if inside else b''; inside = False
        else: out += t
    return out

def same(a, b, o):
    if o.get('color'):  # ripgrep's colour goes on where a match ends and another begins
        a, b = a.replace(b'\x1b[0m\x1b[0m\x1b[31m', b''), plain_marks(b)
    if 'crlf' in o['how']: a, b = a.replace(b'\r', b''), b.replace(b'\r', b'')
    return a == b

def main():
    seed = int(sys.argv[1]) if len(sys.argv) > 1 else 1
    count = int(sys.argv[2]) if len(sys.argv) > 2 else 2000
    rnd = random.Random(seed); wrong = 0; plain = 0; panics = 0; explained = {k: 0 for k in QUIRKS}
    everything = frozenset(QUIRKS)
    with tempfile.TemporaryDirectory() as folder:
        for t in range(count):
            pats, text, o = case(rnd, t % 3 == 0)
            is_ = rg_output(pats, text, o, folder)
            if is_ is None: panics += 1; continue
            if same(report(pats, text, o), is_, o): plain += 1
            if not same(report(pats, text, o, everything), is_, o):
                wrong += 1
                if wrong <= 5: print('DIFFERS', pats, text, {k: v for k, v in o.items() if v is not False}, '\n   rg', is_, '\n  def', report(pats, text, o, everything))
                continue
            for k in QUIRKS:
                if not same(report(pats, text, o, everything - {k}), is_, o): explained[k] += 1
    print(count, 'runs;', plain, 'equal the definition;', wrong, 'differ from the model with all quirks; ripgrep panicked in', panics)
    for k, n in explained.items(): print('%6d need %s: %s' % (n, k, QUIRKS[k]))
    return wrong

if __name__ == '__main__': sys.exit(1 if main() else 0)
