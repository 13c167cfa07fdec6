#!/usr/bin/env python3
"""What -z prints, as a model that is compared with GNU grep 3.8 over random patterns, texts and options: -n -b -H -c -o -v -m -A -B -l -L -q -x -i
-F -T -Z -a --color --group-separator --no-group-separator --label. It is the definition of hirgrep in Python: that of a report without
-z, where the byte that ends records is 0 and not 10 in the places that TERMINATOR marks. Run it: null_data.py [SEED [COUNT]]. It prints how many
runs differ. Patterns are such that the leftmost match is the longest one, too."""
import os, random, re, subprocess, sys, tempfile

TERMINATOR = b'\0'

def split_records(text):
    parts = text.split(TERMINATOR)
    return [(l, True) for l in parts[:-1]] + ([(parts[-1], False)] if parts[-1] else [])

def in_order(patterns, how):
    """The patterns in the order in which they are preferred: if all are strings, the longest first."""
    if 'F' not in how and any(re.search(rb'[\\.^$|*+?()\[{]', p) for p in patterns): return patterns
    return sorted(patterns, key=lambda p: len(p.decode(errors='surrogateescape')), reverse=True)

def expression(patterns, how):
    """`.` and negated classes match line feeds. `^` and `$` hold at the ends of a record only."""
    out = []
    for p in in_order(patterns, how):
        if 'F' in how: p = re.escape(p)
        else: p = b''.join({b'$': rb'\Z', b'^': rb'\A'}.get(t, t) for t in re.findall(rb'\[\^?[^\]]*\]|\\.|[\s\S]', p))
        if 'x' in how: p = rb'\A(?:' + p + rb')\Z'
        out.append(b'(?:' + p + b')')
    return re.compile(b'|'.join(out), re.S | (re.I if 'i' in how else 0))

def matches(rx, text):
    at = 0; last = None
    while at <= len(text):
        m = rx.search(text, at)
        if not m: return
        s, e = m.span()
        if s == e == last: at = e + 1; continue
        yield s, e
        last = at = e

COLORS = {'match': b'01;31', 'name': b'35', 'number': b'32', 'offset': b'32', 'separator': b'36'}

def report(patterns, text, o):
    rx = expression(patterns, o['how'])
    inv = bool(o.get('v'))
    def coloured(part, t): return b'\x1b[' + COLORS[part] + b'm\x1b[K' + t + b'\x1b[m\x1b[K' if o.get('color') else t
    rows = []; place = 0
    for n, (l, ended) in enumerate(split_records(text), 1):
        rows.append((n, place, l, list(matches(rx, l)))); place += len(l) + 1
    sel = [bool(r[3]) != inv for r in rows]
    if o.get('m') is not None:
        left = o['m']
        for i, s in enumerate(sel):
            sel[i] = s and left > 0
            left -= s
    name = o['label'] if o.get('H') else None
    width = 19 if o.get('T') else 0  # of standard input
    def before(t, other): return coloured('name', t) + (b'\0' if o.get('Z') else other)
    if o.get('q'): return b''
    if o.get('l') or o.get('L'): return before(o['label'], b'\n') if any(sel) == bool(o.get('l')) else b''
    if o.get('count'): return (before(name, coloured('separator', b':')) if name is not None else b'') + b'%d\n' % sum(sel)
    A, B = o.get('A', 0), o.get('B', 0)
    out = b''; last = None
    for i, (n, place, l, found) in enumerate(rows):
        beside = not sel[i] and (any(sel[max(0, i - A):i]) or any(sel[i + 1:i + 1 + B]))
        if not sel[i] and not beside: continue
        if (A or B or o.get('context')) and last is not None and i != last + 1 and o.get('groups', b'--') is not None: out += coloured('separator', o.get('groups', b'--')) + b'\n'
        last = i
        sep = coloured('separator', b':' if sel[i] else b'-')
        def fields(offset, t):
            f = before(name, sep) if name is not None else b''
            if o.get('n'): f += coloured('number', (b'%d' % n).rjust(width)) + sep
            if o.get('b'): f += coloured('offset', (b'%d' % offset).rjust(width)) + sep
            return f + (b'\t' if o.get('T') and f and t else b'')
        marks = found if sel[i] != inv else []
        if o.get('o'):
            for s, e in marks:
                if s < e: out += fields(place + s, l[s:e]) + coloured('match', l[s:e]) + TERMINATOR
            continue
        t = b''; at = 0
        if o.get('color') and marks:
            for s, e in marks:
                if s < e: t += l[at:s] + coloured('match', l[s:e]); at = e
        out += fields(place, l) + t + l[at:] + TERMINATOR
    return out

PATTERNS = [b'a', b'ab', b'a\\n', b'^a', b'b$', b'^$', b'[^a]+', b'a.b', b'a.*b', b'x*', b'[[:space:]]+', b'b+', b'^', b'$', b'a|b', b'c[^b]', b'^b.', b'.']

def gnu_pattern(p): return p.decode().replace('\\n', '[[:cntrl:]]')

def model_patterns(pats): return [p.replace(b'[[:space:]]', rb'\s').replace(b'\\n', rb'[\x00-\x1f]') for p in pats]

def words(o):
    w = ['-z', '-E'] if 'F' not in o['how'] else ['-z']
    for k in o['how']: w.append('-' + k)
    for k in 'nbHvoTZalLqc':
        if o.get({'c': 'count'}.get(k, k)): w.append('-' + k)
    if not o.get('H'): w.append('-h')
    for k in 'mAB':
        if o.get(k) is not None: w += ['-' + k, str(o[k])]
    if 'groups' in o: w.append('--no-group-separator' if o['groups'] is None else '--group-separator=' + o['groups'].decode())
    w.append('--color=always' if o.get('color') else '--color=never')
    return w + ['--label=' + o['label'].decode()]

def case(rnd):
    """Patterns, a text and options."""
    o = {'how': [k for k, p in (('x', .12), ('i', .1), ('F', .1)) if rnd.random() < p], 'label': rnd.choice([b'f', b'a b', b'x\ny'])}
    pats = rnd.sample(PATTERNS, rnd.choice([1, 1, 1, 2]))
    if len(pats) > 1: pats = [p for p in pats if p in (b'a', b'^a', b'b$', b'^$', b'b+', b'c[^b]')] or [b'a']
    if 'F' in o['how']: pats = [rnd.choice([b'a', b'ab', b'b', b' '])]
    for k in 'nbHvoTZa':
        if rnd.random() < .2: o[k] = True
    if rnd.random() < .3: o['color'] = True
    r = rnd.random()
    for k, p in (('l', .04), ('L', .08), ('q', .1), ('count', .2)):
        if r < p: o[k] = True; break
    if rnd.random() < .25: o['A'] = rnd.randrange(3); o['context'] = True
    if rnd.random() < .25: o['B'] = rnd.randrange(3); o['context'] = True
    if rnd.random() < .15: o['m'] = rnd.randrange(1, 3)  # -m 0 doesn't read at all: DIFFERENCES.md
    if rnd.random() < .15: o['groups'] = rnd.choice([None, b'', b'=='])
    if o.get('o') or o.get('count') or o.get('l') or o.get('L'):
        for k in ('A', 'B', 'context', 'groups'): o.pop(k, None)
    if o.get('m') is not None: o.pop('A', None)
    if 'A' not in o and 'B' not in o: o.pop('context', None)
    if o.get('color') and o.get('v'): o.pop('color')  # selected lines have no colour of their own, but for a carriage return: DIFFERENCES.md
    text = b'\0'.join(bytes(rnd.choice(b'aabbcA \n\n') for _ in range(rnd.choice([0, 1, 2, 3, 5]))) for _ in range(rnd.randrange(1, 7)))
    if rnd.random() < .7 and text: text += b'\0'
    return pats, text, o

def main():
    seed = int(sys.argv[1]) if len(sys.argv) > 1 else 1
    count = int(sys.argv[2]) if len(sys.argv) > 2 else 2000
    rnd = random.Random(seed); wrong = 0
    env = dict(os.environ, LC_ALL='C.UTF-8'); env.pop('GREP_COLORS', None)
    for t in range(count):
        pats, text, o = case(rnd)
        args = ['grep'] + words(o)
        for p in pats: args += ['-e', gnu_pattern(p)]
        args.append('-')
        r = subprocess.run(args, input=text, capture_output=True, timeout=20, env=env)
        if r.returncode > 1: raise SystemExit((args, r.stderr))
        mine = report(model_patterns(pats), text, o)
        if mine != r.stdout:
            wrong += 1
            if wrong <= 5: print('DIFFERS', args, text, '\n  gnu', r.stdout, '\n  def', mine)
    print(count, 'runs;', wrong, 'differ')
    return wrong

if __name__ == '__main__': sys.exit(1 if main() else 0)
