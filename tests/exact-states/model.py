#!/usr/bin/env python3
"""A model of `explore --memory exact` with and without joining of equal states (collect 0)."""
import sys, re, random, itertools
# ---------------------------------------------------------------- programs
TOK = re.compile(r"\s*(?:(\d+)|([A-Za-z_]\w*)|(==|!=|<=|>=|&&|\|\||[-+*/%<>!(){}\[\];=])|(#[^\n]*|//[^\n]*))")
def tokens(text):
    out, i = [], 0
    text = text.rstrip()
    while i < len(text):
        m = TOK.match(text, i)
        if not m: raise SyntaxError(text[i:i+20])
        i = m.end()
        if m.group(4): continue
        out.append(m.group(1) or m.group(2) or m.group(3))
    return out
class Parser:
    def __init__(s, text): s.t, s.i = tokens(text), 0
    def peek(s): return s.t[s.i] if s.i < len(s.t) else None
    def take(s, x=None):
        t = s.peek()
        if x is not None and t != x: raise SyntaxError(f"want {x} got {t} at {s.i}: {s.t[s.i-3:s.i+3]}")
        s.i += 1; return t
    def program(s):
        s.take('words'); w = int(s.take()); s.take(';'); s.take('locks'); l = int(s.take()); s.take(';')
        code = []
        while s.peek() is not None: s.statement(code)
        code.append(('end',))
        return w, l, code
    def block(s, code):
        s.take('{')
        while s.peek() != '}': s.statement(code)
        s.take('}')
    def statement(s, code):
        t = s.peek()
        if t == 'if':
            s.take(); c = s.expr(); at = len(code); code.append(None); s.block(code)
            if s.peek() == 'else':
                s.take(); end = len(code); code.append(None); code[at] = ('branch', c, len(code))
                if s.peek() == 'if': s.statement(code)
                else: s.block(code)
                code[end] = ('jump', len(code))
            else: code[at] = ('branch', c, len(code))
        elif t == 'while':
            s.take(); at = len(code); c = s.expr(); code.append(None); s.block(code); code.append(('jump', at)); code[at] = ('branch', c, len(code))
        elif t in ('acquire', 'release', 'print'):
            s.take(); e = s.expr(); s.take(';'); code.append((t, e))
        elif t == 'barrier': s.take(); s.take(';'); code.append(('arrive',)); code.append(('depart',))
        elif t == '[':
            s.take(); a = s.expr(); s.take(']'); s.take('='); e = s.expr(); s.take(';'); code.append(('write', a, e))
        else:
            x = s.take(); s.take('=')
            if s.peek() == '[':
                s.take(); a = s.expr(); s.take(']'); s.take(';'); code.append(('read', x, a))
            else:
                e = s.expr(); s.take(';'); code.append(('set', x, e))
    LEVELS = [['||'], ['&&'], ['==', '!=', '<', '>', '<=', '>='], ['+', '-'], ['*', '/', '%']]
    def expr(s, k=0):
        if k == 5:
            t = s.take()
            if t == '(': e = s.expr(); s.take(')'); return e
            if t == '!': return ('!', s.expr(5))
            if t == '-': return ('-', ('n', 0), s.expr(5))
            if t.isdigit(): return ('n', int(t))
            return ('v', t)
        e = s.expr(k+1)
        while s.peek() in s.LEVELS[k]: o = s.take(); e = (o, e, s.expr(k+1))
        return e
M = 1 << 32
def ev(e, env):
    o = e[0]
    if o == 'n': return e[1]
    if o == 'v': return env.get(e[1], 0)
    if o == '!': return int(ev(e[1], env) == 0)
    a = ev(e[1], env)
    if o == '&&': return int(a != 0 and ev(e[2], env) != 0)
    if o == '||': return int(a != 0 or ev(e[2], env) != 0)
    b = ev(e[2], env)
    return {'+': lambda: (a+b) % M, '-': lambda: (a-b) % M, '*': lambda: a*b % M, '==': lambda: int(a == b), '!=': lambda: int(a != b),
            '<': lambda: int(a < b), '>': lambda: int(a > b), '<=': lambda: int(a <= b), '>=': lambda: int(a >= b),
            '/': lambda: a//b if b else 0, '%': lambda: a % b if b else 0}[o]()
# ---------------------------------------------------------------- the exact machine (by the local rule)
class Run:
    """a run so far: threads, the exact memory by the local rule, and a floor (a time that all nodes know)"""
    def __init__(s, prog, n, size):
        s.words, s.locks, s.code = prog; s.n, s.size = n, size
        s.th = [(0, (('me', i), ('nodes', n))) for i in range(n)]
        s.val = [[0]*s.words for _ in range(n)]; s.mark = [[None]*s.words for _ in range(n)]
        s.before = [{} for _ in range(n)]; s.time = [(0,)*n for _ in range(n)]
        s.made = [[None] for _ in range(n)]          # made[q][index] = (weight, {word: value})
        s.rel = [None]*s.locks; s.holder = [None]*s.locks
        s.arr = [None]*n                              # time at the arrive that is not departed yet by all
        s.na = [0]*n; s.nd = [0]*n; s.notes = tuple(() for _ in range(n)); s.floor = (0,)*n; s.acts = 0
        for i in range(n): s.quiet(i)
    def copy(s):
        o = object.__new__(Run); o.__dict__.update(s.__dict__)
        o.th = list(s.th); o.val = [list(x) for x in s.val]; o.mark = [list(x) for x in s.mark]; o.before = [dict(x) for x in s.before]
        o.time = list(s.time); o.made = list(s.made); o.rel = list(s.rel); o.holder = list(s.holder); o.arr = list(s.arr)
        o.na = list(s.na); o.nd = list(s.nd); return o
    def env(s, i): return dict(s.th[i][1])
    def goto(s, i, pc, env): s.th[i] = (pc, tuple(sorted(env.items())))
    def quiet(s, i, limit=100000):
        pc, env = s.th[i][0], s.env(i); seen = 0; s.stuck = False
        while True:
            c = s.code[pc]; seen += 1
            if seen > limit: s.goto(i, pc, env); raise OverflowError
            if c[0] == 'jump': pc = c[1]
            elif c[0] == 'branch': pc = pc+1 if ev(c[1], env) else c[2]
            elif c[0] == 'set': env[c[1]] = ev(c[2], env); pc += 1
            elif c[0] == 'print': s.notes = tuple(x + (('p', ev(c[1], env)),) if k == i else x for k, x in enumerate(s.notes)); pc += 1
            else: break
        s.goto(i, pc, env)
    def deed(s, i):
        """what the node can do next, or none"""
        pc, _ = s.th[i]
        if pc is None: return None
        c = s.code[pc]; env = s.env(i)
        if c[0] == 'end': return ('end',)
        if c[0] == 'acquire':
            l = ev(c[1], env)
            if l >= s.locks: return ('trap',)
            return ('acquire', l) if s.holder[l] is None else None
        if c[0] == 'release':
            l = ev(c[1], env)
            if l >= s.locks or s.holder[l] != i: return ('trap',)
            return ('release', l)
        if c[0] == 'arrive': return ('arrive',)
        if c[0] == 'depart': return ('depart',) if all(s.na[j] > s.nd[i] for j in range(s.n)) else None
        a = ev(c[1] if c[0] == 'write' else c[2], env)
        if a >= s.words: return ('trap',)
        return ('write', a, ev(c[2], env)) if c[0] == 'write' else ('read', a, c[1])
    def close(s, i):
        ch = {w: s.val[i][w] for w, b in s.before[i].items() if s.val[i][w] != b}
        s.made[i] = s.made[i] + [(sum(s.time[i])+1, ch)]; s.before[i] = {}
        s.time[i] = tuple(x+1 if q == i else x for q, x in enumerate(s.time[i]))
    def learn(s, i, news, cap):
        """returns whether each comparison is decided below the cap"""
        ok = True; W = sum(s.floor)
        if cap is not None:                           # as the abstraction does: the last change of each node, weights above the floor capped
            for w in range(s.words):
                m = s.mark[i][w]; am = None if m is None or m[0] <= W else (min(cap, m[0]-W), m[1])
                for q in range(s.n):
                    last = None
                    for j in range(s.time[i][q]+1, news[q]+1):
                        if w in s.made[q][j][1]: last = j
                    if last is None: continue
                    a = min(cap, s.made[q][last][0]-W)
                    if am is not None and am[0] >= cap and a >= cap and am[1] != q: ok = False
                    if am is None or am[1] == q or (am[0], am[1]) < (a, q): am = (a, q)
        for q in range(s.n):
            for j in range(s.time[i][q]+1, news[q]+1):
                wt, ch = s.made[q][j]
                for w, v in ch.items():
                    m = s.mark[i][w]
                    if m is None or m < (wt, q): s.val[i][w] = v; s.mark[i][w] = (wt, q)
        s.time[i] = tuple(max(a, b) for a, b in zip(s.time[i], news))
        return ok
    def look(s, i, a):
        p = a // s.size
        for w in range(p*s.size, min(s.words, (p+1)*s.size)): s.mark[i][w] = None
    def make(s, i, d, cap=None):
        pc, env = s.th[i][0], s.env(i); ok = True; s.acts += 1; k = d[0]
        if k in ('end', 'trap'):
            s.notes = tuple(x + ((k,),) if q == i else x for q, x in enumerate(s.notes)); s.th[i] = (None, ()); return True
        if k == 'read': s.look(i, d[1]); env[d[2]] = s.val[i][d[1]]
        elif k == 'write':
            s.look(i, d[1]); s.before[i].setdefault(d[1], s.val[i][d[1]]); s.val[i][d[1]] = d[2]
        elif k == 'acquire':
            s.holder[d[1]] = i; s.close(i)
            if s.rel[d[1]] is not None: ok = s.learn(i, s.rel[d[1]], cap)
        elif k == 'release': s.holder[d[1]] = None; s.close(i); s.rel[d[1]] = s.time[i]
        elif k == 'arrive': s.close(i); s.arr[i] = s.time[i]; s.na[i] += 1
        elif k == 'depart':
            s.nd[i] += 1; ok = s.learn(i, tuple(max(t[q] for t in s.arr) for q in range(s.n)), cap)
        s.goto(i, pc+1, env); s.quiet(i)
        if k == 'depart' and all(x == s.time[0] for x in s.time) and all(x == s.nd[0] for x in s.nd + s.na): s.level()
        return ok
    def level(s):
        """all nodes know the same: that is the floor from here on"""
        s.floor = s.time[0]; s.arr = [None]*s.n
    # ------------------------------------------------------------ the key, as crates/lrc_exact_states/specs/Key.antt has it
    def key(s, cap):
        """as much of the state as decides what comes: of each two places how they stand to each other"""
        W = sum(s.floor); N = range(s.n); up = lambda b, x: min(cap, max(0, x-b))
        locks = [None if r is None or not any(r[q] > s.floor[q] for q in N) else r for r in s.rel]
        first = min(s.nd)                             # the number of the barrier at the base; no node is two barriers ahead
        arrived = [a-first for a in s.na]
        known = list(s.time) + locks + [s.arr[i] for i in N for _ in range(arrived[i])]
        def gap(q, a, b):
            last = {}
            for j in range(a[q]+1, b[q]+1):
                for w, v in s.made[q][j][1].items(): last[w] = (v, up(W, s.made[q][j][0]))
            return (a[q] <= b[q], tuple(last.get(w) for w in range(s.words)))
        heights = tuple(None if k is None else tuple(up(s.floor[q], k[q]) for q in N) for k in known)
        gaps = tuple(tuple(tuple(None if a is None or b is None else gap(q, a, b) for q in N) for b in known) for a in known)
        marks = tuple(tuple(None if m is None or m[0] <= W else (up(W, m[0]), m[1]) for m in row) for row in s.mark)
        return (tuple(s.th), s.notes, tuple(s.holder), tuple(arrived), tuple(d-first for d in s.nd), tuple(map(tuple, s.val)), marks,
                tuple(tuple(b.get(w) for w in range(s.words)) for b in s.before), heights, gaps)
class Undecided(Exception): pass
class TooMany(Exception): pass
def ahead(run, cap, limit=3000):
    """free acts, lowest node first, then departs; None: it goes on for ever (looks alone)"""
    n = 0
    while True:
        for i in range(run.n):
            d = run.deed(i)
            if d and d[0] not in ('acquire', 'depart'): break
        else:
            some = False
            for i in range(run.n):
                d = run.deed(i)
                if d and d[0] == 'depart':
                    some = True
                    if not run.make(i, d, cap): raise Undecided
            return True
        run.make(i, d, cap); n += 1
        if n > limit: return None
def search(prog, n, size, cap, most):
    """cap None: no joining"""
    try: first = Run(prog, n, size)
    except OverflowError: return set(), 1
    seen, todo, out, met = set(), [first], set(), 1
    while todo:
        run = todo.pop()
        try: a = ahead(run, cap)
        except OverflowError: continue
        if a is None: continue
        if cap is not None:
            k = run.key(cap)
            if k in seen: continue
            seen.add(k)
        if any(d and d[0] != 'acquire' for d in [run.deed(i) for i in range(n)]):
            todo.append(run); continue
        nexts = [(i, d) for i in range(n) for d in [run.deed(i)] if d]
        if not nexts: out.add(tuple(x if run.th[i][0] is None else x + (('u',),) for i, x in enumerate(run.notes)))
        for i, d in nexts:
            o = run.copy()
            try: ok = o.make(i, d, cap)
            except OverflowError: continue
            if not ok: raise Undecided
            met += 1
            if met > most: raise TooMany
            todo.append(o)
    return out, met
def explore(prog, n, size, most=200000, caps=(4, 16, 64, 256)):
    for cap in caps:
        try: r = search(prog, n, size, cap, most); return r[0], r[1], cap
        except Undecided: continue
    r = search(prog, n, size, None, most); return r[0], r[1], None
def show(out):
    lines = []
    for notes in out:
        parts = []
        for i, x in enumerate(notes):
            for e in x: parts.append(f"node {i} prints {e[1]}" if e[0] == 'p' else f"node {i} " + {'end': 'ended', 'trap': 'traps', 'u': 'unfinished'}[e[0]])
        lines.append(' / '.join(parts))
    return sorted(lines)
if __name__ == '__main__':
    import glob
    bad = 0
    for f in sorted(glob.glob('../shared/cases/exact/*.case')):
        text = open(f).read(); m = re.search(r'^words: explore \{F\} (.*)$', text, re.M)
        if not m or '--outcomes' not in m[1] or '--memory exact' not in m[1]: continue
        c = re.search(r'--collect (\d+)', m[1])
        if c and int(c[1]): continue
        src = re.search(r'^text:\n((?:\|.*\n?)*)', text, re.M)
        if not src: continue
        src = '\n'.join(l[1:] for l in src[1].splitlines())
        want = re.search(r'^stdout:\n((?:\|.*\n?)*)', text, re.M)
        if not want: continue
        want = sorted(l[1:] for l in want[1].splitlines() if not l.startswith('|outcomes') and l != '|no run ends')
        if any('seed' in w or 'trap' in w for w in want): continue
        n = int(re.search(r'--nodes (\d+)', m[1])[1]); z = re.search(r'--page (\d+)', m[1]); size = int(z[1]) if z else 64
        try:
            out, met, cap = explore(Parser(src).program(), n, size)
            got = show(out); ok = got == want
        except (TooMany, Undecided) as e: ok, got, met, cap = False, [repr(e)], 0, 0
        except SyntaxError as e: print('skip', f.split('/')[-1], e); continue
        bad += not ok
        print('ok  ' if ok else 'BAD ', f.split('/')[-1], len(want), 'met', met, 'cap', cap)
        if not ok: print('  got', got[:5], '\n  want', want[:5])
    print('bad', bad)
