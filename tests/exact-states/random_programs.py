import random, sys, time
from model import *
def program(r, n, loops):
    w, l = r.choice([1,2,2,3]), r.choice([1,2,2])
    big = r.random() < .3
    def a(): return str(r.randrange(w)) if not big else str(r.choice([0, 0, 64][:w]) )
    words = w if not big else 65
    def sync(k):
        if r.random() < .3 and k: return [r.choice(['barrier;'])]
        lk = r.randrange(l); return [f'acquire {lk};'] + stuff(2, False) + [f'release {lk};']
    def stuff(k, locks=True):
        out = []
        for _ in range(r.randrange(k+1)):
            c = r.random()
            if c < .4: out.append(f'[{a()}] = {r.choice(["me+1", str(r.randrange(3)), "x", "x+1"])};')
            elif c < .7: out.append(f'x = [{a()}];')
            elif c < .75: out.append('print x;')
            else:
                if locks: out += sync(False)
        return out
    def spin():
        lk = r.randrange(l)
        return [f'while x == 0 {{ acquire {lk};'] + ([f'[{a()}] = {r.choice(["me+1","1"])};'] if r.random()<.3 else []) + [f'x = [{a()}]; release {lk}; }}']
    parts = []
    for i in range(n):
        body = stuff(3) + sync(False) + stuff(2)
        if r.random() < .5: body += sync(False)
        if loops and r.random() < .5: body += spin()
        body += stuff(1)
        parts.append(f'if me == {i} {{ ' + ' '.join(body) + ' }')
    if r.random() < .5: parts += ['barrier;'] + stuff(2) + (sync(False) if r.random() < .4 else [])
    if loops and r.random() < .2: parts = ['while y < %d {' % r.randrange(1, 4)] + parts + ['y = y + 1; barrier; }']
    parts += [f'x = [{a()}]; print x;']
    return f'words {words}; locks {l}; ' + ' '.join(parts)
def bisim(prog, n, size, cap, most):
    """of two states with one key: each act that is decided in one is in the other, and leads to states with one key"""
    first = Run(prog, n, size); seen, todo, met, pairs = {}, [first], 0, 0
    while todo:
        run = todo.pop(0)
        try:
            if ahead(run, None, 300) is None: continue
        except OverflowError: continue
        k = run.key(cap); old = seen.get(k); ds = [run.deed(i) for i in range(n)]
        if old is not None:
            assert ds == [old.deed(i) for i in range(n)]
            if old.time == run.time and old.made == run.made: continue
        else: seen[k] = run
        for i, d in enumerate(ds):
            if not d: continue
            a = run.copy()
            try: oka = a.make(i, d, cap)
            except OverflowError: continue
            if old is not None:
                b = old.copy(); okb = b.make(i, d, cap); pairs += 1
                assert oka == okb, (prog, 'decided')
                if oka: assert a.key(cap) == b.key(cap), (prog, i, d)
            else:
                met += 1
                if met <= most: todo.append(a)
    return met, pairs
if __name__ == '__main__':
    seed, secs = int(sys.argv[1]), float(sys.argv[2]); r = random.Random(seed); t = time.time()
    count = decided = many = joined = loops = multi = prs = 0; und = 0
    while time.time() - t < secs:
        n = r.choice([2,2,3]); lp = r.random() < .4; text = program(r, n, lp); prog = Parser(text).program(); size = r.choice([64, 256])
        for cap in (2, 4):
            try: m, p = bisim(prog, n, size, cap, 120); prs += p
            except OverflowError: pass
        try: one = search(prog, n, size, None, 300)
        except TooMany: one = None
        res = None
        for cap in (1, 2, 4, 16, 64):
            try: two = search(prog, n, size, cap, 400)
            except Undecided: und += 1; continue
            except TooMany: many += 1; break
            decided += 1
            if res is not None: assert res == two[0], (text, n, size, cap)
            res = two[0]
            if one is not None: assert one[0] == two[0], (text, n, size, cap, show(one[0]), show(two[0]))
            if one is not None and two[1] < one[1]: joined += 1
            if len(two[0]) > 1: multi += 1
            if one is None: loops += 1
            if cap >= 4: break
        count += 1
    print('programs', count, 'decided', decided, 'undecided', und, 'too many', many, 'fewer', joined, 'no join too many', loops, 'several', multi, 'bisim pairs', prs)
