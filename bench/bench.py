#!/usr/bin/env python3
# Measures hallcheck beside the peers on generated streams, checks that all outputs are equal, and prints the table and the goals.
import argparse
import datetime
import os
import random
import re
import shutil
import statistics
import subprocess
import sys
import tempfile

HOW = """Each program runs in turn on streams near 65,536 bytes, and its output is compared byte for byte with that of hallcheck. Time is that
of the processor, user and system, the median of the runs, less the median on empty input. Instructions are those of the program and not of the kernel,
less those on empty input: counted by perf where the machine counts them, else by valgrind.
Each figure is the median over the seeds. A ratio is the peer's figure divided by that of hallcheck on the same stream, the median over the
seeds: above 1, hallcheck is faster."""
here = os.path.dirname(os.path.abspath(__file__))
root = os.path.dirname(here)
BUILT = os.path.join(root, 'target', 'bench')
CRATE = os.path.join('crates', 'hallcheck')
LIMIT = 65536
TOP = 1 << 32

# The program below target/bench and its words, of each peer.
PEERS = {
    'deltanet': ['deltanet'],
    'deltanet-delta': ['deltanet', '--delta'],
    'deltanet-labels': ['deltanet', '--labels'],
    'deltanet-flat': ['deltanet-flat'],
    'deltanet-flat-delta': ['deltanet-flat', '--delta'],
    'veriflow': ['veriflow'],
    'veriflow-delta': ['veriflow', '--delta'],
}

# The peers that answer each loop question by a full search.
FULL_SEARCH = ('deltanet', 'deltanet-flat', 'veriflow')

# The goals: the ratio that is wanted at least, the peers, and the classes of streams (all where none is named).
GOALS = (
    (2, ('deltanet',), ('updates+loop', 'full256+loop', 'questions')),
    (1, ('deltanet-flat',), ('updates', 'full256')),
    (1, FULL_SEARCH, ()),
)

# ---------------------------------------------------------------- streams


class Maker:
    """A hall of `n` nodes in a hidden order: `down` links lead to a later node
    (no loop can arise from them alone), `up` links back."""

    def __init__(self, rng, n, nlinks):
        self.r, self.n = rng, n
        self.order = list(range(n))
        rng.shuffle(self.order)
        rank = {v: i for i, v in enumerate(self.order)}
        self.out = bytearray([1, n])
        self.down = {v: [] for v in range(n)}
        self.up = {v: [] for v in range(n)}
        self.away = {v: [] for v in range(n)}
        self.source = []
        for v in range(n):                       # every node can send away
            self.link(v, 1, rng.randrange(256))
        k = 0
        while len(self.source) < nlinks:
            v = self.order[k % n]
            i = rank[v]
            k += 1
            x = rng.random()
            if x < .75 and i + 1 < n:
                self.link(v, 0, self.order[min(n - 1, i + rng.choice((1, 1, 2, 3)))], self.down)
            elif x < .92 and i > 0:
                self.link(v, 0, self.order[rng.randrange(i)], self.up)
            else:
                self.link(v, rng.choice((1, 2)), 0)
        self.out.append(3)
        self.live = {}                           # number -> (node, lo, hi, prio)
        self.ends = {0, TOP}

    def link(self, v, code, num, where=None):
        self.out += bytes([2, v, code, num])
        (where or self.away)[v].append(len(self.source))
        self.source.append(v)

    def pick_link(self, v, p_up):
        x = self.r.random()
        if x < p_up and self.up[v]:
            return self.r.choice(self.up[v])
        if x < .8 and self.down[v]:
            return self.r.choice(self.down[v])
        return self.r.choice(self.away[v])

    def insert(self, lo, length, p_up, prio=None, node=None, fixed=None):
        """An insert that will be accepted, or False."""
        v = self.r.randrange(self.n) if node is None else node
        hi = lo + (TOP >> length)
        if prio is None:
            prio = min(65535, 1000 * length + self.r.randrange(3000))
        if any(w == v and q == prio and a < hi and lo < b for w, a, b, q in self.live.values()):
            return False
        if len(self.ends | {lo, hi}) - 2 > 511:
            return False
        free = [k for k in range(256) if k not in self.live]
        if not free:
            return False
        num = self.r.choice(free)
        link = self.pick_link(v, p_up) if fixed is None else fixed
        self.live[num] = (v, lo, hi, prio)
        self.ends |= {lo, hi}
        self.out += (b'\x04' + num.to_bytes(2, 'big') + bytes([link]) + lo.to_bytes(4, 'big')
                     + bytes([length]) + prio.to_bytes(2, 'big'))
        return True

    def remove(self, keep=()):
        num = self.r.choice([k for k in self.live if k not in keep])
        del self.live[num]
        self.out += b'\x05' + num.to_bytes(2, 'big')

    def loop(self):
        self.out += b'\x06'

    def fate(self):
        lo = self.r.choice(sorted(self.ends - {TOP})) if self.r.random() < .7 else self.r.getrandbits(32)
        self.out += b'\x07' + bytes([self.r.randrange(self.n)]) + lo.to_bytes(4, 'big')

    def reach(self):
        self.out += b'\x08' + bytes([self.r.randrange(self.n), self.r.randrange(self.n)])

    def tally(self):
        self.out += b'\x09' + bytes([self.r.randrange(self.n)])

    def defaults(self):
        """A default route at every node, down the order; the last goes out."""
        for v in range(self.n):
            self.insert(0, 0, 0, prio=1, node=v, fixed=(self.down[v] or self.away[v])[0])
        return set(self.live)

    def full(self):
        return len(self.out) > LIMIT - 24


def pool(rng, count, boundaries):
    """Nested prefixes with at most so many ends between them."""
    ends, got = set(), []
    bases = [(rng.getrandbits(32), rng.choice((4, 6, 8))) for _ in range(8)]
    while len(got) < count:
        p, least = rng.choice(bases)
        length = min(32, least + rng.choice((0, 1, 2, 4, 8, 8, 12, 16, 16, 18, 20)))
        keep = rng.randrange(least, length + 1)
        p = (p >> (32 - keep) << (32 - keep)) | (rng.getrandbits(32) & ((1 << (32 - keep)) - 1))
        p = p >> (32 - length) << (32 - length)
        e = {p, p + (TOP >> length)} - {0, TOP}
        if len(ends | e) > boundaries:
            if not e <= ends:
                length = rng.choice(got)
                p, length = length
        ends |= {p, p + (TOP >> length)} - {0, TOP}
        got.append((p, length))
    return got


def churn(rng, n, links, target, questions, p_up, prefixes):
    m = Maker(rng, n, links)
    keep = m.defaults()
    ps = pool(rng, prefixes, 500)
    while not m.full():
        grow = len(m.live) < target and rng.random() < .9
        if grow or (len(m.live) <= target + 4 and rng.random() < .5):
            if not m.insert(*rng.choice(ps), p_up):
                continue
        elif len(m.live) > len(keep):
            m.remove(keep)
        if questions == 'loop':
            m.loop()
        elif questions == 'mixed':
            m.loop()
            rng.choice((m.fate, m.fate, m.reach, m.tally))()
    return bytes(m.out)


def ask(rng, p_up):
    m = Maker(rng, 16, 64)
    m.defaults()
    ps = pool(rng, 230, 500)
    while len(m.live) < 200:
        m.insert(*rng.choice(ps), p_up)
    while not m.full():
        rng.choices((m.fate, m.reach, m.tally, m.loop), (40, 25, 20, 15))[0]()
    return bytes(m.out)


def full_hall(rng, questions, p_up):
    """256 rules and 512 atoms of 2^23 addresses each, then change by change."""
    m = Maker(rng, 16, 64)
    for k in range(1, 512, 2):
        while not m.insert(k << 23, 9, p_up):
            pass
    assert len(m.live) == 256 and len(m.ends) == 513
    lengths = (9,) * 40 + (8,) * 25 + (7,) * 15 + (6,) * 10 + (5,) * 5 + (4,) * 2 + (3, 2, 0)
    while not m.full():
        m.remove()
        if questions:
            m.loop()
        length = rng.choice(lengths)
        lo = rng.getrandbits(32) >> (32 - length) << (32 - length)
        while not m.insert(lo, length, p_up):
            pass
        if questions:
            m.loop()
    assert len(m.ends) == 513
    return bytes(m.out)


STREAMS = {
    'updates+loop': ('inserts and removes, a loop question after each; 16 nodes, about 130 rules; loop-free',
                     lambda r: churn(r, 16, 64, 130, 'loop', 0, 230)),
    'updates+loop/l': ('the same, with loops that come and go',
                       lambda r: churn(r, 16, 64, 130, 'loop', .01, 230)),
    'updates': ('inserts and removes only', lambda r: churn(r, 16, 64, 130, None, 0, 230)),
    'questions': ('200 rules, then fate, reach, tally, loop; loop-free', lambda r: ask(r, 0)),
    'questions/l': ('the same in a hall with loops', lambda r: ask(r, .05)),
    'small40': ('6 nodes, 20 links, about 40 rules; update, loop, another question',
                lambda r: churn(r, 6, 20, 40, 'mixed', 0, 40)),
    'full256+loop': ('256 rules, 512 atoms; remove, loop, insert, loop; loop-free',
                     lambda r: full_hall(r, True, 0)),
    'full256+loop/l': ('the same, with loops that come and go', lambda r: full_hall(r, True, .002)),
    'full256': ('256 rules, 512 atoms; remove, insert; no question', lambda r: full_hall(r, False, 0)),
}

# ---------------------------------------------------------------- running


def build(tree=root):
    """Proves and builds the hallcheck of a tree where its sources changed."""
    if not shutil.which('rt'):
        raise SystemExit('bench: there is no rt on the PATH')
    made = subprocess.run(['rt', 'run'], cwd=os.path.join(tree, CRATE), stdin=subprocess.DEVNULL, stdout=subprocess.PIPE, stderr=subprocess.STDOUT, text=True)
    if made.returncode:
        raise SystemExit(made.stdout + 'rt run failed in %s; --as-built measures the program as it stands' % CRATE)


def ours(tree=root):
    """The command of the hallcheck of a tree."""
    program = os.path.join(tree, CRATE, 'out', 'hallcheck')
    if not os.access(program, os.X_OK):
        raise SystemExit('bench: %s is not built' % program)
    return [program]


def asked(usage):
    """The words of the command line. Without --as-built among them hallcheck is built first; what no script knows gets the usage."""
    words = [a for a in sys.argv[1:] if a != '--as-built']
    if any(a.startswith('-') for a in words):
        print('usage: ' + usage)
        sys.exit(0 if words[0] in ('-h', '--help') else 2)
    if len(words) == len(sys.argv) - 1:
        build()
    return words


def programs(which):
    """The commands of hallcheck and of the peers."""
    progs = {'hallcheck': ours()}
    for k in which:
        progs[k] = [os.path.join(BUILT, PEERS[k][0])] + PEERS[k][1:]
    return progs


def run(cmd, stream, out):
    """Processor seconds of one run, standard input and output as files."""
    with open(stream, 'rb') as i, open(out, 'wb') as o:
        acts = [(os.POSIX_SPAWN_DUP2, i.fileno(), 0), (os.POSIX_SPAWN_DUP2, o.fileno(), 1)]
        pid = os.posix_spawn(cmd[0], cmd, os.environ, file_actions=acts)
        _, status, used = os.wait4(pid, 0)
    if status:
        raise SystemExit('bench.py: %s ended with status %d on %s' % (' '.join(cmd), status, stream))
    return used.ru_utime + used.ru_stime


def read(path):
    with open(path, 'rb') as f:
        return f.read()


def write(path, data):
    with open(path, 'wb') as f:
        f.write(data)


def scratch():
    """A directory for streams and outputs, in memory where there is one."""
    return tempfile.TemporaryDirectory(dir='/dev/shm' if os.access('/dev/shm', os.W_OK) else None)


# ---------------------------------------------------------------- counting instructions


def piped(cmd, stream):
    with open(stream, 'rb') as i:
        return subprocess.run(cmd, stdin=i, stdout=subprocess.DEVNULL, stderr=subprocess.PIPE, text=True).stderr


def by_perf(cmd, stream, tmp):
    said = piped(['perf', 'stat', '-x,', '-e', 'instructions:u'] + cmd, stream)
    found = re.search(r'^(\d+),', said, re.M)
    return int(found.group(1)) if found else None


def by_valgrind(cmd, stream, tmp):
    said = piped(['valgrind', '--tool=callgrind', '--callgrind-out-file=' + os.path.join(tmp, 'callgrind')] + cmd, stream)
    found = re.search(r'Collected : (\d+)', said)
    return int(found.group(1)) if found else None


def counter(cmd, tmp, exact=False):
    """A way to count instructions that works here, and its name; perf is left out where exact counts are wanted."""
    ways = [('valgrind', by_valgrind, shutil.which('valgrind'))]
    if not exact:
        ways.insert(0, ('perf', by_perf, shutil.which('perf')))
    empty = os.path.join(tmp, 'empty')
    write(empty, b'')
    for name, way, there in ways:
        if there and way(cmd, empty, tmp):
            return way, name
    return None, 'nothing: neither perf with counters nor valgrind is there'


# ---------------------------------------------------------------- measuring


class Class:
    """The figures of one class of streams: for each program, one of each seed."""

    def __init__(self, name, progs):
        self.name, self.same = name, True
        self.ms = {k: [] for k in progs}
        self.insns = {k: [] for k in progs}

    def middle(self, kind, k):
        return statistics.median(getattr(self, kind)[k])

    def ratio(self, kind, k):
        pairs = zip(getattr(self, kind)[k], getattr(self, kind)['hallcheck'])
        return statistics.median([x / y for x, y in pairs])


def measure(found, progs, data, reps, count, start, tmp):
    """Adds the figures of one stream. `start` keeps the instructions on empty input."""
    stream, empty, out = (os.path.join(tmp, f) for f in ('stream', 'empty', 'out'))
    write(stream, data)
    write(empty, b'')
    names = list(progs)
    idle, full, seen = {k: [] for k in names}, {k: [] for k in names}, set()
    for rep in range(reps):
        for k in names[rep % len(names):] + names[:rep % len(names)]:
            idle[k].append(run(progs[k], empty, out))
            full[k].append(run(progs[k], stream, out))
            seen.add(read(out))
    found.same = found.same and len(seen) == 1
    for k in names:
        found.ms[k].append(max(1e-3, 1e3 * (statistics.median(full[k]) - statistics.median(idle[k]))))
        if count:
            if k not in start:
                start[k] = count(progs[k], empty, tmp)
            found.insns[k].append(count(progs[k], stream, tmp) - start[k])


def measure_class(name, progs, seeds, reps, count, start, tmp, save):
    found = Class(name, progs)
    for seed in seeds:
        data = STREAMS[name][1](random.Random('%d/%s' % (seed, name)))
        if save:
            os.makedirs(save, exist_ok=True)
            write(os.path.join(save, '%s-%d.bin' % (name.replace('/', '-'), seed)), data)
        measure(found, progs, data, reps, count, start, tmp)
    return found


# ---------------------------------------------------------------- the table and the goals


def show(found, progs, counted):
    print('\n%s: %s; outputs %s' % (found.name, STREAMS[found.name][0], 'equal' if found.same else 'DIFFER'))
    print('  %-20s %9s %8s' % ('program', 'ms', 'ratio') + ('  %13s %8s' % ('instructions', 'ratio') if counted else ''))
    for k in progs:
        line = '  %-20s %9.2f %8.2f' % (k, found.middle('ms', k), found.ratio('ms', k))
        if counted:
            line += '  %13d %8.2f' % (found.middle('insns', k), found.ratio('insns', k))
        print(line, flush=True)


def goals(classes, progs, counted):
    """For each goal that was measured: the class, the peer, the ratio wanted, and whether each kind of figure has it."""
    kinds = ('insns', 'ms') if counted else ('ms',)
    for least, peers, names in GOALS:
        there = [k for k in peers if k in progs]
        for c in classes:
            if there and (not names or c.name in names):
                near = [min(there, key=lambda k: c.ratio(kind, k)) for kind in kinds]
                got = [c.ratio(kind, k) for kind, k in zip(kinds, near)]
                yield c.name, peers, least, near, got, [x >= least for x in got]


def show_goals(classes, progs, counted):
    print('\ngoals (ratio by %s)' % ('instructions, by time' if counted else 'time'))
    for name, peers, least, near, got, met in goals(classes, progs, counted):
        said = ', '.join('%.2f to %s %s' % (x, k, 'met' if y else 'MISSED') for x, k, y in zip(got, near, met))
        print('  %-15s at least %d: %s' % (name, least, said))


def machine():
    """The kind of processor."""
    try:
        found = re.search(r'^model name\s*: (.*)$', open('/proc/cpuinfo').read(), re.M)
    except OSError:
        found = None
    return found.group(1) if found else os.uname().machine


def markdown(classes, progs, counted, said):
    peers = [k for k in progs if k != 'hallcheck']
    yield said + '\n'
    yield '| Class | hallcheck | ' + ' | '.join('`%s`' % k for k in peers) + ' |'
    yield '|---' * (len(peers) + 2) + '|'
    for c in classes:
        mine = ('%.1f M, ' % (c.middle('insns', 'hallcheck') / 1e6) if counted else '') + '%.1f ms' % c.middle('ms', 'hallcheck')
        cells = [('%.2f / ' % c.ratio('insns', k) if counted else '') + '%.2f' % c.ratio('ms', k) for k in peers]
        yield '| %s | %s | ' % (c.name + ('' if c.same else ' (OUTPUTS DIFFER)'), mine) + ' | '.join(cells) + ' |'
    kind = 'by instructions / by time' if counted else 'by time'
    yield '\n| Goal | Class | Ratio, %s | Met |\n|---|---|---|---|' % kind
    for name, names, least, near, got, met in goals(classes, progs, counted):
        beside = ' / '.join('%.2f' % x + ('' if len(names) == 1 else ' `%s`' % k) for x, k in zip(got, near))
        goal = 'at least %d times %s' % (least, ', '.join('`%s`' % k for k in names)) if least > 1 else \
            'no slower than ' + ', '.join('`%s`' % k for k in names)
        yield '| %s | %s | %s | %s |' % (goal, name, beside, ' / '.join('yes' if y else 'no' for y in met))


def options():
    p = argparse.ArgumentParser(prog='bench/run', description=HOW)
    p.add_argument('--seeds', default='1,2,3', help='the seeds of the streams (1,2,3)')
    p.add_argument('--reps', type=int, default=5, help='runs of each program on each stream, in turn (5)')
    p.add_argument('--streams', default=','.join(STREAMS), help='which classes of streams (all)')
    p.add_argument('--peers', default=','.join(PEERS), help='which peers: %(default)s (all)')
    p.add_argument('--no-count', action='store_true', help='count no instructions')
    p.add_argument('--save', metavar='DIR', help='keep the streams there')
    p.add_argument('--markdown', metavar='FILE', help='write the table and the goals there too')
    p.add_argument('--as-built', action='store_true', help='measure crates/hallcheck/out/hallcheck as it stands, without rt run')
    p.add_argument('--list', action='store_true', help='tell the classes of streams, and nothing else')
    a = p.parse_args()
    for given, known in ((a.streams, STREAMS), (a.peers, PEERS)):
        for k in given.split(','):
            if k and k not in known:
                p.error('%s is none of: %s' % (k, ', '.join(known)))
    return a


def main():
    a = options()
    if a.list:
        for k, (text, _) in STREAMS.items():
            print('%-15s %s' % (k, text))
        return 0
    if not a.as_built:
        build()
    progs = programs([k for k in a.peers.split(',') if k])
    classes, start = [], {}
    with scratch() as tmp:
        count, name = (None, 'nothing') if a.no_count else counter(progs['hallcheck'], tmp)
        said = '%s, %s; seeds %s, %d runs each; instructions counted by %s' % (
            datetime.date.today(), machine(), a.seeds, a.reps, name)
        print(said)
        for k in a.streams.split(','):
            classes.append(measure_class(k, progs, [int(s) for s in a.seeds.split(',')], a.reps, count, start, tmp, a.save))
            show(classes[-1], progs, count)
    print('\nratio: the peer to hallcheck on the same stream; above 1, hallcheck is faster')
    show_goals(classes, progs, count)
    if a.markdown:
        with open(a.markdown, 'w') as f:
            f.write('\n'.join(markdown(classes, progs, count, said)) + '\n')
    return 0 if all(c.same for c in classes) else 1


if __name__ == '__main__':
    sys.exit(main())
