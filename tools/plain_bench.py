#!/usr/bin/env python3
"""Plain, slow and independent of the proved code: the reader of traces, the bench, the judge by the definition of
"readable", the output of `bench` and the verdict on a log. It is what the stored outputs of crates/cases were made with.

  tools/plain_bench.py NAME.run     what bench prints
  tools/plain_bench.py NAME.log     the number of the verdict
"""
import sys

MOST_BYTES, MOST_STEPS, LARGEST = 60000, 2048, 4294967295


# ---------------------------------------------------------------- reader
class Fault(Exception):
    def __init__(self, number, line):
        self.number, self.line = number, line


def number(bs):
    """the number these bytes are, or None"""
    if bs == b"0":
        return 0
    if not 1 <= len(bs) <= 10 or any(c < 48 or c > 57 for c in bs) or bs[0] == 48:
        return None
    n = int(bs.decode("ascii"))
    return n if n <= LARGEST else None


FIELDS = {  # letter -> how many numbers, in a run and in a log
    b"r": (2, 3), b"w": (3, 3), b"a": (2, 2), b"l": (2, 2), b"b": (2, 2), b"e": (2, 2), b"d": (0, 0),
}


def step(kind, bs):
    """(letter, numbers...) or None"""
    if len(bs) < 2 or bs[1:2] != b"=" or bs[0:1] not in FIELDS:
        return None
    want = FIELDS[bs[0:1]][0 if kind == "run" else 1]
    rest = bs[2:]
    if want == 0:
        return ("d",) if rest == b"" else None
    parts = rest.split(b".")
    if len(parts) != want:
        return None
    ns = [number(p) for p in parts]
    return None if None in ns else (chr(bs[0]), *ns)


HEADER = [("boards", 1, 8), ("cells", 1, 64), ("entries", 1, 8), ("start", 0, LARGEST)]


def read_trace(kind, text):
    """(header dict, [(line, step)]) or Fault"""
    if len(text) > MOST_BYTES:
        raise Fault(6, 0)
    pieces = text.split(b"\n")
    unended = pieces.pop()  # what is after the last byte 10
    header, steps, at = {}, [], 0
    line = 0
    for bs in pieces:
        line += 1
        if bs[:1] == b"#":
            continue
        if at == 0:
            if bs != b"trace=" + kind.encode():
                raise Fault(4, line)
            at = 1
        elif at <= 4:
            name, low, high = HEADER[at - 1]
            key = name.encode() + b"="
            n = number(bs[len(key):]) if bs.startswith(key) else None
            if n is None:
                raise Fault(4, line)
            if not low <= n <= high:
                raise Fault(3, line)
            header[name] = n
            at += 1
        else:
            s = step(kind, bs)
            if s is None:
                raise Fault(4, line)
            if len(steps) == MOST_STEPS:
                raise Fault(6, line)
            steps.append((line, s))
    if unended != b"":
        raise Fault(4, line + 1)
    if at < 5:
        raise Fault(4, line + 1)
    return header, steps


# ---------------------------------------------------------------- memory: a list, and beside it a buffer over pairs
class Memory:
    def __init__(self, cells, start):
        self.words = [start] * cells
        self.start, self.pairs, self.held = start, {}, [None] * 8

    def write(self, c, w):
        self.words[c] = w
        place = self.held[c % 8]
        if place is not None and place[0] != c:
            self.pairs[place[0]] = place[1]
        self.held[c % 8] = (c, w)

    def read(self, c):
        place = self.held[c % 8]
        w = place[1] if place is not None and place[0] == c else self.pairs.get(c, self.start)
        assert w == self.words[c]
        return w


# ---------------------------------------------------------------- bench
class Bench:
    def __init__(self, boards, cells, entries, start):
        self.boards, self.cells, self.entries = boards, cells, entries
        self.caches = [dict() for _ in range(boards)]  # cell -> [word, dirty]
        self.owner = [None] * cells
        self.memory = Memory(cells, start)
        self.way = []  # (board, cell, word), the earliest started first

    def lane(self, b, c):
        return [x for x in self.way if x[0] == b and x[1] == c]

    def line(self, b):
        return [x for x in self.way if x[0] == b]

    def perform(self, s):
        """('ok',) ('no', n) ('word', w) ('landed', b, c, w) ('nothing',)"""
        if s[0] == "d":
            if not self.way:
                return ("nothing",)
            b, c, w = self.way.pop(0)
            self.memory.write(c, w)
            return ("landed", b, c, w)
        b, c = s[1], s[2]
        if b >= self.boards:
            return ("no", 1)
        if c >= self.cells:
            return ("no", 2)
        return getattr(self, "do_" + s[0])(b, c, *s[3:])

    def do_r(self, b, c):
        cache = self.caches[b]
        if c in cache:
            return ("word", cache[c][0])
        if len(cache) >= self.entries:
            return ("no", 14)
        lane = self.lane(b, c)
        w = lane[-1][2] if lane else self.memory.read(c)
        cache[c] = [w, False]
        return ("word", w)

    def do_w(self, b, c, w):
        cache = self.caches[b]
        if c not in cache and len(cache) >= self.entries:
            return ("no", 14)
        cache[c] = [w, True]
        return ("ok",)

    def do_a(self, b, c):
        if self.owner[c] == b:
            return ("no", 12)
        if self.owner[c] is not None:
            return ("no", 11)
        self.owner[c] = b
        entry = self.caches[b].get(c)
        if entry is not None and not entry[1]:
            del self.caches[b][c]
        return ("ok",)

    def do_l(self, b, c):
        if self.owner[c] != b:
            return ("no", 13)
        entry = self.caches[b].get(c)
        if (entry is not None and entry[1]) or self.lane(b, c):
            return ("no", 17)
        self.owner[c] = None
        return ("ok",)

    def do_b(self, b, c):
        entry = self.caches[b].get(c)
        if entry is None:
            return ("no", 15)
        if not entry[1]:
            return ("no", 16)
        if len(self.line(b)) >= 8:
            return ("no", 18)
        self.way.append((b, c, entry[0]))
        entry[1] = False
        return ("ok",)

    def do_e(self, b, c):
        entry = self.caches[b].get(c)
        if entry is None:
            return ("no", 15)
        if entry[1]:
            if len(self.line(b)) >= 8:
                return ("no", 18)
            self.way.append((b, c, entry[0]))
        del self.caches[b][c]
        return ("ok",)


# ---------------------------------------------------------------- judge, by the definition
class Cell:
    """The points of one cell: 0 the initial write, 1 the initial release, then the events. before[i] is the set of
    points before point i, as bits: the transitive closure of 'directly after'."""

    def __init__(self, start):
        self.points = [(None, "w", start), (None, "l", None)]
        self.before = [0, 1]
        self.last = {}  # board -> its latest point
        self.release = 1

    def add(self, board, what, word):
        links = []
        if board in self.last:
            links.append(self.last[board])
        if what == "a":
            links.append(self.release)
        bits = 0
        for j in links:
            bits |= self.before[j] | (1 << j)
        i = len(self.points)
        self.points.append((board, what, word))
        self.before.append(bits)
        self.last[board] = i
        if what == "l":
            self.release = i

    def readable(self, board):
        """the points that are readable writes for the board"""
        writes = [i for i, p in enumerate(self.points) if p[1] == "w"]
        knows = 0
        if board in self.last:
            at = self.last[board]
            knows = self.before[at] | (1 << at)
        known = [i for i in writes if knows >> i & 1]
        return [i for i in writes if not any(k != i and self.before[k] >> i & 1 for k in known)]

    def legal(self, board, word):
        return any(self.points[i][2] == word for i in self.readable(board))


class Judge:
    def __init__(self, boards, cells, start):
        self.boards, self.cells = boards, [Cell(start) for _ in range(cells)]
        self.owner = [None] * cells
        self.noted = 0

    def place(self, b, c):
        if b >= self.boards:
            return 1
        if c >= len(self.cells):
            return 2
        return 0

    def note(self, b, c, what, word=None):
        """the refusal's number, or 0"""
        bad = self.place(b, c)
        if bad:
            return bad
        if what == "a":
            if self.owner[c] == b:
                return 12
            if self.owner[c] is not None:
                return 11
        if what == "l" and self.owner[c] != b:
            return 13
        if self.noted >= 2048:
            return 19
        self.noted += 1
        if what == "a":
            self.owner[c] = b
        if what == "l":
            self.owner[c] = None
        self.cells[c].add(b, what, word)
        return 0

    def check(self, b, c, word):
        """(the refusal's number or 0, legal)"""
        bad = self.place(b, c)
        return (bad, False) if bad else (0, self.cells[c].legal(b, word))


# ---------------------------------------------------------------- output and verdict
def output(text):
    try:
        h, steps = read_trace("run", text)
    except Fault as f:
        return f"fault={f.number}.{f.line}\n"
    bench = Bench(h["boards"], h["cells"], h["entries"], h["start"])
    judge = Judge(h["boards"], h["cells"], h["start"])
    lines, wrong = [], None
    for n, (_, s) in enumerate(steps, 1):
        a = bench.perform(s)
        if a[0] == "ok":
            lines.append(f"ok={n}")
            if s[0] in "wal":
                assert judge.note(s[1], s[2], s[0], s[3] if s[0] == "w" else None) == 0
        elif a[0] == "no":
            lines.append(f"no={n}.{a[1]}")
        elif a[0] == "word":
            lines.append(f"r={n}.{a[1]}")
            if wrong is None and judge.check(s[1], s[2], a[1]) != (0, True):
                wrong = n
        elif a[0] == "landed":
            lines.append(f"d={n}.{a[1]}.{a[2]}.{a[3]}")
        else:
            lines.append(f"d={n}")
    lines.append("legal=all" if wrong is None else f"legal={wrong}")
    return "".join(x + "\n" for x in lines)


def verdict(text):
    try:
        h, steps = read_trace("log", text)
    except Fault as f:
        return 1000000 * f.number + f.line
    judge = Judge(h["boards"], h["cells"], h["start"])
    for line, s in steps:
        if s[0] in "wal":
            bad = judge.note(s[1], s[2], s[0], s[3] if s[0] == "w" else None)
            if bad:
                return 1000000 * bad + line
        elif s[0] == "r":
            bad, legal = judge.check(s[1], s[2], s[3])
            if bad:
                return 1000000 * bad + line
            if not legal:
                return line
    return 0


def expected(name, text):
    return output(text) if name.endswith(".run") else f"{verdict(text)}\n"


if __name__ == "__main__":
    for name in sys.argv[1:]:
        with open(name, "rb") as f:
            sys.stdout.write(expected(name, f.read()))
