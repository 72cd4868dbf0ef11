"""The paper's rules over a path's whole history, from the paper alone.

A path here is its history: how many packets came in every slot, and every FDI with the slot it came in. What is asked of it is
reckoned from that by the rules; payloads are read and written by payload_model. path_model runs the cases over it.
"""
import copy
import functools
import itertools
from typing import NamedTuple, Optional

from payload_model import BDI, CV, FDI, KIND_LIVES, LENGTH, ROWS, T, Fields, read, write

LIMIT = 1_000_000_000_000
CODES = {"Mismatch": 0x0202, "Mismerge": 0x0203, "LOCV": 0x0201, "Excess": 0x0204}
NAMES = {function_type: name for function_type, (name, _) in ROWS.items()}
EXIT = "exit"

reading = functools.lru_cache(4096)(read)  # most packets of a history are the same few

# ---- the rules, over the counts of the slots


class Sums:
    """Sums over the last slots; slots are numbered from 1, and those before hold nothing."""

    def __init__(self, counts):
        self.upto = [0, *itertools.accumulate(counts)]

    def last(self, k, n):
        """Over n-k+1 to n."""
        return self.upto[n] - self.upto[max(0, n - k)]


def verdict(n, e3, u3):
    """What the close of n meets: an entry by its kind, the exit, or neither."""
    if n < 3:
        return None
    if u3 > 0:
        return "Mismerge" if e3 > 0 else "Mismatch"
    if e3 == 0:
        return "LOCV"
    if e3 >= 5:
        return "Excess"
    return EXIT if e3 >= 2 else None


def latest(marks):
    """At each index the last mark up to it that isn't None."""
    return itertools.accumulate(marks, lambda before, mark: before if mark is None else mark)


class Close(NamedTuple):
    """What stands after a close, and what it hands out."""

    kind: Optional[str]
    since: Optional[int]
    record: Optional[tuple]


def closes(expected, others, cv=True):
    """Every close of a history, by the rules. Lists are indexed by the slot; index 0 is before the first."""
    e, u = Sums(expected), Sums(others)
    numbers = range(1, len(expected) + 1)
    met = [None] + [verdict(n, e.last(3, n), u.last(3, n)) for n in numbers]
    kinds = [None if mark == EXIT else mark for mark in latest(met)]
    # the last close up to n with no defect; eleven closes stood where it is that far back
    without = list(itertools.accumulate((n if kind is None else 0 for n, kind in enumerate(kinds)), max))
    eleven = [n if n - without[n] >= 11 else 0 for n in range(len(kinds))]
    clears = [0] + [
        n if kinds[n] is None and 9 <= e.last(10, n) <= 11 and u.last(10, n) == 0 else 0 for n in numbers
    ]
    # some m with no clearing after it: the latest m will do, if any does
    last_m = list(itertools.accumulate(eleven, max))
    last_j = list(itertools.accumulate(clears, max))
    out = [cv and m > j for m, j in zip(last_m, last_j)]
    declared = list(
        itertools.accumulate(
            (n if now and not before else 0 for n, (before, now) in enumerate(zip([False, *out], out))), max
        )
    )
    closes_out = list(itertools.accumulate(map(int, out)))
    yield from map(Close, kinds[1:], *made(cv, kinds, without, out, declared, closes_out))


def made(cv, kinds, without, out, declared, closes_out):
    """Of each close, unavailable since which slot, and the record."""
    sinces, records = [], []
    for n in range(1, len(kinds)):
        sinces.append(declared[n] - 12 if out[n] else None)
        record = None
        if out[n - 1] and not out[n]:
            record = ("U", declared[n] - 12, n - 9)
        elif cv and kinds[n - 1] is not None and kinds[n] is None:
            entered = without[n - 1] + 1
            if closes_out[n] == closes_out[entered - 1]:
                record = ("B", entered - 2, n - 2)
        records.append(record)
    return sinces, records


# ---- a path


def payload(fields):
    """The octets of fields that obey their rules."""
    buffer = bytearray(LENGTH)
    assert write(fields, buffer) == 0
    return bytes(buffer)


DL = 0x0000FDE8
TUNNEL_8 = T[:-1] + b"\x08"
OWN = payload(Fields(CV, T))
OTHER = payload(Fields(CV, TUNNEL_8))


def fdi(dl):
    """An FDI with DT 0102."""
    return payload(Fields(FDI, TUNNEL_8, dt=0x0102, dl=dl))


class Out(NamedTuple):
    """What goes out."""

    dt: int = 0
    dl: int = 0
    alarm: int = 0
    suppression: int = 0


class Path:
    """A history: counts of each slot, the open one last; FDIs with the slot they came in; the server signal.

    Slots may have closed before the history begins, all without a packet.
    """

    def __init__(self, kind=0, earlier=0, ttsi=T):
        self.kind, self.earlier, self.ttsi = kind, earlier, ttsi
        self.expected, self.others = [0], [0]
        self.fdis = []
        self.on = 0

    def __eq__(self, other):
        return vars(self) == vars(other)

    def closed(self):
        """How many slots are."""
        return self.earlier + len(self.expected) - 1

    def receive(self, octets):
        """The number."""
        number, fields = reading(octets)
        if number != 0:
            return number
        if fields.type == FDI:
            self.fdis.append((self.closed() + 1, fields.dt, fields.dl))
        if fields.type in (FDI, BDI):
            return 0
        if fields.ttsi != self.ttsi:
            self.others[-1] += 1
            return 0
        if fields.rate != self.kind:  # a CV has rate 0
            return 6
        self.expected[-1] += 1
        return 0

    def server(self, value):
        """The number."""
        if value not in (0, 1):
            return 12
        self.on = value
        return 0

    def close(self):
        """The number."""
        if self.closed() >= LIMIT:
            return 9
        self.expected.append(0)
        self.others.append(0)
        return 0

    def history(self):
        """Every close so far."""
        return list(closes(self.expected[:-1], self.others[:-1], cv=self.kind == 0))

    def last(self):
        """What the last close found."""
        return (self.history() or [Close(None, None, None)])[-1]

    def fdi(self):
        """The FDI that stands: the latest, if the slot that ends its life is not closed."""
        if self.fdis:
            came, dt, dl = self.fdis[-1]
            if self.closed() < came + KIND_LIVES[self.kind]:
                return dt, dl
        return None

    def out(self):
        """What goes out as the path stands."""
        kind = self.last().kind
        if kind is None:
            return Out()
        if kind == "LOCV":
            if self.on:
                return Out(0x0101, DL)
            if self.fdi():
                return Out(*self.fdi())
            return Out(CODES[kind], DL, alarm=1)
        return Out(CODES[kind], DL, 1, int(kind in ("Mismatch", "Mismerge")))

    def write(self, function_type, buffer):
        """The number; on 0 the buffer's first 44 octets are the payload."""
        if self.last().kind is None:
            return 13
        out = self.out()
        return write(Fields(function_type, bytes(20), dt=out.dt, dl=out.dl), buffer)


def path_of(*slots, kind=0, earlier=0):
    """A path that closed a slot for each list of payloads."""
    path = Path(kind, earlier)
    for payloads in slots:
        for octets in payloads:
            assert path.receive(octets) == 0
        assert path.close() == 0
    return path


def after(path, *steps):
    """A copy of the path, with payloads received and numbers given as the server's value."""
    path = copy.deepcopy(path)
    for step in steps:
        assert (path.server(step) if isinstance(step, int) else path.receive(step)) == 0
    return path
