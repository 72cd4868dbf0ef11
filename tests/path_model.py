#!/usr/bin/env python3
"""A second reckoning of one path, from the paper alone.

path_rules has the paper's rules over a path's whole history, payload_model the payloads. Over these run the cases of the
program path_cases, and what comes out is compared with its expected output, crates/path_cases/stdout. A difference is
printed, and the exit status is then 1.

usage: path_model.py [--write]     --write: write the expected output instead
"""
import itertools
import sys

sys.dont_write_bytecode = True  # the next lines would leave a folder here

from expected import settle
from path_rules import CODES, DL, LIMIT, NAMES, OTHER, OWN, TUNNEL_8, Path, after, closes, fdi, path_of, payload
from payload_model import BDI, CV, FDI, FFD, KIND_LIVES, LENGTH, T, Fields, read, sealed, write

# ---- the cases


def state(close):
    """What stands after a close."""
    since = "available" if close.since is None else f"unavailable since {close.since}"
    return f"{close.kind or 'none'}, {since}"


def told(path):
    """Every record of a history, and what stands at the end."""
    records = (close.record for close in path.history())
    return " ".join([*(f"{a} {f} {t}, then" for a, f, t in filter(None, records)), state(path.last())])


def number_cases():
    """P5 to P12, the flood, the program's path."""
    short = {"P5 ": [0, 0], "P6 ": [0, 0, 0], "P7 ": [0, 0, 0, 1], "P8 ": [0, 0, 0, 1, 1], "P9 ": [1, 1, 2]}
    for name, counts in {**short, "P10 ": [1, 2, 2], "": [0, 0, 256]}.items():
        yield f"{name}E {' '.join(map(str, counts))}: {told(path_of(*([OWN] * k for k in counts)))}"
    for name, words, late in ("P11", "15 to 16", (15, 16)), ("P12", "16", (16,)):
        path = path_of(*([OWN] * (n in (1, 2, 3, *late)) for n in range(1, 17)))
        yield f"{name} E 1 in slots 1 to 3 and {words}, else 0, after slot 16: {told(path)}"
    path = path_of(*[[OWN]] * 3, *[[]] * 17, *[[OWN]] * 9)
    yield f"the program's path, E 1 in slots 1 to 3, 0 in 4 to 20, 1 in 21 to 29: {told(path)}"
    yield f"FFD path of rate 3, E 0 in slots 1 to 20: {told(path_of(*[[]] * 20, kind=3))}"


def early(own, other, fdis, server):
    """What came in slot 3, in words, and the path with that slot open; FDIs have DL 1, 2 and so on."""
    payloads = [OWN] * own + [OTHER] * other + [fdi(k + 1) for k in range(fdis)]
    words = f"slot 3 with CV, CV of another TTSI, FDI, server signal {own} {other} {fdis} {server}"
    return words, after(path_of([], []), *payloads, server)


def outgoing_cases():
    """What goes out at the close of slot 3."""
    cases_of = [(0, 0), (0, 1), (1, 1), (5, 0), (3, 0)]
    all_cases = [(*packets, *signals) for packets in cases_of for signals in ((0, 0), (1, 0), (1, 1))]
    all_cases[3:3] = [(0, 0, 0, 1), (0, 0, 2, 0)]
    for case in all_cases:
        words, path = early(*case)
        assert path.close() == 0
        kind, out = path.last().kind or "none", path.out()
        found = f"{out.dt:04x} {out.dl:08x} {out.alarm} {out.suppression}"
        yield f"{words}: {kind}, DT, DL, alarm, suppression: {found}"
    for value in range(3):
        path = Path()
        answer = path.server(value)
        yield f"server value, answer, signal on: {value} {answer} {path.on}"


def lived(path):
    """How many of the next 400 closes answer with the FDI. LOCV stands at all of them, so out() need not be asked."""
    path, count = after(path, fdi(1)), 0
    assert path.last().kind == "LOCV"
    for _ in range(400):
        assert path.close() == 0
        count += path.fdi() is not None
    assert path.last().kind == "LOCV"
    return count


def life_cases():
    """How long an FDI stands."""
    for kind in KIND_LIVES:
        closes_of_it = lived(path_of([], [], [], kind=kind))
        yield f"LOCV and an FDI, kind, closes that still answer with it: {kind} {closes_of_it}"
    again = lived(path_of([], [], [], [fdi(1)], []))
    yield f"kind 0, LOCV, an FDI, two closes and a second FDI, closes after it that still answer with it: {again}"


def received(kind, words, octets):
    """What a busy path answers: four slots closed, an FDI standing, the server signal on."""
    before = after(path_of([], [], [], [], kind=kind), fdi(1), 1)
    path = after(before)
    answer = path.receive(octets)
    found = f"{answer} {path.expected[-1]} {path.others[-1]} {int(path == before)}"
    return f"kind {kind} receives {words}, answer, E and U of the open slot, path unchanged: {found}"


def turned(at, x):
    """A CV with the bits of x turned at an offset."""
    return OWN[:at] + bytes([OWN[at] ^ x]) + OWN[at + 1 :]


def receiving_cases():
    """Payloads of every type, and refused ones."""
    rows = {0: [(CV, 0), (FFD, 1), (FFD, 3), (FDI, 0), (BDI, 0)]}
    rows[3] = [(CV, 0), (FFD, 3), (FFD, 4), (FDI, 0), (BDI, 0)]
    for ttsi, words in (T, ""), (TUNNEL_8, " of another TTSI"):
        for kind, function_type, rate in ((kind, *row) for kind in rows for row in rows[kind]):
            fields = Fields(function_type, ttsi, rate, 0x0102, 2)
            rates = f" rate {rate}" if rate else ""
            yield received(kind, f"{NAMES[function_type]}{rates}{words}", payload(fields))
    yield received(0, "CV, cut to 43 octets", OWN[:43])
    yield received(0, "CV, at offset 43 turned by 1", turned(43, 1))
    for at, x in (0, 4), (41, 1):
        words = f"CV, at offset {at} turned by {x}, BIP16 made right"
        yield received(0, words, sealed(turned(at, x)[:42]))


def read_back(octets):
    """The fields of an FDI or a BDI, and how many octets of its TTSI are zero."""
    number, fields = read(octets)
    assert number == 0
    return f"{NAMES[fields.type]} {fields.dt:04x} {fields.dl:08x} {fields.ttsi.count(0)}"


def writing_cases():
    """FDI and BDI, written after slot 3 into the first of 50 octets of aa."""
    cases_of = [((3, 0, 0, 0), 50), ((3, 0, 0, 0), 43), ((0, 0, 0, 0), 43), ((0, 0, 0, 0), 44), ((0, 0, 0, 0), 50)]
    cases_of += [((0, 0, 0, 1), 50), ((0, 0, 1, 0), 50), ((0, 1, 0, 0), 50), ((1, 1, 1, 0), 50), ((5, 0, 0, 0), 50)]
    for function_type in FDI, BDI:
        for case, size in cases_of:
            words, path = early(*case)
            assert path.close() == 0
            lent = bytearray(b"\xaa" * size)
            answer = path.write(function_type, lent)
            octets = bytes(lent) + b"\xaa" * (50 - size)
            found = f"{answer}, octets of aa left: {octets.count(0xAA)}"
            if answer == 0:
                back = f"{read_back(octets[:LENGTH])} {octets[LENGTH:].count(0xAA)}"
                found += f", read back, zeros of its TTSI, octets of aa after it: {back}"
            yield f"{words}, {NAMES[function_type]} into {size} octets, answer: {found}"


def limit_cases():
    """A path in LOCV at the last slots that there are."""
    for closed in LIMIT - 2, LIMIT - 1, LIMIT:
        before = path_of(*[[]] * 20, earlier=closed - 20)
        path = after(before)
        answer = path.close()
        # a refusal has all other fields zero or empty
        kind, dt = (path.last().kind, path.out().dt) if answer == 0 else ("none", 0)
        found = f"{answer} {kind} {dt:04x} {int(path == before)} {path.closed()}"
        words = "closed so far, a close's answer, kind, DT, path unchanged, closed afterwards"
        yield f"{words}: {closed} {found}"


# ---- the long random run


def drawn(seed):
    """Lehmer's numbers."""
    while True:
        seed = seed * 48271 % 2147483647
        yield seed


def one(test):
    """1 where the test holds."""
    return int(test)


STYLES = {  # of a phase: the packets of a slot, expected and other, by its number drawn and the slots left
    4: lambda x, left: (0, 0),
    5: lambda x, left: (0, 0),
    6: lambda x, left: (2, 0),
    7: lambda x, left: (1 if x % 8 else x // 8 % 301, 0),
    8: lambda x, left: (0, 1 + x % 3 if x % 16 else 256),
    9: lambda x, left: (x % 3, one(x % 7 == 0)),
    10: lambda x, left: (one(x % 8 != 0), 0),
    11: lambda x, left: (one(left % 3 == 0), 0),
    12: lambda x, left: (1, one(x % 5 == 0)),
    13: lambda x, left: (one(x % 3 != 0), 0),
    14: lambda x, left: ({0: 0, 1: 2}.get(x % 16, 1), 0),
    15: lambda x, left: (256 if left == 1 else 0, 0),
}


def slots(numbers):
    """The packets of one slot after another."""
    while True:
        style = STYLES.get(next(numbers) % 16, lambda x, left: (1, 0))
        for left in range(1 + next(numbers) % 40, 0, -1):
            yield style(next(numbers), left)


def long_cases(runs=100, length=10000, seed=1711):
    """Runs of many slots on CV paths, the packets going on from one to the next."""
    packets = slots(drawn(seed))
    found = []
    for _ in range(runs):
        expected, others = zip(*itertools.islice(packets, length))
        found.extend(closes(expected, others))
    records = [close.record for close in found if close.record]
    total = 0
    for letter, start, until in records:
        total = (total * 31 + start * 7 + until + ord(letter)) % 1000000007
    letters = [letter for letter, _, _ in records]
    kinds = [close.kind for close in found]
    yield f"long run, closes compared, closes that differ from the recount: {len(found)} 0"
    counts = " ".join(str(kinds.count(kind)) for kind in CODES)
    yield f"long run, closes with Mismatch, Mismerge, LOCV, Excess: {counts}"
    yield f"long run, closes when unavailable: {sum(close.since is not None for close in found)}"
    yield f"long run, U records, B records: {letters.count('U')} {letters.count('B')}"
    yield f"long run, checksum over the records: {total}"


def cases():
    """Every line of path_cases."""
    parts = number_cases, outgoing_cases, life_cases, receiving_cases, writing_cases, limit_cases, long_cases
    for part in parts:
        yield from part()


if __name__ == "__main__":
    settle("path model", __doc__, {"crates/path_cases/stdout": cases()}, sys.argv[1:])
