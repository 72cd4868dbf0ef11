#!/usr/bin/env python3
"""A second reckoning of the payload, from the paper alone.

It has a reader and a writer of its own: the paper's table as data, walked from left to right, and BIP16 by 16-bit
words. Over these it runs the cases of the programs payload_show and payload_cases, and compares what comes out with
the expected output of each, crates/NAME/stdout. A difference is printed, and the exit status is then 1.

usage: payload_model.py [--write]     --write: write the expected outputs instead
"""
import collections
import sys
from typing import NamedTuple

sys.dont_write_bytecode = True  # the next line would leave a folder here

from expected import settle

LENGTH = 44
CV, FDI, BDI, FFD = 0x01, 0x02, 0x03, 0x07  # function types

# ---- the paper's table: of each type the name, and its columns before BIP16, a field or zeros, with their widths

DEFECT_ROW = [("zero", 1), ("dt", 2), ("ttsi", 20), ("dl", 4), ("zero", 14)]
ROWS = {
    CV: ("CV", [("zero", 1), ("zero", 2), ("ttsi", 20), ("zero", 18)]),
    FFD: ("FFD", [("zero", 1), ("zero", 2), ("ttsi", 20), ("rate", 1), ("zero", 17)]),
    FDI: ("FDI", DEFECT_ROW),
    BDI: ("BDI", DEFECT_ROW),
}

INTERVALS = {1: 10, 2: 20, 3: 50, 4: 100, 5: 200, 6: 500}
LIVES = {1: 300, 2: 150, 3: 60, 4: 30, 5: 15, 6: 6}
SLOTS = {0: 1000, **INTERVALS}
KIND_LIVES = {0: 3, **LIVES}
DEFECTS = {0x0101, 0x0102, 0x0201, 0x0202, 0x0203, 0x0204, 0x02FF}


def is_ttsi(octets):
    """16 octets of address and 4 of tunnel number, whose first two are zero."""
    return len(octets) == 20 and octets[16:18] == bytes(2)


RULES = {
    "ttsi": is_ttsi,
    "rate": lambda octets: int.from_bytes(octets, "big") in INTERVALS,
    "dt": lambda octets: int.from_bytes(octets, "big") in DEFECTS,
    "dl": lambda octets: True,
    "zero": lambda octets: not any(octets),
}


class Fields(NamedTuple):
    """A type and its fields; what its row does not name doesn't count."""

    type: int = 0
    ttsi: bytes = b""
    rate: int = 0
    dt: int = 0
    dl: int = 0

    def octets(self, name, width):
        """What stands in a column."""
        if name == "zero":
            return bytes(width)
        return self.ttsi if name == "ttsi" else getattr(self, name).to_bytes(width, "big")


# ---- reading and writing


def bip16(before):
    """The exclusive-or of the 22 two-octet words, its own taken as zero."""
    words = before + bytes(2)
    total = 0
    for i in range(0, LENGTH, 2):
        total ^= words[i] << 8 | words[i + 1]
    return total.to_bytes(2, "big")


def sealed(before):
    """Octets with the BIP16 that is right."""
    return before + bip16(before)


def read(p):
    """The answer's number and, on 0, the fields; else none."""
    if len(p) != LENGTH:
        return 2, Fields()
    if bip16(p[:42]) != p[42:]:
        return 3, Fields()
    if p[0] not in ROWS:
        return 4, Fields()
    found, at = {"type": p[0]}, 1
    for name, width in ROWS[p[0]][1]:
        octets = p[at : at + width]
        if not RULES[name](octets):
            return 5, Fields()
        if name != "zero":
            found[name] = octets if name == "ttsi" else int.from_bytes(octets, "big")
        at += width
    return 0, Fields(**found)


def write(fields, buffer):
    """The answer's number; on 0 the buffer's first 44 octets are the payload."""
    if fields.type not in ROWS:
        return 12
    columns = ROWS[fields.type][1]
    if not all(RULES[name](fields.octets(name, width)) for name, width in columns):
        return 12
    if len(buffer) < LENGTH:
        return 11
    before = bytes([fields.type]) + b"".join(fields.octets(*column) for column in columns)
    buffer[:LENGTH] = sealed(before)
    return 0


# ---- the payloads P1 to P4

T = bytes(10) + bytes([0xFF, 0xFF, 0xC0, 0x00, 0x02, 0x01]) + bytes([0, 0, 0, 7])
P1 = Fields(CV, T)
P2 = Fields(FFD, T, rate=3)
P3 = Fields(FDI, bytes(20), dt=0x0201, dl=0x0000FDE8)
P4 = Fields(BDI, bytes(20), dt=0x0201, dl=0x0000FDE8)
SAMPLES = {"P1 CV": P1, "P2 FFD": P2, "P3 FDI": P3, "P4 BDI": P4}
BIPS = ["3cf9", "39f9", "fde9", "fce9"]
OTHERS = {  # all ones in what the row does not name
    "P1 CV": P1._replace(rate=0xFF, dt=0xFFFF, dl=0xFFFFFFFF),
    "P2 FFD": P2._replace(dt=0xFFFF, dl=0xFFFFFFFF),
    "P3 FDI": P3._replace(rate=0xFF),
    "P4 BDI": P4._replace(rate=0xFF),
}


def written(fields):
    """The payload of fields that obey their rules."""
    buffer = bytearray(LENGTH)
    assert write(fields, buffer) == 0
    return bytes(buffer)


# ---- payload_show


def said(fields):
    """What the reader answers, in words."""
    name = ROWS[fields.type][0]
    if name == "FFD":
        return f"FFD rate {fields.rate}: {INTERVALS[fields.rate]} ms"
    return name if name == "CV" else f"{name} dt {fields.dt:04x} dl {fields.dl:08x}"


def show():
    """The table: a header, and a line a payload."""
    line = "{:4} {:2} {:2} {:4} {:40} {:36} {:5} {}"
    yield line.format("type", "0", "1", "2-3", "4-23", "24-41", "42-43", "read")
    for fields in SAMPLES.values():
        p = written(fields)
        _, back = read(p)
        parts = p[0:1], p[1:2], p[2:4], back.ttsi, p[24:42], p[42:44]
        yield line.format(ROWS[back.type][0], *(part.hex() for part in parts), said(back))


# ---- payload_cases


def times(numbers):
    """Each number that came, and how often."""
    counts = collections.Counter(numbers)
    return "times " + " ".join(f"{number}:{counts[number]}" for number in sorted(counts))


def tally(answers):
    """Each number that was answered, and how often."""
    return "answer:" + times(answers)


def same(a, b):
    """How many octets are the same at the same offset."""
    return sum(x == y for x, y in zip(a, b))


def into_aa(fields, size):
    """The answer of a write into so many octets of aa, and the octets afterwards."""
    buffer = bytearray(b"\xaa" * size)
    return write(fields, buffer), bytes(buffer)


def kept(buffers):
    """How many buffers are all aa."""
    return sum(buffer == b"\xaa" * len(buffer) for buffer in buffers)


def outcome(p, fields):
    """A write into 50 octets of aa: the answer, the octets that are p's, and those after the first 44 still aa."""
    number, buffer = into_aa(fields, 50)
    counts = f"{number} {same(p, buffer)} {buffer[LENGTH:].count(0xAA)}"
    return f"answer, octets the same, octets after them untouched: {counts}"


def written_cases():
    """P1 to P4, written, read, and written again."""
    for name, fields in SAMPLES.items():
        p = written(fields)
        number, back = read(p)
        yield f"{name}, BIP16: {p[42:].hex()}"
        yield (
            f"{name}, read back, number, type, rate, DT, DL: "
            f"{number} {back.type:02x} {back.rate:02x} {back.dt:04x} {back.dl:08x}"
        )
        yield f"{name}, octets of the TTSI handed back as they were given: {same(fields.ttsi, back.ttsi)}"
        yield f"{name}, what was read written again into 50 octets of aa, {outcome(p, back)}"
        yield f"{name}, written with all ones in the fields of other rows, {outcome(p, OTHERS[name])}"


def bit_damage(p):
    """Each bit changed by itself."""
    for at in range(LENGTH):
        for bit in range(8):
            yield p[:at] + bytes([p[at] ^ 1 << bit]) + p[at + 1 :]


def octet_damage(p):
    """Each octet before BIP16 changed to each other value, with the BIP16 that then is right."""
    for at in range(42):
        for value in set(range(256)) - {p[at]}:
            before = p[:at] + bytes([value]) + p[at + 1 : 42]
            yield before + bip16(before)


def comes_back(p, answer):
    """Whether a payload is accepted and what was read of it is written again octet for octet, and no further."""
    number, fields = answer
    return number == 0 and into_aa(fields, 50) == (0, p + b"\xaa" * 6)


def damaged_cases():
    """Other lengths, a bit changed, an octet changed."""
    longer = written(P1) + bytes(20)
    lengths = [read(longer[:n])[0] for n in range(65)]
    yield f"P1 CV, cut or followed by zeros to each length from 0 to 64, {tally(lengths)}"
    yield f"P1 CV, so at 0, 43 and 45 octets, answers: {lengths[0]} {lengths[43]} {lengths[45]}"
    for name, fields in SAMPLES.items():
        bits = [read(q) for q in bit_damage(written(fields))]
        yield f"{name}, each bit changed by itself, {tally(number for number, _ in bits)}"
        yield f"{name}, so damaged, octets of TTSI handed back:{times(len(f.ttsi) for _, f in bits)}"
        octets = [(q, read(q)) for q in octet_damage(written(fields))]
        answers = tally(answer[0] for _, answer in octets)
        yield f"{name}, each octet of 0 to 41 changed to each other value and BIP16 made right, {answers}"
        ttsis = times(len(answer[1].ttsi) for _, answer in octets)
        yield f"{name}, so changed, octets of TTSI handed back:{ttsis}"
        back = sum(comes_back(q, answer) for q, answer in octets)
        yield f"{name}, so changed, accepted and written again octet for octet: {back}"


def swept(words, fields):
    """Writes into 50 octets of aa each, of the fields of the numbers from 0 on."""
    outcomes = [into_aa(f, 50) for f in fields]
    total = sum(n for n, (number, _) in enumerate(outcomes) if number == 0)
    yield f"{words}, {tally(number for number, _ in outcomes)}"
    left = kept(buffer for _, buffer in outcomes)
    yield f"{words}, buffers left as they were, sum of those accepted: {left} {total}"


def swept_cases():
    """Every function type, rate and defect type."""
    yield from swept(
        "each function type from 0 to 255 with T, rate 3, DT 0201",
        (Fields(ty, T, rate=3, dt=0x0201) for ty in range(256)),
    )
    yield from swept("FFD with T and each rate from 0 to 255", (P2._replace(rate=rate) for rate in range(256)))
    for name, fields in ("FDI", P3), ("BDI", P4):
        yield from swept(
            f"{name} with T and each DT from 0000 to ffff",
            (fields._replace(ttsi=T, dt=dt) for dt in range(0x10000)),
        )


def sums(times, lives):
    """How many of 0 to 255 have a time, and the sums of times and lives, 0 where there is none."""
    some = sum(n in times for n in range(256))
    return f"{some} {sum(times.get(n, 0) for n in range(256))} {sum(lives.get(n, 0) for n in range(256))}"


def table_cases():
    """Rates, kinds and defect types."""
    for k in range(8):
        rate = f"{INTERVALS.get(k, 0)} {LIVES.get(k, 0)}"
        kind = f"{SLOTS.get(k, 0)} {KIND_LIVES.get(k, 0)}"
        yield f"code {k} as a rate, interval and life, as a kind, slot and life: {rate} {kind}"
    yield f"codes 0 to 255, rates among them, sum of intervals, sum of lives: {sums(INTERVALS, LIVES)}"
    yield f"codes 0 to 255, kinds among them, sum of slots, sum of lives: {sums(SLOTS, KIND_LIVES)}"
    yield f"numbers 0000 to ffff, defect types among them: {sum(dt in DEFECTS for dt in range(0x10000))}"


def lent_cases():
    """Buffers of every length, and which refusal comes first."""
    for name, fields in SAMPLES.items():
        outcomes = [into_aa(fields, size) for size in range(65)]
        yield f"{name}, written into 0 to 64 octets of aa, {tally(number for number, _ in outcomes)}"
        yield f"{name}, so written, buffers left as they were: {kept(buffer for _, buffer in outcomes)}"
    short = {"CV": P1, "type 0": Fields(0, T), "FFD rate 0": Fields(FFD, T), "FDI DT 0000": Fields(FDI, T)}
    for name, fields in short.items():
        number, buffer = into_aa(fields, 43)
        yield f"{name} with T into 43 octets of aa, answer, octets untouched: {number} {buffer.count(0xAA)}"


def tunnels(fields):
    """With each value but 0 in octet 16 or 17 of the TTSI."""
    for at in 16, 17:
        for value in range(1, 256):
            yield fields._replace(ttsi=fields.ttsi[:at] + bytes([value]) + fields.ttsi[at + 1 :])


def ttsi_cases():
    """TTSIs of every length, and tunnel numbers that don't begin with two zeros."""
    for name, fields in SAMPLES.items():
        answers = [into_aa(fields._replace(ttsi=bytes(n)), LENGTH)[0] for n in range(65)]
        yield f"{name}, written with a TTSI of 0 to 64 zeros, {tally(answers)}"
        answers = [into_aa(f, LENGTH)[0] for f in tunnels(fields)]
        yield f"{name}, written with each value but 0 in octet 16 or 17 of the TTSI, {tally(answers)}"
    edges = {f"{n} zeros": bytes(n) for n in (19, 20, 21)}
    edges["20 zeros but octet 16"] = bytes(16) + b"\1" + bytes(3)
    edges["20 zeros but octet 17"] = bytes(17) + b"\1" + bytes(2)
    for name, octets in edges.items():
        number, _ = into_aa(Fields(CV, octets), LENGTH)
        yield f"{name}, whether they are a TTSI, answer as CV: {int(is_ttsi(octets))} {number}"


def cases():
    """Every line of payload_cases."""
    for part in written_cases, damaged_cases, swept_cases, table_cases, lent_cases, ttsi_cases:
        yield from part()


# ---- the expected outputs


def outputs():
    """The expected outputs of both programs; the paper's own BIP16s first."""
    bips = [written(fields)[42:].hex() for fields in SAMPLES.values()]
    if bips != BIPS:
        sys.exit(f"payload model: BIP16 {bips}, and the paper has {BIPS}")
    return {"crates/payload_show/stdout": show(), "crates/payload_cases/stdout": cases()}


if __name__ == "__main__":
    settle("payload model", __doc__, outputs(), sys.argv[1:])
