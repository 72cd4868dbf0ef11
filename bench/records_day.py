#!/usr/bin/env python3
"""Writes a day of 64 CV paths as the records program's input: 64 adds, then in every second and on every path a CV
packet and a close, about 11 million events. Now and then a path's packets stop, for 1 to 300 seconds.

usage: records_day.py [--lines] [SECONDS]     SECONDS: 86400 where it is not given

--lines writes what the program must print instead. A silence of L slots from slot s on, all else being regular, is
nothing for L below 3, B s s+L-1 below 12, else U s s+L-1: E3 is 0 first at s+2, 2 again at s+L+1, and E10 9 at s+L+8.
"""
import sys

PATHS = 64
DAY = 86400
LENGTHS = [1, 2, 3, 4, 6, 10, 11, 12, 13, 30, 300]
GAP = 12000  # seconds between a path's silences, at most
BEFORE = 20  # and at least, so that each is judged by itself


def ttsi(lsp):
    """Address 192.0.2.1, tunnel number by path."""
    return bytes(10) + bytes([0xFF, 0xFF, 192, 0, 2, 1, 0, 0, 0, lsp + 1])


def packet(lsp):
    """A CV packet's field."""
    before = bytes([1, 0, 0, 0]) + ttsi(lsp) + bytes(18)
    even, odd = 0, 0
    for i in range(0, 42, 2):
        even, odd = even ^ before[i], odd ^ before[i + 1]
    return b"\x12\x00\x2d" + bytes([lsp]) + before + bytes([even, odd])


def drawn(seed):
    """Lehmer's numbers."""
    while True:
        seed = seed * 48271 % 2147483647
        yield seed // 8


def silences(lsp, seconds):
    """First slot and length of each silence of a path."""
    numbers, slot = drawn((lsp + 1) * 19088743), 1  # seeds far apart, or the paths would be much alike
    next(numbers), next(numbers)
    while True:
        slot += BEFORE + next(numbers) % (GAP - BEFORE)
        length = LENGTHS[next(numbers) % len(LENGTHS)]
        if slot + length > seconds:
            return
        yield slot, length
        slot += length


def silent_paths(seconds):
    """Of each slot that has some, the paths without a packet."""
    silent = {}
    for lsp in range(PATHS):
        for slot, length in silences(lsp, seconds):
            for n in range(slot, slot + length):
                silent.setdefault(n, set()).add(lsp)
    return silent


def stream(seconds):
    """The octets, in large parts."""
    packets = [packet(lsp) for lsp in range(PATHS)]
    closes = [bytes([0x13, 0, 1, lsp]) for lsp in range(PATHS)]
    regular = b"".join(map(bytes.__add__, packets, closes))
    silent = silent_paths(seconds)
    yield b"".join(b"\x11\x00\x19\x00" + ttsi(lsp) + b"\x00\x00\xfd\xe8" for lsp in range(PATHS))
    for first in range(1, seconds + 1, 500):
        part = []
        for slot in range(first, min(first + 500, seconds + 1)):
            without = silent.get(slot)
            if without is None:
                part.append(regular)
            else:
                part.extend(c if lsp in without else p + c for lsp, (p, c) in enumerate(zip(packets, closes)))
        yield b"".join(part)


def lines(seconds):
    """What the program must print."""
    records, events = [], PATHS + 2 * PATHS * seconds
    for lsp in range(PATHS):
        for slot, length in silences(lsp, seconds):
            events -= length
            until = slot + length - 1
            letter, handed_out = ("U", until + 9) if length >= 12 else ("B", until + 2)
            if length >= 3 and handed_out <= seconds:
                records.append((handed_out, lsp, f"{lsp} {letter} {slot} {until}\n"))
    yield from (line.encode() for _, _, line in sorted(records))
    yield f"end {events}\n".encode()


def main(arguments):
    """Writes the stream or the lines."""
    write = lines if "--lines" in arguments else stream
    rest = [word for word in arguments if word != "--lines"]
    if len(rest) > 1 or not all(word.isdigit() for word in rest):
        sys.exit(__doc__)
    for part in write(int(rest[0]) if rest else DAY):
        sys.stdout.buffer.write(part)


if __name__ == "__main__":
    try:
        main(sys.argv[1:])
        sys.stdout.flush()
    except BrokenPipeError:
        sys.stderr.close()  # nobody reads
