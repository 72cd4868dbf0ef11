#!/usr/bin/env python3
"""Random streams for the records program, the same ones every time.

A stream is drawn from its seed: paths are added, and on each go phases of slots, as in path_model: due packets,
silence, doubles, floods, packets of other paths. Among these stand FDIs, BDIs, server signals and events that must be
refused. Of every three streams one is damaged: in the midst a field is cut, or has another tag, a wrong length or a bad
server octet, and more events may follow it.

usage: records_streams.py SEED > stream
"""
import sys

sys.dont_write_bytecode = True  # the next lines would leave a folder here

from path_rules import payload
from payload_model import BDI, CV, DEFECTS, FDI, FFD, INTERVALS, LENGTH, T, Fields, sealed
from records_events import ADD, CLOSE, PACKET, PATHS, SERVER, adding, close, packet, server


class Draw:
    """Lehmer's numbers."""

    def __init__(self, seed):
        self.x = (seed * 7919 + 1711) % 2147483646 + 1
        self.below(1), self.below(1)

    def below(self, n):
        """A number from 0 to n-1."""
        self.x = self.x * 48271 % 2147483647
        return self.x // 8 % n  # the lowest bits are the worst

    def of(self, things):
        """One of them."""
        return things[self.below(len(things))]

    def octets(self, count):
        """So many."""
        return bytes(self.below(256) for _ in range(count))


# ---- paths

STYLES = [  # of a phase: the packets of a slot, expected and other, by a number drawn
    lambda x: (1, 0),
    lambda x: (0, 0),
    lambda x: (0, 0),
    lambda x: (2, 0),
    lambda x: (int(x % 3 == 0), 0),
    lambda x: (int(x % 8 != 0), 0),
    lambda x: ({0: 0, 1: 2}.get(x % 8, 1), 0),
    lambda x: (1, int(x % 3 == 0)),
    lambda x: (0, 1 + x % 2),
    lambda x: (x % 4, int(x % 5 == 0)),
]
LENGTHS = [1, 2, 3, 3, 4, 5, 8, 9, 10, 11, 11, 12, 13, 14, 20]  # of a phase, about the eleven and the ten


class Path:
    """What a path expects, and the phase that it is in."""

    def __init__(self, lsp, kind, ttsi, left=0):
        self.lsp, self.kind, self.ttsi = lsp, kind, ttsi
        self.style, self.left = STYLES[0], left

    def due(self):
        """Its own payload."""
        return payload(Fields(FFD if self.kind else CV, self.ttsi, self.kind))

    def slot(self, draw):
        """The packets of a slot."""
        if self.left == 0:
            # the due packets come back often, and then mostly for long enough to end an outage
            if self.style is not STYLES[0] and draw.below(2):
                self.style, self.left = STYLES[0], draw.of([2, 9, 10, 12])
            else:
                self.style, self.left = draw.of(STYLES), draw.of(LENGTHS)
        self.left -= 1
        due, others = self.style(draw.below(1 << 16))
        flood = draw.below(400)
        if flood == 0:
            due += 256  # a count that one octet would hold as 0
        if flood == 1:
            others += 256
        return [self.due()] * due + [other(draw, self.ttsi)] * others


def other(draw, ttsi):
    """A CV or FFD of another path."""
    stranger = bytes([ttsi[0] ^ (1 + draw.below(255))]) + ttsi[1:]
    if draw.below(2):
        stranger = ttsi[:19] + bytes([ttsi[19] ^ 0x80])
    return payload(Fields(CV, stranger) if draw.below(2) else Fields(FFD, stranger, 1 + draw.below(6)))


def ttsi_of(draw, lsp):
    """A TTSI of its own for each path; the last octet tells them apart."""
    return draw.octets(3) + T[3:19] + bytes([lsp])


# ---- refused events, each by the number it should get where the path is there


def refused_payload(draw, path):
    """A payload that is refused 2 to 6."""
    p, number = path.due(), 2 + draw.below(5)
    if number == 2:
        length = draw.of([0, 1, 43, 45, 88, 1023, draw.below(1024)])
        return (p * 24)[:length] if length != LENGTH else b""
    if number == 3:
        at = draw.below(LENGTH)
        return p[:at] + bytes([p[at] ^ 1 << draw.below(8)]) + p[at + 1 :]
    if number == 4:
        wrong = draw.of([0, 4, 5, 6, 8, 255])
        return sealed(bytes([wrong]) + (p[1:42] if draw.below(2) else draw.octets(41)))
    if number == 5:
        return broken(draw, path)
    own = (FFD, path.kind) if path.kind else (CV, 0)
    another = draw.of([pair for pair in [(CV, 0), *((FFD, rate) for rate in INTERVALS)] if pair != own])
    return payload(Fields(another[0], path.ttsi, another[1]))


def broken(draw, path):
    """A payload, BIP16 right, with an octet that breaks its rule."""
    function_type = draw.of([CV, FFD, FDI, BDI])
    good = payload(Fields(function_type, path.ttsi, path.kind or 3, draw.of(sorted(DEFECTS)), draw.below(1 << 31)))
    at = {CV: [1, 2, 3, 20, 21, 24, 33, 41], FFD: [1, 2, 3, 20, 21, 25, 33, 41]}.get(function_type, [1, 20, 21, 28, 41])
    spoilt = bytearray(good[:42])
    spoilt[draw.of(at)] = 1 + draw.below(255)
    if function_type == FFD and draw.below(3) == 0:
        spoilt = bytearray(good[:42])
        spoilt[24] = draw.of([0, 7, 8, 255])
    if function_type in (FDI, BDI) and draw.below(2):
        spoilt = bytearray(good[:42])
        spoilt[2:4] = draw.of([b"\0\0", b"\xff\xff", b"\1\0", b"\1\3", b"\2\0", b"\2\5", b"\2\xfe", b"\3\1", b"\0\1"])
    return sealed(bytes(spoilt))


def refused(draw, paths):
    """An event that is refused."""
    known = draw.of(paths) if paths else Path(0, 0, T)
    choice = draw.below(8)
    if choice == 0:
        nobody = draw.of([len(paths), min(255, len(paths) + 1 + draw.below(192)), 255])
        of_nobody = [packet(nobody, known.due()), packet(nobody, b""), packet(nobody, draw.octets(44))]
        return draw.of([*of_nobody, close(nobody), server(nobody, draw.below(2))])
    if choice == 1:  # kind, TTSI or both; a known TTSI among them, which comes later in the order
        wrong = known.ttsi[:16] + draw.of([b"\0\1", b"\1\0", b"\xff\xff"]) + known.ttsi[18:]
        return draw.of([adding(7 + draw.below(249), known.ttsi), adding(draw.below(7), wrong), adding(7, wrong)])
    if choice == 2 and paths:
        return adding(draw.below(7), known.ttsi, draw.octets(4))
    if choice == 3:
        return packet(known.lsp, draw.octets(draw.of([1, 44, 44, draw.below(1024)])))
    return packet(known.lsp, refused_payload(draw, known))


# ---- streams


def told(draw, lsp, ttsi):
    """An FDI, a BDI or a server signal: none of them changes a record."""
    if draw.below(3) == 0:
        return server(lsp, draw.below(2))
    function_type, carried = draw.of([FDI, BDI]), draw.of([bytes(20), ttsi])
    return packet(lsp, payload(Fields(function_type, carried, dt=draw.of(sorted(DEFECTS)), dl=draw.below(1 << 31))))


def events_of(draw, count):
    """At least so many events, valid as fields."""
    most = draw.of([1, 1, 1, 2, 2, 3, 5, PATHS])
    paths, events = [], []
    if draw.below(8) == 0:
        events.append(refused(draw, paths))  # before there is a path

    def more():
        kind = 1 + draw.below(6) if draw.below(5) == 0 else 0
        ttsi = ttsi_of(draw, len(paths))
        paths.append(Path(len(paths), kind, ttsi, draw.of([0, 0, 1, 3])))  # an outage may begin in slot 1
        events.append(adding(kind, ttsi, draw.octets(4)))

    more()
    busy = paths[:]
    while len(events) < count:
        while len(paths) < most and (most == PATHS or draw.below(20) == 0):
            more()
            # with many paths most of the slots go to a few, so that these see whole outages
            if len(paths) <= 3 or draw.below(12) == 0:
                busy.append(paths[-1])
        path = draw.of(busy) if draw.below(20) else draw.of(paths)
        for octets in path.slot(draw):
            events.append(packet(path.lsp, octets))
        if draw.below(10) == 0:
            events.append(told(draw, path.lsp, path.ttsi))
        if draw.below(10) == 0:
            events.append(refused(draw, paths))
        if len(paths) == PATHS and draw.below(40) == 0:
            events.append(adding(draw.of([0, 3, 7]), ttsi_of(draw, PATHS)))  # the 65th
        events.append(close(path.lsp))
    return events


def bad_field(draw, event):
    """A field that is bad, made of an event."""
    tag, content = event[0], event[3:]
    choice = draw.below(4)
    if choice == 0:
        return bytes([draw.of([0, 1, 2, 0x10, 0x15, 0x92, 255])]) + event[1:]
    if choice == 1:
        tag = draw.of([tag, ADD, PACKET, CLOSE, SERVER])
        wrong = {ADD: [0, 1, 24, 26, 281], PACKET: [0, 1025, 1026, 65535], CLOSE: [0, 2, 257], SERVER: [0, 1, 3, 258]}
        length = draw.of(wrong[tag])
        return bytes([tag]) + length.to_bytes(2, "big") + (content * (length + 1))[: draw.of([length, len(content)])]
    if choice == 2:
        return server(draw.of([0, 0, 200]), draw.of([2, 3, 128, 255]))
    return None


def stream_of(seed, count=None):
    """The stream of a seed."""
    draw = Draw(seed)
    events = events_of(draw, count or draw.of([1, 10, 60, 150, 250, 400, 600]))
    if seed % 3:
        return b"".join(events)
    at = draw.below(len(events))
    before, event, after = b"".join(events[:at]), events[at], b"".join(events[at + 1 :])
    bad = bad_field(draw, event)
    if bad is None:
        return before + event[: draw.of([1, 2, 3, 1 + draw.below(len(event) - 1)])]
    return before + bad + draw.of([after, b""])


if __name__ == "__main__":
    if len(sys.argv) != 2 or not sys.argv[1].isdigit():
        sys.exit(__doc__)
    sys.stdout.buffer.write(stream_of(int(sys.argv[1])))
