"""The table's image by the paper's page: a path as its history, the image made of it, and the test that restoring runs.

A path here is its history, as in path_rules, whose rules say what stands after it.
"""
import itertools
import sys
from typing import NamedTuple

sys.dont_write_bytecode = True  # the next lines would leave a folder here

import path_rules
from path_rules import CODES, LIMIT
from payload_model import DEFECTS, KIND_LIVES, is_ttsi

# ---- a path's history


class Path(path_rules.Path):
    """A history, with the local DL."""

    def __init__(self, kind, ttsi, dl):
        super().__init__(kind, ttsi=ttsi)
        self.dl = dl

    def hear(self, octets, times=1):
        """A payload that is not refused, so many times."""
        for _ in range(times):
            assert self.receive(octets) == 0

    def kept(self):
        """What the image has of it."""
        found = self.history()
        stood = len(list(itertools.takewhile(lambda close: close.kind, reversed(found))))
        since = found[-1].since if found else None
        left, dt, dl = 0, 0, 0
        if self.fdi():
            # the close of slot came + life is the first without it
            came, dt, dl = self.fdis[-1]
            left = came + KIND_LIVES[self.kind] - self.closed()
        return Kept(
            self.kind,
            self.ttsi,
            self.dl,
            self.closed(),
            row(self.expected, 12),
            row(self.others, 1),
            CODES[found[-1].kind] if stood else 0,
            min(stood, 11),
            int(since is not None),
            since or 0,
            self.on,
            left,
            dt,
            dl,
        )


def row(counts, most):
    """Of the last ten slots and the open one, oldest first; slots that never were hold nothing."""
    return bytes(min(count, most) for count in ([0] * 11 + counts)[-11:])


# ---- the image


class Kept(NamedTuple):
    """A path's field: what stands in it, in its order."""

    kind: int
    ttsi: bytes
    dl: int
    closed: int
    e: bytes
    u: bytes
    code: int
    stood: int
    unavailable: int
    since: int
    server: int
    left: int
    dt: int
    fdi_dl: int


WIDTHS = dict(zip(Kept._fields, (1, 20, 4, 8, 11, 11, 2, 1, 1, 8, 1, 2, 2, 4)))
CONTENT = sum(WIDTHS.values())
assert CONTENT == 76


def field(tag, content):
    """Tag, length, content."""
    return bytes([tag]) + len(content).to_bytes(2, "big") + content


def content_of(kept):
    """The 76 octets of a path."""
    octets = b""
    for name, value in kept._asdict().items():
        octets += value if isinstance(value, bytes) else value.to_bytes(WIDTHS[name], "big")
    return octets


def image_of(table):
    """The octets of a table."""
    return field(1, bytes([1, len(table)])) + b"".join(field(2, content_of(kept)) for kept in table)


def kept_in(content):
    """What 76 octets say, by their rules or not."""
    values, at = [], 0
    for name, width in WIDTHS.items():
        part = content[at : at + width]
        values.append(part if name in ("ttsi", "e", "u") else int.from_bytes(part, "big"))
        at += width
    return Kept(*values)


def obeys(p):
    """The rules of restoring, over one path."""
    if p.kind not in KIND_LIVES or not is_ttsi(p.ttsi) or p.closed > LIMIT:
        return False
    if max(p.e) > 12 or max(p.u) > 1:
        return False
    never = max(0, 10 - p.closed)
    if any(p.e[:never]) or any(p.u[:never]):
        return False
    if p.code not in (0, 0x0201, 0x0202, 0x0203, 0x0204) or (p.code == 0) != (p.stood == 0):
        return False
    if p.stood > min(11, max(0, p.closed - 2)):
        return False
    if p.kind == 0 and p.unavailable == 0 and p.stood > 10:
        return False
    if p.unavailable not in (0, 1) or (p.kind != 0 and p.unavailable):
        return False
    if not (1 <= p.since <= p.closed - 12 if p.unavailable else p.since == 0):
        return False
    if p.server not in (0, 1) or p.left > KIND_LIVES[p.kind] + 1:
        return False
    return p.dt in DEFECTS if p.left else p.dt == p.fdi_dl == 0


def fields_of(octets):
    """Tags and contents, one after the other, to the last octet; None where they are not so."""
    found, at = [], 0
    while at < len(octets):
        if len(octets) - at < 3:
            return None
        end = at + 3 + int.from_bytes(octets[at + 1 : at + 3], "big")
        if end > len(octets):
            return None
        found.append((octets[at], octets[at + 3 : end]))
        at = end
    return found


def restore(octets):
    """The number and, on 0, the table."""
    fields = fields_of(octets)
    if not fields:
        return 10, None
    (tag, head), *rest = fields
    if tag != 1 or len(head) != 2 or head[0] != 1 or head[1] > 64 or head[1] != len(rest):
        return 10, None
    if any(tag != 2 or len(content) != CONTENT for tag, content in rest):
        return 10, None
    table = [kept_in(content) for _, content in rest]
    if len({p.ttsi for p in table}) < len(table) or not all(map(obeys, table)):
        return 10, None
    return 0, table


def begins(octets):
    """Whether the octets up to the last field that the header counts are an image."""
    return len(octets) >= 5 and restore(octets[: 5 + (3 + CONTENT) * octets[4]])[0] == 0


def save(table, buffer):
    """The number; on 0 the buffer's first octets are the image."""
    image = image_of(table)
    if len(buffer) < len(image):
        return 11
    buffer[: len(image)] = image
    return 0
