#!/usr/bin/env python3
"""A second reckoning of the table's image, from the paper alone.

image_rules has the image made and tested field by field, payload_model the payloads. Over these run the cases of the
program image_cases, and what comes out is compared with its expected output, crates/image_cases/stdout. A difference
is printed, and the exit status is then 1.

usage: image_model.py [--write]     --write: write the expected output instead
"""
import collections
import itertools
import sys

sys.dont_write_bytecode = True  # the next lines would leave a folder here

from expected import settle
from image_rules import CONTENT, WIDTHS, Path, begins, field, image_of, restore, save
from path_rules import LIMIT, closes, payload
from payload_model import BDI, CV, DEFECTS, FDI, FFD, KIND_LIVES, T, Fields

# ---- drawn tables

DTS = sorted(DEFECTS)


def following(x):
    """The next of Lehmer's numbers."""
    return x * 48271 % 2147483647


def ttsi_of(lsp, x):
    """A TTSI for each path, with an octet that is drawn."""
    return T[:3] + bytes([x % 256]) + T[4:19] + bytes([7 + lsp])


def slots_of(x):
    """How many slots are closed: below 3, below 10, up to 12, more."""
    y = x // 4
    return [y % 3, 3 + y % 7, 10 + y % 3, 13 + y % 40][x % 4]


def expected_of(style, y):
    """Packets of the path's own in a slot: silence, the due one, two, with others, only others, anything, floods."""
    return [0, 1, 2, 1, 0, y % 4, y % 40][style]


def others_of(style, y):
    """Packets of another TTSI."""
    return [0, 0, 0, 1, 1 + y % 3, int(y % 9 == 0), 0][style]


class Drawing:
    """A table on its way, and the number drawn last."""

    def __init__(self, seed):
        self.table, self.x, self.style = [], following(following(seed)), 0

    def draw(self):
        """The next number."""
        self.x = following(self.x)
        return self.x

    def slot(self, path):
        """The packets and signals of a slot."""
        x, y, z = self.draw(), self.draw(), self.draw()
        if x % 8 == 0:
            self.style = x // 8 % 7
        other = b"\1" + path.ttsi[1:]
        own = Fields(FFD if path.kind else CV, path.ttsi, path.kind)
        path.hear(payload(own), expected_of(self.style, y))
        foreign = Fields(FFD, other, 1 + y % 6) if y % 2 else Fields(CV, other)
        path.hear(payload(foreign), others_of(self.style, y))
        if z % 8 <= 1:
            path.hear(payload(Fields(BDI if z % 8 else FDI, other, dt=DTS[z // 8 % 7], dl=z)))
        if z % 8 == 2:
            path.on = z // 8 % 2

    def path(self):
        """One path more."""
        a, b, c = self.draw(), self.draw(), self.draw()
        path = Path(a % 10 if a % 10 <= 6 else 0, ttsi_of(len(self.table), a), b)
        self.style = b % 7
        for _ in range(slots_of(c)):
            self.slot(path)
            path.close()
        self.slot(path)
        self.table.append(path)


def drawn(n, seed):
    """A table of n paths, as the image has it."""
    drawing = Drawing(seed)
    for _ in range(n):
        drawing.path()
    return [path.kept() for path in drawing.table]


DRAWN = [(0, 1), *((n, 10 * n + k) for n in (1, 2, 3, 64) for k in range(1, 7))]


def checksum(octets):
    """Two running sums."""
    a, b = 1, 0
    for x in octets:
        a = (a + x) % 65521
        b = (b + a) % 65521
    return f"{a} {b}"


SIZE = 5100


def saved(table):
    """Into more octets of aa than are needed: the number, the image, and how many octets after it are still aa."""
    buffer = bytearray(b"\xaa" * SIZE)
    number, length = save(table, buffer), len(image_of(table))
    return number, bytes(buffer[:length]), buffer[length:].count(0xAA)


def drawn_cases():
    """Tables of 0, 1, 2, 3 and 64 paths."""
    for n, seed in DRAWN:
        table = drawn(n, seed)
        number, image, left = saved(table)
        back, restored = restore(image)
        again, same, left_again = saved(restored)
        short = bytearray(b"\xaa" * (len(image) - 1))
        refused = save(table, short)
        cuts = sum(restore(image[:k])[0] == 10 for k in range(len(image)))
        more = image + b"\xaa"
        yield (
            f"paths {n}, seed {seed}: length {len(image)}, save {number}, aa after it {left}, "
            f"checksum {checksum(image)}, restore {back}, save again {again}, aa after it {left_again}, "
            f"the same {int(same == image)}, into an octet less {refused}, aa left {short.count(0xAA)}, "
            f"shorter cuts refused {cuts}, an octet more {restore(more)[0]}, begins {int(begins(more))}"
        )


def times(words, values):
    """Each number that came, and how often."""
    counts = collections.Counter(values)
    return words + ":times" + "".join(f" {value}:{counts[value]}" for value in sorted(counts))


def census_cases():
    """What states the drawn tables have."""
    paths = [path for n, seed in DRAWN for path in drawn(n, seed)]
    yield times("drawn paths, kind", (p.kind for p in paths))
    yield times("drawn paths, closed", (p.closed for p in paths))
    yield times("drawn paths, E of the open slot", (p.e[10] for p in paths))
    yield times("drawn paths, U of the open slot", (p.u[10] for p in paths))
    yield times("drawn paths, code's second octet", (p.code % 256 for p in paths))
    yield times("drawn paths, closes stood", (p.stood for p in paths))
    yield times("drawn paths, unavailable", (p.unavailable for p in paths))
    yield times("drawn paths, server", (p.server for p in paths))
    yield times("drawn paths with an FDI standing, kind", (p.kind for p in paths if p.left))


# ---- three paths, damaged


def three():
    """A CV path unavailable in LOCV with an FDI, an FFD path in Mismerge with the server signal on, a young CV path."""
    first = Path(0, T, 0xFDE8)
    second = Path(3, T[:19] + b"\x08", 0xFFFFFFFF)
    third = Path(0, T[:19] + b"\x09", 0)
    other = payload(Fields(CV, T[:19] + b"\x63"))
    cv = payload(Fields(CV, first.ttsi))
    for _ in range(3):
        first.hear(cv)
        first.close()
    for _ in range(13):
        first.close()
    first.hear(payload(Fields(FDI, bytes(20), dt=0x0102, dl=0x01020304)))
    first.close()
    first.hear(cv, 15)
    for _ in range(14):
        second.hear(payload(Fields(FFD, second.ttsi, 3)))
        second.hear(other)
        second.close()
    second.on = 1
    for _ in range(2):
        third.hear(payload(Fields(CV, third.ttsi)))
        third.close()
    return [path.kept() for path in (first, second, third)]


def part_offsets():
    """Of each part of the image, the offsets it has."""
    yield "header", range(5)
    bases = [5 + (3 + CONTENT) * k for k in range(3)]
    words = dict(ttsi="TTSI", dl="DL", e="E", u="U", dt="DT", fdi_dl="FDI's DL")
    at = 0
    for name, width in {"tag and length": 3, **WIDTHS}.items():
        yield words.get(name, name), [base + at + k for base in bases for k in range(width)]
        at += width


def changed(image, at):
    """The octet at an offset, changed to each other value."""
    for value in set(range(256)) - {image[at]}:
        yield image[:at] + bytes([value]) + image[at + 1 :]


def swept_cases():
    """Each octet of the three paths' image changed to each other value."""
    image = image_of(three())
    yield f"three paths, length, checksum: {len(image)} {checksum(image)}"
    total = [0, 0, 0]
    for words, offsets in part_offsets():
        counts = [0, 0, 0]
        for octets in itertools.chain.from_iterable(changed(image, at) for at in offsets):
            number, table = restore(octets)
            counts[0 if number == 0 else 1] += 1
            counts[2] += number == 0 and image_of(table) == octets
        total = [a + b for a, b in zip(total, counts)]
        yield f"each octet of {words} changed, accepted, refused, saved again the same: {' '.join(map(str, counts))}"
    yield f"each octet changed, accepted, refused, saved again the same: {' '.join(map(str, total))}"


def named_cases():
    """Damages by hand, each with what restoring answers."""
    table = three()
    first, second, third = table

    def line(words, octets):
        return f"{words}: {restore(octets)[0]}"

    def with_path(words, number, **parts):
        after = list(table)
        after[number] = table[number]._replace(**parts)
        return line(words, image_of(after))

    image = image_of(table)
    yield line("three paths as they were saved", image)
    yield line("version 02", image[:3] + b"\2" + image[4:])
    yield line("an octet 00 more", image + b"\0")
    yield line("count octet 2", image[:4] + b"\2" + image[5:])
    yield line("count octet 65", image[:4] + b"\x41" + image[5:])
    full = drawn(64, 641)
    yield line("64 paths", image_of(full))
    yield line("65 paths, each with its field", image_of([*full, full[0]._replace(ttsi=full[0].ttsi[:19] + b"\xff")]))
    assert (first.closed, first.since, first.unavailable, first.left) == (17, 4, 1, 3)
    yield with_path("unavailable, since closed-12", 0, since=first.closed - 12)
    yield with_path("unavailable, since closed-11", 0, since=first.closed - 11)
    yield with_path("unavailable, since 0", 0, since=0)
    yield with_path("closed 1,000,000,000,000", 0, closed=LIMIT)
    yield with_path("closed 1,000,000,000,001", 0, closed=LIMIT + 1)
    yield with_path("available CV path, stood 10", 0, unavailable=0, since=0, stood=10)
    yield with_path("available CV path, stood 11", 0, unavailable=0, since=0, stood=11)
    yield with_path("code 0204", 0, code=0x0204)
    yield with_path("code 0205", 0, code=0x0205)
    yield with_path("code 0 with closes stood", 0, code=0)
    yield with_path("closes left life+1", 0, left=KIND_LIVES[0] + 1)
    yield with_path("closes left life+2", 0, left=KIND_LIVES[0] + 2)
    for dt in 0x02FF, 0x0000, 0xFFFF:
        yield with_path(f"FDI standing, DT {dt:04x}", 0, dt=dt)
    yield with_path("FDI gone, DT and DL zero", 0, left=0, dt=0, fdi_dl=0)
    yield with_path("FDI gone, with its DL", 0, left=0, dt=0)
    yield with_path("FDI gone, with its DT", 0, left=0, fdi_dl=0)
    assert (second.closed, second.stood, second.server) == (14, 11, 1)
    yield with_path("FFD path unavailable since 1", 1, unavailable=1, since=1)
    yield with_path("server 0", 1, server=0)
    yield with_path("server 2", 1, server=2)
    assert third.closed == 2
    yield with_path("two closed, E 1 in slot 1", 2, e=bytes(8) + b"\1" + bytes(2))
    yield with_path("two closed, E 1 in the slot before it", 2, e=bytes(7) + b"\1" + bytes(3))
    yield with_path("two closed, U 1 in the slot before it", 2, u=bytes(7) + b"\1" + bytes(3))
    yield with_path("two closed, LOCV stood 1", 2, code=0x0201, stood=1)
    yield with_path("five closed, LOCV stood 3", 2, closed=5, code=0x0201, stood=3)
    yield with_path("five closed, LOCV stood 4", 2, closed=5, code=0x0201, stood=4)
    yield with_path("TTSI of another path", 2, ttsi=first.ttsi)


def cases():
    """Every line of image_cases."""
    for part in drawn_cases, census_cases, swept_cases, named_cases:
        yield from part()


if __name__ == "__main__":
    settle("image model", __doc__, {"crates/image_cases/stdout": cases()}, sys.argv[1:])
