#!/usr/bin/env python3
"""A second reckoning of the records program, from the paper alone: a stream in, lines out.

A path here is its history, as in path_rules, whose rules say what each close of it hands out; records_events has the
framing, and the table's refusals and the lines are here. As a program it does what the records program does, only that
it prints nothing before the end of its input.

usage: records_model.py < stream
"""
import os
import sys
from typing import NamedTuple, Optional

sys.dont_write_bytecode = True  # the next lines would leave a folder here

from path_rules import Path
from payload_model import KIND_LIVES, is_ttsi
from records_events import ADD, CLOSE, PACKET, PATHS, framed

# ---- the table


def add(paths, kind, ttsi):
    """The number; on 0 there is a path more."""
    if kind not in KIND_LIVES or not is_ttsi(ttsi):
        return 12
    if any(path.ttsi == ttsi for path in paths):
        return 8
    if len(paths) == PATHS:
        return 7
    paths.append(Path(kind, ttsi=ttsi))
    return 0


def answer(paths, tag, content):
    """The number of an event."""
    if tag == ADD:
        return add(paths, content[0], content[1:21])
    if content[0] >= len(paths):
        return 1
    if tag == PACKET:
        return paths[content[0]].receive(content[1:])
    if tag == CLOSE:
        return paths[content[0]].close()
    return 0  # the server signal changes what goes out, and no record


# ---- the program


class Run(NamedTuple):
    """What a stream brought about."""

    lines: list
    answers: list  # of each event the tag and the number
    bad: Optional[tuple]
    paths: list


def run(stream):
    """What the program prints for a stream, and how it came to that."""
    events, bad = framed(stream)
    paths, answers, printed = [], [], []
    for index, (tag, content) in enumerate(events, 1):
        number = answer(paths, tag, content)
        answers.append((tag, number))
        if number != 0:
            printed.append(f"r {index} {number}")
        elif tag == CLOSE:
            printed.append((content[0], paths[content[0]].closed()))
    # What a close hands out hangs only on the slots up to it, so one look over each whole history serves all closes.
    histories = [path.history() for path in paths]
    lines = []
    for entry in printed:
        if isinstance(entry, str):
            lines.append(entry)
        else:
            lsp, slot = entry
            record = histories[lsp][slot - 1].record
            if record:
                lines.append(f"{lsp} {record[0]} {record[1]} {record[2]}")
    lines.append(f"bad {bad[0]}" if bad else f"end {len(events)}")
    return Run(lines, answers, bad, paths)


def text(lines):
    """Lines as they are printed."""
    return "".join(f"{line}\n" for line in lines)


def given():
    """Standard input; a read that fails ends it."""
    octets = bytearray()
    try:
        while part := os.read(0, 1 << 16):
            octets += part
    except OSError as failure:
        print(f"records_model.py: {failure.strerror}", file=sys.stderr)
    return bytes(octets)


if __name__ == "__main__":
    if len(sys.argv) > 1:
        sys.exit(__doc__)
    try:
        os.write(1, text(run(given()).lines).encode())
    except BrokenPipeError:
        sys.exit(1)  # nobody reads
