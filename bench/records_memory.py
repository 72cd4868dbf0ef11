#!/usr/bin/env python3
"""Says how much memory a records program had at most when it was fed so many octets: a stream, again and again.

usage: records_memory.py OCTETS STREAM PROGRAM
"""
import re
import subprocess
import sys

PIECE = 1 << 16


def pieces(stream, count):
    """So many octets of the stream, from its start again where it ends."""
    while count > 0:
        with open(stream, "rb") as file:
            while count > 0 and (piece := file.read(min(PIECE, count))):
                count -= len(piece)
                yield piece


def main(count, stream, program):
    """Feeds the program, and prints the most that it had in memory."""
    with subprocess.Popen([program], stdin=subprocess.PIPE, stdout=subprocess.DEVNULL) as process:
        for piece in pieces(stream, int(count)):
            process.stdin.write(piece)
        process.stdin.flush()
        with open(f"/proc/{process.pid}/status", encoding="ascii") as status:
            most = re.search(r"^VmHWM:\s*(\d+ kB)$", status.read(), re.MULTILINE).group(1)
    print(f"memory:  {most} at most for {count} octets of input")


if __name__ == "__main__":
    if len(sys.argv) != 4:
        sys.exit(__doc__)
    main(*sys.argv[1:])
