#!/usr/bin/env python3
"""Runs a records program on random streams and compares what it prints with the model.

Standard input is a pipe that is fed in pieces of odd sizes; a piece is written when the one before it has been read, so
that the program meets ends of pieces everywhere in its fields. Before that come the examples, the paper's own numbers,
and what a program should bear: an output that nobody reads, an input that cannot be read. A difference is printed, and
the exit status is then 1; it is 1 too if in 500 streams or more some kind of event never occurred.

OTHER, a second program for the same task, is run beside it on the same streams, from a file, and must print the same
lines. Its memory may be bounded: a last line `full` says that a stream is too much for it. The long streams may be, and
at most 3 in a hundred of all.

usage: records_run.py PROGRAM [--beside OTHER] [COUNT]     COUNT: of streams, 500 where it is not given
"""
import argparse
import collections
import os
import pathlib
import select
import signal
import subprocess
import sys
import tempfile
import time

sys.dont_write_bytecode = True  # the next lines would leave a folder here

from payload_model import P1, T, written
from records_census import WANTED, census
from records_events import PACKET, SERVER, adding, close, field, packet, server
from records_feed import PATIENCE, as_file, collected, ended, feed, from_file, outcome, started
from records_model import run, text
from records_streams import stream_of

EXAMPLES = pathlib.Path(__file__).resolve().parent.parent / "examples" / "records"
PIECES = [1, 2, 3, 5, 7, 47, 79, 1023, 4099, 1 << 16]
ENOUGH = 500  # streams, for every kind of event to occur
LONG = [  # seeds, events and sizes of pieces; longer than any buffer, two of them bad behind offset 65,535
    (9001, 20000, 1023),
    (9002, 20000, 4099),
    (9003, 20000, 997),
    (9004, 40000, 1 << 16),
    (9015, 20000, 4099),
]


class Report:
    """What failed."""

    def __init__(self):
        self.failures = 0

    def say(self, name, trouble):
        """Prints a failure."""
        if trouble:
            self.failures += 1
            print(f"records: {name}: {trouble}")


class Beside:
    """The other program, if there is one."""

    def __init__(self, program, report):
        self.program, self.report = program, report
        self.streams, self.full = 0, 0

    def run(self, name, stream, expected):
        """Holds its lines to those expected; where it is full, they are the first of them."""
        if self.program is None:
            return
        self.streams += 1
        found = from_file(self.program, stream)
        lines = found.printed.splitlines(keepends=True)
        if lines and lines[-1].startswith("full "):
            self.full += 1
            lines.pop()
            found = found._replace(printed="".join(lines))
            expected = "".join(expected.splitlines(keepends=True)[: len(lines)])
        self.report.say(f"beside: {name}", found.trouble(expected))

    def end(self):
        """How often it was full."""
        if self.program is None:
            return
        print(f"records: beside it {self.streams} streams, the other program was full in {self.full}")
        if self.full > len(LONG) + self.streams * 3 // 100:
            self.report.say("beside", "full too often")


def examples(program, beside, report):
    """Each example's stream, and the lines beside it."""
    streams = sorted(EXAMPLES.glob("*.stream"))
    for path in streams:
        stream, expected = path.read_bytes(), path.with_suffix(".out").read_text()
        report.say(path.name, from_file(program, stream).trouble(expected))
        beside.run(path.name, stream, expected)
    if not streams:
        report.say("examples", "none")
    print(f"records: {len(streams)} examples")


def random_streams(program, beside, count, report):
    """The streams of the seeds from 1 on, and the long ones."""
    counts = collections.Counter()
    streams = [(seed, None, PIECES[seed % len(PIECES)]) for seed in range(1, count + 1)]
    octets = 0
    for seed, events, size in streams + LONG:
        stream = stream_of(seed, events)
        found = run(stream)
        census(found, counts)
        octets += len(stream)
        expected = text(found.lines)
        report.say(f"stream {seed} in pieces of {size}", outcome(program, stream, size).trouble(expected))
        beside.run(f"stream {seed}", stream, expected)
    if count >= ENOUGH:
        for words in sorted(WANTED - set(+counts)):
            report.say("what occurred", f"never: {words}")
    print(f"records: {len(streams) + len(LONG)} streams, {octets} octets, compared with the model; in them")
    for words in sorted(+counts):
        print(f"  {counts[words]:7} {words}")


def of_the_paper():
    """The paper's program: 42 events."""
    due = packet(0, written(P1)) + close(0)
    return adding(0, T) + due * 3 + close(0) * 17 + due * 9


def boundaries():
    """Small streams with what the paper or its framing says of them."""
    paper = of_the_paper()
    assert run(paper).lines == ["0 U 4 20", "end 42"]
    yield "the paper's program", paper, "0 U 4 20\nend 42\n"
    yield "empty input", b"", "end 0\n"
    added = adding(0, T)
    yield "a packet field of length 1", added + packet(0, b""), "r 2 2\nend 2\n"
    yield "a packet field of length 1 for no LSP", packet(0, b""), "r 1 1\nend 1\n"
    yield "a packet field of length 1,024", added + packet(0, bytes(1023)), "r 2 2\nend 2\n"
    yield "a packet field of length 1,025", added + packet(0, bytes(1024)), "bad 28\n"
    yield "a packet field of length 0", added + field(PACKET, b"") + close(0), "bad 28\n"
    yield "one octet of a tag", paper + b"\x13", f"0 U 4 20\nbad {len(paper)}\n"
    yield "a server octet 2 for no LSP", field(SERVER, b"\7\2"), "bad 0\n"
    yield "a server octet 1 for no LSP", server(7, 1), "r 1 1\nend 1\n"
    yield "LSP 255", added + close(255), "r 2 1\nend 2\n"
    for length in 1, 2, 3, 4, 11, 12, 13, 300:
        yield silence(length)


def silence(length):
    """Regular packets, and none in so many slots from slot 21 on."""
    due = packet(0, written(P1)) + close(0)
    stream = adding(0, T) + due * 20 + close(0) * length + due * 20
    record = "" if length < 3 else f"0 {'B' if length < 12 else 'U'} 21 {20 + length}\n"
    return f"{length} silent slots", stream, f"{record}end {81 + length}\n"


def small_streams(program, beside, report):
    """Each in single octets and in one piece."""
    cases = list(boundaries())
    for name, stream, expected in cases:
        for size in 1, 1 << 16:
            report.say(f"{name}, in pieces of {size}", outcome(program, stream, size).trouble(expected))
        beside.run(name, stream, expected)
    print(f"records: {len(cases)} small streams, the paper's among them")


def unread_trouble(status):
    """What is wrong with such an end, or nothing: any status will do, and the signal that there is for it."""
    if status is None:
        return "hangs"
    return "" if status >= 0 or status == -signal.SIGPIPE else f"ended by signal {signal.Signals(-status).name}"


def unread(program, report):
    """Nobody reads the output: a pipe whose other end is closed, and no standard output at all."""
    refusals = close(0) * 200_000  # more lines than a pipe or a buffer holds
    process = started(program, stdin=subprocess.PIPE, stdout=subprocess.PIPE, stderr=subprocess.DEVNULL, bufsize=0)
    process.stdout.close()
    feed(process.stdin.fileno(), refusals, 1 << 15, time.monotonic() + PATIENCE)
    process.stdin.close()
    status = ended(process)
    report.say("closed output pipe", unread_trouble(status))
    with as_file(refusals) as given:
        shell = ["sh", "-c", 'exec "$0" >&-', program]
        without = ended(subprocess.Popen(shell, stdin=given, stderr=subprocess.DEVNULL))
    report.say("no standard output", unread_trouble(without))
    print(f"records: an output that nobody reads: ended with {status}, no standard output: with {without}")


def unreadable(program, report):
    """The input is a directory, or there is none: the end of the input, after a line on standard error."""
    for name, redirection in ("a directory", "<."), ("no standard input", "<&-"):
        with tempfile.TemporaryFile() as out, tempfile.TemporaryFile() as err:
            shell = ["sh", "-c", f'exec "$0" {redirection}', program]
            found = collected(subprocess.Popen(shell, stdout=out, stderr=err), out, err)
        report.say(name, found.trouble("end 0\n"))
        # A runtime may open something empty in place of a standard input that is not there.
        if redirection == "<." and found.complaint.count("\n") != 1:
            report.say(name, f"not one line on standard error: {found.complaint!r}")
        print(f"records: input from {name}: ended with {found.status}, standard error {found.complaint!r}")


def live(program):
    """Whether a record is printed before more input comes. It is told, and not held against a program."""
    process = started(program, stdin=subprocess.PIPE, stdout=subprocess.PIPE, stderr=subprocess.DEVNULL, bufsize=0)
    os.write(process.stdin.fileno(), of_the_paper())
    ready, _, _ = select.select([process.stdout], [], [], 0.5)
    process.stdin.close()
    ended(process)
    process.stdout.close()
    print(f"records: a record is printed {'while the input goes on' if ready else 'only when the input ends'}")


def arguments():
    """Those of the command."""
    parser = argparse.ArgumentParser(usage=__doc__.split("usage: ")[1].strip())
    parser.add_argument("program", type=os.path.abspath)
    parser.add_argument("--beside", type=os.path.abspath)
    parser.add_argument("count", nargs="?", type=int, default=ENOUGH)
    return parser.parse_intermixed_args()


def main():
    """Runs all parts."""
    given, report = arguments(), Report()
    beside = Beside(given.beside, report)
    examples(given.program, beside, report)
    small_streams(given.program, beside, report)
    unread(given.program, report)
    unreadable(given.program, report)
    live(given.program)
    random_streams(given.program, beside, given.count, report)
    beside.end()
    print(f"records: {report.failures} failed" if report.failures else "records: passed")
    sys.exit(1 if report.failures else 0)


if __name__ == "__main__":
    main()
