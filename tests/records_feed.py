"""Runs a program on a stream of octets: through a pipe that is fed in pieces, or from a file."""
import array
import collections
import fcntl
import os
import select
import signal
import subprocess
import tempfile
import termios
import time

PATIENCE = 30  # seconds, for a program that should have ended long before


def waiting(pipe):
    """How many octets nobody has read yet."""
    count = array.array("i", [0])
    fcntl.ioctl(pipe, termios.FIONREAD, count)
    return count[0]


def read_up(pipe, deadline):
    """Waits until all is read; whether somebody still reads."""
    watch = select.poll()
    watch.register(pipe, 0)  # tells only that the other end is closed
    turns = 0
    while waiting(pipe):
        if watch.poll(0) or time.monotonic() > deadline:
            return False
        turns += 1
        time.sleep(0 if turns < 200 else 0.001)
    return True


def feed(pipe, stream, size, deadline):
    """Writes a stream in pieces. A program that found a bad field may be gone."""
    for at in range(0, len(stream), size):
        try:
            view = memoryview(stream)[at : at + size]
            while view:
                view = view[os.write(pipe, view) :]
        except BrokenPipeError:
            return
        if not read_up(pipe, deadline):
            return


class Outcome(collections.namedtuple("Outcome", "status printed complaint")):
    """How a program ended, or None for its status if it didn't."""

    def trouble(self, expected):
        """What is wrong, or nothing."""
        if self.status is None:
            return f"still running after {PATIENCE} seconds"
        if self.status < 0:
            return f"ended by signal {signal.Signals(-self.status).name}"
        if self.printed != expected:
            return difference(self.printed, expected)
        return ""


def difference(printed, expected):
    """The first line that differs."""
    found, wanted = printed.split("\n"), expected.split("\n")
    at = next((n for n, pair in enumerate(zip(found, wanted)) if pair[0] != pair[1]), min(len(found), len(wanted)))
    lines = (lines[at][:80] if at < len(lines) else "(nothing)" for lines in (found, wanted))
    return "line {} is {!r} and should be {!r}".format(at + 1, *lines)


def started(program, **files):
    """The program, its pipes and files as given."""
    return subprocess.Popen([program], restore_signals=True, **files)


def ended(process):
    """Its status; None if it had to be ended."""
    try:
        return process.wait(PATIENCE)
    except subprocess.TimeoutExpired:
        process.kill()
        process.wait()
        return None


def outcome(program, stream, size):
    """Runs the program on a stream."""
    with tempfile.TemporaryFile() as out, tempfile.TemporaryFile() as err:
        process = started(program, stdin=subprocess.PIPE, stdout=out, stderr=err, bufsize=0)
        feed(process.stdin.fileno(), stream, size, time.monotonic() + PATIENCE)
        process.stdin.close()
        return collected(process, out, err)


def from_file(program, stream):
    """Runs the program on a stream in a file."""
    with as_file(stream) as given, tempfile.TemporaryFile() as out, tempfile.TemporaryFile() as err:
        return collected(started(program, stdin=given, stdout=out, stderr=err), out, err)


def as_file(stream):
    """A file that holds it."""
    file = tempfile.TemporaryFile()
    file.write(stream)
    file.seek(0)
    return file


def collected(process, out, err):
    """What it leaves when it ends."""
    status = ended(process)
    texts = []
    for file in out, err:
        file.seek(0)
        texts.append(file.read().decode("ascii", "replace"))
    return Outcome(status, *texts)
