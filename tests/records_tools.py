#!/usr/bin/env python3
"""Tests tools/events, tools/timeline and the examples of the records program.

Random streams go through decode and encode and come back as the same octets, up to the bad field where there is one; a
drawing has a bar for every record, between from and until, and the model's count of packets in every slot. Of each
example the text gives the stream, and the model the lines, which must be those reckoned by hand in the text's comments,
after >. What the documents quote of the examples is what the files have. The recorded stream that the programs records
and second are both run on is what its text gives, and the model prints the same for it as they must. A difference is
printed, and the exit status is then 1.

usage: records_tools.py [--write]     --write: write the examples' streams, lines and time lines instead
"""
import pathlib
import re
import subprocess
import sys
from importlib.machinery import SourceFileLoader
from importlib.util import module_from_spec, spec_from_loader
from xml.etree import ElementTree

sys.dont_write_bytecode = True  # the next lines would leave a folder here

from records_events import framed
from records_model import run, text
from records_streams import Draw, stream_of

ROOT = pathlib.Path(__file__).resolve().parent.parent
EXAMPLES = ROOT / "examples" / "records"
SHOWN = "two"  # the example with a time line
SVG = "{http://www.w3.org/2000/svg}"


def tool(name):
    """A tool as a module."""
    loader = SourceFileLoader(name, str(ROOT / "tools" / name))
    module = module_from_spec(spec_from_loader(name, loader))
    loader.exec_module(module)
    return module


EVENTS, TIMELINE = tool("events"), tool("timeline")


def drawn_octets(seed):
    """A stream with octets changed here and there, most often bad."""
    draw, stream = Draw(seed), bytearray(stream_of(seed))
    for _ in range(draw.below(4)):
        stream[draw.below(len(stream))] = draw.below(256)
    return bytes(stream)


def round_trip(stream):
    """What is wrong, or nothing."""
    _, bad = framed(stream)
    words = EVENTS.decode(stream)
    good = stream[: bad[0]] if bad else stream
    if EVENTS.encode(words) != good:
        return "another stream comes back"
    kept = re.findall(r"^# raw (.*)$", words, re.MULTILINE)
    if bad and (f"# bad {bad[0]}\n" not in words or good + bytes.fromhex("".join(kept)) != stream):
        return "the bad field is not shown"
    if not bad and "#" in words:
        return "a comment where nothing is bad"
    return ""


def drawing(lines, stream):
    """Paths by number and the SVG of what was printed."""
    paths, refused, last = TIMELINE.read_lines(lines)
    TIMELINE.count_slots(TIMELINE.events_of(stream, last), paths, refused)
    return paths, TIMELINE.Drawing(paths, True, last)


def drawn_right(stream):
    """What is wrong with the drawing of a stream's lines, or nothing."""
    found = run(stream)
    paths, drawn = drawing(found.lines, stream)
    if sorted(paths) != list(range(len(found.paths))):
        return "not the paths that there are"
    for lsp, path in enumerate(found.paths):
        if (paths[lsp].closed, paths[lsp].own, paths[lsp].others) != (path.closed(), path.expected, path.others):
            return "slots or packets miscounted"
    root = ElementTree.fromstring(drawn.whole())
    records = sum(line.split()[1] in "UB" for line in found.lines)
    return bars_right(root, drawn, records) or counts_right(root, drawn) or text_right(paths)


def bars_right(root, drawn, records):
    """A bar for every record, between from and until."""
    titles = re.compile(r"LSP (\d+) ([UB]) from (\d+) until (\d+)(?:, (\d+) records)?")
    counted = 0
    for bar in root.iter(f"{SVG}rect"):
        title = bar.find(f"{SVG}title")
        if title is not None:
            _, letter, start, until, count = titles.fullmatch(title.text).groups()
            counted += int(count or 1)
            left, width = float(bar.get("x")), float(bar.get("width"))
            ends = drawn.x(int(start)), max(drawn.x(int(until)), drawn.x(int(start)) + 1)
            if bar.get("class") != letter or abs(left - ends[0]) > 0.06 or abs(left + width - ends[1]) > 0.11:
                return f"bar not from and until: {title.text}"
    return "" if counted == records else "records without a bar"


def counts_right(root, drawn):
    """The packets of every slot in its middle, on each path whose numbers have room."""
    wanted = []
    for _, path in sorted(drawn.paths.items()):
        words = [f"{own}+{other}" if other else str(own) for own, other in zip(path.own[:-1], path.others)]
        if drawn.counts(path):
            wanted += [(word, drawn.x(slot), drawn.x(slot + 1)) for slot, word in enumerate(words, 1)]
    found = [text for text in root.iter(f"{SVG}text") if "count" in text.get("class", "")]
    if [text.text for text in found] != [word for word, _, _ in wanted]:
        return "numbers that are not the packets"
    outside = (text for text, (_, left, right) in zip(found, wanted) if not left < float(text.get("x")) < right)
    return "a number outside its slot" if any(True for _ in outside) else ""


def text_right(paths):
    """A column a slot: U and B exactly in the slots from from on and before until; the marks under from and until."""
    for path in paths.values():
        slots = ["."] * path.closed
        for letter, start, until in path.records:
            slots[start - 1 : until - 1] = letter * (until - start)
        if TIMELINE.columns_of(path, 1) != "".join(slots):
            return "columns not from and until"
        starts, untils = [record.start for record in path.records], [record.until for record in path.records]
        for slots in starts, untils:
            marks = [mark for row in TIMELINE.marked(slots, 1) for mark in re.finditer(r"\^(\d+)", row)]
            if sorted(slots) != sorted(int(mark[1]) for mark in marks) or any(int(m[1]) != m.start() + 1 for m in marks):
                return "marks not under from and until"
    return ""


def made(name):
    """The files of an example, from its text."""
    words = (EXAMPLES / f"{name}.txt").read_text()
    stream = EVENTS.encode(words)
    printed = text(run(stream).lines)
    if text(re.findall("^# > (.*)$", words, re.MULTILINE)) != printed:
        sys.exit(f"records tools: examples/records/{name}.txt: the model has other lines than its comment")
    yield f"{name}.stream", stream
    yield f"{name}.out", printed.encode()
    if name == SHOWN:
        for extension, options in ("timeline", []), ("svg", ["--svg", "/dev/stdout"]):
            command = [ROOT / "tools" / "timeline", "--events", EXAMPLES / f"{name}.stream", *options]
            yield f"{name}.{extension}", subprocess.run(command, input=printed.encode(), stdout=-1, check=True).stdout


def quoted():
    """Each document with what a code block of it must hold."""
    for name in "two.timeline", "two.out":
        yield "docs/RECORDS.md", (EXAMPLES / name).read_text()
    yield "docs/RECORDS.md", EVENTS.decode((EXAMPLES / "program.stream").read_bytes())
    yield "README.md", (EXAMPLES / "program.out").read_text()


def misquoted():
    """What documents don't have as it is."""
    for document, block in quoted():
        if f"\n```\n{block}```\n" not in (ROOT / document).read_text():
            yield f"{document}: no code block is\n{block}"


def recorded():
    """What is wrong with the stream that both programs are run on."""
    stream = EVENTS.encode((ROOT / "tests" / "recorded.txt").read_text())
    wanted = {"stdin": stream, "stdout": text(run(stream).lines).encode()}
    for program in "records", "second":
        for file, octets in wanted.items():
            if (ROOT / "crates" / program / file).read_bytes() != octets:
                yield f"crates/{program}/{file}: not what tests/recorded.txt gives"


def main(arguments):
    """Writes the examples, or tests."""
    if arguments not in ([], ["--write"]):
        sys.exit(__doc__)
    names = sorted(path.stem for path in EXAMPLES.glob("*.txt"))
    troubles = []
    for name in names:
        for file, octets in made(name):
            if arguments:
                (EXAMPLES / file).write_bytes(octets)
            elif (EXAMPLES / file).read_bytes() != octets:
                troubles.append(f"examples/records/{file}: not what its text gives")
    if arguments:
        print(f"records tools: {len(names)} examples written")
        return
    troubles += [*misquoted(), *recorded()]
    bad = 0
    for seed in range(1, 1001):
        stream = drawn_octets(seed) if seed % 2 else stream_of(seed)
        bad += framed(stream)[1] is not None
        troubles += [f"stream {seed}: {found}" for found in (round_trip(stream), drawn_right(stream)) if found]
    print("".join(f"records tools: {trouble}\n" for trouble in troubles), end="")
    if troubles:
        sys.exit(1)
    print(f"records tools: {len(names)} examples, 1000 streams there and back and drawn, {bad} of them bad")


if __name__ == "__main__":
    main(sys.argv[1:])
