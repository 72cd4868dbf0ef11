#!/usr/bin/env python3
"""Holds docs/CALLS.md to the must-fail edits: its tables name those of each crate that has calls, all of them and no other.

usage: edits.py
"""
import pathlib
import re
import sys

ROOT = pathlib.Path(__file__).resolve().parent.parent


def named():
    """Of each crate with a section the edits that its tables name, in their last column."""
    sections = re.split(r"^## Crate `(\w+)`$", (ROOT / "docs" / "CALLS.md").read_text(), flags=re.MULTILINE)[1:]
    for crate, text in zip(sections[::2], sections[1::2]):
        cells = re.findall(r"^\|[^|\n]*\|([^|\n]*)\|$", text, re.MULTILINE)
        yield crate, {name for cell in cells for name in re.findall(r"`(\w+)`", cell)}


def main():
    """Prints what differs, or how many edits there are."""
    troubles, count = [], 0
    for crate, names in named():
        files = {path.stem for path in (ROOT / "crates" / crate / "must-fail").glob("*.edit")}
        troubles += [f"{crate}: {name} is named, and no edit" for name in sorted(names - files)]
        troubles += [f"{crate}: {name} is an edit, and not named" for name in sorted(files - names)]
        count += len(files)
    print("".join(f"edits: {trouble}\n" for trouble in troubles), end="")
    if troubles or not count:
        sys.exit(1)
    print(f"edits: {count}, each named in docs/CALLS.md")


if __name__ == "__main__":
    main()
