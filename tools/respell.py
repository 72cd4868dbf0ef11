#!/usr/bin/env python3
"""Brings this repository's own definitions and lemmas to today's spelling, once, after the toolchain's port script.

usage: python3 tools/respell.py [--list]      at the top of the repository; --list says old and new names and writes nothing

Words are in snake case: isRate is is_rate, written-then-read is written_then_read. A dash stays where it joins a function of lists to what it is
about, as in length-laid. A lemma that would have its definition's name ends in _lem. Types and modules keep their names. It rewrites the specs/,
proofs/, must-fail/ and src/ of every crate: of src/ what stands in clauses, imports and comments, since no other word there has these spellings.
"""
import collections
import glob
import re
import sys

MARKS = r"(?:(?:pattern|unfoldable|abbrev|pub|axiom) )*"
KEEPS_DASH = ("length-", "drop-", "take-")
END = r"[\w'₀-₉·\-]"


def read(path):
    with open(path, encoding="utf-8") as f:
        return f.read()


def snake(word):
    word = re.sub(r"(?<=[a-z0-9])[A-Z]", lambda m: "_" + m[0].lower(), word)
    if re.fullmatch(r"[A-Z][₀-₉]", word):
        word = word.lower()
    return word if word.startswith(KEEPS_DASH) else word.replace("-", "_")


def declared(path):
    """The names that a file of definitions or lemmas declares: its definitions and lemmas, and the fields and cases of its types."""
    kind = "definition" if "/specs/" in path else "lemma"
    inside = None
    for line in re.sub(r"--.*", "", read(path)).split("\n"):
        if re.match(MARKS + r"(record|data|module) \S", line):
            inside = kind if " module " in f" {line}" else "field"
        elif line[:1].isspace() or not line:
            several = r"(?: [^\s(){}.;,:=]+)*" if inside == "field" else ""
            name = re.match((" +" if inside == kind else "  ") + MARKS + rf"([^\s(){{}}.;,:=]+{several}) :", line) if inside else None
            yield from ((one, inside) for one in (name[1].split() if name else ()))
        else:
            inside = None
            name = re.match(MARKS + r"([^\s(){}.;,]+) (?:\{[^}]*\} )?:", line)
            if name:
                yield name[1], kind


def names():
    kinds = collections.defaultdict(set)
    for path in sorted(glob.glob("crates/*/specs/*.antt") + glob.glob("crates/*/proofs/*.antt")):
        for name, kind in declared(path):
            kinds[name].add(kind)
    definitions = {snake(name) for name, of in kinds.items() if "definition" in of}
    out = {}
    for name, of in kinds.items():
        if not re.match(r"[a-z]", name) and not re.fullmatch(r"[A-Z][₀-₉]", name):
            continue
        new = snake(name)
        if of == {"lemma"} and new in definitions:
            new += "_lem"
        if new != name:
            out[name] = new
    for path in glob.glob("crates/*/proofs/**/*.antt", recursive=True):
        here = words(read(path))
        news = collections.Counter(out.get(word, word) for word in here)
        for name in sorted(here & set(out)):
            if kinds[name] == {"lemma"} and news[out[name]] > 1 and not out[name].endswith("_lem") and not re.search(r"[A-Z]", name):
                out[name] += "_lem"
    return out


def words(text):
    return set(re.findall(r"[^\s(){}\[\].,;]+", re.sub(r"--.*", "", text)))


def by_hand(path):
    """Whether a proof of one function: there a name of ours may be the toolchain's too, so only what is imported is turned, and what has a capital."""
    return re.search(r"/proofs/.+/", path) is not None


def turn(path, table):
    text = read(path)
    here = table
    if by_hand(path):
        imported = {n.strip().split(" as ")[0] for group in re.findall(r"(?m)^use [^\n{]*\{([^}]*)\}", text) for n in group.split(",")}
        here = {old: new for old, new in table.items() if old in imported or re.search(r"[A-Z]", old)}
    if not here:
        return text, text
    word = re.compile(rf"(?<!{END})(" + "|".join(re.escape(n) for n in sorted(here, key=len, reverse=True)) + rf")(?!{END})")
    comment = {".antt": "--", ".rt": "//", ".edit": "#"}[path[path.rindex("."):]]
    out = []
    for line in text.split("\n"):
        code, mark, said = line.partition(comment)
        code = word.sub(lambda m: here[m[1]], code)
        # A comment's dashes may be those of its words.
        said = word.sub(lambda m: m[1] if "-" in m[1] else here[m[1]], said)
        out.append(code + mark + said)
    return text, "\n".join(out)


def main():
    table = names()
    fell = collections.defaultdict(list)
    for old, new in table.items():
        fell[new].append(old)
    for new, olds in sorted(fell.items()):
        if len(olds) > 1:
            print(f"two names fall together: {', '.join(olds)} -> {new}")
    if "--list" in sys.argv:
        for old, new in sorted(table.items()):
            print(f"{old}\t{new}")
        return
    paths = glob.glob("crates/*/src/**/*.rt", recursive=True) + glob.glob("crates/*/specs/**/*.antt", recursive=True)
    paths += glob.glob("crates/*/proofs/**/*.antt", recursive=True) + glob.glob("crates/*/must-fail/*.edit")
    for path in sorted(paths):
        old, new = turn(path, table)
        before = words(old)
        for name in sorted(before & set(table)):
            if table[name] in before and path.endswith(".antt"):
                print(f"look: {path}: {name} -> {table[name]}, which stood there already")
        if new != old:
            with open(path, "w", encoding="utf-8") as f:
                f.write(new)


if __name__ == "__main__":
    main()
