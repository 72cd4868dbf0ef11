"""What occurred in the streams of a run, and what must occur in enough of them."""
from records_events import NAMES, PATHS

WANTED = {
    *(f"{name} done" for name in NAMES.values()),
    *(f"add refused {number}" for number in (7, 8, 12)),
    *(f"packet refused {number}" for number in (1, 2, 3, 4, 5, 6)),
    *(f"{name} refused 1" for name in ("close", "server")),
    *(f"bad: {why}" for why in ("other tag", "cut before the content", "cut in the content", "server octet")),
    *(f"bad: length of {tag:02x}" for tag in NAMES),
    *(f"{kind} entered" for kind in ("LOCV", "Mismatch", "Mismerge", "Excess")),
    *(f"stream with {words}" for words in ("64 paths", "a bad field", "no bad field", "an outage still open")),
    *(f"path of kind {kind}" for kind in range(7)),
    *(f"slot with {count} packets of {whose}" for count in ("256 or more",) for whose in ("its own", "others")),
    *("U record", "B record", "defect left on an FFD path", "outage after an outage on one path"),
}
# 9 is not among them: it takes a million million closes.


def census(found, counts):
    """Counts what a run of the model brought about."""
    for tag, number in found.answers:
        counts[f"{NAMES[tag]} refused {number}" if number else f"{NAMES[tag]} done"] += 1
    if found.bad:
        counts[f"bad: {found.bad[1]}"] += 1
    counts["stream with a bad field" if found.bad else "stream with no bad field"] += 1
    counts["stream with 64 paths"] += len(found.paths) == PATHS
    still_open = False
    for path in found.paths:
        still_open |= census_of_path(path, counts)
    counts["stream with an outage still open"] += still_open


def census_of_path(path, counts):
    """Counts what a path went through; whether it is unavailable at the end."""
    counts[f"path of kind {path.kind}"] += 1
    counts["slot with 256 or more packets of its own"] += sum(count >= 256 for count in path.expected)
    counts["slot with 256 or more packets of others"] += sum(count >= 256 for count in path.others)
    history, before, outages = path.history(), None, 0
    for found in history:
        if found.kind and found.kind != before:
            counts[f"{found.kind} entered"] += 1
        counts["defect left on an FFD path"] += bool(path.kind and before and not found.kind)
        before = found.kind
        if found.record:
            counts[f"{found.record[0]} record"] += 1
            outages += found.record[0] == "U"
    counts["outage after an outage on one path"] += outages > 1
    return bool(history) and history[-1].since is not None
