"""The records program's events as octets, and octets as events: tag (1 octet), length (2), content."""

ADD, PACKET, CLOSE, SERVER = 0x11, 0x12, 0x13, 0x14
NAMES = {ADD: "add", PACKET: "packet", CLOSE: "close", SERVER: "server"}
LENGTHS = {ADD: {25}, PACKET: range(1, 1025), CLOSE: {1}, SERVER: {2}}
PATHS = 64  # at most


def field(tag, content):
    """Tag, length, content."""
    return bytes([tag]) + len(content).to_bytes(2, "big") + content


def adding(kind, ttsi, dl=b"\0\0\xfd\xe8"):
    """An add."""
    return field(ADD, bytes([kind]) + ttsi + dl)


def packet(lsp, octets):
    """A packet."""
    return field(PACKET, bytes([lsp]) + octets)


def close(lsp):
    """A close."""
    return field(CLOSE, bytes([lsp]))


def server(lsp, value):
    """A server signal."""
    return field(SERVER, bytes([lsp, value]))


def framed(stream):
    """The events, tag and content, and the first bad field: its offset and why it is bad, or None."""
    events, at = [], 0
    while at < len(stream):
        tag, length = stream[at], int.from_bytes(stream[at + 1 : at + 3], "big")
        content = stream[at + 3 : at + 3 + length]
        if tag not in LENGTHS:
            return events, (at, "other tag")
        if at + 3 > len(stream):
            return events, (at, "cut before the content")
        if length not in LENGTHS[tag]:
            return events, (at, f"length of {tag:02x}")
        if len(content) < length:
            return events, (at, "cut in the content")
        if tag == SERVER and content[1] not in (0, 1):
            return events, (at, "server octet")
        events.append((tag, content))
        at += 3 + length
    return events, None
