#!/usr/bin/env python3
"""Turns a readable text into a meter file, and a meter file into such a text.

    python3 tools/meter.py pack [FILE]      text to meter file
    python3 tools/meter.py unpack [FILE]    meter file to text

No FILE, or -, is standard input. The answer goes to standard output.

The text has one item to a line:

    partition T B PHASE          period, budget, phase
    task PARTITION GAP COST      the partition's index, shortest gap, cost
    word N                       a random word
    release INDEX                a partition gives up what it has left
    bytes HH HH ..               raw bytes in hexadecimal, as they are

A number is decimal, or hexadecimal after 0x. '#' starts a comment, and a line may be blank.

Nothing is judged but that a number fits its field: what a scheduler would refuse is packed
as it stands, so that refused files can be made. Every file can be unpacked, and packing
that text gives the file again.
"""

import re
import sys

# For each item: the record's kind, the fields' names, and the bytes of each field.
ITEMS = {
    "partition": (1, ("T", "B", "PHASE"), 2),
    "task": (2, ("PARTITION", "GAP", "COST"), 2),
    "word": (3, ("N",), 4),
    "release": (4, ("INDEX",), 2),
}

HEAD = 2  # bytes of the length field, which doesn't count itself
KIND = 2  # bytes of the kind, which the length counts
ROW = 16  # raw bytes to a line


class BadLine(Exception):
    """A line that can't be packed."""


def number(text, name, width):
    if not re.fullmatch(r"[0-9]+|0[xX][0-9a-fA-F]+", text):
        raise BadLine(f"{name} is {ascii(text)}, which is no number (decimal, or 0x and hexadecimal)")
    if text[1:2] in ("x", "X"):
        value = int(text, 16)
    else:
        # Python refuses to read a decimal of thousands of digits, so one too long is cut short.
        value = int((text.lstrip("0") or "0")[:20])
    if value >= 1 << (8 * width):
        raise BadLine(f"{name} is {text[:40]}, which doesn't fit {8 * width} bits (at most {(1 << 8 * width) - 1})")
    return value.to_bytes(width, "little")


def raw(words):
    if not words:
        raise BadLine("bytes takes one byte or more, two hexadecimal digits each")
    for w in words:
        if not re.fullmatch(r"[0-9a-fA-F]{2}", w):
            raise BadLine(f"{ascii(w)} is no byte (two hexadecimal digits)")
    return bytes.fromhex("".join(words))


def pack_line(line):
    words = line.split("#", 1)[0].split()
    if not words:
        return b""
    item, rest = words[0], words[1:]
    if item == "bytes":
        return raw(rest)
    if item not in ITEMS:
        raise BadLine(f"{ascii(item)} is no item (partition, task, word, release, bytes)")
    kind, names, width = ITEMS[item]
    if len(rest) != len(names):
        raise BadLine(f"{item} takes {' '.join(names)}, and here are {len(rest)} numbers")
    payload = b"".join(number(w, n, width) for w, n in zip(rest, names))
    return (KIND + len(payload)).to_bytes(HEAD, "little") + kind.to_bytes(KIND, "little") + payload


def pack(text, name):
    """The meter file of a text, given as bytes, and the complaints about its lines."""
    out, wrong = [], []
    # A comment may hold any bytes; what isn't UTF-8 elsewhere is no item and no number.
    for at, line in enumerate(text.decode("utf-8", "replace").split("\n"), 1):
        try:
            out.append(pack_line(line))
        except BadLine as e:
            wrong.append(f"{name}:{at}: {e}")
    return b"".join(out), wrong


def record_at(file, at):
    """The item of the whole, known record at this offset and the next offset, or None."""
    for item, (kind, names, width) in ITEMS.items():
        payload = len(names) * width
        head = (KIND + payload).to_bytes(HEAD, "little") + kind.to_bytes(KIND, "little")
        start = at + len(head)
        if file[at:start] == head and start + payload <= len(file):
            fields = [int.from_bytes(file[i : i + width], "little") for i in range(start, start + payload, width)]
            return " ".join([item, *map(str, fields)]), start + payload
    return None


def unpack(file):
    """The text of a meter file. Records are not held to any order or range."""
    lines, at = [], 0
    while at < len(file):
        found = record_at(file, at)
        if found is None:
            lines.append(f"# no whole record of a known kind at offset {at}: the rest as it is")
            for i in range(at, len(file), ROW):
                lines.append("bytes " + file[i : i + ROW].hex(" "))
            break
        line, at = found
        lines.append(line)
    return "".join(line + "\n" for line in lines).encode()


def say(text):
    print(text, file=sys.stderr)


def main(words):
    if words in (["--help"], ["-h"]):
        print(__doc__, end="")
        return 0
    if len(words) not in (1, 2) or words[0] not in ("pack", "unpack"):
        say("usage: meter.py pack|unpack [FILE]")
        return 2
    path = words[1] if len(words) == 2 else "-"
    try:
        if path == "-":
            given = sys.stdin.buffer.read()
        else:
            with open(path, "rb") as f:
                given = f.read()
    except OSError as e:
        say(f"meter.py: {path}: {e.strerror}")
        return 2
    if words[0] == "unpack":
        out, wrong = unpack(given), []
    else:
        out, wrong = pack(given, "standard input" if path == "-" else path)
    if wrong:
        for line in wrong:
            say(line)
        return 1
    try:
        sys.stdout.buffer.write(out)
        sys.stdout.buffer.flush()
    except BrokenPipeError:
        # The reader has seen enough. Closing here keeps Python from complaining as it ends.
        sys.stderr.close()
        return 1
    return 0


if __name__ == "__main__":
    sys.exit(main(sys.argv[1:]))
