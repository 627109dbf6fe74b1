#!/usr/bin/env python3
"""Makes a script (see docs/SCRIPTS.md) and its expected answers from lists of vectors that a person can read.

    make.py SCRIPT ANSWERS LIST...

A vector is a window, followed by the readings in it, one on each line:

    window FIRST COUNT : BYTES        first bit, bit count (`all`: to the end) and the bytes, in hexadecimal
    window shifted : BYTES            eight calls: the bytes are moved up by 0 to 7 bits, and the window begins at that bit
      READING ARGUMENTS = ANSWER      the answer that the document gives, with the position after it

or another call, with its numbers in the order of docs/SCRIPTS.md, and then its blob if it has one:

    CALL NUMBERS : BYTES = ANSWER     for a window, the first numbers are: none for all bits; `at K` if the bytes are moved up by K bits; or
                                      first bit and bit count
      = ANSWER                        one more line of the call's answer
      holds BYTES                     the first bytes of the buffer after a writing; the other bytes are unchanged

BYTES can have:

    "..."           its characters
    utf8 <..>       a length word, then the bytes; no zero byte is added
    utf16 <..>      a negative length word, then the units; no zero unit is added
    text "..."      a text as the writer sends it
    packed N        a packed number in the fewest bytes
    word N          a 32-bit word
    N x BB          N times the byte BB

The text after `=` is the expected answer. Nothing of it is computed here, except the `fnv` of a buffer, whose bytes are given.
"""
import re
import struct
import sys

READINGS = {
    "bit": 0, "bits": 1, "u8": 2, "u32": 3, "i32": 4, "packed": 5, "text": 6, "name": 7, "copy": 8, "sub": 9, "up": 10,
}

# The byte of each call, and its arguments: the `struct` letter of a number, `b` for a blob, `w` for a window.
CALLS = {
    "open": (0x01, "BQQQQQ"), "use": (0x02, "B"), "clear": (0x03, ""),
    "add": (0x04, "bII"), "field": (0x05, "IIIb"), "guid": (0x06, "IbI"),
    "fields": (0x10, "w"), "guids": (0x11, "w"), "object": (0x12, "wBI"), "block": (0x13, "w"),
    "write": (0x14, "Q"), "written": (0x15, ""),
    "by_index": (0x20, "I"), "by_path": (0x21, "b"), "by_guid": (0x22, "I"), "outer_guid": (0x23, "I"), "outer_path": (0x24, "I"),
    "tag": (0x25, "I"), "checksum": (0x26, "II"), "group_at": (0x27, "I"), "name_at": (0x28, "II"), "path_at": (0x29, "I"),
    "leaf": (0x2A, "b"), "instance": (0x2B, "b"), "class_net_cache": (0x2C, "b"),
    "counters": (0x2D, ""), "dump": (0x2E, "III"), "tally": (0x31, "b"),
}


def packed(n):
    out = bytearray()
    while True:
        out.append((n & 0x7F) << 1 | (n > 0x7F))
        n >>= 7
        if not n:
            return bytes(out)


def data_of(text):
    out = bytearray()
    words = re.findall(r'"[^"]*"|[<>]|[^\s<>"]+', text)
    k = 0
    while k < len(words):
        w = words[k]
        if w in ("utf8", "utf16"):
            end = words.index(">", k)
            inner = data_of(" ".join(words[k + 2:end]))
            n = len(inner) if w == "utf8" else -(len(inner) // 2)
            out += struct.pack("<i", n) + inner
            k = end + 1
        elif w == "text":
            inner = data_of(words[k + 1])
            out += struct.pack("<I", len(inner) + 1) + inner + b"\0" if inner else struct.pack("<I", 0)
            k += 2
        elif w == "packed":
            out += packed(int(words[k + 1]))
            k += 2
        elif w == "word":
            out += struct.pack("<I", int(words[k + 1]) % 2 ** 32)
            k += 2
        elif k + 2 < len(words) and words[k + 1] == "x":
            out += bytes([int(words[k + 2], 16)]) * int(w)
            k += 3
        elif w.startswith('"'):
            out += w[1:-1].encode("ascii")
            k += 1
        else:
            out.append(int(w, 16))
            k += 1
    return bytes(out)


def moved(data, by):
    n = int.from_bytes(data, "little") << by
    return n.to_bytes(len(data) + (1 if by else 0), "little")


def blob(data):
    """A plain blob, or a filled one if at least 64 equal bytes are at the end."""
    head = len(data.rstrip(data[-1:])) if data else 0
    if len(data) - head < 64:
        return struct.pack("<I", len(data)) + data
    return struct.pack("<II", 2 ** 31 + len(data), head) + data[:head] + data[-1:]


def window(data, first, count):
    return blob(data) + struct.pack("<QQ", first, count)


def reading(line):
    name, *args = line.split()
    out = bytes([READINGS[name]])
    if name == "bits":
        out += struct.pack("<I", int(args[0]))
    elif name == "copy":
        out += struct.pack("<IQ", int(args[0]), int(args[1]))
    elif name == "sub":
        out += struct.pack("<Q", int(args[0]))
    return out


def windows_of(numbers, data):
    """The windows of a call, as (bytes, first, count). Removes the windows' numbers from the list."""
    if numbers[:1] == ["shifted"]:
        del numbers[0]
        return [(moved(data, k), k, len(data) * 8) for k in range(8)]
    if numbers[:1] == ["at"]:
        k = int(numbers[1])
        del numbers[:2]
        return [(moved(data, k), k, len(data) * 8)]
    if numbers[1:2]:
        first, count = int(numbers[0]), numbers[1]
        del numbers[:2]
        return [(data, first, len(data) * 8 - first if count == "all" else int(count))]
    return [(data, 0, len(data) * 8)]


def call(name, numbers, data):
    """A call other than `bits`. The list has the numbers of a window first, even if the script has others before it."""
    code, given = CALLS[name]
    out = bytes([code])
    if "w" in given:
        mine = len(given) - 1
        own, numbers = (numbers[:-mine], numbers[-mine:]) if mine else (numbers, [])
        ((data, first, count),) = windows_of(own, data)
    for kind in given:
        if kind == "w":
            out += window(data, first, count)
        elif kind == "b":
            out += blob(data)
        else:
            out += struct.pack("<" + kind, int(numbers.pop(0)))
    return out


def fnv(data):
    """FNV-1a of 64 bits."""
    total = 0xCBF29CE484222325
    for byte in data:
        total = (total ^ byte) * 0x100000001B3 % 2 ** 64
    return total


class Vector:
    """A call of the list: the call's own line, then the indented lines after it."""

    def __init__(self, line):
        head, _, self.answer = line.partition("=")
        head, _, bytes_ = head.partition(":")
        self.name, *self.numbers = head.split()
        self.data = data_of(bytes_)
        self.answer = self.answer.strip()
        self.readings, self.further, self.holds = [], [], b""

    def add(self, line):
        if line.startswith("="):
            self.further.append(line[1:].strip())
        elif line.startswith("holds "):
            self.holds = data_of(line[len("holds "):])
        else:
            made, _, answer = line.partition("=")
            self.readings.append((reading(made.strip()), answer.strip()))

    def calls(self):
        """Yields each call as bytes, with the lines of its answer."""
        if self.name == "window":
            opened = self.answer or "window"
            lines = [opened] + ([answer for _, answer in self.readings] if opened == "window" else [])
            for data, first, count in windows_of(self.numbers, self.data):
                made = b"".join(code for code, _ in self.readings)
                yield b"\x30" + window(data, first, count) + struct.pack("<I", len(self.readings)) + made, lines
            return
        lines = ([self.answer] if self.answer else []) + self.further
        if self.name == "write":
            size = int(self.numbers[0])
            if lines[0] != "no book":
                lines[0] += f" fnv {fnv(self.holds.ljust(size, bytes([0xA5]))):016x}"
        yield call(self.name, list(self.numbers), self.data), lines


def vectors(lines):
    current = None
    for line in lines:
        line = line.rstrip("\n")
        if not line.strip() or line.lstrip().startswith("#"):
            continue
        if line.startswith(" "):
            current.add(line.strip())
            continue
        if current:
            yield current
        current = Vector(line)
    if current:
        yield current


def main():
    script_path, answers_path, *sources = sys.argv[1:]
    script, answers, number = bytearray(b"VJS1"), [], 0
    for source in sources:
        for vector in vectors(open(source, encoding="ascii")):
            for made, lines in vector.calls():
                script += made
                answers += [f"{number} {line}" for line in lines]
                number += 1
    open(script_path, "wb").write(script)
    open(answers_path, "w", encoding="ascii").write("".join(a + "\n" for a in answers))


main()
