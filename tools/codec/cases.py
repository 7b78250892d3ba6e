#!/usr/bin/env python3
"""Makes the byte strings that crates/codec_vectors reads, and what it must write. README.md has the form.
`--check` compares with the stored files instead of storing. Knows numbers by strings of bits, and nothing of the crate."""
import os
import sys

HOME = os.path.join(os.path.dirname(os.path.realpath(__file__)), "..", "..", "crates", "codec_vectors")
LIMIT = 1 << 64


class Draw:
    """A generator of our own, so that the same cases are made everywhere."""

    def __init__(self, seed):
        self.state = seed

    def below(self, n):
        self.state = (self.state * 6364136223846793005 + 1442695040888963407) % LIMIT
        return (self.state >> 33) * n >> 31

    def bits(self, n):
        return int("".join(str(self.below(2)) for _ in range(n)), 2) if n else 0

    def bytes(self, n):
        return bytes(self.below(256) for _ in range(n))


def encoded(n):
    """The bits of n, cut into sevens from the low end."""
    bits = bin(n)[2:]
    bits = bits.zfill((len(bits) + 6) // 7 * 7)
    sevens = [bits[i:i + 7] for i in range(0, len(bits), 7)][::-1]
    return bytes(int(("0" if i == len(sevens) - 1 else "1") + s, 2) for i, s in enumerate(sevens))


def number(data, at):
    """The number at a place and the place behind it, or None."""
    end = at
    while end < len(data) and bin(data[end])[2:].zfill(8)[0] == "1":
        end += 1
    if end == len(data):
        return None
    value = int("".join(bin(b)[2:].zfill(8)[1:] for b in reversed(data[at:end + 1])), 2)
    if value >= LIMIT or end > at and data[end] == 0:
        return None
    return value, end + 1


def instruction(data):
    """The numbers of the instruction at the start and the place behind it, or None."""
    numbers, at = [], 0
    while len(numbers) < 3 or len(numbers) < 3 + numbers[2]:
        got = number(data, at)
        if got is None or len(numbers) == 2 and got[0] > 257:
            return None
        numbers.append(got[0])
        at = got[1]
    return numbers, at


def number_lines(data):
    got = number(data, 0)
    return ["refused 10"] if got is None else ["ok %d %d" % got]


def instruction_lines(data):
    got = instruction(data)
    if got is None:
        return ["refused 10"]
    numbers, at = got
    lines = ["ok %d %d" % (numbers[0], numbers[1]), "ok %d %d" % (numbers[2], at)]
    return lines + ["ok %d %d" % pair for pair in enumerate(numbers[3:])]


def pair_lines():
    for first in range(256):
        got = [number(bytes([first, second]), 0) for second in range(256)]
        got = [g for g in got if g is not None]
        yield "ok %d %d" % (sum(v + k for v, k in got), len(got))


def damaged(draw, data):
    """One byte changed, left out, doubled, or the end cut off."""
    if not data:
        return draw.bytes(1)
    at = draw.below(len(data))
    kind = draw.below(4)
    if kind == 0:
        return data[:at] + draw.bytes(1) + data[at + 1:]
    if kind == 1:
        return data[:at] + data[at + 1:]
    if kind == 2:
        return data[:at] + data[at:at + 1] + data[at:]
    return data[:at]


def number_cases(draw):
    yield b""
    for b in range(256):
        yield bytes([b])
    edges = [1 << k for k in range(0, 78)] + [LIMIT - 1, LIMIT, LIMIT + 1]
    for n in sorted({m for e in edges for m in (e - 1, e, e + 1)}):
        data = encoded(n)
        yield data
        yield data[:-1]
        yield data[:-1] + bytes([data[-1] | 128, 0])
        yield data[:-1] + bytes([data[-1] | 128, 128, 0])
        yield data + b"\x80"
    for bits in range(1, 72):
        for _ in range(14):
            data = encoded(1 << bits - 1 | draw.bits(bits - 1)) + draw.bytes(draw.below(3))
            yield data
            yield damaged(draw, data)
    for size in range(1, 13):
        for _ in range(40):
            yield bytes(b | 128 if draw.below(4) else b for b in draw.bytes(size))


def instruction_cases(draw):
    yield b""
    for text in ("024000", "0b05010c", "1e000110", "14000110"):
        yield bytes.fromhex(text)
    for count in (0, 1, 255, 256, 257, 258, 1 << 32, LIMIT - 1, LIMIT):
        head = encoded(14) + encoded(0) + encoded(count)
        yield head + b"".join(encoded(draw.bits(draw.below(20))) for _ in range(min(count, 258)))
        yield head
    for _ in range(700):
        count = draw.below(8)
        numbers = [draw.below(100), draw.bits(draw.below(65)), count] + [draw.bits(draw.below(65)) for _ in range(count)]
        data = b"".join(encoded(n) for n in numbers) + draw.bytes(draw.below(3))
        yield data
        yield damaged(draw, data)


def main():
    draw = Draw(20)
    asked, answers = [], list(pair_lines())
    for data in number_cases(draw):
        asked.append("n" + data.hex())
        answers += number_lines(data)
    for data in instruction_cases(draw):
        asked.append("i" + data.hex())
        answers += instruction_lines(data)
    bad = 0
    for name, lines in (("stdin", asked), ("stdout", answers)):
        path = os.path.join(HOME, name)
        text = "".join(line + "\n" for line in lines)
        if sys.argv[1:] == ["--check"]:
            if open(path).read() != text:
                print("differs: crates/codec_vectors/" + name)
                bad = 1
        else:
            with open(path, "w") as out:
                out.write(text)
    print("65536 pairs, %d byte strings, %d lines" % (len(asked), len(answers)))
    sys.exit(bad)


main()
