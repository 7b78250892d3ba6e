#!/usr/bin/env python3
"""Runs the program bench from outside: what it is given, how its bytes come, and how its lines are taken. README.md beside it says what is
compared. `--program PATH` runs that program as it stands; without it, crates/bench/out/bench is proved and built. Reads bytes by a reading of its own, and nothing of the crates' code."""
import argparse
import collections
import fcntl
import os
import pathlib
import random
import re
import signal
import socket
import subprocess
import sys
import tempfile
import threading
import time

HERE = pathlib.Path(__file__).resolve().parent
ROOT = HERE.parents[1]
PAGE = ROOT / "docs" / "SCRIPTS.md"
EXAMPLE = ROOT / "examples" / "version.hex"
TABLES = [(ROOT / "crates/script/proofs/Examples.antt", "examples"), (ROOT / "crates/cut_scripts/proofs/Damaged.antt", "damaged")]

LONGEST = 65_536
BAD = "refused 10"
SEED = 20_261_203
# Differences that are shown.
SHOWN = 5
# Seconds after which a run is given up.
PATIENCE = 30

# Document 01's script, and the lines that it gives, whole.
DOCUMENT = bytes.fromhex("024000 0b05010c 1e000110 14000110")
DOCUMENT_LINES = ["ok 12 16", "ok 16 20", "ok 20 24", "refused 5"]


# ---- a script's bytes


def encoded(n):
    """The bits of n, cut into sevens from the low end."""
    bits = bin(n)[2:]
    bits = bits.zfill((len(bits) + 6) // 7 * 7)
    sevens = [bits[i : i + 7] for i in range(0, len(bits), 7)][::-1]
    return bytes(int(("0" if i == len(sevens) - 1 else "1") + s, 2) for i, s in enumerate(sevens))


def number(data, at):
    """The number at a place and the place behind it, or None."""
    end = at
    while end < len(data) and data[end] >= 128:
        end += 1
    if end == len(data):
        return None
    value = int("".join(bin(b)[2:].zfill(8)[1:] for b in reversed(data[at : end + 1])), 2)
    return None if encoded(value) != data[at : end + 1] or value >= 2**64 else (value, end + 1)


def instructions(data):
    """The places of the numbers of each whole instruction, from the start, and whether bytes are left that begin with none."""
    out, at = [], 0
    while at < len(data):
        places, values = [], []
        while len(values) < 3 or len(values) < 3 + values[2]:
            got = number(data, at)
            if got is None or len(values) == 2 and got[0] > 257:
                return out, True
            places.append((at, got[1]))
            values.append(got[0])
            at = got[1]
        out.append(places)
    return out, False


# ---- the program


def lines_text(lines):
    return "".join(line + "\n" for line in lines).encode()


class Check:
    def __init__(self, program):
        self.program = program
        self.runs = collections.Counter()
        self.different = 0

    def run(self, data):
        return subprocess.run([self.program], input=data, stdout=subprocess.PIPE, timeout=PATIENCE, check=True).stdout

    def differ(self, name, data, expected, got):
        self.different += 1
        if self.different <= SHOWN:
            script = data.hex(" ") if len(data) <= 80 else f"{data[:40].hex(' ')} ... ({len(data)} bytes)"
            print(f"different ({name}): {script}\n    expected {expected[-120:]!r}\n    got      {got[-120:]!r}", flush=True)

    def equal(self, name, data, lines, got=None):
        """One run's output is these lines, byte for byte."""
        got = self.run(data) if got is None else got
        self.runs[name] += 1
        if got != lines_text(lines):
            self.differ(name, data, lines_text(lines), got)

    def shaped(self, name, data, lines, kept):
        """A changed script: the lines of the first `kept` instructions are known, there is one for each whole instruction, and `refused 10`
        is the last one's where bytes are left, and no other's."""
        got = self.run(data)
        self.runs[name] += 1
        whole, left = instructions(data)
        texts = got.decode().splitlines()
        good = got == lines_text(texts) and texts[:kept] == lines[:kept] and len(texts) == len(whole) + left
        good = good and all(re.fullmatch(r"ok (0|[1-9]\d*) [1-9]\d*|refused [2-9]", text) for text in texts[: len(whole)])
        if not good or left and texts[-1] != BAD:
            self.differ(name, data, lines_text([*lines[:kept], f"... {len(whole)} lines{' and ' + BAD if left else ''}"]), got)


# ---- scripts with stored answers


def table_rows(path, name):
    """The rows `example BYTES REPLIES` of a table in a proof file, whose answers are computed there from the definitions."""
    text = re.sub(r"--.*", "", path.read_text())
    lists = {n: body for n, body in re.findall(r"^(\w+) =\s([^\[]*)\[\]", text, re.M)}
    body = re.search(rf"^{name} =\n(.*?)\n\n", text, re.M | re.S)[1]
    found = re.findall(r"example (\([^()]*\)|\w+|\[\]) (\([^()]*\)|\[\])", body)
    if not found or len(found) != len(re.findall(r"\bexample\b", body)):
        sys.exit(f"not read: a row of {path}")
    for script, replies in found:
        data = bytes(int(b, 16) for b in re.findall(r"0x[0-9a-f]{2}\b", lists.get(script, script)))
        yield data, re.findall(r"ok \d+ \d+|refused \d+", replies)


def page_scripts():
    """The scripts of the page: the first with the lines below it, and the version rule with the answers of its tables."""
    page = PAGE.read_text()
    commands = [bytes.fromhex(c.replace("\\x", "")) for c in re.findall(r"printf '((?:\\x[0-9a-f]{2})+)' \| tools/run bench", page)]
    below = re.search(r"tools/run bench\n((?:    (?:ok|refused) .*\n)+)", page)[1].split("\n")
    rows = re.findall(r"^\| `([0-9a-f ]+)` \| [^|]* \| `((?:ok|refused) [0-9 ]+)` \|", page, re.M)
    version = b"".join(bytes.fromhex(row[0]) for row in rows)
    if len(commands) != 2 or commands[1] != version or any(len(instructions(bytes.fromhex(row[0]))[0]) != 1 for row in rows):
        sys.exit(f"not read: the scripts of {PAGE}")
    return (commands[0], [line.strip() for line in below if line]), (version, [row[1] for row in rows])


# ---- what is changed


def cut_scripts(check, data, lines):
    for end in range(len(data) + 1):
        whole, left = instructions(data[:end])
        check.equal("cut", data[:end], lines[: len(whole)] + [BAD] * left)


def bad_numbers(value):
    """Bytes that stand for no number: `value` in one and in two groups too many, in eleven; 2^64 and more; eleven groups; groups without an end."""
    short = encoded(value)
    for groups in (len(short) + 1, len(short) + 2, 11):
        if groups > len(short):
            yield short[:-1] + bytes([short[-1] | 128]) + b"\x80" * (groups - len(short) - 1) + b"\x00"
    for big in (2**64, 2**64 + value, 2**70 - 1, 2**70, 2**77 - 1):
        yield encoded(big)
    yield b"\xff" * 12


def bad_scripts(check, data, lines):
    """At the place of each number bytes that are none, and for each count one that is too large."""
    whole, _ = instructions(data)
    for k, places in enumerate(whole):
        for i, (start, end) in enumerate(places):
            for bad in bad_numbers(number(data, start)[0]):
                check.equal("no number", data[:start] + bad + data[end:], lines[:k] + [BAD])
                check.equal("no number", data[:start] + bad, lines[:k] + [BAD])
            if i == 2:
                for count in (258, 259, 2**14, 2**32, 2**64 - 1):
                    check.equal("count above 257", data[:start] + encoded(count) + data[end:], lines[:k] + [BAD])
                    check.equal("count above 257", data[:start] + encoded(count) + b"\x00" * min(count, 300), lines[:k] + [BAD])


def changed_scripts(check, draw, data, lines):
    """Every byte in turn changed to eight others, left out, and doubled."""
    ends = [places[-1][1] for places in instructions(data)[0]]
    for at in range(len(data)):
        kept = sum(end <= at for end in ends)
        for byte in draw.sample(range(256), 8):
            check.shaped("changed byte", data[:at] + bytes([byte]) + data[at + 1 :], lines, kept)
        check.shaped("changed byte", data[:at] + data[at + 1 :], lines, kept)
        check.shaped("changed byte", data[: at + 1] + data[at:], lines, kept)


# ---- long scripts


def long_scripts():
    """Scripts of 65,534 to 65,536 bytes and their lines, by counting; and longer ones."""
    thirds = LONGEST // 3
    yield b"\x01\x00\x00" * thirds, ["ok 0 12"] * thirds
    yield b"\x01\x00\x00" * thirds + b"\x01", ["ok 0 12"] * thirds + [BAD]
    yield b"\x00\x00\x00" * thirds + b"\x00", ["refused 2"] * thirds + [BAD]
    yield b"\x01\x00\x00" * (thirds - 1) + b"\x01\x00", ["ok 0 12"] * (thirds - 1) + [BAD]
    yield b"\x10\x01\x01\x00" * (LONGEST // 4), ["ok 12 16"] * (LONGEST // 4)
    for more in (1, 2, 3, LONGEST, 10 * LONGEST):
        yield b"\x01\x00\x00" * thirds + b"\x01" * (1 + more), [BAD]
    yield b"\x10\x01\x01\x00" * (LONGEST // 4) + b"\x10", [BAD]
    # 257 operands are read, and the script goes on
    yield b"\x00\x00\x81\x02" + b"\x00" * 257 + b"\x01\x00\x00", ["refused 2", "ok 0 12"]
    yield b"\x00\x00\x81\x02" + b"\x00" * 256, [BAD]
    yield b"\x00\x00\x82\x02" + b"\x00" * 258 + b"\x01\x00\x00", [BAD]


def full_arena():
    """Variables of type Bool until all 8,192 cells are used, four by four; then what does not fit, and what is there already."""
    count = (8192 - 12) // 4
    data = b"".join(b"\x10" + encoded(k) + b"\x01\x00" for k in range(count + 1))
    lines = [f"ok {12 + 4 * k} {16 + 4 * k}" for k in range(count)] + ["refused 9"]
    more = (LONGEST - len(data)) // 3
    data += b"\x01\x00\x00" * more
    rest = LONGEST - len(data)
    return data + b"\x80" * rest, lines + ["ok 0 8192"] * more + [BAD] * (rest > 0)


# ---- operations one by one


def said(operation, parameter, *operands):
    return b"".join(map(encoded, (operation, parameter, len(operands), *operands)))


def pairs(first, *rest):
    """The attributes `first`, each with the same position behind it."""
    return [x for attribute in first for x in (attribute, *rest)]


# Operations that take a parameter, and those that take lists: of single operands or of pairs.
WITH_PARAMETER = {2, 10, 11, 16, 26, 49, 56, 74, 75}
LISTS = {14, 65, 66}
PAIR_LISTS = {5, 15, 73}
UNKNOWN = [0, *range(6, 10), *range(17, 20), *range(27, 30), *range(57, 60), *range(67, 70), *range(76, 300), 2**32 + 20, 2**64 - 1]


def operations(check):
    """Behind a few types and variables: each operation accepted as document 01 lists it, and refused with an operand more or less or with a
    parameter that it does not take; the limits on both sides."""
    data = b""

    def added(*instruction):
        nonlocal data
        data += said(*instruction)
        return int(check.run(data).decode().splitlines()[-1].split(" ")[1])

    def answered(start, *instruction):
        script = data + said(*instruction)
        got = check.run(script)
        check.runs["operations"] += 1
        if not got.decode().splitlines()[-1].startswith(start):
            check.differ("operations", script, start.encode(), got)

    bool_type, wide, byte = 0, added(2, 64), added(2, 8)
    option, set_type, record = added(3, 0, bool_type), added(4, 0, wide), added(5, 0, 1, bool_type, 2, wide)
    set_option = added(3, 0, set_type)
    optional = added(5, 0, 1, option, 7, bool_type)
    g, a, b, n, o, s, t, r, q = (
        added(16, k, of) for k, of in enumerate((bool_type, wide, wide, byte, option, set_type, set_type, record, optional))
    )
    good = [(1, 0), (2, 3), (3, 0, wide), (4, 0, bool_type), (5, 0, 3, bool_type, 9, wide), (5, 0)]
    good += [(10, 0), (10, 1), (11, 200, wide), (12, 0, wide), (13, 0, a), (14, 0, wide), (14, 0, wide, b, a, b), (15, 0), (15, 0, 1, a, 1, b), (16, 77, record)]
    good += [(20, 0, g), (21, 0, g, 4), (22, 0, g, 4), (23, 0, g, 4), (24, 0, a, b), (25, 0, g, a, b), (26, 5, bool_type, a), (30, 0, a), (45, 0, a)]
    good += [(k, 0, a, b) for k in (*range(31, 45), 46, 47, 48)]
    good += [(49, 3, n), (50, 0, a, s), (51, 0, s, t), (52, 0, s, t), (53, 0, s), (54, 0, s, t), (55, 0, o), (56, 2, r)]
    good += [(60, 0, o), (61, 0, o), (62, 0, g, a), (63, 0, g, a), (64, 0, o, a), (65, 0), (65, 0, o, o), (66, 0, a), (66, 0, a, o, o)]
    good += [(70, 0, g), (71, 0, a), (72, 0, s), (73, 0), (73, 0, 1, o, 2, o), (74, 1, r), (74, 9, r), (74, 1, q), (75, 1, r), (75, 1, q)]
    for one in good:
        operation, parameter, *operands = one
        answered("ok ", *one)
        if operation not in WITH_PARAMETER:
            answered("refused 2", operation, 1, *operands)
        if operation in PAIR_LISTS:
            answered("refused 2", *one, 3)
        elif operation not in LISTS:
            answered("refused 2", *one, 0)
            if operands:
                answered("refused 2", *one[:-1])
    for unknown in UNKNOWN:
        answered("refused 2", unknown, 0, g)
    for start, *one in [
        *(("refused 2", k, 0) for k in (14, 66)),
        ("ok ", 14, 0, 0, *[4] * 256), ("ok ", 65, 0, *[o] * 256), ("refused 3", 65, 0, *[o] * 257), ("ok ", 66, 0, g, *[o] * 256),
        ("ok ", 5, 0, *pairs(range(64), 0)), ("refused 3", 5, 0, *pairs(range(65), 0)), ("ok ", 15, 0, *pairs([1] * 64, 4)),
        ("refused 3", 15, 0, *pairs([1] * 65, 4)), ("ok ", 73, 0, *pairs([1] * 64, o)), ("refused 3", 73, 0, *pairs([1] * 65, o)),
        ("refused 4", 20, 0, 0), ("refused 4", 20, 0, 5), ("refused 4", 3, 0, 4), ("refused 4", 20, 0, 2**64 - 1),
        ("refused 5", 4, 0, set_type), ("refused 5", 4, 0, set_option), ("refused 5", 14, 0, set_option), ("refused 5", 71, 0, n), ("refused 5", 31, 0, a, n),
        ("refused 6", 2, 0), ("ok ", 2, 1), ("ok ", 2, 64), ("refused 6", 2, 65), ("ok ", 49, 0, n), ("ok ", 49, 56, n), ("refused 6", 49, 57, n),
        ("refused 6", 49, 2**64 - 1, n), ("refused 7", 10, 2), ("ok ", 11, 255, byte), ("refused 7", 11, 256, byte), ("ok ", 16, 2**32 - 1, 0),
        ("refused 7", 16, 2**32, 0), ("refused 7", 5, 0, 2, 0, 1, 0), ("refused 7", 5, 0, 2, 0, 2, 0), ("refused 8", 56, 9, r), ("refused 8", 75, 9, r),
    ]:
        answered(start, *one)


# ---- how the bytes come and go


def fed(program, data, sizes, pauses, made_by):
    """The output where the input comes in pieces of these sizes, over and over, with a pause behind each of the first `pauses`."""
    if made_by == "pipe":
        read_end, write_end = os.pipe()
        send, close = (lambda piece: os.write(write_end, piece)), (lambda: os.close(write_end))
    else:
        ours, theirs = socket.socketpair()
        read_end = theirs.detach()
        send, close = (lambda piece: ours.send(piece)), ours.close
    process = subprocess.Popen([program], stdin=read_end, stdout=subprocess.PIPE)
    os.close(read_end)

    def feed():
        at, k = 0, 0
        try:
            while at < len(data):
                at += send(data[at : at + sizes[k % len(sizes)]])
                if k < pauses:
                    time.sleep(0.002)
                k += 1
        except OSError:
            pass
        close()

    feeder = threading.Thread(target=feed, daemon=True)
    feeder.start()
    return ended(process, process.stdout.read(), feeder)


def ended(process, out, feeder):
    process.stdout.close()
    feeder.join(PATIENCE)
    return out if process.wait(PATIENCE) == 0 else out + f"status {process.returncode}".encode()


def taken(program, data, size, stops, small_pipe):
    """The output where it is read slowly in small pieces, from a pipe that holds little; the program is stopped and let go on `stops` times
    while it writes, which cuts a write short."""
    process = subprocess.Popen([program], stdin=subprocess.PIPE, stdout=subprocess.PIPE)
    if small_pipe:
        fcntl.fcntl(process.stdout.fileno(), fcntl.F_SETPIPE_SZ, 4096)

    def feed():
        try:
            process.stdin.write(data)
            process.stdin.close()
        except OSError:
            pass

    feeder = threading.Thread(target=feed, daemon=True)
    feeder.start()
    out, k = bytearray(), 0
    while True:
        piece = os.read(process.stdout.fileno(), size)
        if not piece:
            return ended(process, bytes(out), feeder)
        out += piece
        if k < 40:
            time.sleep(0.002)
        if 0 < k <= stops:
            process.send_signal(signal.SIGSTOP)
            time.sleep(0.001)
            process.send_signal(signal.SIGCONT)
        k += 1


def ways(check, scripts):
    """The same scripts by files, pipes and sockets, in pieces and slowly."""
    for data, lines in scripts:
        with tempfile.TemporaryFile() as file:
            file.write(data)
            file.flush()
            file.seek(0)
            got = subprocess.run([check.program], stdin=file, stdout=subprocess.PIPE, timeout=PATIENCE, check=True).stdout
            check.equal("from a file", data, lines, got)
        for made_by in ("pipe", "socket"):
            for sizes in ([1], [7], [1, 4096, 3], [65_535, 1]):
                check.equal("in pieces", data, lines, fed(check.program, data, sizes, 25, made_by))
        for size, stops in ((1, 0), (97, 0), (97, 20), (1000, 60), (8192, 5)):
            if size > 1 or len(lines) < 10:
                for small_pipe in (False, True):
                    check.equal("taken slowly", data, lines, taken(check.program, data, size, stops, small_pipe))


# ---- the command


def all_checks(program):
    check = Check(program)
    check.equal("document 01", DOCUMENT, DOCUMENT_LINES)
    check.equal("no bytes", b"", [])
    first, version = page_scripts()
    if first != (DOCUMENT, DOCUMENT_LINES):
        check.differ("docs/SCRIPTS.md", first[0], lines_text(DOCUMENT_LINES), lines_text(first[1]))
    check.equal("docs/SCRIPTS.md", *version)
    check.equal("examples", bytes.fromhex(re.sub(r"#.*", "", EXAMPLE.read_text())), version[1])
    for path, name in TABLES:
        for data, lines in table_rows(path, name):
            check.equal(f"table {name}", data, lines)
    draw = random.Random(SEED)
    for data, lines in (first, version):
        cut_scripts(check, data, lines)
        bad_scripts(check, data, lines)
        changed_scripts(check, draw, data, lines)
    long = list(long_scripts())
    for data, lines in long:
        check.equal("long", data, lines)
    check.equal("full arena", *full_arena())
    operations(check)
    ways(check, [first, version, (b"", []), long[1], long[5], full_arena()])
    counts = ", ".join(f"{name} {count}" for name, count in check.runs.items())
    print(f"bench: {check.runs.total()} runs ({counts}); differences {check.different}")
    return 1 if check.different else 0


def main():
    options = argparse.ArgumentParser(description="Runs the program bench from outside.")
    options.add_argument("--program", type=pathlib.Path)
    program = options.parse_args().program
    if not program:
        program = ROOT / "crates/bench/out/bench"
        built = subprocess.run(
            ["rt", "run"], cwd=ROOT / "crates/bench", stdin=subprocess.DEVNULL, stdout=subprocess.PIPE, stderr=subprocess.STDOUT, text=True
        )
        if built.returncode != 0:
            print(built.stdout.strip())
            return 1
    return all_checks(program.resolve())


if __name__ == "__main__":
    sys.exit(main())
