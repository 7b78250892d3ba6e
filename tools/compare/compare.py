#!/usr/bin/env python3
"""Compares the terms that the library builds with those that the original Rust builds. README.md beside it says how.

    compare.py --check                  scripts at the edges and random ones, from fixed seeds
    compare.py --seed N --scripts M     M random scripts from another seed
    compare.py --stored                 the stored scripts, with the answers that the original gave
    compare.py --store                  asks the original again for the stored answers

`--program PATH` runs that program as it stands; without it, crates/cells/out/cells is proved and built. Exit status 77: the original or the program is not to be had here.
"""

import argparse
import collections
import gzip
import itertools
import os
import pathlib
import re
import shutil
import struct
import subprocess
import sys

import scripts
from scripts import cases

HERE = pathlib.Path(__file__).resolve().parent
ROOT = HERE.parents[1]
ORACLE = ROOT / "oracle"
STORED = HERE / "stored.txt.gz"

SEED = 20_261_201
CHECKED = 2_500
STORED_SEED = 20_261_202
# Instructions that each run of --check compares at least, and of each operation.
LEAST, LEAST_OF_EACH = 200_000, 500
# Instructions that one process is given.
BATCH = 40_000
# Differences that are shown with their scripts.
SHOWN = 5


# ---- the two sides


def asked_of_original(batch):
    """The oracle's answers: for each script a list of lines. It calls the Rust for every shift, also where that panics."""
    text = "".join("".join(scripts.line_text(line) + "\n" for line in script.lines) + "reset\n" for script in batch)
    environment = {**os.environ, "ORACLE_HUGE_SHIFT": str(2**64)}
    run = subprocess.run([ORACLE / "target/release/oracle"], input=text, stdout=subprocess.PIPE, text=True, check=True, env=environment)
    answers = iter(run.stdout.splitlines())
    taken = [list(itertools.islice(answers, len(script.lines) + 1)) for script in batch]
    assert all(lines[-1:] == ["reset"] for lines in taken), "the oracle's answers are not one for each line"
    return [lines[:-1] for lines in taken]


def asked_of_ours(program, batch):
    """Our program's answers: for each script its lines and the cells that are used afterwards."""
    stream = bytearray()
    for script in batch:
        data = b"".join(map(scripts.line_bytes, script.lines))
        stream += struct.pack("<I", len(data)) + data
    run = subprocess.run([program], input=bytes(stream), stdout=subprocess.PIPE, check=True)
    answers = iter(run.stdout.decode().splitlines())
    taken = []
    for script in batch:
        lines = list(itertools.islice(answers, len(script.lines)))
        name, *cells = next(answers, "").split(" ")
        assert name == "cells", "the program's answers are not one for each line, and then the cells"
        taken.append((lines, list(map(int, cells))))
    return taken


# ---- the cells as text


def field_texts(members, texts):
    return [(members[i], texts[members[i + 1]]) for i in range(0, len(members), 2)]


def node_text(kind, of_type, parameter, members, texts, element):
    """One node in the oracle's words, from the texts of the nodes before it; `element` is the text of its type's first member."""
    if kind >= 100:
        number = f"{kind - 100}.{parameter}" if kind in (126, 149, 156) else str(kind - 100)
        return "(" + " ".join([f"op{number}", *(texts[x] for x in members)]) + f"){texts[of_type]}"
    if kind == 1:
        return "Bool"
    if kind == 2:
        return f"BV{parameter}"
    if kind in (3, 4):
        return f"{'Opt' if kind == 3 else 'Set'}({texts[members[0]]})"
    if kind == 5:
        return "Rec{" + ",".join(f"{a}:{t}" for a, t in field_texts(members, texts)) + "}"
    if kind == 16:
        return ("false", "true")[parameter]
    if kind == 17:
        return f"{parameter}:{texts[of_type][2:]}"
    if kind == 18:
        return f"None{element}"
    if kind == 19:
        return f"Some({texts[members[0]]})"
    if kind == 20:
        return "{" + element + "|" + ",".join(sorted(texts[x] for x in members)) + "}"
    if kind == 21:
        return "[" + ",".join(f"{a}={t}" for a, t in field_texts(members, texts)) + "]"
    if kind == 22:
        return f"v{parameter}:{texts[of_type]}"
    raise ValueError(f"a node of kind {kind}")


def arena_texts(cells):
    """The texts of all nodes by their positions, and of their types; each node is above those that it names."""
    texts, type_texts, elements = {}, {}, {}
    at = 0
    while at < len(cells):
        kind, of_type, parameter, count = cells[at : at + 4]
        members = cells[at + 4 : at + 4 + count]
        texts[at] = node_text(kind, of_type, parameter, members, texts, elements.get(of_type))
        if kind < 16:
            elements[at] = texts[members[0]] if kind in (3, 4) else None
        else:
            type_texts[at] = texts[of_type]
        at += 4 + count
    return texts, type_texts


# ---- the comparison


def is_huge_shift(line, answer, text, answers):
    """docs/DIFFERENCES.md, 'Shifts by 2^32 and more': the original panics, and ours is 0."""
    operation, _, operands = line
    if operation not in cases.SHIFTS or answer != "panic":
        return False
    first, second = (re.fullmatch(r"(\d+):(\d+)", answers[x >> 1]) for x in operands)
    return bool(first and second and int(second[1]) >= 2**32 and text == f"0:{first[2]}")


class Comparison:
    def __init__(self):
        self.same = collections.Counter()
        self.known = 0
        self.scripts = 0
        self.different = 0

    def differ(self, script, at, answer, ours):
        self.different += 1
        if self.different <= SHOWN:
            print(f"different: the original {answer}\n                ours {ours}")
            print("".join(f"    {scripts.line_text(line)}\n" for line in needed(script.lines, at)), flush=True)

    def script(self, script, answers, lines, cells):
        self.scripts += 1
        try:
            texts, type_texts = arena_texts(cells)
        except (KeyError, ValueError, TypeError, IndexError) as error:
            self.differ(script, len(lines) - 1, "gives terms", f"gives cells that are none: {error!r}")
            return
        if len(set(texts.values())) != len(texts):
            self.differ(script, len(lines) - 1, "has each term once", "has two nodes of one text")
        mark = 12
        for at, (line, answer, ours) in enumerate(zip(script.lines, answers, lines, strict=True)):
            accepted = re.fullmatch(r"ok (\d+) (\d+)", ours)
            if not accepted or int(accepted[2]) < mark:
                self.differ(script, at, answer, ours)
                continue
            position, mark = int(accepted[1]), int(accepted[2])
            text = texts.get(position) if position < mark else None
            if text != answer:
                if is_huge_shift(line, answer, text, answers):
                    self.known += 1
                else:
                    self.differ(script, at, answer, text)
            elif script.types and type_texts.get(position, text) != scripts.type_text(script.types[at]):
                self.differ(script, at, f"{answer}, of type {scripts.type_text(script.types[at])}", f"of type {type_texts.get(position)}")
            else:
                self.same[line[0]] += 1
        if mark != len(cells):
            self.differ(script, len(lines) - 1, "ends at its mark", f"has the mark {mark} and {len(cells)} cells")

    def report(self):
        """Prints the counts, and answers the exit status."""
        groups = ", ".join(f"{name} {sum(self.same[operation] for operation in group)}" for name, group in scripts.GROUPS.items())
        print(f"compare: {self.same.total()} instructions of {self.scripts} scripts give the original's term ({groups});", end=" ")
        print(f"known differences {self.known}; others {self.different}")
        return 1 if self.different else 0


def needed(lines, at):
    """The lines on which a line depends, and itself, counted anew."""
    wanted = {at}
    for k in range(at, -1, -1):
        if k in wanted:
            wanted |= {x >> 1 for x in lines[k][2] if x & 1}
    place = {k: i for i, k in enumerate(sorted(wanted))}
    return [(lines[k][0], lines[k][1], [2 * place[x >> 1] + 1 if x & 1 else x for x in lines[k][2]]) for k in sorted(wanted)]


def batches(made):
    batch, count = [], 0
    for script in made:
        batch.append(script)
        count += len(script.lines)
        if count >= BATCH:
            yield batch
            batch, count = [], 0
    if batch:
        yield batch


def compared(program, made):
    comparison = Comparison()
    for batch in batches(made):
        for script, answers, (lines, cells) in zip(batch, asked_of_original(batch), asked_of_ours(program, batch), strict=True):
            comparison.script(script, answers, lines, cells)
    return comparison


# ---- the stored answers


class Lines:
    """A script of which nothing but its lines is known."""

    types = None

    def __init__(self, lines):
        self.lines = lines


def stored_text():
    """A sixth of the scripts at the edges and some random ones, each line with the original's answer behind it."""
    numbers = cases.Numbers(STORED_SEED)
    edges = list(scripts.edge_scripts(numbers))
    made = [*edges[::6], edges[-1], *scripts.random_scripts(STORED_SEED, 60)]
    out = []
    for script, answers in zip(made, asked_of_original(made), strict=True):
        out += [f"{scripts.line_text(line)}\t{answer}\n" for line, answer in zip(script.lines, answers, strict=True)]
        out.append("reset\n")
    return "".join(out)


def stored_scripts():
    """The stored scripts and answers."""
    lines, answers = [], []
    for row in gzip.decompress(STORED.read_bytes()).decode().splitlines():
        if row == "reset":
            yield Lines(lines), answers
            lines, answers = [], []
        else:
            text, answer = row.split("\t")
            lines.append(scripts.line_of(text))
            answers.append(answer)


def compared_with_stored(program):
    comparison = Comparison()
    stored = list(stored_scripts())
    made = [script for script, _ in stored]
    for (script, answers), (lines, cells) in zip(stored, asked_of_ours(program, made), strict=True):
        comparison.script(script, answers, lines, cells)
    return comparison


# ---- the command


def run_quietly(command, **where):
    """Runs a command; what it writes is in the answer's stdout."""
    return subprocess.run(command, stdin=subprocess.DEVNULL, stdout=subprocess.PIPE, stderr=subprocess.STDOUT, text=True, **where)


def oracle_status():
    """0 where the oracle stands, 77 where it cannot be built; says so in one line."""
    built = run_quietly([ORACLE / "build.sh"])
    print(("not compared with the original: " if built.returncode == 77 else "") + built.stdout.strip(), flush=True)
    return built.returncode


def program_status(program):
    """The same of our program, which is proved and built where none is named."""
    if program:
        return 0
    if not shutil.which("rt"):
        print("not compared with the original: there is no rt")
        return 77
    built = run_quietly(["rt", "run"], cwd=ROOT / "crates/cells")
    if built.returncode != 0:
        print(built.stdout.strip())
    return built.returncode


def check(program):
    """The fixed scripts, and whether the stored answers are the original's."""
    if gzip.decompress(STORED.read_bytes()).decode() != stored_text():
        print("compare: the stored answers are not what the original gives")
        return 1
    comparison = compared(program, itertools.chain(scripts.edge_scripts(cases.Numbers(SEED)), scripts.random_scripts(SEED, CHECKED)))
    rare = [operation for operation in scripts.OPERATIONS if comparison.same[operation] < LEAST_OF_EACH]
    if comparison.same.total() < LEAST or rare:
        print(f"compare: fewer instructions than there have to be; rare ones {rare}")
        comparison.different += 1
    return comparison.report()


def main():
    options = argparse.ArgumentParser(description="Compares the terms that the library builds with those of the original Rust.")
    what = options.add_mutually_exclusive_group(required=True)
    for name in ("--check", "--stored", "--store"):
        what.add_argument(name, action="store_true")
    what.add_argument("--seed", type=int)
    options.add_argument("--scripts", type=int, default=1000)
    options.add_argument("--program", type=pathlib.Path)
    given = options.parse_args()
    status = (not given.stored and oracle_status()) or (not given.store and program_status(given.program))
    if status:
        return status
    program = given.program.resolve() if given.program else ROOT / "crates/cells/out/cells"
    if given.store:
        STORED.write_bytes(gzip.compress(stored_text().encode(), mtime=0))
        return 0
    if given.stored:
        return compared_with_stored(program).report()
    return check(program) if given.check else compared(program, scripts.random_scripts(given.seed, given.scripts)).report()


if __name__ == "__main__":
    sys.exit(main())
