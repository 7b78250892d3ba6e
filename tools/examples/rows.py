#!/usr/bin/env python3
"""Makes what crates/examples reads and what it must write, from the proved table of document 01's examples. README.md has the form.
`--check` compares with the stored files instead of storing. Takes the answers from the table, and nothing from the program."""
import os
import re
import sys

ROOT = os.path.join(os.path.dirname(os.path.realpath(__file__)), "..", "..")
TABLE = "crates/table/proofs/Examples.antt"
HOME = "crates/examples"
# P1 has two rows.
PROVED = 13

# The examples that document 01 lists without a P, in the form of the table's rows: the length, instructions, answers, position, node.
RUN = [
    # width 64 smulo: 2^32 by 2^31 is true
    (512, [(2, 64, []), (11, 2**32, [12]), (11, 2**31, [12]), (48, 0, [16, 20])],
     ["ok 12 16", "ok 16 20", "ok 20 24", "ok 8 24"], 8, [16, 0, 1, 0]),
    # -2^32 by 2^31 is false
    (512, [(2, 64, []), (11, 2**64 - 2**32, [12]), (11, 2**31, [12]), (48, 0, [16, 20])],
     ["ok 12 16", "ok 16 20", "ok 20 24", "ok 4 24"], 4, [16, 0, 0, 0]),
    # attribute 1 given a, then b: the record holds b
    (512, [(2, 64, []), (16, 1, [12]), (16, 2, [12]), (15, 0, [1, 16, 1, 20])],
     ["ok 12 16", "ok 16 20", "ok 20 24", "ok 30 36"], 30, [21, 24, 0, 2, 1, 20]),
]


def listed(text):
    """The numbers of a list such as `12 ∷ 16 ∷ []`."""
    *numbers, end = text.split(" ∷ ")
    assert end == "[]", text
    return [int(number) for number in numbers]


def proved():
    """The rows of the proved table."""
    with open(os.path.join(ROOT, TABLE), encoding="utf-8") as file:
        table = file.read().split("\nexamples =\n")[1].split("\n\n")[0]
    lines = [line.split("--")[0].strip() for line in table.splitlines()]
    text = " ".join(line for line in lines if line)
    members = r"(\[\]|\([\d ∷]*\[\]\))"
    rows = []
    for one in text.removesuffix(" ∷ []").split(" ∷ example "):
        shape = re.fullmatch(r"(?:example )?(\d+) \(((?:instr .*? ∷ )+)\[\]\) \(((?:(?:ok|refused) [\d ]+ ∷ )+)\[\]\) (\d+) \(node (\d+) (\d+) (\d+) " + members + r"\)", one)
        assert shape, one
        length, instructions, answers, position, kind, of_type, parameter, run = shape.groups()
        made = re.findall(r"instr (\d+) (\d+) " + members + " ∷ ", instructions)
        assert "".join(f"instr {o} {p} {xs} ∷ " for o, p, xs in made) == instructions, instructions
        run = listed(run.strip("()"))
        rows.append((
            int(length),
            [(int(o), int(p), listed(xs.strip("()"))) for o, p, xs in made],
            answers.removesuffix(" ∷ ").split(" ∷ "),
            int(position),
            [int(kind), int(of_type), int(parameter), len(run), *run],
        ))
    assert len(rows) == PROVED, len(rows)
    return rows


def encoded(n):
    """A number in groups of seven bits, the low group first."""
    groups = []
    while n >= 128:
        groups.append(n % 128 + 128)
        n //= 128
    return bytes([*groups, n])


def read(row):
    length, instructions, _, position, _ = row
    numbers = [length, position, len(instructions)]
    for operation, parameter, operands in instructions:
        numbers += [operation, parameter, len(operands), *operands]
    return b"".join(map(encoded, numbers))


def written(row):
    _, instructions, answers, _, node = row
    assert len(instructions) == len(answers), row
    return "".join(line + "\n" for line in [*answers, " ".join(map(str, ["node", *node]))]).encode()


def main():
    rows = proved() + RUN
    made = {"stdin": b"".join(map(read, rows)), "stdout": b"".join(map(written, rows))}
    for name, data in made.items():
        path = os.path.join(ROOT, HOME, name)
        if "--check" in sys.argv[1:]:
            with open(path, "rb") as file:
                if file.read() != data:
                    print(f"examples: {HOME}/{name} is not what the table gives")
                    return 1
        else:
            with open(path, "wb") as file:
                file.write(data)
    print(f"examples: {len(rows)} rows, {sum(len(row[1]) for row in rows)} instructions")
    return 0


if __name__ == "__main__":
    sys.exit(main())
