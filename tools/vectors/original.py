#!/usr/bin/env python3
"""Makes the list of bitvector answers of the original Rust, by the oracle. README.md beside it says which cases.

With --check it compares the list with the stored one. Exit status 77: the oracle cannot be built here.
"""

import pathlib
import subprocess
import sys

import cases

ORACLE = pathlib.Path(__file__).resolve().parents[2] / "oracle"
SEED = 20_261_115
# The oracle does not call the Rust for longer ones (docs/DIFFERENCES.md).
LONGEST_SHIFT = 99_999


def every_case(width):
    values = range(2**width)
    for operation in cases.OPERATIONS:
        if operation in cases.UNARY:
            seconds = [0]
        elif operation == cases.EXTEND:
            seconds = range(cases.WIDEST - width + 1)
        else:
            seconds = values
        yield from ((operation, width, first, second) for first in values for second in seconds)


def all_cases():
    numbers = cases.Numbers(SEED)
    asked = {case for width in range(1, 6) for case in every_case(width)}
    for width in range(6, cases.WIDEST + 1):
        for operation in cases.OPERATIONS:
            asked |= cases.at_edges(operation, width, LONGEST_SHIFT)
            asked |= cases.chosen(numbers, operation, width, 14, LONGEST_SHIFT)
    return sorted(asked)


def script(case):
    """The five lines that ask the oracle for one case."""
    operation, width, first, second = case
    parameter = second if operation == cases.EXTEND else 0
    operands = "#1" if operation in cases.UNARY or operation == cases.EXTEND else "#1 #2"
    value = 0 if operation == cases.EXTEND else second
    return f"2 {width}\n11 {first} #0\n11 {value} #0\n{operation} {parameter} {operands}\nreset\n"


def number(case, answer):
    """The oracle's text of a result as a number; it has to be a literal of the right type."""
    operation, width, _, second = case
    if cases.is_predicate(operation):
        return ["false", "true"].index(answer)
    value, of_width = answer.split(":")
    assert int(of_width) == (width + second if operation == cases.EXTEND else width), (case, answer)
    return int(value)


def main():
    built = subprocess.run([ORACLE / "build.sh"], stdin=subprocess.DEVNULL, stdout=subprocess.PIPE, stderr=subprocess.STDOUT, text=True)
    print(("not compared with the original: " if built.returncode == 77 else "") + built.stdout.strip(), flush=True)
    if built.returncode != 0:
        return built.returncode
    asked = all_cases()
    text = "".join(map(script, asked))
    run = subprocess.run([ORACLE / "target/release/oracle"], input=text, stdout=subprocess.PIPE, text=True, check=True)
    answers = run.stdout.splitlines()[3::5]
    numbers = [number(case, answer) for case, answer in zip(asked, answers, strict=True)]
    return cases.keep_or_compare("original", cases.answers(asked, numbers))


sys.exit(main())
