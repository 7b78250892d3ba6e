#!/usr/bin/env python3
"""Makes the list of bitvector answers of solvers that follow SMT-LIB. README.md beside it says which cases.

With --check it compares the list with the stored one. Exit status 77: the solvers cannot be had here.
"""

import pathlib
import subprocess
import sys

import cases

INSTALL = pathlib.Path(__file__).resolve().parents[1] / "install.sh"
SEED = 20_261_116
SOLVERS = (["z3", "-in", "-smt2"], ["cvc5", "--lang", "smt2"])
NAMES = {
    30: "bvneg", 31: "bvadd", 32: "bvsub", 33: "bvmul", 34: "bvsdiv", 35: "bvudiv", 36: "bvsrem", 37: "bvsmod",
    38: "bvurem", 39: "bvshl", 40: "bvlshr", 41: "bvslt", 42: "bvsle", 43: "bvult", 44: "bvule",
    # The exact operation whose signed overflow is asked.
    45: "bvneg", 46: "bvadd", 47: "bvsub", 48: "bvmul",
}  # fmt: skip


def long_shifts():
    """Amounts from the width on, and those from 2^32 on, which the original does not answer."""
    for width in range(6, cases.WIDEST + 1):
        last = 2**width - 1
        amounts = {width, width + 1, 2**31, 2**32 - 1, 2**32, 2**32 + 1, 2 ** (width - 1), last - 1, last}
        for operation in cases.SHIFTS:
            yield from ((operation, width, 2 ** (width - 1) + 1, n) for n in amounts if n <= last)


def all_cases():
    numbers = cases.Numbers(SEED)
    asked = set(long_shifts())
    for width in range(1, cases.WIDEST + 1):
        for operation in cases.OPERATIONS:
            asked |= cases.chosen(numbers, operation, width, 6, 2**cases.WIDEST)
    return sorted(asked)


def overflow(width, name, operands):
    """The exact result has 2m bits, and overflows where it is not the sign extension of its low m bits.

    The solvers of today lack the names that SMT-LIB 2.7 has for this."""
    exact = f"({name} " + " ".join(f"((_ sign_extend {width}) {s})" for s in operands) + ")"
    return f"(let ((exact {exact})) (distinct exact ((_ sign_extend {width}) ((_ extract {width - 1} 0) exact))))"


def term(case):
    operation, width, first, second = case
    if operation == cases.EXTEND:
        return f"((_ zero_extend {second}) (_ bv{first} {width}))"
    operands = [f"(_ bv{first} {width})"]
    if operation not in cases.UNARY:
        operands.append(f"(_ bv{second} {width})")
    if operation >= cases.NEGO:
        return overflow(width, NAMES[operation], operands)
    return f"({NAMES[operation]} {' '.join(operands)})"


def number(answer):
    if answer.startswith("#"):
        return int(answer[2:], {"b": 2, "x": 16}[answer[1]])
    return ["false", "true"].index(answer)


def ask(solver, asked):
    text = "(set-logic QF_BV)\n" + "".join(f"(simplify {term(case)})\n" for case in asked)
    run = subprocess.run(solver, input=text, stdout=subprocess.PIPE, text=True, check=True)
    return [number(answer) for answer in run.stdout.split()]


def main():
    install = subprocess.run([INSTALL, "z3", "cvc5"], stderr=subprocess.PIPE, text=True)
    if install.returncode != 0:
        print("not compared with the solvers: " + install.stderr.strip())
        return 77
    asked = all_cases()
    lists = [cases.answers(asked, ask(solver, asked)) for solver in SOLVERS]
    for line, other in zip(*lists):
        if line != other:
            print(f"vectors: z3 gives '{line}' and cvc5 '{other}'")
            return 1
    return cases.keep_or_compare("solver", lists[0])


sys.exit(main())
