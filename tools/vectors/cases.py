"""What both makers share: the cases to ask, and the stored lists.

A case is (operation, width, first, second). The second operand of neg and nego is 0, that of zero_extend is its n.
"""

import pathlib
import sys

STORED = pathlib.Path(__file__).resolve().parents[2] / "crates/bitvec_vectors/stdin"

NEG, MUL, SDIV, UDIV, SREM, SMOD, UREM, SHL, LSHR = 30, 33, 34, 35, 36, 37, 38, 39, 40
SLT, NEGO, SADDO, SSUBO, SMULO, EXTEND = 41, 45, 46, 47, 48, 49
OPERATIONS = range(NEG, EXTEND + 1)
UNARY = (NEG, NEGO)
DIVISIONS = (SDIV, UDIV, SREM, SMOD, UREM)
SHIFTS = (SHL, LSHR)
WIDEST = 64


def is_predicate(operation):
    return SLT <= operation <= SMULO


class Numbers:
    """Splitmix64: the same numbers from the same seed, whatever the version of Python."""

    def __init__(self, seed):
        self.state = seed

    def below(self, limit):
        self.state = (self.state + 0x9E3779B97F4A7C15) % 2**64
        mixed = self.state
        mixed = (mixed ^ (mixed >> 30)) * 0xBF58476D1CE4E5B9 % 2**64
        mixed = (mixed ^ (mixed >> 27)) * 0x94D049BB133111EB % 2**64
        return (mixed ^ (mixed >> 31)) % limit

    def choice(self, items):
        return items[self.below(len(items))]


def edges(width):
    """0, 1, 2, those around the smallest signed number, and the largest, as far as the width has them."""
    top, end = 2 ** (width - 1), 2**width
    return sorted({x for x in (0, 1, 2, top - 1, top, top + 1, end - 2, end - 1) if x < end})


def operand(numbers, width):
    """An edge, a number next to a power of two, or one of any length."""
    kind = numbers.below(4)
    if kind < 2:
        return numbers.choice(edges(width))
    if kind == 2:
        return (2 ** numbers.below(width) + numbers.below(3) - 1) % 2**width
    return numbers.below(2 ** (1 + numbers.below(width)))


def near_limit(numbers, operation, width, first):
    """A second operand with which the exact result lies at a limit of the signed or the unsigned range."""
    limit = numbers.choice((2 ** (width - 1), 2**width, -(2 ** (width - 1))))
    signed = first - 2**width if first >= 2 ** (width - 1) else first
    if operation == SADDO:
        exact = limit - signed
    elif operation == SSUBO:
        exact = signed - limit
    else:
        exact = limit // (signed or 1)
    return (exact + numbers.below(3) - 1) % 2**width


def second_operand(numbers, operation, width, first, longest_shift):
    kind = numbers.below(4)
    if operation in SHIFTS:
        near = numbers.choice((width - 1, width, width + 1, 2 * width, numbers.below(width)))
        amount = near if kind < 2 else operand(numbers, width)
        return min(amount, 2**width - 1, longest_shift)
    if operation in DIVISIONS and kind == 0:
        return numbers.choice((0, 1, 2**width - 1))
    if operation in (MUL, SADDO, SSUBO, SMULO) and kind < 3:
        return near_limit(numbers, operation, width, first)
    if operation in range(SLT, NEGO) and kind == 0:
        return first
    return operand(numbers, width)


def chosen(numbers, operation, width, count, longest_shift):
    """So many cases of one operation at one width, at and around the edges; fewer where some are the same."""
    made = set()
    for _ in range(count):
        first = operand(numbers, width)
        if operation in UNARY:
            second = 0
        elif operation == EXTEND:
            most = WIDEST - width
            second = numbers.choice((0, min(1, most), most, numbers.below(most + 1)))
        else:
            second = second_operand(numbers, operation, width, first, longest_shift)
        made.add((operation, width, first, second))
    return made


def at_edges(operation, width, longest_shift):
    """The cases of one operation and width at which an implementation most often goes wrong."""
    smallest, minus_one = 2 ** (width - 1), 2**width - 1
    if operation in UNARY:
        pairs = [(x, 0) for x in edges(width)]
    elif operation == EXTEND:
        pairs = [(x, n) for x in (1, minus_one) for n in {0, WIDEST - width}]
    elif operation in SHIFTS:
        amounts = (width - 1, width, width + 1)
        pairs = [(x, n) for x in (smallest + 1, minus_one) for n in amounts if n <= min(minus_one, longest_shift)]
    else:
        pairs = [(smallest, minus_one), (minus_one, smallest), (smallest, smallest), (smallest - 1, smallest)]
        pairs += [(smallest - 1, 1), (1, 0), (minus_one, 0), (smallest, 0)]
    return {(operation, width, first, second) for first, second in pairs}


def answers(cases, answers):
    """One line for each case, rising, as `OPERATION WIDTH FIRST SECOND ANSWER`, each in decimal."""
    return [" ".join(map(str, case)) + f" {answer}" for case, answer in zip(cases, answers, strict=True)]


def stored_lists():
    """The stored lists by their headings, in the order of the file."""
    lists = {"original": [], "solver": []}
    heading = None
    for line in STORED.read_text().split("\n")[:-1] if STORED.exists() else []:
        if line in lists:
            heading = line
        else:
            lists[heading].append(line)
    return lists


def as_bytes(lists):
    return "".join(f"{line}\n" for heading, body in lists.items() for line in [heading, *body]).encode()


def first_difference(heading, old, new):
    for number, (was, now) in enumerate(zip(old, new), 1):
        if was != now:
            return f"case {number} of the {heading}'s list is stored as '{was}' and made as '{now}'"
    return f"the {heading}'s list is stored with {len(old)} cases and made with {len(new)}"


def keep_or_compare(heading, lines):
    """Stores the list under its heading, or with --check compares it with what is stored; answers the exit status."""
    lists = stored_lists()
    old, lists[heading] = lists[heading], lines
    if sys.argv[1:] != ["--check"]:
        STORED.write_bytes(as_bytes(lists))
        print(f"vectors: the {heading}'s list stored, {len(lines)} cases")
        return 0
    if as_bytes(lists) != STORED.read_bytes():
        print("vectors: " + first_difference(heading, old, lines))
        return 1
    print(f"vectors: the {heading}'s list made again, {len(lines)} cases as stored")
    return 0
