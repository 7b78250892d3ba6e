"""Scripts of instructions that document 01 accepts, made from a seed. README.md says which.

A line is (operation, parameter, operands). An operand is 2k + 1 for the result of line k, and 2a for the attribute a. A script
knows of each line which type its result has, by document 01's 'Result types', and nothing else of what it gives.
"""

import functools
import pathlib
import sys

sys.path.append(str(pathlib.Path(__file__).resolve().parents[1] / "vectors"))
import cases  # noqa: E402

WIDEST = cases.WIDEST
# The largest attribute or id.
LARGEST = 2**32 - 1
# The original computes 2 to the amount of a shift, and panics from 2^32 on (docs/DIFFERENCES.md).
LONGEST_SHIFT = 99_999
# What the text of a result has at most; ten times that where long lists are asked for.
LONGEST_TEXT = 2_500

GROUPS = {
    "types": range(1, 6),
    "makers": range(10, 17),
    "core": range(20, 27),
    "bitvectors": range(30, 50),
    "sets": range(50, 55),
    "options and records": range(55, 57),
    "helpers": range(60, 67),
    "compiled": range(70, 76),
}
OPERATIONS = [operation for group in GROUPS.values() for operation in group]

# ---- types

BOOL = ("Bool",)


def bitvec(width):
    return ("BV", width)


def option(element):
    return ("Opt", element)


def set_of(element):
    return ("Set", element)


def record(fields):
    """Of equal attributes the last wins."""
    return ("Rec", tuple(sorted(dict(fields).items())))


def optional(t):
    return t if t[0] == "Opt" else option(t)


@functools.cache
def type_text(t):
    if t == BOOL:
        return "Bool"
    if t[0] == "BV":
        return f"BV{t[1]}"
    if t[0] == "Rec":
        return "Rec{" + ",".join(f"{attribute}:{type_text(field)}" for attribute, field in t[1]) + "}"
    return f"{t[0]}({type_text(t[1])})"


@functools.cache
def set_free(t):
    if t[0] == "Rec":
        return all(set_free(field) for _, field in t[1])
    return t[0] != "Set" and (t[0] != "Opt" or set_free(t[1]))


def result_type(operation, parameter, operands):
    """Document 01's 'Result types', from the types of the operands; for 15 and 73 these are fields."""
    first = operands[0] if operands else None
    if operation in (11, 16, 26) or 30 <= operation <= 40 or operation == 52:
        return first
    if operation in (12, 13):
        return option(first)
    if operation == 14:
        return set_of(first)
    if operation == 15:
        return record(operands)
    if operation == 25:
        return operands[1]
    if operation == 49:
        return bitvec(first[1] + parameter)
    if operation == 55:
        return first[1]
    if operation in (56, 75):
        field = dict(first[1])[parameter]
        return field if operation == 56 else optional(field)
    if operation in (62, 63):
        return option(operands[1])
    if operation in (64, 66):
        return optional(operands[1] if operation == 64 else first)
    if operation in (70, 72, 74):
        return option(BOOL)
    if operation == 71:
        return option(bitvec(64))
    if operation == 73:
        return option(record((attribute, t[1]) for attribute, t in operands))
    return BOOL


# ---- lines


def line_text(line):
    """As the oracle reads it."""
    operation, parameter, operands = line
    return " ".join([str(operation), str(parameter), *(f"#{x >> 1}" if x & 1 else str(x >> 1) for x in operands)])


def line_of(text):
    operation, parameter, *operands = text.split(" ")
    return int(operation), int(parameter), [2 * int(x[1:]) + 1 if x[0] == "#" else 2 * int(x) for x in operands]


def line_bytes(line):
    """As document 01's scripts have it: each number in groups of seven bits, low group first."""
    operation, parameter, operands = line
    out = bytearray()
    for number in (operation, parameter, len(operands), *operands):
        while number > 127:
            out.append(128 | number & 127)
            number >>= 7
        out.append(number)
    return bytes(out)


class Script:
    def __init__(self, longest_text=LONGEST_TEXT):
        self.longest_text = longest_text
        self.lines = []
        # of each line: its result's type, or the type that it is; whether it is a type; what its text has at most
        self.types = []
        self.is_type = []
        self.lengths = []
        # the line of each type, the lines of terms of each type, and the types that have terms by their kinds
        self.type_lines = {}
        self.terms = {}
        self.kinds = {"Bool": [], "BV": [], "Opt": [], "Set": [], "Rec": []}

    def add(self, line, t, is_type, length):
        self.lines.append(line)
        self.types.append(t)
        self.is_type.append(is_type)
        self.lengths.append(length)
        return len(self.lines) - 1

    def type(self, t):
        """The line that made a type; it is made where there is none."""
        return self.type_lines[t] if t in self.type_lines else self.make_type(t)

    def make_type(self, t):
        kind, *of = t
        if kind == "Rec":
            operands = [x for attribute, field in of[0] for x in (2 * attribute, 2 * self.type(field) + 1)]
            line = (5, 0, operands)
        elif kind in ("Opt", "Set"):
            line = (3 if kind == "Opt" else 4, 0, [2 * self.type(of[0]) + 1])
        else:
            line = (1, 0, []) if t == BOOL else (2, of[0], [])
        self.type_lines[t] = self.add(line, t, True, len(type_text(t)))
        return self.type_lines[t]

    def bound(self, operation, t, operands):
        """What the result's text has at most: every operand once, or twice, each with a None of its type."""
        length = sum(self.lengths[k] + 24 + len(type_text(self.types[k])) for k in operands)
        return 40 + 2 * len(type_text(t)) + length * (2 if operation in (71, 73) else 1)

    def put(self, operation, parameter, operands, t, of, used):
        """A line that gives a term, whose operands are the lines `of`. None where its text may get too long."""
        length = self.bound(operation, t, of)
        if length > self.longest_text:
            return None
        at = self.add((operation, parameter, operands), t, False, length)
        if used:
            if t not in self.terms:
                self.terms[t] = []
                self.kinds[t[0]].append(t)
            self.terms[t].append(at)
        return at

    def do(self, operation, *of, parameter=0, used=True):
        """An instruction on results of earlier lines; `used` is whether later ones may take its result up."""
        if None in of:
            return None
        t = result_type(operation, parameter, [self.types[k] for k in of])
        return self.put(operation, parameter, [2 * k + 1 for k in of], t, of, used)

    def do_fields(self, operation, fields):
        """15 and 73, on attributes and results."""
        if any(k is None for _, k in fields):
            return None
        t = result_type(operation, 0, [(attribute, self.types[k]) for attribute, k in fields])
        operands = [x for attribute, k in fields for x in (2 * attribute, 2 * k + 1)]
        return self.put(operation, 0, operands, t, [k for _, k in fields], True)

    # ---- leaves

    def literal(self, t, value):
        return self.do(10, parameter=value % 2) if t == BOOL else self.do(11, self.type(t), parameter=value)

    def variable(self, t, number):
        return self.do(16, self.type(t), parameter=number)

    def none(self, element):
        return self.do(12, self.type(element))

    def set(self, element, members):
        return self.do(14, self.type(element), *members)

    def applied(self, t, operand, number=0):
        return self.do(26, self.type(t), operand, parameter=number)


# ---- scripts at the edges: every operation on every two of a few terms


def ground(script, t, number):
    """Literals of a type; two numbers give two."""
    kind = t[0]
    if kind in ("Bool", "BV"):
        return script.literal(t, number % 2 ** (t[1] if kind == "BV" else 1))
    if kind == "Opt":
        return script.do(13, ground(script, t[1], number))
    if kind == "Set":
        return script.set(t[1], [ground(script, t[1], number)])
    return script.do_fields(15, [(attribute, ground(script, field, number)) for attribute, field in t[1]])


def guards(script):
    g, h = script.variable(BOOL, 7), script.variable(BOOL, 8)
    return [script.literal(BOOL, 0), script.literal(BOOL, 1), g, h, script.do(20, g), script.do(21, g, h), script.do(24, g, h)]


def bool_scripts():
    for operation in (20, 21, 22, 23, 24, 25, 62, 63, 70):
        script = Script()
        atoms = guards(script)
        for x in atoms:
            if operation in (20, 70):
                script.do(operation, x)
                script.do(operation, script.do(20, x))
                continue
            for y in atoms:
                for z in atoms if operation == 25 else [None]:
                    script.do(operation, *((x, y) if z is None else (x, y, z)))
        yield script


def option_terms(script, element):
    """Options of every shape that the helpers look at."""
    g, h = script.variable(BOOL, 7), script.variable(BOOL, 8)
    a, b = script.variable(element, 0), script.variable(element, 1)
    v, w = script.variable(option(element), 2), script.variable(option(element), 3)
    none = script.none(element)
    some = script.do(13, a)
    of_other = script.do(13, b)
    of_literals = [script.do(13, ground(script, element, number)) for number in (0, 1)]
    pairs = [(some, none), (none, some), (some, of_other), (v, w), (some, v), (v, none), (none, v), (of_literals[0], none)]
    if element[0] == "Opt":
        # two layers: the ite below the outer one is not looked into
        inner = [script.do(13, script.variable(element[1], number)) for number in (0, 1)] + [script.none(element[1])]
        layers = [script.do(13, k) for k in inner]
        pairs += [(layers[0], layers[1]), (layers[0], layers[2]), (layers[2], layers[0])]
        of_literals += layers
    chosen = [script.do(25, g, x, y) for x, y in pairs]
    chosen.append(script.do(25, h, chosen[0], none))
    chosen.append(script.do(25, h, chosen[1], chosen[0]))
    return [none, some, of_other, *of_literals, v, *chosen, script.applied(option(element), g)]


def option_scripts(element):
    for operation in (24, 25, 55, 60, 61, 62, 63, 64, 65, 66, 73):
        script = Script()
        terms = option_terms(script, element)
        g = script.variable(BOOL, 9)
        for x in terms:
            if operation in (55, 60, 61):
                inner = script.do(operation, x)
                if operation == 55 and element[0] == "Opt":
                    for after in (55, 60, 61):
                        script.do(after, inner)
            elif operation in (62, 63):
                for guard in (*guards(script), script.do(60, x), script.do(61, x)):
                    script.do(operation, guard, x)
            for y in terms:
                if operation in (24, 64, 65):
                    script.do(operation, x, y)
                elif operation == 25:
                    script.do(operation, g, x, y)
                elif operation == 66:
                    script.do(operation, x, y)
                    script.do(operation, g, x, y)
                elif operation == 73:
                    script.do_fields(operation, [(1, x), (2, y)])
                    script.do_fields(operation, [(1, x), (1, y)])
        yield script


def set_terms(script, element):
    literals = [ground(script, element, number) for number in (0, 1)]
    variables = [script.variable(element, number) for number in (0, 1)]
    (x, y), (a, b) = literals, variables
    lists = [[], [x], [y], [x, y], [y, x, x], [a], [a, x], [y, a], [a, b], [b, a, b]]
    sets = [script.set(element, members) for members in lists]
    s, t, g = script.variable(set_of(element), 2), script.variable(set_of(element), 3), script.variable(BOOL, 7)
    sets += [s, t, script.do(52, s, t), script.do(52, s, sets[1])]
    sets += [script.do(25, g, sets[1], sets[2]), script.do(25, g, sets[0], s), script.applied(set_of(element), x)]
    return literals + variables, sets


def set_scripts(element):
    for operation in (24, 25, 50, 51, 52, 53, 54, 72):
        script = Script()
        members, sets = set_terms(script, element)
        g = script.variable(BOOL, 9)
        for x in sets:
            if operation in (53, 72):
                script.do(operation, x)
            elif operation == 50:
                for member in members:
                    script.do(operation, member, x)
            else:
                for y in sets:
                    script.do(operation, *((g, x, y) if operation == 25 else (x, y)))
        yield script


def record_scripts(t):
    script = Script()
    g = script.variable(BOOL, 7)
    literals = [ground(script, t, number) for number in (0, 1)]
    variables = [script.variable(t, number) for number in (0, 1)]
    fields = [script.variable(field, 2) for _, field in t[1]]
    attributes = [attribute for attribute, _ in t[1]]
    mixed = [script.do_fields(15, list(zip(attributes, fields)))]
    mixed.append(script.do_fields(15, list(zip(attributes, [ground(script, t[1][0][1], 0), *fields[1:]]))))
    others = [script.do(25, g, variables[0], literals[0]), script.do(25, g, literals[0], literals[1]), script.applied(t, g)]
    others.append(script.do(55, script.variable(option(t), 3)))
    terms = [*literals, *variables, *mixed, *others]
    for x in terms:
        for attribute in attributes:
            for operation in (56, 74, 75):
                got = script.do(operation, x, parameter=attribute)
                if got is not None and script.types[got][0] == "Opt":
                    script.do(60, got)
        for attribute in sorted({0, 4, LARGEST - 1, LARGEST} - set(attributes)):
            script.do(74, x, parameter=attribute)
        for y in terms:
            script.do(24, x, y)
            script.do(25, g, x, y)
    yield script


def bitvec_scripts(numbers, width):
    """The cases of tools/vectors at and around the edges, and every mixture of a literal and variables."""
    t = bitvec(width)
    binary = [*range(31, 45), 46, 47, 48]
    for operations in (binary[:6], binary[6:12], binary[12:], [30, 45, 49]):
        script = Script()
        a, b, x = script.variable(t, 0), script.variable(t, 1), script.literal(t, min(2**width - 1, LONGEST_SHIFT))
        for operation in operations:
            chosen = cases.at_edges(operation, width, LONGEST_SHIFT) | cases.chosen(numbers, operation, width, 6, LONGEST_SHIFT)
            for _, _, first, second in sorted(chosen):
                literal = script.literal(t, first % 2**width)
                if operation == cases.EXTEND:
                    for k in (literal, a):
                        script.do(operation, script.do(operation, k, parameter=second), parameter=0)
                elif operation in cases.UNARY:
                    script.do(operation, literal)
                else:
                    script.do(operation, literal, script.literal(t, second))
            if operation == 45:
                script.do(operation, a)
            elif operation == 30:
                script.do(operation, script.do(operation, a))
            elif operation != cases.EXTEND:
                for first, second in ((a, x), (x, a), (a, a), (a, b)):
                    script.do(operation, first, second)
        if width == 64:
            for k in script.terms[t][:40]:
                script.do(71, k)
        yield script


def huge_shift_script(numbers):
    """Shifts of literals by 2^32 and more, where the original panics; no later line takes their results up."""
    script = Script()
    for width in (33, 34, 48, 63, 64):
        t = bitvec(width)
        for operation in cases.SHIFTS:
            for amount in (2**32, 2**32 + 1, 2**width - 1, 2 ** (width - 1)):
                value = script.literal(t, numbers.choice((0, 1, 2**width - 1)))
                script.do(operation, value, script.literal(t, amount), used=False)
    yield script


def long_scripts(numbers):
    """Lists of 64 fields, and of 256 members and options."""
    wide, narrow = bitvec(16), bitvec(3)
    script = Script(10 * LONGEST_TEXT)
    literals = [script.literal(wide, 37 * number) for number in range(256)]
    few = [script.literal(narrow, number) for number in range(8)]
    lists = [literals, literals[::-1], literals[1:], literals[::2], [script.variable(wide, 0), *literals[1:]]]
    sets = [script.set(wide, members) for members in lists]
    for x in sets:
        for y in sets:
            for operation in (24, 51, 52, 54):
                script.do(operation, x, y)
        for member in (literals[0], literals[255], literals[77], script.variable(wide, 0)):
            script.do(50, member, x)
        script.do(53, x)
    script.set(narrow, [numbers.choice(few) for _ in range(256)])
    yield script
    script = Script(10 * LONGEST_TEXT)
    options = [script.variable(option(BOOL), number) for number in range(128)]
    options += [script.do(13, script.variable(BOOL, number)) for number in range(128)]
    none = script.none(BOOL)
    script.do(65, *options)
    script.do(65, *options[:255], none)
    script.do(65, none, *options[:255])
    script.do(65, *options[128:], *options[128:])
    script.do(66, options[3], *options)
    script.do(66, script.variable(BOOL, 5), *options[::-1])
    script.do(66, options[130], *options[128:], none)
    yield script
    script = Script(10 * LONGEST_TEXT)
    values = [script.variable(BOOL, number) for number in range(64)]
    options = [script.do(13, k) for k in values[:32]] + [script.variable(option(BOOL), number) for number in range(32)]
    repeated = [3 * (number % 5) for number in range(64)]
    for attributes in (range(64), range(63, -1, -1), repeated, range(LARGEST, LARGEST - 64, -1)):
        whole = script.do_fields(15, list(zip(attributes, values)))
        script.do_fields(73, list(zip(attributes, options)))
        for attribute in (attributes[0], attributes[63], attributes[20]):
            for operation in (56, 74, 75):
                script.do(operation, whole, parameter=attribute)
                script.do(operation, script.variable(script.types[whole], 1), parameter=attribute)
        script.do(74, whole, parameter=1000)
    script.do_fields(73, [(number, script.do(13, k)) for number, k in enumerate(values)])
    script.do_fields(73, [(number, script.none(BOOL)) for number in range(64)])
    yield script


def edge_scripts(numbers):
    fields = record([(1, BOOL), (2, bitvec(8))])
    mixed = record([(0, option(bitvec(64))), (1, BOOL), (2, option(BOOL)), (5, set_of(bitvec(1))), (LARGEST, fields)])
    yield from bool_scripts()
    for element in (BOOL, bitvec(5), option(bitvec(64)), option(option(BOOL)), fields, set_of(bitvec(2)), mixed):
        yield from option_scripts(element)
    for element in (BOOL, bitvec(1), bitvec(64), option(bitvec(4)), fields, option(option(BOOL))):
        yield from set_scripts(element)
    for t in (fields, mixed, record([(3, option(option(BOOL)))]), record([(7, mixed), (9, option(fields))])):
        yield from record_scripts(t)
    for width in range(1, WIDEST + 1):
        yield from bitvec_scripts(numbers, width)
    yield from long_scripts(numbers)
    yield from huge_shift_script(numbers)


# ---- random scripts


class RandomScript(Script):
    """Lines drawn one after the other, on results of earlier lines; most of one group of operations."""

    def __init__(self, numbers, steps):
        super().__init__()
        self.below, self.choice = numbers.below, numbers.choice
        self.numbers = numbers
        self.widths = [self.choice((1, 2, 3, 4, 8, 16, 31, 32, 33, 63, 64, 1 + self.below(64))) for _ in range(2)]
        theme = list(self.choice(list(GROUPS.values())[1:]))
        operations = [operation for operation in OPERATIONS if operation > 5] + theme * (1 + 60 // len(theme))
        for t in [BOOL, bitvec(self.widths[0]), *(self.draw_type(2) for _ in range(3))]:
            self.new(t, 2)
        while steps > 0:
            steps -= 1
            kind = self.below(40)
            if kind == 0:
                self.make_type(self.draw_type(2))
            elif kind == 1:
                self.again()
            elif kind == 2:
                self.layers()
            else:
                self.step(self.choice(operations))

    # ---- what is drawn

    def draw_type(self, depth, sets=True):
        kind = self.below(9 if depth else 4)
        if kind < 2:
            return BOOL
        if kind < 4:
            return bitvec(self.choice(self.widths))
        if kind < 6:
            return option(self.draw_type(depth - 1, sets))
        if kind == 6 and sets:
            return set_of(self.draw_type(depth - 1, False))
        return record((self.attribute(), self.draw_type(depth - 1, sets)) for _ in range(self.below(4)))

    def attribute(self):
        return self.choice((0, 1, 1, 2, 2, 3, LARGEST))

    def kind_of_type(self, kind, sets=True):
        """A type of this kind that has terms, or a new one."""
        known = self.kinds[kind]
        if not sets:
            known = [t for t in known if set_free(t)]
        if known and self.below(12):
            return self.choice(known)
        inner = self.draw_type(1, sets and kind != "Set")
        if kind == "Rec":
            return record([(self.attribute(), inner), (self.attribute(), self.draw_type(1, sets))])
        return {"Bool": BOOL, "BV": bitvec(self.choice(self.widths)), "Opt": option(inner), "Set": set_of(inner)}[kind]

    def any_type(self, sets=True):
        kinds = ("Bool", "BV", "Opt", "Opt", "Set", "Rec") if sets else ("Bool", "BV", "BV", "Opt", "Rec")
        return self.kind_of_type(self.choice(kinds), sets)

    def term(self, t):
        """A term of a type: an earlier one, the shorter of two, or a new one."""
        pool = self.terms.get(t)
        if not pool or not self.below(10):
            return self.new(t, 1)
        first, second = self.choice(pool), self.choice(pool)
        return first if self.lengths[first] <= self.lengths[second] or not self.below(3) else second

    def pair(self, t):
        """Two of a type, now and then the same, a Bool and its negation, or two Somes."""
        kind = self.below(8)
        if kind < 3 and t[0] == "Opt":
            return self.do(13, self.term(t[1])), self.do(13, self.term(t[1]))
        first = self.term(t)
        if kind == 0:
            return first, first
        if kind == 1 and t == BOOL:
            other = self.do(20, first)
            return (first, other) if self.below(2) else (other, first)
        return first, self.term(t)

    def drawn_variable(self, t):
        return self.variable(t, self.choice((0, 0, 1, 1, 2, LARGEST)))

    def new(self, t, depth):
        """A new term of a type, which is short where a longer one does not fit."""
        kind = self.below(8)
        made = None
        if kind == 0 and depth:
            made = self.applied(t, self.term(self.any_type()), self.below(2))
        elif kind == 1 and depth:
            made = self.do(25, self.term(BOOL), self.new(t, 0), self.new(t, 0))
        elif kind > 2:
            made = self.built(t)
        return self.drawn_variable(t) if made is None else made

    def built(self, t):
        kind = t[0]
        if kind == "Bool":
            return self.literal(t, self.below(2))
        if kind == "BV":
            return self.literal(t, cases.operand(self.numbers, t[1]))
        if kind == "Opt":
            return self.do(13, self.term(t[1])) if self.below(3) else self.none(t[1])
        if kind == "Set":
            return self.set(t[1], self.terms_of(t[1], self.below(5)))
        return self.do_fields(15, [(attribute, self.term(field)) for attribute, field in t[1]])

    def terms_of(self, t, count):
        return [self.term(t) for _ in range(count)]

    def options(self, count):
        return [self.term(self.kind_of_type("Opt")) for _ in range(count)]

    def amount(self, t):
        """A shift's second operand: no literal above LONGEST_SHIFT."""
        width = t[1]
        if width <= 16 and self.below(2):
            return self.term(t)
        kind = self.below(4)
        if kind == 0:
            return self.drawn_variable(t)
        if kind == 1:
            return self.applied(t, self.term(t), 1)
        amount = self.choice((0, 1, width - 1, width, width + 1, 2 * width, self.below(LONGEST_SHIFT)))
        return self.literal(t, min(amount, 2**width - 1))

    # ---- one instruction

    def again(self):
        """An earlier instruction once more: its result is the same position."""
        at = self.below(len(self.lines))
        if not self.is_type[at]:
            self.add(self.lines[at], self.types[at], False, self.lengths[at])

    def layers(self):
        """Options in options, of which eq and ite unwrap one layer, and option_get lays the next one bare."""
        t = option(self.any_type())
        first, second = (self.do(13, self.built(t)) for _ in range(2))
        self.do(24, first, second)
        bare = self.do(55, self.do(25, self.term(BOOL), first, second))
        self.do(self.choice((55, 60, 61)), bare)

    def step(self, operation):
        if operation < 20:
            self.maker(operation)
        elif operation < 30:
            self.core(operation)
        elif operation < 50:
            self.bitvector(operation)
        elif operation < 60:
            self.part(operation)
        elif operation < 70:
            self.helper(operation)
        else:
            self.compiled(operation)

    def maker(self, operation):
        if operation == 10:
            self.literal(BOOL, self.below(2))
        elif operation == 11:
            t = self.kind_of_type("BV")
            self.literal(t, cases.operand(self.numbers, t[1]))
        elif operation == 12:
            self.none(self.any_type())
        elif operation == 13:
            self.do(13, self.term(self.any_type()))
        elif operation == 14:
            t = self.any_type(sets=False)
            self.set(t, self.terms_of(t, self.below(7)))
        elif operation == 15:
            self.do_fields(15, [(self.attribute(), self.term(self.any_type())) for _ in range(self.below(5))])
        else:
            self.drawn_variable(self.any_type())

    def core(self, operation):
        if operation == 20:
            self.do(20, self.term(BOOL))
        elif operation == 24:
            self.do(24, *self.pair(self.any_type()))
        elif operation == 25:
            self.do(25, self.term(BOOL), *self.pair(self.any_type()))
        elif operation == 26:
            self.applied(self.any_type(), self.term(self.any_type()), self.choice((0, 1, LARGEST)))
        else:
            self.do(operation, *self.pair(BOOL))

    def bitvector(self, operation):
        t = self.kind_of_type("BV")
        if operation in cases.UNARY:
            self.do(operation, self.term(t))
        elif operation == cases.EXTEND:
            most = WIDEST - t[1]
            self.do(operation, self.term(t), parameter=self.choice((0, min(1, most), most, self.below(most + 1))))
        elif operation in cases.SHIFTS:
            self.do(operation, self.term(t), self.amount(t))
        elif self.below(3):
            self.do(operation, *self.pair(t))
        else:
            first = cases.operand(self.numbers, t[1])
            second = cases.second_operand(self.numbers, operation, t[1], first, LONGEST_SHIFT)
            self.do(operation, self.literal(t, first), self.literal(t, second))

    def part(self, operation):
        if operation == 50:
            t = self.kind_of_type("Set")
            self.do(50, self.term(t[1]), self.term(t))
        elif operation in (51, 52, 54):
            self.do(operation, *self.pair(self.kind_of_type("Set")))
        elif operation == 56:
            self.attribute_of(56)
        else:
            self.do(operation, self.term(self.kind_of_type("Set" if operation == 53 else "Opt")))

    def attribute_of(self, operation):
        t = self.kind_of_type("Rec")
        there = [attribute for attribute, _ in t[1]]
        if operation == 74 and not self.below(4):
            self.do(74, self.term(t), parameter=self.attribute())
        elif there:
            self.do(operation, self.term(t), parameter=self.choice(there))

    def helper(self, operation):
        if operation in (60, 61):
            self.do(operation, self.term(self.kind_of_type("Opt")))
        elif operation in (62, 63):
            self.do(operation, self.term(BOOL), self.term(self.any_type()))
        elif operation == 64:
            self.do(64, *self.options(1), self.term(self.any_type()))
        else:
            options = self.options(self.choice((0, 1, 2, 2, 3, 4, 6)))
            self.do(operation, *([self.term(self.any_type())] if operation == 66 else []), *options)

    def compiled(self, operation):
        if operation == 73:
            self.do_fields(73, [(self.attribute(), *self.options(1)) for _ in range(self.below(5))])
        elif operation > 73:
            self.attribute_of(operation)
        else:
            self.do(operation, self.term({70: BOOL, 71: bitvec(64)}.get(operation) or self.kind_of_type("Set")))


def random_scripts(seed, count):
    numbers = cases.Numbers(seed)
    for _ in range(count):
        yield RandomScript(numbers, 60)
