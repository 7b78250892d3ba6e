#!/usr/bin/env python3
"""Makes what crates/wellformed_damage must write: which single-cell changes of a small arena leave it well formed.
`--check` compares with the stored file instead of storing. Reads document 01, and nothing of the crates."""
import os
import sys

STDOUT = "crates/wellformed_damage/stdout"
HOME = os.path.join(os.path.dirname(os.path.realpath(__file__)), "..", "..")
LARGEST = 160
SMALL = 1 << 32

# kind, type, parameter, members
FRESH = [(1, 0, 0, []), (16, 0, 0, []), (16, 0, 1, [])]
SOUND = FRESH + [
    (2, 0, 2, []),  # 12
    (3, 0, 0, [12]),  # 16
    (4, 0, 0, [12]),  # 21
    (5, 0, 0, [1, 0, 3, 12]),  # 26
    (17, 12, 1, []),  # 34
    (17, 12, 2, []),  # 38
    (19, 16, 0, [34]),  # 42
    (20, 21, 0, [34, 38]),  # 47
    (21, 26, 0, [1, 4, 3, 38]),  # 53
    (22, 12, 5, []),  # 61
    (131, 12, 0, [34, 61]),  # 65
    (156, 12, 3, [53]),  # 71
]
UNUSED = 4

BOOL = ("Bool",)


class Refused(Exception):
    """The arena is not well formed."""


def need(holds):
    if not holds:
        raise Refused


def at(known, position):
    """What stands at a position; `known` has the types, or the terms, below the node in question."""
    need(position in known)
    return known[position]


def rises(numbers):
    return all(a < b for a, b in zip(numbers, numbers[1:]))


def fields(members, known):
    """The fields of a record or its type: the attribute, and the type at the position."""
    names = members[::2]
    need(len(members) % 2 == 0 and len(names) <= 64 and rises(names) and all(name < SMALL for name in names))
    return tuple(zip(names, [at(known, position) for position in members[1::2]]))


def contains_set(this):
    if this[0] == "Record":
        return any(contains_set(held) for _, held in this[1])
    return this[0] == "Set" or this[0] == "Option" and contains_set(this[1])


def type_made(types, kind, parameter, members):
    """The type that a type's node stands for: its name, and its width, its element type or its fields."""
    if kind == 2:
        need(not members and 1 <= parameter <= 64)
        return "Bitvec", parameter
    need(parameter == 0)
    if kind == 1:
        need(not members)
        return BOOL
    if kind == 5:
        return "Record", fields(members, types)
    need(kind in (3, 4) and len(members) == 1)
    element = at(types, members[0])
    need(kind == 3 or not contains_set(element))
    return "Option" if kind == 3 else "Set", element


def made(terms, kind, result, parameter, members):
    """A literal, a None, a Some, a set, a record or a variable of the type `result`."""
    need(parameter == 0 or kind in (16, 17, 22))
    need(not members or kind in (19, 20, 21))
    if kind == 16:
        need(result == BOOL and parameter <= 1)
    elif kind == 17:
        need(result[0] == "Bitvec" and parameter < 1 << result[1])
    elif kind == 18:
        need(result[0] == "Option")
    elif kind == 19:
        need([("Option", at(terms, x)) for x in members] == [result])
    elif kind == 20:
        need(result[0] == "Set" and len(members) <= 256 and rises(members))
        need(all(at(terms, x) == result[1] for x in members))
    elif kind == 21:
        need(result == ("Record", fields(members, terms)))
    else:
        need(kind == 22 and parameter < SMALL)


# Of the operations that stand as nodes: how many operands, and of which sort, where all are of one type.
COUNT = {**dict.fromkeys(range(30, 53), 2), 20: 1, 21: 2, 22: 2, 24: 2, 25: 3, 26: 1, 30: 1, 45: 1, 49: 1, 55: 1, 56: 1}
SORT = {**dict.fromkeys((20, 21, 22), "Bool"), **dict.fromkeys(range(30, 50), "Bitvec"), 51: "Set", 52: "Set", 55: "Option", 56: "Record"}


def alike(operands):
    need(all(x == operands[0] for x in operands))
    return operands[0]


def result_of(operation, parameter, operands):
    """The type of an operation other than 26 on operands of these types."""
    if operation == 25:
        need(operands[0] == BOOL)
        return alike(operands[1:])
    if operation == 50:
        need(operands[1] == ("Set", operands[0]))
        return BOOL
    one = alike(operands)
    need(operation == 24 or one[0] == SORT[operation])
    if operation in (20, 21, 22, 24, 51) or 41 <= operation <= 48:
        return BOOL
    if operation == 49:
        return "Bitvec", one[1] + parameter
    if operation == 55:
        return one[1]
    if operation == 56:
        return at(dict(one[1]), parameter)
    return one


def applied(terms, operation, result, parameter, members):
    """An application of the type `result`."""
    need(len(members) == COUNT.get(operation))
    operands = [at(terms, x) for x in members]
    if operation == 26:
        need(parameter < SMALL)
    else:
        need(parameter == 0 or operation in (49, 56))
        need(result == result_of(operation, parameter, operands))


def split(cells, mark):
    """The nodes that fill the cells up to the mark, each with its position."""
    nodes, here = [], 0
    while here < mark:
        need(here + 4 <= mark and here + 4 + cells[here + 3] <= mark)
        end = here + 4 + cells[here + 3]
        nodes.append((here, (*cells[here:here + 3], cells[here + 4:end])))
        here = end
    return nodes


def require_arena(cells, mark):
    """Document 01's sentence on well-formed arenas."""
    need(12 <= len(cells) <= 65536 and mark <= len(cells))
    nodes = split(cells, mark)
    need([node for _, node in nodes[:3]] == FRESH)
    need(not any(cells[mark:]))
    types, terms, seen = {}, {}, []
    for position, node in nodes:
        kind, cell, parameter, members = node
        need(node not in seen)
        seen.append(node)
        if kind < 16:
            need(cell == 0)
            types[position] = type_made(types, kind, parameter, members)
            continue
        result = at(types, cell)
        if kind < 100:
            made(terms, kind, result, parameter, members)
        else:
            applied(terms, kind - 100, result, parameter, members)
        terms[position] = result


def well_formed(cells, mark):
    try:
        require_arena(cells, mark)
    except Refused:
        return False
    return True


def lines():
    """For each cell: the cell, how many other numbers are accepted there, and their sum."""
    sound = [cell for *header, members in SOUND for cell in (*header, len(members), *members)]
    mark = len(sound)
    sound += [0] * UNUSED
    assert well_formed(sound, mark)
    for i, old in enumerate(sound):
        others = [v for v in range(LARGEST + 1) if v != old]
        accepted = [v for v in others if well_formed(sound[:i] + [v] + sound[i + 1:], mark)]
        if accepted:
            yield "%02d %03d %05d" % (i, len(accepted), sum(accepted))


def main():
    made_here = list(lines())
    path = os.path.join(HOME, STDOUT)
    if sys.argv[1:] == ["--check"]:
        stored = open(path).read()
        if stored != "".join(line + "\n" for line in made_here):
            sys.exit("differs: " + STDOUT)
    else:
        with open(path, "w") as out:
            out.writelines(line + "\n" for line in made_here)
    print("%d cells, %d accepted changes" % (len(made_here), sum(int(line.split()[1]) for line in made_here)))


if __name__ == "__main__":
    main()
