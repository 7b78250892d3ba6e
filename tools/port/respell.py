#!/usr/bin/env python3
"""Brings the repository's own definitions, lemmas, constructors and fields to Rattle's spelling: snake case, and a dash only between two names.

usage: tools/port/respell.py [--list]

Run once, right after the kit's port.py. It reads what specs/ and the lemma files of proofs/ declare, makes a table of old and new names, and turns every
clause and antt file by it with the kit's snake.py. --list prints the table and what meets another name, and writes nothing.
"""
import collections
import os
import re
import subprocess
import sys
import tempfile

KIT = "/opt/rattle/port/notes/2026-11-18-names-are-in-snake-case/snake.py"
ROOT = os.path.join(os.path.dirname(os.path.abspath(__file__)), "..", "..")
DECLARED = re.compile(
    r'^(?P<in> *)(?P<marks>(?:(?:unfoldable|abbrev|pub|pattern|data|record) )*)(?P<name>[^\s(){}.;,@"«»]+)(?: \{[^{}]*\})*(?: \([^()]*\))* :(?P<type>.*)$'
)
# words of std for operations and orders, which a dash joins to a name
WORDS = set("le lt mem map take drop length cons cond mod div".split())
# names that would meet another, or read as one of std's: what they become
CHOSEN = {"getOr": "value_or"}
# lemmas that port.py respelled, and that would meet the definition they are about: they end in _lem, in the files that declare or import them
LEMMAS = ["bool_at", "one_type", "set_free", "has_some"]


def files():
    for folder, dirs, names in os.walk(os.path.join(ROOT, "crates")):
        dirs[:] = sorted(d for d in dirs if d not in ("out", "must-fail", "data"))
        for it in sorted(names):
            if it.endswith((".antt", ".rt")):
                yield os.path.join(folder, it)


def read(path):
    with open(path, encoding="utf-8") as f:
        return f.read()


def is_lemma_file(path):
    return path.endswith(".antt") and os.path.basename(path) not in ("Proof.antt", "Lib.antt")


def declared():
    """Each name that specs/ or a lemma file declares, with the texts of its types."""
    found = collections.defaultdict(list)
    for path in filter(is_lemma_file, files()):
        for line in read(path).split("\n"):
            m = DECLARED.match(line)
            if m and not line.lstrip().startswith("--"):
                found[m["name"]].append((path, m["marks"], m["type"]))
    return found


def is_type(name, places):
    return name[0].isupper() and any("data" in m.split() or "record" in m.split() or re.search(r"Type \d|Type$", t) for _, m, t in places)


def snake(word):
    word = re.sub(r"(?<=[a-z0-9₀-₉])([A-Z])", lambda m: "_" + m[1].lower(), word)
    return word.replace("′", "'")


def table():
    found = declared()
    names = WORDS | {snake(n) for n, at in found.items() if "-" not in n and any("/specs/" in p for p, _, _ in at)}
    rows = {}
    for name, places in found.items():
        if is_type(name, places) or not re.search(r"-|′|[a-z0-9][A-Z]", name):
            continue
        parts = [snake(it) for it in name.split("-")]
        new = parts[0]
        for before, part in zip(parts, parts[1:]):
            new += ("-" if before in names and part.rstrip("'") in names else "_") + part
        new = CHOSEN.get(name, new)
        if new != name:
            rows[name] = new
    taken = {snake(n) for n in found if "-" not in n}
    for name, new in rows.items():
        if "-" in name and new in taken:
            rows[name] = new + "_lem"
    return rows, found


def lemmas():
    """Renames LEMMAS where a file declares one or imports it from proofs."""
    for name in LEMMAS:
        for path in files():
            text = read(path)
            if not path.endswith(".antt") or not re.search(rf"(?m)^ *(?:pub )?{name} .*:|^use \S+\.proofs\.\S*\{{[^}}]*\b{name}\b", text):
                continue
            with open(path, "w", encoding="utf-8") as f:
                f.write(re.sub(rf"(?<![\w.'-]){name}(?![\w'-])", name + "_lem", text))


def tokens():
    """Every word of the antt files and of the sources."""
    seen = collections.defaultdict(set)
    for path in files():
        for word in re.findall(r'[^\s(){}\[\].;,@"«»]+', read(path)):
            seen[word].add(os.path.relpath(path, ROOT))
    return seen


def main(argv):
    rows, found = table()
    seen = tokens()
    news = collections.Counter(rows.values())
    for old, new in sorted(rows.items()):
        met = [p for p in seen.get(new, ()) if p.endswith(".antt") or new in found]
        note = "  TWICE" if news[new] > 1 else ""
        note += f"  MEETS {' '.join(sorted(met)[:4])}" if met else ""
        if argv == ["--list"]:
            print(f"{old}\t{new}{note}")
    if argv == ["--list"]:
        return 0
    lemmas()
    with tempfile.TemporaryDirectory() as d:
        spelled, steps = os.path.join(d, "table.tsv"), os.path.join(d, "steps.txt")
        with open(spelled, "w", encoding="utf-8") as f:
            f.write("".join(f"{old}\t{new}\n" for old, new in sorted(rows.items())))
        # behind a dot such a name is a step of a proof, called as the function is
        with open(steps, "w", encoding="utf-8") as f:
            f.write("".join(old + "\n" for old, new in sorted(rows.items()) if new.endswith("_lem")))
        return subprocess.run([sys.executable, KIT, "--table", spelled, "--keep-after-dot", steps, "--only", "antt,rt", os.path.join(ROOT, "crates")]).returncode


if __name__ == "__main__":
    raise SystemExit(main(sys.argv[1:]))
