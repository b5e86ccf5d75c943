#!/usr/bin/env python3
"""Spells the repository's own definitions, fields and lemmas as today's Rattle spells names: words in snake case, types in camel case.

usage: respell_names.py [--list]     at the top of the repository, once, after port.py and before anything is written by hand

It reads every .antt file below crates/, finds the names that are declared there, and writes the new spelling of those that differ into each
.antt, .rt and .edit file below crates/. A dash between two names stays; in a field or a constructor it becomes '_'. The calls keep the
capitals that the documents give them (READ, LINE, ..): in small letters they would fall together with parameters and functions.
--list only prints the old and new names. A target that another declaration has already is refused, unless it is in APART: there the two
never stand in one scope, or the lemma gets '_lem'.
"""

import os
import re
import sys

MARKS = r"(?:(?:pub|abbrev|unfoldable|private|opaque) )*"
TOKEN = re.compile(r"[^\s(){}\[\],;.·`\"]+")
# Declared in modules that are never in one scope.
APART = {"kept_on", "one_more", "written_at"}
# One file, one name, before the rest: what would fall together.
FIRST = [("crates/text/proofs/Reading.antt", "all_digits", "all_digits_lem")]
# The check makes a module specs.contracts.
MOVED = [("crates/storage/specs/Contracts.antt", "crates/storage/specs/Clauses.antt")]
MODULE = ("storage.specs.Contracts", "storage.specs.Clauses")
SPECIAL = {"getD-cond": "get_or-cond"}


def files(endings):
    for folder, dirs, names in os.walk("crates"):
        dirs[:] = sorted(d for d in dirs if d not in ("out", "target"))
        yield from (os.path.join(folder, n) for n in sorted(names) if n.endswith(endings))


def read(path):
    with open(path, encoding="utf-8") as f:
        return f.read()


def write(path, text):
    with open(path, "w", encoding="utf-8") as f:
        f.write(text)


def declared():
    """The kinds of each name that an .antt file declares."""
    kinds = {}
    for path in files(".antt"):
        inside, depth = None, 0
        for line in read(path).splitlines():
            if not line.strip() or re.match(r"\s*--", line):
                continue
            here = len(line) - len(line.lstrip())
            if inside and here <= depth:
                inside = None
            m = re.match(r"\s*" + MARKS + r"(record|data) (\S+)", line)
            if m:
                kinds.setdefault(m.group(2), set()).add("type")
                inside, depth = m.group(1), here
                continue
            m = re.match(r"\s*" + MARKS + r"([^\s:(){}.,;\[\]λ=]+(?: [^\s:(){}.,;\[\]λ=]+)*) :(?: |$)", line)
            if m:
                kind = {"record": "field", "data": "constructor"}.get(inside, "definition")
                for name in m.group(1).split():
                    kinds.setdefault(name, set()).add(kind)
    return kinds


def spelled(name, kinds):
    if name in SPECIAL:
        return SPECIAL[name]
    if re.fullmatch(r"[A-Z]+(-[A-Z]+)*", name):
        return name.replace("-", "_")
    parts = []
    for part in name.split("-"):
        if part and not part[0].isupper():
            part = re.sub(r"([a-z0-9])([A-Z])", lambda m: m.group(1) + "_" + m.group(2).lower(), part)
        parts.append(part)
    plain = kinds & {"field", "constructor"}
    return ("_" if plain else "-").join(parts)


def main(argv):
    kinds = declared()
    new = {n: spelled(n, k) for n, k in kinds.items()}
    new = {n: t for n, t in new.items() if n != t}
    # A function that no proof is named after is no lemma: its words are joined by '_'.
    new["use-line"] = "use_line"
    together = sorted(t for t in new.values() if t in kinds and t not in APART and t not in {f[1] for f in FIRST})
    if together:
        print("fall together: " + " ".join(together))
        return 1
    if "--list" in argv:
        print("\n".join(f"{n} {t}" for n, t in sorted(new.items())))
        return 0
    for path, old, name in FIRST:
        write(path, TOKEN.sub(lambda m: name if m.group() == old else m.group(), read(path)))
    for old, to in MOVED:
        if os.path.exists(old):
            os.rename(old, to)
            lib = os.path.join(os.path.dirname(old), "Lib.antt")
            write(lib, read(lib).replace("mod Contracts\n", "mod Clauses\n"))
    for path in files((".antt", ".rt", ".edit")):
        text = read(path)
        out = TOKEN.sub(lambda m: new.get(m.group(), m.group()), text).replace(*MODULE)
        if path.endswith(".edit"):
            out = out.replace("specs/Contracts.antt", "specs/Clauses.antt")
        if out != text:
            write(path, out)
    print(f"{len(new)} names")
    return 0


if __name__ == "__main__":
    raise SystemExit(main(sys.argv[1:]))
