#!/usr/bin/env python3
"""Respells this repository's own definitions and lemmas: words in snake case, types in camel case.

usage: python3 tools/respell.py     at the top, once, after the toolchain's own script port.py

A name is respelt where it stands in crates/*/specs, crates/*/proofs and the clauses of crates/*/src, outside comments.
The names of goals, which the toolchain makes of the code, stay.
"""

import pathlib
import re

NAME = r"[A-Za-z][\w'₀-₉]*(?:-[\w'₀-₉]+)+"
SIGNATURE = re.compile(rf"^\s*(?:abbrev |unfoldable )?(?:pub )?((?:{NAME}|\w+)(?: (?:{NAME}|\w+))*) : (.*)$")
TYPE = re.compile(rf"^\s*(?:pub )?(?:record|data) ({NAME})")


def respelt(name):
    parts = name.split("-")
    if name[0].isupper():
        return parts[0] + "".join(p[:1].upper() + p[1:] for p in parts[1:])
    return "_".join(parts)


def own_names(files):
    found = set()
    for path in files:
        for line in path.read_text().splitlines():
            line = line.split("--")[0]
            if m := TYPE.match(line):
                found.add(m[1])
            if (m := SIGNATURE.match(line)) and not m[2].startswith("goal."):
                found.update(n for n in m[1].split() if "-" in n)
    return found


def main():
    top = pathlib.Path("crates")
    antt = sorted(top.glob("*/specs/*.antt")) + sorted(top.glob("*/proofs/**/*.antt"))
    code = sorted(top.glob("*/src/**/*.rt"))
    own = own_names(antt)
    token = re.compile(rf"(?<![\w'₀-₉-])({NAME})(?![\w'₀-₉-])")
    texts = {p: p.read_text() for p in antt + code}
    new = {n: respelt(n) for n in own}
    for n, to in sorted(new.items()):
        if sum(to == other for other in new.values()) > 1:
            print(f"falls together: {n} -> {to}")
        if any(re.search(rf"(?<![\w'₀-₉-]){re.escape(to)}(?![\w'₀-₉-])", t) for p, t in texts.items() if p.suffix == ".antt"):
            print(f"stands already: {n} -> {to}")
    for path, text in texts.items():
        mark = "--" if path.suffix == ".antt" else "//"
        lines = []
        for line in text.split("\n"):
            front, sep, back = line.partition(mark)
            front = token.sub(lambda m: new.get(m[1], m[1]), front)
            lines.append(front + sep + back)
        path.write_text("\n".join(lines))
    print(f"{len(new)} names")


main()
