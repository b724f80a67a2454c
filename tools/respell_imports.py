#!/usr/bin/env python3
"""The second step after respell.py: names that an import gives, and lemmas inside a module, a let or a where, in snake case;
and the library's AllByRecursion under its own name, where an import called it All, which the gate refuses.

usage: python3 tools/respell_imports.py      at the top of the repository, once
"""
import re

import respell

NAMES = """
    addedBy barAt beyondOf broughtBy carriedBack carriedForth deductedBy labelAsked limitLeadOf lowUp nextLow pointAt rackAt
    sheetAsked slackOf snkOf standingAsked takenBy toldOf totalAsked totalOfPlan unitsOf useAsked whenTrue worthAsked worthOf
""".split()
# A lemma that would have its function's name.
BY_HAND = {n: n.replace("-", "_") + "_lem" for n in ("is-bar", "is-rack", "lowers-in", "lowers-out", "rack-far", "told-worth")}
INSIDE = re.compile(r"^\s+(?:pub |abbrev |unfoldable )*([a-z][^\s:(){}.,;=λ]*-[^\s:(){}.,;=λ]*)(?:\s+:\s|(?: [\w'?]+)* = )")


def inside():
    for path in respell.files("crates", ".antt"):
        with open(path, encoding="utf-8") as f:
            for line in f:
                m = INSIDE.match(line)
                if m:
                    yield m.group(1)


def main():
    table = {n: respell.snake(n) for n in [*NAMES, *inside()]} | BY_HAND
    for path in respell.files("crates", ".antt", ".rt", ".edit"):
        with open(path, encoding="utf-8") as f:
            old = f.read()
        # after a dot, what a branch says of a variable (`w.flow-is`) is Rattle's name
        new = respell.TOKEN.sub(lambda m: m.group(0) if m.group(0).endswith("-is") and old[m.start() - 1 : m.start()] == "." else table.get(m.group(0), m.group(0)), old)
        if "AllByRecursion as All" in new:
            new = new.replace("AllByRecursion as All", "AllByRecursion")
            new = "\n".join(l if l.startswith(("--", "//")) else re.sub(r"(?<![\w'.-])All(?![\w'-])", "AllByRecursion", l) for l in new.split("\n"))
        if new != old:
            with open(path, "w", encoding="utf-8") as f:
                f.write(new)


if __name__ == "__main__":
    main()
