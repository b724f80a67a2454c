#!/usr/bin/env python3
"""Respells, in the proof files of crates, the names that Rattle makes of the code: a call keeps its own underscores there, where it once had dashes.

usage: python3 tools/name_goals.py NAME..      at the top of the repository, over the crates NAME
"""
import json
import os
import re
import subprocess
import sys
import tempfile

sys.path.insert(0, os.path.dirname(os.path.abspath(__file__)))
import respell


def strings(value, found):
    if isinstance(value, str):
        found.update(w for w in re.split(r"[ .]+", value) if w)
    elif isinstance(value, dict):
        for k, v in value.items():
            strings(v, found)
    elif isinstance(value, list):
        for v in value:
            strings(v, found)


def plain(name):
    return name.replace("_", "-")


def own():
    return {n for path in respell.files("crates", ".antt") for n in respell.declared(path)}


def main():
    mine = own()
    for crate in sys.argv[1:]:
        with tempfile.TemporaryDirectory() as d:
            subprocess.run(["rt", "check", "--generated", d, "--old-names"], cwd=os.path.join("crates", crate), stdout=subprocess.DEVNULL, stderr=subprocess.DEVNULL)
            with open(os.path.join(d, "names.json")) as f:
                names = json.load(f)
        for key, parts in names.items():
            m = re.match(r"Rattle-\w+-proofs\.(.*)\.Lts$", key)
            folder = m and os.path.join("crates", crate, "proofs", *m.group(1).split("."))
            if not folder or not os.path.isdir(folder):
                continue
            made = set()
            strings(parts, made)
            made |= {n[0].lower() + n[1:] for n in made}
            by_plain = {}
            for n in made:
                by_plain.setdefault(plain(n), set()).add(n)
            for name in sorted(os.listdir(folder)):
                path = os.path.join(folder, name)
                if not name.endswith(".antt"):
                    continue
                with open(path, encoding="utf-8") as f:
                    old = f.read()

                def turn(t):
                    if t in made or t in mine:
                        return t
                    to = by_plain.get(plain(t), ())
                    return next(iter(to)) if len(to) == 1 else t

                def ways(m):
                    return "".join(turn(t) for t in re.split(r"(\+|-via-)", m.group(0)))

                new = respell.TOKEN.sub(ways, old)
                if new != old:
                    with open(path, "w", encoding="utf-8") as f:
                        f.write(new)
                    print("turned", path)


if __name__ == "__main__":
    main()
