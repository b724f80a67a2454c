#!/usr/bin/env python3
"""Respells the definitions and lemmas of specs/ and proofs/: functions, lemmas and fields in snake case, facts and types in upper camel case.

usage: python3 tools/respell.py [--list]      at the top of the repository; --list only prints the table

Names of Rattle's own (a goal, a loop, a branch) and names that come from src/ keep their spelling.
"""
import os
import re
import sys

TOKEN = re.compile(r"[^\s(){}\[\].,;:\"`]+")
WORDS = r"(?:(?:pub|abbrev|unfoldable|data|record|mutual) )*"
# A name that is respelled by hand, where the rule would make it fall together with another or read badly.
BY_HAND = {
    "demand-lead": "demand_lead_lem",
    "four-parts": "four_parts_lem",
    "limit-lead": "limit_lead_lem",
    "line-from": "line_from_lem",
    "line-shown": "line_shown_lem",
    "return-lead": "return_lead_lem",
    "short-label": "short_label_lem",
    "short-labels": "short_labels_lem",
    "shortage-shown": "shortage_shown_lem",
    "supply-lead": "supply_lead_lem",
    "three-parts": "three_parts_lem",
    "two-parts": "two_parts_lem",
    "head-of": "head_of_lem",
    "left-of": "left_of_lem",
    "point-count": "point_count_lem",
    "run-count": "run_count_lem",
    "tail_of": "tail_of_lem",
    "line_read": "line_read_lem",
    "lines_left": "lines_left_lem",
    "shown_of": "shown_of_lem",
    "says-yes": "says_yes_to",
}

# Names of which the kit's own script turned the spelling, in specs/ and proofs/ but in no page.
TURNED = """
    above-from above-most added-next added-out adds-same after-call after-front after-more after-next after-none after-push after-two all-digits all-in
    all-runs andThen answerIn answers-agree at-front at-last at-least at-most-one at-next at-one at-place back-at back-head back-is below-all below-more
    below-none below-one by-first by-in by-out by-runs byte-more codeOf coded-none cond-same count-kept count-next count-none countTo crossing-is down-out
    drop-min drop-more each-all each-more end-fits end-read end-whole ending-at endsAt every-more exit-in field-put first-byte first-count first-ended
    first-range first-runs first-said flows-then formOf found-inside front-length going-more has-room head-in headOf held-all idle-ended in-list is-found
    is-one isMax itemOf joined-is kept-then keptAt kindOf label-is labelOf laid-more last-more last-of lastOf lastOr lastTo lead-is leftOf line-read
    line-refused lineAt lines-after lines-from lines-left linesOf linkAt linkOf lone-is made-more map-same markOf moved-here moved-length moved-none
    moved-other next-fits no-end no-gap no-lower no-more noRun none-from none-left none-of none-yet not-carried not-none not-so not-three numberIn
    numberOf old-apart one-each one-last one-more only-same only-sum only-zero out-of paired-is partAt passed-on place-in placed-at placed-one planOf
    push-kept put-last raised-at raised-is read-back readOn restOf rises-by role-kept roles-more room-back room-fits run-more runOf same-count same-load
    same-place same-point same-read same-some same-test says-nothing second-at second-range shapeOf shifted-sum short-ok shown-of some-more some-same
    spent-all srcOf startOf stateOf sum-below sum-first sum-fits sum-more sum-one sum-runs sum-same sumOf sumTo tail-apart tail-of then-some three-said
    told-none too-long totalOf up-at word-of wordAt
""".split()


def files(top, *endings):
    for folder, dirs, names in os.walk(top):
        dirs[:] = sorted(d for d in dirs if d not in ("out", ".git", "target"))
        for name in sorted(names):
            if name.endswith(endings):
                yield os.path.join(folder, name)


def declared(path):
    """The names that a file of specs/ or proofs/ declares, without the answers to goals."""
    rules = False
    for line in open(path, encoding="utf-8"):
        if line.startswith(("use ", "open ", "mod ", "pub mod", "unfolding", "unfold ", "--")):
            continue
        m = re.match(r"^" + WORDS + r"([^\s:(){}.,;]+)\s+[^=]*?:", line) or re.match(r"^" + WORDS + r"(?:data|record) ([^\s:(){}.,;]+)", line)
        if m and not re.search(r":\s+(?:goal|need|name)\.", line):
            yield m.group(1)
        m = re.match(r"^\s+pub ([^\s:(){}.,;λ]+)\s+:\s", line) or (rules and re.match(r"^\s+([^\s:(){}.,;λ]+)\s+:\s", line))
        if m:
            yield m.group(1)
        rules = (rules and line.strip() != "") or re.match(r"^(?:pub )?data ", line)


def snake(name):
    if name in BY_HAND:
        return BY_HAND[name]
    if name[0].isupper():
        return re.sub(r"-(\w)", lambda m: m.group(1).upper(), name)
    name = name.replace("getD", "get_or")
    name = re.sub(r"([a-z0-9])([A-Z])", lambda m: m.group(1) + "_" + m.group(2).lower(), name)
    return name.replace("-", "_")


def table(top):
    names = set()
    for path in files(os.path.join(top, "crates"), ".antt"):
        names.update(declared(path))
    names.update(n for n in BY_HAND if "-" not in n)
    return {n: snake(n) for n in sorted(names) if snake(n) != n}


def turned(names, text):
    return TOKEN.sub(lambda m: names.get(m.group(0), m.group(0)), text)


def main():
    t = table(".")
    if "--list" in sys.argv:
        for a, b in t.items():
            print(a, b)
        return
    pages = {n: snake(n) for n in TURNED} | {n: s for n, s in t.items() if n not in ("tail_of", "line_read", "lines_left", "shown_of")}
    for path in files(".", ".antt", ".rt", ".edit", ".md"):
        with open(path, encoding="utf-8") as f:
            old = f.read()
        if path.endswith(".md"):
            new = re.sub(r"`[^`]+`", lambda code: turned(pages, code.group(0)), old)
        else:
            new = turned(t, old)
        if new != old:
            with open(path, "w", encoding="utf-8") as f:
                f.write(new)


if __name__ == "__main__":
    main()
