#!/usr/bin/env python3
"""Brings the definitions and lemmas of this repository to the spelling of today's Rattle: snake case in place of camel case.

usage: python3 tools/respell.py          at the top, once, after /opt/rattle/port/port.py
       python3 tools/respell.py --list   writes the names, old and new, and changes nothing

What is respelled: each name that an .antt file of crates/ declares (a definition, a lemma, a field, a constructor) and that begins in lower case and
has a capital letter inside; also where it is part of a longer name (length-rowsFrom). It is respelled in .antt files, in .rt files and in the edits of
must-fail/ and tests/edits; functions of src/, exported names, strings, inputs and outputs have no such name, so they stay. Types and modules begin with a capital.
"""

import glob
import re
import sys

PART = re.compile(r"[a-z][A-Za-z0-9_]*")
DECLARED = re.compile(r"^\s*(?:(?:abbrev|unfoldable|pub|mutual)\s+)*((?:[a-z][^\s:(){}.,;]*\s+)*[a-z][^\s:(){}.,;]*)\s+:")
NAMED = re.compile(r"[A-Za-z_][A-Za-z0-9_]*")
# parts of lemmas' names that are themselves no name of this repository any more, since port.py has respelled the library's
LIBRARY = {"flatMap", "natAbs", "bytesOf", "rowsFrom", "loadingTold"}

# lemmas that would fall together with a definition: these keep their dash, which port.py had made an underscore
APART = {
    "crates/search/proofs/Points.antt": {"first_out": "first-out"},
    "crates/search_rows/proofs/Appended.antt": {"cell_in": "cell-in"},
    "crates/astar/proofs/BeginLaws.antt": {"cell_in": "cell-in"},
    "crates/astar/proofs/WayLaws.antt": {"way_back": "way-back"},
    "crates/astar/proofs/EndLaws.antt": {"way_back": "way-back"},
    "crates/astar/proofs/InnerTheorems.antt": {"way_back": "way-back"},
    "crates/rollup/proofs/Ranking.antt": {"in_order": "in-order"},
    "crates/sorting/proofs/InOrder.antt": {"with_first": "with-first"},
}


def snake(name):
    return re.sub(r"(?<=[a-z0-9])([A-Z])", lambda m: "_" + m.group(1), name).lower()


def is_camel(name):
    return name[:1].islower() and re.search(r"[a-z0-9][A-Z]", name) is not None


def main(argv):
    antt = sorted(glob.glob("crates/*/specs/**/*.antt", recursive=True) + glob.glob("crates/*/proofs/**/*.antt", recursive=True))
    others = sorted(glob.glob("crates/*/src/**/*.rt", recursive=True) + glob.glob("crates/*/must-fail/*.edit") + glob.glob("tests/edits/**/*.edit", recursive=True))
    texts = {}
    for path in antt + others:
        with open(path, encoding="utf-8") as f:
            texts[path] = f.read()
    own = set(LIBRARY)
    for path in antt:
        for line in texts[path].splitlines():
            m = DECLARED.match(line)
            for word in m.group(1).split() if m else []:
                own.update(part for part in PART.findall(word) if is_camel(part))
    new = {name: snake(name) for name in sorted(own)}
    if argv == ["--list"]:
        for name in new:
            print(name, new[name])
        return 0
    for path, text in texts.items():
        apart = APART.get(path, {})
        after = NAMED.sub(lambda m: apart.get(m.group(0)) or new.get(m.group(0), m.group(0)), text)
        if after != text:
            with open(path, "w", encoding="utf-8") as f:
                f.write(after)
    print(f"respell: {len(new)} names")
    return 0


if __name__ == "__main__":
    sys.exit(main(sys.argv[1:]))
