#!/usr/bin/env python3
"""Spells the repository's own definitions, lemmas and fields as today's Rattle does: words in snake case.

usage: python3 tools/respell.py          at the top, once, right after the kit's port.py

It renames what the files of specs/ and the lemma files of proofs/ declare: `withDefaults` becomes `with_defaults`, `hash-below`
becomes `hash_below`. Where a lemma would get the name of a definition, the lemma gets `_lem`. Types, names of src/, strings and
exported names stay. In comments only names between backticks are turned.
"""

import glob
import re

DECLARES = re.compile(r"^\s*(?:(?:abbrev|unfoldable|pub)\s+)*([^\s:{}();,=]+)\s*:(?=\s)")
NAME = re.compile(r"(?<![\w'-])[\w'-]+")

# Names that would fall together, a lemma or a field first.
APART = {
    "after-reading": "after_reading_lem",
    "any-torn": "any_torn_lem",
    "at_front": "at_front_lem",
    "by-order": "by_the_order",
    "case-d": "case_d_lem",
    "few_words": "few_words_lem",
    "first-line": "first_line_lem",
    "first_then": "first_then_lem",
    "from-sums": "from_sums_lem",
    "from_place": "from_place_lem",
    "full-rate": "full_rate_lem",
    "no-total": "without_total",
    "one-reference": "one_reference_lem",
    "own-shape": "own_shape_lem",
    "point-line": "point_line_lem",
    "refer-all": "refer_all_lem",
    "refer-order": "refer_order_lem",
    "restart-order": "restart_order_lem",
    "setup-order": "setup_order_lem",
    "skip-call": "skip_call_lem",
    "skip-event": "skip_event_lem",
}


def declared():
    for path in sorted(glob.glob("crates/*/specs/*.antt") + glob.glob("crates/*/proofs/*.antt")):
        for line in open(path, encoding="utf-8"):
            found = DECLARES.match(line)
            if found and not line.startswith("--"):
                yield found.group(1)


def snake(name):
    return re.sub(r"([a-z0-9])([A-Z])", lambda m: m.group(1) + "_" + m.group(2).lower(), name).replace("-", "_")


def turned(text, names):
    return NAME.sub(lambda m: names.get(m.group(0), m.group(0)), text)


def line_turned(line, names, mark):
    code, sep, comment = line.partition(mark)
    comment = re.sub(r"`[^`]*`", lambda m: turned(m.group(0), names), comment)
    return turned(code, names) + sep + comment


def main():
    names = {n: snake(n) for n in declared() if n[0].islower() and snake(n) != n}
    names.update(APART)
    for path in glob.glob("crates/**/*.antt", recursive=True) + glob.glob("crates/*/src/*.rt"):
        mark = "-- " if path.endswith(".antt") else "//"
        with open(path, encoding="utf-8") as f:
            lines = f.read().split("\n")
        with open(path, "w", encoding="utf-8") as f:
            f.write("\n".join(line_turned(line, names, mark) for line in lines))


main()
