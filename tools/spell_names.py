#!/usr/bin/env python3
"""Spells the names that the specs of this repository declare as today's Rattle does: words in snake case.

usage: python3 tools/spell_names.py        once, at the top, after the kit's own port.py

A word of crates/*/specs that no line brings in from a library is a name of this repository, of a definition, a lemma, a field or a
variable: `belowShown` becomes `below_shown`, `near-row` becomes `near_row`. A lemma that would get the name of a definition has `_lem`
behind it. Types, modules, files and what Rattle or its library names stay. The names turn in .antt and .rt files, in must-fail edits, and in the code spans of README.md and docs/.
"""
import glob
import os
import re
import sys

WORD = re.compile(r"""[^\s(){}.;,@"«»]+""")
USE = re.compile(r"^use ([^\s{]+?)\.?(?:\{([^}]*)\})?\s*$", re.M)
COMMENT = re.compile(r"--[^\n]*")
# A lemma that has the name of a definition in this spelling, or would get it.
LEMMAS = {"row-of": "row_of_lem", "up-to": "up_to_lem", "side_after": "side_after_lem"}


def snake(name):
    return re.sub(r"(?<=\w)[A-Z]", lambda m: "_" + m[0].lower(), name).replace("-", "_").replace("__", "_")


def is_old(word):
    camel = re.match(r"[a-zα-ω][\w']*$", word) and re.search("[A-Z]", word)
    return camel or (word[0].islower() and re.search(r"\w-\w", word))


def table(specs):
    written, lent = set(), set()
    for path in specs:
        text = COMMENT.sub("", open(path, encoding="utf-8").read())
        written.update(WORD.findall(text))
        for m in USE.finditer(text):
            if not m[1].startswith("Rattle.") or m[1].startswith("Rattle.std."):
                lent.update(WORD.findall(m[2] or ""))
    old = {it for it in written - lent if is_old(it)}
    turned = {it: snake(it) for it in old}
    by_new = {}
    for it, new in turned.items():
        by_new.setdefault(new, []).append(it)
    for new, olds in by_new.items():
        if len(olds) > 1 and new not in FIELDS:
            for it in olds:
                if "-" in it:
                    turned[it] = new + "_lem"
    turned.update({it: new for it, new in LEMMAS.items() if it in written})
    return turned


# Fields of two records, which are read behind a dot: both may have the one name.
FIELDS = {"low_significands", "high_significands", "low_exponents", "high_exponents"}


def turn(text, names):
    return WORD.sub(lambda m: names.get(m[0], m[0]), text)


def turn_rust(text, names):
    # Text between quotes stays.
    return re.sub(r'"(?:\\.|[^"\\])*"|[^"]+', lambda m: m[0] if m[0][0] == '"' else turn(m[0], names), text)


def turn_spans(text, names):
    return re.sub(r"`[^`\n]+`", lambda m: "`" + turn(m[0][1:-1], names) + "`", text)


def main():
    files = lambda pattern: sorted(it for it in glob.glob(pattern, recursive=True) if "/out/" not in it)
    specs = files("crates/*/specs/**/*.antt")
    names = table(specs)
    if "closedForm" not in names:
        sys.exit("spell_names: the names have today's spelling already")
    jobs = [(it, turn) for it in files("crates/*/specs/**/*.antt") + files("crates/*/proofs/**/*.antt") + files("crates/*/must-fail/*.edit")]
    jobs += [(it, turn_rust) for it in files("crates/*/src/**/*.rt")]
    jobs += [(it, turn_spans) for it in ["README.md"] + files("docs/**/*.md")]
    jobs += [(it, turn) for it in sys.argv[1:]]
    changed = 0
    for path, how in jobs:
        if not os.path.exists(path):
            continue
        old = open(path, encoding="utf-8").read()
        new = how(old, names)
        if new != old:
            open(path, "w", encoding="utf-8").write(new)
            changed += 1
    print(f"spell_names: {len(names)} names, {changed} files")
    if os.environ.get("SPELL_NAMES_TABLE"):
        with open(os.environ["SPELL_NAMES_TABLE"], "w") as f:
            f.writelines(f"{old}\t{new}\n" for old, new in sorted(names.items()))


if __name__ == "__main__":
    main()
