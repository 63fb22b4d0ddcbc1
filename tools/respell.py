#!/usr/bin/env python3
"""Respells the names of this repository's definitions, lemmas and constructors as Rattle's library spells its own.

usage: python3 tools/respell.py      at the top of the repository, once, after the kit's port.py

Facts and types are in upper camel case, everything else in snake case. A dash stays in the name of a lemma where it
joins the two sides of what the lemma equates (KEPT). Names that a function's goals have are Rattle's and are not touched,
nor are strings, comments in Rust's code, and any file that is neither .rt nor .antt.
"""

import os
import re
import sys

# lemmas named by the left side of their equation
KEPT = """
octets-append octets-take length-line length-numbered length-bytes bytes-digits digits-bytes total-append value-digit
tally-records tally-bytes
""".split()

# lemmas of that kind which port.py had turned, and facts' lemmas, which keep the fact's capital
TURNED = {
    "digits_append": "digits-append",
    "length_digits": "length-digits",
    "digit_value": "digit-value",
    "length_from": "length-from",
    "worn-append": "Worn-append",
    "worn-same": "Worn_same",
    "worn-none": "Worn_none",
    "worn-tail": "Worn_tail",
    "worn-trans": "Worn_trans",
    "worn-lost": "Worn_lost",
    "worn-all": "Worn_all",
    "worn-along": "Worn_along",
    "worn-then": "Worn_then",
}

NAME = r"[A-Za-z_][\w'-]*"
DECLARED = re.compile(
    r"^\s*(?:abbrev pub |unfoldable pub |abbrev |unfoldable |pub data |pub record |data |record |pub )?("
    + NAME
    + r")(?:\s*[{(][^)}]*[)}])*\s*:\s+(.*)$"
)


def files(root):
    for folder, dirs, names in os.walk(os.path.join(root, "crates")):
        dirs[:] = sorted(d for d in dirs if d not in ("out", "must-fail", "data"))
        for name in sorted(names):
            if name.endswith((".rt", ".antt")):
                yield os.path.join(folder, name)


def camel(name):
    return "".join(part[:1].upper() + part[1:] for part in name.split("-"))


def table(root):
    """Each declared name that changes, and what it becomes."""
    new = {}
    for path in files(root):
        if not path.endswith(".antt"):
            continue
        with open(path, encoding="utf-8") as f:
            for line in f:
                m = DECLARED.match(line)
                if not m or line.startswith("use ") or "λ" in line.split(":")[0]:
                    continue
                name, kind = m.group(1), m.group(2)
                if kind.startswith("goal."):
                    continue
                if name in TURNED:
                    new[name] = TURNED[name]
                elif "-" not in name or name in KEPT:
                    continue
                elif name[0].isupper():
                    new[name] = camel(name)
                else:
                    new[name] = name.replace("-", "_")
    return new


def respell(text, new, rust):
    token = re.compile(r'"(?:\\.|[^"\\])*"|//[^\n]*|' + NAME if rust else r'"(?:\\.|[^"\\])*"|' + NAME)

    def one(m):
        return new.get(m.group(0), m.group(0))

    return token.sub(one, text)


def main():
    root = os.getcwd()
    new = table(root)
    back = {}
    for old, name in sorted(new.items()):
        back.setdefault(name, []).append(old)
    together = {name: olds for name, olds in back.items() if len(olds) > 1}
    if together:
        sys.exit(f"names that fall together: {together}")
    changed = 0
    for path in files(root):
        with open(path, encoding="utf-8") as f:
            text = f.read()
        after = respell(text, new, path.endswith(".rt"))
        if after != text:
            with open(path, "w", encoding="utf-8") as f:
                f.write(after)
            changed += 1
    for old in sorted(new):
        print(f"{old} -> {new[old]}")
    print(f"{len(new)} names, {changed} files")


if __name__ == "__main__":
    main()
