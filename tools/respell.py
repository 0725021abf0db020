#!/usr/bin/env python3
"""Respells the repository's own definitions and lemmas as today's Rattle spells them: `textOf` is `text_of`, `TEXTS-AT` is `TEXTS_AT`.

usage: python3 tools/respell.py [FOLDER]     after port.py, once, at the top of the repository (or in FOLDER)

Types, modules and variants keep their capitals, functions of src/ have no capital, and what stands in quotes is left alone.
"""

import os
import re
import sys

# A name: letters, digits, primes, subscripts and dashes.
NAME = re.compile(r"(?<![\w'])[^\W\d][\w'₀-₉-]*")
# What is left alone: a string, and in source, where a prime is no part of a name, a letter in quotes.
STRING = re.compile(r'"(?:[^"\\]|\\.)*"')
LETTER = re.compile(r'"(?:[^"\\]|\\.)*"|b?\'(?:[^\'\\]|\\.)\'')
CAMEL = re.compile(r"[a-z][a-z0-9']*[A-Z]")
CONSTANT = re.compile(r"[A-Z][A-Z0-9]*(-[A-Z][A-Z0-9]*)+\Z")
# Names that a capital does not split rightly, or that port.py left between two spellings.
OTHERS = {"to_rA": "to_ra", "after_List": "after_list", "x-is": "x_is"}
# Lemmas whose names, as port.py left them, would fall together with those of the definitions that they are about: they keep their dashes.
APART = {
    "drive/proofs/Drives.antt": ("one_answer", "in_order"),
    "feeding/proofs/Going.antt": ("last_line",),
    "keeping/proofs/Telling.antt": ("by_way",),
    "pool/proofs/Removing.antt": ("taken_out",),
    "promises/proofs/Order.antt": ("none_open",),
    "promises/proofs/Oriented.antt": ("by_row",),
    "removing/proofs/Removal.antt": ("bytes_inside", "taken_out"),
    "rotation/proofs/Given.antt": ("by_row",),
    "rotation/proofs/builtin/orientation/Proof.antt": ("by_row",),
    "unread/proofs/Calls.antt": ("held_then",),
}
# A word of the older library inside the names of lemmas.
WORDS = {"getD": "get_or"}


def snake(part):
    """One part of a name, between its dashes."""
    if part in WORDS:
        return WORDS[part]
    if not CAMEL.match(part):
        return part
    part = re.sub(r"([A-Z]+)([A-Z][a-z])", r"\1_\2", part)
    part = re.sub(r"([a-z0-9'])([A-Z])", r"\1_\2", part)
    return re.sub(r"([a-z])([0-9]+)\Z", r"\1_\2", part).lower()


def respelt(name):
    if name in OTHERS:
        return OTHERS[name]
    if CONSTANT.match(name):
        return name.replace("-", "_")
    return "-".join(snake(part) for part in name.split("-"))


def line_respelt(line, quotes):
    out, at = [], 0
    for quoted in quotes.finditer(line):
        out.append(NAME.sub(lambda m: respelt(m.group()), line[at:quoted.start()]))
        out.append(quoted.group())
        at = quoted.end()
    out.append(NAME.sub(lambda m: respelt(m.group()), line[at:]))
    return "".join(out)


def files(top):
    for folder, folders, names in os.walk(os.path.join(top, "crates")):
        folders[:] = sorted(f for f in folders if f != "out")
        yield from (os.path.join(folder, n) for n in sorted(names) if n.endswith((".rt", ".antt")))


def main():
    changed = 0
    for path in files(sys.argv[1] if len(sys.argv) > 1 else "."):
        with open(path, encoding="utf-8") as f:
            read = old = f.read()
        for name in APART.get(path.split("crates/")[-1], ()):
            old = re.sub(r"(?<![\w'.-])" + name + r"(?![\w'-])", name.replace("_", "-"), old)
        quotes = STRING if path.endswith(".antt") else LETTER
        new = "".join(line_respelt(line, quotes) for line in old.splitlines(True))
        if new != read:
            changed += 1
            with open(path, "w", encoding="utf-8") as f:
                f.write(new)
    print(f"respell: {changed} files changed")


if __name__ == "__main__":
    main()
