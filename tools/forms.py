#!/usr/bin/env python3
"""Counts the places of docs/DESIGN-PASS.md in crates/*/src: `python3 tools/forms.py` from the top, `-v` with each place."""
import collections
import pathlib
import re
import sys

VERBOSE = "-v" in sys.argv
FILES = sorted(pathlib.Path("crates").glob("*/src/*.rt"))
FUNCTION = re.compile(r"^(?:pub(?:\(crate\))? )?(?:extern \"C\" )?fn (\w+)", re.M)


def code_of(path):
    """The file without comments and imports for clauses."""
    lines = []
    for line in path.read_text().split("\n"):
        if line.startswith("ghost use"):
            line = ""
        lines.append(re.sub(r"(^|\s)//.*", r"\1", line))
    return "\n".join(lines)


def place(path, text, at):
    return f"{path.relative_to('crates')}:{text.count(chr(10), 0, at) + 1}"


def functions(text):
    """Each function's name and body, by the indentation of rt fmt."""
    for found in re.finditer(r"^( *)(?:pub(?:\(crate\))? )?(?:extern \"C\" )?fn (\w+)[^\n]*\n(?:.*\n)*?\1\}", text, re.M):
        yield found.group(2), found.group(0), found.start()


def shape(body):
    """The tokens of a body, each name and number being one sign: twins have one shape."""
    inner = body[body.find("\n{") if "\n{" in body else body.find("{"):]
    inner = re.sub(r"b?\"[^\"]*\"|b'[^']*'", "#", inner)
    inner = re.sub(r"\b0x[0-9a-f]+\b|\b[0-9][0-9_.]*(?:e-?[0-9]+)?(?:u\d+|usize)?\b", "#", inner)
    keep = {"if", "else", "match", "while", "for", "in", "let", "mut", "return", "true", "false", "as", "loop", "break"}
    inner = re.sub(r"\b[A-Za-z_]\w*\b", lambda m: m.group(0) if m.group(0) in keep else "N", inner)
    return re.sub(r"\s+", " ", inner)


def show(title, places):
    print(f"{title}: {len(places)}")
    if VERBOSE:
        for each in places:
            print(f"    {each}")


def main():
    texts = {path: code_of(path) for path in FILES}
    finds = lambda pattern: [
        f"{place(path, text, m.start())}: {m.group(0).strip()}" for path, text in texts.items() for m in re.finditer(pattern, text, re.M)
    ]
    show("1 enums", finds(r"^(?:pub(?:\(crate\))? )?enum \w+"))
    show("1 flags: fields and parameters of type bool", finds(r"\b\w+: bool\b"))
    show("1 numbers for kinds", finds(r"\bkind: u64|HALF / 2\b[^;{]*|\bis_strings\b"))
    twins = collections.defaultdict(list)
    for path, text in texts.items():
        for name, body, at in functions(text):
            if body.count("\n") > 4:
                twins[shape(body)].append(f"{place(path, text, at)} {name}")
    groups = [", ".join(group) for group in twins.values() if len(group) > 1]
    show("2 groups of functions of one shape", groups)
    show("3 loops by `while` or `loop`", finds(r"^ *(?:'\w+: )?(?:while\b|loop\b)[^\n]*"))
    show("3 indices counted by hand", finds(r"^ *\w+ [+-]= 1;"))
    show("3 loops by `for`", finds(r"^ *(?:'\w+: )?for [^\n]*"))
    show("4 conversions, comparisons and prints by hand", finds(
        r"\bfn (?:same|stands_before|number|refusal_of|\w+_number|\w+_of|bit|byte_at|bytes_of|word_at|digit|figure_of|write_\w+|decimal|hexadecimal|spell|word|double|field|double_field)\("))
    show("4 impls and derives beside Clone, Copy", finds(r"^ *impl[^{\n]*|#\[derive\((?!Clone, Copy\))[^\n]*"))
    clauses = collections.Counter()
    for path, text in texts.items():
        for found in re.finditer(r"requires(?: \w+)? \{([^}]*)\}", text):
            for fact in found.group(1).split("×"):
                clauses[re.sub(r"\s+", " ", fact.strip().strip("()"))] += 1
    show("5 facts in three contracts or more", [f"{n} {fact}" for fact, n in clauses.most_common() if n > 2])
    together = collections.Counter()
    for path, text in texts.items():
        for found in re.finditer(r"^ *(?:pub(?:\(crate\))? )?fn \w+[^(]*\(([^{]*?)\)(?: ->|\s*$|\s*\n)", text, re.M):
            names = [re.sub(r"\s+", " ", p.strip()) for p in found.group(1).split(",") if ":" in p]
            for i in range(len(names)):
                for j in range(i + 2, len(names)):
                    together[", ".join(names[i:j + 1])] += 1
    show("5 three parameters or more, in a row, in three functions or more", [f"{n} {p}" for p, n in together.most_common() if n > 2])
    show("6 buffers with a length, and arenas of places", finds(r"\b(?:used|held|count): usize\b|\bplaces: &[^,)]*"))
    show("7 closures, `impl Fn`, `dyn`", finds(r"\|[a-z_&]+\||impl Fn\w*|\bdyn \w+"))
    answers = sum(len(p.read_text().split("\n")) for p in pathlib.Path("crates").glob("*/proofs/**/Answers.antt"))
    lemmas = sum(len(p.read_text().split("\n")) for p in pathlib.Path("crates").glob("*/proofs/*.antt"))
    print(f"8 lines of answers: {answers}; of lemma files: {lemmas}")


main()
