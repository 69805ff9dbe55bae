#!/usr/bin/env python3
"""Respells the definitions and lemmas of this repository, once: words in snake case, types in upper camel case.

usage: python3 tools/respell.py [--names]     at the top of the repository; --names only lists old and new

A name is respelled where specs/ or proofs/ declares it. Names that Rattle makes, functions of src/, strings, inputs and outputs stay.
A dash stays in a lemma where it joins the names of two definitions, as in `length-with_timeslot`.
"""

import os
import re
import sys

SIGNATURE = re.compile(r"^\s*((?:(?:pub|abbrev|unfoldable|pattern) )*)((?:data|record) (?:pub )?)?([^\s:(){}=]+(?: [^\s:(){}=]+)*?)\s*(?:[({].*?)? : (.*)$")
TOKEN = re.compile(r"[^\s(){}\[\];,.«»`\"]+")
JOINED = {"length", "take", "drop", "set", "replicate", "reverse", "map"}


def sources(root, endings):
    for folder, dirs, files in os.walk(os.path.join(root, "crates")):
        dirs[:] = sorted(d for d in dirs if d != "out")
        yield from (os.path.join(folder, f) for f in sorted(files) if f.endswith(endings))


def declared(root):
    """Each name with a dash, or with a capital and an underscore, that specs/ or proofs/ declares: whether it is a type, and where."""
    plain, found = set(), {}
    for path in sources(root, ".antt"):
        for line in open(path, encoding="utf-8"):
            m = SIGNATURE.match(line)
            if not m or line.lstrip().startswith("--") or "λ" in line.split(" : ")[0] or m.group(4).startswith(("goal.", "given.")):
                continue
            for name in m.group(3).split():
                if name in ("let", "in", "elim", "module", "_"):
                    continue
                in_specs = "/specs/" in path and not path.endswith("Lemmas.antt")
                if in_specs:
                    plain.add(name)
                if "-" in name[1:-1] or re.match(r"[A-Z]\w*_", name) or "′" in name:
                    found.setdefault(name, []).append(path)
    return plain, found


def respelled(name, definitions):
    if name[0].isupper():
        return "".join(w[:1].upper() + w[1:] for w in re.split("[-_]", name)).replace("′", "'")
    for i, c in enumerate(name):
        left, right = name[:i], name[i + 1:]
        if c == "-" and left in JOINED and right in definitions:
            return left + "-" + right.replace("-", "_")
    return name.replace("-", "_").replace("′", "'")


def turn(text, table, comment, everywhere):
    """The text with the names of the table respelled, outside strings, and in comments only between backticks."""
    out = []
    for line in text.split("\n"):
        parts = re.split(r'("(?:[^"\\]|\\.)*")', line) if everywhere else [line]
        said = False
        for k, part in enumerate(parts):
            if k % 2 and not said:
                out_part = part
            else:
                code, mark, rest = (part, "", "") if said else cut(part, comment)
                if said or not everywhere:
                    code, rest = "", part if not mark else code + mark + rest
                    mark = ""
                said = said or bool(mark)
                rest = re.sub(r"`[^`]*`", lambda m: TOKEN.sub(lambda t: table.get(t.group(), t.group()), m.group()), rest)
                out_part = TOKEN.sub(lambda t: table.get(t.group(), t.group()), code) + mark + rest
            parts[k] = out_part
        out.append("".join(parts))
    return "\n".join(out)


def cut(part, comment):
    if not comment:
        return part, "", ""
    m = re.search(comment, part)
    return (part, "", "") if not m else (part[: m.start()], m.group(), part[m.end():])


def main(argv):
    root = os.getcwd()
    definitions, found = declared(root)
    table = {n: respelled(n, definitions) for n in found}
    table = {a: b for a, b in table.items() if a != b}
    if "--names" in argv:
        for a, b in sorted(table.items()):
            print(a, b, os.path.relpath(found[a][0], root))
        return
    together = {}
    for a, b in table.items():
        together.setdefault(b, []).append(a)
    for b, olds in together.items():
        if len(olds) > 1:
            print("fall together:", b, olds)
    for path in sources(root, (".antt", ".rt", ".edit")):
        text = open(path, encoding="utf-8").read()
        tokens = set(TOKEN.findall(text))
        for t in sorted(tokens & set(table)):
            if table[t] in tokens:
                print("look:", os.path.relpath(path, root), t, table[t])
        mark = r"(?:(?<=\s)|^)--(?=\s|$)" if path.endswith(".antt") else r"(?:(?<=\s)|^)//" if path.endswith(".rt") else None
        new = turn(text, table, mark, True)
        if new != text:
            open(path, "w", encoding="utf-8").write(new)
    pages = [os.path.join(root, "README.md")] + [os.path.join(root, "docs", f) for f in sorted(os.listdir(os.path.join(root, "docs"))) if f.endswith(".md")]
    for path in pages:
        text = open(path, encoding="utf-8").read()
        new = turn(text, table, None, False)
        if new != text:
            open(path, "w", encoding="utf-8").write(new)


if __name__ == "__main__":
    main(sys.argv[1:])
