#!/usr/bin/env python3
"""Brings this repository's own definitions, lemmas and record fields to today's spelling: words in snake case, types in camel case.

usage: python3 tools/respell.py [--list]     at the top of the repository, once, right after the toolchain's port.py

It gathers the names that the files of specs/ and proofs/ declare, and renames those that are in mixed case or have a dash, in the .antt files, in the
ghost parts of the .rt files, in the must-fail edits and in the pages. A label of src/ that proofs cited with a dash gets its own spelling there.
Functions and variables of src/ keep their names, as do the names that the toolchain makes for goals.
--list only prints the renamings, and the names that would fall together.
"""

import collections
import os
import re
import sys

# A fact that was spelled as a word, an import that would get the name of a label, and lemmas that would get the name of the word that they are about.
CHOSEN = {"allLack": "AllLack", "sixDigits": "six_digits_of"} | {n: n.replace("-", "_") + "_lem" for n in ("houses-kept", "in-branch", "on-first", "paid-to", "with-next")}
NAME = r"[^\W\d][\w'ℤ]*(?:-[\w'ℤ]+)*"
DECLARES = re.compile(r"^\s*(?:(?:abbrev|pub|unfoldable)\s+)*(?:(?:record|data)\s+)?(" + NAME + r")(?:\s*[({][^=]*)?\s*:(?!:)\s*(.*)$")
TOKEN = re.compile(r"(?<![\w'ℤ-])" + NAME + r"(?![\w'ℤ-])")
MADE = re.compile(r"^(returns|loop|invariant|decreases|overflow|then|else|if|branch|bounds|offset|unreachable)-|-requires(-|$)|^copy-from")
LABEL = re.compile(r"^\s*(?:pub )?(?:ghost|requires|ensures) ([a-z0-9]+(?:_[a-z0-9]+)+)(?: \{|:)", re.M)
LOCAL = re.compile(r"\blet ([a-z][a-z0-9]*[A-Z]\w*) [:=]|\bas ([a-z][a-z0-9]*[A-Z]\w*)[,}]")
GHOST = re.compile(r"^\s*(pub )?(ghost|requires|ensures|decreases)\b")


def files(top):
    for part in ("crates", "docs"):
        for folder, dirs, names in os.walk(os.path.join(top, part)):
            dirs[:] = sorted(d for d in dirs if d != "out")
            for n in sorted(names):
                if n.endswith((".antt", ".rt", ".edit", ".md")):
                    yield os.path.join(folder, n)
    yield os.path.join(top, "README.md")


def snake(name):
    if name in CHOSEN:
        return CHOSEN[name]
    words = re.sub(r"(?<=[a-z0-9])(?=[A-ZℤΑ-Ω])", "_", name.replace("-", "_"))
    return "".join(c if c == "ℤ" else c.lower() for c in words)


def declared(paths):
    found = {}
    for p in paths:
        if not p.endswith(".antt"):
            continue
        for line in open(p, encoding="utf-8"):
            if line.lstrip().startswith(("--", "use ", "let ", "|", "unfolding")):
                continue
            m = DECLARES.match(line)
            if m and not m.group(2).startswith("goal.") and not m.group(1)[0].isupper():
                found.setdefault(m.group(1), p)
    return found


def labels(paths):
    """Labels and ghost members of src/ that proofs cited with a dash."""
    found = set()
    for p in paths:
        if p.endswith(".rt"):
            found |= set(LABEL.findall(open(p, encoding="utf-8").read()))
    return {name.replace("_", "-"): name for name in found}


def locals_in(paths):
    """Names in mixed case that a proof binds by let, or that an import gives."""
    found = set()
    for p in paths:
        if p.endswith((".rt", ".antt")):
            found |= {a or b for a, b in LOCAL.findall(open(p, encoding="utf-8").read())}
    return {name: snake(name) for name in found}


def renamings(found):
    table = {}
    for name in found:
        dashed, mixed = "-" in name, re.search(r"[a-z0-9'][A-Zℤ]", name)
        if (dashed and MADE.search(name) and not name.startswith("if-same")) or not (dashed or mixed):
            continue
        if snake(name) != name:
            table[name] = snake(name)
    return table


def clause_lines(lines):
    """Which lines of a .rt file belong to a ghost item or a clause: from its first line to the one where its braces are closed."""
    depth, inside = 0, False
    for line in lines:
        if not inside and GHOST.match(line):
            inside, depth = True, 0
        yield inside
        if inside:
            depth += line.count("{") - line.count("}")
            if depth <= 0 and ("}" in line or line.rstrip().endswith((";", ","))):
                inside = False


def in_page(text, table, known):
    """A page or an edit: also the names that the port's script had turned already, and names with a dash only between backticks."""
    word = lambda n: table.get(n) or (snake(n) if re.search(r"[a-z][A-Zℤ]", n) and not n[0].isupper() and snake(n) in known else n)
    text = re.sub(r"`[^`\n]*`", lambda span: TOKEN.sub(lambda m: word(m.group(0)), span.group(0)), text)
    return TOKEN.sub(lambda m: m.group(0) if "-" in m.group(0) else word(m.group(0)), text)


def turn(path, text, table, known):
    if path.endswith((".md", ".edit")):
        return in_page(text, table, known)
    dashed = {n: t for n, t in table.items() if "-" in n}
    mixed = {n: t for n, t in table.items() if "-" not in n}
    if path.endswith(".antt"):
        return TOKEN.sub(lambda m: table.get(m.group(0), m.group(0)), text)
    out = TOKEN.sub(lambda m: mixed.get(m.group(0), m.group(0)), text)
    if not path.endswith(".rt"):
        return out
    lines = out.split("\n")
    return "\n".join(TOKEN.sub(lambda m: dashed.get(m.group(0), m.group(0)), l) if g else l for l, g in zip(lines, clause_lines(lines)))


def main(argv):
    top = os.path.dirname(os.path.dirname(os.path.realpath(__file__)))
    paths = list(files(top))
    found = declared(paths)
    table = labels(paths) | locals_in(paths) | renamings(found)
    known = {table.get(n, n) for n in found}
    falls = collections.defaultdict(set)
    for name in set(found) | set(table):
        falls[table.get(name, name)].add(name)
    for target, names in sorted(falls.items()):
        if len(names) > 1:
            print("falls together:", target, "<-", ", ".join(f"{n} ({found.get(n, 'a label or an import')})" for n in sorted(names)))
    if argv == ["--list"]:
        for name in sorted(table):
            print(name, "->", table[name])
        return 0
    for p in paths:
        text = open(p, encoding="utf-8").read()
        new = turn(p, text, table, known)
        if new != text:
            open(p, "w", encoding="utf-8").write(new)
    print(len(table), "names")
    return 0


if __name__ == "__main__":
    raise SystemExit(main(sys.argv[1:]))
