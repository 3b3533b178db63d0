#!/usr/bin/env python3
"""Brings the names of this repository's definitions and lemmas to today's spelling: words in snake case, types in upper camel case.

usage: tools/respell.py [--check]      at the top of the repository, once, right after the kit's own script

What turns: each name with a dash that a file of crates/*/specs or crates/*/proofs declares (a definition, a lemma, a record, a field, a
constructor), wherever it stands as a whole word in an .antt file, in a clause, a ghost field, a ghost member or a `ghost use` of an .rt file.
A name that begins with a capital is a type or a fact and becomes UpperCamel; any other becomes snake_case.
What stays: names that rt makes (goals, steps such as c.put-room), the functions, fields and texts of src/, comments, and a dash before an
operator (length-++). --check writes nothing, and prints the names that fall together with another and what stands behind a dot.
"""

import os
import re
import sys

WORD = r'[^\s(){}.;,@"«»]+'
DECLARED = re.compile(
    rf"^(?P<indent>\s*)(?P<kinds>(?:(?:abbrev|unfoldable|pub|data|record|ruleset|mutual)\s+)*)(?P<name>{WORD})(?P<more>(?:\s+[({{].*?)?)\s:\s(?P<type>.*)$"
)
GHOST = re.compile(r"ghost\s+use\b[^;]*;")
CLAUSE = re.compile(r"(?:requires|ensures)\*?\s*(?:\w+\s*)?\{|ghost\s*(?:\w+\s*(?::\s*(?:(?:owns|lends)\s*)?|=\s*))?\{")
ALIAS = re.compile(rf"^\s*use\s+[^{{\n]*\sas\s+({WORD})", re.M)
STEPS = ("c", "l", "w", "g")
APART = {"bit-or": "bit_of_or"}  # bit_or is a word of std
COMMENT = re.compile(r"(?<![^\s(){}.;,@])--[^\n]*")


def files():
    for folder, dirs, names in os.walk("crates"):
        dirs[:] = sorted(d for d in dirs if d != "out")
        for name in sorted(names):
            if name.endswith((".antt", ".rt")):
                yield os.path.join(folder, name)


def respelled(name):
    if name in APART:
        return APART[name]
    words = ("get_or" + name[4:] if name.startswith("getD-") else name).split("-")
    if not all(re.fullmatch(r"[\w']+", w) for w in words):
        return name
    if name[0].isupper():
        return "".join(w[0].upper() + w[1:] for w in words)
    return "_".join(words)


def declared(texts):
    """The names with a dash, and whether each is a field of a record."""
    found, fields = set(), set()
    for path, text in texts.items():
        if not path.endswith(".antt"):
            continue
        for line in COMMENT.sub("", text).split("\n"):
            m = DECLARED.match(line)
            if m and "-" in m["name"] and not re.match(r"goal\.", m["type"]) and not m["name"].startswith("-"):
                found.add(m["name"])
                if m["indent"]:
                    fields.add(m["name"])
    return found, fields


def turn(text, table, fields, modules, seen):
    """Each whole word of the table; behind a dot only a field, or a name of a module."""

    def one(m):
        word = m.group(0)
        if word not in table:
            return word
        before = text[: m.start()]
        if before.endswith("."):
            path = re.search(r"[^\s(){};,]*$", before).group(0)
            head = path.split(".")[0]
            if head not in modules:
                turns = word in fields and head not in STEPS
                seen.append(("turns " if turns else "stays ") + path + word)
                if not turns:
                    return word
        return table[word]

    return re.sub(WORD, one, text)


def outside_comments(text, table, fields, modules, seen):
    out, at = [], 0
    for m in COMMENT.finditer(text):
        out.append(turn(text[at : m.start()], table, fields, modules, seen))
        out.append(m.group(0))
        at = m.end()
    out.append(turn(text[at:], table, fields, modules, seen))
    return "".join(out)


def closing(text, at):
    depth = 1
    while at < len(text) and depth:
        depth += {"{": 1, "}": -1}.get(text[at], 0)
        at += 1
    return at


def ghost_parts(text):
    spans = [m.span() for m in GHOST.finditer(text)]
    for m in CLAUSE.finditer(text):
        spans.append((m.end(), closing(text, m.end())))
    spans.sort()
    merged = []
    for a, b in spans:
        if merged and a < merged[-1][1]:
            merged[-1] = (merged[-1][0], max(b, merged[-1][1]))
        else:
            merged.append((a, b))
    return merged


def in_ghost(text, table, fields, modules, seen):
    out, at = [], 0
    for a, b in ghost_parts(text):
        out.append(text[at:a])
        out.append(turn(text[a:b], table, fields, modules, seen))
        at = b
    out.append(text[at:])
    return "".join(out)


def main():
    texts = {path: open(path, encoding="utf-8").read() for path in files()}
    names, fields = declared(texts)
    for text in texts.values():
        names.update(a for a in ALIAS.findall(text) if "-" in a)
    table = {n: respelled(n) for n in names if respelled(n) != n}
    words = set()
    for text in texts.values():
        words.update(re.findall(r"[^\s(){}.;,@\"«»:]+", text))
    to = {}
    for old, new in table.items():
        to.setdefault(new, []).append(old)
    for new, olds in sorted(to.items()):
        if len(olds) > 1:
            print("fall together:", new, olds)
        if new in words:
            print("stands already:", olds[0], "->", new)
    seen = []
    for path, text in texts.items():
        change = outside_comments if path.endswith(".antt") else in_ghost
        modules = {"Rattle"} | set(ALIAS.findall(text))
        new = change(text, table, fields, modules, seen)
        if new != text and "--check" not in sys.argv:
            with open(path, "w", encoding="utf-8") as f:
                f.write(new)
    if "--check" in sys.argv:
        for s in sorted(set(seen)):
            print("behind a dot:", s)
    print(len(table), "names")


if __name__ == "__main__":
    main()
