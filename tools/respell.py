#!/usr/bin/env python3
"""Brings this repository's own definitions and lemmas to the spelling of today's Rattle, after the kit's port.py.

usage: python3 tools/respell.py     at the top of the repository, once, right after port.py

Words and lemmas get snake case, types and facts camel case. Names of the library, of generated goals and of what a goal
offers (c.loop-i, goal.returns) keep their dashes; so do comments, but for names in backquotes. Functions of src/, strings,
inputs and outputs have no dashes in their names and stay.
"""

import os
import re
import sys

NAME = r"(?:[\w'ℕ]+(?:-[\w'ℕ≤*+]+)+)"
HEAD = re.compile(r"(\s*)(?:abbrev\s+|unfoldable\s+)?(?:pub\s+)?(?:record\s+|data\s+)?(" + NAME + r")((?:\s+(?:\([^)]*\)|\{[^}]*\}))*)\s*:(.*)")
TOKEN = re.compile(r"(?<![\w'-])" + NAME + r"(?![\w'-])")
# names that are declared over several lines, bound by a let, or given by `as`
MORE = {"Led-ranges", "d-below", "k-below", "same-before", "v-found", "v-is", "no-faults", "shown-as"}
# the camel case of this one is a variant of an enum of the code
OTHER = {"Not-canonical": "IsNotCanonical"}
# names that a goal also offers, as a step of the code
STEPS = {"first-splits", "next-splits", "script-place"}


def texts(root, endings):
    for folder, dirs, files in os.walk(root):
        dirs[:] = sorted(d for d in dirs if d not in ("out", ".git", "target"))
        for f in sorted(files):
            if f.endswith(endings):
                yield os.path.join(folder, f)


def parts(line):
    """The code of a line, and its comment."""
    m = re.search(r"(?:(?<=\s)|^)(--|//)(\s|$|!|/)", line)
    return (line, "") if not m else (line[: m.start()], line[m.start() :])


def declared(root):
    found = set(MORE)
    for path in texts(root, (".antt",)):
        with open(path, encoding="utf-8") as f:
            for line in f:
                m = HEAD.match(parts(line)[0])
                if m and not m.group(4).strip().startswith("goal."):
                    found.add(m.group(2))
    return found


def spelled(name):
    if name in OTHER:
        return OTHER[name]
    if name[0].isupper():
        return "".join(w[:1].upper() + w[1:] for w in name.split("-"))
    return name.replace("-", "_")


def respell(text, names):
    def turn(m):
        name = m.group(0)
        if name not in names or (name in STEPS and text_of[0][: m.start()].endswith("c.")):
            return name
        return spelled(name)

    text_of = [text]
    return TOKEN.sub(turn, text)


def quoted(text, names):
    return re.sub(r"`[^`\n]*`", lambda m: respell(m.group(0), names), text)


def main():
    if not os.path.isdir("crates"):
        sys.exit("respell: run it at the top of the repository")
    names = declared("crates")
    new = {}
    for n in sorted(names):
        if spelled(n) in new:
            sys.exit(f"respell: {n} and {new[spelled(n)]} fall together")
        new[spelled(n)] = n
    changed = 0
    for path in list(texts("crates", (".antt", ".rt", ".edit"))) + list(texts("docs", (".md",))) + ["README.md"]:
        with open(path, encoding="utf-8") as f:
            old = f.read()
        if path.endswith(".md"):
            turned = quoted(old, names)
        elif path.endswith(".edit"):
            turned = respell(old, names)
        else:
            lines = []
            for line in old.split("\n"):
                code, comment = parts(line)
                lines.append(respell(code, names) + quoted(comment, names))
            turned = "\n".join(lines)
        if turned != old:
            with open(path, "w", encoding="utf-8") as f:
                f.write(turned)
            changed += 1
    print(f"respell: {len(names)} names, {changed} files")


main()
