#!/usr/bin/env python3
"""Spells the repository's own names of definitions and lemmas as today's Rattle does, by names.tsv beside this file.

usage: tools/spelling/spell.py FOLDER     FOLDER: a checkout on which port.py has run; all files in its crates are rewritten in place

A name in snake case that would now be a definition's gets `_lem` where it is declared or imported. A name in camel case changes wherever it stands but in strings. A name with a dash changes in specs/ and in lemmas' files; in a function's proof, where
Rattle makes names with dashes too, only where the file imports it, and not behind a dot; in comments only in backquotes.
"""

import os
import re
import sys

HERE = os.path.dirname(os.path.realpath(__file__))
WORD = re.compile(r"[^\s(){}.;,@\"«»`:·]+")
STRING = re.compile(r'"(?:[^"\\\n]|\\.)*"')


def table():
    with open(os.path.join(HERE, "names.tsv")) as lines:
        return dict(line.rstrip("\n").split("\t") for line in lines)


def made(path):
    return re.search(r"/proofs/(?:[^/]+/)*[a-z+][^/]*/", path) is not None


def turn(text, path, names):
    """The text with every name of the table spelled anew."""
    imported = {w for use in re.findall(r"^ *(?:pub |ghost )?use [^{;\n]*\{([^}]*)\}", text, re.M) for w in re.split(r"[,\s]+", use)}
    declared = set(re.findall(r"^ *(?:(?:pub|abbrev|unfoldable) )*([a-z0-9_]+)(?: \{[^{}\n]*\})* :", text, re.M))
    strict = made(path)

    def word(m, comment, start):
        name = m[0]
        if name not in names:
            return name
        if re.fullmatch(r"[a-z0-9_]+", name):
            if path.endswith(".rt") or text[start + m.start() - 1 : start + m.start()] == "." or name not in imported | declared:
                return name
        elif "-" in name:
            before = text[start + m.start() - 1 : start + m.start()]
            if comment and before != "`":
                return name
            if strict and (name not in imported or before == "."):
                return name
        return names[name]

    text = re.sub(r"\b(\w+) as \w+·\1(?!\w)", r"\1", text) if path.endswith(".rt") else text
    text = re.sub(r"\bHeld·", "held_", text)
    text = re.sub(r"\b(?:Reading|Numeral|Text)·(\w+)", r"\1", text) if path.endswith(".rt") else text
    out = []
    at = 0
    for line in text.splitlines(keepends=True):
        mark = "//" if path.endswith(".rt") else "--"
        cut = re.search(r"(?:^|\s)" + mark + r"(?:\s|$)", line)
        cut = cut.start() if cut else len(line)
        pieces = []
        last = 0
        for s in [*STRING.finditer(line, 0, cut), None]:
            end = s.start() if s else cut
            pieces.append(WORD.sub(lambda m: word(m, False, at + last), line[last:end]))
            if s:
                pieces.append(s[0])
                last = s.end()
        pieces.append(WORD.sub(lambda m: word(m, True, at + cut), line[cut:]))
        out.append("".join(pieces))
        at += len(line)
    return "".join(out)


def main(root):
    names = table()
    changed = 0
    for folder, folders, files in os.walk(os.path.join(root, "crates")):
        folders[:] = [f for f in folders if f not in ("out", "must-fail")]
        for file in files:
            path = os.path.join(folder, file)
            if not file.endswith((".rt", ".antt")):
                continue
            with open(path) as f:
                text = f.read()
            turned = turn(text, path, names)
            if turned != text:
                changed += 1
                with open(path, "w") as f:
                    f.write(turned)
    print(f"{changed} files")


if __name__ == "__main__":
    main(sys.argv[1])
