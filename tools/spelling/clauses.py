#!/usr/bin/env python3
"""Writes `old x` and `final x` of crate table as `x.now`, `x.old` and `x.new` in the contracts below FOLDER/crates.

usage: tools/spelling/clauses.py FOLDER     FOLDER: a checkout on which port.py and spell.py have run
"""

import os
import re
import sys

HEAD = re.compile(r"^( *)(?:pub )?(?:unsafe )?(?:extern \"C\" )?fn (\w+)", re.M)


def params(text):
    """Which parameters are lent, and how: the name with 'old' (a &mut) or 'now' (a &)."""
    found = {}
    if re.search(r"&mut self\b", text):
        found["self"] = "old"
    elif re.search(r"&self\b", text):
        found["self"] = "now"
    for name, kind in re.findall(r"(\w+): &(mut |)", text):
        found[name] = "old" if kind else "now"
    return found


def turn(text):
    out = []
    last = 0
    for m in HEAD.finditer(text):
        body = text.find("\n" + m[1] + "{\n", m.end())
        if body < 0:
            continue
        nxt = HEAD.search(text, m.end())
        if nxt and nxt.start() < body:
            continue
        head = text[m.start() : body]
        lent = params(re.split(r"\n *(?:requires|ensures|ghost)\b", head)[0])

        def lead(word, name):
            if name not in lent:
                return None
            if word == "final":
                return name + ".new"
            return name + "." + lent[name]

        def one(w):
            new = lead(w[1], w[2])
            return w[0] if new is None else new

        new = re.sub(r"\((old|final) (\w+)\)", one, head)
        new = re.sub(r"(?<![\w.])(old|final) (\w+)(?!\w)", one, new)
        out.append(text[last : m.start()] + new)
        last = body
    out.append(text[last:])
    text = "".join(out)
    if not re.search(r"(?<![\w.])(?:old|final) \w", "".join(re.findall(r"(?:requires|ensures)[^\n]*(?:\n {6,}[^\n]*)*", text))):
        text = re.sub(r"ghost use Rattle\.table\.specs\.EntryExit\.\{[^}]*\};\n", "", text)
    return text


def main(root):
    for folder, folders, files in os.walk(os.path.join(root, "crates")):
        folders[:] = [f for f in folders if f != "out"]
        for file in files:
            if file.endswith(".rt"):
                path = os.path.join(folder, file)
                with open(path) as f:
                    text = f.read()
                turned = turn(text)
                if turned != text:
                    with open(path, "w") as f:
                        f.write(turned)


main(sys.argv[1])
