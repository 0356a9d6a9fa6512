#!/usr/bin/env python3
"""Writes names.tsv, the table of renamings that spell.py applies: old name, new name.

usage: tools/spelling/table.py FOLDER..     each FOLDER a checkout on which port.py has run

Functions, lemmas, fields and constructors go to snake case and facts to upper camel case. A dash stays where it joins two names that are
declared; before or after a plain word it becomes an underscore. Names that Rattle makes in a function's proof, and names of src/, keep theirs.
"""

import collections
import os
import re
import sys

HERE = os.path.dirname(os.path.realpath(__file__))
SIGNATURE = re.compile(r"^(\s*)((?:(?:pub|abbrev|unfoldable|pattern) )*)(?:(record|data) )?([^\s(){}.;,@\"«»:]+)((?: \{[^{}]*\})*|(?: .*?)?) : (.*)$")
OPERATORS = set("le lt mem eq ne add mul sub div mod suc zero nil cons append not and or true false none some length take drop set get_or map replicate lookup all any".split())


def declared(root):
    """Each declared name, with its file, its marks and its type's text."""
    found = collections.defaultdict(list)
    for crate in sorted(os.listdir(os.path.join(root, "crates"))):
        for part in ("specs", "proofs"):
            for folder, _, files in os.walk(os.path.join(root, "crates", crate, part)):
                for file in files:
                    if not file.endswith(".antt"):
                        continue
                    path = os.path.join(folder, file)
                    with open(path) as lines:
                        for line in lines:
                            if line.lstrip().startswith(("--", "use ", "pub use ", "module ", "let ")):
                                continue
                            m = SIGNATURE.match(line.rstrip("\n"))
                            if not m or (not m[3] and not re.fullmatch(r"(?: \{[^{}]*\})*", m[5])):
                                continue
                            found[m[4]].append((os.path.relpath(path, root), m[2] + (m[3] or ""), m[6]))
    return found


def made(path):
    """Whether a file is part of one function's proof, whose names Rattle makes."""
    return re.match(r"crates/\w+/proofs/(?:[^/]+/)*[a-z+][^/]*/", path) is not None


def snake(part):
    part = re.sub(r"(?<=[a-z0-9₀-₉])([A-Z])(?![A-Z])", lambda m: "_" + m[1].lower(), part)
    return re.sub(r"(?<=[a-z0-9])([A-Z]+)$", lambda m: "_" + m[1].lower(), part)


def main(roots):
    names = collections.defaultdict(list)
    for root in roots:
        for name, places in declared(root).items():
            names[name] += places
    own = {n: p for n, p in names.items() if any(not made(x[0]) for x in p)}
    held = {n for n, p in names.items() if all(made(x[0]) for x in p)}
    defined = {n for n, p in own.items() if any(re.search("abbrev|unfoldable|record|data", x[1]) for x in p)} | OPERATORS
    facts = {n for n in own if n[0].islower() and "-" not in n and any(re.search(r"(^|→ )Type( 0)?$", x[2]) for x in own[n])}

    def is_word(part):
        return part in defined or f"◌{part}◌" in names or not re.search(r"\w", part)

    def of(name):
        if name in facts:
            return name[0].upper() + name[1:]
        if not name[0].islower() or name in held:
            return name
        parts = name.split("-")
        turned = [of(p) if p in facts else snake(p) for p in parts]
        out = turned[0]
        for i in range(1, len(parts)):
            joins = is_word(parts[i - 1]) and is_word(parts[i]) and name not in defined
            out += ("-" if joins else "_") + turned[i]
        return out

    table = {n: of(n) for n in sorted(own) if of(n) != n}
    meets = collections.defaultdict(list)
    for n in names:
        meets[table.get(n, n)].append(n)
    for new, olds in sorted(meets.items()):
        words = [o for o in olds if o in defined] or olds[:1]
        for n in olds:
            if n in own and n != words[0]:
                table[n] = new + "_lem"
        if len(words) > 1 or any(o in held for o in olds) and len(olds) > 1:
            print(f"meets: {new}: {olds}")
    taken = collections.Counter(table.get(n, n) for n in names)
    print("still:", [n for n in taken if taken[n] > 1])
    with open(os.path.join(HERE, "names.tsv"), "w") as out:
        out.writelines(f"{a}\t{b}\n" for a, b in sorted(table.items()))
    print(f"{len(table)} names of {len(own)}")


main(sys.argv[1:])
