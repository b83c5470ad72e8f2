#!/usr/bin/env python3
"""Spells the repository's own definitions and lemmas in snake case, and its types in camel case.

usage: python3 tools/respell.py    at the top of the repository, once, after the toolchain's port.py

A name is one that a file of specs/ or proofs/ declares (a definition, a lemma, a field, a constructor, a record). A dash in it becomes an underscore
(`lag-a`, `lag_a`), a small letter before a capital one is parted from it (`eqZ`, `eq_z`), and a type loses its dash (`Joined-to`, `JoinedTo`). Names of
the toolchain's libraries, goals and steps keep theirs. What is respelled: .antt files, .rt files, must-fail edits, and names between backticks in
comments and pages. Words of comments and strings stay. It says which names would fall together, and then writes nothing.
"""

import os
import re
import sys

WORD = re.compile(r"[^\s(){}\[\].,;«»\"`]+")
SIGNATURE = re.compile(r"^\s*(?:pub |abbrev |unfoldable )*([^\s(){}:;,.]+(?: [^\s(){}:;,.]+)*) : ")
HEAD = re.compile(r"^\s*(?:pub |abbrev )*(?:record|data) ([^\s(){}:;,]+)")
IMPORT = re.compile(r"^\s*(?:ghost )?use ([\w.+-]+)\.\{([^}]*)\}")
KEYWORDS = {"let", "use", "elim", "|", "where", "open", "λ", "in"}
TYPES = {"Joined-to", "Masked-to", "Conflict-last", "Status-fits", "Verdict-fits", "All-formed"}


def files(folder, *ends):
    for top, dirs, names in os.walk(folder):
        dirs[:] = sorted(d for d in dirs if d not in ("out", "target", ".git"))
        for n in sorted(names):
            if n.endswith(ends):
                yield os.path.join(top, n)


def read(path):
    with open(path, encoding="utf-8") as f:
        return f.read()


def snake(name):
    name = re.sub(r"(?<=[a-z])(?=[A-Z](?![a-z])|[A-Z][a-z])", "_", name)
    return "".join(c.lower() if c.isascii() else c for c in name)


def respelled(name):
    """The new spelling of a declared name, or the name."""
    if "◌" in name or not re.search(r"[A-Za-z]", name):
        return name
    if name in TYPES:
        return "".join(p[:1].upper() + p[1:] for p in name.split("-"))
    if name[0].isupper():
        return name
    if re.search(r"[a-z][A-Z]", name) or re.search(r"-[A-Z](?![a-z])", name):
        name = snake(name)
    return name.replace("-", "_").replace("+", "_with_") if "-" in name[1:] or re.search(r"\w\+\w", name) else name


def declared():
    found = {}
    for p in files("crates", ".antt"):
        for line in read(p).split("\n"):
            head = HEAD.match(line)
            if head:
                found.setdefault(head.group(1), set()).add(p)
                continue
            # the goals of a function are named by the toolchain
            if "tie." in line:
                continue
            sig = SIGNATURE.match(line)
            if sig and sig.group(1).split()[0] not in KEYWORDS:
                for n in sig.group(1).split():
                    found.setdefault(n, set()).add(p)
    return found


def taken(text):
    """Names that a file takes from the toolchain's libraries: there they keep their spelling."""
    found = set()
    for m in map(IMPORT.match, text.split("\n")):
        if m and not own(m.group(1)):
            found |= {w.strip() for w in m.group(2).split(",")}
    return found


def own(path):
    parts = path.split(".")
    return len(parts) > 1 and parts[0] == "Rattle" and os.path.isdir(os.path.join("crates", parts[1]))


def comment_of(line, mark):
    """Where a comment begins in the line."""
    at = re.search(r"(?:^|\s)" + mark, line)
    return at.start() if at else len(line)


def turn(text, names, mark):
    theirs = taken(text)
    names = {n: t for n, t in names.items() if n not in theirs}

    def word(m):
        return names.get(m.group(0), m.group(0))

    out = []
    for line in text.split("\n"):
        cut = comment_of(line, mark) if mark else 0
        code, rest = line[:cut], line[cut:]
        rest = re.sub(r"`[^`]*`", lambda m: WORD.sub(word, m.group(0)), rest)
        out.append(WORD.sub(word, code) + rest)
    return "\n".join(out)


def edit(text, names):
    def word(m):
        return names.get(m.group(0), m.group(0))

    return "\n".join(WORD.sub(word, l) if l.startswith(("old: ", "new: ")) else l for l in text.split("\n"))


def together(names, known):
    """Names that would fall together: two of the repository's, or one with a name that the same file takes from a library."""
    ends = {}
    for n in known:
        ends.setdefault(names.get(n, n), []).append(n)
    bad = [f"fall together: {v}" for v in ends.values() if len(v) > 1]
    for p in files("crates", ".antt", ".rt"):
        text = read(p)
        theirs = taken(text)
        bad += [f"{p}: {n} falls together with a library's {t}" for n, t in names.items() if t in theirs and n in WORD.findall(text)]
    return bad


def main():
    known = declared()
    names = {n: respelled(n) for n in known if respelled(n) != n and n[0] != "+"}
    bad = together(names, known)
    if bad:
        print("\n".join(bad))
        return 1
    dashed = {n: t for n, t in names.items() if "-" in n or re.search("[a-z][A-Z]", n)}
    # edits and pages still say the older names of what port.py respelled
    older = {n.replace("_", "-"): n for n in known if "_" in n} | dashed
    for p in files("crates", ".antt"):
        save(p, turn(read(p), names, "--"))
    for p in files("crates", ".rt"):
        save(p, turn(read(p), dashed, "//"))
    for p in files("crates", ".edit"):
        save(p, edit(read(p), older))
    for p in [*files("docs", ".md"), "README.md"]:
        save(p, turn(read(p), older, None))
    print(f"{len(names)} names respelled")
    return 0


def save(path, text):
    if text != read(path):
        with open(path, "w", encoding="utf-8") as f:
            f.write(text)


if __name__ == "__main__":
    sys.exit(main())
