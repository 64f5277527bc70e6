#!/usr/bin/env python3
"""Spells the repository's own definitions and lemmas as today's Rattle does: words in snake case, a prime as an apostrophe.

usage: python3 tools/respell.py [--list]      at the top of the repository, once, after port.py

It renames in every .antt file, in the clauses and imports of every .rt file, and in every must-fail edit. What Rattle makes (names
behind a dot with a dash in them, and goals of a proof that walks the code) and what the library declares keep their names; so do
functions of src/, file names, strings, and protocol words in comments that are not between backticks. --list prints old and new names.
It stops, and writes nothing, where two names of one file would fall together.
"""

import os
import re
import sys

NAME = r"[^\s(){}\[\];,.`\"]+"
DEFINED = re.compile(r"^\s*(?:(?:abbrev|unfoldable|pub|data|record|field)\s+)*(" + NAME + r")((?:\s+" + NAME + r")*)\s*(?:\{[^}]*\}\s*|\([^)]*\)\s*)*:(?:\s|$)")
# lemmas that port.py has spelled already, and that would fall together with their function
LEMMAS = {n: n + "_lem" for n in ("same_text", "signed_decimal", "end_line", "version_of", "moved_view", "all_known")}
KEPT = re.compile(r"^(?:invariant|decreases|μ)(?:-|$)")


def files(ending):
    for folder, dirs, names in os.walk("crates"):
        dirs[:] = sorted(d for d in dirs if d != "out")
        for f in sorted(names):
            if f.endswith(ending):
                yield os.path.join(folder, f)


def snake(word):
    word = word.replace("′", "'")
    word = re.sub(r"(?<=[a-z0-9])([A-Z]+)(?=[A-Z][a-z]|$|[^A-Za-z])", lambda m: "_" + m.group(1).lower(), word)
    word = re.sub(r"(?<=[a-z0-9])([A-Z])", lambda m: "_" + m.group(1).lower(), word)
    word = re.sub(r"([A-Z])", lambda m: "_" + m.group(1).lower(), word)
    return word.replace("-", "_")


def is_old(word):
    return bool(re.match(r"^[+]?[a-z]", word)) and bool(re.search(r"[A-Z′-]", word)) and not KEPT.match(word)


def upper(word):
    return "".join(p[:1].upper() + p[1:] for p in word.split("-"))


def declared():
    """The names that .antt files declare, and that are spelled the old way: each with its new spelling."""
    found = {}
    plain = set()
    for path in files(".antt"):
        goals = re.match(r".*/proofs/.*/Proof\.antt$", path)
        for line in open(path, encoding="utf-8"):
            line = line.rstrip("\n")
            if line.lstrip().startswith("--"):
                continue
            m = DEFINED.match(line)
            if not m:
                continue
            if goals and re.search(r":\s*tie\.(Need|invariant|decreases)", line):
                continue
            for word in [m.group(1), *m.group(2).split()]:
                if is_old(word):
                    found[word] = snake(word)
                elif re.match(r"^[A-Z]\w*-[\w-]+$", word):
                    found[word] = upper(word)
                else:
                    plain.add(word)
    # a lemma that would have its function's name gets `_lem`
    functions = {b for a, b in found.items() if "-" not in a} | plain
    return {a: b + "_lem" if "-" in a and b in functions else b for a, b in found.items()} | LEMMAS


def foreign(text):
    """Names that the file imports from outside the repository."""
    out = set()
    for path, names in re.findall(r"^\s*(?:ghost |pub )?use ([^\s{]+)\.\{([^}]*)\}", text, re.M):
        parts = path.split(".")
        if parts[0] != "Rattle" or not os.path.isdir(os.path.join("crates", parts[1])):
            out |= {n.strip().split(" as ")[0] for n in names.split(",")}
    return out


QUOTED = re.compile(r'("(?:[^"\\]|\\.)*")')
TOKEN = re.compile(r"(?P<dot>\.?)(?P<word>[A-Za-z+μ_][A-Za-z0-9_'′₀-₉-]*)")


def code(text, names, skip):
    def one(m):
        word = m.group("word")
        if word in skip or word not in names:
            return m.group(0)
        if word in LEMMAS and m.string.startswith(".", m.end()):
            return m.group(0)
        if m.group("dot") and ("-" in word or word in LEMMAS) and not m.string[: m.start()].rstrip().endswith("}"):
            # behind a dot: a module's item is the repository's, a label is Rattle's
            before = re.search(r"([\w·'-]+)$", m.string[: m.start()])
            if not (before and re.match(r"^[A-Z]", before.group(1))):
                return m.group(0)
        return m.group("dot") + names[word]

    # texts between quotes stay as they are
    return "".join(part if i % 2 else TOKEN.sub(one, part) for i, part in enumerate(QUOTED.split(text)))


def comment(text, names):
    return re.sub(r"`([^`]+)`", lambda m: "`" + code(m.group(1), names, set()) + "`", text)


def antt(text, names):
    skip = foreign(text)
    out = []
    for line in text.split("\n"):
        at = 0 if line.lstrip().startswith("--") else line.find(" -- ")
        if at == 0:
            out.append(comment(line, names))
        elif at > 0:
            out.append(code(line[:at], names, skip) + comment(line[at:], names))
        else:
            out.append(code(line, names, skip))
    return "\n".join(out)


def rust(text, names):
    words = {a: b for a, b in names.items() if "-" not in a and a not in LEMMAS}
    out = []
    inside = False
    for line in text.split("\n"):
        s = line.strip()
        if s.startswith("//"):
            out.append(comment(line, names))
            continue
        if re.match(r"^(ghost use|requires|ensures|ghost|decreases|invariant)\b", s):
            inside = True
        elif re.match(r"^(\{|pub |fn |use |#|\}|let |//)", s) or not s:
            inside = False
        out.append(code(line, names if s.startswith("ghost use") else words, set()) if inside else line)
    return "\n".join(out)


def edit(text, names):
    lines = text.split("\n")
    where = ""
    out = []
    for line in lines:
        if line.startswith("file: "):
            where = line[6:].strip()
        if line.startswith(("old: ", "new: ")):
            line = line[:5] + (code(line[5:], names, set()) if where.endswith(".antt") else code(line[5:], {a: b for a, b in names.items() if "-" not in a and a not in LEMMAS}, set()))
        out.append(line)
    return "\n".join(out)


def together(path, before, after):
    """Pairs of names of one file that fall together."""
    a = list(TOKEN.finditer(before))
    b = list(TOKEN.finditer(after))
    if len(a) != len(b):
        return [(path, "the number of words changed")]
    of = {}
    for x, y in zip(a, b):
        if not x.group("dot") and not after.startswith(".", y.end()):
            of.setdefault(y.group("word"), set()).add(x.group("word"))
    return [(path, y, sorted(xs)) for y, xs in of.items() if len(xs) > 1]


def main():
    names = declared()
    if "--list" in sys.argv:
        for a in sorted(names):
            print(a, names[a])
        return 0
    written = {}
    fallen = []
    for ending, turn in ((".antt", antt), (".rt", rust), (".edit", edit)):
        for path in files(ending):
            text = open(path, encoding="utf-8").read()
            new = turn(text, names)
            if new != text:
                written[path] = new
                if ending == ".antt":
                    strip = lambda t: "\n".join(l for l in t.split("\n") if not l.lstrip().startswith("--"))
                    fallen += together(path, strip(text), strip(new))
    for it in fallen:
        print("falls together:", *it)
    if fallen and "--anyway" not in sys.argv:
        return 1
    for path, new in written.items():
        open(path, "w", encoding="utf-8").write(new)
    print(len(written), "files,", len(names), "names")
    return 0


if __name__ == "__main__":
    raise SystemExit(main())
