#!/usr/bin/env python3
"""Spells the repository's own definitions and lemmas as today's Rattle does, once, after /opt/rattle/port/port.py.

usage: tools/respell.py        at the top of the repository

A word of a name that is in camel case gets underscores: flowsOf is flows_of. Types and modules keep their capital.
A dash stays in the name of a lemma only where it joins two names, as in join-split; a plain word is added with an underscore, as in fits_is_run.
A field of a record is a plain identifier. A name that would then be the same as another word of the sources stays as it is and is printed.
It turns whole words in .antt and .rt files, in the must-fail edits, and in the code spans of the pages. Functions of src/, strings and files keep their names.
"""

import collections
import os
import re
import sys

# the words of the library that our lemmas speak of
LIBRARY = set(
    """length drop take append set get_or replicate map filter sum add sub mul div mod pow lt le eq zero one suc nil cons and or not
    true false min max reverse concat All index every among cond""".split()
)
# names that would meet another word: a parameter of a function, a definition that a field is called like, a lemma that port.py turned
CHOSEN = {
    "listRoom": "room_of_list",
    "listHead": "head_of_list",
    "tableRoom": "room_of_table",
    "list-bytes": "list_after",
    "table-bytes": "table_after",
    "inOrder": "in_order",
    "in_order": "in_order_lem",
}
WORD = re.compile(r"[^\s(){}.;,@\"«»`]+")
DECLARED = re.compile(r"^(\s*)(?:pub |abbrev |unfoldable )*([^\s:(){}«»]+)(?: \{[^}]*\})* :(?: |$)")
RECORD = re.compile(r"^\s*(?:pub )?(?:record|data) (\S+)")


def files(*endings):
    for folder, dirs, names in os.walk("."):
        dirs[:] = sorted(d for d in dirs if d not in ("out", ".git", "target"))
        for n in sorted(names):
            if n.endswith(endings):
                yield os.path.join(folder, n)


def read(path):
    with open(path, encoding="utf-8") as f:
        return f.read()


def snake(word):
    return re.sub(r"(?<=[a-z0-9])[A-Z]", lambda m: "_" + m[0].lower(), word)


def declarations():
    """The names that our specs and proofs declare: definitions of specs, fields of records, and all others."""
    defined, fields, others = set(), set(), set()
    for path in files(".antt"):
        if not path.startswith("./crates/"):
            continue
        inside = None
        for line in read(path).split("\n"):
            if not line.strip() or line.lstrip().startswith("--"):
                continue
            m = RECORD.match(line)
            if m:
                inside = len(line) - len(line.lstrip())
                defined.add(m[1])
                continue
            if inside is not None and len(line) - len(line.lstrip()) <= inside:
                inside = None
            m = DECLARED.match(line)
            if not m or m[2] in ("let", "in", "λ", "_"):
                continue
            if inside is not None:
                fields.add(m[2])
            elif "/specs/" in path or "abbrev " in m[0] or "unfoldable " in m[0]:
                defined.add(m[2])
            else:
                others.add(m[2])
    return defined, fields, others


def functions():
    found = set()
    for path in files(".rt"):
        found |= set(re.findall(r"\bfn (\w+)", read(path)))
    return found


def joined(name, names):
    """A lemma's name: dashes between names, underscores before plain words."""
    parts, words = [], snake(name).split("-")
    while words:
        for n in range(len(words), 0, -1):
            if n == 1 or "_".join(words[:n]) in names:
                break
        parts.append("_".join(words[:n]))
        words = words[n:]
    text = parts[0]
    for before, after in zip(parts, parts[1:]):
        text += ("-" if before in names and after in names else "_") + after
    return text


def table():
    defined, fields, others = declarations()
    names = {snake(d) for d in defined if "-" not in d} | functions() | LIBRARY
    new = {}
    for n in defined | others:
        if n[:1].islower() and re.search(r"[a-z0-9][A-Z]|-", n):
            new[n] = joined(n, names)
    for n in fields:
        if re.search(r"[a-z0-9][A-Z]|-", n):
            new[n] = snake(n).replace("-", "_")
    # other names for what is imported
    for path in files(".antt", ".rt"):
        for n in re.findall(r" as ([a-z]\w*)", read(path)):
            new.setdefault(n, snake(n))
    new = {a: b for a, b in new.items() if a != b}
    # a definition goes before a lemma of its name, which gets _lem
    for a in sorted((others - defined) & set(new)):
        if new[a] in {new.get(d, d) for d in defined}:
            new[a] += "_lem"
    new.update(CHOSEN)
    used = collections.Counter()
    for path in files(".antt"):
        # but for what stands behind or before a dot: a path goes by folders, and a step of a proof by functions
        used.update(m[0] for m in WORD.finditer(re.sub(r"--[^\n]*", "", read(path))) if "." not in (m.string[m.start() - 1 : m.start()], m.string[m.end() : m.end() + 1]))
    for path in files(".rt"):
        # parameters, fields and variables; a function may be spelled as the definition of what it returns
        text = re.sub(r"//[^\n]*", "", read(path))
        used.update(set(re.findall(r"\b(\w+): ", text)) | set(re.findall(r"\blet (?:mut )?(\w+)", text)))
    meets = collections.Counter(new.values())
    kept = sorted(a for a, b in new.items() if used[b] and b not in CHOSEN or meets[b] > 1)
    return {a: b for a, b in new.items() if a not in kept}, {a: new[a] for a in kept}, fields


def turned(text, new, fields):
    """Whole words; one behind a dot only if it is a field or stands in a path of a library of ours."""

    def word(m):
        w = m[0]
        if w not in new:
            return w
        before = text[m.start() - 1 : m.start()]
        if before == "." and w not in fields and "-" in w:
            return w
        return new[w]

    return WORD.sub(word, text)


def main():
    if len(sys.argv) > 1 or not os.path.isfile("crates.txt"):
        sys.exit(__doc__)
    if not any(re.match(r"[a-z0-9]+[A-Z]", n) for n in declarations()[0]):
        sys.exit("no definition is in camel case: these sources are turned already")
    new, kept, fields = table()
    for path in files(".antt", ".rt", ".edit"):
        old = read(path)
        text = turned(old, new, fields)
        if text != old:
            with open(path, "w", encoding="utf-8") as f:
                f.write(text)
    for path in files(".md"):
        old = read(path)
        text = re.sub(r"`[^`\n]+`", lambda m: turned(m[0], new, fields), old)
        if text != old:
            with open(path, "w", encoding="utf-8") as f:
                f.write(text)
    print(f"{len(new)} names turned")
    for a, b in kept.items():
        print(f"stays, since another word is spelled so: {a} ({b})")


if __name__ == "__main__":
    main()
