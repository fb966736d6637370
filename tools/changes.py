#!/usr/bin/env python3
"""Lists what changed since a commit, old and new: public functions with their clauses, types with their invariants, definitions, and theorems that pages name.

tools/changes.py COMMIT     prints Markdown for the end of docs/DESIGN-PASS.md
"""
import re
import subprocess
import sys

base = sys.argv[1]


def git(*args):
    return subprocess.run(["git", *args], capture_output=True, text=True, check=True).stdout


def files(commit):
    names = git("ls-tree", "-r", "--name-only", commit).split("\n")
    return [n for n in names if re.match(r"crates/[^/]+/(src/.*\.rt|specs/.*\.antt|proofs/[^/]+\.antt)$", n)]


def flat(text):
    return re.sub(r"\s+", " ", text).strip()


def functions(text):
    """Public functions by the type that they stand in and their name: the head, with its clauses."""
    found, owner = {}, ""
    lines = text.split("\n")
    i = 0
    while i < len(lines):
        line = lines[i]
        m = re.match(r"impl(<[^>]*>)? (.*?)\s*\{$", line)
        if m:
            owner = m.group(2) + " "
        elif line == "}":
            owner = ""
        m = re.match(r"\s*pub (extern \"C\" )?fn (\w+)", line)
        if not m and owner.startswith("From<"):
            m = re.match(r"\s*()fn (\w+)", line)
        if m:
            j, head = i, []
            while lines[j].strip() != "{" and not lines[j].rstrip().endswith(" {"):
                head.append(lines[j])
                j += 1
            if lines[j].rstrip().endswith(" {") and lines[j].strip() != "{":
                head.append(lines[j].rstrip()[:-2])
            found[owner + m.group(2)] = "\n".join(h for h in head)
            i = j
        i += 1
    return found


def types(text):
    """Public types and constants, whole."""
    found = {}
    for m in re.finditer(r"(?m)^(?:#\[derive[^\n]*\n)?pub(?:\(crate\))? (?:struct|enum) (\w+)[^\n]*\{\n(?:.*\n)*?\}", text):
        found[m.group(1)] = m.group(0)
    for m in re.finditer(r"(?m)^\s*pub const (\w+):[^;]*;", text):
        found[m.group(1)] = m.group(0).strip()
    return found


def blocks(text):
    """Declarations of an .antt file by name, each whole: what stands between blank lines, from its signature on."""
    found = {}
    for part in re.split(r"\n\s*\n", text):
        lines = [l for l in part.split("\n") if not l.lstrip().startswith("--") and not re.match(r"\s*(use|pub use|pub mod|infix\w*)\b", l)]
        body = "\n".join(lines).strip("\n")
        m = re.match(r"\s*(?:abbrev |unfoldable )?(?:pub )?(?:(record|data) )?([^\s(){}:]+)", body)
        if body and m and m.group(2) not in ("module", "unfolding"):
            found[m.group(2)] = body
        for s in re.finditer(r"(?m)^\s*(?:abbrev |unfoldable )?pub ([^\s(){}:]+)(?: \{ℓ\})? : ", body):
            found.setdefault(s.group(1), body[s.start():])
    return found


def statement(body, name):
    """The signature of a declaration, without what proves it."""
    at = re.search(r"(?m)^\s*(?:unfolding .*|%s\b[^:\n]*=.*)$" % re.escape(name), body)
    return body[: at.start()] if at else body


def load(commit):
    functions_, types_, definitions, theorems = {}, {}, {}, {}
    for name in files(commit):
        crate = name.split("/")[1]
        text = git("show", f"{commit}:{name}")
        if name.endswith(".rt"):
            for k, v in functions(text).items():
                functions_[(crate, k)] = (name, v)
            for k, v in types(text).items():
                types_[(crate, k)] = (name, v)
        elif "/specs/" in name:
            for k, v in blocks(text).items():
                definitions[(name, k)] = (name, v)
        else:
            for k, v in blocks(text).items():
                theorems[(name, k)] = (name, statement(v, k))
    return functions_, types_, definitions, theorems


def pages(commit):
    """The (file, name) pairs that README and docs/ name."""
    found = set()
    for page in ["README.md"] + [n for n in git("ls-tree", "-r", "--name-only", commit, "docs").split("\n") if n.endswith(".md") and "PORT" not in n and "DESIGN" not in n]:
        text = git("show", f"{commit}:{page}")
        for m in re.finditer(r"`(crates/[^`]+\.antt)`:?((?:,? ?(?:and )?`[^`]+`)*)", text):
            for n in re.findall(r"`([^`]+)`", m.group(2)):
                found.add((m.group(1), n))
    return found


def show(title, old, new, lang):
    print(f"- {title}\n")
    for label, text in (("old", old), ("new", new)):
        if text is None:
            print(f"  {label}: none\n")
        else:
            print(f"  {label}:\n\n  ```{lang}")
            print("\n".join("  " + l for l in text.strip("\n").split("\n")))
            print("  ```\n")


old, new = load(base), load("HEAD")
named = pages(base)
for heading, k, lang in (("Public functions", 0, "rust"), ("Types and constants", 1, "rust"), ("Definitions", 2, "text")):
    print(f"### {heading}\n")
    for key in sorted(set(old[k]) | set(new[k])):
        a, b = old[k].get(key), new[k].get(key)
        if a and b and flat(a[1]) == flat(b[1]):
            continue
        where = (b or a)[0]
        show(f"`{where}`: `{key[1]}`", a and a[1], b and b[1], lang)
print("### Theorems that README and docs/ name\n")
for key in sorted(named):
    a, b = old[3].get(key), new[3].get(key)
    if a and (not b or flat(a[1]) != flat(b[1])):
        show(f"`{key[0]}`: `{key[1]}`", a[1], b and b[1], "text")
