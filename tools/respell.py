#!/usr/bin/env python3
"""Brings the repository's own definitions and lemmas to snake case: run once, after port.py, at the top.

Words of specs/ and of the lemma files of proofs/ (definitions, lemmas, fields, constructors, rule sets) lose capitals inside
and dashes; types and modules keep theirs. A function's proof takes the new name of what it imports and of the fields that it
reads. Functions of src/, exported names, strings, inputs and outputs stay. A lemma that would have a definition's name gets
_lem. With --list it prints old and new names and stops, with --clashes the names that fall together within a file.
"""

import os
import re
import sys

TOKEN = re.compile(r"[\w'·-]+")
SIGNATURE = re.compile(r"^\s*(?:(?:pub|abbrev|unfoldable|private|open)\s+)*([\w'·-]+(?:\s+[\w'·-]+)*)\s*:(?:\s|$)")
RULES = re.compile(r"^\s*(?:pub\s+)?ruleset\s+([\w'·-]+)")
KEYWORDS = {"let", "in", "where", "use", "module", "record", "data", "mod", "elim", "rw", "as", "abbrev", "pub", "unfolding"}
KEPT = {"ℕ"}

# Lemmas that port.py had already given the name of a definition.
LEMMAS = ("above_at", "all_in", "asked_in", "below_all", "left_in", "root_in", "row_next")

# Constructors, fields and values, which are no lemmas.
OTHERS = {
    "all-paths": "every_path",
    "all-required": "every_required",
    "no-rules": "without_rules",
    "not-above": "not_above",
    "one-path": "one_path",
    "set-of": "set_of",
    "start-sets": "sets_at_start",
}


def files(suffix):
    for folder, dirs, names in os.walk("crates"):
        dirs[:] = sorted(d for d in dirs if d != "out")
        for name in sorted(names):
            if name.endswith(suffix):
                yield os.path.join(folder, name)


def of_function(path):
    parts = path.split(os.sep)
    return parts[2] == "proofs" and len(parts) > 4


def snake(name):
    head = re.match(r"[^\W\d_]", name)
    if head and name[0].isupper():
        return name
    parts = re.sub(r"(?<=[a-z0-9])([A-Z])", lambda m: "_" + m.group(1).lower(), name)
    parts = re.sub(r"(?<=[a-zA-Z0-9'₀-₉])-(?=\w)", "_", parts)
    return parts


def declared(text):
    found = set()
    for line in text.splitlines():
        m = RULES.match(line)
        if m:
            found.add(m.group(1))
            continue
        m = SIGNATURE.match(line)
        if m:
            words = m.group(1).split()
            if not KEYWORDS & set(words):
                found |= set(words)
    return found


def imports(text):
    """The names that a file brings in, each with whether its module is one of this repository's."""
    for m in re.finditer(r"(?m)^(?:ghost )?(?:pub )?use ([^;\n{]+?)(?:\.\{([^}]*)\})?;?$", text):
        own = m.group(1).startswith("Rattle.") and m.group(1).split(".")[1] in CRATES
        for name in (m.group(2) or "").split(","):
            for word in name.split(" as "):
                if word.strip():
                    yield word.strip(), own


def turn(text, names, strip=None):
    def one(m):
        return names.get(m.group(0), m.group(0))

    out = []
    for line in text.split("\n"):
        code, mark, note = line, "", ""
        for sign in strip or ():
            i = line.find(sign)
            if i >= 0 and line[:i].count('"') % 2 == 0:
                code, mark, note = line[:i], sign, line[i + len(sign):]
                break
        pieces = re.split(r'("(?:[^"\\]|\\.)*")', code)
        code = "".join(p if p.startswith('"') else TOKEN.sub(one, p) for p in pieces)
        if note:
            capitals = {k: v for k, v in names.items() if re.search(r"[a-z][A-Z]", k)}
            note = TOKEN.sub(lambda m: capitals.get(m.group(0), m.group(0)), note)
        out.append(code + mark + note)
    return "\n".join(out)


CRATES = {c for c in os.listdir("crates") if os.path.isdir(os.path.join("crates", c, "src"))}


def main():
    texts = {p: open(p, encoding="utf-8").read() for p in list(files(".antt")) + list(files(".rt"))}
    names, words, fields = {}, set(), set()
    for p, t in texts.items():
        if p.endswith(".antt") and not of_function(p):
            for name in declared(t):
                words.add(name)
                if name not in KEPT and snake(name) != name:
                    names[name] = snake(name)
    taken = {snake(n) for n in words if "-" not in n and n not in LEMMAS}
    for name in names:
        if "-" in name and snake(name) in taken:
            names[name] = snake(name) + "_lem"
    for name in LEMMAS:
        if name in taken:
            names[name] = name + "_lem"
    names.update({k: v for k, v in OTHERS.items() if k in names})
    for p, t in texts.items():
        if p.endswith(".antt") and not of_function(p):
            inside = False
            for line in t.splitlines():
                if re.match(r"^\s*(?:pub )?record ", line):
                    inside = True
                elif inside and re.match(r"^\s+(?:pub )?[\w'·-]+ :", line):
                    fields |= declared(line)
                elif inside and not line.startswith(" " * 4):
                    inside = False
    if "--list" in sys.argv:
        for k in sorted(names):
            print(k, names[k])
        return 0
    for p, t in texts.items():
        outside = {n for n, own in imports(t) if not own}
        mine = {n for n, own in imports(t) if own}
        if p.endswith(".rt"):
            allowed = {k: v for k, v in names.items() if k not in outside and (k not in LEMMAS or k in mine)}
            new = turn(t, allowed, ("//",))
        elif of_function(p):
            allowed = {k: v for k, v in names.items() if k not in outside and (k in mine or re.search(r"[a-z][A-Z]", k) or k in fields)}
            new = turn(t, allowed, ("--",))
        else:
            allowed = {k: v for k, v in names.items() if k not in outside}
            new = turn(t, allowed, ("-- ",))
        if "--clashes" in sys.argv:
            before = set(TOKEN.findall(re.sub(r"(?m)-- .*$|//.*$", "", t)))
            became = {}
            for k in before:
                became.setdefault(allowed.get(k, k), set()).add(k)
            for k, v in sorted(became.items()):
                if len(v) > 1:
                    print(p, k, *sorted(v))
            continue
        if new != t:
            with open(p, "w", encoding="utf-8") as f:
                f.write(new)
    if "--clashes" in sys.argv:
        return 0
    for folder in ("docs", "docs/landings", "."):
        for name in sorted(os.listdir(folder)):
            p = os.path.join(folder, name)
            if name.endswith(".md") and name != "PORT.md":
                t = open(p, encoding="utf-8").read()
                new = re.sub(r"`[^`\n]+`", lambda m: TOKEN.sub(lambda k: names.get(k.group(0), k.group(0)), m.group(0)), t)
                if new != t:
                    open(p, "w", encoding="utf-8").write(new)
    return 0


if __name__ == "__main__":
    raise SystemExit(main())
