#!/usr/bin/env python3
"""Respells this repository's own names in specs/, proofs/ and clauses: words in snake case, types in camel case.

usage: python3 tools/respell.py [--dry]      at the top of the repository, once, after the toolchain's own script

A name is left as it is where it is a field or goal that the checker makes, a name of a library, or a name that is neither
hyphenated nor in mixed case. Functions of src/, strings and files of input and output are not touched.
"""

import os
import re
import sys

# Names that would fall together with another name of the repository or of the library, and what they are called instead.
SPECIAL = {
    "tables-of": "tables_from",
    "rulesIn": "indexed_rules",
    "bit-and": "bit-and",
    "bit-or": "bit-or",
    ("rules", "rules-of"): "rules_under",
    ("docket", "rules-of"): "rules_opened",
    ("docket", "records-of"): "text_records",
    ("figures", "atoms-of"): "atoms_said",
    ("figures", "rules-of"): "rules_said",
    ("figures", "literals-of"): "literals_said",
}

MEMBERS = ["negSound", "conjSound", "disjSound", "negSettled", "conjSettled", "disjSettled", "shutTold", "yesHeld", "noHeld", "openHeld", "negHeld", "conjHeld", "disjHeld"]

TOKEN = re.compile(r"[^\s(){};,.\"]+")
OWN = re.compile(r"Rattle\.(truth|rules|evaluate|property|play|parts|splits|evidence|docket|admission|figures)\.(specs|proofs)\.")


def files(root, ends):
    for folder, dirs, names in os.walk(os.path.join(root, "crates")):
        dirs[:] = sorted(d for d in dirs if d != "out")
        for n in sorted(names):
            if n.endswith(ends):
                yield os.path.join(folder, n)


def snake(name):
    name = name.replace("-", "_")
    return re.sub(r"(?<=[a-z0-9])([A-Z])", lambda m: "_" + m.group(1).lower(), name)


def camel(name):
    return "".join(p[:1].upper() + p[1:] for p in name.split("-"))


def wants(name):
    """A hyphen inside, or a small letter before a capital in a name that begins small."""
    if re.search(r"[\w'₁₂]-[\w]", name) and not re.search(r"[◌≡<>+*/∷·=≤&|→×]", name):
        return True
    return bool(re.match(r"[a-z]", name) and re.search(r"[a-z0-9][A-Z]", name))


def turned(name, crate):
    special = SPECIAL.get((crate, name), SPECIAL.get(name))
    if special:
        return special
    return camel(name) if name[0].isupper() else snake(name)


def code(line):
    """The part of a line before its comment, and the comment."""
    at = re.search(r"(^|\s)--(\s|$)", line)
    return (line, "") if not at else (line[: at.start()], line[at.start() :])


def imported(text):
    """The names that a file has from elsewhere than the repository's own definitions and lemmas: they keep their spelling."""
    kept = set()
    for m in re.finditer(r"use ([\w.«»']+)\.\{([^}]*)\}", text):
        path, names = m.groups()
        own = OWN.match(path + ".") and ".declared." not in path + "." and not path.endswith((".Goals", ".Given"))
        for n in names.split(","):
            parts = n.strip().split(" as ")
            if not own:
                kept.add(parts[0])
    return kept


def own_fields(root):
    """The labels of the repository's own records."""
    found = set()
    for p in files(root, ".antt"):
        depth = None
        for line in open(p, encoding="utf-8"):
            indent = len(line) - len(line.lstrip())
            if line.strip() and depth is not None and indent <= depth:
                depth = None
            if re.match(r"\s*(pub )?record ", line):
                depth = indent
            m = re.match(r"\s+(?:pub )?([^\s:]+) :", line)
            if depth is not None and m:
                found.add(m.group(1))
    return found


def goals(text):
    """The names that a proof file gives to the checker's goals."""
    found = set()
    for line in text.split("\n"):
        m = re.match(r"(?:abbrev )?(?:pub )?([^\s:]+) : goal\.([^\s]+)", line)
        if m:
            found.add(m.group(1))
    return found


def respell_antt(text, fields, taken, crate):
    keep = imported(text) | goals(text)

    def word(m):
        w = m.group(0)
        before = m.string[: m.start()]
        if w in MEMBERS:
            return snake(w)
        if not wants(w) or w in keep:
            return w
        if before.endswith("."):
            own_path = re.search(r"Rattle\.[\w.]*$", before) or re.search(r"[A-Z]\w*\.$", before)
            if w not in fields and not (own_path and w in taken):
                return w
        return turned(w, crate)

    out = []
    for line in text.split("\n"):
        head, comment = code(line)
        out.append(TOKEN.sub(word, head) + comment)
    return "\n".join(out)


def respell_rt(text, fields, crate):
    """In a source file only ghost lines and clauses: from the word to the brace that closes it."""
    keep = imported(text)

    def word(m):
        w = m.group(0)
        before = m.string[: m.start()]
        if w in MEMBERS:
            return snake(w)
        if not wants(w) or w in keep or (before.endswith(".") and w not in fields):
            return w
        return turned(w, crate)

    spans = []
    for m in re.finditer(r"(?m)^\s*(?:pub )?(?:ghost|requires|ensures|decreases)\b", text):
        if spans and m.start() < spans[-1][1]:
            continue
        i = text.find("{", m.end())
        depth = 0
        while i >= 0 and i < len(text):
            depth += (text[i] == "{") - (text[i] == "}")
            i += 1
            if depth == 0:
                break
        spans.append((m.start(), i))
    out, at = [], 0
    for a, b in spans:
        out += [text[at:a], TOKEN.sub(word, text[a:b])]
        at = b
    return "".join(out) + text[at:]


def own_names(root):
    """Every name that the repository declares in specs/ and proofs/ and that is respelled."""
    found = {}
    for p in files(root, ".antt"):
        text = open(p, encoding="utf-8").read()
        answers = goals(text)
        for line in text.split("\n"):
            m = re.match(r"\s*(?:(?:abbrev|unfoldable) )?(?:pub )?(?:(?:record|data) )?([^\s:(){}.]+)(?: [({].*)? :(?: |$)", line)
            if m and wants(m.group(1)) and m.group(1) not in answers and not line.startswith("--"):
                found.setdefault(m.group(1), p)
    return found


def main():
    root, dry = ".", "--dry" in sys.argv
    fields, names = own_fields(root), own_names(root)
    words = {}
    for p in files(root, (".antt", ".rt")):
        for w in TOKEN.findall(open(p, encoding="utf-8").read()):
            words.setdefault(w, p)
    new = {}
    for n in sorted(names):
        new.setdefault(turned(n, names[n].split("/")[2]), []).append(n)
    for to, olds in new.items():
        if len(olds) > 1 or to in words:
            print(f"falls together: {', '.join(olds)} as {to}" + (f", which stands in {words[to]}" if to in words else ""))
    for p in files(root, (".antt", ".rt")):
        old = open(p, encoding="utf-8").read()
        crate = p.split("/")[2]
        text = respell_rt(old, fields, crate) if p.endswith(".rt") else respell_antt(old, fields, names, crate)
        if text != old and not dry:
            with open(p, "w", encoding="utf-8") as f:
                f.write(text)
    print(f"{len(names)} names")


main()
