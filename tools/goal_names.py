#!/usr/bin/env python3
"""Brings names in proof files to the names that today's checker gives to goals, steps and fields.

usage: python3 tools/goal_names.py CRATE..      at the top of the repository

The checker lists each function's names (`rt check --generated FOLDER --old-names`). A name in an answer that differs from one of them
only in hyphens and underscores is written as the checker writes it.
"""

import json
import os
import re
import subprocess
import sys
import tempfile

TOKEN = re.compile(r"[^\s(){};,.\"]+")


def strings(x):
    if isinstance(x, dict):
        for k, v in x.items():
            yield k
            yield from strings(v)
    elif isinstance(x, list):
        for y in x:
            yield from strings(y)
    elif isinstance(x, str):
        yield x


def flat(name):
    return name.replace("-", "_")


def turn(path, names):
    known = {}
    for n in names:
        if re.search("[-_]", n) and "::" not in n and not n.endswith("-raw"):
            known.setdefault(flat(n), n)
    text = open(path, encoding="utf-8").read()

    def word(m):
        w = m.group(0)
        if "-" not in w or w in names:
            return w
        w = known.get(flat(w), w)
        return re.sub(r"(?<![\w])([Ii])n-(ok|err|default)(?![\w])", r"\1n_\2", w) if flat(w) not in known else w

    new = "\n".join(l if l.startswith("use Rattle.std") else TOKEN.sub(word, l) for l in text.split("\n"))
    if new != text:
        with open(path, "w", encoding="utf-8") as f:
            f.write(new)
        print("turned", path)


def main():
    for crate in sys.argv[1:]:
        with tempfile.TemporaryDirectory() as d:
            subprocess.run(["rt", "check", "--generated", d, "--old-names"], cwd=f"crates/{crate}", capture_output=True)
            listed = json.load(open(os.path.join(d, "names.json")))
        for folder, _, files in os.walk(f"crates/{crate}/proofs"):
            for f in files:
                if f not in ("Answers.antt", "Invariants.antt", "Proof.antt"):
                    continue
                place = os.path.relpath(folder, f"crates/{crate}/proofs").replace("/", ".")
                names = set(strings(listed.get(f"Rattle-{crate}-proofs.{place}.Lts", {})))
                turn(os.path.join(folder, f), names)


main()
