#!/usr/bin/env python3
"""Lists the places in src/ where today's forms may serve, by point of docs/DESIGN-PASS.md.

usage: python3 tools/design_places.py [--at COMMIT] [POINT..]      at the top of the repository

It goes by text, so it lists candidates; docs/DESIGN-PASS.md says of each what it is. Only crates of crates.txt are read.
"""

import collections
import re
import subprocess
import sys

KEYWORDS = set(
    "as break const continue crate else enum fn for if impl in let loop match mod move mut pub ref return self Self static struct "
    "super trait type unsafe use where while true false Some None Ok Err".split()
)
TOKEN = re.compile(r"[A-Za-z_]\w*|\d[\w.]*|\"(?:[^\"\\]|\\.)*\"|[^\sA-Za-z_0-9]")


def sources(commit):
    def text(path):
        if commit:
            return subprocess.run(["git", "show", f"{commit}:{path}"], capture_output=True, text=True, check=True).stdout
        return open(path, encoding="utf-8").read()

    crates = [l.split(":")[0] for l in text("crates.txt").splitlines() if l and not l.startswith("#")]
    listing = ["git", "ls-tree", "-r", "--name-only", commit] if commit else ["git", "ls-files", "-co", "--exclude-standard"]
    for path in sorted(subprocess.run(listing, capture_output=True, text=True, check=True).stdout.split("\n")):
        m = re.fullmatch(r"crates/(\w+)/src/.*\.rt", path)
        if m and m[1] in crates:
            yield path, m[1], text(path)


class Function:
    """A function: its head, clauses and body, as text, with the line of its name."""

    def __init__(self, path, crate, line, name, head, clauses, body):
        self.path, self.crate, self.line, self.name = path, crate, line, name
        self.head, self.clauses, self.body = head, clauses, body

    def where(self):
        return f"{self.path}:{self.line} {self.name}"


def closing(text, i, opening, ending):
    depth = 0
    while i < len(text):
        depth += (text[i] == opening) - (text[i] == ending)
        i += 1
        if depth == 0:
            return i
    return i


CLAUSE = re.compile(r"\s*(requires|ensures|ghost)\*?\s*(\w+)?\s*(?=\{)")


def functions(path, crate, text):
    plain = re.sub(r"//[^\n]*", lambda m: " " * len(m[0]), text)
    for m in re.finditer(r"\bfn (\w+)", plain):
        end = re.compile(r"(?=\n?\s*(?:requires|ensures|ghost)\b|\{|;)").search(plain, closing(plain, plain.index("(", m.end()), "(", ")"))
        if not end:
            continue
        i, clauses = end.start(), []
        while c := CLAUSE.match(plain, i):
            i = closing(plain, c.end(), "{", "}")
            clauses.append((c[1], " ".join(plain[c.end() + 1 : i - 1].split())))
        body = ""
        rest = plain[i:].lstrip()
        if rest.startswith("{"):
            start = plain.index("{", i)
            body = plain[start : closing(plain, start, "{", "}")]
        yield Function(path, crate, text.count("\n", 0, m.start()) + 1, m[1], plain[m.start() : end.start()], clauses, body)


def shape(f):
    out = []
    for t in TOKEN.findall(f.head.split("(", 1)[1] + f.body):
        out.append(t if t in KEYWORDS or not re.match(r"[\w\"]", t) else "x")
    return " ".join(out)


def shown(files, pattern, skip=lambda path: False):
    for path, _, text in files:
        for n, line in enumerate(text.splitlines(), 1):
            code = line.split("//")[0]
            if re.search(pattern, code) and not skip(path):
                yield f"{path}:{n}: {line.strip()}"


def tests(path):
    return "_tests/" in path


def point1(files, fns):
    yield from shown(files, r"^\s*(pub(\(\w+\))? )?enum \w+")
    yield from shown(files, r"Option<\(\)>|Result<bool>|\(bool,|, bool\)")
    for f in fns:
        if re.search(r"-> u8\s*$", f.head) and re.fullmatch(r"\{\s*(let _ = \w+;\s*)?0\s*\}", f.body):
            yield f.where() + ": a number that carries nothing"
    for f in fns:
        if not tests(f.path) and re.search(r"match [^{]*\{\s*(\(?\d)", f.body):
            yield f.where() + ": a match on numbers"
    for f in fns:
        if not tests(f.path) and re.search(r"(_ => |else \{\s*|return )(0|\w+ \{ \w+: 0, \w+: 0 \}|\(0, 0\))\s*[,;}]", f.body):
            yield f.where() + ": zero for nothing"


def point2(files, fns):
    groups = collections.defaultdict(list)
    for f in fns:
        if f.body and len(TOKEN.findall(f.body)) >= 9 and f.name != "main":
            groups[shape(f)].append(f)
    for fs in groups.values():
        if len(fs) > 1:
            yield f"{len(fs)} alike: " + "; ".join(f.where() for f in fs)
    groups = collections.defaultdict(list)
    for f in fns:
        if f.clauses and len(TOKEN.findall(f.body)) < 9:
            groups[re.sub(r"\b(?!result\b)[A-Za-z]\w*", "x", f.head.split("(", 1)[1] + str(f.clauses))].append(f)
    for fs in groups.values():
        if len(fs) > 1:
            yield f"{len(fs)} theorems or readers alike: " + "; ".join(f.where() for f in fs)


def point3(files, fns):
    yield from shown(files, r"^\s*('\w+: )?for .* in .*\.\.")
    yield from shown(files, r"^\s*('\w+: )?(while|loop)\b")
    yield from shown(files, r"^\s*\w+ (\+=|-=) 1;")


def point4(files, fns):
    yield from shown(files, r"^\s*impl(<.*>)? (PartialEq|Eq|PartialOrd|Ord|Clone|Copy|Hash|Default|Debug|Display|From|TryFrom|FromStr)\b")
    for f in fns:
        if re.match(r"(from_|to_|as_str|\w+_name\b|name\b|part_of\b|allowed_|settled\b)", f.name):
            yield f.where() + ": a conversion or a name by hand"
    yield from shown(files, r"\* 256|/ 256|% 256")
    yield from shown(files, r"^\s*(pub )?const \w+: [A-Z]\w+ = [A-Z]\w+ \{")


def point5(files, fns):
    said = collections.defaultdict(set)
    for f in fns:
        for kind, clause in f.clauses:
            if kind == "requires":
                said[re.sub(r"\b(self|grid|values|bodies|heads|file)\b(\.(old|now|new|entry))*", "it", clause)].add(f.where())
    for clause, where in sorted(said.items(), key=lambda x: -len(x[1])):
        if len(where) > 2:
            yield f"{len(where)} functions require {{ {clause} }}"
    together = collections.defaultdict(set)
    for f in fns:
        if tests(f.path):
            continue
        names = re.findall(r"(\w+): (?:&(?:'\w+ )?(?:mut )?)?([\w<>\[\]', ]+?)[,)]", f.head)
        names = sorted({f"{n}: {t}" for n, t in names if n != "rt"})
        for i in range(len(names)):
            for j in range(i + 1, len(names)):
                together[(f.crate, names[i], names[j])].add(f.where())
    for (crate, a, b), where in sorted(together.items(), key=lambda x: (x[0][0], -len(x[1]))):
        if len(where) > 2:
            yield f"{crate}: {len(where)} functions take ({a}, {b})"


def point6(files, fns):
    yield from shown(files, r"^\s*(pub(\(\w+\))? )?\w+: (\[.*; \w+\]|Vec<.*>|&'a (mut )?\[.*\]),")
    yield from shown(files, r"^\s*(pub(\(\w+\))? )?(count|used|len|length|depth|starts): \w+.*,")


def point7(files, fns):
    yield from shown(files, r"\bdyn \w|[:(<] ?fn\(")
    for f in fns:
        if not tests(f.path) and len(re.findall(r"=> (return )?[a-z_]\w*(::\w+)*\([^)]*\)\??,", f.body)) > 1:
            yield f.where() + ": a match that picks a function"


def main():
    words = sys.argv[1:]
    commit = None
    if words[:1] == ["--at"]:
        commit, words = words[1], words[2:]
    files = list(sources(commit))
    fns = [f for path, crate, text in files for f in functions(path, crate, text)]
    points = [point1, point2, point3, point4, point5, point6, point7]
    for n, point in enumerate(points, 1):
        if words and str(n) not in words:
            continue
        found = list(dict.fromkeys(point(files, fns)))
        print(f"point {n}: {len(found)}")
        if words:
            for line in found:
                print("  " + line)


main()
