#!/usr/bin/env python3
"""Lists the places of src/ and proofs/ that an older form of the language may have shaped, by kind.

    python3 tools/places.py [--list] [COMMIT]

It reads the files of COMMIT, or those that lie here. A place that it lists is one to look at, and no verdict.
"""
import collections
import os
import re
import subprocess
import sys

KINDS = {
    1: "results passed on by hand, enums with a refusal among their variants",
    2: "functions of one shape: the same text, or in longer ones the same but for names, types and numbers",
    3: "loops that count by hand, or index a slice by a number that they count",
    4: "conversions, comparisons and printing by hand",
    5: "a clause that stands in three functions, two parameters that travel together in three",
    6: "arrays of which a part is used, and fields that are arrays",
    7: "a match on which step to run, a table of functions",
    8: "answers of proofs",
}


def files(commit):
    if commit is None:
        for top, _, names in os.walk("crates"):
            for name in names:
                path = os.path.join(top, name)
                if "/out/" not in path and (("/src/" in path and path.endswith(".rt")) or path.endswith("Answers.antt")):
                    yield path, open(path, encoding="utf-8").read()
        return
    names = subprocess.run(["git", "ls-tree", "-r", "--name-only", commit, "crates"], capture_output=True, text=True, check=True)
    for path in names.stdout.split():
        if ("/src/" in path and path.endswith(".rt")) or path.endswith("Answers.antt"):
            text = subprocess.run(["git", "show", f"{commit}:{path}"], capture_output=True, text=True, check=True)
            yield path, text.stdout


LINES = [
    (1, re.compile(r"\bErr\(\w+\) =>|unreachable\(\)|^\s*\w+\(Refusal\),")),
    (3, re.compile(r"^\s*while |^\s*for _\w* in .*\.\.|^\s*\w+ [+-]= 1;")),
    (4, re.compile(r" as [ui]\w+|^impl.* (Display|PartialEq|Ord|Clone|From|TryFrom)\b|fn (same_|hex_|number\b)")),
    (6, re.compile(r"^\s*\w+: \[[\w ]+; \w+\],")),
    (7, re.compile(r"match \*?(call|command|step)\b|: fn\(|\bdyn ")),
]


def functions(text):
    """Each function with a body: its first line's number, its name, its parameters, its clauses and its body."""
    for m in re.finditer(r"^( *)(?:pub(?:\(crate\))? )?fn (\w+)[^;{]*?\(", text, re.M):
        at = m.end() - 1
        depth, end = 0, at
        for end in range(at, len(text)):
            depth += {"(": 1, ")": -1}.get(text[end], 0)
            if depth == 0:
                break
        parameters = re.findall(r"(\w+): ([^,()]+)", text[at + 1 : end])
        rest = text[end + 1 :]
        head = re.match(r"(?s)(.*?)(?:;\n|\{\n|\{\}|$)", rest)[0]
        close = re.search(rf"^{m[1]}}}$", rest[len(head) :], re.M)
        if head.endswith("{\n") and close:
            clauses = re.findall(r"^\s*((?:requires|ensures)\b.*)$", head, re.M)
            yield text.count("\n", 0, m.start()) + 1, m[2], parameters, clauses, rest[len(head) :][: close.start()]


def counted(lines):
    """Loops over a range that index by its number, and arrays that are cut to a length: the line's number and the kind."""
    for i, line in enumerate(lines):
        loop = re.match(r"(\s*)for (\w+) in .*\.\.", line)
        array = re.match(r"(\s*)let mut (\w+) = (?:\[\w+; \w+\]|\w+\()", line)
        if not (loop or array):
            continue
        indent, name = (loop or array).groups()[:2]
        for later in lines[i + 1 :]:
            if len(later) - len(later.lstrip()) < len(indent) + (4 if loop else 0) and later.strip():
                break
            if loop and re.search(rf"\w\[[^\]]*\b{name}\b", later):
                yield i + 1, 3
                break
            if array and re.search(rf"&mut {name}\[\w*\.\.", later):
                yield i + 1, 6
                break


def shape(body):
    body = re.sub(r"//.*", "", body)
    return re.sub(r"\b\d\w*\b", "0", re.sub(r"\b[A-Za-z_]\w*\b", "x", re.sub(r"\s+", " ", body)))


def main():
    arguments = [a for a in sys.argv[1:] if a != "--list"]
    found = {kind: [] for kind in KINDS}
    shapes, clauses, pairs = (collections.defaultdict(list) for _ in range(3))
    for path, text in sorted(files(arguments[0] if arguments else None)):
        lines = text.split("\n")
        if path.endswith(".antt"):
            found[8] += [(path, i + 1, line) for i, line in enumerate(lines) if re.match(r"pub \S+ : goal\.", line)]
            continue
        for kind, pattern in LINES:
            found[kind] += [(path, i + 1, line.strip()) for i, line in enumerate(lines) if pattern.search(line) and "//" not in line.strip()[:2]]
        for line, kind in counted(lines):
            found[kind].append((path, line, lines[line - 1].strip()))
        for line, name, parameters, said, body in functions(text):
            alike = shape(body) if len(shape(body)) > 40 else name + body
            shapes[alike].append((path, line, name))
            for clause in {re.sub(r"^(requires|ensures) ?\w* \{", r"\1 {", c) for c in said}:
                clauses[clause].append((path, line, name))
            kinds = [f"{p}: {t.strip()}" for p, t in parameters if p != "rt"]
            for i, one in enumerate(kinds):
                for two in kinds[i + 1 :]:
                    pairs[(path.split("/")[1], one, two)].append((path, line, name))
    found[2] = [place for places in shapes.values() if len(places) > 1 for place in places]
    found[5] = [(*places[0][:2], f"{clause}: {', '.join(p[2] for p in places)}") for clause, places in clauses.items() if len(places) > 2]
    found[5] += [(*places[0][:2], f"({pair[1]}, {pair[2]}): {', '.join(p[2] for p in places)}") for pair, places in pairs.items() if len(places) > 2]
    for kind, places in found.items():
        print(f"{kind}. {len(places):4} {KINDS[kind]}")
        if "--list" in sys.argv:
            for path, line, text in places:
                print(f"      {path}:{line}: {text[:200]}")


main()
