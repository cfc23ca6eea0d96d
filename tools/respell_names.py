#!/usr/bin/env python3
"""Respells the repository's own definitions, lemmas and record fields as the toolchain spells its own: words in snake case.

usage: tools/respell_names.py [TOP]      (TOP: the top of a checkout; else this one)

Run once, right after port.py. A dash stays only behind the name of a definition, where it joins that name to what is said of it, as in
`distance-turned`. Names of src/ and whatever the prover makes of them keep their spelling, and so do the labels of goals. Prints the renamings.
"""
import glob
import os
import re
import sys

TOP = sys.argv[1] if len(sys.argv) > 1 else os.path.join(os.path.dirname(os.path.realpath(__file__)), "..")
# words of the library that own lemmas speak of
LIBRARY = {"length", "mod", "pow", "cond", "xor", "cast", "bit_xor", "tabulate"}
# what the library has in this spelling
FIXED = {"bit-xor": "bit_xor", "bitXor": "bit_xor", "bit-of": "bit_of_lem", "interleaver-test": "interleaver_test_lem", "window-test": "window_test_lem"}
# definitions that stand indented in a module, and what they are called in
ALSO = {
    "dataCellsOf": "data_cells_of",
    "afterWrite": "after_write",
    "afterMend": "after_mend",
    "afterKnock": "after_knock",
    "bitK": "bit_k",
    "bitsK": "bits_k",
    "rowValue": "row_value",
    "rootAt": "root_at",
    "pairsE": "pairs_e",
    "cubicE": "cubic_e",
    "powerSum-lt": "power_sum-lt",
    "powerSum-value": "power_sum-value",
    "tabulate-getD": "tabulate-get_or",
    "get_d_tabulate": "get_or-tabulate",
}
# a lemma that has the library's name there
ONLY_IN = {"HouseLinear.antt": {"bit-xor": "xor-bit"}}
DECLARED = re.compile(r"^(?:(abbrev|unfoldable)\s+)?(?:pub\s+)?(?:(record|data)\s+)?([^\s:(){}]+)\s*[:({]")
TOKEN = re.compile(r"[^\s(){}\[\],;.:=`]+")


def snake(word):
    return re.sub(r"(?<=[a-z0-9])([A-Z])", r"_\1", word).lower() if re.search(r"[a-z][A-Z]", word) and word[0].islower() else word


def read(path):
    with open(path, encoding="utf-8") as f:
        return f.read()


def names(files):
    """The names that the files declare: definitions, other statements, record fields."""
    defined, stated, fields = set(), set(), set()
    for path in files:
        inside = False
        lines = read(path).split("\n")
        for line, after in zip(lines, lines[1:] + [""]):
            local = re.match(r"(\s+)(?:pub\s+)?([^\s:]+)\s*:\s(?!.*(?:goal|given)\.)", line)
            if local and re.match(local.group(1) + re.escape(local.group(2)) + r"[\s=]", after):
                stated.add(local.group(2))
                continue
            field = inside and re.match(r"\s+pub\s+([^\s:]+)\s*:", line)
            if field:
                fields.add(field.group(1))
                continue
            declared = DECLARED.match(line)
            if not declared or line.startswith(("use ", "open ", "--")):
                continue
            inside = declared.group(2) == "record"
            if re.search(r":\s*(goal|given)\.", line) or declared.group(3) in ("unfolding", "record", "data", "pub", "mod"):
                continue
            (defined if declared.group(1) or declared.group(2) else stated).add(declared.group(3))
    return defined, stated, fields


def respelled(name, heads):
    parts = [snake(part) for part in name.split("-")]
    for i in range(len(parts) - 1, 0, -1):
        head = "_".join(parts[:i])
        if head in heads:
            return head + "-" + "_".join(parts[i:])
    return "_".join(parts)


def prose(line, table):
    """A comment, with its names respelled: one with a dash only in code quotes, since it may be two English words."""

    def turn(m):
        quote, word = m.groups()
        return m.group(0) if word not in table or "-" in word and not quote else quote + table[word]

    return re.sub("(`?)(" + TOKEN.pattern + ")", turn, line)


def main():
    files = sorted(p for p in glob.glob(os.path.join(TOP, "crates/**/*.antt"), recursive=True) if "/out/" not in p)
    sources = sorted(p for p in glob.glob(os.path.join(TOP, "crates/**/*.rt"), recursive=True) if "/out/" not in p)
    defined, stated, fields = names(files)
    heads = {snake(d).replace("-", "_") for d in defined} | LIBRARY
    table = {}
    for name in defined | stated:
        table[name] = respelled(name, heads)
    for name in fields:
        table[name] = "_".join(snake(part) for part in name.split("-"))
    table.update(FIXED | ALSO)
    table = {old: new for old, new in table.items() if old != new}
    taken = {}
    for old, new in sorted(table.items()):
        if (new in defined | stated | fields or new in taken) and old not in FIXED | ALSO:
            print("falls together:", old, new, taken.get(new, ""))
        taken[new] = old
    dotted = {old for old in table if old in fields}

    def turn(line, note, table, library):
        if line.lstrip().startswith(note) and note + " " in line:
            return prose(line, table)
        out, last = [], 0
        for m in TOKEN.finditer(line):
            word = m.group(0)
            before = line[m.start() - 1] if m.start() else " "
            chain = re.search(r"[\w.'·-]*$", line[: m.start()]).group(0)
            own = word not in library or before == "." or re.match(r"\s+=\s", line[m.end() :])
            if word in table and own and (before != "." or word in dotted or chain.startswith("Rattle")):
                out.append(line[last : m.start()] + table[word])
                last = m.end()
        return "".join(out) + line[last:]

    for path in files + sources:
        text = read(path)
        here = table | ONLY_IN.get(os.path.basename(path), {})
        library = {n.strip() for m in re.finditer(r"use Rattle\.std[\w.]*\.\{([^}]*)\}", text) for n in m.group(1).split(",")} - set(FIXED)
        new = "\n".join(turn(line, "//" if path.endswith(".rt") else "--", here, library) for line in text.split("\n"))
        if new != text:
            with open(path, "w", encoding="utf-8") as f:
                f.write(new)
    for path in sorted(glob.glob(os.path.join(TOP, "docs/*.md"))) + [os.path.join(TOP, "README.md"), os.path.join(TOP, "CONTRIBUTING.md")]:
        text = read(path)
        new = re.sub(r"`[^`\n]+`", lambda m: TOKEN.sub(lambda w: table.get(w.group(0), snake(w.group(0))), m.group(0)), text)
        if new != text:
            with open(path, "w", encoding="utf-8") as f:
                f.write(new)
    for old, new in sorted(table.items()):
        print(old, new)


main()
