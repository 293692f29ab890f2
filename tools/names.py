#!/usr/bin/env python3
"""Brings the names of this repository's definitions and lemmas to the library's spelling: python3 tools/names.py, once, at the top.

Definitions, fields and constructors are in snake case. In a lemma's name a dash joins the names of two definitions, and a plain
word is added with `_`. Types and modules keep their names, and so does all that Rattle makes or the source names.
A new name that already stands in a file with the old one gets `_lem` behind it.
It writes tools/names.tsv, old and new name, which the pages are brought up to date by.
"""
import glob
import re
import sys

TOKEN = re.compile(r"[^\s(){}\[\],;.:`\"]+")
DECL = re.compile(
    r"^ *(?P<words>(?:(?:unfoldable|abbrev|pub|data|record)\s+)*)(?P<name>[^\s(){}\[\],;.:]+)(?:\s*\{ℓ[^}]*\})?\s*:\s*(?P<type>.*)$"
)
TYPE = re.compile(r"^ *(?:pub )?(?:record|data) (?P<name>[^\s(){}\[\],;.:]+)")
# words of the library that lemmas speak of
STD = set(
    "length take drop get_or append map replicate set reverse zero suc add sub mul div mod min max and or not eqb leb ltb nil cons"
    " sum none some inl inr eq ne le lt".split()
)


def snake(word):
    if not re.match(r"[a-z]", word):
        return word
    word = word.replace("getD", "get_or")
    return re.sub(r"(?<=[a-z0-9])([A-Z])", lambda m: "_" + m[1].lower(), word)


def read(path):
    with open(path, encoding="utf-8") as f:
        return f.read()


def main():
    spec = sorted(glob.glob("crates/*/specs/**/*.antt", recursive=True))
    proof = sorted(glob.glob("crates/*/proofs/**/*.antt", recursive=True))
    src = sorted(glob.glob("crates/*/src/**/*.rt", recursive=True))
    edits = sorted(glob.glob("crates/*/must-fail/*.edit"))
    texts = {p: read(p) for p in spec + proof + src + edits}
    definitions, lemmas, fields = set(), set(), set()
    for p in spec + proof:
        inside = None
        for line in texts[p].split("\n"):
            depth = len(line) - len(line.lstrip(" "))
            if inside is not None and line and depth <= inside:
                inside = None
            m = TYPE.match(line)
            if m:
                definitions.add(m["name"])
                inside = depth
                continue
            m = DECL.match(line)
            if not m or re.match(r"[\w+-]+\.(Need-|invariant|decreases|InvT|MeasureT)", m["type"]):
                continue
            words = m["words"].split()
            if inside is not None:
                fields.add(m["name"])
            elif "abbrev" in words or "unfoldable" in words:
                definitions.add(m["name"])
            else:
                lemmas.add(m["name"])
    for p in spec + proof + src:
        definitions |= set(re.findall(r" as ([a-z]+[a-z0-9]*[A-Z]\w*)", texts[p]))
    known = {snake(d) for d in definitions} - {"is", "all"} | STD
    lemmas -= definitions

    def joined(name):
        if name.endswith("-spec"):
            return snake(name).replace("-", "_")
        parts = [snake(it) for it in name.split("-")]
        out = parts[0]
        for a, b in zip(parts, parts[1:]):
            out += ("-" if a in known and b in known else "_") + b
        return out

    table = {}
    for name in sorted(definitions | fields):
        new = snake(name).replace("-", "_") if re.match(r"[a-z]", name) else name
        if new != name:
            table[name] = new
    for name in sorted(lemmas):
        new = joined(name)
        if new != name:
            table[name] = new
        elif name in {snake(it) for it in definitions} - definitions:
            table[name] = name + "_lem"
    # names that fall together
    places = {}
    for p, t in texts.items():
        for w in set(TOKEN.findall(t)):
            places.setdefault(w, set()).add(p)
    taken = set()
    for old in sorted(table, key=lambda it: (it not in definitions, it)):
        new = table[old]
        if new in taken or new in definitions | lemmas | fields or places.get(new, set()) & places.get(old, set()):
            kind = "definition" if old in definitions else "field" if old in fields else "lemma"
            print(f"look: {kind} {old}: {new} is taken, so it is {new}_lem" if kind == "lemma" else f"look: {kind} {old}: {new} also stands for something else")
            if kind == "lemma" and not new.endswith("_lem"):
                table[old] = new + "_lem"
        taken.add(table[old])
    goals = re.compile(r"^(?P<name>[^\s:]+) : [\w+-]+\.(Need-|invariant|decreases|InvT|MeasureT)", re.M)
    changed = 0
    for p, t in texts.items():
        own = {m["name"] for m in goals.finditer(t)}

        def turned(m):
            w = m[0]
            if w not in table or w in own or p.endswith((".rt", ".edit")) and re.fullmatch(r"[a-z0-9_]+", w):
                return w
            # a name behind a dot is a field, or an item of a module that is named whole
            before = t[max(0, m.start() - 1) : m.start()]
            if before == "." and w not in fields and w not in definitions and not re.search(r"(?:^|[^\w])[A-Z]\w*\.$", t[max(0, m.start() - 40) : m.start()]):
                return w
            return table[w]

        new = TOKEN.sub(turned, t)
        if new != t:
            changed += 1
            with open(p, "w", encoding="utf-8") as f:
                f.write(new)
    with open("tools/names.tsv", "w", encoding="utf-8") as f:
        f.writelines(f"{old}\t{table[old]}\n" for old in sorted(table))
    print(f"{len(table)} names, {changed} files")


if __name__ == "__main__":
    sys.exit(main())
