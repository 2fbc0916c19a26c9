#!/usr/bin/env python3
"""Spells the repository's own definitions and lemmas as today's Rattle does, once, after the kit's port.py, at the top of the repository.

    python3 tools/respell.py            rewrites the files in place, and writes the names to tools/respelled.tsv
    python3 tools/respell.py --list     prints the names alone

A definition `twoBytes` becomes `two_bytes`, and a lemma `low-high` becomes `low_high`. A dash stays where a lemma's name is that of two definitions,
as in `encode_all-append`, and behind a fact that begins with a capital, as in `Visited-by`. Where a lemma would get the name of another definition, it gets
`_lem` behind. Functions of src/, exported names, strings, inputs and outputs keep their names: none of them has a dash or a capital within.
"""

import glob
import os
import re
import sys

HEAD = re.compile(r"(?m)^[ ]*(?:(?:abbrev|unfoldable|pub|record|data|open)\s+)*([^\s:(){}.,;\[\]]+)(?:[ ]+(?:\{[^}\n]*\}|\([^)\n]*\)))*[ ]*:(?=\s)")
GENERATED = re.compile(r"^[ ]*(?:tie|goal)\.")
KEYWORDS = {"use", "let", "in", "module", "mod", "where", "unfolding"}
LIBRARY = set("append length take drop set sets map get_or reverse filter flatten concat zip sum min max add mul sub div mod suc cons nil not and or".split())


def files():
    for f in sorted(glob.glob("crates/*/specs/**/*.antt", recursive=True) + glob.glob("crates/*/proofs/**/*.antt", recursive=True)):
        if "/out/" not in f:
            yield f


def declared():
    """The names that specs/ declare, and those that proofs/ declare, but for the answers to goals that Rattle makes."""
    specs, proofs = set(), set()
    for f in files():
        with open(f, encoding="utf-8") as it:
            text = it.read()
        for m in HEAD.finditer(text):
            name, rest = m[1], text[m.end() : m.end() + 200]
            if name in KEYWORDS or name.startswith("--") or GENERATED.match(rest.lstrip()):
                continue
            if os.path.basename(f) in ("Proof.antt", "Answers.antt", "Invariants.antt") and (name.endswith("-spec") or name.endswith("_spec")):
                continue
            (specs if "/specs/" in f else proofs).add(name)
    return specs, proofs


def snake(word):
    """`sheetA` is `sheet_a`, `mergedCF` is `merged_cf`; a fact or a type keeps its capital."""
    if not word or word[0].isupper():
        return word
    return re.sub(r"(?<=[a-z0-9])([A-Z]+)", lambda m: "_" + m[1].lower(), word)


def respelled(specs, proofs):
    words = {snake(n) for n in specs if "-" not in n} | LIBRARY
    names = {}
    for n in sorted(specs | proofs):
        parts = ["get_or" if p == "getD" else snake(p.lower() if len(p) == 1 and "-" in n else p) for p in n.split("-")]
        out = parts[0]
        for before, p in zip(parts, parts[1:]):
            both = len(parts) == 2 and before in words and p in words and n in proofs
            out += ("-" if both or before[:1].isupper() else "_") + p
        names[n] = out
    # A lemma gives way to a definition of that name.
    taken = {}
    for n in sorted(names, key=lambda n: (n not in specs, not re.search("[a-z][A-Z]", n), names[n] != n, n)):
        to = names[n]
        while to in taken and taken[to] != n:
            to += "_lem"
        taken[to] = n
        names[n] = to
    return {n: to for n, to in names.items() if n != to}


def locals_of(names):
    """Variables and fields that have a capital within, which nothing declares in a line of its own."""
    found = set()
    for f in files():
        with open(f, encoding="utf-8") as it:
            for line in it:
                if not line.lstrip().startswith("--"):
                    found |= set(re.findall(r"(?<![\w'₀-₉·\-])[a-z][a-z0-9]*[A-Z][\w'₀-₉]*(?![\w'₀-₉\-])", line))
    return {n: snake(n) for n in found if n not in names}


def turner(names):
    """Turns each whole name in a text."""
    edge = r"[\w'₀-₉·\-]"
    words = re.compile(rf"(?<!{edge})[^\W\d][\w'₀-₉]*(?:-[\w'₀-₉]+)*(?!{edge})")
    return lambda text: words.sub(lambda m: names.get(m[0], m[0]), text)


def main(argv):
    specs, proofs = declared()
    names = respelled(specs, proofs)
    names |= locals_of(names)
    if argv == ["--list"]:
        for n in sorted(names):
            print(n, names[n], sep="\t")
        return 0
    every = turner(names)
    # In code and in prose a name with no capital within may be a function of src/, or English.
    camel = turner({n: to for n, to in names.items() if "-" not in n and re.search("[a-z][A-Z]", n)})
    certain = turner({n: to for n, to in names.items() if re.search("-|[a-z][A-Z]", n)})
    quoted = lambda text: re.sub(r"`[^`\n]*`", lambda m: certain(m[0]), text)
    prose = lambda text: re.sub(r"`[^`\n]*`|[^`]+", lambda m: (certain if m[0][0] == "`" else camel)(m[0]), text)
    for f in files():
        with open(f, encoding="utf-8") as it:
            text = it.read()
        lines = []
        for line in text.split("\n"):
            code, dashes, comment = line.partition("--") if line.lstrip().startswith("--") else (line, "", "")
            # In a comment a dash may be English: there only what is quoted, or listed in a column, is a name.
            if dashes:
                column = re.match(r"\s{3,}\S+(?:, \S+)*(?=\s{2,})", comment)
                at = column.end() if column else 0
                comment = every(comment[:at]) + prose(comment[at:])
            else:
                code = every(code)
            lines.append(code + dashes + comment)
        if "\n".join(lines) != text:
            with open(f, "w", encoding="utf-8") as it:
                it.write("\n".join(lines))
    for f in sorted(glob.glob("crates/*/src/**/*.rt", recursive=True)):
        with open(f, encoding="utf-8") as it:
            text = it.read()
        lines = []
        for line in text.split("\n"):
            # Rust's names have no capital within; a dash there is a minus.
            if line.startswith("ghost use"):
                line = every(line)
            elif line.lstrip().startswith("//"):
                line = prose(line)
            else:
                line = re.sub(r'b?"(?:[^"\\\n]|\\.)*"|[^"]+|"', lambda m: m[0] if m[0][:1] == '"' or m[0][:2] == 'b"' else camel(m[0]), line)
            lines.append(line)
        if "\n".join(lines) != text:
            with open(f, "w", encoding="utf-8") as it:
                it.write("\n".join(lines))
    for f in sorted(glob.glob("crates/*/must-fail/*.edit")):
        with open(f, encoding="utf-8") as it:
            text = it.read()
        to = every(text) if re.search(r"(?m)^file: (?:specs|proofs)/", text) else camel(text)
        if to != text:
            with open(f, "w", encoding="utf-8") as it:
                it.write(to)
    for f in sorted(glob.glob("docs/*.md") + ["README.md", "CONTRIBUTING.md"]):
        with open(f, encoding="utf-8") as it:
            text = it.read()
        if quoted(text) != text:
            with open(f, "w", encoding="utf-8") as it:
                it.write(quoted(text))
    with open("tools/respelled.tsv", "w", encoding="utf-8") as it:
        it.writelines(f"{n}\t{names[n]}\n" for n in sorted(names))
    print(f"respell: {len(names)} names")
    return 0


if __name__ == "__main__":
    raise SystemExit(main(sys.argv[1:]))
