#!/usr/bin/env python3
"""Respells the definitions and lemmas of this repository: words in snake case, types in camel case.

usage: tools/respell.py         at the top of the checkout, once, after the toolchain's own port.py

A name is this repository's if a file of specs/ or proofs/ declares it, and it is turned if a dash is in it:
length-of becomes length_of, and Laws-stand becomes LawsStand. Names that the toolchain makes for steps and goals,
names of the library, names in src/ and strings stay. Names that would fall together are printed, and nothing is written.
"""

import collections
import glob
import re
import sys

WORD = r"[\w'\-]+"
DECLARED = re.compile(r"^\s*(?:abbrev |unfoldable )?(?:pub )?(?:(?:record|data) )?(" + WORD + r")\s*(?:\(|\{|:)")
USE = re.compile(r"^\s*(?:ghost )?(?:pub )?use\s+([\w.+'\-]+?)(?:\.\{([^}]*)\})?(?:\s+as\s+(" + WORD + r"))?;?\s*$")
TOKEN = re.compile(r"(\.?)(?<![\w'\-])(" + WORD + r")")
STRING = re.compile(r'("(?:[^"\\]|\\.)*"|//.*)')


def crates():
    return [line.split(":")[0].split()[0] for line in open("crates.txt") if line.strip() and not line.startswith("#")]


def is_own(path, own):
    parts = path.split(".")
    return len(parts) > 2 and parts[0] == "Rattle" and parts[1] in own


def is_generated(path):
    return path.split(".")[-1] in ("Goals", "Given")


def is_answer(file):
    return file.split("/")[-1] in ("Answers.antt", "Invariants.antt", "Choices.antt", "Proof.antt")


def declared(files):
    """The names with a dash that each file declares, and which of them are fields of records."""
    names, fields = collections.defaultdict(set), set()
    for file in files:
        inside = False
        for line in open(file):
            if re.match(r"^\s*(?:pub )?record ", line):
                inside = True
            elif line.strip() and not line.startswith(" "):
                inside = False
            found = DECLARED.match(line)
            if not found or re.search(r":\s*(goal|need|given)\.", line):
                continue
            name = found.group(1)
            if "-" in name and not name.startswith("-"):
                names[name].add(file)
                if inside and line.startswith(" "):
                    fields.add(name)
    return names, fields


# A lemma that would have the name of its crate's function.
APART = {"file-length": "file_length_lem"}


def turned(name):
    if name in APART:
        return APART[name]
    if name[0].isupper():
        first, *rest = name.split("-")
        return first + "".join(part[0].upper() + part[1:] for part in rest)
    return name.replace("-", "_")


def foreign(text, own):
    """The names that a file takes from the library or from what is generated, and its names of modules of this repository."""
    kept, aliases = set(), set()
    for line in text.splitlines():
        found = USE.match(line)
        if not found:
            continue
        path, inner, alias = found.groups()
        if not is_own(path, own) or is_generated(path):
            kept |= {part.split(" as ")[0].strip() for part in (inner or "").split(",")}
        elif alias:
            aliases.add(alias)
    return kept, aliases


def respell(file, text, names, fields, own):
    kept, aliases = foreign(text, own)
    answer = is_answer(file)

    def one(text):
        def word(found):
            dot, name = found.groups()
            if name not in names or name in kept:
                return found.group(0)
            if dot and answer and name not in fields:
                before = re.search(r"([\w'\-]*)$", text[: found.start()]).group(1)
                if before not in aliases:
                    return found.group(0)
            return dot + turned(name)

        return TOKEN.sub(word, text)

    if not file.endswith(".rt"):
        return "".join(one(line) for line in text.splitlines(keepends=True))
    return "".join(part if STRING.fullmatch(part) else one(part) for part in STRING.split(text))


def main():
    own = crates()
    proofs = sorted(set(glob.glob("crates/*/specs/**/*.antt", recursive=True) + glob.glob("crates/*/proofs/**/*.antt", recursive=True)))
    sources = sorted(glob.glob("crates/*/src/*.rt"))
    names, fields = declared(proofs)
    together = False
    everywhere = collections.defaultdict(set)
    for file in proofs:
        for line in open(file):
            found = DECLARED.match(line)
            if found:
                everywhere[found.group(1)].add(file)
    code = collections.defaultdict(set)
    for file in sources:
        for line in open(file):
            for name in re.findall(r"\b(?:fn|const|static|struct|enum|trait|let|let mut)\s+(\w+)|(\w+)\s*:", line):
                code[name[0] or name[1]].add(file)
    seen = {}
    for name in sorted(names):
        to = turned(name)
        if to in seen:
            print(f"together: {name} and {seen[to]} become {to}")
            together = True
        seen[to] = name
        if everywhere.get(to):
            print(f"together: {name} {sorted(names[name])} becomes {to}, which stands in {sorted(everywhere[to])}")
            together = True
        if code.get(to):
            print(f"look: {name} becomes {to}, a name in {sorted(code[to])}")
    if together and "--anyway" not in sys.argv:
        return 1
    count = 0
    for file in proofs + sources:
        text = open(file).read()
        after = respell(file, text, names, fields, own)
        if after != text:
            open(file, "w").write(after)
            count += 1
    print(f"{len(names)} names, {count} files")
    return 0


if __name__ == "__main__":
    raise SystemExit(main())
