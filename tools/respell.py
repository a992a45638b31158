#!/usr/bin/env python3
"""Brings the names of definitions, lemmas, fields and local values in specs/ and proofs/ to snake case, and so where clauses, edits and pages cite them.

usage: python3 tools/respell.py        at the top of the repository, once, after port.py

A name of a library keeps its spelling. Where two names would fall together, the lemma, which has dashes, gets `_lem` behind it.
"""
import collections
import pathlib
import re

TOP = pathlib.Path(__file__).resolve().parent.parent
CRATES = [line.split(":")[0].split()[0] for line in (TOP / "crates.txt").read_text().splitlines() if ":" in line]
# A name, as antt reads it: a dash is a part of it.
NAME = re.compile(r"[^\s(){}\[\],;.|@\"«»`:=λ↦→×≡≤<⌜⌝]+")
USE = re.compile(r"^\s*(?:ghost )?use ([^\s{;]+?)\.\{([^}]*)\}", re.M)
CAMEL = re.compile(r"[a-z][a-z0-9]*(?:_[a-z0-9]+)*(?:[A-Z][A-Za-z0-9]*)+[₀-₉0-9]*'*")
DASHED = re.compile(r"[a-z][A-Za-z0-9_]*(?:-[A-Za-z0-9_]+)+[₀-₉]*'*")
WORDS = {"crHbH": "cr_hbh", "crItE": "cr_ite"}
# Names that two crates or a definition and a local value share, which never meet in one file; and one that port.py turned where it is used.
SAME = {"oneMore", "entryIn", "indexIn", "entryKnown", "field-read"}
# Of mathlib's Memᴰ.
KEPT = {"not-nil"}
# What Rattle makes, or names of its proof files.
MADE = re.compile(r"(loop-.*|.*-loop)$")


def files(pattern):
    return [p for p in sorted(TOP.glob(pattern)) if "out" not in p.relative_to(TOP).parts]


def imported(text):
    """The names that a file takes from a library."""
    aliases = re.findall(rf"^\s*(?:ghost )?use (?:Rattle\.)?(?:{'|'.join(CRATES)}|specs|proofs)\b\S* as (\w+)", text, re.M)
    for path, names in USE.findall(text):
        root = path.replace("·", ".").split(".")
        if root[0] in ("specs", "proofs", "crate", *CRATES, *aliases) or (root[0] == "Rattle" and root[1] in CRATES):
            continue
        if root[0][0].islower() or root[:2] == ["Rattle", "std"] or root[0] in ("Prim",):
            for name in names.split(","):
                yield name.split(" as ")[0].strip()


def snake(name):
    if name in WORDS:
        return WORDS[name]
    return re.sub(r"(?<=[a-z0-9])(?=[A-Z])", "_", name.replace("-", "_")).lower()


def renamed(texts):
    library, used = set(), collections.Counter()
    for text in texts:
        library.update(imported(text))
        code = re.sub(r"^use [^{\n]*", "", re.sub(r"--.*", "", text), flags=re.M)
        used.update(NAME.findall(code))
    mine = {n for n in used if (CAMEL.fullmatch(n) or DASHED.fullmatch(n)) and n not in library and n not in KEPT and not MADE.fullmatch(n)}
    taken = (set(used) - mine) | library
    new = {}
    for name in sorted(mine, key=lambda n: ("-" in n, n)):
        to = snake(name)
        if name not in SAME and (to in taken or to in new.values()):
            to += "_lem"
        if name not in SAME and (to in taken or to in new.values()):
            raise SystemExit(f"respell: {name} and another would be {to}")
        new[name] = to
    return new


def turned(text, new, dashed=True):
    return NAME.sub(lambda m: new.get(m[0], m[0]) if dashed or "-" not in m[0] else m[0], text)


def outside_strings(text, new):
    return "".join(part if part.startswith('"') else turned(part, new) for part in re.split(r'("[^"\n]*")', text))


def by_comment(text, new, mark):
    """In a comment a word with a dash is English, but for what stands in backticks."""
    lines = []
    for line in text.split("\n"):
        at = line.find(mark)
        at = len(line) if at < 0 else at
        said = re.sub(r"`[^`]*`", lambda m: turned(m[0], new), turned(line[at:], new, False))
        lines.append(outside_strings(line[:at], new) + said)
    return "\n".join(lines)


def main():
    proofs = files("crates/**/*.antt")
    # The proofs of functions name nothing that another file cites.
    new = renamed([p.read_text() for p in [*files("crates/*/specs/*.antt"), *files("crates/*/proofs/*.antt")]])
    for p in proofs:
        p.write_text(by_comment(p.read_text(), new, "--"))
    for p in files("crates/**/*.rt"):
        p.write_text(by_comment(p.read_text(), new, "//"))
    for p in files("crates/*/must-fail/*.edit"):
        p.write_text(by_comment(p.read_text(), new, "#"))
    for p in [*files("docs/*.md"), TOP / "README.md"]:
        p.write_text(re.sub(r"`[^`\n]*`", lambda m: turned(m[0], new), p.read_text()))
    for name, to in sorted(new.items()):
        print(name, to)


if __name__ == "__main__":
    main()
