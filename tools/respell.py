#!/usr/bin/env python3
"""Brings the names of this repository's own definitions and lemmas to Rattle's spelling.

usage: python3 tools/respell.py [--dry]        at the top of the repository, after the kit's port.py

Functions, lemmas, fields and constructors that are declared in specs/ and proofs/ with dashes get underscores, types and facts get camel case:
`start-blocks` is `start_blocks`, `Shut-out` is `ShutOut`; so do the names of FURTHER, whose declarations are aliases, variables or run over several lines.
A name keeps its dashes where the new spelling is in use or is a name of the code, or where two would fall together; those are printed. Names that Rattle makes
in a function's folder are not declared here and stay, but for uses of the renamed. Clauses, imports and names within backquotes in src/ are turned
with the rest, must-fail edits as the files that they edit, and README.md and docs/*.md within backquotes; pages in folders of docs/ are left as they were.
"""
import collections
import glob
import os
import re
import sys

# Names that the patterns below do not see, and one that is a parameter of the code as well, where nothing is hidden by it.
FURTHER = """
Lent-nothing Read-of abort-run aborted-in-block as-sector as-word at-18 bad-then-restarted counted-on d-is disc-line e-is edc-same eight-and-nine first-20 from-16
in-it in-range inside-it is-sound mode-2 moves-blocks n-is no-b not-1 not-15 not-2 not-3 on-disc one-bad one-book one-good one-to-seven or-read past-24 past-address
past-sync refines-sound represented-look represented-word represents-stored same-words sector-reasons set-by size-x size-y skip-run whole-ring words-handed
written-too yes-b
""".split()

TOKEN = re.compile(r"[A-Za-z_α-ωΑ-Ω₀-₉][\w'′₀-₉]*(?:-[\w'′₀-₉]+)*")
DECLARED = re.compile(r"^(?:unfoldable |abbrev |pub |record |data )*([^\s:(){}]+)(?:\s+[({].*[)}])?\s*:(?:\s|$)")
FIELD = re.compile(r"^\s+(?:pub )?([^\s:(){}]+)\s*:\s")
USE = re.compile(r"^(?:pub )?(?:ghost )?use ([^\s{;]+?)\.\{([^}]*)\}")


def antt_files():
    return sorted(glob.glob("crates/*/specs/**/*.antt", recursive=True) + glob.glob("crates/*/proofs/**/*.antt", recursive=True))


def read(path):
    with open(path, encoding="utf-8") as f:
        return f.read()


def in_a_functions_folder(path):
    return path.split("/")[2] == "proofs" and path.count("/") > 3 and os.path.basename(path) in ("Proof.antt", "Invariants.antt", "Answers.antt")


def declared():
    names = collections.defaultdict(set)
    for path in antt_files():
        if in_a_functions_folder(path):
            continue
        for line in read(path).split("\n"):
            if line.startswith("use ") or line.lstrip().startswith("--"):
                continue
            found = DECLARED.match(line) or FIELD.match(line)
            if found:
                names[found.group(1)].add(path)
    return names


def spelled(name):
    if name[0].isupper():
        return "".join(part[0].upper() + part[1:] for part in name.split("-"))
    return name.replace("-", "_")


def taken_in_code():
    """Fields, constants, types and parameters of the code: a definition of such a name would be hidden, or hide it."""
    taken = set()
    for path in glob.glob("crates/*/src/**/*.rt", recursive=True):
        text = read(path)
        taken |= set(re.findall(r"^\s+(?:pub )?(\w+): [^=]", text, re.M))
        taken |= set(re.findall(r"\b(?:const|static|type|struct|enum|trait) (\w+)", text))
        taken |= set(re.findall(r"[(,] ?(?:mut )?(\w+): ", text))
    return taken


def strangers(text, crates):
    """Names that a file takes from elsewhere than this repository's crates."""
    out = set()
    for line in text.split("\n"):
        m = USE.match(line)
        if not m:
            continue
        path = m.group(1).split(".")
        if not (path[0] == "Rattle" and len(path) > 1 and path[1] in crates):
            out |= {n.split(" as ")[-1].strip() for n in m.group(2).split(",")}
    return out


def turned(text, renamed, keep=frozenset()):
    def one(m):
        word = m.group(0)
        return renamed[word] if word in renamed and word not in keep else word

    return TOKEN.sub(one, text)


def turned_code(text, renamed):
    """Clauses and imports of a .rt file: code has no dashes in names, and comments and strings keep their words."""
    out = []
    for line in text.split("\n"):
        if line.lstrip().startswith("//"):
            out.append(line)
            continue
        pieces = re.split(r'("(?:[^"\\]|\\.)*")', line)
        out.append("".join(p if i % 2 else turned(p, renamed) for i, p in enumerate(pieces)))
    return "\n".join(out)


def turned_comment_names(text, renamed):
    """Names within backquotes."""
    return re.sub(r"`[^`\n]+`", lambda m: turned(m.group(0), renamed), text)


def main(argv):
    dry = "--dry" in argv
    crates = {line.split(":")[0].split()[0] for line in read("crates.txt").split("\n") if line.strip() and not line.startswith("#")}
    names = declared()
    texts = {path: read(path) for path in antt_files()}
    others = set()
    for text in texts.values():
        others |= strangers(text, crates)
    words = set()
    for text in texts.values():
        # a step's or a module's name stands behind or before a dot, and hides nothing
        words |= set(TOKEN.findall(re.sub(r"--.*|\.[\w'+-]+|[\w'+-]+(?=\.)|^use .*", "", text, flags=re.M)))
    code = taken_in_code()
    renamed, kept = {}, []
    new = collections.Counter(spelled(n) for n in names if "-" in n)
    for name in FURTHER:
        renamed[name] = spelled(name)
    for name in sorted(names):
        if name in renamed or "-" not in name or not re.match(r"^[\w'′₀-₉-]+$", name):
            continue
        to = spelled(name)
        why = None
        if new[to] > 1:
            why = "two names fall together"
        elif to in names or to in others or to in words:
            why = "is in use"
        elif to in code:
            why = "is a name of the code"
        if why:
            kept.append(f"{name}: {to} {why}")
        else:
            renamed[name] = to
    print(f"respell: {len(renamed)} names turned, {len(kept)} kept")
    print("\n".join(kept))
    if dry:
        return 0
    changed = 0
    for path, text in texts.items():
        to = turned(text, renamed, strangers(text, crates))
        if to != text:
            changed += 1
            with open(path, "w", encoding="utf-8") as f:
                f.write(to)
    for path in sorted(glob.glob("crates/*/src/**/*.rt", recursive=True)):
        text = read(path)
        to = turned_code(turned_comment_names(text, renamed), renamed)
        if to != text:
            changed += 1
            with open(path, "w", encoding="utf-8") as f:
                f.write(to)
    for path in sorted(glob.glob("crates/*/must-fail/*.edit")):
        text = read(path)
        to = turned(text, renamed)
        if to != text:
            changed += 1
            with open(path, "w", encoding="utf-8") as f:
                f.write(to)
    for path in ["README.md"] + sorted(glob.glob("docs/*.md")):
        text = read(path)
        to = turned_comment_names(text, renamed)
        if to != text:
            changed += 1
            with open(path, "w", encoding="utf-8") as f:
                f.write(to)
    print(f"respell: {changed} files changed")
    return 0


if __name__ == "__main__":
    raise SystemExit(main(sys.argv[1:]))
