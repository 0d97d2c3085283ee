#!/usr/bin/env python3
"""Brings the names of this repository's definitions and lemmas to one spelling. Run once, at the top, after the kit's port.py.

- A word is in snake case: `jobCount` is `job_count`. Types, records, facts and modules keep their capitals.
- A dash joins two names, each of a definition of this repository or of the library: `sum-none`. Every other dash is `_`:
  `plan_settled`. Where two names would fall together, APART says what the second is called.

Only names that crates/*/specs and crates/*/proofs/*.antt declare are turned, wherever they stand: in .antt files, in the clauses
and `ghost use` lines of .rt files, in must-fail edits, and in backquotes on the pages of docs/ and README.md.
With --list it prints the names and changes nothing.
"""
import glob
import re
import sys

# Where two names would fall together: a lemma beside the definition that it is about ends in `_lem`, the others differ by a word.
APART = {
    "cycle-found": "cycle_found_lem",
    "is_digit": "is_digit_lem",
    "part-text": "part_text_lem",
    "plan-in-bounds": "plan_in_bounds_lem",
    "read-into": "read_into_lem",
    "text-of": "text_of_lem",
    "times-right": "times_right_lem",
    "write-into": "write_into_lem",
    "fromOne": "place_from_one",
    "front_of": "front_of_over",
    "in_bounds": "within_bounds",
}

WORD = r"[^\s(){};,.\"`=λ→∀]+"
MARKS = r"(?:(?:abbrev|unfoldable|pub)\s+)*"


def texts():
    return sorted(glob.glob("crates/*/specs/**/*.antt", recursive=True) + glob.glob("crates/*/proofs/*.antt"))


def declared(paths):
    """All names that the files declare, and those among them that are definitions."""
    names, words = set(), set()
    for path in paths:
        for line in open(path):
            if line.lstrip().startswith("--"):
                continue
            kind = re.match(r"\s*(?:pub\s+)?(?:data|record)\s+(" + WORD + ")", line)
            given = re.match(r"\s*(" + MARKS + r")((?:" + WORD + r"\s+)+):(?:\s|$)", line)
            if kind:
                names.add(kind.group(1))
                words.add(kind.group(1))
            elif given and not re.match(r"\s*(let|in|use|infix\w*)\s", line):
                for name in given.group(2).split():
                    names.add(name)
                    if re.search("abbrev|unfoldable", given.group(1)):
                        words.add(name)
    return names, words


def constructors(paths):
    """The cases of each `data`."""
    found = set()
    for path in paths:
        within = False
        for line in open(path):
            if re.match(r"(?:pub\s+)?data\s", line):
                within = True
            elif line.strip() and not line.startswith(" "):
                within = False
            elif within:
                case = re.match(r"\s+(" + WORD + r")\s+:", line)
                if case:
                    found.add(case.group(1))
    return found


def imported():
    """The names that are taken from the library."""
    found = set()
    for path in glob.glob("crates/**/*.antt", recursive=True) + glob.glob("crates/**/*.rt", recursive=True):
        for names in re.findall(r"use (?:Rattle\.std|borrow|native|denote|Prim)\.[\w.]*\{([^}]*)\}", open(path).read()):
            found |= {name.split(" as ")[0].strip() for name in names.split(",")} - {""}
    return found


def snake(name):
    return re.sub(r"(?<=[a-z0-9])([A-Z])", lambda m: "_" + m.group(1).lower(), name)


def spelled(name, words):
    """The name as it is to be: a dash stays between two words."""
    parts = name.split("-")
    if len(parts) == 1:
        return snake(name) if name[0].islower() else name
    out = snake(parts[0])
    left = parts[0]
    for part in parts[1:]:
        joins = left in words and part in words
        out += ("-" if joins else "_") + snake(part)
        left = part if joins else left + "-" + part
    return out


def renaming():
    paths = texts()
    names, words = declared(paths)
    words |= constructors(paths)
    library = imported()
    words |= {name for name in library if re.fullmatch(r"[a-z]\w*", name)}
    turned = dict(APART)
    taken = {name for name in names if re.fullmatch(r"[a-z0-9_']+", name)} | library
    taken = (taken - set(APART)) | set(APART.values())
    for name in sorted(names):
        if "◌" in name or name in library or name in APART or not re.search(r"[-A-Z]", name) or name[0].isupper():
            continue
        new = spelled(name, words)
        if new in taken:
            sys.exit(f"{name} falls together with {new}")
        if new != name:
            taken.add(new)
            turned[name] = new
    return turned


def replace(text, turned):
    return re.sub(WORD, lambda m: turned.get(m.group(0), m.group(0)), text)


def of_a_proof(text, turned):
    """In the proof of a function a name of APART may also be the function's: it is turned only where the file imports it."""
    brought = {name.strip() for names in re.findall(r"use Rattle\.[\w.]*\{([^}]*)\}", text) for name in names.split(",")}
    return {old: new for old, new in turned.items() if old not in APART or old in brought}


def in_rust(text, turned):
    """Only clauses, ghost lines and what else begins with `ghost`."""
    lines, deep, ghost = [], 0, False
    for line in text.split("\n"):
        clause = re.match(r"\s*(requires|ensures|ghost|decreases)\b", line)
        if not line.lstrip().startswith("//") and (clause or ghost):
            deep += line.count("{") - line.count("}")
            ghost = deep > 0
            line = replace(line, turned)
            if not ghost:
                deep = 0
        lines.append(line)
    return "\n".join(lines)


def main():
    turned = renaming()
    lemmas = set(texts())
    if "--list" in sys.argv:
        for name in sorted(turned):
            print(name, turned[name])
        return
    for path in glob.glob("crates/**/*.antt", recursive=True) + glob.glob("crates/*/must-fail/*.edit"):
        old = open(path).read()
        new = replace(old, turned if path in lemmas or "file: specs/" in old else of_a_proof(old, turned))
        if new != old:
            open(path, "w").write(new)
    for path in glob.glob("crates/**/*.rt", recursive=True):
        old = open(path).read()
        new = in_rust(old, turned)
        if new != old:
            open(path, "w").write(new)
    for path in ["README.md"] + glob.glob("docs/*.md"):
        old = open(path).read()
        new = re.sub(r"`[^`\n]+`", lambda m: replace(m.group(0), turned), old)
        if new != old:
            open(path, "w").write(new)


main()
