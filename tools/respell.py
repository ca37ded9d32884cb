#!/usr/bin/env python3
"""Brings this repository's own definitions and lemmas to the spelling of the library: words in snake case, modules in camel case.

usage: python3 tools/respell.py   at the top of the repository, once, after the toolchain's port.py; everything committed

  takenLine, sumOver, block-put   ->  taken_line, sum_over, block_put     definitions, lemmas, fields and variables
  P7-messages, G-rows, Zeros      ->  p7_messages, g_rows, are_zero       values that had the spelling of a type
  specs/working, specs.working.M  ->  specs/Working, specs.Working.M      a module

Functions of src/, types, the constructors of data types, strings, inputs and outputs keep their names. Contracts, definitions, proofs and must-fail edits are
rewritten in place. It says so where two names of one file fall together. With --try it writes nothing.
"""

import os
import re
import subprocess
import sys

WORD = r"[^\s(){}.;,@\"«»\[\]\\:]+"
TOKEN = re.compile(r"\"(?:[^\"\\]|\\.)*\"|" + WORD)
DECLARED = re.compile(r"^\s*(?:(?:abbrev|unfoldable|pub|private|ruleset)\s+)*(" + WORD + r")(?:\s+\{ℓ\})? [:=](?!=)")
CAMEL = re.compile(r"^[a-z][a-z0-9]*(?:[A-Z][a-z0-9]*)+(?:-[a-z0-9A-Z-]*)?[A-Za-z0-9]*'*$")
# Values that were spelled like types.
VALUES = {
    "Zeros": "are_zero",
    "G": "word_g",
    "H": "word_h",
    "P3": "p3",
    "P4": "p4",
    "P6": "p6",
    "P7": "p7",
    "P14": "p14",
}
# Names of the library, in the must-fail edits, which the toolchain's script leaves as they are.
LIBRARY = {"getD": "get_or"}
# Lemmas that the toolchain's script gave the name that their function has now.
LEMMAS_OF = {("crates/line/proofs/UnitLaws.antt", "sums_at"): "sums_at_lem"}
WORKING = re.compile(r"(?<=\bspecs\.)working(?=\.)")


def files(ending):
    for folder, dirs, names in os.walk("crates"):
        dirs[:] = sorted(d for d in dirs if d not in ("out", "target"))
        for name in sorted(names):
            if name.endswith(ending):
                yield os.path.join(folder, name)


def read(path):
    with open(path, encoding="utf-8") as it:
        return it.read()


def snake(name):
    if name in VALUES:
        return VALUES[name]
    head, dash, rest = name.partition("-")
    if dash and head in VALUES:
        name = head.lower() + "-" + rest
    name = re.sub(r"(?<=[a-z0-9])([A-Z])", lambda m: "_" + m.group(1).lower(), name)
    return name.replace("-", "_")


def of_a_function(path):
    """Is it the proof of one function? The names of its goals are not ours."""
    return os.path.basename(path) == "Proof.antt"


def fields(text):
    """The fields of the records that a file declares."""
    out, depth = set(), None
    for line in text.split("\n"):
        bare = line.lstrip()
        indent = len(line) - len(bare)
        if depth is not None and bare and indent <= depth:
            depth = None
        if depth is not None:
            m = DECLARED.match(line)
            if m:
                out.add(m.group(1))
        if re.match(r"(pub )?record ", bare):
            depth = indent
    return out


def imported(text, crates):
    """The names that a file has from the library."""
    out = set()
    for m in re.finditer(r"(?m)^(?:ghost )?use ([^;{\n]*)\.\{([^}]*)\}", text):
        crate = re.match(r"Rattle\.(\w+)\.", m.group(1))
        if not crate or crate.group(1) not in crates:
            out |= {one.strip() for it in m.group(2).split(",") for one in it.split(" as ")}
    return out


def declared():
    names, of_records = set(), set()
    for path in files(".antt"):
        text = read(path)
        of_records |= fields(text)
        goals = set(re.findall(r"(?m)^(\S+) : tie\.", text)) if of_a_function(path) else set()
        for line in text.split("\n"):
            if line.lstrip().startswith(("--", "use ")):
                continue
            m = DECLARED.match(line)
            if m and m.group(1) not in goals and not m.group(1).endswith("-spec"):
                names.add(m.group(1))
    return names, of_records


def main():
    names, of_records = declared()
    ours = {it for it in names if re.match(r"[A-Za-z]", it) and ("-" in it or it in VALUES) and (it[0].islower() or it.split("-")[0] in VALUES)}

    # A lemma that would have its function's name.
    functions = {snake(it) for it in names if CAMEL.match(it) and "-" not in it} | {it for it in names if re.match(r"[a-z0-9_]+$", it)}
    lemmas = {it: snake(it) + "_lem" for it in ours if "-" in it and snake(it) in functions and it not in of_records}

    def turned(word, before, goals):
        if word.startswith('"'):
            return word
        field = before.endswith(".") and not before.endswith("..")
        if field and word not in of_records and "-" in word:
            # A lemma or a definition by its module's path, or a name that the toolchain makes.
            if not re.search(r"\b(proofs|specs|side)\.[\w.]*$", before) and not re.search(r"\.(specs|proofs)\.[\w.]*\{?$", before):
                return word
        if word in goals:
            return word
        if word in lemmas:
            return lemmas[word]
        if word in ours or CAMEL.match(word):
            return snake(word)
        return word

    crates = set(os.listdir("crates"))
    changed = {}
    for ending in (".antt", ".rt", ".edit"):
        for path in files(ending):
            text = read(path)
            goals = set(re.findall(r"(?m)^(\S+) : tie\.", text)) if of_a_function(path) else set()
            library = imported(text, crates)
            # a value that this file neither declares nor imports is a variable of its own
            library |= {it for it in VALUES if not re.search(rf"(?m)^(?:abbrev )?(?:pub )?{it} :|^use [^\n]*\{{[^}}\n]*\b{it}\b", text)}
            out, at, seen = [], 0, {}
            for m in TOKEN.finditer(text):
                word = m.group(0)
                line = text.rfind("\n", 0, m.start()) + 1
                before = text[line : m.start()]
                new = LEMMAS_OF.get((path, word), word)
                is_comment = before.lstrip().startswith(("--", "//"))
                if new != word or word in library or (is_comment and word in VALUES):
                    pass
                elif ending == ".edit" and word in LIBRARY:
                    new = LIBRARY[word]
                elif ending == ".antt" or CAMEL.match(word) or word in VALUES or (word in ours and re.search(r"ghost use|ensures|requires", before)):
                    new = turned(word, before, goals)
                    if ending != ".antt" and word in VALUES:
                        new = word
                if not word.startswith('"'):
                    seen.setdefault(new, set()).add(word)
                out += [text[at : m.start()], new]
                at = m.end()
            out.append(text[at:])
            fallen = {k: v for k, v in seen.items() if len(v) > 1}
            if fallen:
                print(f"look: {path}: names that fall together: {fallen}")
            new = WORKING.sub("Working", "".join(out))
            new = re.sub(r"(?m)^pub mod working$", "pub mod Working", new)
            new = re.sub(r"(?m)^file: specs/working(?=[/.])", "file: specs/Working", new)
            if new != text:
                changed[path] = new
    if "--try" in sys.argv:
        return
    for path, text in changed.items():
        with open(path, "w", encoding="utf-8", newline="\n") as it:
            it.write(text)
    for crate in sorted(os.listdir("crates")):
        for old, new in (("specs/working.antt", "specs/Working.antt"), ("specs/working", "specs/Working")):
            if os.path.exists(f"crates/{crate}/{old}"):
                subprocess.run(["git", "mv", f"crates/{crate}/{old}", f"crates/{crate}/{new}"], check=True)
    print(f"files changed: {len(changed)}")


if __name__ == "__main__":
    main()
