#!/usr/bin/env python3
"""Lists the places in crates/*/src that are written as an older Rattle needed them, by kind, and their number.

    python3 tools/old-forms.py [FOLDER]

FOLDER is a checkout (this one if none is named). A place is listed for what it looks like; docs/DESIGN-PASS.md says which of them
are what they look like, and why one stays.
"""
import collections
import glob
import os
import re
import sys

top = sys.argv[1] if len(sys.argv) > 1 else os.path.join(os.path.dirname(os.path.abspath(__file__)), "..")
os.chdir(top)
files = sorted(glob.glob("crates/*/src/**/*.rt", recursive=True))
found = collections.OrderedDict()


def add(kind, file, number, text):
    found.setdefault(kind, []).append((file, number, text.strip()))


def parts(clause):
    """The facts of a clause, which × joins."""
    out, depth, part = [], 0, ""
    for sign in clause:
        depth += (sign in "([") - (sign in ")]")
        if sign == "×" and depth == 0:
            out.append(part.strip())
            part = ""
        else:
            part += sign
    out.append(part.strip())
    return [re.sub(r"^\((.*)\)$", r"\1", part) for part in out]


WORDS = set("fn let mut if else while for in match return true false as loop".split())


def shape_of(lines, number, indent):
    """The body of the function that begins at a line, with I for each name and N for each number, and how many signs it has."""
    at = number - 1
    while at < len(lines) and lines[at] != indent + "{" and not (lines[at].endswith("{") and "requires" not in lines[at] and "ensures" not in lines[at]):
        at += 1
    body = []
    at += 1
    while at < len(lines) and lines[at] != indent + "}":
        body.append(lines[at].split("//")[0])
        at += 1
    signs = re.findall(r"\w+|[^\w\s]", " ".join(body))
    shape = " ".join(s if s in WORDS or not re.match(r"\w", s) else "N" if s[0].isdigit() else "I" for s in signs)
    return shape, len(signs)


facts = collections.defaultdict(list)
shapes = collections.defaultdict(list)
for file in files:
    lines = open(file).read().split("\n")
    crate = file.split("/")[1]
    enum = None
    for number, line in enumerate(lines, 1):
        code = line.split("//")[0]
        if re.match(r"\s*(pub )?enum ", code):
            enum = number
        # 1: an own enum with a variant for what is not there or turned down
        if enum and re.match(r"\s+(Refused|Failed|Unknown|Unfit|Nothing|Missing)\b", code):
            add("1 variant of an own Option or Result", file, number, line)
        if code.startswith("}"):
            enum = None
        # 1: a truth value in a struct, maybe with a value beside it
        if re.match(r"    (pub )?\w+: bool,$", code) and not any("fn " in l and not l.rstrip().endswith(("{", ";")) for l in lines[max(0, number - 8):number]):
            add("1 truth value in a struct", file, number, line)
        # 1: a number for a kind
        if re.match(r"\s*(pub )?const [A-Z_]+: (usize|u64|u8|u32) = \d{1,2};", code):
            add("1 small number with a name", file, number, line)
        # 1: a refusal or a find as a number
        if re.search(r"\b(refusal|number_of)\b", code) and re.search(r"fn .*-> u64", code) or re.search(r"fn (encode|extract|row_refusal|write_blocks|load)\b", code) and ("-> u64" in code or any("-> u64" in l for l in lines[number:number + 8])):
            add("1 refusal as a number", file, number, line)
        # 2: functions whose bodies differ in names and numbers alone, found below
        head = re.match(r"(\s*)(?:pub(?:\(crate\))? )?(?:extern \"C\" )?fn (\w+)", code)
        if head:
            shape, length = shape_of(lines, number, head.group(1))
            if length >= 14:
                shapes[shape].append((file, number, line))
        # 3: a loop that counts by hand
        if re.match(r"\s*while ", code):
            add("3 while", file, number, line)
        # 3: a for over numbers
        if re.match(r"\s*for \w+ in [\w(]+\.\.", code):
            add("3 for over numbers", file, number, line)
        # 4: equality, copying, conversion, printing
        if re.search(r"fn (same_\w+|copy_\w+|wide|low_byte|number_of|degree_of|degree_number|bit_of|one_if|put_decimal|decimal\w*|digit_of|of_number|four|eight|put_four|put_eight|exchange\w*|hand_over)\b", code):
            add("4 equality, copying, conversion or printing", file, number, line)
        # 5: facts in requires
        clause = re.match(r"\s+requires (?:\w+ )?\{ (.*) \}$", code)
        if clause:
            for fact in parts(clause.group(1)):
                facts[(crate, fact)].append((file, number))
        # 6: parts of an array by offset, and lengths beside
        if re.search(r"\bbase: usize|\bat: usize|\blong: usize", code):
            add("6 place or length beside a buffer", file, number, line)
        # 7: a switch on which step to run
        if re.search(r"\b(way: Turn|own: bool|reads: bool|call: usize|kind: usize)\b", code):
            add("7 switch on a step", file, number, line)
for places in shapes.values():
    if len(places) > 1:
        for file, number, text in places:
            others = ", ".join(re.search(r"fn (\w+)", other[2]).group(1) for other in places if other[:2] != (file, number))
            add("2 function of another's shape", file, number, text.strip() + "  ~ " + others)
for (crate, fact), places in sorted(facts.items(), key=lambda item: (-len(item[1]), item[0])):
    if len(places) >= 3:
        add("5 fact in three contracts or more", "crates/" + crate, len(places), fact)
for kind, places in sorted(found.items()):
    print(f"{kind}: {len(places)}")
    for file, number, text in places:
        print(f"    {file}:{number}: {text}")
