#!/usr/bin/env python3
"""Brings this repository's own definitions and lemmas to the spelling of today's Rattle: run once, at the top, right after the kit's port.py.

usage: tools/respell.py          rewrites .antt, .rt and .edit files of crates/, and the pages
       tools/respell.py --table  prints old and new names, and changes nothing

Words are in snake case: `ofDigits` is `of_digits`. A dash joins a lemma to the definition that it is about, as in `length-put_at`; other
dashes become underscores. Functions of src/, strings, inputs and outputs keep their names. Names that would fall together have their own
line in OWN. It goes by text: what it can't see is mended by hand, and docs/PORT.md says where.
"""

import glob
import os
import re
import sys

TOP = os.path.dirname(os.path.dirname(os.path.realpath(__file__)))

# names whose new spelling is another name already, or the name of a field or a tactic
OWN = {
    "standIn": "the_stand_in",  # Seen64 and Seen32 have a field stand_in
    "standIn-one": "the_stand_in-one",
    "standInOf": "stand_in_of",
    "allDigits": "every_digit",  # Floats has a name all_digits
    "all-pairs": "all_pairs_lem",
    "meta-at": "meta_at_lem",
    "meta-of": "meta_of_lem",
    "page-size": "page_size_lem",
    "s-of": "s_of_lem",
    "write-rows": "write_rows_lem",
}
# prefixes of lemmas about words of the library, as they are spelled there
HEADS = {"getD": "get_or", "leZ": "le_z", "eqZ": "eq_z", "natAbs": "nat_abs", "ofInt": "of_int", "toBits": "to_bits", "toZ": "to_z", "firstOf": "first_row_of"}
LIBRARY = {"length", "take", "drop", "get_or", "map", "set", "replicate", "zip_with", "max", "min", "size", "cond"}
# port.py gave these the name of a tactic: the definition of theorems/proofs/Ordered and the lemma of theorems/proofs/Longer
FELL = {"crates/theorems/proofs/Ordered.antt": {"first_of": "first_row_of"}, "crates/theorems/proofs/Longer.antt": {"first_of": "front_decides"}}

DECLARED = re.compile(r"^\s*(?:(?:abbrev|unfoldable|pub) )*(?:(?:record|data) )?([^\s(){}:;.=]+)(?: \{[^}]*\}| \([^)]*\))*\s*:(?:\s|$)")
NAME = re.compile(r"[A-Za-z_][\w'′-]*")
STRING = re.compile(r'b?"(?:[^"\\]|\\.)*"')


def shown(path):
    return os.path.relpath(path, TOP)


def declared():
    """Each name that a file of specs/ or a lemma file of proofs/ declares, with the files that do."""
    names = {}
    for path in sorted(glob.glob(TOP + "/crates/*/specs/*.antt") + glob.glob(TOP + "/crates/*/proofs/*.antt")):
        with open(path, encoding="utf-8") as file:
            for line in file:
                found = DECLARED.match(line)
                if found and not line.lstrip().startswith("--"):
                    names.setdefault(found.group(1), set()).add(shown(path))
    return names


def snake(name):
    return re.sub(r"(?<=[a-z0-9])([A-Z]+)(?=$|[^A-Za-z]|[a-z0-9])", lambda hump: "_" + hump.group(1).lower(), name)


def table():
    names = declared()
    words = {name for name, files in names.items() if any("/specs/" in path for path in files)} | LIBRARY
    words |= {snake(word) for word in words}

    def new(name):
        if name in OWN:
            return OWN[name]
        if not re.match(r"[A-Za-z_]", name):
            return name
        head, dash, rest = name.partition("-")
        if dash and head in HEADS:
            return HEADS[head] + "-" + rest
        turned = snake(name) if re.match(r"[a-z_]", name) else name
        in_specs = any("/specs/" in path for path in names[name])
        head, dash, rest = turned.partition("-")
        about = head in LIBRARY or head in words and "-" not in rest
        if dash and (in_specs or not about):
            turned = turned.replace("-", "_")
        return turned

    turned = {name: new(name) for name in names}
    meets = {}
    for name, word in turned.items():
        meets.setdefault(word, []).append(name)
    together = {word: olds for word, olds in meets.items() if len(olds) > 1}
    if together:
        raise SystemExit(f"names fall together: {together}")
    return {old: word for old, word in turned.items() if old != word}


def respelled(text, names):
    return NAME.sub(lambda found: names.get(found.group(0), found.group(0)), text)


def generated_kept(text, names):
    """A function's proof: behind a dot stand names that Rattle makes, with dashes; only humps are turned there."""
    def one(found):
        name = found.group(0)
        behind_dot = found.start() > 0 and text[found.start() - 1] == "."
        if behind_dot and "-" in name:
            return name
        return names.get(name, name)
    return NAME.sub(one, text)


def outside_strings(text, names):
    """Code: strings stay, and so do words with a dash, but in a line of imports and inside backticks."""
    lines = []
    for line in text.split("\n"):
        humps = {old: word for old, word in names.items() if "-" not in old}
        used = names if re.match(r"\s*(ghost use|ensures|requires)\b", line) else humps
        parts, at = [], 0
        for found in STRING.finditer(line):
            parts += [respelled(line[at:found.start()], used), found.group(0)]
            at = found.end()
        lines.append("".join(parts + [respelled(line[at:], used)]))
    return "\n".join(lines)




def untouched(text, names, words):
    """Text that port.py leaves as it was: these names, and those that it gave."""
    def one(found):
        name = found.group(0)
        if name in names:
            return names[name]
        turned = snake(name.replace("getD", "get_or")) if re.match(r"[a-z]", name) else name
        turned = names.get(turned, turned)
        low = turned.replace("-", "_")
        return low if low in words else turned

    return NAME.sub(one, text)


def page(text, names, words):
    """A page of prose: only what stands in backticks."""
    def one(found):
        inside = found.group(0)
        return inside if re.search(r"[/]|\.(rt|antt|edit)\b", inside) else untouched(inside, names, words)

    return re.sub(r"`[^`\n]+`", one, text)


def edit(text, names, words):
    """A must-fail edit: its lines of code, with fields close to what they are fields of."""
    lines = []
    for line in text.split("\n"):
        if re.match(r"(old|new): ", line):
            line = untouched(line, names, words)
            line = re.sub(r"(?<=[\w')]) \.(?=[a-z0-9«])", ".", line)
        lines.append(line)
    return "\n".join(lines)


def rewrite(path, turn):
    with open(path, encoding="utf-8") as file:
        before = file.read()
    after = turn(before)
    if after != before:
        with open(path, "w", encoding="utf-8") as file:
            file.write(after)


def main():
    names = table()
    if sys.argv[1:] == ["--table"]:
        for old, word in sorted(names.items()):
            print(old, word)
        return
    words = {names.get(name, name) for name in declared()}
    for path in sorted(glob.glob(TOP + "/crates/*/specs/*.antt") + glob.glob(TOP + "/crates/*/proofs/*.antt")):
        own = names | FELL.get(shown(path), {})
        rewrite(path, lambda text: respelled(text, own))
    for path in sorted(glob.glob(TOP + "/crates/*/proofs/**/*.antt", recursive=True)):
        if shown(path).count("/") > 3:
            rewrite(path, lambda text: generated_kept(text, names))
    for path in sorted(glob.glob(TOP + "/crates/*/src/**/*.rt", recursive=True)):
        rewrite(path, lambda text: outside_strings(text, names))
    for path in sorted(glob.glob(TOP + "/crates/*/must-fail/*.edit")):
        rewrite(path, lambda text: edit(text, names, words))
    for path in sorted(glob.glob(TOP + "/docs/**/*.md", recursive=True)) + [TOP + "/README.md"]:
        rewrite(path, lambda text: page(text, names, words))


if __name__ == "__main__":
    main()
