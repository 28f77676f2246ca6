#!/usr/bin/env python3
"""Writes crates/rules/specs/Opened.antt: one name, `everything`, that opens all definitions of the rules, and one, `values`, that
opens all but those over a book's bytes.

A theorem by computation says `unfolding everything`. One about any bytes that are a certain book says `unfolding values`: there
`book_of bs` and `not_sound bs` stay as they are, and its premises say what they are. Run this from the repository's root when a
definition of the rules is added, renamed or removed: python3 tests/opened.py
"""
import re

RULES = ["Words", "Bounds", "Book", "Layout", "Trades", "Sound", "Nets", "Parts", "Roll", "Run", "Prices", "Marks", "Calls", "Records", "CallFile", "Sheet", "Written"]
BELOW = [("integers", ["Bits"]), ("fields", ["Field", "Codec"]), ("units_rounded", ["Part", "Conversion"])]
# not opened by `values`: the book in bytes
BYTES = ("Layout.", "Codec.", "Sound.not_sound")


def modules():
    for name in RULES:
        yield f"Rattle.rules.specs.{name}", f"crates/rules/specs/{name}.antt", name
    for crate, names in BELOW:
        for name in names:
            yield f"Rattle.{crate}.specs.{name}", f"crates/{crate}/specs/{name}.antt", name


def opening(name, opened):
    return f"\nunfoldable pub {name} : Unit {{0}}\nunfolding " + " ".join(opened) + f"\n{name} = tt\n"


def main():
    uses, opened = [], []
    for module, path, name in modules():
        names = re.findall(r"^ *unfoldable pub (\S+) :", open(path).read(), re.M)
        if names:
            uses.append(f"use {module}\n")
            opened += [f"{module}.{n}" for n in names]
    with open("crates/rules/specs/Opened.antt", "w") as f:
        f.write("-- One name that opens all definitions of the rules, for a theorem by computation: `unfolding everything`; and one that opens all but those over a\n")
        f.write("-- book's bytes: `unfolding values`. Written by tests/opened.py: the list of all `unfoldable` names.\n")
        f.write("".join(uses))
        f.write(opening("everything", opened))
        f.write("\n-- all but the book in bytes")
        f.write(opening("values", [n for n in opened if not any("specs." + b in n for b in BYTES)]))


main()
