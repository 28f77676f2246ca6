#!/usr/bin/env python3
"""Brings the repository's own definitions and lemmas to the spelling of today's Rattle, once, after port.py.

    python3 tools/respell.py [--show]      (at the top of the repository; --show prints the names and writes nothing)

Words of specs/ and proofs/ that were in camel case are in snake case (`bookOf` is `book_of`), and so are the names of lemmas, whose parts a dash joined.
Definitions of facts that began with a small letter begin with a capital (FACTS). A lemma that would fall together with a definition gets `_lem` (the
rule for all names that are changed here, and LEMMAS for those that are not). Names that the code declares, exported names, strings and numbers stay.
"""
import re
import sys
from pathlib import Path

ROOT = Path.cwd()
NAME = r"[^\s:{}()\[\];,.=λ→×⊎`\"|]+"
DECLARED = re.compile(rf"^( *)((?:pub |abbrev |unfoldable |mutual |record |data |ruleset )*)({NAME})(?: [({{][^)}}]*[)}}])*(?: :(?= |$)| =)", re.M)
FACTS = {
    "rel": "Relates",
    "numbered": "IsNumbered",
    "long": "IsLong",
    "played": "IsPlayed",
    "being": "IsBook",
    "answered": "IsAnswered",
    "created-over": "IsCreatedOver",
}
# In these files alone: elsewhere the word is another's.
FACTS_IN = {
    "rel": ("integers/specs/Linear.antt",),
    "numbered": ("marks_examples/specs/MarkOrders.antt",),
    "long": ("lent_examples/specs/Whole.antt",),
    "played": ("lent_examples/specs/Whole.antt",),
    "being": ("lent_examples/specs/Lent.antt",),
    "answered": ("rules/specs/MarkReadings.antt", "marks_examples/specs/"),
    "created-over": ("rules/specs/Orders.antt",),
}
BESIDE = {"bit-or": "bit_or_lem"}
# Lemmas, named as they stood, whose name a definition has now, and the files that speak of them.
LEMMAS = {
    "each_fits": ("sound_positions/specs/Each.antt", "sound_positions/proofs/each/each_fits/", "soundness/proofs/positions_fit/"),
    "held_fits": ("sound_tables/specs/Held.antt", "sound_tables/proofs/holdings/holdings_fit/"),
    "in_use": ("offsetting/specs/Bytes.antt",),
    "left_alone": ("isolation/specs/RollApart.antt",),
    "long_of": ("callfile_format/specs/Kinds.antt", "callfile_format/proofs/reading/long_of/"),
    "made_bytes": ("history/specs/LentHistory.antt", "history/specs/Theorems.antt", "playing_records/specs/Playing.antt"),
    "not_sound": ("lent_examples/specs/Lent.antt",),
    "too_long": ("lent_examples/specs/Whole.antt", "playing/specs/Whole.antt", "playing/proofs/"),
    "walked_all": ("laws/specs/WalkIsRun.antt",),
}


def files(*endings):
    return [p for p in sorted(ROOT.glob("crates/**/*")) if p.suffix in endings and "out" not in p.relative_to(ROOT).parts and p.is_file()]


def uncommented(text):
    return re.sub(r"^( *)--.*$", "", text, flags=re.M)


def snake(name):
    return re.sub(r"(?<=[a-z0-9])([A-Z])", lambda m: "_" + m[1].lower(), name)


def names():
    """The names to change, with their new ones."""
    own = set()
    for path in files(".antt"):
        text = uncommented(path.read_text())
        if path.name not in ("Proof.antt", "Answers.antt", "Invariants.antt"):
            own.update(name for _, _, name in DECLARED.findall(text))
    new = {}
    defined = own | {snake(name) for name in own}
    for name in own:
        if not re.fullmatch(r"[a-z][\w'-]*", name):
            continue
        to = snake(name).replace("-", "_")
        if to != name:
            new[name] = BESIDE.get(name, to + "_lem" if "-" in name and to in defined else to)
    return own, new


def main():
    own, new = names()
    if "--show" in sys.argv:
        back = {}
        for name, to in new.items():
            back.setdefault(to, []).append(name)
        for to, froms in sorted(back.items()):
            if len(froms) > 1 or to in own and to not in new:
                print("falls together:", to, froms, to in own)
        for name, to in sorted(new.items()):
            print(name, to)
        return
    token = re.compile(NAME)
    for path in [*files(".antt", ".rt", ".edit"), *sorted(ROOT.glob("docs/*.md")), ROOT / "README.md"]:
        text = path.read_text()

        def turned(m):
            word, text = m[0], m.string
            if word in LEMMAS and any(at in str(path) for at in LEMMAS[word]) and text[m.start() - 1 : m.start()] != ".":
                return word + "_lem"
            if word in FACTS and any(at in str(path) for at in FACTS_IN[word]):
                return FACTS[word]
            return new.get(word, word)

        def quoted(line):
            return re.sub(r"`[^`\n]+`", lambda m: token.sub(turned, m[0]), line)

        def code(line):
            # a string stays
            return "".join(part if part[:1] == '"' else token.sub(turned, part) for part in re.split(r'("(?:[^"\\]|\\.)*")', line))

        said = path.suffix == ".md"
        to = "\n".join(quoted(line) if said or re.match(r" *(--|//)", line) else code(line) for line in text.split("\n"))
        if to != text:
            path.write_text(to)


main()
