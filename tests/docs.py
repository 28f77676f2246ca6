#!/usr/bin/env python3
"""Checks that what the docs cite in backquotes exists: files; `Module.name` and `crate/Module.name`; in DECISIONS "Module `name`"; `crate::function`;
must-fail edits, each in the crate that is meant; and that every must-fail edit of the tree is cited somewhere. Prints what is missing.

    python3 tests/docs.py        (from anywhere; exit status 1 where something is missing)
"""
import re
import sys
from pathlib import Path

ROOT = Path(__file__).resolve().parent.parent
CRATES = {p.name for p in (ROOT / "crates").iterdir() if p.is_dir()}
EDITS = {(p.parent.parent.name, p.stem) for p in ROOT.glob("crates/*/must-fail/*.edit")}
DECLARED = r"^ *(?:unfoldable |abbrev |pub |record |data |ruleset )*{}(?= :| =|$)"
missing, cited = [], set()
WORDS = (r"^ *(?:unfoldable |abbrev |pub |record |data |ruleset )*(\S+)(?: [({][^)}]*[)}])* :", ("specs/*.antt", "proofs/*.antt"))
CODE = (r"\b(?:fn|mod) (\w+)", ("src/**/*.rt",))
NAMES = {name for _, name in EDITS} | {n for words, at in (WORDS, CODE) for a in at for p in ROOT.glob(f"crates/*/{a}") for n in re.findall(words, p.read_text(), re.M)}


def declares(crate, module, name):
    paths = [ROOT / "crates" / crate / part / f"{module}.antt" for part in ("specs", "proofs")]
    return any(path.exists() and (name is None or re.search(DECLARED.format(re.escape(name)), path.read_text(), re.M)) for path in paths)


def is_file(token):
    places = ("", "crates/", "docs/", "tests/", "crates/*/src/", "crates/*/specs/", "crates/*/proofs/")
    return any(list(ROOT.glob(at + token + end)) for at in places for end in ("", ".antt"))


def check(where, text):
    """The citations of one cell or line; a bare name of several words behind a module is a name of it, of another one, of the code, or an edit."""
    last = None
    for token in re.findall(r"`([^`]+)`", text):
        module = re.fullmatch(r"(?:([a-z_]+)/)?([A-Z]\w*)(?:\.([\w⟦⟧·-]+))?", token)
        if re.fullmatch(r"[\w./*-]+\.(antt|rt|py|md|h|c)|(docs|tests|rust|include|crates)/[\w/.-]*", token) and "NAME" not in token and not token.startswith("target/"):
            ok = is_file(token.rstrip("/"))
        elif module and (module[1] or module[3]) and token != "File.name":
            last = (module[1] or next((c for c in ["rules", *sorted(CRATES)] if declares(c, module[2], None)), "rules"), module[2])
            ok = declares(*last, module[3])
        elif re.fullmatch(r"([a-z_]+)/([a-z0-9_]+)", token) and not token.startswith("target/"):
            cited.add(tuple(token.split("/")))
            ok = tuple(token.split("/")) in EDITS or is_file(token)
        elif re.match(r"(?!(?:io|os|libc|std)::)([a-z_]+)::([a-z0-9_]+)", token):
            crate, name = re.match(r"([a-z_]+)::([a-z0-9_]+)", token).groups()
            files = [*ROOT.glob(f"crates/{crate}/src/**/*.rt"), *ROOT.glob(f"rust/{crate}/src/**/*.rs")]
            ok = any(re.search(rf"\b(fn|mod|struct|enum) {name}\b", p.read_text()) for p in files)
        elif last and re.fullmatch(r"[a-z0-9]+(_[a-z0-9]+)+", token):
            ok = declares(*last, token) or token in NAMES
        else:
            continue
        if not ok:
            missing.append(f"{where}: {token}")


def check_edits(where, cell, crates):
    """The edits of a table's last column: of the crate that `NAME's` or `crate/` before them names, else of one that the row or the heading names.
    (Functions stand there too: in parentheses, or behind "with".)"""
    cell = re.sub(r"\([^)]*\)|with (`\w+`(, | and )?)+", "", cell).replace("calls' ", "calls's ")
    for owner, slash, name in re.findall(r"\b(\w+)'s |`(?:([a-z_]+)/)?([a-z0-9]+(?:_[a-z0-9]+)+)`", cell):
        crates = [owner] if owner in CRATES else [slash] if slash else crates
        found = {(c, name) for c in crates} & EDITS
        cited.update(found)
        if name and not found:
            missing.append(f"{where}: edit {name} in {' or '.join(crates)}")


# PORT.md and DESIGN-PASS.md quote what was.
for doc in [doc for doc in sorted(ROOT.glob("docs/*.md")) if doc.name not in ("PORT.md", "DESIGN-PASS.md")] + [ROOT / "README.md"]:
    crates, edits = [], False
    for number, line in enumerate(doc.read_text().splitlines(), 1):
        where, cells = f"{doc.name}:{number}", re.split(r"(?<!\\)\|", line)
        if line.startswith("#"):
            crates = [c for c in re.findall(r"`crates/(\w+)`", line)]
        edits = edits and line.startswith("|") or "Must-fail edits |" in line
        for cell in cells:
            check(where, cell)
        if edits and not line.startswith("|---"):
            check_edits(where, cells[-2], crates + [c for c in re.findall(r"`(\w+)::", line) if c in CRATES])
        if doc.name == "DECISIONS.md" and line.startswith("| "):
            for module, names in re.findall(r"\b([A-Z]\w+) ((?:`[\w-]+`(?:, )?)+)", cells[-2]):
                missing += [f"{where}: {module} {n}" for n in re.findall(r"`([\w-]+)`", names) if not declares("rules", module, n)]

missing += [f"no doc cites the edit {c}/{e}" for c, e in sorted(EDITS - cited)]
print("\n".join(missing) or "every name, edit and file that the docs cite is there")
sys.exit(bool(missing))
