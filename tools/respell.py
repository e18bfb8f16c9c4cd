#!/usr/bin/env python3
"""Respells this repository's own names for the present kit, after the kit's port.py has run. Run once, at the top.

  1. Definitions, lemmas, fields and import aliases of ours whose names are joined by dashes get underscores: words are in snake case.
  2. The names of goals and steps that proof files cite follow the kit's: in_default, in_err-x, overflow_add-x, and source names as
     the source has them.
  3. A recursion of std that was imported under the name All is cited by its own name, AllByRecursion.

It changes names and nothing else. Functions of src/, strings, inputs and outputs keep theirs. Names of comments that are plain
English (PLAIN) stay as they are.
"""
import pathlib
import re
import subprocess

ROOT = pathlib.Path(subprocess.check_output(["git", "rev-parse", "--show-toplevel"], text=True).strip())
PLAIN = {"well-formed", "out-of-memory", "one-reading", "whole-line"}
GOAL_FILES = {"Answers.antt", "Invariants.antt"}
DECLARED = re.compile(
    r"^\s*(?:pub\s+|abbrev\s+|unfoldable\s+|record\s+|data\s+)*([^\s(){}:,;.]+-[^\s(){}:,;.]+)\s*:(?!:)(?P<type>[^\n]*)", re.M)
RECORD = re.compile(r"^\s*(?:pub\s+)?record\s+([^\s(){}:,;.]+-[^\s(){}:,;.]+)\s", re.M)
ALIAS = re.compile(r"\bas ([a-z]+(?:-[a-z]+)+)(?=[,}])")
NAME = r"A-Za-z0-9_'≡≤<>+*·-"


def sources():
    for path in sorted((ROOT / "crates").rglob("*")):
        if path.suffix in (".antt", ".rt") and "out" not in path.relative_to(ROOT).parts:
            yield path


def own_names():
    names = set()
    for path in sources():
        text = path.read_text()
        names |= set(ALIAS.findall(text))
        if path.suffix == ".antt":
            names |= {m.group(1) for m in DECLARED.finditer(text) if "goal." not in m.group("type")}
            names |= set(RECORD.findall(text))
    return names


def is_plain(match):
    # a name that begins a line of a file's list of names is followed by a column of spaces
    return match.group(1) in PLAIN and not match.string[match.end():].startswith("  ")


def respell_names(names):
    new = {name: name.replace("-", "_") for name in names}
    new["So-far"] = "SoFar"
    together = [n for n in new if list(new.values()).count(new[n]) > 1]
    assert not together, f"names that fall together: {together}"
    longest = sorted(names, key=lambda n: (-len(n), n))
    token = re.compile(rf"(?<![{NAME}])(" + "|".join(map(re.escape, longest)) + rf")(?![{NAME}])")
    for path in sources():
        text = path.read_text()
        mark = "--" if path.suffix == ".antt" else "//"
        lines = []
        for line in text.split("\n"):
            comment = line.lstrip().startswith(mark)
            lines.append(token.sub(lambda m: m.group(1) if comment and is_plain(m) else new[m.group(1)], line))
        write(path, text, "\n".join(lines))


def respell_goals(crate):
    source = "\n".join(p.read_text() for p in (crate / "src").glob("*.rt"))
    words = set(re.findall(r"\b[a-z][a-z0-9]*(?:_[a-z0-9]+)+\b", source)) | {"from_residual", "slice_known", "type_inv", "as_slice"}
    pairs = sorted(((w.replace("_", "-"), w) for w in words), key=lambda p: (-len(p[0]), p))

    def goal(name):
        for old, new in (("in-default", "in_default"), ("in-err-", "in_err-"), ("in-ok-", "in_ok-"),
                         ("invariant-of-", "invariant_of-"), ("slice-bounds-", "slice_bounds-")):
            name = name.replace(old, new)
        name = re.sub(r"overflow-(add|mul|sub|shl|shr|cast|step)", r"overflow_\1", name)
        name = re.sub(r"nonzero-(div|rem)", r"nonzero_\1", name)
        name = re.sub(r"·(\d)", r"-\1", name)
        for old, new in pairs:
            name = re.sub(rf"(?<![A-Za-z0-9_]){re.escape(old)}(?![A-Za-z0-9_])", new, name)
        return name

    for path in sorted((crate / "proofs").rglob("*.antt")):
        if path.name not in GOAL_FILES:
            continue
        text = old = path.read_text()
        for name in sorted(set(re.findall(r"goal\.([^\s,(){}]+)", text)), key=lambda n: (-len(n), n)):
            if goal(name) != name:
                text = re.sub(r"(?<![^\s.({,])" + re.escape(name) + r"(?![^\s,(){}.])", goal(name), text)
        text = re.sub(r"(?<![A-Za-z0-9_.])(c|l|w)((?:\.[^\s,(){}]+)+)", lambda m: m.group(1) + goal(m.group(2)), text)
        write(path, old, text)


def respell_all():
    for path in sources():
        text = path.read_text()
        if "AllByRecursion as All" in text:
            write(path, text, re.sub(r"(?<![\w.-])All(?![\w-])", "AllByRecursion", text.replace("AllByRecursion as All", "AllByRecursion")))


def write(path, old, new):
    if new != old:
        path.write_text(new)
        print(path.relative_to(ROOT))


if __name__ == "__main__":
    respell_names(own_names())
    for lib in sorted((ROOT / "crates").glob("*/src")):
        respell_goals(lib.parent)
    respell_all()
