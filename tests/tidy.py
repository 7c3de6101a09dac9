#!/usr/bin/env python3
"""Holds the .rt and .antt files to three rules of the house, and names file and line where one is broken:

    tests/tidy.py [CRATE...]     the crates named, or all of crates/

1. A name that a `use` or `ghost use` line brings in is used in that file. Comments and other `use` lines are no use; `pub use` passes its
   names on. An operator counts by its parts (`◌∷◌` by `∷`), a module by a name that is taken from it (`tie` by `tie.close`); what stands
   right behind a dot is the part of something else. What a `ghost use` line brings in is for contracts and ghost members, so only these
   are looked at. A trait of the repository counts by a method of it that is called, too.
2. No line has more than 160 characters.
3. Every folder of crates/ is in crates.txt.

Exit status 1 if a rule is broken. A name is looked for as a word, and not where it means what was brought in: a local of the same name
hides an import that is not used.
"""

import os
import re
import sys

TOP = os.path.dirname(os.path.dirname(os.path.abspath(__file__)))
WIDEST = 160
SKIPPED = re.compile(r"""b?"(?:\\.|[^"\\])*"|b?'(?:\\.|[^'\\])'|//.*""")  # texts and comments, in code and in antt
ANTT_SKIPPED = re.compile(r'"(?:\\.|[^"\\\n])*"|\{-.*?-\}|(?<![^\s(){}.;,@"«»])--[^\n]*', re.S)
USE = re.compile(r"^[ \t]*(pub )?(ghost )?use\s+([^{;\n]*?)(?:\.?(?:::)?\{([^}]*)\})?\s*(?: as (\S+?))?;?[ \t]*$", re.M)
NAME = re.compile(r'[^\s(){}.;,@"«»]+')
TRAIT = re.compile(r"^pub trait (\w+)[^{]*\{(.*?)^\}", re.M | re.S)
SAMPLES = (  # a text, whether it is antt, and the names that must be found in it
    ("use A.{x, ◌∷◌, ◌×◌, f as g}\ny = x × g x\n", True, ["◌∷◌"]),
    ("use A.B as b\nuse A.C as c\nuse D.{d,\n    e}\ny = b.d e -- d\n", True, ["c", "d"]),
    ("ghost use A.{◌+◌, p};\nfn f(x: u8) -> u8\n    ensures { p result }\n{\n    x + 1\n}\n", False, ["◌+◌"]),
    ("ghost use A.{a_b, c};\nfn f(x: u8) -> u8\n    ensures one { a result }\n    ensures two { b c }\n{\n    x\n}\n", False, ["a_b"]),
    ("use a::B;\nuse a::C;\nfn f(c: C) {} // B\n", False, ["B"]),
    ("ghost use A.{a, b, c};\nimpl T for u8 {\n    ghost one = { a };\n}\ntrait U {\n    ghost two: { b };\n}\n", False, ["c"]),
    ("use a::Called;\nuse a::Idle;\nfn f(c: u8) -> u8 {\n    c.called()\n}\n", False, ["Idle"]),
)


def blank(match):
    """What is left out, as blanks, so that lines keep their numbers."""
    return re.sub(r"[^\n]", " ", match.group(0))


def words(text, antt):
    """The words of a text, and those that a dot follows, so that something is taken from them."""
    plain, from_it = set(), set()
    for match in (NAME if antt else re.compile(r"\w+")).finditer(text):
        start, end = match.span()
        if antt and text[start - 1 : start] == ".":
            continue
        plain.add(match.group(0))
        if text[end : end + 1] == "." or text[end : end + 2] == "::":
            from_it.add(match.group(0))
    return plain, from_it


def is_used(name, plain):
    """Whether a name of antt is among the words: whole, or as an operator by its parts, also with one argument place."""
    if "◌" not in name:
        return name in plain
    parts = [p for p in name.split("◌") if p]
    return name in plain or all(any(w in plain for w in (p, "◌" + p, p + "◌", "◌" + p + "◌")) for p in parts)


def contracts(text):
    """What stands in the braces behind `requires`, `ensures` and a ghost member."""
    found = []
    for match in re.finditer(r"\b(?:requires|ensures|ghost (?!use\b)\w+\s*[:=])[^{\n]*\{", text):
        depth, at = 1, match.end()
        while depth and at < len(text):
            depth += {"{": 1, "}": -1}.get(text[at], 0)
            at += 1
        found.append(text[match.end() : at - 1])
    return "\n".join(found)


def traits():
    """The traits of the repository, and the methods of each."""
    found = {}
    for folder, below, inside in os.walk(os.path.join(TOP, "crates")):
        below[:] = [name for name in below if name != "out"]
        for name in inside:
            if name.endswith(".rt"):
                with open(os.path.join(folder, name), encoding="utf-8") as opened:
                    for match in TRAIT.finditer(opened.read()):
                        found[match.group(1)] = re.findall(r"\bfn (\w+)", match.group(2))
    return found


def unused(text, antt, methods):
    """Line and name of each import that is not used."""
    text = (ANTT_SKIPPED if antt else SKIPPED).sub(blank, text)
    uses = list(USE.finditer(text))
    body = USE.sub(blank, text)
    here, here_from = words(body, antt)
    said, said_from = (here, here_from) if antt else words(contracts(body), True)
    for use in uses:
        passed_on, ghost, path, names, alias = use.groups()
        if passed_on:
            continue
        in_antt = antt or ghost
        plain, from_it = (said, said_from) if in_antt else (here | said, here_from | said_from)
        if not in_antt:
            plain = plain | {trait for trait, called in methods.items() if any(re.search(rf"\.{name}\(", body) for name in called)}
        line = text.count("\n", 0, use.start()) + 1
        if names is None:
            name = alias or re.split(r"\.|::", path.strip())[-1]
            if name not in (from_it if in_antt else plain):
                yield line, name
            continue
        for item in re.finditer(r"[^,\s][^,]*", names):
            name = item.group(0).split()[-1]
            at = line + text.count("\n", use.start(), use.start(4) + item.start())
            name = re.split(r"\.(?=[^.])", name)[-1] if in_antt else name
            if not (is_used(name, plain) if in_antt else name in plain):
                yield at, name


def main(named):
    for text, antt, names in SAMPLES:
        found = [name for _, name in unused(text, antt, {"Called": ["called"], "Idle": ["idle"]})]
        if found != names:
            print(f"tidy: of a sample {names} must be found, and {found} is")
            return 2
    methods = traits()
    wrong, files = 0, 0
    crates = sorted(os.listdir(os.path.join(TOP, "crates")))
    with open(os.path.join(TOP, "crates.txt"), encoding="utf-8") as listed:
        names = {line.partition("#")[0].partition(":")[0].partition(" ")[0] for line in listed}
    for crate in crates:
        if crate not in names:
            print(f"tidy: crates/{crate} is not in crates.txt")
            wrong += 1
    for crate in named or crates:
        for folder, below, inside in os.walk(os.path.join(TOP, "crates", crate)):
            below[:] = sorted(name for name in below if name != "out")  # what `rt` makes
            for name in sorted(inside):
                if not name.endswith((".rt", ".antt")):
                    continue
                path = os.path.join(folder, name)
                shown = os.path.relpath(path, TOP)
                with open(path, encoding="utf-8") as opened:
                    text = opened.read()
                files += 1
                for number, line in enumerate(text.split("\n"), 1):
                    if len(line) > WIDEST:
                        print(f"tidy: {shown}:{number}: {len(line)} characters")
                        wrong += 1
                for number, word in unused(text, name.endswith(".antt"), methods):
                    print(f"tidy: {shown}:{number}: {word} is brought in and not used")
                    wrong += 1
    if not files:
        print("tidy: no such crate")
        return 2
    print(f"tidy: {files} files of {len(named or crates)} crates, " + (f"{wrong} faults" if wrong else "as they should be"))
    return 1 if wrong else 0


if __name__ == "__main__":
    sys.exit(main(sys.argv[1:]))
