#!/usr/bin/env python3
"""Spells this repository's own definitions and lemmas as today's Rattle does: a name that begins with a small letter is in snake case, a dash joins two
names, and a plain word is added with '_' (CONTRACT_STYLE.md of the kit, "Names"). Run once, after port.py, at the top of the repository.

usage: respell.py [--table] ROOT     --table prints each old name beside the new one

What is declared below crates/ in .antt files turns, as a whole word: in .antt files everywhere but in quoted text, in .rt files in clauses, ghost items
and comments' code spans. Rust's own names, strings, files' names and library names stay. Where a lemma would have a definition's name it gets
'_lem'; where names still fall together, the script stops and names them.
"""
import collections
import os
import re
import sys

WORD = re.compile(r'[^\s(){}.;,@"«»`]+')
DECLARED = re.compile(
    r"^[ \t]*((?:(?:pub|abbrev|unfoldable|record|data|ruleset)[ \t]+)*)((?:[^\s(){}.;,@\"«»`:]+)(?:[ \t]+[^\s(){}.;,@\"«»`:]+)*)(?:[ \t]+[({][^\n]*?)?[ \t]+:(?=\s)",
    re.M,
)
FIELD = re.compile(r"^[ \t]+pub[ \t]+([^\s(){}.;,@\"«»`:]+)[ \t]+:(?=\s)", re.M)
COMMENT = re.compile(r"(?<![^\s(){}.;,@])--[^\n]*|\{-.*?-\}", re.S)
QUOTED = re.compile(r'"(?:[^"\\\n]|\\.)*"')
SPAN = re.compile(r"`[^`\n]+`")
# words of the library that take a dash beside another name
JOINED = set("length append take drop set get_or map reverse to_z of_z".split())
# facts and fields that would have the name of a definition
APART = {
    "is_true": "true_here",
    "is_false": "false_here",
    "is_free": "free_here",
    "is_open": "open_here",
    "go_on": "next_go",
    "all_pass": "all_pass_lem",
    "held_found": "held_found_lem",
    "limits_of": "limits_of_lem",
    "not_free": "not_free_lem",
    "on_call": "on_call_lem",
    "one_more": "one_more_lem",
    "shown_by": "shown_by_lem",
}
# made by Rattle from the source: these keep the spelling that Rattle gives them
MADE = re.compile(r"^(Need-|At-|Then|Else|Is-|is-|has-)")


def files(root, *ends):
    for folder, dirs, names in os.walk(os.path.join(root, "crates")):
        dirs[:] = sorted(d for d in dirs if d not in ("out", ".git"))
        for name in sorted(names):
            if name.endswith(ends):
                yield os.path.join(folder, name)


def read(path):
    with open(path, encoding="utf-8") as f:
        return f.read()


def snake(part):
    if not part or not part[0].islower():
        return part
    return re.sub(r"(?<=[a-z0-9])([A-Z])(?=[a-z0-9]|$|['₀-₉])", lambda m: "_" + m[1].lower(), part)


def bare(text):
    return COMMENT.sub("", QUOTED.sub('""', text))


def imported(root):
    """The names that a 'use' item takes from a library."""
    names = set()
    for path in files(root, ".antt", ".rt"):
        for m in re.finditer(r"^(?:ghost )?use ([\w.'-]+)\.\{([^}]*)\}", bare(read(path)), re.M):
            if not m[1].startswith("Rattle.") or m[1].startswith("Rattle.std"):
                names |= set(re.split(r"[\s,]+", m[2]))
    return names


def declared(root):
    names, fields, tops = collections.Counter(), set(), set()
    for path in files(root, ".antt"):
        text = bare(read(path))
        for m in DECLARED.finditer(text):
            for name in m[2].split():
                names[name] += 1
                if "/specs/" in path and not m[0][0].isspace() and "-" not in name:
                    tops.add(snake(name))
        fields |= set(FIELD.findall(text))
    return names, fields, tops


def table(root):
    names, fields, tops = declared(root)
    joined = JOINED | tops
    def new(name, dashes):
        parts = [snake(p) for p in name.split("-")]
        out = parts[0]
        for a, b in zip(parts, parts[1:]):
            both = a in joined and b in joined and name not in fields
            out += ("-" if (both or dashes or not a or not b) else "_") + b
        return out

    foreign = imported(root)
    turn = {n: new(n, False) for n in names if n[0].islower() and not MADE.match(n) and n not in foreign}
    by_new = collections.defaultdict(set)
    for old, it in turn.items():
        by_new[it].add(old)
    for it, olds in by_new.items():
        plain = [old for old in olds if "-" not in old]
        for old in olds if len(olds) > 1 else ():
            if "-" in old:
                turn[old] = it + "_lem" if len(plain) == 1 and len(olds) == 2 else new(old, True)
    turn |= {n: it for n, it in APART.items() if n in names or n == "go_on"}
    back = collections.defaultdict(set)
    for old, it in turn.items():
        back[it].add(old)
    bad = {it: olds for it, olds in back.items() if len(olds) > 1}
    return {o: n for o, n in turn.items() if o != n}, bad


def turned(text, kind, turn, walk):
    """The text with its names turned. kind: antt or rt; walk: a Proof.antt, where what stands behind a dot may be a step of the code."""
    own = set()

    def one(word, dotted):
        if word in APART and (kind != "antt" or (walk and dotted)):
            return word
        return turn.get(word, word)

    def words(piece, may=lambda w: True):
        def whole(m):
            before = piece[: m.start()]
            if m[0] in APART and re.search(r"Rattle(\.[\w+'-]+)*\.$", before):
                return m[0]
            return one(m[0], before.endswith(".")) if may(m[0]) else m[0]

        return WORD.sub(whole, piece)

    def prose(piece):
        piece = SPAN.sub(lambda m: "`" + words(m[0][1:-1]) + "`", piece)
        return WORD.sub(lambda m: turn.get(m[0], m[0]) if m[0] not in APART and (re.search("[a-z][A-Z]", m[0]) or m[0] in own) else m[0], piece)

    comment = r"(?<![^\s(){}.;,@])--[^\n]*" if kind == "antt" else r"//[^\n]*"
    parts = re.split("(" + comment + r'|"(?:[^"\\\n]|\\.)*")', text)
    for piece in parts[::2]:
        own |= set(WORD.findall(piece)) if kind == "antt" else set()
    return "".join((p if p.startswith('"') else prose(p)) if n % 2 else words(p) for n, p in enumerate(parts))


def main():
    root = sys.argv[-1]
    turn, bad = table(root)
    for it, olds in sorted(bad.items()):
        print("falls together:", it, sorted(olds))
    if bad:
        return 1
    changed = 0
    for path in files(root, ".antt", ".rt"):
        text = read(path)
        kind = "antt" if path.endswith(".antt") else "rt"
        new = turned(text, kind, turn, path.endswith("/Proof.antt"))
        if new != text:
            changed += 1
            with open(path, "w", encoding="utf-8") as f:
                f.write(new)
    if "--table" in sys.argv:
        for old, new in sorted(turn.items()):
            print(old, new, sep="\t")
    print(f"respell: {len(turn)} names, {changed} files", file=sys.stderr)
    return 0


if __name__ == "__main__":
    sys.exit(main())
