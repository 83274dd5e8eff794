#!/usr/bin/env python3
"""Spells the repository's own definitions and lemmas in snake case, once, after port.py: python3 tools/respell.py, at the top.

A name that a file of specs/ or a lemma file of proofs/ declares, or that a `use` line gives with `as`, and that has a capital
or a dash: `putWord` becomes `put_word`, and `by-turn` becomes `by_turn`. A lemma that would get the name of a definition ends
in `_lem`. Types and modules keep their capitals. Functions of src/, exported names, strings and inputs keep their names: of
an .rt file only the clauses and the `ghost use` lines are turned. Edits are turned by the same rules.
"""

import glob
import re
import sys

DECLARED = re.compile(
    r"^ *(?:(?:pub|abbrev|unfoldable|pattern|package) )*([^\s(){}.;,@\"«»]+)(?: \{[^{}\n]*\}| \([^()\n]*\))* :(?= |$)", re.M
)
ALIAS = re.compile(r"[^\s(){}.;,@\"«»]+ as ([^\s(){}.;,@\"«»]+)")
TOKEN = re.compile(r"[^\s(){}.;,@\"«»]+")
SPECIAL = {"low3E": "low_3e", "low3F": "low_3f", "rowAAt": "row_a_at", "rowBAt": "row_b_at"}

# Lemmas that port.py had turned already, and that a definition would meet in a file of theirs.
GIVE_WAY = {"goes_on": "goes_on_lem", "no_room": "no_room_lem", "one_more": "one_more_lem"}
# A definition that meets such a lemma in no file.
FALLS = {"allSet": "all_set"}


def plain(text):
    return re.sub(r"--.*", "", text)


def respelled(name):
    if name in SPECIAL:
        return SPECIAL[name]
    return re.sub(r"(?<=[a-z0-9])[A-Z]", lambda m: "_" + m[0].lower(), name).replace("-", "_")


def is_word(name):
    """Whether a name is a word of ours with a capital or a dash: no type, no operator."""
    return re.fullmatch(r"[a-z][a-z0-9]*(?:[A-Z][a-z0-9]*|[-_][a-z0-9]+)*'?", name) and (re.search("[A-Z]", name) or "-" in name)


def names(specs, lemmas, code):
    """Each old name with its new one."""
    declared = {}
    for path in specs + lemmas:
        with open(path, encoding="utf-8") as f:
            text = plain(f.read())
        for m in DECLARED.finditer(text):
            declared.setdefault(m[1], set()).add(path)
    for path in specs + lemmas + code:
        with open(path, encoding="utf-8") as f:
            text = f.read()
        for line in re.findall(r"^(?:ghost )?use Rattle\..*$", text, re.M):
            for m in ALIAS.finditer(line):
                declared.setdefault(m[1], set()).add(path)
    there = {n for n in declared if not is_word(n) and n not in GIVE_WAY}
    turned = dict(GIVE_WAY)
    # definitions first, so that a lemma of the same name gives way
    for n in sorted((n for n in declared if is_word(n)), key=lambda n: ("-" in n, n)):
        new = respelled(n)
        if new in there:
            if "-" not in n and n not in FALLS:
                sys.exit(f"respell: {n} and {new} fall together: {sorted(declared[n])}")
            new = FALLS.get(n) or new + "_lem"
        there.add(new)
        turned[n] = new
    return turned


def turn(text, turned):
    return TOKEN.sub(lambda m: turned.get(m[0], m[0]), text)


def clauses(text, turned):
    """Of an .rt text, the `ghost use` lines and what stands between the braces of a clause."""
    out, i = [], 0
    for m in re.finditer(r"^ghost use .*$|\b(?:requires|ensures)\b[^\n{]*\{", text, re.M):
        if m.start() < i:
            continue
        if m[0].startswith("ghost use"):
            out += [text[i : m.start()], turn(m[0], turned)]
            i = m.end()
            continue
        deep, k = 1, m.end()
        while deep:
            deep += (text[k] == "{") - (text[k] == "}")
            k += 1
        out += [text[i : m.end()], turn(text[m.end() : k], turned)]
        i = k
    return "".join(out) + text[i:]


def main():
    specs = sorted(glob.glob("crates/*/specs/**/*.antt", recursive=True))
    proofs = sorted(glob.glob("crates/*/proofs/**/*.antt", recursive=True))
    code = sorted(glob.glob("crates/*/src/**/*.rt", recursive=True))
    edits = sorted(glob.glob("crates/*/must-fail/*.edit") + glob.glob("edits/*/*.edit"))
    lemmas = [p for p in proofs if p.count("/") == 3]
    turned = names(specs, lemmas, code)
    for path in specs + proofs + code + edits:
        with open(path, encoding="utf-8") as f:
            text = f.read()
        if path.endswith(".antt"):
            # comments too, but for a word in quotation marks, which the definition of the chip says
            new = "".join(
                part if part.startswith('"') else turn(part, turned) for part in re.split(r'("[^"\n]*")', text)
            )
        elif path.endswith(".rt"):
            new = clauses(text, turned)
        else:
            new = turn(text, turned) if re.search(r"^file: (?:specs|proofs)/", text, re.M) else clauses(text, turned)
        if new != text:
            with open(path, "w", encoding="utf-8") as f:
                f.write(new)
    for old in sorted(turned):
        print(old, turned[old])


if __name__ == "__main__":
    main()
