#!/usr/bin/env python3
"""Brings the repository's own names to today's spelling: words in snake case, and no crate named as a library of the kit.

usage: python3 tools/respell.py [--dry]      at the top, once, right after the kit's port.py

A name is one that a file of specs/ or proofs/ defines: a definition, a lemma, a field, a constructor in small letters.
Types and modules keep their camel case, and so does every name that the code in src/ declares or that the toolchain makes for a goal.
Each name is changed as a whole word, in .antt and .rt files and in must-fail edits. It stops before it writes where two names would fall together.
"""
import os
import re
import subprocess
import sys

# Names that stand in one file and don't fall together there: fields beside the words of their types, and a folder of proofs.
LOOKED_AT = {("oneByte", "one_byte"), ("twoBytes", "two_bytes"), ("fourBytes", "four_bytes"), ("sameEntry", "same_entry")}
# Names of which the rule alone would make what another name is already: a fact is spelled as a type, and a lemma gives way to its word.
SPELLED = {"isMember": "IsMember", "from_place": "from_place_lem"}
CRATES = {"bytes": "wire", "hex": "hexes"}
WORD = re.compile(r"[^\s(){}\[\].;,:λ⌜⌝\"@|=→×∷+*/<>≤≡⊎∙?!&#$%^~`\\]+")
SIGNATURE = re.compile(r"^(\s*)(?:abbrev |unfoldable )?(?:pub )?([^\s(){}:]+(?: [^\s(){}:]+)*) : (.*)$")
GOAL = re.compile(r"^(?:goal|need|needs)\.")


def files(end):
    out = subprocess.run(["git", "ls-files", "-co", "--exclude-standard", "crates"], capture_output=True, text=True, check=True).stdout.split("\n")
    return [f for f in out if f.endswith(end) and os.path.exists(f)]


def read(path):
    with open(path, encoding="utf-8") as f:
        return f.read()


def snake(name):
    name = re.sub(r"([a-z0-9])([A-Z])", lambda m: m.group(1) + "_" + m.group(2).lower(), name)
    return name.replace("-", "_")


def defined():
    names = set()
    for path in files(".antt"):
        for line in read(path).split("\n"):
            if line.lstrip().startswith(("let ", "--", "use ", "(", "λ")):
                continue
            m = SIGNATURE.match(line)
            if not m or GOAL.match(m.group(3)):
                continue
            for name in m.group(2).split():
                if re.fullmatch(r"[a-z][A-Za-z0-9_'-]*", name) and name not in ("pub", "abbrev", "unfoldable", "record", "data", "mod", "use", "where", "in", "elim"):
                    names.add(name)
    return names


def goals():
    """Names that the toolchain makes, as the proof files answer them."""
    names = set()
    for path in files(".antt"):
        for line in read(path).split("\n"):
            m = SIGNATURE.match(line)
            if m and GOAL.match(m.group(3)):
                names.update(m.group(2).split())
    return names


def outside():
    """Names that come from the kit, whatever else has them."""
    names = set()
    for path in files((".antt", ".rt")):
        for module, listed in re.findall(r"use (\S+?)\.\{([^}]*)\}", read(path)):
            own = re.match(r"Rattle\.(\w+)\.", module)
            if not own or not os.path.isdir(f"crates/{own.group(1)}"):
                names.update(n.strip().split(" as ")[0] for n in listed.split(","))
    return names


def main():
    dry = "--dry" in sys.argv
    made = goals()
    kit = outside()
    turned = {n: snake(n) for n in defined() if snake(n) != n and n not in made | kit}
    seen = {}
    for path in files((".antt", ".rt")):
        for w in set(WORD.findall(read(path))):
            seen.setdefault(w, set()).add(path)
    bad = []
    back = {}
    turned.update({old: new for old, new in SPELLED.items() if old in defined()})
    words = {n for n in turned.values() if n in seen} | {turned[n] for n in turned if "-" not in n}
    for old in turned:  # a lemma that would have its word's name
        if "-" in old and turned[old] in words:
            turned[old] += "_lem"
    for old, new in sorted(turned.items()):
        if new in back:
            bad.append(f"{old} and {back[new]} would both be {new}")
        back[new] = old
        # a function of src/ may have the name of the word that it computes
        both = {f for f in seen.get(old, set()) & seen.get(new, set()) if f.endswith(".antt")}
        if both and new not in turned and (old, new) not in LOOKED_AT:
            bad.append(f"{new} stands beside {old} in {', '.join(sorted(both))}")
    if bad:
        print("\n".join(bad))
        print(f"{len(bad)} names fall together; nothing was written")
        return 1
    if dry:
        for old, new in sorted(turned.items()):
            print(old, new)
        return 0
    for path in files((".antt", ".rt", ".edit")):
        text = read(path)
        of_a_function = re.search(r"/proofs/.*/", path)  # where a dashed word behind a dot is a field that the toolchain makes

        def turn(m):
            if of_a_function and "-" in m.group(0) and text[m.start() - 1 : m.start()] == ".":
                return m.group(0)
            return turned.get(m.group(0), m.group(0))

        new = WORD.sub(turn, text)
        for a, b in CRATES.items():
            new = new.replace(f"Rattle.{a}.", f"Rattle.{b}.")
            new = re.sub(rf"^(\s*(?:pub )?use ){a}::", rf"\g<1>{b}::", new, flags=re.M)
        if new != text:
            with open(path, "w", encoding="utf-8") as f:
                f.write(new)
    for a, b in CRATES.items():
        if os.path.isdir(f"crates/{a}"):
            os.rename(f"crates/{a}", f"crates/{b}")
    lines = read("crates.txt").split("\n")
    for i, line in enumerate(lines):
        if not line.startswith("#"):
            lines[i] = re.sub(r"\w+", lambda m: CRATES.get(m.group(0), m.group(0)), line)
    with open("crates.txt", "w", encoding="utf-8") as f:
        f.write("\n".join(lines))
    print(f"{len(turned)} names turned")
    return 0


sys.exit(main())
