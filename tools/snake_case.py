#!/usr/bin/env python3
"""Respells the repository's own definitions, lemmas and record fields in snake case (tree-at becomes tree_at).

usage: python3 tools/snake_case.py [--list]     at the top of the repository, once, after the toolchain's port.py

It turns the names that files of specs/ and proofs/ declare and that have a hyphen; imported names of the library and
names that the checker makes for a function's goals and steps stay. --list changes nothing: it prints the names, those
that fall together with a name that stands already, and the places in a function's answers that a name may only resemble.
"""
import os
import re
import sys

# Names that would fall together with a module's or a function's, whose sign is no letter, that are a type's, or that the
# search below does not see.
OTHERS = {
    "line-column": "line_column_model",
    "karp-rabin": "karp_rabin_model",
    "byte-range": "byte_range_model",
    "draft-height": "height_of_draft",
    "text-need": "need_of_text",
    "allD-push": "AllD_push",
    "Node-facts": "NodeFacts",
    "Leaf-facts": "LeafFacts",
    "root-fine": "root_fine",
    "same-mark": "same_mark",
    "valid?": "valid_dec",
}

WORD = r"[\w'?!<≤≡ℕ]+(?:-[\w'?!<≤≡ℕ]+)*"
HYPHENED = re.compile(r"valid\?|[\w'?!<≤≡ℕ]+(?:-[\w'?!<≤≡ℕ]+)+")
DECLARES = re.compile(rf"(?m)^[ \t]*(?:pub |abbrev |unfoldable |\| )*({WORD})(?:[ \t]*\{{[^}}]*\}})*[ \t]:[ \t]*(\S.*)?$")
BINDS = re.compile(rf"(?:\blet |\()({WORD})(?: {WORD})* : ")
ALIASES = re.compile(rf"({WORD}) as ({WORD})")
IMPORTS = re.compile(r"use (Rattle\.std|mathlib|native|lib|Prim)[\w.+-]*\.\{([^}]*)\}")


def files():
    for folder, dirs, names in os.walk("crates"):
        dirs[:] = sorted(d for d in dirs if d != "out")
        for name in sorted(names):
            if name.endswith((".antt", ".rt")):
                yield os.path.join(folder, name)


def of_function(path):
    """Whether the file answers the goals of one function."""
    return os.path.basename(path) in ("Answers.antt", "Invariants.antt", "Proof.antt")


def declared(texts):
    names, library = set(), set()
    for path, text in texts.items():
        for m in IMPORTS.finditer(text):
            library |= {n.split(" as ")[0].strip() for n in m.group(2).split(",")}
        for m in re.finditer(r"use [\w.+-]+\.\{([^}]*)\}", text):
            names |= {a.group(2) for a in ALIASES.finditer(m.group(1))}
        if path.endswith(".antt"):
            names |= {m.group(1) for m in DECLARES.finditer(text) if not (m.group(2) or "").startswith("goal.")}
            names |= {m.group(1) for m in BINDS.finditer(text)}
            if not of_function(path):
                # fields that a record value gives, and names bound by a pattern or a lambda
                names |= {m.group(1) for m in re.finditer(rf"[{{;] *({WORD}) = ", text)}
    return {n for n in names if "-" in n and n not in library}


def generated(text):
    """The names of goals that a file answers."""
    return {m.group(1) for m in DECLARES.finditer(text) if (m.group(2) or "").startswith("goal.")}


def turned(path, text, names):
    made = generated(text) if of_function(path) else set()

    def turn(m):
        name = m.group(0)
        before = text[:m.start()]
        step = of_function(path) and re.search(r"(?<![\w.'-])c\.$", before)
        if name in OTHERS:
            return OTHERS[name]
        if name not in names or name in made or step:
            return name
        return name.replace("-", "_")

    return HYPHENED.sub(turn, text)


def main():
    texts = {p: open(p, encoding="utf-8").read() for p in files()}
    names = declared(texts)
    if "--list" in sys.argv:
        words = {w for t in texts.values() for w in re.findall(WORD, t)}
        print("names:", " ".join(sorted(names)))
        print("fall together:", " ".join(sorted(n for n in names if n.replace("-", "_") in words)))
        for p, t in texts.items():
            if of_function(p):
                for m in HYPHENED.finditer(t):
                    if m.group(0) in names and t[m.start() - 1] == ".":
                        print("look:", p, t[t.rfind("\n", 0, m.start()) + 1:t.find("\n", m.end())].strip()[:150], "|", m.group(0))
        return
    for p, t in texts.items():
        new = turned(p, t, names)
        if new != t:
            with open(p, "w", encoding="utf-8") as f:
                f.write(new)


main()
