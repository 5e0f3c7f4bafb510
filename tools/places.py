#!/usr/bin/env python3
"""Lists the places in crates/*/src that older forms of Rattle may have left.

    python3 tools/places.py [COMMIT]

A commit is read with git; with none, the files as they stand. It goes by text, so it finds candidates.
"""
import collections
import glob
import re
import subprocess
import sys

SKIPPED = {"ghost", "use", "pub", "fn", "let", "mut", "if", "else", "match", "return", "self", "Self", "as", "u8", "u32", "u64", "usize", "bool"}


def sources(commit, ends):
    """Returns the text of each file below crates/ whose path ends so, by path."""
    if commit is None:
        return {path: open(path, encoding="utf-8").read() for path in sorted(glob.glob("crates/**/*" + ends, recursive=True)) if "/out/" not in path}
    names = subprocess.run(["git", "ls-tree", "-r", "--name-only", commit, "crates"], capture_output=True, text=True, check=True).stdout.split("\n")
    show = lambda path: subprocess.run(["git", "show", f"{commit}:{path}"], capture_output=True, text=True, check=True).stdout
    return {path: show(path) for path in sorted(names) if path.endswith(ends)}


def functions(text):
    """Returns (name, head, clauses, body, line) for each function with a body."""
    found = []
    for it in re.finditer(r"^( *)(?:pub(?:\([a-z]+\))? )?fn (\w+)", text, re.M):
        indent = it.group(1)
        end = re.compile(rf"^{indent}\}}$|^{indent}\{{\}}$", re.M).search(text, it.start())
        if not end or text[it.start() : end.start()].count(";\n\n") > 3:
            continue
        whole = text[it.start() : end.end()]
        parts = re.split(rf"^{indent}\{{\n|(?<=\S) \{{\n", whole, maxsplit=1, flags=re.M)
        head = parts[0]
        clauses = re.findall(r"^\s*(requires|ensures) ?(\w*) \{ (.*) \}$", head, re.M)
        found.append((it.group(2), head, clauses, parts[1] if len(parts) > 1 else "", text[: it.start()].count("\n") + 1))
    return found


def shape(body):
    """A body with its names numbered as they come, so that bodies which differ in names alone are equal."""
    names = {}
    number = lambda it: it.group(0) if it.group(0) in SKIPPED else f"<{names.setdefault(it.group(0), len(names))}>"
    return re.sub(r"[A-Za-z_]\w*", number, re.sub(r"//.*", "", re.sub(r"\b\d[\d_]*\b", "0", body)))


def show(title, places):
    print(f"\n{title}: {len(places)}")
    for it in places:
        print("  " + it)


def lines_with(code, pattern):
    return [f"{path}:{i}: {line.strip()}" for path, text in code.items() for i, line in enumerate(text.split("\n"), 1) if re.search(pattern, line)]


def main():
    commit = sys.argv[1] if len(sys.argv) > 1 else None
    code = {path: text for path, text in sources(commit, ".rt").items() if "/src/" in path}
    print("## 1")
    enums = []
    for path, text in code.items():
        for it in re.finditer(r"^pub enum (\w+)[^{]*\{\n(.*?)^\}", text, re.M | re.S):
            variants = re.findall(r"^    (\w+)(\(|,| \{)", it.group(2), re.M)
            if (len(variants) == 2 and sorted(v[1] for v in variants) == ["(", ","]) or any(v[0] in ("Refused", "Failed", "Error") for v in variants):
                enums.append(f"{path}: enum {it.group(1)}")
    show("enums of the shape of Option or Result", enums)
    show("a failure passed on by hand", lines_with(code, r"(Some|Err|Ok)\((why|e|_)\) => (Err|Some|return|Answer::)|^\s*(if let Some\((why|e)\)|let (Some|Ok)\(.*\) = .* else \{)|^\s*return None;$"))
    show("numbers for kinds or refusals", lines_with(code, r"^\s*\w+::\w+ => \d+,$"))
    print("\n## 2")
    bodies = collections.defaultdict(list)
    for path, text in code.items():
        for name, _, _, body, line in functions(text):
            if body.count("\n") >= 3 and "#[test]" not in text[max(0, text.find(body) - 400) : text.find(body)][-300:]:
                bodies[shape(body)].append(f"{path}:{line} {name}")
    show("functions of one shape (three lines or more)", [" = ".join(it) for it in bodies.values() if len(it) > 1])
    structs = collections.defaultdict(list)
    for path, text in code.items():
        for it in re.finditer(r"^pub struct (\w+)[^{;]*\{\n(.*?)^\}", text, re.M | re.S):
            fields = re.findall(r"^    (?:pub(?:\(\w+\))? )?(\w+): ([^,\n]+)", it.group(2), re.M)
            structs[tuple(it for _, it in fields) + tuple(it for it, _ in fields)].append(f"{path} {it.group(1)}")
    show("structs of the same fields", [" = ".join(it) for it in structs.values() if len(it) > 1])
    consts = collections.defaultdict(list)
    for path, text in code.items():
        for it in re.finditer(r"const \w+: \w+ = (\d[\d_]{3,});", text):
            consts[it.group(1).replace("_", "")].append(path)
    show("one number in several constants", [f"{number}: {' '.join(it)}" for number, it in consts.items() if len(it) > 1])
    print("\n## 3")
    show("while, loop, and for over a range", lines_with(code, r"^\s*(while|loop)\b|^\s*for \w+ in .*\.\."))
    print("\n## 4")
    show("equality, copying, conversion and printing by hand", lines_with(code, r"^\s*(pub )?fn (equals|same_\w+|is_identity|number|clone|fmt|cmp|(to|from)_(row|entries|bytes|hex))\b"))
    print("\n## 5")
    facts, pairs = collections.defaultdict(set), collections.defaultdict(set)
    for path, text in code.items():
        for name, head, clauses, _, _ in functions(text):
            for kind, _, fact in clauses:
                for one in re.findall(r"^(?:\()?(\w+) [\w.()]+", fact) if kind == "requires" else re.findall(r"(Summed) [\w.()]+", fact):
                    facts[one].add(f"{path} {name}")
            params = re.findall(r"(\w+): (&?[\w'<>, \[\]&]+?)(?:,\s|\)|,$)", head[head.index("fn ") :].split(")")[0] + ")", re.M)
            plain = [f"{n}: {t}" for n, t in params]
            for i in range(len(plain) - 1):
                pairs[(plain[i], plain[i + 1])].add(f"{path} {name}")
    show("a fact in the contracts of three functions or more", [f"{fact}: {len(it)}" for fact, it in sorted(facts.items()) if len(it) > 2])
    show("two parameters side by side in three functions or more", [f"{a}, {b}: {len(it)}" for (a, b), it in sorted(pairs.items()) if len(it) > 2])
    print("\n## 6")
    buffers = []
    for path, text in code.items():
        for it in re.finditer(r"^pub struct (\w+)[^{;]*\{\n(.*?)^\}", text, re.M | re.S):
            if re.search(r": (&'\w+ (mut )?)?\[", it.group(2)) and re.search(r"^    (pub )?(len|count|used|\w+_used): u", it.group(2), re.M):
                buffers += [f"{path} {it.group(1)}: {field}" for field in re.findall(r"^    (?:pub )?((?:len|count|used|\w+_used): \w+)", it.group(2), re.M)]
    show("buffers with a length beside them", buffers)
    show("flat tables, and indices of an arena", lines_with(code, r"const \w+: \[\w+; \d+\]|(left|right): u32"))
    print("\n## 7")
    show("tables of functions, and switches that choose a step", lines_with(code, r": fn\(|^\s*match (call|step|kind|op)\b"))
    print("\n## 8")
    proofs = {path: text for path, text in sources(commit, ".antt").items() if "/proofs/" in path}
    answers = {path: text for path, text in proofs.items() if path.endswith("Answers.antt")}
    print(f"lines of proofs: {sum(text.count(chr(10)) for text in proofs.values())}; of answers: {sum(text.count(chr(10)) for text in answers.values())}; answers: {sum(len(re.findall('^pub ', text, re.M)) for text in answers.values())}")


main()
