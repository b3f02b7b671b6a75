#!/usr/bin/env python3
"""Respells the definitions and lemmas of this repository: words in snake case, types in camel case.

usage: python3 tools/respell.py           at the top of the checkout, once, right after the kit's own port.py

A name of specs/ and proofs/ such as cellStored becomes cell_stored. A dash stays where it joins a definition to a word, as in
cell_stored-fit, and becomes an underscore between plain words, as in found_later. The facts of FACTS, which are types, get a capital.
Names of the toolchain's library, functions of src/, exported names, strings, comments without backticks, inputs and outputs stay as they are. The must-fail edits and
the names that pages quote are turned alike. Names that would fall together are told, and then nothing is written.
"""

import os
import re
import subprocess
import sys

SIGNATURE = re.compile(r"^\s*((?:abbrev|unfoldable|pub)\s+)*([A-Za-z_][\w'-]*)\s*:(?=\s|$)(.*)")
CAMEL = re.compile(r"(?<=[a-z0-9])(?=[A-Z])")
TOKEN = re.compile(r"[A-Za-z_][\w'-]*")
GENERATED = re.compile(r"\b(?:tie|goal|Tie)\.|\bstatement\b")

# Facts under a small letter, by the file that says them: each is renamed there and where that file is imported from.
FACTS = {
    "crates/worked/proofs/Refuted.antt": {"right": "IsRight"},
    "crates/rules/proofs/Demand3/Reaches.antt": {"reached": "IsReached", "unvisited": "IsUnvisited", "unreached": "IsUnreached"},
    "crates/rules/proofs/Demand3/Goes.antt": {"silent": "IsSilent", "onward": "IsOnward"},
    "crates/rules/proofs/Demand1/Determined.antt": {"goesOn": "GoesOn"},
    "crates/rules/proofs/Demand1/Effects.antt": {"stores": "IsStored"},
    "crates/rules/proofs/Demand1/Why.antt": {"ends": "Ends", "callEnds": "CallEnds"},
    "crates/rules/proofs/Demand1/Ended.antt": {"storedPart": "IsStoredPart", "bare": "IsBare"},
}


# Names whose new spelling another name has already.
CHOSEN = {
    "found-from": "found_from-any_start",
    "inCells": "place_in_cells",
    "cell-forgotten": "cell_at-forgotten",
    "exec-zero": "at_exec_zero",
    "no-page": "to_no_page",
    "program-counter-stored": "stored_program_counter",
    "status-stored": "stored_status",
    "timed-out": "by_time_out",
    "trap-taken": "taken_trap",
    "twenty-four": "of_twenty_four",
}

# A field of a record in crates/worked has this name too: no file has both.
APART = {"last_word"}


def files(root, *endings):
    for folder, dirs, names in os.walk(root):
        dirs[:] = sorted(d for d in dirs if d not in ("out", "target", ".git"))
        for name in sorted(names):
            if name.endswith(endings):
                yield os.path.join(folder, name)


def read(path):
    with open(path, encoding="utf-8") as f:
        return f.read()


def defined():
    """Every name that a signature of specs/ or proofs/ declares, and those of them that specs/ has."""
    all_names, definitions = set(), set()
    for path in files("crates", ".antt"):
        for line in read(path).splitlines():
            m = SIGNATURE.match(line)
            if m and not GENERATED.search(m[3]):
                all_names.add(m[2])
                if "/specs/" in path or "abbrev" in line or "unfoldable" in line:
                    definitions.add(m[2])
    return all_names, definitions


def snake(word):
    return CAMEL.sub("_", word).lower() if re.match(r"[a-z]", word) else word


def respelled(name, definitions):
    if name in CHOSEN:
        return CHOSEN[name]
    first, dash, rest = name.partition("-")
    if not dash:
        return snake(name)
    compound = "_" in snake(first)
    joint = "-" if snake(first) in {snake(d) for d in definitions} and (compound or "-" not in rest) else "_"
    return snake(first) + joint + "_".join(snake(w) for w in rest.split("-"))


def renamings():
    """Old names to new ones; names that fall together are an error."""
    names, definitions = defined()
    facts = {n for of_file in FACTS.values() for n in of_file}
    turned = {n: respelled(n, definitions) for n in names - facts}
    turned = {n: t for n, t in turned.items() if t != n}
    clashes = sorted(f"{n} -> {t}" for n, t in turned.items() if t in names and t not in turned and t not in APART)
    seen = {}
    for n, t in sorted(turned.items()):
        if t in seen:
            clashes.append(f"{n} and {seen[t]} -> {t}")
        seen[t] = n
    return turned, clashes


def tokens(text):
    return set(TOKEN.findall(text))


def borrowed(text):
    """The names that a file imports from outside the repository, which keep their spelling there."""
    own = {c for c in os.listdir("crates")}
    found = set()
    for m in re.finditer(r"^\s*(?:pub |ghost )*use ([\w.+·-]+)\.\{([^}]*)\}", text, re.M):
        parts = m[1].split(".")
        if parts[0] != "Rattle" or parts[1] not in own:
            found |= tokens(m[2])
    return found


def told_together(turned):
    """The files in which a name and its new spelling both stand already: to be looked at."""
    for path in files("crates", ".antt", ".rt"):
        here = tokens(read(path))
        for name in sorted(here & turned.keys()):
            if turned[name] in here:
                print(f"look: {path}: {name} -> {turned[name]}")


def code_turned(text, turned, comment):
    """The text with the names turned outside comments and strings, and inside backticks of comments."""

    def line_turned(line):
        at = line.find(comment)
        while at >= 0 and at and not line[at - 1].isspace():
            at = line.find(comment, at + 1)
        head, tail = (line, "") if at < 0 else (line[:at], line[at:])
        parts = re.split(r'("(?:[^"\\]|\\.)*")', head)
        parts[::2] = [TOKEN.sub(lambda m: turned.get(m[0], m[0]), p) for p in parts[::2]]
        return "".join(parts) + quoted_turned(tail, turned)

    return "\n".join(line_turned(l) for l in text.split("\n"))


def edit_turned(text, turned):
    """A must-fail edit with the names turned in the two texts of each pair."""

    def line_turned(line):
        return TOKEN.sub(lambda m: turned.get(m[0], m[0]), line) if line.startswith(("old:", "new:")) else line

    return "\n".join(line_turned(l) for l in text.split("\n"))


def quoted_turned(text, turned):
    return re.sub(r"`[^`\n]+`", lambda q: TOKEN.sub(lambda m: turned.get(m[0], m[0]), q[0]), text)


def module_of(path):
    return re.sub(r"^crates/(\w+)/(specs|proofs)/(.*)\.antt$", lambda m: f"Rattle.{m[1]}.{m[2]}." + m[3].replace("/", "."), path)


def facts_of(path, text):
    """The facts that a file says or imports."""
    found = dict(FACTS.get(path, {}))
    for source, names in FACTS.items():
        line = re.search(r"^\s*use " + re.escape(module_of(source)) + r"\.\{([^}]*)\}", text, re.M)
        if line:
            found.update({n: t for n, t in names.items() if n in re.split(r"[,\s]+", line[1])})
    return found


def main():
    turned, clashes = renamings()
    if clashes:
        print("names fall together:\n" + "\n".join(clashes))
        return 1
    told_together(turned)
    changed = 0
    targets = [(p, "--") for p in files("crates", ".antt")] + [(p, "//") for p in files("crates", ".rt")]
    for path, comment in targets:
        old = read(path)
        own = {n: t for n, t in (turned | facts_of(path, old)).items() if n not in borrowed(old)}
        new = code_turned(old, own, comment)
        changed += write(path, old, new)
    for path in files("crates", ".edit"):
        old = read(path)
        changed += write(path, old, edit_turned(old, turned))
    for path in list(files("docs", ".md")) + ["README.md"]:
        old = read(path)
        changed += write(path, old, quoted_turned(old, turned))
    for crate in sorted(os.listdir("crates")):
        subprocess.run(["rt", "fmt"], cwd=os.path.join("crates", crate), check=True, stdout=subprocess.DEVNULL)
    print(f"respell: {len(turned)} names, {changed} files")
    return 0


def write(path, old, new):
    if new != old:
        with open(path, "w", encoding="utf-8") as f:
            f.write(new)
    return new != old


if __name__ == "__main__":
    sys.exit(main())
