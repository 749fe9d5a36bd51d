#!/usr/bin/env python3
"""Writes the repository's own definitions and lemmas in the spelling of today's Rattle: words in snake case.

usage: python3 tools/spell_names.py [FOLDER]      the repository's folder (.)

Run once, right after the kit's port.py. It turns each name that a file of specs/ or proofs/ declares:
`fieldOf` to `field_of`, `step-refused` to `step_refused`; a dash between two names stays, as in `gamma_lb-from`.
Types, modules, functions of src/, exported names and names that the checker makes keep their spelling.
In documents and in edits it also turns what port.py turned in the files, where the new name is declared.
It stops, and writes nothing, where two names of one file would become one.
"""

import os
import re
import sys

WORD = re.compile(r"[^\s(){}.;,@\"«»\[\]`:|\\]+")
NAME = r"[^\s(){}.;,@\"«»:=|]+"
LINE = re.compile(rf"^(\s*)((?:(?:pub|abbrev|unfoldable)\s+)*)((?:{NAME}\s+)*?{NAME})\s+:(?:\s+(.*))?$")
# Types of what the checker asks for: such a line answers a goal, whose name is not ours.
ASKED = ("tie.", "goal.")
# Names whose plain new spelling is taken: by a field, by a crate, by a lemma of the same file or by the library.
OTHERWISE = {
    "linearRows": "linear_row_count",
    "kktList": "kkt_matrix_list",
    "limitsOf": "masked_limits",
    "inRow": "entry_in_row",
    "inColumn": "entry_in_column",
    "byNumber": "outcome_by_number",
    "is-nan": "is_nan_lem",
}
# Names of clauses in src/, which meet no definition.
LABELS = {"counts_of"}
NOT_NAMES = {"let", "elim", "in", "module", "use", "where", "as", "--"}


def files(root, *ends):
    for folder, below, names in os.walk(os.path.join(root, "crates")):
        below.sort()
        for name in sorted(names):
            if name.endswith(ends):
                yield os.path.join(folder, name)


def read(path):
    with open(path, encoding="utf-8", newline="") as f:
        return f.read()


def declarations(text):
    """Each declared name of a file, with the text of its type."""
    for line in text.split("\n"):
        found = LINE.match(line)
        if not found or line.lstrip().startswith("--"):
            continue
        names = found[3].split()
        if NOT_NAMES.isdisjoint(names):
            for name in names:
                yield name, found[4] or ""


def snake(word):
    return re.sub(r"(?<=[a-z0-9])([A-Z]+)(?=[a-z]|$|\d|')", lambda m: "_" + m[1].lower(), re.sub(r"([A-Z])([A-Z][a-z])", r"\1_\2", word))


def spelled(name):
    """The name in today's spelling. A dash beside a capital, or beside a name in camel case, joins two names and stays."""
    if not re.fullmatch(r"[a-z][A-Za-z0-9]*(?:-[A-Za-z0-9]+)*'*", name):
        return name
    parts = name.rstrip("'").split("-")
    primes = name[len(name.rstrip("'")) :]
    camel = any(re.search("[A-Z]", part) for part in parts)
    if any(part[0].isupper() for part in parts):
        return "-".join(part if part[0].isupper() else snake(part) for part in parts) + primes
    return ("-" if camel else "_").join(snake(part).lower() for part in parts) + primes


def main(root):
    texts = {path: read(path) for path in files(root, ".antt", ".rt")}
    declared, asked = {}, set()
    for path, text in texts.items():
        if path.endswith(".antt"):
            for name, typed in declarations(text):
                if typed.startswith(ASKED):
                    asked.add(name)
                else:
                    declared.setdefault(name, path)
    functions = {name for path, text in texts.items() if path.endswith(".rt") for name in re.findall(r"\bfn (\w+)", text)}
    table = {name: OTHERWISE.get(name, spelled(name)) for name in declared if name not in asked and spelled(name) != name}
    taken = {name for name in declared if name not in table} | {new for name, new in table.items() if "-" not in name}
    for name, new in table.items():
        if "-" in name and new in taken:
            table[name] = new + "_lem"

    def turn(path, text):
        """The text's words, with what a dot is before: a step of a proof is named after the function that it calls."""
        for m in WORD.finditer(text):
            plain = m[0].replace("-", "_")
            if m.start() and text[m.start() - 1] == "." and "-" in m[0] and plain in functions and path.endswith(".antt"):
                yield m, plain
            else:
                yield m, table.get(m[0], m[0])

    bad = 0
    for path, text in texts.items():
        became = {}
        for m, new in turn(path, text):
            line = text[text.rfind("\n", 0, m.start()) + 1 : m.start()]
            if line.endswith(".") or "-- " in line or "//" in line:
                continue
            word = m[0]
            if became.setdefault(new, word) != word and not (path.endswith(".rt") and {became[new], word} & (functions | LABELS)):
                print(f"{os.path.relpath(path, root)}: {became[new]} and {word} would both be {new}")
                bad += 1
    if bad:
        raise SystemExit(1)
    for path, text in texts.items():
        new, at = [], 0
        for m, word in turn(path, text):
            new += [text[at : m.start()], word]
            at = m.end()
        new = "".join(new) + text[at:]
        if new != text:
            with open(path, "w", encoding="utf-8", newline="") as f:
                f.write(new)
    now = {table.get(name, name) for name in declared}
    turned = lambda m: spelled(m[0]) if spelled(m[0]) in now and m[0] not in declared or m[0] in table else m[0]
    for path in files(root, ".edit"):
        text = read(path)
        new = WORD.sub(turned, text)
        if new != text:
            with open(path, "w", encoding="utf-8", newline="") as f:
                f.write(new)
    pages = [os.path.join(root, "README.md")]
    pages += [os.path.join(root, "docs", name) for name in sorted(os.listdir(os.path.join(root, "docs"))) if name.endswith(".md") and name != "PORT.md"]
    for path in pages:
        text = read(path)
        new = re.sub(r"`[^`\n]+`", lambda m: WORD.sub(turned, m[0]), text)
        if new != text:
            with open(path, "w", encoding="utf-8", newline="") as f:
                f.write(new)
    print(f"{len(table)} names turned")


if __name__ == "__main__":
    main(sys.argv[1] if len(sys.argv) > 1 else ".")
