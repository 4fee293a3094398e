#!/usr/bin/env python3
"""Brings the names that this repository defines in specs/ and proofs/ to snake case.

usage: python3 tools/snake_names.py [FOLDER]     once, at the top of the repository, after the kit's own port script

Rattle's spelling is snake case for definitions, fields and lemmas, and upper camel case for types, facts and modules. The kit's
script respells the names that its library shares; this one respells the others: `recordCount` becomes `record_count`, `add-one`
becomes `add_one`, in .antt files, in the clauses of .rt files, in must-fail edits and in the pages. Where a lemma and a definition
would get one name, the lemma's ends in `_lem`. Functions of src/, types, strings and the names that Rattle makes keep theirs.
It also makes the plain structs and enums of src/ `Copy`, as they were before types had to say so.
"""

import collections
import os
import re
import sys

ROOT = sys.argv[1] if len(sys.argv) > 1 else "."
# A token is what stands between blanks, brackets and the marks that part names.
TOKEN = re.compile(r"[^\s(){}\[\];,.λ`:=←«»\"|/]+")
HEAD = re.compile(
    r"^\s*(?:(?:abbrev|unfoldable|pub|ruleset|record|data|let)\s+)*([^\s:={(,;.]+)(?: \([^)]*\)| \{[^}]*\})* ?[:=]"
)
LET = re.compile(r"\blet ([^\s:={(,;.]+) [:=]")
KEYWORDS = {"where", "in", "let", "use", "mod", "pub", "open", "infixr", "infixl", "infix", "elim", "unfolding", "record"}
PAGES = ("README.md", "docs")


def files(*endings):
    for folder, folders, names in os.walk(os.path.join(ROOT, "crates")):
        folders[:] = sorted(f for f in folders if f != "out")
        for name in sorted(names):
            if name.endswith(endings):
                yield os.path.join(folder, name)


def pages():
    for page in PAGES:
        path = os.path.join(ROOT, page)
        if os.path.isfile(path):
            yield path
        for folder, _, names in os.walk(path):
            for name in sorted(names):
                if name.endswith(".md"):
                    yield os.path.join(folder, name)


def read(path):
    with open(path, encoding="utf-8") as f:
        return f.read()


def snake(name):
    name = name.replace("getD", "get_or")
    name = re.sub(r"(?<=[a-z0-9])[A-Z]", lambda m: "_" + m.group(0).lower(), name)
    return re.sub(r"(?<=[^\s-])-(?=[^\s-])", "_", name)


def is_walk(path):
    """A proof that walks the code by hand: the names in it are those of Rattle's goals."""
    return os.path.basename(path) == "Proof.antt"


def own_names():
    found = set()
    for path in files(".antt"):
        if is_walk(path):
            continue
        for line in read(path).split("\n"):
            if line.lstrip().startswith("--") or line.startswith(("use ", "mod ", "pub mod")):
                continue
            for m in [HEAD.match(line)] + list(LET.finditer(line)):
                if m and m.group(1) not in KEYWORDS and not m.group(1)[0].isupper():
                    found.add(m.group(1))
    return found


def borrowed():
    """Names that some file imports from a library: a lemma of ours may have the same."""
    ours = "|".join(os.listdir(os.path.join(ROOT, "crates")))
    found = set()
    for path in files(".antt", ".rt"):
        for m in re.finditer(r"^(?:ghost )?use ([^{;\n]*)\.\{([^}]*)\}", read(path), re.M):
            if not re.match(r"Rattle\.(" + ours + r")\b", m.group(1)):
                found.update(name.strip().split(" as ")[0] for name in m.group(2).split(","))
    return found


def renaming():
    own = own_names() - borrowed()
    by_new = collections.defaultdict(list)
    for name in sorted(own):
        by_new[snake(name)].append(name)
    to = {}
    for new, olds in by_new.items():
        for old in [old for old in olds if old != new]:
            lemma = "-" in old and any("-" not in other for other in olds if other != old)
            to[old] = new + "_lem" if lemma else new
            if new in own and "-" not in old:  # the kit's script made a lemma's name this one
                to[new] = new + "_lem"
    to["◌andThen◌"] = "◌and_then◌"
    to["andThen"] = "and_then"
    return {old: new for old, new in to.items() if old != new}


def by_token(text, to):
    return TOKEN.sub(lambda m: to.get(m.group(0), m.group(0)), text)


def in_camel(to):
    return {old: new for old, new in to.items() if re.search("[a-z0-9][A-Z]", old)}


def in_antt(text, to):
    """Code by tokens; of a comment only names in camel case, since a dash also joins words."""
    camel = in_camel(to)
    out = []
    for line in text.split("\n"):
        code, mark, comment = line.partition("--") if re.search(r"(^|\s)--(\s|$)", line) else (line, "", "")
        out.append(by_token(code, to) + mark + by_token(comment, camel))
    return "\n".join(out)


def in_rt(text, to):
    """Clauses name definitions and no lemmas."""
    camel = in_camel(to)
    out = []
    for line in text.split("\n"):
        out.append(line if '"' in line and "extern" not in line else by_token(line, camel))
    return "\n".join(out).replace("#[derive(Drop)]", "#[derive(Clone, Copy)]")


def in_page(text, to):
    return re.sub(r"`[^`\n]+`", lambda m: by_token(m.group(0), to), text)


def main():
    to = renaming()
    for path in files(".antt"):
        write(path, in_antt(read(path), to))
    for path in files(".rt"):
        write(path, in_rt(read(path), to))
    for path in files(".edit"):
        write(path, in_antt(read(path), to))
    for path in pages():
        write(path, in_page(read(path), to))


def write(path, text):
    if text != read(path):
        with open(path, "w", encoding="utf-8") as f:
            f.write(text)


if __name__ == "__main__":
    main()
