#!/usr/bin/env python3
"""Brings the repository's own definitions, laws, fields and constructors to snake case.

usage: tools/snake_names.py          at the top of the repository: rewrites crates/, docs/ and README.md in place
       tools/snake_names.py --names  prints each old name and its new one, and changes nothing

An own name is one that a file of crates/*/specs or a lemma file of crates/*/proofs declares or binds: `columnsOf` becomes `columns_of`,
and `walk-on` becomes `walk_on`; a law with a definition's name gets `_lem`. Names of src/, types, modules and what the check makes keep theirs. In a comment, in an edit's remark and on a
page, a name is turned only where it stands between backquotes. It stops where two names would fall together in one file.
"""

import os
import re
import sys

WORD = r"[^\W\d][\w'₀-₉]*(?:-[\w'₀-₉]+)*"
TOKEN = re.compile(r"(?<![\w'\-])" + WORD)
NAMES = re.compile(r"^\s*(?:(?:abbrev|unfoldable|pub|data|record)\s+)*((?:" + WORD + r"\s+)*?" + WORD + r")\s*(?:\{[^}]*\}\s*|\([^)]*\)\s*)*(?::|where\b)")
FOREIGN = re.compile(r"^\s*(?:pub |unfoldable |ghost )*use (?!Rattle\.)([\w.]+)|^\s*(?:pub |unfoldable |ghost )*use (Rattle\.(?:std|core)\b[\w.]*)")
# Names that would fall together with another one in a file that has both.
APART = {"ofPair": "is_of_pair", "sameRank": "is_same_rank", "oneMore": "one_message_more", "pair_fits": "pair_fits_lem", "in_pieces": "of_pieces"}
KEYWORDS = {"abbrev", "unfoldable", "pub", "data", "record", "open", "module", "use", "let", "in", "where", "mod", "elim", "unfolding", "unfold"}


def files(root, endings):
    for folder, dirs, names in os.walk(root):
        dirs[:] = sorted(d for d in dirs if d not in ("out", "target", ".git"))
        for name in sorted(names):
            if name.endswith(endings):
                yield os.path.join(folder, name)


def read(path):
    with open(path, encoding="utf-8") as f:
        return f.read()


def is_lemma_file(path):
    parts = path.split(os.sep)
    return "specs" in parts or ("proofs" in parts and len(parts) - parts.index("proofs") == 2)


def snake(name):
    name = re.sub(r"(?<=[a-z0-9])(?=[A-Z][a-z])", "_", name)
    name = re.sub(r"_[A-Z](?=[a-z])", lambda m: m.group(0).lower(), name)
    return name.replace("-", "_")


def local_names(text):
    """What a file has with a dash or in camel case, and imports from nowhere else: its declarations, and what they bind."""
    code = "\n".join(line.split("-- ")[0] for line in text.split("\n"))
    found = set(re.findall(r"(?<![\w'\-.◌])" + WORD + r"(?![\w.'\-◌])", code))
    return {n for n in found if snake(n) != n and n[0].islower()} - foreign_names(text)


def own_names():
    found = set()
    for path in files("crates", ".antt"):
        if not is_lemma_file(path):
            continue
        text = read(path)
        for line in text.split("\n"):
            m = NAMES.match(line.split("-- ")[0])
            if m:
                found |= set(m.group(1).split()) - KEYWORDS
        if "Lending" not in path:
            found |= local_names(text)
    names = {n: snake(n) for n in found if snake(n) != n and (n[0].islower() or "-" in n)}
    words = {new for old, new in names.items() if "-" not in old}
    laws = {old: new + "_lem" for old, new in names.items() if "-" in old and new in words}
    return names | laws | {old: new for old, new in APART.items() if old in found or "_" in old}


def foreign_names(text):
    """What a file imports from elsewhere, and keeps its spelling there."""
    found = set()
    for line in re.sub(r"\{\s*\n[^}]*\}", lambda m: m.group(0).replace("\n", " "), text).split("\n"):
        if FOREIGN.match(line) and "{" in line:
            found |= set(re.findall(WORD, line.split("{", 1)[1]))
    return found


def turn(text, names):
    return TOKEN.sub(lambda m: names.get(m.group(0), m.group(0)), text)


def turn_quoted(text, names):
    return re.sub(r"`[^`\n]+`", lambda m: turn(m.group(0), names), text)


def turn_antt(text, names):
    out = []
    for line in text.split("\n"):
        code, dash, remark = line.partition("--") if re.search(r"(^|\s)--(\s|$)", line) else (line, "", "")
        out.append(turn(code, names) + dash + turn_quoted(remark, names))
    return "\n".join(out)


def turn_rt(text, names):
    out = []
    for line in text.split("\n"):
        code, slashes, remark = line.partition("//")
        out.append(turn(code, names) + slashes + turn_quoted(remark, names))
    return "\n".join(out)


def turn_edit(text, names):
    lines = text.split("\n")
    return "\n".join(turn(l, names) if re.match(r"(old|new):", l) else turn_quoted(l, names) for l in lines)


def together(path, text, names):
    tokens = set(re.findall(r"(?<![\w'\-.])" + WORD, text))
    return [f"{path}: {t} and {names[t]}" for t in sorted(tokens) if t in names and names[t] in tokens - set(names)]


def main(argv):
    names = own_names()
    if argv == ["--names"]:
        for old, new in sorted(names.items()):
            print(old, new)
        return 0
    turns = [("crates", ".antt", turn_antt), ("crates", ".rt", turn_rt), ("crates", ".edit", turn_edit), ("docs", ".md", turn_quoted)]
    new, clashes = {}, []
    for root, ending, how in turns:
        for path in files(root, ending):
            text = read(path)
            mine = {o: n for o, n in names.items() if o not in foreign_names(text)} if ending in (".antt", ".rt") else names
            clashes += together(path, text, mine) if ending == ".antt" and is_lemma_file(path) else []
            new[path] = how(text, mine)
    new["README.md"] = turn_quoted(read("README.md"), names)
    if clashes:
        print("\n".join(clashes))
        return 1
    for path, text in new.items():
        if text != read(path):
            with open(path, "w", encoding="utf-8") as f:
                f.write(text)
    return 0


if __name__ == "__main__":
    raise SystemExit(main(sys.argv[1:]))
