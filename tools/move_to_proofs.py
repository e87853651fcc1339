#!/usr/bin/env python3
"""Moves files of laws and of worked examples from a crate's specs/ to its proofs/, and turns what cites them.

usage: tools/move_to_proofs.py CRATE MODULE..     at the top of the repository, as `protocol Laws.Kept Laws.Step Worked`

A module goes with the modules below it; one that is left without any goes too.
"""

import os
import re
import subprocess
import sys


def sources():
    for folder, dirs, names in os.walk("crates"):
        dirs[:] = [d for d in dirs if d != "out"]
        for name in names:
            if name.endswith((".antt", ".rt", ".edit")):
                yield os.path.join(folder, name)


def read(path):
    with open(path, encoding="utf-8") as f:
        return f.read()


def write(path, text):
    os.makedirs(os.path.dirname(path), exist_ok=True)
    with open(path, "w", encoding="utf-8") as f:
        f.write(text)


def parent(folder, module):
    """The file that declares a module."""
    above = module.rpartition(".")[0]
    return f"{folder}/{above.replace('.', '/')}.antt" if above else f"{folder}/Lib.antt"


def declare(crate, module):
    top = f"crates/{crate}"
    old, new = parent(f"{top}/specs", module), parent(f"{top}/proofs", module)
    name = module.rpartition(".")[2]
    write(old, re.sub(rf"^pub mod {name}\n", "", read(old), flags=re.M))
    if not os.path.isfile(new):
        head = read(old).split("\n")[0] if "." in module else "-- The laws of the definitions that wrong definitions are refused by."
        write(new, head + "\n")
        if "." in module:
            declare_in(f"{top}/proofs", module.rpartition(".")[0])
    declare_in(f"{top}/proofs", module)


def declare_in(folder, module):
    path, line = parent(folder, module), f"pub mod {module.rpartition('.')[2]}\n"
    if not os.path.isfile(path):
        write(path, "-- The laws of the definitions that wrong definitions are refused by.\n")
    if line not in read(path):
        write(path, read(path).rstrip("\n") + "\n" + line)


def move(crate, module):
    top, path = f"crates/{crate}", module.replace(".", "/")
    for name in (f"{path}.antt", path):
        if os.path.exists(f"{top}/specs/{name}"):
            os.makedirs(os.path.dirname(f"{top}/proofs/{name}"), exist_ok=True)
            subprocess.run(["git", "mv", f"{top}/specs/{name}", f"{top}/proofs/{name}"], check=True)
    declare(crate, module)


def main(argv):
    crate, modules = argv[0], argv[1:]
    for module in modules:
        move(crate, module)
    cited = re.compile(rf"\bRattle\.{crate}\.specs\.({'|'.join(m.replace('.', chr(92) + '.') for m in modules)})\b")
    for path in sources():
        text = read(path)
        if cited.search(text):
            write(path, cited.sub(rf"Rattle.{crate}.proofs.\1", text))


if __name__ == "__main__":
    main(sys.argv[1:])
