#!/usr/bin/env python3
"""Moves what is proved of the definitions from each crate's specs/ to its proofs/, statements unchanged.

usage: python3 tools/move_theorems.py    at the top, behind port.py and respell.py; a second run changes nothing

A must-fail edit of a definition counts only where what it breaks stands in proofs/. Moved are specs/Laws and the pages of theorems
that PAGES names; each `Rattle.CRATE.specs.PAGE` becomes `Rattle.CRATE.proofs.PAGE`, and Lib.antt declares it there."""
import os
import re

PAGES = {
    "blocks": ["SearchTheorems", "UseTheorems", "WorkedCuts", "WorkedUses"],
    "cascade": ["Theorems"],
    "decimal": ["Theorems", "Examples"],
    "demands": ["Demands", "Requests", "CheckedList"],
    "diagram": ["Theorems", "NodeBound"],
    "image": ["Theorems"],
    "lines": ["Theorems"],
    "listing": ["Theorems"],
    "numbers": ["Theorems"],
    "pairs": ["Theorems", "TableTheorems"],
    "reach": ["Theorems"],
    "report": ["Theorems"],
    "sums": ["Theorems"],
}
CRATES = sorted(name for name in os.listdir("crates") if os.path.isdir(os.path.join("crates", name)))


def pages(crate):
    return ["Laws", *PAGES.get(crate, [])]


def declared(text, page):
    """The lines that declare a page: its comment lines, where nothing else stands between, and 'pub mod PAGE'."""
    return re.search(r"((?:^--[^\n]*\n)*)^pub mod " + page + r"\n", text, re.M)


def move(crate):
    specs, proofs = f"crates/{crate}/specs", f"crates/{crate}/proofs"
    if not os.path.isfile(f"{specs}/Lib.antt"):
        return
    with open(f"{specs}/Lib.antt", encoding="utf-8") as file:
        text = file.read()
    lib = ""
    for page in pages(crate):
        if not os.path.exists(f"{specs}/{page}.antt"):
            continue
        os.makedirs(proofs, exist_ok=True)
        os.rename(f"{specs}/{page}.antt", f"{proofs}/{page}.antt")
        if os.path.isdir(f"{specs}/{page}"):
            os.rename(f"{specs}/{page}", f"{proofs}/{page}")
        at = declared(text, page)
        keep = "" if page == "Laws" or "--" not in at.group(1) or at.start() != 0 else at.group(1)
        lib += ("" if keep else at.group(1)) + f"pub mod {page}\n"
        text = text[: at.start()] + keep + text[at.end() :]
    if lib:
        with open(f"{specs}/Lib.antt", "w", encoding="utf-8") as file:
            file.write(text)
        with open(f"{proofs}/Lib.antt", "a", encoding="utf-8") as file:
            file.write(lib)


def main():
    for crate in CRATES:
        move(crate)
    names = "|".join(rf"{crate}\.specs\.{page}" for crate in CRATES for page in pages(crate))
    path = re.compile(r"\bRattle\.(" + names + r")(?![\w'])")
    for folder, below, files in os.walk("crates"):
        below[:] = [name for name in below if name != "out"]
        for name in files:
            if not name.endswith((".antt", ".rt", ".edit")):
                continue
            file_path = os.path.join(folder, name)
            with open(file_path, encoding="utf-8") as file:
                old = file.read()
            new = path.sub(lambda m: "Rattle." + m.group(1).replace(".specs.", ".proofs."), old)
            if new != old:
                with open(file_path, "w", encoding="utf-8") as file:
                    file.write(new)


main()
