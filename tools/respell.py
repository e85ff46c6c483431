#!/usr/bin/env python3
"""Brings the desk's own words to snake case, as the port asks: `readUp` becomes `read_up`, `be-bytesOf` becomes `be-bytes_of`.

usage: python3 tools/respell.py    at the top of the repository, once, after the kit's port.py

Types, modules and the book's names for packets (`x53_00000006`) keep their spelling, and so does every function of src/: none of them is
in camel case.
"""
import glob
import re

# A law that would have the name of what it speaks of gets `_lem`: the law's old name here, and the files that say it.
LAWS = {
    "in_place": ("held/proofs/Hangs", "held/proofs/Holds", "session/proofs/Genuine"),
    "cut_all": ("log/proofs/Many",),
    "range_at": ("session/proofs/Telling", "flat_session/proofs/Standing"),
    "by_number": ("soup/proofs/Together",),
    "so_far": ("ufo_compose/proofs/Adding", "flat_compose/proofs/Refusing", "flat_compose/proofs/unfit_behind/Proof"),
}
WORD = re.compile(r"(?<![\w'◌])[a-z◌][\w'◌-]*")
HEX = re.compile(r"x[0-9A-F]+(_[0-9A-F]+)*$")
HUMP = re.compile(r"([a-z0-9])([A-Z])")


def snake(match):
    word = match.group()
    if HEX.match(word) or "·" in word:
        return word
    return HUMP.sub(lambda hump: hump.group(1) + "_" + hump.group(2).lower(), word)


for form in ("crates/*/specs/**/*.antt", "crates/*/proofs/**/*.antt", "crates/*/src/**/*.rt"):
    for name in sorted(glob.glob(form, recursive=True)):
        with open(name, encoding="utf-8") as file:
            text = file.read()
        turned = text
        for law, places in LAWS.items():
            if any(name == f"crates/{place}.antt" for place in places):
                turned = re.sub(rf"(?<![\w'◌.-]){law}(?![\w'◌-])", law + "_lem", turned)
        turned = WORD.sub(snake, turned)
        if turned != text:
            with open(name, "w", encoding="utf-8") as file:
                file.write(turned)
