#!/usr/bin/env python3
"""names.py: prints crates/rules/proofs/Computed.antt, the list of every definition of the paper, read off crates/rules/specs.

Run it after a definition was added, removed or renamed:  tests/definitions/names.py > crates/rules/proofs/Computed.antt
"""
import pathlib
import re

SPECS = pathlib.Path(__file__).resolve().parents[2] / "crates" / "rules" / "specs"


def modules():
    """The modules of specs/, in their reading order."""
    return re.findall(r"^pub mod (\w+)$", (SPECS / "Lib.antt").read_text(), flags=re.M)


def unfoldable(module):
    """The names in a module that stay shut until they are unfolded."""
    return re.findall(r"^unfoldable pub (\S+)", (SPECS / f"{module}.antt").read_text(), flags=re.M)


def computed(crate):
    """The text of a module `computed`, with the definitions brought in through `crate`."""
    uses, names = [], []
    for module in modules():
        found = unfoldable(module)
        if found:
            uses.append(f"use {crate}.specs.{module}.{{{', '.join(found)}}}")
            names += found
    return "\n".join(
        [
            "-- A declaration that says `unfolding computed` computes with every definition of the paper. Written by tests/definitions/names.py.",
            "use mathlib.Core.List.{flatten}",
            *uses,
            "",
            "unfoldable pub computed : Unit {0}",
            "unfolding flatten " + " ".join(names),
            "computed = tt",
            "",
        ]
    )


if __name__ == "__main__":
    print(computed("Rattle.rules"), end="")
