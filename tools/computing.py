#!/usr/bin/env python3
"""Write crates/paper/specs/Computing.antt: one definition whose `unfolding` line names every unfoldable definition that a worked example needs."""
import re

HEAD = """-- Everything that a worked example computes with: a theorem that says `unfolding computing` sees through all of it.
-- Written by tools/computing.py. Assumes nothing.
use Rattle.std.specs.Prelude.{ℕ}
use Rattle.std.specs.Float.Ieee as Ieee
"""
FLOATS = ("add", "sub", "mul", "div", "of_int")
MEANING = "crates/paper/specs/"
FOLDS = "crates/whole/specs/"
COSINE = "crates/num_cosine/specs/"
LAWS = ("Apart", "Classes", "Computing", "Examples", "Cases", "Kept", "Total", "Places", "One")


def opened(path):
    """The unfoldable definitions of a file."""
    return re.findall(r"^ *unfoldable pub (\S+) :", open(path).read(), re.M)


def main():
    modules = [(name, FOLDS, "Rattle.whole.specs.") for name in ("Turns", "Lists", "Rounding", "Mixing")]
    modules += [(name, COSINE, "Rattle.num_cosine.specs.") for name in ("Quarter", "Cosine")]
    for line in open(MEANING + "Lib.antt"):
        name = line.split()[2]
        if name not in LAWS:
            modules.append((name, MEANING, "Rattle.paper.specs."))
    uses, names = [], []
    for name, folder, crate in modules:
        found = opened(folder + name + ".antt")
        if found:
            uses.append(f"use {crate}{name} as {name}")
            names += [f"{name}.{one}" for one in found]
    names += ["Ieee." + one for one in FLOATS]
    body = ["", "unfoldable pub computing : ℕ", "unfolding " + " ".join(names), "computing = 0", ""]
    with open(MEANING + "Computing.antt", "w") as out:
        out.write(HEAD + "\n".join(uses + body))


main()
