"""Respells the names that the check makes of the code's own, in the files of proofs/ that answer goals: a name of the code keeps its underscores.

usage: python3 tools/goal_names.py            at the top of the repository, once, after respell.py
"""

import glob
import re

MADE = ["offset_bounds", "slice_bounds", "overflow_add", "overflow_sub", "overflow_mul", "overflow_cast", "overflow_step", "nonzero_div", "nonzero_rem", "in_ok", "in_err", "in_default", "type_inv", "invariant_of"]
# goals, steps of the record of facts, arms
PLACE = re.compile(r"(?<![\w'-])((?:goal|c|w|l)\.[\w-]+|(?:returns|then|else|loop|if|overflow|offset|slice|bounds|invariant|decreases)-[\w-]+)")


def main():
    for crate in sorted(glob.glob("crates/*")):
        words = set(MADE)
        for f in glob.glob(crate + "/src/**/*.rt", recursive=True):
            words |= {w for w in re.findall(r"[A-Za-z_][A-Za-z0-9_]*", open(f, encoding="utf-8").read()) if "_" in w}
        words = sorted(words, key=len, reverse=True)
        known = [(re.compile(r"(?<![a-zA-Z0-9_])" + w.replace("_", "-") + r"(?![a-zA-Z0-9_])"), w) for w in words]

        def turn(m):
            text = m[0]
            for shape, word in known:
                text = shape.sub(word, text)
            return text

        for f in glob.glob(crate + "/proofs/**/*.antt", recursive=True):
            old = open(f, encoding="utf-8").read()
            if "Goals as goal" not in old and "Given as goal" not in old:
                continue
            names = set(re.findall(r"^(?:abbrev |pub )*([\w-]+) : goal\.", old, flags=re.M))
            new = PLACE.sub(turn, old)
            for n in names:
                t = n
                for shape, word in known:
                    t = shape.sub(word, t)
                if t != n:
                    new = re.sub(r"(?<![\w'-])" + re.escape(n) + r"(?![\w'-])", t, new)
            if new != old:
                open(f, "w", encoding="utf-8").write(new)


main()
