#!/usr/bin/env python3
"""Respells names that Rattle makes, in the proof files of functions: a name from the source keeps its underscores in them.

usage: python3 tools/goal_names.py NAME..      at the top of the repository: for each crate NAME

Where an older file says `returns-then-is-letter` or `c.name-end.result`, today's says `returns-then-is_letter` and `c.name_end.result`. The identifiers are
those of the sources of the repository, with an underscore in them, and the words that Rattle makes names of. It goes by text: each word with a dash in it is turned, a local
name or a lemma too, but for lines that import from the library.
"""
import os
import re
import sys

WORDS = "in_err in_ok in_default overflow_add overflow_sub overflow_mul overflow_cast overflow_shl overflow_shr overflow_step nonzero_div nonzero_rem slice_bounds offset_bounds invariant_of from_residual yielded_by copy_from_slice is_empty is_ok is_err is_some is_none to_be_bytes saturating_add wrapping_add checked_add split_at".split()


def identifiers():
    out = set(WORDS)
    for top, dirs, names in os.walk("crates"):
        if os.sep + "src" in top:
            for n in names:
                if n.endswith(".rt"):
                    with open(os.path.join(top, n), encoding="utf-8") as f:
                        out.update(re.findall(r"\b[a-z][a-z0-9]*(?:_[a-z0-9]+)+\b", f.read()))
    return out


def main(crates):
    ids = sorted(identifiers(), key=lambda s: -len(s))
    dashed = [(re.compile(r"(?:(?<=[-.\s(])|^)" + re.escape(i.replace("_", "-")) + r"(?=[-.\s);,:}]|$)"), i) for i in ids]
    token = re.compile(r"[A-Za-z][A-Za-z0-9_'.]*(?:-[A-Za-z0-9_'.]+)+")
    for c in crates:
        for top, dirs, names in os.walk(os.path.join("crates", c, "proofs")):
            if len(top.split(os.sep)) < 4:
                continue
            for n in sorted(names):
                if not n.endswith(".antt"):
                    continue
                path = os.path.join(top, n)
                with open(path, encoding="utf-8") as f:
                    old = f.read()
                out = []
                for line in old.split("\n"):
                    if line.startswith("--"):
                        out.append(line)
                        continue
                    if line.startswith("use Rattle.std"):
                        out.append(line)
                        continue

                    def turn(m):
                        t = m.group(0)
                        for r, i in dashed:
                            t = r.sub(i, t)
                        return t

                    out.append(token.sub(turn, line))
                new = "\n".join(out)
                if new != old:
                    with open(path, "w", encoding="utf-8") as f:
                        f.write(new)
                    print(path)


if __name__ == "__main__":
    main(sys.argv[1:])
