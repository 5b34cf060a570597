#!/usr/bin/env python3
"""Respells the repository's own definitions and lemmas: words in snake case, types and facts in camel case.

usage: python3 tools/respell.py        at the top of the repository, once, right after the kit's port.py

It reads which names specs/ and proofs/ define at the left edge, with the record fields and constructors below them, and turns each
that has a dash between its letters: `state-of` to `state_of`, `Is-node` to `IsNode`. Of the names that stand further in, as those of a module, it sees only
some: look for the others by hand. Names of goals, which Rattle makes, are left alone, and so are names that a file of specs/ or proofs/ takes from the library. In src/ contracts,
ghost members, imports of ghost names and backticks in comments are touched. In comments a name is turned where it stands in backticks or in the first column of a table. A name that
would have the name of a function of its crate gets `_lem` after it. What it says with 'look:' or 'falls together:' is to be looked at.
"""
import os
import re
import sys

WORD = r"[^\s(){}\[\];.,⌜⌝«»`\"|@]+"
TOKEN = re.compile(WORD)
DASHED = re.compile(r"^[A-Za-z][A-Za-z0-9_'ᴰ]*(-[A-Za-z0-9_'ᴰ]+)+$")
DEFINES = re.compile(r"^(?:unfoldable |abbrev )?(?:pub )?(?:abbrev |unfoldable )?(?:(?:record|data|ruleset)\s+)?(" + WORD + r")\s*(?=[:({=]|where\b|$)")
INNER = re.compile(r"^\s+(?:pub )?(" + WORD + r")\s+:\s")
GOAL = re.compile(r":\s*goal\.")


def files(ending, folders):
    for top, dirs, names in os.walk("crates"):
        dirs[:] = sorted(d for d in dirs if d != "out")
        parts = top.split(os.sep)
        if len(parts) < 3 or parts[2] not in folders:
            continue
        for n in sorted(names):
            if n.endswith(ending):
                yield os.path.join(top, n)


def read(path):
    with open(path, encoding="utf-8") as f:
        return f.read()


def is_lemma_file(path):
    parts = path.split(os.sep)
    return parts[2] == "specs" or (parts[2] == "proofs" and len(parts) == 4)


def defined():
    """The repository's own dashed names, and the names that are goals."""
    own, goals = {}, set()
    for path in files(".antt", ("specs", "proofs")):
        lines = read(path).split("\n")
        block = None
        for i, line in enumerate(lines):
            if line.startswith("--") or line.startswith("use ") or line.startswith("pub mod") or line.startswith("mod "):
                continue
            if line and not line[0].isspace() and line[0] not in "})":
                block = line
            m = DEFINES.match(line)
            if m and DASHED.match(m.group(1)):
                name = m.group(1)
                if GOAL.search(line) or (i + 1 < len(lines) and GOAL.search(lines[i + 1])):
                    goals.add(name)
                elif re.search(r"(^|\s):(\s|$)", line) or re.match(r"(?:pub )?(record|data)\b|(?:abbrev )?pub (record|data)\b", line):
                    own.setdefault(name, set()).add(path)
            # fields of a record and constructors of a datatype
            m = INNER.match(line)
            if m and block and re.match(r"(?:pub )?(record|data)\b", block) and DASHED.match(m.group(1)):
                own.setdefault(m.group(1), set()).add(path)
            # lemmas with local parts
            if m and block and not re.match(r"(?:pub )?(record|data)\b", block) and DASHED.match(m.group(1)) and "where" in "\n".join(lines[max(0, i - 40):i]):
                own.setdefault(m.group(1), set()).add(path)
    return own, goals


def turned(name):
    parts = name.split("-")
    if name[0].isupper():
        return "".join(p[0].upper() + p[1:] for p in parts)
    return "_".join(parts)


IMPORT = re.compile(r"(?ms)^(?:ghost )?(?:pub )?use (Rattle\.std|mathlib|Prim|lib|denote)[^{};\n]*\{(.*?)\}")


def functions():
    """The names of the functions of each crate, and of the folders of their proofs."""
    out = {}
    for path in files(".rt", ("src",)):
        out.setdefault(path.split(os.sep)[1], set()).update(re.findall(r"\bfn (\w+)", read(path)))
    for path in files(".antt", ("proofs",)):
        parts = path.split(os.sep)
        out.setdefault(parts[1], set()).update(p.lstrip("+") for p in parts[3:-1])
    return out


def taken(text):
    """The names that a file takes from the library."""
    out = set()
    for m in IMPORT.finditer(text):
        for item in m.group(2).replace("\n", " ").split(","):
            words = item.split()
            if words:
                out.add(words[-1])
    return out


def turn(text, names):
    return TOKEN.sub(lambda m: names.get(m.group(0), m.group(0)), text)


def comment(text, names):
    text = re.sub(r"`([^`]*)`", lambda m: "`" + turn(m.group(1), names) + "`", text)
    m = re.match(r"^(-- \| )([^|]*)(\|.*)$", text)
    if m:
        cell = turn(m.group(2), names)
        cell += " " * (len(m.group(2)) - len(cell))
        text = m.group(1) + cell + m.group(3)
    return text


def turn_antt(text, names):
    out = []
    for line in text.split("\n"):
        m = re.match(r"^(.*?)(\s*--(?:\s.*)?)$", line)
        if line.lstrip().startswith("--"):
            out.append(comment(line, names))
        elif m and (" -- " in line):
            at = line.index(" -- ")
            out.append(turn(line[:at], names) + comment(line[at:], names))
        else:
            out.append(turn(line, names))
    return "\n".join(out)


CLAUSE = re.compile(r"^\s*(ghost\b|requires\b|ensures\b|invariant\b|#!?\[tactic)")


def turn_rt(text, names):
    """Contracts, ghost members and ghost imports, with the lines that they run over."""
    out, depth, inside = [], 0, False
    for line in text.split("\n"):
        if line.lstrip().startswith("//"):
            out.append(re.sub(r"`([^`]*)`", lambda m: "`" + turn(m.group(1), names) + "`", line))
            continue
        if inside or CLAUSE.match(line):
            out.append(turn(line, names))
            depth += line.count("{") - line.count("}")
            inside = depth > 0
            if not inside:
                depth = 0
        else:
            out.append(line)
    return "\n".join(out)


def main():
    if not os.path.isdir("crates"):
        sys.exit("respell: run it at the top of the repository")
    own, goals = defined()
    names = {n: turned(n) for n in own if n not in goals}
    fns = functions()
    for n in names:
        if any(names[n] in fns.get(p.split(os.sep)[1], ()) for p in own[n]):
            names[n] += "_lem"
    every = {}
    for path in list(files(".antt", ("specs", "proofs"))) + list(files(".rt", ("src",))):
        for t in set(TOKEN.findall(read(path))):
            every.setdefault(t, set()).add(path)
    for n in sorted(own):
        if n in goals:
            print(f"look: {n} names a goal too, and stays: {sorted(own[n])}")
    new = {}
    for n, t in sorted(names.items()):
        if t in new:
            print(f"falls together: {n} and {new[t]} to {t}")
        new[t] = n
        both = every.get(t, set()) & every.get(n, set())
        if both:
            print(f"look: {t} is in use already where {n} is: {sorted(both)}")
    changed = 0
    for path in files(".antt", ("specs", "proofs")):
        text = read(path)
        here = {n: t for n, t in names.items() if n not in taken(text) or path in own[n]}
        done = turn_antt(text, here)
        if done != text:
            changed += 1
            with open(path, "w", encoding="utf-8") as f:
                f.write(done)
    for path in files(".rt", ("src",)):
        text = read(path)
        done = turn_rt(text, names)
        if done != text:
            changed += 1
            with open(path, "w", encoding="utf-8") as f:
                f.write(done)
    print(f"respell: {len(names)} names, {changed} files")


if __name__ == "__main__":
    main()
