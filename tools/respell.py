#!/usr/bin/env python3
"""Brings the repository's own definitions and lemmas to one spelling: a word's parts are joined by `_`, and only types and modules have capitals.

usage: tools/respell.py          once, at the top, behind the toolchain's own port.py. It rewrites crates/**/*.antt, the clauses in crates/**/*.rt and the texts of crates/**/*.edit.
       tools/respell.py --names  prints what it would rename, old name and new

A name is the repository's own where one of its .antt files gives it a type, binds it or lists it as a field. What a file imports from a library of the kit keeps
its name there, and so does everything that Rattle itself names: goals, and the steps of a function's proof.
"""

import os
import re
import sys

KEBAB = re.compile(r"[^\W\d_][\w']*(?:-[\w']+)+")
NAME = r"[^\W\d][\w'-]*"
TOKEN = re.compile(r"(?<![\w'\u2261\u25cc-])" + NAME + r"(?![\w'\u25cc])")
KIT = re.compile(r"^\s*(?:pub )?(?:ghost )?use (?!Rattle\.)?([\w.]+)\.\{([^}]*)\}")
# A lemma that would get the name of a definition, where the lemma had that spelling before: it gets `_lem`, in the file that has both.
LEMMAS = {
    "crates/exactly/specs/LoadLaws.antt": {"by_name": "by_name_lem"},
    "crates/plan/specs/EnterLaws.antt": {"by_place": "by_place_lem"},
    "crates/nights/specs/PolicerLaws.antt": {"by_place": "by_place_lem", "kept_out": "kept_out_lem"},
}


def files(*ends):
    for folder, dirs, found in os.walk("crates"):
        dirs[:] = sorted(d for d in dirs if d != "out")
        for f in sorted(found):
            if f.endswith(ends):
                yield os.path.join(folder, f)


def read(path):
    with open(path, encoding="utf-8", newline="") as f:
        return f.read()


def snake(name):
    name = re.sub(r"([a-z0-9])([A-Z])", lambda m: m.group(1) + "_" + m.group(2), name)
    return "_".join(w if i == 0 and w[:1].isupper() else w.lower() for i, w in enumerate(re.split(r"[-_]", name))).replace("\u2032", "'")


def crates():
    return {c for c in os.listdir("crates") if os.path.isdir(os.path.join("crates", c))}


def uses(text):
    """Each import of a file: its path and the names that it takes."""
    for line in text.splitlines():
        m = re.match(r"\s*(?:pub )?(?:ghost )?use ([^\s{]+?)\.\{([^}]*)\}", line)
        if m:
            yield m.group(1), [n.split(" as ") for n in m.group(2).split(", ")]


def is_own(path, own):
    part = path.split(".")
    return part[0] == "Rattle" and len(part) > 1 and part[1] in own


def bare(text):
    """The text without its comments."""
    return "\n".join(re.sub(r"(^|\s)--(?=\s|$).*", "", l) for l in text.splitlines())


def defined(text):
    text = bare(text)
    for line in text.splitlines():
        m = re.match(r"\s*(?:(?:abbrev|unfoldable|pub|let|record|ruleset) )*((?:" + NAME + r" )*" + NAME + r") :(?: |$)(.*)", line)
        if m:
            if re.match(r"goal\.", m.group(2)):
                continue
            yield from m.group(1).split()
        m = re.match(r"\s*(?:pub )?ruleset (" + NAME + ")", line)
        if m:
            yield m.group(1)
    for m in re.finditer(r"[({]((?:" + NAME + r" )*" + NAME + r") : ", text):
        yield from m.group(1).split()
    for m in re.finditer(r"\blet (" + NAME + r") [:=]", text):
        yield m.group(1)
    for m in re.finditer(r"\u03bb ((?:" + NAME + r" )*" + NAME + r")\.", text):
        yield from m.group(1).split()


def renamed():
    own = crates()
    names = set()
    for p in files(".antt"):
        names |= set(defined(read(p)))
    out = {}
    for n in names:
        if not re.search(r"-|\u2032|^[a-z].*[A-Z]", n):
            continue
        if snake(n) != n:
            out[n] = snake(n)
    defs = {out[n] for n in out if "-" not in n} | {n for n in names if n not in out}
    for n in out:
        if "-" in n and out[n] in defs:
            out[n] += "_lem"
    return out, own


def kit_names(text, own):
    """What the file takes from a library of the kit: those names stand."""
    kept = set()
    for path, names in uses(text):
        if not is_own(path, own):
            for n in names:
                kept.add(n[-1].strip())
    return kept


def goals(text):
    return set(re.findall(r"(?m)^\s*(?:(?:abbrev|pub) )*(" + NAME + r") : goal\.", text))


def turned(text, out, kept, steps=False):
    """The text with the names that out gives. In a function's proof what stands behind a dot is a step, which goes by the function that is called."""

    def one(m):
        n = m.group(0)
        if n in kept or n not in out:
            return n
        return snake(n) if steps and text[m.start() - 1 : m.start()] == "." else out[n]

    return TOKEN.sub(one, text)


def turn_antt(path, text, out, own):
    kept = kit_names(text, own) | goals(text)
    out = out | LEMMAS.get(path, {})
    steps = "/proofs/" in path
    lines = []
    for line in text.split("\n"):
        m = re.match(r"\s*(?:pub )?use ([^\s{]+?)(?:\.\{|$| as )", line)
        if m and not is_own(m.group(1), own):
            lines.append(line)
            continue
        code, dashes, said = re.match(r"^(.*?)(?:((?:^|(?<=\s))--(?=\s|$))(.*))?$", line).groups()
        code = re.sub(r"\bgoal\." + NAME, lambda g: g.group(0).replace(".", ".\x00"), code)
        code = turned(code, out, kept, steps).replace("\x00", "")
        if said is not None:
            said = re.sub(r"`[^`]*`", lambda q: turned(q.group(0), out, kept), said)
        lines.append(code + (dashes or "") + (said or ""))
    return "\n".join(lines)


def turn_rt(text, out, own):
    """The clauses and the ghost lines of a source file; a string stays. A Rust name holds no dash and no capital behind a small letter, so what is renamed stands in ghost text."""
    kept = kit_names(text, own)
    lines = []
    for line in text.split("\n"):
        m = re.match(r"\s*ghost use ([^\s{]+?)(?:\.\{|;| as )", line)
        if m and not is_own(m.group(1), own):
            lines.append(line)
            continue
        code, said = re.match(r'^((?:"(?:[^"\\]|\\.)*"|.)*?)(//.*)?$', line).groups()
        if said is not None:
            said = re.sub(r"`[^`]*`", lambda q: turned(q.group(0), out, kept), said)
        parts = re.split(r'("(?:[^"\\]|\\.)*")', code)
        lines.append("".join(part if i % 2 else turned(part, out, kept) for i, part in enumerate(parts)) + (said or ""))
    return "\n".join(lines)


def main(argv):
    out, own = renamed()
    if argv == ["--names"]:
        for n in sorted(out):
            print(n, out[n])
        return
    for p in files(".antt", ".rt", ".edit"):
        text = read(p)
        if p.endswith(".antt"):
            new = turn_antt(p, text, out, own)
        elif p.endswith(".rt"):
            new = turn_rt(text, out, own)
        else:
            new = "\n".join(turned(l, out, set()) if re.match(r"(old|new):", l) else l for l in text.split("\n"))
        if new != text:
            with open(p, "w", encoding="utf-8", newline="") as f:
                f.write(new)


main(sys.argv[1:])
