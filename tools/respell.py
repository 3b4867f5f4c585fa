#!/usr/bin/env python3
"""Respells this repository's own definitions and lemmas: words in snake case, facts and modules in camel case.

usage: python3 tools/respell.py --anyway    at the top of the repository, once, after the kit's port.py

A name with dashes becomes snake case (`next-row` to `next_row`), or camel case where it begins with a capital
(`Keeps-records` to `KeepsRecords`). Names that a file takes from the library, and names that the checker makes
(those of goals and of steps), keep their spelling; so do Rust functions, strings, comments, inputs and outputs.
Names that fall together are listed; without --anyway nothing is written then. (What is listed here is a folder of a function's proof beside
a definition, or a field of a Rust type beside one of the rules: each is told apart by its path.)
"""

import collections
import os
import re
import sys

NAME = r"[^\s(){},;.:=\[\]|⌜⌝\"`]+"
DASHED = re.compile(r"^◌?[A-Za-z][\w']*(?:-[\w']+)+◌?$")
TOKEN = re.compile(r"[^\s(){},;.\[\]|⌜⌝\"`:]+")
HEAD = re.compile(r"^\s*(?:(?:abbrev|unfoldable|pub|infixl?|infixr|ruleset|record|data)\s+)*(" + NAME + r")(?:\s+" + NAME + r")*\s*:(?!=)")
LIBRARY = re.compile(r"^(?:ghost )?use (?:Rattle\.std\.|mathlib\.|lib\.|borrow\.|native\.|logic\.|Prim\.)[^{]*\{([^}]*)\}")
MADE = re.compile(r"^(?:ghost )?use [^{]*\.(?:Goals|Given)\.\{([^}]*)\}")


def files(ending):
    for folder, dirs, names in os.walk("crates"):
        dirs[:] = sorted(d for d in dirs if d != "out")
        for name in sorted(names):
            if name.endswith(ending):
                yield os.path.join(folder, name)


def read(path):
    with open(path, encoding="utf-8") as f:
        return f.read()


def respelled(name):
    if name[0].isupper():
        return "".join(part[:1].upper() + part[1:] for part in name.split("-"))
    return name.replace("-", "_")


def imported(text):
    """The names that a file takes from the library, and those that the checker makes."""
    library, made = set(), set()
    for line in text.splitlines():
        for found, into in ((LIBRARY.match(line), library), (MADE.match(line), made)):
            if found:
                for item in found.group(1).split(","):
                    into.update(item.split()[:1])
    return library, made


def local_names(text):
    """Names that a file gives: by `as` in an import, and by `let`."""
    return {m.group(1) for m in re.finditer(r"\b(?:as|let) ([A-Za-z][\w']*(?:-[\w']+)+)(?=[\s,}:])", text)}


def is_answer(path):
    return os.path.basename(path) in ("Answers.antt", "Invariants.antt", "Choices.antt", "Proof.antt")


def goal_names(text):
    """What a file of answers answers: its names are the checker's."""
    return {m.group(1) for m in re.finditer(r"^(?:abbrev )?(?:pub )?(\S+) : goal\.", text, re.M)}


def own_names():
    own = set()
    for path in files(".rt"):
        own |= local_names("\n".join(l for l in read(path).splitlines() if l.startswith("ghost use")))
    for path in files(".antt"):
        text = read(path)
        library, made = imported(text)
        goals = goal_names(text) if is_answer(path) else set()
        own |= local_names(text) - library - made
        for line in text.splitlines():
            code = line.split("--")[0] if line.lstrip().startswith("--") else re.split(r"\s--\s", line)[0]
            head = HEAD.match(code)
            if head and "=" not in code.split(":")[0]:
                for token in TOKEN.findall(code.split(":")[0]):
                    if DASHED.match(token) and token not in goals | library | made:
                        own.add(token)
            if not is_answer(path):
                for token in TOKEN.findall(code):
                    if DASHED.match(token) and token not in library | made:
                        own.add(token)
    return own


def turn_code(code, names, kept):
    def one(m):
        t = m.group(0)
        return respelled(t) if t in names and t not in kept else t

    return TOKEN.sub(one, code)


def turn_antt(text, own, path):
    library, made = imported(text)
    kept = library | made | (goal_names(text) if is_answer(path) else set())
    out = []
    for line in text.split("\n"):
        if line.lstrip().startswith("--"):
            out.append(line)
            continue
        parts = re.split(r"(\s--\s.*)$", line)
        out.append(turn_code(parts[0], own, kept) + "".join(parts[1:]))
    return "\n".join(out)


def turn_rt(text, own):
    library, _ = imported(text)
    out = []
    for line in text.split("\n"):
        bare = line.lstrip()
        if bare.startswith("//"):
            out.append(line)
            continue
        parts = re.split(r"(\s//\s.*)$", line)
        pieces = re.split(r'("(?:[^"\\]|\\.)*")', parts[0])
        out.append("".join(p if p.startswith('"') else turn_code(p, own, library) for p in pieces) + "".join(parts[1:]))
    return "\n".join(out)


def fall_together(own):
    """A new name that some file has already, under another spelling."""
    clashes = collections.defaultdict(list)
    for path in files(".antt"):
        text = re.sub(r"(^|\s)--\s.*", r"\1", read(path))
        tokens = set(TOKEN.findall(text))
        for old in own & tokens:
            if respelled(old) in tokens:
                clashes[old].append(path)
    back = collections.defaultdict(set)
    for old in own:
        back[respelled(old)].add(old)
    for new, olds in back.items():
        if len(olds) > 1:
            clashes[new].append(" and ".join(sorted(olds)))
    return clashes


def main():
    if not os.path.isdir("crates"):
        sys.exit("respell: run this at the top of the repository")
    own = own_names()
    clashes = fall_together(own)
    for name, places in sorted(clashes.items()):
        print(f"together: {name}: {', '.join(places[:5])}")
    if clashes and "--anyway" not in sys.argv:
        sys.exit(1)
    for path in list(files(".antt")):
        text = read(path)
        new = turn_antt(text, own, path)
        if new != text:
            with open(path, "w", encoding="utf-8") as f:
                f.write(new)
    for path in list(files(".rt")) + list(files(".edit")):
        text = read(path)
        new = turn_rt(text, own)
        if new != text:
            with open(path, "w", encoding="utf-8") as f:
                f.write(new)
    for path in list(files(".antt")):
        folder, name = os.path.split(path)
        if "-" in name:
            os.rename(path, os.path.join(folder, respelled(name[:-5]) + ".antt"))
    print(f"respell: {len(own)} names")


main()
