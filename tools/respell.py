#!/usr/bin/env python3
"""Gives the repository's own definitions and lemmas the spelling of the kit's: words in snake case, a dash only where a
lemma's name begins with the name of the function that it is about.

usage: tools/respell.py          at the top: turns every .rt and .antt file below crates/, and prints what was renamed
       tools/respell.py names    prints the renamings alone

columnsTurned is columns_turned, own-rows is own_rows, and the lemma columnsTurned-length is columns_turned-length. A lemma
that would have the name of a function gets _lem. Types and modules stay in upper camel case, and names of src/ as they are.
"""
import glob
import re
import sys

SIGNATURE = re.compile(r"^(\s*)((?:abbrev |unfoldable |pub )*)(record |data )?(?:pub )?([^\s:(){};,=λ]+)((?:\s*(?:\(|\{).*)?)\s*:(?:\s|$)(.*)")
TOKEN = re.compile(r"[^\s(){}\[\];,.:\"`]+")
CAMEL = re.compile(r"^[a-zα-ω][^-]*?[a-z0-9][A-Z]")


def files(kinds):
    found = []
    for kind in kinds:
        found += glob.glob("crates/*/specs/**/*" + kind, recursive=True) + glob.glob("crates/*/proofs/**/*" + kind, recursive=True)
        found += glob.glob("crates/*/src/**/*" + kind, recursive=True)
    return sorted(found)


def declared():
    """The names that specs/ and proofs/ declare: functions (abbrev, unfoldable and fields), and the others, lemmas."""
    functions, lemmas = set(), set()
    for path in files([".antt"]):
        with open(path) as f:
            for line in f:
                m = SIGNATURE.match(line)
                if not m or line.lstrip().startswith("--"):
                    continue
                mods, kind, name, rest = m.group(2), m.group(3), m.group(4), m.group(6)
                if kind or name[0].isupper() or not name[0].isalpha():
                    continue
                if path.endswith("/Proof.antt") and re.search(r"\btie\.|\bstatement\b", rest):
                    continue  # a goal, which the kit names
                if "abbrev" in mods or "unfoldable" in mods:
                    functions.add(name)
                else:
                    lemmas.add(name)
    return functions, lemmas - functions


def snake(word):
    word = re.sub(r"([a-z0-9])([A-Z])", lambda m: m.group(1) + "_" + m.group(2).lower(), word)
    return word


def renamings():
    functions, lemmas = declared()
    new = {}
    for name in functions:
        new[name] = snake(name).replace("-", "_")
    taken = set(new.values())
    known = set(functions) | {"length"}
    for name in sorted(lemmas):
        words = name.split("-")
        if words[0] == "" or any(w == "" for w in words):
            continue
        joined = 0  # how many words are the name of a function
        for n in range(len(words) - 1, 0, -1):
            head = "-".join(words[:n])
            if head in known or snake(head).replace("-", "_") in taken:
                joined = n
                break
        if joined:
            to = snake("_".join(words[:joined])) + "-" + snake("_".join(words[joined:]))
        else:
            to = snake("_".join(words))
        if to in taken and to != name and "-" not in to:
            to += "_lem"
        new[name] = to
    return {a: b for a, b in new.items() if a != b}


def turn_code(text, names):
    return TOKEN.sub(lambda m: names.get(m.group(0), m.group(0)), text)


def turn_words(text, names):
    """Plain words: names between backquotes, and others only where they have a capital inside."""
    parts = re.split(r"(`[^`]*`)", text)
    for i, part in enumerate(parts):
        if i % 2:
            parts[i] = turn_code(part, names)
        else:
            parts[i] = TOKEN.sub(lambda m: names.get(m.group(0), m.group(0)) if CAMEL.match(m.group(0)) else m.group(0), part)
    return "".join(parts)


def turn_line(line, mark, names):
    if mark == "//":  # a string of the code's stays as it is
        parts = re.split(r'("(?:[^"\\]|\\.)*")', line)
        if len(parts) > 1:
            return "".join(p if i % 2 else turn_line(p, mark, names) for i, p in enumerate(parts))
    at = line.find(mark)
    if at < 0:
        return turn_code(line, names)
    if mark == "--" and at and not line[at - 1].isspace():
        return turn_code(line, names)
    return turn_code(line[:at], names) + turn_words(line[at:], names)


def main(argv):
    names = renamings()
    for a in sorted(names):
        print(a, names[a])
    if argv == ["names"]:
        return
    for path in files([".antt", ".rt"]):
        with open(path) as f:
            text = f.read()
        mark = "//" if path.endswith(".rt") else "--"
        turned = "\n".join(turn_line(line, mark, names) for line in text.split("\n"))
        if turned != text:
            with open(path, "w") as f:
                f.write(turned)


main(sys.argv[1:])
