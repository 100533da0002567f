#!/usr/bin/env python3
"""Respells this repository's own definitions and lemmas in snake case, once, after port.py: turnAmong is turn_among,
noneOf-passed is none_of_passed. Where a definition and a lemma would fall together, the lemma gets _lem.

usage: python3 tools/respell.py            at the top of the repository
Names of Rust functions, exported names, strings, inputs and outputs stay; so do names of libraries.
"""

import collections
import os
import re

NAME = r"[^\s(){}.;,@\"«»\[\]`]+"
QUIET = re.compile(r'"(?:[^"\\\n]|\\.)*"|(?<![^\s(){}.;,@"«»])--[^\n]*|\{-.*?-\}', re.S)
DECLARED = re.compile(r"(?m)^ *(?:(?:pub|abbrev|unfoldable|private) )*(" + NAME + r")(?: \{[^{}\n]*\})* :(?=\s)")
USE = re.compile(r"\buse ([^\s;{]+)(\{[^;]*?\}(?=;|[ \t]*$))?(?: as ([^\s;]+))?", re.M)
# A word of a text: behind a dot it is a field or a name in a module.
WORD = re.compile(r"(?<![^\s(){};,@\"«»\[\]`.])" + NAME)
OF_LIBRARY = re.compile(r"Rattle\.(std|core|io|libc|os)\b")
# Files that walk the code, where a dashed name behind a dot is one that Rattle makes.
BY_HAND = "/Proof.antt"


def is_odd(name):
    return bool(re.match(r"[a-z_]", name) and (re.search(r"[a-z0-9][A-Z]", name) or "-" in name))


def in_snake_case(name):
    name = name.replace("getD", "get_or")
    return re.sub(r"(?<=[a-z0-9])[A-Z]", lambda m: "_" + m[0].lower(), name).replace("-", "_")


def files(*endings):
    for folder, dirs, names in os.walk("crates"):
        dirs[:] = sorted(d for d in dirs if d != "out")
        for name in sorted(names):
            if name.endswith(endings):
                yield os.path.join(folder, name)


def read(path):
    with open(path, encoding="utf-8") as f:
        return f.read()


# What of a Rust text a clause may name: the clauses themselves, the imports for them, and parameters and fields.
CLAUSE = re.compile(
    r"(?:requires|ensures)\s*\*?\s*(?:\w+\s*)?\{(?:[^{}]|\{[^{}]*\})*\}|ghost\s*\{(?:[^{}]|\{[^{}]*\})*\}|ghost use [^;]*;|\b\w+\s*:(?!:)"
)


def of_clauses(path, code):
    if not path.endswith(".rt"):
        return code
    return " ".join(m[0].rstrip(":") if not m[0].startswith(("req", "ens", "ghost")) else m[0] for m in CLAUSE.finditer(code))


def library_names(code):
    """The names that a text brings in from a library."""
    found = set()
    for path, items, _ in USE.findall(code):
        if not path.startswith("Rattle.") or OF_LIBRARY.match(path):
            for item in re.findall(NAME + r"(?: as " + NAME + ")?", items.strip("{}")):
                found.add(item.split(" as ")[-1])
    return found


# Lemmas that port.py spelled like a definition of camel case, since a library has a word of their spelling.
LEMMAS = (
    "first_guess in_order line_read moved_by count_at none_within not_last one_more store_word turn_step".split()
)


def table():
    """Each old name with its new one, and the names that each file brings in from a library."""
    declared, words, lent = set(), {}, {}
    for path in files(".antt", ".rt"):
        code = QUIET.sub(" ", read(path))
        lent[path] = library_names(code)
        if not path.endswith(BY_HAND):
            declared.update(DECLARED.findall(code) if path.endswith(".antt") else ())
            words[path] = set(WORD.findall(of_clauses(path, code)))
    odd = {n for n in declared if is_odd(n)}
    new = {n: n + "_lem" for n in LEMMAS}
    spelled = lambda n: new.get(n, n)
    # Definitions first: their names are in camel case. A lemma, whose name has dashes, gives way.
    for n in sorted(odd, key=lambda n: ("-" in n, n)):
        to = in_snake_case(n)
        held = {spelled(m) for m in declared if not is_odd(m)} | {new[m] for m in odd if m in new}
        near = {spelled(m) for w in words.values() if n in w for m in w if not is_odd(m)}
        if to in near or to in held:
            to += "_lem" if "-" in n else "_of"
        assert to not in near and to not in held, (n, to)
        new[n] = to
    return new, lent


def turned(code, new, skip, path):
    by_hand = path.endswith(BY_HAND)

    def one(m):
        old = m[0]
        if old not in new or old in skip:
            return old
        if old in LEMMAS and not path.endswith(".antt"):
            return old
        behind_dot = m.start() > 0 and code[m.start() - 1] == "."
        if by_hand and behind_dot and ("-" in old or old in LEMMAS):
            return old
        return new[old]

    return WORD.sub(one, code)


def main():
    new, lent = table()
    strings = re.compile(r'"(?:[^"\\\n]|\\.)*"')
    for path in files(".antt", ".rt", ".edit"):
        text = read(path)
        skip = lent.get(path, set())
        parts, at = [], 0
        for m in strings.finditer(text):
            parts += [turned(text[at : m.start()], new, skip, path), m[0]]
            at = m.end()
        parts.append(turned(text[at:], new, skip, path))
        after = "".join(parts)
        if after != text:
            with open(path, "w", encoding="utf-8") as f:
                f.write(after)
    for old, to in sorted(new.items()):
        print(f"{old}\t{to}")


main()
