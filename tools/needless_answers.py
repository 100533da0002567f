#!/usr/bin/env python3
"""Drops the answers of a crate that the check finds without their text.

usage: needless_answers.py CRATE ..      at the top, with these crates and those below them proved
"""
import os, re, subprocess, sys

def check(folder):
    ran = subprocess.run(["rt", "check"], cwd=folder, stdin=subprocess.DEVNULL, capture_output=True, text=True, errors="replace")
    return ran.returncode, ran.stdout + ran.stderr

def blocks(text):
    """The text as a list of (name or None, lines): a declaration with the comments and blank lines above it."""
    lines = text.split("\n")
    starts = []
    for n, line in enumerate(lines):
        m = re.match(r"(?:pub |abbrev pub |abbrev |unfoldable pub |unfoldable )?([^\s:()]+)\s*:\s", line)
        if m and not line.startswith(("use ", "--", " ", "unfolding")):
            k = n
            while k > 0 and lines[k - 1].startswith("--"):
                k -= 1
            starts.append((k, m[1], line))
    if not starts:
        return [(None, lines)]
    out = [(None, lines[: starts[0][0]])]
    for (k, name, line), nxt in zip(starts, starts[1:] + [(len(lines), None, None)]):
        goal = name if re.match(r"pub \S+\s*:\s*goal\.", line) else None
        out.append((goal, lines[k : nxt[0]]))
    return out

def files_of(folder):
    for at, _, names in os.walk(f"{folder}/proofs"):
        if "Answers.antt" in names:
            yield f"{at}/Answers.antt"

def main(crate):
    folder = f"crates/{crate}"
    code, log = check(folder)
    if code:
        print(f"{crate}: does not prove as it stands"); return
    kept = {p: open(p, encoding="utf-8").read() for p in files_of(folder)}
    if not kept:
        print(f"{crate}: no answers"); return
    for p in kept:
        os.remove(p)
    _, log = check(folder)
    open_goals = {}
    for m in re.finditer(r"note: `([^`]+)` of (?:\./)?proofs/(\S+)/Answers\.antt must prove", log):
        open_goals.setdefault(m[2], set()).add(m[1])
    unproved = set(re.findall(r"expected answers in \./proofs/(\S+)/Answers\.antt", log))
    dropped, before = 0, 0
    def write(p, keep_all):
        nonlocal dropped
        place = os.path.relpath(os.path.dirname(p), f"{folder}/proofs")
        parts = blocks(kept[p])
        goals = [n for n, _ in parts if n]
        wanted = open_goals.get(place, set())
        if keep_all or (place in unproved and not wanted):
            new = kept[p]
        elif place not in unproved:
            new = ""
        else:
            new = "\n".join("\n".join(ls) for n, ls in parts if n is None or n in wanted)
        if new.strip():
            os.makedirs(os.path.dirname(p), exist_ok=True)
            open(p, "w", encoding="utf-8").write(new.rstrip("\n") + "\n")
        elif os.path.exists(p):
            os.remove(p)
    for p in kept:
        write(p, False)
    code, log = check(folder)
    rounds = 0
    while code and rounds < 3:
        bad = set(re.findall(r"(?:^|\s)(?:\./)?proofs/(\S+)/Answers\.antt", log))
        if not bad:
            break
        for p in kept:
            place = os.path.relpath(os.path.dirname(p), f"{folder}/proofs")
            if place in bad:
                write(p, True)
        code, log = check(folder)
        rounds += 1
    if code:
        for p, text in kept.items():
            os.makedirs(os.path.dirname(p), exist_ok=True)
            open(p, "w", encoding="utf-8").write(text)
        print(f"{crate}: put back"); return
    subprocess.run(["rt", "check", "--fix-imports"], cwd=folder, stdin=subprocess.DEVNULL, capture_output=True)
    code, log = check(folder)
    if code:
        for p, text in kept.items():
            os.makedirs(os.path.dirname(p), exist_ok=True)
            open(p, "w", encoding="utf-8").write(text)
        print(f"{crate}: put back after the imports"); return
    total = sum(len([1 for n, _ in blocks(t) if n]) for t in kept.values())
    left = sum(len([1 for n, _ in blocks(open(p, encoding='utf-8').read()) if n]) for p in files_of(folder))
    print(f"{crate}: {total} answers tried, {total - left} dropped, {left} stay")

for c in sys.argv[1:]:
    main(c)
