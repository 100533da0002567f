#!/usr/bin/env python3
"""Counts the places of the eight points of docs/DESIGN-PASS.md in a checkout, each point in two ways.

usage: design_counts.py CHECKOUT [POINT]

CHECKOUT is a folder that has crates/*/src/*.rt. POINT is 1 to 8, or the word numbers, which prints each count
without its places; without it every count is printed with its places. Sources and proofs are read alone, and nothing
is written. Comments are blanked before anything is matched, so a place in a comment never counts.
"""
import collections
import glob
import itertools
import os
import re
import sys

Fn = collections.namedtuple("Fn", "place name generics params ret clauses body")
Type = collections.namedtuple("Type", "place kind name body derives")

# The answers that document 01 names, and the record that C lends: not counted as own forms.
PAPER = {"ReadAnswer", "ListAnswer", "RunAnswer", "WalkAnswer", "SheetAnswer", "WriteAnswer", "JobRecord"}
KEYWORDS = set(
    "if else while for in let mut return match as fn true false loop break continue move self Self".split()
)
NUMBERS = ("u8", "u16", "u32", "u64", "usize")
WORD = re.compile(r"\w+|[^\w\s]")


def read(path):
    with open(path, encoding="utf-8") as file:
        return file.read()


def sources(top):
    """The text of each source by its path below crates/, with comments blanked, so that places stay."""
    found = {}
    for path in sorted(glob.glob(f"{top}/crates/*/src/**/*.rt", recursive=True)):
        text = re.sub(r"//[^\n]*", lambda m: " " * len(m.group()), read(path))
        found[path[len(top) + 8 :]] = text
    return found


def line(text, at):
    return text.count("\n", 0, at) + 1


def close(text, at):
    """The place after the bracket that closes the one at `at`."""
    pairs, depth, i = {"(": ")", "{": "}", "[": "]"}, 0, at
    while i < len(text):
        c = text[i]
        if c in "'\"" and not (c == "'" and re.match(r"'\w+\b[^']", text[i:])):
            j = text.find(c, i + 1)
            while j > 0 and text[j - 1] == "\\":
                j = text.find(c, j + 1)
            if 0 < j and "\n" not in text[i:j]:
                i = j + 1
                continue
        if c in pairs:
            depth += 1
        elif c in pairs.values():
            depth -= 1
            if depth == 0:
                return i + 1
        i += 1
    return len(text)


HEAD = re.compile(r"\bfn (\w+)(<(?:[^()<>]|->|\([^()]*\)|<[^<>()]*>)*>)?\(")
RETURNS = re.compile(r"\s*->\s*([^{;]*?)(?=\s*(?:\brequires\b|\bensures\b|\bwhere\b|\{|;))")


def functions(texts):
    found = []
    for path, text in texts.items():
        for m in HEAD.finditer(text):
            end = close(text, m.end() - 1)
            params = " ".join(text[m.end() : end - 1].split())
            r = RETURNS.match(text[end:])
            ret = ""
            if r:
                ret, end = r.group(1).strip(), end + r.end()
            clauses = []
            while True:
                c = re.match(r"\s*(requires|ensures)\s*(\w+)?\s*\{", text[end:])
                if not c:
                    break
                stop = close(text, end + c.end() - 1)
                clauses.append((c.group(1), c.group(2) or "", text[end + c.end() : stop - 1]))
                end = stop
            b = re.match(r"\s*\{", text[end:])
            body = text[end + b.end() : close(text, end + b.end() - 1) - 1] if b else ""
            place = f"{path}:{line(text, m.start())}"
            found.append(Fn(place, m.group(1), m.group(2) or "", params, ret, clauses, body))
    return found


def types(texts):
    found = []
    pattern = r"((?:#\[[^\n]*\]\n)*)^(?:pub(?:\(crate\))? )?(enum|struct) (\w+)[^{;(\n]*([({])"
    for path, text in texts.items():
        for m in re.finditer(pattern, text, re.M):
            body = text[m.end() : close(text, m.end() - 1) - 1]
            place = f"{path}:{line(text, m.start(2))}"
            found.append(Type(place, m.group(2), m.group(3), " ".join(body.split()).rstrip(","), m.group(1)))
    return found


def variants(body):
    return [v.strip() for v in re.split(r",\s*(?![^()]*\))", body) if v.strip()]


def parameters(f):
    return [p.strip() for p in re.split(r",(?![^<(\[]*[>)\]])", f.params) if ":" in p]


class Counts:
    def __init__(self, top, quiet):
        self.top, self.quiet = top.rstrip("/"), quiet
        self.texts = sources(self.top)
        self.fns, self.types = functions(self.texts), types(self.texts)

    def show(self, title, places):
        print(f"{title}: {len(places)}")
        if not self.quiet:
            for p in places:
                print(f"    {p}")
            print()

    def say(self, text):
        print(text)

    def grep(self, pattern, where=lambda path: True):
        out = []
        for path, text in self.texts.items():
            if where(path):
                for i, l in enumerate(text.split("\n"), 1):
                    if re.search(pattern, l):
                        out.append(f"{path}:{i} {l.strip()[:110]}")
        return out

    def numbers_named(self):
        """For each file a pattern of the names by which it reads the constants of numbers.rt."""
        named = {}
        for path, text in self.texts.items():
            names = [r"numbers::[A-Z_]+"]
            for m in re.finditer(r"use taskfile::numbers::(?:\{([^}]*)\}|([A-Z_]+))", text):
                names += re.findall(r"[A-Z_]+", m.group(1) or m.group(2))
            named[path] = r"\b(?:%s)\b" % "|".join(names)
        return named

    def point1(self):
        shapes, flags = [], []
        for t in self.types:
            vs = variants(t.body)
            if t.kind == "enum" and len(vs) == 2 and any("(" in v for v in vs):
                shapes.append((t.name, f"{t.place} enum {t.name} {{ {t.body} }}"))
            if t.kind == "struct" and t.name not in PAPER:
                if re.search(r"\b(number|check|fault|good|found|stopped|due|any): ", t.body):
                    flags.append((t.name, f"{t.place} struct {t.name} {{ {t.body} }}"))
        self.show("1a enums of two variants, one with a value", [s[1] for s in shapes])
        self.show("1b structs with a flag, a number or a check beside the value", [s[1] for s in flags])
        kinds = lambda p: re.search(r"/(numbers|kinds|operations)\.rt$", p)
        self.show("1c constants for numbers, kinds and operations", self.grep(r"^pub const \w+: u\d+ =", kinds))
        self.show("1d constants for stages", self.grep(r"^\s*(pub )?const (AT_\w+|IN_\w+): u8"))
        special = r"^\s*(pub )?const (NO_\w+|WALK_HELD|WALK_STOPPED|NOTHING\w*|NONE\w*): "
        self.show("1e sentinels", self.grep(special))
        names = {s[0] for s in shapes + flags}
        self.show(
            "1 second way: functions that return a type of 1a or 1b",
            [f"{f.place} fn {f.name} -> {f.ret}" for f in self.fns if names & set(re.findall(r"\w+", f.ret))],
        )
        named, uses = self.numbers_named(), []
        for path, text in self.texts.items():
            for i, l in enumerate(text.split("\n"), 1):
                if re.search(named[path], l) and not re.match(r"\s*(pub )?(use|const) |\s*[A-Z_, ]+,$", l):
                    uses.append(f"{path}:{i} {l.strip()}")
        self.show("1 second way: lines that use a number as a constant", uses)
        found = []
        for f in self.fns:
            pattern = named[f.place.split(":")[0]] + r"|\b(?:kinds::\w+|NO_\w+|WALK_\w+)\b"
            if f.ret in NUMBERS and re.search(pattern, f.body):
                found.append(f"{f.place} fn {f.name} -> {f.ret}")
        self.show("1 second way: functions that return a number, of which some values mean something else", found)

    def alike(self, key):
        groups = collections.defaultdict(list)
        for f in self.fns:
            k = key(f)
            if k:
                groups[k].append(f"{f.place} {f.name}")
        return [" = ".join(g) for g in groups.values() if len(g) > 1]

    def point2(self):
        def shape(f):
            """The function with names turned to their order of first use, and every number to 0."""
            if len(WORD.findall(f.body)) < 12:
                return None
            out, seen = [], {}
            for t in WORD.findall(f"{f.params} -> {f.ret} {{ {f.body} }}"):
                if t in KEYWORDS or not re.match(r"\w", t):
                    out.append(t)
                else:
                    out.append("0" if re.match(r"\d", t) else str(seen.setdefault(t, len(seen))))
            return " ".join(out)

        def kinds(f):
            words = WORD.findall(f.body)
            if len(words) < 30:
                return None
            return " ".join(w if w in KEYWORDS or not re.match(r"\w", w) else "n" for w in words)

        def contract(f):
            text = re.sub(r"\s+", " ", " ".join(k + n + c for k, n, c in f.clauses))
            return re.sub(r"\b[a-z]\w*_\w+\b|\b\d+\b", "n", text)

        twins = self.alike(shape)
        self.show("2a groups of functions that differ in names, types, constants and numbers alone", twins)
        groups = collections.defaultdict(list)
        for t in self.types:
            if t.kind == "struct" and len(variants(t.body)) > 1:
                body = re.sub(r"\[(\w+); \w+\]", r"[\1]", t.body)
                groups[re.sub(r"\b[a-z]\w*(?=:)", "x", body)].append(f"{t.place} {t.name}")
        same = [" = ".join(g) for g in groups.values() if len(g) > 1]
        self.show("2b groups of structs whose fields have the same types", same)
        self.show("2 second way: groups of bodies that are the same when names are not told apart", self.alike(kinds))
        self.show("2 second way: groups of contracts that differ in definitions' names alone", self.alike(contract))

    def point3(self):
        hand, other = [], []
        for path, text in self.texts.items():
            for m in re.finditer(r"\bwhile ([^{]*)\{", text):
                body = text[m.end() : close(text, m.end() - 1) - 1]
                place = f"{path}:{line(text, m.start())} while {' '.join(m.group(1).split())}"
                tested = set(re.findall(r"\b[a-z]\w*\b", m.group(1)))
                counted = re.findall(r"\b(\w+) [+-]= 1;", body)
                (hand if tested & set(counted) else other).append(place)
        self.show("3a loops that count an index of their test by hand", hand)
        self.show("3b other `while` loops", other)
        measures = []
        pattern = re.compile(r"^(decreases-[\w-]+)(?: [gl])+ =\s*(.*)", re.M)
        for path in sorted(glob.glob(f"{self.top}/crates/*/proofs/**/Invariants.antt", recursive=True)):
            if "/+" not in path:
                for m in pattern.finditer(read(path)):
                    measures.append(f"{path[len(self.top) + 8 :]} {m.group(1)} = {m.group(2)[:60]}")
        self.show("3 second way: measures of loops in proofs/", measures)
        self.show("3 second way: lines `x += 1;` or `x -= 1;`", self.grep(r"^\s*\w+ [+-]= 1;"))

    def point4(self):
        copied = r"let (mut )?(\w+) = (?:\w+(?:\.now)?\.)+\2;"
        self.show("4a copies of a field into a local of its name", self.grep(copied))
        self.show("4b fields set from a local of their name", self.grep(r"^\s*(\w+): \1,$|[{,] (\w+): \2[ ,}]"))
        constant = re.compile(r"return (?:false|true);")
        chains = [
            f"{f.place} fn {f.name}: {len(constant.findall(f.body))} returns of a constant"
            for f in self.fns
            if f.ret == "bool" and constant.search(f.body)
        ]
        self.show("4c tests as chains of `if .. { return false; }`", chains)
        self.show("4d `if x { true } else { y }`", self.grep(r"\{ (true|false) \} else|else \{ (true|false) \}"))
        self.show("4e conversions by `as`", self.grep(r" as (u16|u32|u64|u128|usize)\b"))
        powers = r"256|65536|16777216"
        by_hand = rf"\b({powers})\b ?\*|/ ({powers})\b|% 256|<< (8|16|24)|>> (8|16|24)"
        self.show("4f bytes of wide numbers by hand", self.grep(by_hand))
        equal = [f for f in self.fns if re.search(r"same|equal|differ", f.name) and f.ret == "bool"]
        self.show("4g tests named after equality", [f"{f.place} fn {f.name}" for f in equal])
        copy = re.compile(r"while .*\{\s*(\w+)\[(\w+)\] = \w+\[[^\]]*\];\s*\w+ \+= 1;\s*\}")
        self.show("4h loops that copy elements", [f"{f.place} fn {f.name}" for f in self.fns if copy.search(f.body)])
        arms = [
            f"{f.place} fn {f.name}"
            for f in self.fns
            if f.ret in NUMBERS
            and re.search(r"match \w+ \{", f.body)
            and len(re.findall(r"=> [\w:]+,", f.body)) >= 2
        ]
        self.show("4i matches of a kind that yield a number", arms)
        joined = [
            f"{f.place} fn {f.name}({f.params}) -> {f.ret}"
            for f in self.fns
            if f.ret in ("u16", "u32", "u64") and re.search(r"u8\b", f.params) and re.search(r" as ", f.body)
        ]
        self.show("4 second way: functions of bytes or numbers to one number, by signature", joined)
        plain = [f"{t.place} {t.name}" for t in self.types if "PartialEq" not in t.derives]
        self.show("4 second way: own structs and enums without `PartialEq` in their derives", plain)
        named = self.grep(r"^\s*let \w+ = \w+(\.\w+)+;$")
        self.show("4 second way: `let x = <path>;` that only names a field", named)

    def point5(self):
        facts, general = collections.defaultdict(set), collections.defaultdict(set)
        for f in self.fns:
            names = [p.split(":")[0].replace("mut ", "").strip() for p in parameters(f)]
            own = r"\b(%s)\b" % "|".join(map(re.escape, names)) if names else r"$^"
            for kind, _, clause in f.clauses:
                for fact in conjuncts(clause):
                    facts[kind, fact].add(f.place)
                    general[kind, re.sub(own, "·", fact)].add(f.place)
        many = sorted(((len(v), k) for k, v in facts.items() if len(v) >= 3), reverse=True)
        self.show("5a facts in the contracts of three or more functions", [f"{n:3} {k[0]} {k[1]}" for n, k in many])
        sets = [(f, frozenset(re.sub(r"^mut ", "", " ".join(p.split())) for p in parameters(f))) for f in self.fns]
        groups = {a & b for (_, a), (_, b) in itertools.combinations(sets, 2) if len(a & b) >= 2}
        counted = [(sum(1 for _, ps in sets if g <= ps), g) for g in groups]
        counted = [(n, g) for n, g in counted if n >= 3]
        best = [(n, g) for n, g in counted if not any(g < h and m >= n for m, h in counted)]
        best.sort(key=lambda x: (-x[0], -len(x[1]), sorted(x[1])))
        title = "5b groups of parameters that stand together in three or more functions"
        self.show(title, [f"{n:3} {', '.join(sorted(g))}" for n, g in best])
        many = sorted(((len(v), k) for k, v in general.items() if len(v) >= 3 and "·" in k[1]), reverse=True)
        title = "5 second way: facts of 5a, with the parameters' names not told apart"
        self.show(title, [f"{n:3} {k[0]} {k[1]}" for n, k in many])
        typed = collections.Counter()
        for _, ps in sets:
            kinds = sorted(p.split(":", 1)[1].strip() for p in ps)
            if len(kinds) >= 3:
                typed[", ".join(kinds)] += 1
        lists = [f"{n:3} {k}" for k, n in typed.most_common() if n >= 3]
        self.show("5 second way: lists of parameter types that three or more functions have", lists)

    def point6(self):
        counted, parallel = [], []
        array = re.compile(r"(\w+): \[([^;\]]+); (\w+)\]")
        structs = [t for t in self.types if t.kind == "struct"]
        for t in structs:
            arrays = array.findall(t.body)
            lengths = re.findall(r"\b(count|length|tasks|locks|depth|jobs|n): (?:u8|u16|u32|u64|usize)", t.body)
            if arrays and lengths:
                names = ", ".join(a[0] for a in arrays)
                counted.append(f"{t.place} struct {t.name}: {', '.join(lengths)} beside {names}")
            for size, same in itertools.groupby(sorted(arrays, key=lambda a: a[2]), key=lambda a: a[2]):
                same = [a[0] for a in same]
                if len(same) > 1:
                    parallel.append(f"{t.place} struct {t.name}: {', '.join(same)} of {size}")
        self.show("6a structs with an array and how much of it counts", counted)
        self.show("6b parallel arrays in a struct", parallel)
        place = r"\b(room|at|from|n|length|count|size): (usize|u8|u32)"
        lent = [f for f in self.fns if re.search(r"&mut \[\w+\]", f.params) and re.search(place, f.params)]
        title = "6c functions with a buffer and its room or its place beside it"
        self.show(title, [f"{f.place} fn {f.name}({f.params})" for f in lent])
        held, size = r": &?(mut )?\[\w+; \w+\]", r"\b(count|length|n|most|end): (usize|u8|u16)"
        beside = [f for f in self.fns if re.search(held, f.params) and re.search(size, f.params)]
        title = "6d functions with an array and how much of it counts beside it"
        self.show(title, [f"{f.place} fn {f.name}({f.params})" for f in beside])
        bound = re.compile(r"\b[a-z_]+\b[^×]* ≤ length \w+\.(old|now)")
        bounds = [
            f"{f.place} fn {f.name}: {' '.join(c.split())[:90]}"
            for f in self.fns
            for k, _, c in f.clauses
            if k == "requires" and bound.search(c)
        ]
        self.show("6 second way: contracts that bound a slice's length by a number of their own", bounds)
        fields = [f"{t.place} {t.name}.{a}: [{b}; {n}]" for t in structs for a, b, n in array.findall(t.body)]
        self.show("6 second way: fields of array type", fields)

    def point7(self):
        self.show("7a `match`es, to be read by eye", self.grep(r"\bmatch \w"))
        self.show("7b tables by kind", self.grep(r"const \w+: (&)?\[[^;]+; [^\]]+\] ="))
        chains = []
        for f in self.fns:
            tests = re.findall(r"if (\w+(?:\.\w+)*) == ([A-Z][\w:]*)", f.body)
            for v, n in collections.Counter(t[0] for t in tests).items():
                if n >= 2:
                    chains.append(f"{f.place} fn {f.name}: {n} tests of {v}")
        self.show("7c chains of tests of one value against constants", chains)
        tested = r"[!=]= (operations::\w+|PICK|AT_\w+|IN_\w+)\b|(AT_\w+|IN_\w+) (<|<=) "
        self.show("7d tests of an operation or a stage against a constant", self.grep(tested))
        chosen = r": (bool|Kind|Form|Named|Site|Verdict)\b|\boperation: u8|\bstage: u8"
        kinds = [f"{f.place} fn {f.name}({f.params})" for f in self.fns if re.search(chosen, f.params)]
        self.show("7 second way: functions with a parameter that chooses what they do", kinds)
        handed = [f for f in self.fns if re.search(r"\bFn(Mut|Once)?\(", f.generics + f.params)]
        handed = [f"{f.place} fn {f.name}" for f in handed]
        self.show("7 second way: functions with a function for a parameter", handed)

    def files(self, pattern):
        found = sorted(set(glob.glob(f"{self.top}/crates/{pattern}", recursive=True)))
        return [p for p in found if "/out/" not in p]

    def point8(self):
        def lines(paths):
            return sum(read(p).count("\n") for p in paths)

        answers, invariants = self.files("*/proofs/**/Answers.antt"), self.files("*/proofs/**/Invariants.antt")
        laws = sorted(set(self.files("*/specs/**/Laws/**/*.antt") + self.files("*/proofs/**/Laws/**/*.antt")))
        own = ("Answers.antt", "Invariants.antt")
        others = [p for p in self.files("*/proofs/**/*.antt") if os.path.basename(p) not in own]
        statement = re.compile(r"^\s*pub [\w-]+ (?:\{[^}]*\} |\([^)]*\) )*:", re.M)
        stated = sum(len(statement.findall(read(p))) for p in laws)
        named = sum(len(re.findall(r"^pub ([\w-]+) : goal\.", read(p), re.M)) for p in answers)
        bodies = sum(1 for f in self.fns if f.body)
        self.say(f"8a Answers.antt: {len(answers)} files, {lines(answers)} lines")
        self.say(f"8b Invariants.antt: {len(invariants)} files, {lines(invariants)} lines")
        self.say(f"8c files of laws: {len(laws)} files, {lines(laws)} lines, {stated} public statements")
        self.say(f"8d other files of proofs/: {len(others)} files, {lines(others)} lines")
        self.say(f"8 second way, by goals: {named} answers")
        functions = len({os.path.dirname(p) for p in answers})
        self.say(f"8 second way, by functions: {functions} functions with answers, of {bodies} with a body")
        if not self.quiet:
            by = collections.Counter(p[len(self.top) + 8 :].split("/")[0] for p in answers)
            self.say("    by crate: " + ", ".join(f"{c} {n}" for c, n in sorted(by.items())))


def conjuncts(clause):
    """The parts of a clause that `×` joins, those in brackets too."""
    parts, depth, now = [], 0, ""
    for c in clause:
        depth += c in "([{"
        depth -= c in ")]}"
        if c == "×" and depth == 0:
            parts.append(now)
            now = ""
        else:
            now += c
    parts.append(now)
    out = []
    for p in parts:
        p = " ".join(p.split())
        while p.startswith("(") and close(p, 0) == len(p):
            p = p[1:-1].strip()
            if "×" in p:
                out += conjuncts(p)
                p = ""
        if p:
            out.append(p)
    return out


def main():
    if len(sys.argv) not in (2, 3):
        sys.exit(__doc__)
    wanted = sys.argv[2] if len(sys.argv) == 3 else None
    counts = Counts(sys.argv[1], wanted == "numbers")
    for n in range(1, 9):
        if wanted in (None, "numbers", str(n)):
            getattr(counts, f"point{n}")()


main()
