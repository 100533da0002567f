#!/usr/bin/env python3
"""The blocks of docs/DESIGN-PASS.md: types, functions, definitions, laws and wrong builds, old and new, of some crates.

usage: design_diff.py OLD NEW CRATE ..        OLD and NEW are folders with crates/; prints the blocks
"""
import difflib, glob, os, re, sys

WIDTH = 150

def wrapped(mark, text, tail=""):
    """A line with its mark; what does not fit goes on with four spaces more."""
    indent = re.match(r" *", text)[0]
    words = text.strip().split(" ")
    lines, line = [], mark + indent
    fresh = True
    for w in words:
        if not fresh and len(line) + 1 + len(w) > WIDTH:
            lines.append(line)
            line = " " + indent + "    " if mark == " " else mark + indent + "    "
            fresh = True
        line += ("" if fresh else " ") + w
        fresh = False
    lines.append(line + tail)
    return lines

def one(text):
    text = re.sub(r"\s+", " ", text).strip()
    return text.replace("( ", "(").replace(",)", ")").replace(", )", ")").replace(" )", ")").replace(", >", ">").replace(",>", ">")

def no_comments(text):
    return "\n".join(l for l in text.split("\n") if not l.strip().startswith("//"))

# ---- src

def sources(top, crate):
    for path in sorted(glob.glob(f"{top}/crates/{crate}/src/**/*.rt", recursive=True)):
        yield path, no_comments(open(path, encoding="utf-8").read())

def module(crate, path, top):
    rest = os.path.relpath(path, f"{top}/crates/{crate}/src")[:-3]
    return crate if rest in ("lib", "main") else crate + "::" + rest.replace("/", "::")

def types(top, crate):
    out = {}
    for path, text in sources(top, crate):
        for m in re.finditer(r"(?m)^pub (struct|enum) (\w+)([^{;(]*)(\{(?:[^{}]|\{[^{}]*\})*\}|\([^;]*\);|;)", text):
            body = one(m[4]).rstrip(";")
            body = re.sub(r"\bpub (?!ghost)", "", body).replace("pub ghost", "ghost")
            body = re.sub(r",\s*\}$", " }", body)
            out[m[2]] = f"{m[1]} {m[2]}{m[3].rstrip()}" + (" " if body.startswith("{") else "") + body
        # derives are left out
    return out

def functions(top, crate):
    """name -> (module, impl, signature, clauses), for public functions and methods of public traits' impls."""
    out = {}
    for path, text in sources(top, crate):
        mod = module(crate, path, top)
        lines = text.split("\n")
        impl, n = "", 0
        while n < len(lines):
            line = lines[n]
            m = re.match(r"(impl|(?:pub )?trait)\b.*\{$", line)
            if m:
                impl = line.rstrip(" {")
            elif line == "}":
                impl = ""
            m = re.match(r"( *)(?:#\[.*\] )?((?:pub )?(?:const )?(?:unsafe )?(?:extern \"C\" )?fn) (\w+)", line)
            if m:
                base = len(m[1])
                head, clauses = [line.strip()], []
                n += 1
                if not line.rstrip().endswith(("{", ";")):
                    cur = head
                    while n < len(lines):
                        l = lines[n]
                        if re.match(rf" {{{base}}}\{{\s*$", l) or l.strip() == "{":
                            break
                        if re.match(r"\s*(requires|ensures|ghost)\b", l):
                            cur = [l.strip()]
                            clauses.append(cur)
                        else:
                            cur.append(l.strip())
                        if l.rstrip().endswith(";") and (not clauses or l.rstrip().endswith("};")):
                            break
                        n += 1
                sig = one(" ".join(head)).rstrip("{;").strip()
                cl = [one(" ".join(c)).rstrip(";") for c in clauses]
                public = sig.startswith("pub ") or impl.startswith("impl") and " for " in impl
                name = m[3]
                who = re.sub(r"^impl(<[^>]*>)? ", "", impl)
                if sig.startswith("pub ") or "extern" in sig:
                    out[(mod, who if impl else "", name)] = (re.sub(r"^pub ", "", sig), cl)
            n += 1
    return out

def function_block(old_top, new_top, crates):
    lines = []
    for crate in crates:
        old, new = functions(old_top, crate), functions(new_top, crate)
        # a function that moved to another module of the crate or into an impl is one with its name
        mods = {}
        used = set()
        by_name = {}
        for key in old:
            by_name.setdefault(key[2], []).append(key)
        for key in new:
            twin = key if key in old else None
            if twin is None:
                cands = [k for k in by_name.get(key[2], []) if k not in new and k not in used]
                twin = cands[0] if len(cands) == 1 else None
            if twin:
                used.add(twin)
            mods.setdefault((key[0], key[1]), []).append((twin, key))
        for key in old:
            if key not in used:
                mods.setdefault((key[0], key[1]), []).append((key, None))
        for (mod, impl), pairs in sorted(mods.items()):
            body = []
            for a, b in pairs:
                o = old.get(a) if a else None
                w = new.get(b) if b else None
                if o == w:
                    continue
                if w is None:
                    continue      # those that are gone are told below the blocks
                if o is None:
                    body += wrapped("+", w[0])
                    for c in w[1]:
                        body += wrapped("+", "    " + c)
                    continue
                strip = lambda c: c
                if o[0] == w[0]:
                    body += wrapped(" ", w[0])
                    body += [x for c in o[1] if c not in w[1] for x in wrapped("-", "    " + c)]
                else:
                    body += wrapped("-", o[0])
                    body += [x for c in o[1] if c not in w[1] for x in wrapped("-", "    " + c)]
                    body += wrapped("+", w[0])
                for c in w[1]:
                    body += wrapped(" " if c in o[1] else "+", "    " + c)
            if body:
                lines.append(mod)
                if impl:
                    lines.append(f"  impl {impl}" if not impl.startswith(("impl", "trait", "pub trait")) else f"  {impl}")
                lines += body
    return lines

def gone_functions(old_top, new_top, crates):
    out = []
    for crate in crates:
        old, new = functions(old_top, crate), functions(new_top, crate)
        names = {k[2] for k in new}
        for key in old:
            if key[2] not in names:
                out.append("::".join(x for x in (key[0], key[2])))
    return out

def type_block(old_top, new_top, crates):
    lines = []
    for crate in crates:
        old, new = types(old_top, crate), types(new_top, crate)
        for name in sorted(set(old) | set(new)):
            if old.get(name) == new.get(name):
                continue
            if name in old:
                lines += wrapped("-", old[name], "" if name in new else "   (gone)")
            if name in new:
                lines += wrapped("+", new[name], "" if name in old else "   (new)")
    return lines

# ---- antt

def declarations(path):
    """name -> lines of its declaration (with its `module _` parameters left out)"""
    out = {}
    lines = open(path, encoding="utf-8").read().split("\n")
    lines = [l for l in lines if not l.strip().startswith("--")]
    n = 0
    while n < len(lines):
        m = re.match(r"( *)((?:private |unfoldable |abbrev |pub )*)(record|data|mutual)?\s*([^\s:(){}]+)(.*)$", lines[n])
        l = lines[n]
        if not l.strip() or re.match(r" *(use|mod|pub mod|pub use|open|infix|module|unfolding|where|ruleset|package)\b", l):
            n += 1
            continue
        ind = len(l) - len(l.lstrip())
        head = re.match(r" *(?:(?:private|unfoldable|abbrev|pub) )*(?:(record|data) )?([^\s:(){}]+)( .*)?$", l)
        if not head:
            n += 1
            continue
        body = [l]
        n += 1
        while n < len(lines) and (not lines[n].strip() or len(lines[n]) - len(lines[n].lstrip()) > ind):
            body.append(lines[n])
            n += 1
        while body and not body[-1].strip():
            body.pop()
        name = head[2]
        key = name
        out.setdefault(key, []).extend([b[ind:] for b in body])
    return out

def antt_files(top, crate, code):
    for path in sorted(glob.glob(f"{top}/crates/{crate}/specs/**/*.antt", recursive=True)):
        rel = os.path.relpath(path, f"{top}/crates")
        is_law = "/Laws/" in rel or rel.endswith("Lib.antt") or rel.endswith("/Laws.antt") or rel.endswith("/Code.antt")
        if code != is_law:
            yield rel, path

def definition_block(old_top, new_top, crates):
    lines, gone = [], []
    for crate in crates:
        old = {rel: declarations(p) for rel, p in antt_files(old_top, crate, True)}
        new = {rel: declarations(p) for rel, p in antt_files(new_top, crate, True)}
        where_new = {n: rel for rel, ds in new.items() for n in ds}
        where_old = {n: rel for rel, ds in old.items() for n in ds}
        for rel in sorted(set(old) | set(new)):
            body = []
            names = list(dict.fromkeys(list(new.get(rel, {})) + list(old.get(rel, {}))))
            for name in sorted(names, key=lambda s: s):
                o = old.get(rel, {}).get(name)
                w = new.get(rel, {}).get(name)
                if o is None and name in where_old and w is not None and where_old[name] not in new:
                    o = old[where_old[name]][name]
                if w is None:
                    if name not in where_new:
                        body += wrapped("-", o[0].rstrip(), "   (gone)")
                    continue
                squash = lambda ls: re.sub(r"\s+", " ", " ".join(ls)).strip()
                if o is not None and squash(o) == squash(w):
                    continue
                if o is None:
                    body += ["+" + l for l in w]
                    continue
                for d in difflib.ndiff(o, w):
                    if d[0] == "?":
                        continue
                    body.append(d[0] + d[2:])
            if body:
                lines.append(rel)
                lines += body
    return lines

def statements(top, crate):
    """name -> statement, of the laws of specs/Laws and proofs/Laws"""
    out = {}
    for part in ("specs", "proofs"):
        for path in sorted(glob.glob(f"{top}/crates/{crate}/{part}/**/*.antt", recursive=True)):
            rel = os.path.relpath(path, f"{top}/crates/{crate}")
            if "/Laws/" not in rel:
                continue
            text = open(path, encoding="utf-8").read().split("\n")
            n = 0
            while n < len(text):
                l = text[n]
                m = re.match(r"( *)(?:(abbrev|unfoldable) )?pub (?:(record|data) )?([^\s:(){}]+)(.*)$", l)
                if not m or re.match(r" *pub (mod|use)\b", l) or not re.match(r".*", l):
                    n += 1
                    continue
                ind = len(m[1])
                body = [l.strip()]
                n += 1
                while n < len(text) and text[n].strip() and len(text[n]) - len(text[n].lstrip()) > ind:
                    if not text[n].strip().startswith("--"):
                        body.append(text[n].strip())
                    n += 1
                s = re.sub(r"\s+", " ", " ".join(body))
                s = re.sub(r"^(abbrev |unfoldable )?pub (record |data )?", r"\2", s)
                if not re.match(r"(record |data )?\S+( |$)", s) or ":" not in s:
                    continue
                out.setdefault(m[4], s)
    return out

def law_block(old_top, new_top, crates):
    lines, gone, fresh = [], [], []
    all_old, all_new = {}, {}
    for crate in sorted(os.listdir(f"{old_top}/crates")):
        all_old.update({n: crate for n in statements(old_top, crate)})
    for crate in sorted(os.listdir(f"{new_top}/crates")):
        all_new.update({n: crate for n in statements(new_top, crate)})
    for crate in crates:
        old, new = statements(old_top, crate), statements(new_top, crate)
        for name in sorted(set(old) & set(new)):
            squash = lambda s: re.sub(r"[\s]+", " ", s)
            if squash(old[name]) != squash(new[name]):
                lines += wrapped("-", old[name]) + wrapped("+", new[name])
        gone += [n for n in sorted(set(old) - set(new)) if n not in all_new]
        fresh += [n for n in sorted(set(new) - set(old)) if n not in all_old]
    return lines, gone, fresh

# ---- wrong builds

def blocks(top, crate):
    out = []
    for path in sorted(glob.glob(f"{top}/crates/{crate}/must-fail/*.edit")):
        for block in re.split(r"\n\s*\n", open(path, encoding="utf-8").read()):
            note = " ".join(l[1:].strip() for l in block.split("\n") if l.startswith("#"))
            fails = [l[len("fails: "):].strip() for l in block.split("\n") if l.startswith("fails: ")]
            text = "\n".join(l for l in block.split("\n") if l.startswith(("old:", "new:", "file:")))
            if text:
                out.append((note, ", ".join(fails), text))
    return out

def edit_block(old_top, new_top, crates):
    lines = []
    for crate in crates:
        old, new = blocks(old_top, crate), blocks(new_top, crate)
        body, alone, used = [], [], set()
        for note, fails, text in new:
            twin = next((i for i, o in enumerate(old) if i not in used and o[0] == note), None)
            if twin is None:
                twin = next((i for i, o in enumerate(old) if i not in used and o[1] == fails and fails and o[0] not in [b[0] for b in new]), None)
            if twin is None:
                body += wrapped(" ", f"   new, {fails}: {note}")
                continue
            used.add(twin)
            o = old[twin]
            if o[1] != fails:
                body += wrapped(" ", f"   {o[1]} → {fails}: {note}" + ("" if o[0] == note else f" (was: {o[0]})"))
            elif o[0] != note:
                body += wrapped(" ", f"   {fails}: {note} (was: {o[0]})")
            elif o[2] != text:
                alone.append(fails.split(" ")[0] or note)
        for i, o in enumerate(old):
            if i not in used:
                body += wrapped(" ", f"   NOT FOUND AGAIN {o[1]}: {o[0]}")
        if alone:
            body += wrapped(" ", "   text alone: " + ", ".join(dict.fromkeys(alone)))
        if body:
            lines.append(crate)
            lines += body
    return lines

def main():
    old, new, crates = sys.argv[1], sys.argv[2], sys.argv[3:]
    laws, gone, fresh = law_block(old, new, crates)
    for title, block in (("types", type_block(old, new, crates)), ("functions", function_block(old, new, crates)),
                         ("definitions", definition_block(old, new, crates)), ("laws", laws), ("edits", edit_block(old, new, crates))):
        print(f"==== {title}")
        print("\n".join(block))
    print("==== new laws"); print(", ".join(f"`{n}`" for n in fresh))
    print("==== gone laws"); print(", ".join(f"`{n}`" for n in gone))
    print("==== gone functions"); print(", ".join(f"`{n}`" for n in gone_functions(old, new, crates)))

if __name__ == "__main__":
    main()
