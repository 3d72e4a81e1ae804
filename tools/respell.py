#!/usr/bin/env python3
"""Brings the repository's own names to one spelling: definitions, fields and lemmas in snake case, where a dash joins two names only.

usage: python3 tools/respell.py      at the top, once, on a tree in today's form

What it does, by spelling alone:
- A name that begins small and has a capital, as `stringsIn`, becomes `strings_in`, wherever clauses, specs/, proofs/ and must-fail
  edits have it, in comments and in the code words of pages too. Names that the libraries give are left.
- A name that a file of specs/ or proofs/ declares and that has a dash keeps it between two names, as `length-splice`, and has `_`
  before a plain word, as `moved_low`.
- A lemma that would get the name of the definition that it is about, as `goes_on` beside `goesOn`, gets `_lem`, where it is declared
  and where it is imported from there.
- A header's row is called `source_hash_row`, since a parameter is called `source_hash`.
- The crates `sha1` and `unicode` are called as libraries of the kit are: they become `sha1_hash` and `utf`.
Where two names would fall together, the first of them stays as it was, and a line says so.
"""
import collections
import os
import re
import sys

OTHERWISE = {"sourceHash": "source_hash_row"}
CRATES = {"sha1": "sha1_hash", "unicode": "utf"}
CAMEL = re.compile(r"(?<![\w'.«\"/-])([a-z][a-z0-9_']*[A-Z][A-Za-z0-9_']*)")
CAMEL_PART = re.compile(r"(?<![\w'])([a-z](?!n_[PT])[a-z0-9_']*[A-Z][A-Za-z0-9_']*)")
TOKEN = re.compile(r"[^\s(){}.;,@\"«»`]+")
DECLARED = re.compile(r"^\s*(?:pub |abbrev |unfoldable |mutual )*([^\s(){}.;,@\"«»]+) : ?", re.M)
DECLARED_END = re.compile(r"^\s*(?:pub |abbrev |unfoldable |mutual )*([^\s(){}.;,@\"«»]+) :$", re.M)
MARKED = re.compile(r"^(?:pub )?(?:abbrev |unfoldable )(?:pub )?([^\s(){}.;,@\"«»]+) :", re.M)
USE = re.compile(r"\buse ([A-Za-z_][\w.+-]*)\.\{([^}]*)\}")


def files(kinds):
    for top in ("crates",):
        for folder, folders, names in os.walk(top):
            folders[:] = [f for f in folders if f != "out"]
            for name in names:
                if name.endswith(kinds):
                    yield os.path.join(folder, name)


def snake(word):
    word = re.sub(r"([a-z0-9'])([A-Z])", r"\1_\2", word)
    return re.sub(r"([A-Z])([A-Z][a-z])", r"\1_\2", word).lower()


def read(path):
    with open(path, encoding="utf-8") as f:
        return f.read()


def main():
    texts = {p: read(p) for p in files((".antt", ".rt", ".edit"))}
    own = {c for c in os.listdir("crates") if os.path.isdir(os.path.join("crates", c))}
    library = set()
    tokens = set()
    declared = collections.Counter()
    functions = set()
    for path, text in texts.items():
        tokens.update(TOKEN.findall(text))
        tokens.update(re.findall(r"[\w']+", text))
        for m in USE.finditer(text):
            parts = m.group(1).split(".")
            if parts[0] == "Rattle" and len(parts) > 1 and parts[1] in own:
                continue
            for name in m.group(2).split(","):
                library.add(name.strip().split(" as ")[0].strip())
        if path.endswith(".antt") and not path.endswith(("/Proof.antt",)):
            for m in DECLARED.finditer(text):
                declared[m.group(1)] += 1
            for m in DECLARED_END.finditer(text):
                declared[m.group(1)] += 1
    # names in capitals' form
    camel = {}
    for t in sorted(tokens):
        for m in CAMEL_PART.finditer(t):
            w = m.group(1)
            if w in library or w in camel:
                continue
            camel[w] = OTHERWISE.get(w, snake(w))
    taken = collections.defaultdict(list)
    for w, s in camel.items():
        taken[s].append(w)
    for s, ws in taken.items():
        if len(ws) > 1:
            print(f"falls together: {ws} -> {s}")
            for w in ws[1:]:
                del camel[w]
        elif s in tokens:
            where = [p for p, t in texts.items() if re.search(r"(?<![\w'])%s(?![\w'])" % re.escape(s), t)
                     and re.search(r"(?<![\w'])%s(?![\w'])" % re.escape(ws[0]), t)]
            print(f"stands already: {ws[0]} -> {s} in {len(where)} files with both: {where[:4]}")
    # names with dashes
    plain = set()
    for path, text in texts.items():
        if "/specs/" in path:
            plain.update(m.group(1) for m in MARKED.finditer(text) if "-" not in m.group(1))
    names = {camel.get(w, w) for w in plain} | {w for w in library if "-" not in w} | {"zero", "suc", "eq", "le", "lt"}
    names = {n for n in names if n and len(n) > 1 and not n[0].isupper()}

    # lemmas that have a definition's new name, by file
    lemmas = collections.defaultdict(set)
    for path, text in texts.items():
        if not path.endswith(".antt") or "/specs/" in path:
            continue
        here = {m.group(1) for d in (DECLARED, DECLARED_END) for m in d.finditer(text)}
        for w, s in camel.items():
            if s in here and re.search(r"(?<![\w'.])%s(?![\w'])" % w, text):
                lemmas[path].add(s)
                module = re.compile(r"\.%s\.\{[^}]*(?<![\w'-])%s(?![\w'-])" % (os.path.basename(path)[:-5], s))
                for other, u in texts.items():
                    if other.endswith(".antt") and module.search(u):
                        lemmas[other].add(s)
    for path, ss in sorted(lemmas.items()):
        print(f"lemmas of a definition's name: {path}: {' '.join(sorted(ss))}")

    def joined(w):
        parts = [camel.get(p, p) for p in w.split("-")]
        out = parts[0]
        for a, b in zip(parts, parts[1:]):
            out += ("-" if a in names and b in names else "_") + b
        return out

    dashed = {}
    new = collections.defaultdict(list)
    for w in declared:
        if "-" in w and w.strip("-") and not any(not p for p in w.split("-")) and w not in library:
            new[joined(w)].append(w)
    given = set(camel.values())
    for n in [n for n in new if n in given]:
        # the definition's name, that the lemma is about
        new[n + "_lem"] += new.pop(n)
    for n, ws in new.items():
        if len(ws) > 1 or n in tokens and n != ws[0]:
            print(f"falls together: {ws} -> {n}")
            for w in ws:
                dashed[w] = "-".join(camel.get(p, p) for p in w.split("-"))
        else:
            dashed[ws[0]] = n

    def word(t):
        if t in library:
            return t
        if t in dashed:
            return dashed[t]
        return CAMEL_PART.sub(lambda m: camel.get(m.group(1), m.group(1)), t)

    def code(text):
        return TOKEN.sub(lambda m: word(m.group(0)), text)

    def comment(text):
        text = re.sub(r"`([^`\n]*)`", lambda m: "`" + code(m.group(1)) + "`", text)
        return CAMEL.sub(lambda m: camel.get(m.group(1), m.group(1)), text)

    def crates(text, path):
        for old, to in CRATES.items():
            text = re.sub(r"\bRattle\.%s\." % old, "Rattle.%s." % to, text)
            if path.endswith((".rt", ".edit")):
                text = re.sub(r"(?<![\w:.\"/])%s::" % old, to + "::", text)
                text = re.sub(r"(\buse )%s;" % old, r"\1%s;" % to, text)
        return text

    def line(l, path):
        mark = "//" if path.endswith((".rt", ".edit")) else "--"
        if path.endswith(".edit") and l.startswith("file:"):
            return l
        at = l.find(mark) if mark == "//" else re.search(r"(?:^|\s)-- ", l)
        if mark == "--":
            at = at.start() if at else (0 if l.startswith("--") else -1)
        if path.endswith(".edit") and "//" not in l:
            m = re.search(r"(?:^|\s)-- ", l)
            at = m.start() if m else -1
        front, back = (l, "") if at < 0 else (l[:at], l[at:])
        if path.endswith((".rt", ".edit")):
            # strings stay as they are
            front = "".join(x if i % 2 else code(x) for i, x in enumerate(re.split(r"""(b?"(?:[^"\\]|\\.)*"|b?'(?:[^'\\]|\\[^'\s]+|\\')')""", front)))
        else:
            front = code(front)
        return front + comment(back)

    changed = 0
    for path, text in sorted(texts.items()):
        for s in lemmas.get(path, ()):
            text = re.sub(r"(?<![\w'.-])%s(?![\w'-])" % s, s + "_lem", text)
        t = "\n".join(line(l, path) for l in text.split("\n"))
        t = crates(t, path)
        if t != texts[path]:
            changed += 1
            with open(path, "w", encoding="utf-8") as f:
                f.write(t)
    # pages: code words only
    for top in ("README.md", "docs"):
        walk = [top] if os.path.isfile(top) else [os.path.join(a, f) for a, _, fs in os.walk(top) for f in fs if f.endswith(".md")]
        for path in walk:
            text = read(path)
            t = re.sub(r"`([^`\n]*)`", lambda m: "`" + code(m.group(1)) + "`", text)
            if t != text:
                changed += 1
                with open(path, "w", encoding="utf-8") as f:
                    f.write(t)
    text = read("crates.txt")
    t = text
    for old, to in CRATES.items():
        t = re.sub(r"(?m)^([^#\n]*)$", lambda m: re.sub(r"\b%s\b" % old, to, m.group(1)), t)
    t = "\n".join(l if l.startswith("#") else l for l in t.split("\n"))
    if t != text:
        with open("crates.txt", "w", encoding="utf-8") as f:
            f.write(t)
    for old, to in CRATES.items():
        if os.path.isdir(f"crates/{old}"):
            os.rename(f"crates/{old}", f"crates/{to}")
    print(f"respell: {len(camel)} names with capitals, {sum(1 for a, b in dashed.items() if a != b)} with dashes, {changed} files")
    if "--list" in sys.argv:
        for a, b in sorted(dashed.items()):
            print("dash", a, b)
        for a, b in sorted(camel.items()):
            print("camel", a, b)


main()
