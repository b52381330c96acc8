#!/usr/bin/env python3
"""Brings the repository's own names of definitions and lemmas to the spelling of today's Rattle, once, after its port.py.

usage: tools/respell.py        at the top of the repository: rewrites specs/, proofs/, clauses, edits and pages in place
       tools/respell.py --list prints each old and new name, and changes nothing

Functions, lemmas, constructors, fields and variables are in snake case, types and facts in camel case. Names of ours join plain
words, so each dash in them becomes '_'. A lemma that would have its function's name gets `_lem`. Names that the prover makes are
left alone.
"""
import glob
import re
import sys

DEFINED = re.compile(r"^\s*(?:abbrev\s+|unfoldable\s+)?(?:pub\s+)?(?:data\s+|record\s+|ruleset\s+)?([^\s:(){}\[\].,;λ|\"]+)(?:\s+[({].*)?\s+:(?:\s|$)")
MADE = re.compile(r"^([^\s:]+)\s*:\s*(?:\(c : )?tie\.")
CAMEL = re.compile(r"^[a-z][A-Za-z0-9_]*[A-Z][A-Za-z0-9_]*'*$")
TOKEN = re.compile(r"[^\s(){}\[\].,;:«»|\"`]+")
# where two names would become one, or where the plain rule gives a reserved word
CHOSEN = {"in-ram": "in_ram", "in-rom": "in_rom", "bit-and": "bit_and_lem", "bit-xor": "bit_xor_lem", "goesLeft": "leftward"}
DEFINITIONS = set()


def read(path):
    with open(path, encoding="utf-8") as f:
        return f.read()


def files(*patterns):
    return sorted({p for q in patterns for p in glob.glob(q, recursive=True) if "/out/" not in p})


def imported_from_outside(texts):
    """Names that a file takes from the prover's library: they are not ours to spell."""
    found = set()
    for text in texts.values():
        for head, names in re.findall(r"^(?:ghost )?use ((?!Rattle\.)\S+?)\.\{([^}]*)\}", text, re.M):
            found.update(re.split(r"[\s,]+", names))
        for names in re.findall(r"^(?:ghost )?use Rattle\.std\.\S+?\.\{([^}]*)\}", text, re.M):
            found.update(re.split(r"[\s,]+", names))
    return found


def snake(name):
    name = re.sub(r"(?<=[a-z0-9])(?=[A-Z])|(?<=[A-Z])(?=[A-Z][a-z])", "_", name)
    return name.lower()


def names():
    antt = {p: read(p) for p in files("crates/*/specs/**/*.antt", "crates/*/proofs/**/*.antt")}
    rt = {p: read(p) for p in files("crates/*/src/**/*.rt")}
    outside = imported_from_outside({**antt, **rt})
    defined, fields, specified, variables = {}, set(), set(), set()
    for path, text in antt.items():
        made = set(m.group(1) for m in map(MADE.match, text.splitlines()) if m)
        record = False
        shared = "/specs/" in path or path.count("/") == 3
        for line in text.splitlines():
            if line.lstrip().startswith("--"):
                continue
            if re.match(r"\s*(pub )?record ", line):
                record = True
            elif not re.match(r"\s+pub ", line):
                record = False
            m = DEFINED.match(line)
            if m and m.group(1) not in made:
                name = m.group(1)
                defined.setdefault(name, set()).add(path)
                if record and not re.match(r"\s*(pub )?record ", line):
                    fields.add(name)
                if "/specs/" in path:
                    specified.add(name)
            if shared:
                for m in TOKEN.finditer(line):
                    if CAMEL.match(m.group(0)) and line[m.start() - 1:m.start()] != ".":
                        variables.add(m.group(0))
    new = {}
    plain = {snake(n) for n in specified if n[0].islower()}
    for name in sorted(set(defined) | variables):
        if name in outside or not re.match(r"[A-Za-z∷]", name) or name[0].isupper() and "-" not in name:
            continue
        to = re.sub(r"-(?=.)", "_", name)
        to = snake(to) if name[0].islower() else to
        lemma = name in defined and name not in specified
        if lemma and to in plain and not name.endswith("spec") and any(p.count("/") == 3 for p in defined[name]):
            to += "_lem"
        to = CHOSEN.get(name, to)
        if to != name:
            new[name] = to
    return new, fields, antt, rt, outside


def shown(text):
    """The definition `result` of a call's end has the name of what a clause calls the returned value: it becomes `result_of`."""
    if not re.search(r"Many\.(\{[^}]*\bresult\b|result\b)|^abbrev pub result :", text, re.M):
        return text
    return re.sub(r"(?:(?<=Many\.)|(?<![\w.-]))result(?![\w-])", "result_of", text)


def respell(text, new, fields, keep):
    """Each whole name that `new` has; one behind a dot only in a path of modules, or where it is a field of ours."""
    def one(m):
        name = m.group(0)
        if name not in new or name in keep:
            return name
        if text[m.start() - 1:m.start()] == ".":
            before = re.search(r"[^\s(){}\[\],;:|\"`.]*$", text[:m.start() - 1]).group(0)
            if not (before[:1].isupper() or before in aliases or name in fields):
                return name
        return new[name]

    aliases = set(re.findall(r"\bas ([A-Za-z_][\w-]*)", text))
    return TOKEN.sub(one, text)


def earlier(text):
    """Names in a page that port.py respelled already in the definitions."""
    return {t: snake(t) for t in TOKEN.findall(text) if CAMEL.match(t) and snake(t) in DEFINITIONS}


def main():
    new, fields, antt, rt, outside = names()
    for text in antt.values():
        DEFINITIONS.update(m.group(1) for m in map(DEFINED.match, text.splitlines()) if m)
    if sys.argv[1:] == ["--list"]:
        for old, to in new.items():
            print(old, to)
    taken = {}
    alone = set()
    for text in antt.values():
        alone.update(TOKEN.findall(text))
    for old, to in new.items():
        taken.setdefault(to, set()).add(old)
        if to in alone:
            taken[to].add(to)
    for to, olds in sorted(taken.items()):
        if len(olds) > 1:
            where = {o: [p for p, t in antt.items() if o in TOKEN.findall(t)] for o in olds}
            shared = set.intersection(*(set(w) for w in where.values()))
            print("fall together:" if shared else "same name, in other files:", to, sorted(olds), sorted(shared)[:3], file=sys.stderr)
    if sys.argv[1:]:
        return
    clauses = {old: to for old, to in new.items() if not re.fullmatch(r"[a-z0-9_']+", old)}
    for path, text in {**antt, **rt}.items():
        made = set(m.group(1) for m in map(MADE.match, text.splitlines()) if m)
        out = shown(respell(text, new if path in antt else clauses, fields, made))
        if out != text:
            with open(path, "w", encoding="utf-8") as f:
                f.write(out)
    for path in files("crates/*/must-fail/*.edit", "README.md", "docs/*.md", "docs/landings/*.md", "outside/*.md", "images/*.md"):
        text = read(path)
        if path.endswith(".edit"):
            out = respell(text, clauses if "file: src/" in text else new, fields, set())
        else:
            out = re.sub(r"`[^`\n]*`", lambda m: respell(m.group(0), {**earlier(m.group(0)), **clauses}, fields, set()), text)
        if out != text:
            with open(path, "w", encoding="utf-8") as f:
                f.write(out)


main()
