#!/usr/bin/env python3
"""Brings the repository's own names in specs/, proofs/, clauses and must-fail edits to one spelling.

usage: python3 tools/respell.py [--check]

Run once at the top, after the kit's port script. Functions, lemmas, fields and constructors are in snake case (`digitCount` and `digit-count` become
`digit_count`), types and modules stay in camel case. Names of src/ (functions, parameters, fields), strings, inputs and outputs keep their spelling.
A file's names are those that it declares and those that it takes from the repository's crates; a name of the kit keeps its spelling. Where two names of
the repository would fall together, the lemma gets `_lem`. The pages of docs/ and README.md follow for the names that stand in backticks.
With --check it prints what would change and writes nothing.
"""
import glob
import re
import sys

# A declaration of antt: its names stand before ' :'.
DECLARED = re.compile(r"^(\s*)((?:pub |abbrev |unfoldable |data |record )*)([^\s():{}=|]+(?: [^\s():{}=|]+)*) :(?= |$)")
RECORD = re.compile(r"^(?:pub )?(?:record|data) ([^\s():{}]+)")
NAME = re.compile(r"[A-Za-z0-9_'\u2080-\u2089\u03b1-\u03c9\u2192\u2115\u2124-]+")
IMPORT = re.compile(r"^(?:pub )?(?:ghost )?use ([^\s{]+?)(?:\.\{([^}]*)\})?(?: as (\S+?))?;?$")
# Names that would fall together with others and are no lemmas.
NAMED = {"in-range": "is_in_range"}
RESERVED = set("use mod pub open data record where module abbrev unfoldable unfolding ghost requires ensures".split())


def snake(name):
    """The new spelling of a name that is no type and no module."""
    name = name.replace("getD", "get_or")
    head = re.match(r"[^A-Za-z]*", name)[0]
    body = name[len(head):]
    if not body or body[0].isupper():
        return head + body.replace("-", "_")
    body = re.sub(r"(?<=[a-z0-9])([A-Z])", lambda m: "_" + m[1].lower(), body)
    body = re.sub(r"([A-Z])", lambda m: m[1].lower(), body)
    return head + body.replace("-", "_")


def crates():
    return [line.split(":")[0].split()[0] for line in open("crates.txt", encoding="utf-8") if line.strip() and not line.startswith("#")]


def antt_files():
    return sorted(glob.glob("crates/*/specs/*.antt") + glob.glob("crates/*/proofs/**/*.antt", recursive=True))


def module_of(path):
    """Rattle.crate.specs.File, of a file."""
    parts = path[len("crates/"):-len(".antt")].split("/")
    return ".".join(["Rattle", *parts])


def declared(text):
    names, public = set(), set()
    for line in text.split("\n"):
        m = DECLARED.match(line)
        if m:
            each = [n for n in m[3].split() if n not in RESERVED]
            names.update(each)
            if not m[1] or "pub " in m[2]:
                public.update(each)
    return names, public


def fields_of(text):
    """Fields of records and constructors of data types: the indented declarations below such a head."""
    found, inside = set(), False
    for line in text.split("\n"):
        if line and not line[0].isspace():
            inside = bool(RECORD.match(line))
            continue
        m = DECLARED.match(line)
        if inside and m:
            found.update(n for n in m[3].split() if n not in RESERVED)
    return found


def imports(text, own):
    """The names that a file takes from the repository's crates, and those that it takes from elsewhere."""
    ours, others = set(), set()
    for line in text.split("\n"):
        m = IMPORT.match(line.strip())
        if not m:
            continue
        path, names = m[1], m[2]
        is_own = path.startswith("Rattle.") and path.split(".")[1] in own
        for n in (names or "").split(","):
            n = n.strip()
            if n:
                (ours if is_own else others).update(n.split(" as "))
    return ours, others


def main():
    check = "--check" in sys.argv[1:]
    own = set(crates())
    texts = {p: open(p, encoding="utf-8").read() for p in antt_files()}
    files = {p: declared(t) for p, t in texts.items()}
    fields = set()
    for t in texts.values():
        fields |= fields_of(t)
    exported = {module_of(p): pub for p, (_, pub) in files.items()}
    # Where a definition and a lemma would fall together, the lemma, which has dashes, gives way.
    everywhere = set().union(*(pub for p, (_, pub) in files.items() if not p.endswith("/Proof.antt")))
    in_specs = set().union(*(pub for p, (_, pub) in files.items() if "/specs/" in p))
    by_new = {}
    for n in everywhere:
        by_new.setdefault(snake(n), set()).add(n)
    table = {}
    for new, olds in by_new.items():
        keep = sorted(olds & in_specs or olds, key=lambda n: ("-" in n, n))
        for n in olds:
            table[n] = new if n == keep[0] else NAMED.get(n, new + "_lem")
        if len(olds) > 1:
            print(f"fall together: {sorted(olds)} -> {sorted({table[n] for n in olds})}")

    def turned(text, names, skip, mine):
        def one(m):
            n = m[0]
            if n in mine:
                return mine[n]
            camel = re.fullmatch(r"[a-z]+(?:[A-Z][a-z0-9]*)+", n)
            if n in skip or n not in names and not camel:
                return n
            return table.get(n, snake(n))

        out = []
        for line in text.split("\n"):
            code, dashes, comment = line.partition("--") if re.match(r"\s*--", line) else (line, "", "")
            m = IMPORT.match(code.strip())
            if m and code.strip().startswith(("use", "pub use", "ghost use")):
                at = code.find("{")
                code = code if at < 0 else code[:at] + NAME.sub(one, code[at:])
            else:
                code = NAME.sub(one, code)
            if dashes:
                comment = NAME.sub(lambda m: one(m) if re.search(r"[a-z][A-Z]", m[0]) else m[0], comment)
                comment = re.sub(r"`([^`]*)`", lambda m: "`" + NAME.sub(one, m[1]) + "`", comment)
            out.append(code + dashes + comment)
        return "\n".join(out)

    changed = 0
    scope = {}
    for p, t in texts.items():
        ours, others = imports(t, own)
        scope[p] = (files[p][0] | ours | fields, others - files[p][0])
        # In one file too, the lemma of its own gives way.
        seen, mine = {}, {}
        for n in files[p][0] | ours:
            seen.setdefault(table.get(n, snake(n)), set()).add(n)
        for new, olds in seen.items():
            for n in olds if len(olds) > 1 else ():
                if "-" in n and not p.endswith("/Proof.antt"):
                    mine[n] = new + "_lem"
                    print(f"fall together in {p}: {sorted(olds)}, {n} -> {mine[n]}")
        new = turned(t, *scope[p], mine)
        if new != t:
            changed += 1
            if not check:
                open(p, "w", encoding="utf-8").write(new)
    for p in sorted(glob.glob("crates/*/src/**/*.rt", recursive=True)):
        t = open(p, encoding="utf-8").read()
        ours, others = imports(t, own)
        new = turned_source(t, ours | fields, others, table)
        scope[p] = (ours | fields, others)
        if new != t:
            changed += 1
            if not check:
                open(p, "w", encoding="utf-8").write(new)
    for p in sorted(glob.glob("crates/*/must-fail/*.edit")):
        t = open(p, encoding="utf-8").read()
        new, target = [], None
        for line in t.split("\n"):
            m = re.match(r"(file|old|new): ?(.*)", line)
            if m and m[1] == "file":
                target = p.split("/must-fail/")[0] + "/" + m[2].strip()
            elif m and target in scope:
                names, skip = scope[target]
                line = m[1] + ": " + NAME.sub(lambda k: table.get(k[0], snake(k[0])) if k[0] in names and k[0] not in skip and (target.endswith(".antt") or re.search(r"[a-z][A-Z]", k[0])) else k[0], m[2]) if m[2] else line
            new.append(line)
        if "\n".join(new) != t:
            changed += 1
            if not check:
                open(p, "w", encoding="utf-8").write("\n".join(new))
    pages = sorted(glob.glob("docs/**/*.md", recursive=True)) + ["README.md"]
    for p in pages:
        t = open(p, encoding="utf-8").read()
        one = lambda m: table.get(m[0], m[0]) if m[0] in everywhere else m[0]
        new = re.sub(r"`([^`\n]*)`", lambda m: "`" + NAME.sub(one, m[1]) + "`", t)
        if new != t:
            changed += 1
            if not check:
                open(p, "w", encoding="utf-8").write(new)
    print(f"{changed} files {'would change' if check else 'changed'}")


def turned_source(text, names, skip, table):
    """A source file: the imports of ghost names, and the clauses between a signature and its body."""

    def one(m):
        n = m[0]
        return table.get(n, snake(n)) if n in names and n not in skip and re.search(r"[a-z][A-Z]", n) and not n[0].isupper() else n

    out = []
    for line in text.split("\n"):
        stripped = line.strip()
        if stripped.startswith("//"):
            line = re.sub(r"`([^`]*)`", lambda m: "`" + NAME.sub(one, m[1]) + "`", line)
            line = NAME.sub(one, line)
        elif stripped.startswith("ghost use"):
            at = line.find("{")
            line = line if at < 0 else line[:at] + NAME.sub(one, line[at:])
        else:
            line = NAME.sub(one, line)
        out.append(line)
    return "\n".join(out)


if __name__ == "__main__":
    main()
