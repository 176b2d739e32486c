#!/usr/bin/env python3
"""Brings this repository's own names in definitions and lemmas to snake case, as today's Rattle writes them: `take-token` is `take_token`, `markAt` is `mark_at`.

usage: tools/respell.py    at the top of the repository, once, after the kit's port.py

It rewrites specs/, the lemma files of proofs/, the clauses of src/, the texts of must-fail edits and the names in backquotes of comments and pages.
Names of the kit, which a file imports from a module that is not this repository's, keep their spelling; so do Proof.antt files (docs/PORT.md). It prints names that would fall together, and then writes nothing.
"""
import os
import re
import sys

NAME = r"[^\s(){}.;,@\"«»\[\]\\:=|`]+"
HEAD = re.compile(r"(?m)^\s*(?:(?:pub|abbrev|unfoldable|opaque|ruleset)\s+)*(" + NAME + r")\s*([:=])")
USE = re.compile(r"use ([\w.·+-]+)\.\{([^}]*)\}")
CAMEL = re.compile(r"^[a-z][a-z0-9_'-]*[A-Z]")


def below(root, ending):
    for folder, dirs, files in os.walk(root):
        dirs[:] = sorted(d for d in dirs if d not in ("out", "target", ".git"))
        yield from (os.path.join(folder, f) for f in sorted(files) if f.endswith(ending))


def read(path):
    with open(path, encoding="utf-8") as f:
        return f.read()


def code_of(text):
    return re.sub(r"--[^\n]*", "", text)


def is_ours(module):
    return module.startswith("Rattle.") and not module.startswith("Rattle.std")


def of_kit(text):
    """The names with a dash that the file imports from the kit."""
    found = set()
    for module, names in USE.findall(text):
        if not is_ours(module):
            found |= {it.strip() for names_ in names.split(",") for it in names_.split(" as ")}
    return found


def snake(name):
    name = re.sub(r"(?<=[^\s-])-(?=[^\s-])", "_", name)
    return re.sub(r"([A-Z])", lambda m: "_" + m.group(1).lower(), name) if CAMEL.match(name) else name


def is_dashed(name):
    return "◌" not in name and re.search(r"[^\s-]-[^\s-]", name)


def lemma_files():
    return [p for p in below("crates", ".antt") if os.path.basename(p) != "Proof.antt"]


def main():
    own, where, defined = set(), {}, set()
    for path in lemma_files():
        for name, sign in HEAD.findall(code_of(read(path))):
            if is_dashed(name) or CAMEL.match(name):
                own.add(name)
            defined.add(name)
            if sign == ":":
                where.setdefault(path, set()).add(name)
    clash = [(p, n) for p, names in where.items() for n in names if n in own and snake(n) != n and snake(n) in names]
    if clash:
        print("\n".join(f"falls together: {p}: {n}" for p, n in clash))
        return 1

    def turned(text, kept, only_own):
        def one(m):
            name = m.group(0)
            if name in kept or not (is_dashed(name) or name in own):
                return name
            # (port.py has turned those that a name of the kit is spelt like)
            return snake(name) if name in own or snake(name) in defined or not only_own else name

        return re.sub(NAME, one, text)

    def in_quotes(text):
        return re.sub(r"`([^`\n]*)`", lambda m: "`" + turned(m.group(1), set(), True) + "`", text)

    changed = 0
    for path in lemma_files():
        text = read(path)
        kept = of_kit(text)
        parts = re.split(r"(--[^\n]*)", text)
        changed += write(path, "".join(in_quotes(p) if p.startswith("--") else turned(p, kept, False) for p in parts), text)
    for path in below("crates", ".rt"):
        text = read(path)
        parts = re.split(r"(//[^\n]*|b?\"(?:[^\"\\]|\\.)*\")", text)
        changed += write(path, "".join(in_quotes(p) if p.startswith("//") else p if p.startswith(('"', 'b"')) else turned(p, set(), True) for p in parts), text)
    for path in below("crates", ".edit"):
        text = read(path)
        changed += write(path, "\n".join(turned(l, set(), True) if l.startswith(("old:", "new:")) else l for l in text.split("\n")), text)
    for path in [p for p in ["README.md", *below("docs", ".md"), *below("compare", ".md"), *below("rowanchess", ".md")] if os.path.isfile(p)]:
        text = read(path)
        changed += write(path, in_quotes(text), text)
    print(f"{len(own)} names, {changed} files changed")
    return 0


def write(path, text, old):
    if text == old:
        return 0
    with open(path, "w", encoding="utf-8") as f:
        f.write(text)
    return 1


if __name__ == "__main__":
    sys.exit(main())
