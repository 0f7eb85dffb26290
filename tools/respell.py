#!/usr/bin/env python3
"""Respells the repository's own definitions and lemmas: words in snake case, types and modules in camel case.

usage: tools/respell.py LANDED [ROOT]    LANDED: a folder with the repository before the scripts of the kit ran; ROOT: the repository, '.' by default
       tools/respell.py --table LANDED   prints the table alone: old, a tab, new

The table comes from the names that LANDED's specs/ and proofs/ declare. Functions, variants and fields of src/, exported names and quoted text
keep their spelling. A lemma that would get the name of a definition gets `_lem`, a definition that would get the name of a struct's field `_of`.
Names that the kit's scripts turned already are told from others by what the file at hand had in LANDED.
"""
import collections
import os
import re
import sys

DECLARED = re.compile(r"\s*((?:(?:abbrev|unfoldable|pub|data|record|ruleset|mutual)\s+)*)([A-Za-z_][^\s:(){}]*(?:\s+[A-Za-z][^\s:(){}]*)*)\s+:(?:\s|$)")
WORD = re.compile(r"[^\s(){}\[\].;,@\"«»λ`]+")
TEXT = re.compile(r'"(?:[^"\\\n]|\\.)*"')
SPAN = re.compile(r"`[^`\n]+`")
CLAUSE = re.compile(r"(?:requires|ensures)\s*\*?\s*(?:\w+\s*)?\{|ghost\s*(?:\w+\s*:\s*)?\{|ghost\s+use\b")


def files(root, *ends):
    for folder, folders, names in os.walk(os.path.join(root, "crates")):
        folders[:] = sorted(f for f in folders if f not in ("out", "target"))
        for name in sorted(names):
            if name.endswith(ends):
                yield os.path.join(folder, name)


def text_of(path):
    with open(path, encoding="utf-8") as f:
        return f.read()


def snake(name):
    return "_".join(re.sub(r"(?<=[a-z0-9])(?=[A-Z])", "_", part).lower() for part in name.replace("′", "'").split("-"))


def declared(landed):
    names = set()
    for path in files(landed, ".antt"):
        if os.path.basename(path) == "Proof.antt":
            continue
        for line in text_of(path).splitlines():
            found = DECLARED.match(line)
            if found and not line.lstrip().startswith("--") and not found.group(2).startswith(("let ", "in ")):
                names |= set(found.group(2).split())
    for path in files(landed, ".antt", ".rt"):
        for line in text_of(path).splitlines():
            if re.match(r"\s*(?:ghost )?(?:pub )?use ", line) and os.path.basename(path) != "Proof.antt":
                names |= {n for n in re.findall(r"\bas ([a-z]\w*)", line) if re.search("[A-Z]", n)}
    return names


def fields(landed):
    found = set()
    for path in files(landed, ".rt"):
        for body in re.findall(r"struct \w+ \{(.*?)\n\}", text_of(path), re.S):
            found |= set(re.findall(r"^\s*(?:pub )?(\w+):", body, re.M))
    return found


def table(landed):
    names = declared(landed)
    old = {n for n in names if not n[0].isupper() and (re.search("[A-Z]", n) or "-" in n or "′" in n)}
    taken = collections.Counter(snake(n) if n in old else n for n in names)
    held = fields(landed)
    new = {}
    for n in old:
        s = snake(n)
        if "-" in n and taken[s] > 1:
            s += "_lem"
        elif s in held:
            s += "_lem" if "-" in n else "_of"
        new[n] = s
    seen = collections.Counter(new.values()) + collections.Counter(n for n in names if n not in new)
    twice = [n for n, k in seen.items() if k > 1]
    if twice:
        sys.exit(f"names that fall together: {twice}")
    return new


def words(text, names, behind_dot=True):
    """The text with its words respelled, but for quoted text."""

    def one(found):
        word, at = found.group(0), found.start()
        if not behind_dot and at and text[at - 1] == "." and "-" in word:
            return word
        return names.get(word, word)

    done, at = "", 0
    for quoted in TEXT.finditer(text):
        done += WORD.sub(one, text[at : quoted.start()])
        done += quoted.group(0)
        at = quoted.end()
    return done + WORD.sub(one, text[at:])


def comment(text, names):
    """A comment: words in code spans, and those that no English word looks like."""
    text = SPAN.sub(lambda f: WORD.sub(lambda w: names.get(w.group(0), w.group(0)), f.group(0)), text)
    return WORD.sub(lambda w: names.get(w.group(0), w.group(0)) if re.search(r"[a-z][A-Z]", w.group(0)) else w.group(0), text)


def antt(text, names, behind_dot):
    lines = []
    for line in text.split("\n"):
        at = re.search(r"(?:^|(?<=\s))--", TEXT.sub(lambda f: "_" * len(f.group(0)), line))
        code, said = (line[: at.start()], line[at.start() :]) if at else (line, "")
        lines.append(words(code, names, behind_dot) + comment(said, names))
    return "\n".join(lines)


def closing(text, at):
    depth = 0
    while at < len(text):
        depth += {"{": 1, "}": -1}.get(text[at], 0)
        at += 1
        if depth == 0:
            return at
    return at


def source(text, names):
    """The clauses and imports of a source; comments; nothing else."""
    done, at = "", 0
    for found in CLAUSE.finditer(text):
        if found.start() < at:
            continue
        end = text.index(";", found.end()) if found.group(0).startswith("ghost use") else closing(text, found.end() - 1)
        done += text[at : found.start()] + words(text[found.start() : end], names)
        at = end
    done += text[at:]
    return re.sub(r"//[^\n]*", lambda f: comment(f.group(0), names), done)


def main(argv):
    if argv[0] == "--table":
        for old, new in sorted(table(argv[1]).items()):
            print(f"{old}\t{new}")
        return
    landed, root = argv[0], argv[1] if len(argv) > 1 else "."
    names = table(landed)
    lemmas = {s[: -len("_lem")]: (k, s) for k, s in names.items() if s.endswith("_lem")}
    holders = {s[: -len("_of")]: (c, s) for c, s in names.items() if s.endswith("_of") and snake(c) + "_of" == s}
    for path in files(root, ".antt", ".rt", ".edit"):
        before = text_of(path)
        was = os.path.join(landed, os.path.relpath(path, root))
        had = collections.Counter(WORD.findall(text_of(was))) if os.path.exists(was) else collections.Counter()
        here = dict(names)
        now = collections.Counter(WORD.findall(before))
        for s, (k, new) in list(lemmas.items()) + list(holders.items()):
            # the kit's scripts wrote `s`: it was `k` where the file had `k` and no other name of that spelling, or as often as `s` stands there
            if now[s] and had[k] and not had[s] and (now[s] == had[k] and not now[k]):
                here[s] = new
        if path.endswith(".antt"):
            after = antt(before, here, os.path.basename(path) != "Proof.antt")
        elif path.endswith(".rt"):
            after = source(before, here)
        else:
            after = "\n".join(words(line, here) if "specs/" in before or re.search(r"ensures|requires|ghost", line) else line for line in before.split("\n"))
        if after != before:
            with open(path, "w", encoding="utf-8") as f:
                f.write(after)
    pages = [os.path.join(root, p) for p in os.listdir(root) if p.endswith(".md")]
    for folder in ("docs", "tools", "recorded"):
        for d, _, fs in os.walk(os.path.join(root, folder)):
            pages += [os.path.join(d, f) for f in fs if f.endswith(".md")]
    for path in sorted(pages):
        before = text_of(path)
        after = re.sub(r"^( {4}[^\n]*|```.*?^```)$", lambda f: words(f.group(0), names), before, flags=re.S | re.M)
        after = comment(after, names)
        if after != before:
            with open(path, "w", encoding="utf-8") as f:
                f.write(after)


if __name__ == "__main__":
    main(sys.argv[1:])
