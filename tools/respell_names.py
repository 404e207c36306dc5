#!/usr/bin/env python3
"""Brings the definitions and lemmas of this repository to one spelling: words and lemmas in snake case, types and facts in upper camel case.

usage: python3 tools/respell_names.py      at the top of the repository, once, after /opt/rattle/port/port.py

It looks for what specs/ and proofs/ of each crate declare, and turns each name that has a dash or a capital inside: `best-ops` becomes `best_ops`,
`locusAnswer` becomes `locus_answer`, `All-sound` becomes `AllSound`. A name that Rattle makes (a goal or a step) keeps its dashes, and so does a name of
the library. Where the new name would fall together with another name of the same file, it stops and changes nothing.
"""
import os
import re
import sys

DECLARED = re.compile(r"^\s*((?:abbrev|unfoldable|pub|data|record)\s+)*(?P<name>[^\s(){}\[\];,.:λ]+)\s+:\s")
BOUND = re.compile(r"[({](?P<names>[^\s(){}\[\];,.:λ]+(?: [^\s(){}\[\];,.:λ]+)*) : ")
RECORD = re.compile(r"^\s*(?:pub\s+)?(?:record|data)\s+(?P<name>[^\s(){}\[\];,.:]+)")
EDGE = r"[\s(){}\[\];,.\"`·]"
KEPT_BY_RATTLE = re.compile(r"^(loop|if|then|else|invariant|decreases|returns|ensures|requires|overflow|case|match|the)-")


def files(root):
    for folder, dirs, names in os.walk(os.path.join(root, "crates")):
        dirs[:] = sorted(d for d in dirs if d != "out")
        for name in sorted(names):
            if name.endswith((".rt", ".antt")):
                yield os.path.join(folder, name)


def read(path):
    with open(path, encoding="utf-8") as f:
        return f.read()


def own_file(path):
    """A file of definitions or lemmas, and not the proof of one function."""
    parts = path.split(os.sep)
    return path.endswith(".antt") and parts[-1] != "Lib.antt" and parts[-2] in ("specs", "proofs")


def snake(name):
    name = name.replace("-", "_")
    return re.sub(r"(?<=[a-z0-9])([A-Z])", lambda m: "_" + m.group(1).lower(), name)


def camel(name):
    return "".join(part[:1].upper() + part[1:] for part in name.split("-"))


def respelled(name):
    name = name.replace("′", "'")
    if name[:1].isupper():
        return camel(name)
    return snake(name)


def tokens(text):
    return set(re.split(EDGE + "+", text))


def main():
    root = os.path.dirname(os.path.dirname(os.path.abspath(__file__)))
    texts = {p: read(p) for p in files(root)}
    declared, made, imported = set(), set(), set()
    for path, text in texts.items():
        if not path.endswith(".antt"):
            continue
        for line in text.splitlines():
            if line.lstrip().startswith("--"):
                continue
            for name in re.findall(r"goal'?\.([^\s(){}\[\];,]+)", line):
                made.add(name)
            m = RECORD.match(line) or DECLARED.match(line)
            if m and re.match(r"^[A-Za-z]", m.group("name")):
                declared.add(m.group("name"))
            if own_file(path):
                for bound in BOUND.finditer(line):
                    declared.update(n for n in bound.group("names").split() if re.match(r"^[a-z]", n))
        for module, names in re.findall(r"^use ([^\s{}]+)\.\{([^}]*)\}", text, re.M):
            if ".std." in module or module.startswith("mathlib"):
                imported.update(re.split(r"[\s,]+", names))
    turned = {}
    for name in declared - made - imported:
        new = respelled(name)
        if new != name and not KEPT_BY_RATTLE.match(name):
            turned[name] = new
    wrong = []
    for path, text in texts.items():
        here = tokens(text)
        come = {}
        for old, new in turned.items():
            if old in here:
                if new in here:
                    wrong.append(f"{path}: {old} would fall together with {new}")
                if new in come:
                    wrong.append(f"{path}: {old} and {come[new]} would both be {new}")
                come[new] = old
    if wrong:
        print("\n".join(sorted(wrong)), file=sys.stderr)
        raise SystemExit(1)
    pattern = re.compile("(?<!" + EDGE[:1] + "^" + EDGE[1:] + ")(" + "|".join(re.escape(n) for n in sorted(turned, key=len, reverse=True)) + ")(?!" + EDGE[:1] + "^" + EDGE[1:] + ")")
    changed = 0
    for path, text in texts.items():
        new = pattern.sub(lambda m: turned[m.group(1)], text)
        if new != text:
            changed += 1
            with open(path, "w", encoding="utf-8") as f:
                f.write(new)
    for old in sorted(turned):
        print(f"{old} -> {turned[old]}")
    print(f"{len(turned)} names, {changed} files")


if __name__ == "__main__":
    main()
