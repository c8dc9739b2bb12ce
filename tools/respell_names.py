#!/usr/bin/env python3
"""Respells the repository's own definitions and lemmas: words in snake case, types in camel case.

Run once, at the top of the checkout, right after the kit's porting script (docs/PORT.md). A name is the repository's own when a file
of specs/ or proofs/ declares it. Names of src/, strings, comments, names that the library has and names that the check makes stay.
"""
import glob, os, re, sys

TOKEN = re.compile(r"[^\s(){}\[\].,;:«»@`\"]+")
DECLARED = re.compile(r"^\s*(?:abbrev |unfoldable )?(?:pub )?(?:record |data )?([^\s(){}\[\].,;:]+)(?:\s*[({].*)?\s+:(?:\s|$)")
ALONE = re.compile(r"^\s*(?:abbrev |unfoldable )?(?:pub )?([^\s(){}\[\].,;:]+) :\s*(.*)$")
MADE = ("Answers.antt", "Invariants.antt", "Proof.antt")


def sources():
    return sorted(glob.glob("crates/**/*.antt", recursive=True))


def code(line, mark):
    """The line's code and its comment, apart."""
    m = re.search(r"(^|\s)" + re.escape(mark), line)
    return (line[: m.start()], line[m.start() :]) if m else (line, "")


def spelled(name):
    """The new spelling of one name."""
    name = name.replace("getD", "get_or")
    if re.match(r"[A-Z]", name):
        return "".join(w[:1].upper() + w[1:] for w in re.split("[-_]", name))
    name = re.sub(r"([a-z])([A-Z])", r"\1_\2", name.replace("-", "_"))
    return re.sub(r"_([A-Z])(?=_|$)", lambda m: "_" + m.group(1).lower(), name)


def declared():
    """The repository's own names that want another spelling."""
    own = {}
    for f in sources():
        made = os.path.basename(f) in MADE
        for line in open(f, encoding="utf-8"):
            line = code(line.rstrip("\n"), "--")[0]
            m = DECLARED.match(line)
            if not m or not re.search(r"\w-\w|[a-z][A-Z]|^[A-Z].*_", m.group(1)):
                continue
            a = ALONE.match(line)
            if made and a and "goal." in a.group(2):
                continue
            if not made and a and "goal." in a.group(2):
                continue
            if re.match(r"[A-Z]", m.group(1)) and not re.search("[-_]", m.group(1)):
                continue
            own.setdefault(m.group(1), set()).add(f)
    for f in sources():
        for line in open(f, encoding="utf-8"):
            for m in re.finditer(r"\blet ([a-z]+-[a-z-]+)", code(line, "--")[0]):
                own.setdefault(m.group(1), set()).add(f)
    return own


def taken_from_std(text):
    """The names that a file imports from the library."""
    names = set()
    for m in re.finditer(r"use (?:Rattle\.std|borrow|mathlib|denote|Prim|lib|native|std)\b[^{;\n]*\{([^}]*)\}", text):
        names |= {n.strip() for n in m.group(1).split(",")}
    return names


def respell(text, table, skip, in_antt):
    out = []
    for line in text.split("\n"):
        head, tail = code(line, "--" if in_antt else "//")
        if not in_antt:
            parts = re.split(r'("(?:[^"\\]|\\.)*")', head)
        else:
            parts = [head]
        for i, p in enumerate(parts):
            if not (not in_antt and i % 2):
                parts[i] = TOKEN.sub(lambda m: table[m.group(0)] if m.group(0) in table and m.group(0) not in skip else m.group(0), p)
        out.append("".join(parts) + tail)
    return "\n".join(out)


def main():
    own = declared()
    table = {n: spelled(n) for n in own}
    if "--list" in sys.argv:
        for n in sorted(table):
            print(n, table[n])
        return
    seen = {}
    for n, s in sorted(table.items()):
        seen.setdefault(s, []).append(n)
    for s, ns in seen.items():
        if len(ns) > 1:
            print("fall together:", s, ns)
    changed = 0
    files = sources() + sorted(glob.glob("crates/*/src/**/*.rt", recursive=True)) + sorted(glob.glob("crates/*/must-fail/*.edit"))
    for f in files:
        old = open(f, encoding="utf-8").read()
        new = respell(old, table, taken_from_std(old), f.endswith(".antt"))
        if new != old:
            open(f, "w", encoding="utf-8").write(new)
            changed += 1
    for f in ["README.md", "CONTRIBUTING.md"] + sorted(glob.glob("docs/*.md")):
        old = open(f, encoding="utf-8").read()
        new = re.sub(r"`([^`\n]+)`", lambda m: "`" + TOKEN.sub(lambda t: table.get(t.group(0), t.group(0)), m.group(1)) + "`", old)
        if new != old:
            open(f, "w", encoding="utf-8").write(new)
            changed += 1
    print(f"{len(table)} names, {changed} files")


if __name__ == "__main__":
    main()
