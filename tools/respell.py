#!/usr/bin/env python3
"""Brings this repository's own antt names to snake case: a dash within a name becomes an underscore.

usage: python3 tools/respell.py [FOLDER]      once, right after the kit's port.py; FOLDER is a checkout's top

Own names are those that specs/ and proofs/ define, with their fields and the names that a `use` line gives by `as`.
The goals that Rattle makes keep their dashes, and so do the names of its library. A new name that is taken already stops the script,
unless TAKEN says what to write. Names in backquotes in docs/ and README.md follow.
"""
import glob
import os
import re
import sys

# a name whose plain respelling would fall together with another name
TAKEN = {}

DEFINES = re.compile(r"^\s*(?:(?:abbrev|unfoldable|pub|data|record|ruleset)\s+)*([^\s:=(){}.;,]+)\s+:(.*)$")
GENERATED = re.compile(r"\s*(goal|need|Goals|Given)\.")
GIVEN = re.compile(r"\bas\s+([^\s,;}.()]+-[^\s,;}.()]*)")
LET = re.compile(r"\blet\s+([^\s:=(){}.;,]+-[^\s:=(){}.;,]*)\s*[:=]")
TOKEN = re.compile(r"[^\s:=(){}\[\].;,`|]+")
USE = re.compile(r"^\s*(?:ghost |pub )*use (\S*?)\.?(?:\{(.*)\})?(?: as \S+)?;?\s*$")


def read(path):
    with open(path, encoding="utf-8") as f:
        return f.read()


def sources(root):
    for kind in ("specs", "proofs", "src"):
        for path in sorted(glob.glob(f"{root}/crates/*/{kind}/**/*", recursive=True)):
            if path.endswith((".antt", ".rt")):
                yield path


def own(root, paths):
    names = set()
    for path in paths:
        for line in read(path).splitlines():
            if line.lstrip().startswith(("--", "//")):
                continue
            names.update(GIVEN.findall(line))
            if not path.endswith(".antt"):
                continue
            names.update(LET.findall(line))
            m = DEFINES.match(line)
            if m and "-" in m.group(1) and m.group(1).strip("-") and not GENERATED.match(m.group(2)):
                names.add(m.group(1))
    for path in paths:
        for module, given in map(lambda m: m.groups(), filter(None, map(USE.match, read(path).splitlines()))):
            if not os.path.isdir(os.path.join(root, "crates", (module.split(".") + ["", ""])[1])):
                names.difference_update(word.strip().split(" as ")[0] for word in (given or "").split(","))
    return {n for n in names if re.fullmatch(r"[A-Za-z][\w'-]*", n)}


def taken(path):
    """The words of a proof file, without the folders on its `use` lines; the code's own names are none of them."""
    words = set()
    for line in read(path).splitlines():
        m = USE.match(line)
        words.update(TOKEN.findall((m.group(2) or "") if m else line))
    return words


def main(argv):
    root = argv[0] if argv else os.path.join(os.path.dirname(os.path.abspath(__file__)), "..")
    paths = list(sources(root))
    names = own(root, paths)
    new = {n: TAKEN.get(n, n.replace("-", "_")) for n in names}
    used = set()
    for path in paths:
        if path.endswith(".antt"):
            used |= taken(path)
    clash = sorted(n for n in names if new[n] in used) + sorted(n for n in names if list(new.values()).count(new[n]) > 1)
    if clash:
        print("respell: these fall together with other names: " + " ".join(clash), file=sys.stderr)
        return 1
    whole = re.compile(r"(?<![\w'-])(" + "|".join(sorted(map(re.escape, names), key=len, reverse=True)) + r")(?![\w'-])")
    for path in paths:
        lines = []
        for line in read(path).split("\n"):
            code, mark, rest = line.partition("//" if path.endswith(".rt") else "-- ")
            comment = line.lstrip().startswith(("--", "//"))
            lines.append(line if comment else whole.sub(lambda m: new[m.group(1)], code) + mark + rest)
        with open(path, "w", encoding="utf-8") as f:
            f.write("\n".join(lines))
    for path in sorted(glob.glob(f"{root}/docs/*.md")) + [f"{root}/README.md"]:
        text = read(path)
        turned = re.sub(r"`[^`\n]+`", lambda b: whole.sub(lambda m: new[m.group(1)], b.group(0)), text)
        with open(path, "w", encoding="utf-8") as f:
            f.write(turned)
    print(f"respell: {len(names)} names")
    return 0


if __name__ == "__main__":
    sys.exit(main(sys.argv[1:]))
