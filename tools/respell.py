#!/usr/bin/env python3
"""Brings the repository's own definitions and lemmas to one spelling.

Words of a name are joined by an underscore (charge-of becomes charge_of); a type, whose name begins
with a capital, is written in camel case (Others-same becomes OthersSame). Functions of src/, strings,
comments, inputs and outputs keep what they have, and so do the names that the check makes for goals
and steps (loop-i-preserved, if-a-b).

    python3 tools/respell.py          at the top of the repository: respells, and says what fell together
    python3 tools/respell.py --list   only lists the names, old and new
"""
import glob
import re
import sys

NAME = r"[^\s:(){}=.,;\[\]|]+"
TOP = re.compile(r"^(?:(?:abbrev|unfoldable|pub|data|record|ruleset)\s+)*(" + NAME + r")\s*(?:[({].*)?:")
INNER = re.compile(r"^\s+(?:(?:abbrev|unfoldable|pub|data|record)\s+)*(" + NAME + r")\s*(?:[({].*)?:")
LOCAL = re.compile(r"\blet\s+(" + NAME + r")\s*[:=]")
LEAVE = {"use", "mod", "syntax", "unfolding"}


def files(*ends):
    for end in ends:
        yield from sorted(glob.glob("crates/**/*" + end, recursive=True))


def respelled(name):
    words = name.split("-")
    if name[0].isupper():
        words = re.split("[-_]", name)
        return "".join(word[:1].upper() + word[1:] for word in words)
    return "_".join(words)


def defined():
    names = set()
    for path in files(".antt"):
        for line in open(path, encoding="utf-8"):
            if line.lstrip().startswith("--") or re.search(r":\s*goal\.", line):
                continue
            found = TOP.match(line) or INNER.match(line)
            if found and found.group(1) not in LEAVE:
                names.add(found.group(1))
            names.update(LOCAL.findall(line))
    parted = r"[A-Z][a-z0-9]*(_[a-z0-9]+)+|[A-Za-z][\w']*(-[\w']+)+"
    return {name: respelled(name) for name in sorted(names) if re.fullmatch(parted, name) and not name.startswith("T_")}


TOKEN = re.compile(r"[^\s(){}\[\].,;:=|`\"]+")


def turn(text, names):
    return TOKEN.sub(lambda token: names.get(token.group(0), token.group(0)), text)


def turn_line(line, names, comment, quoted):
    """Respells a line outside its strings and its comment; if `quoted`, also what stands in backquotes in the comment."""
    out, i = [], 0
    plain = ""
    while i < len(line):
        if line.startswith(comment, i) and (comment != "--" or i == 0 or line[i - 1].isspace()):
            out.append(turn(plain, names))
            plain = ""
            note = line[i:]
            out.append(re.sub(r"`[^`]*`", lambda code: turn(code.group(0), names), note) if quoted else note)
            return "".join(out)
        if line[i] == '"':
            end = i + 1
            while end < len(line) and line[end] != '"':
                end += 2 if line[end] == "\\" else 1
            out.append(turn(plain, names))
            plain = ""
            out.append(line[i:end + 1])
            i = end + 1
            continue
        plain += line[i]
        i += 1
    out.append(turn(plain, names))
    return "".join(out)


def main():
    names = defined()
    taken = set()
    for path in files(".antt", ".rt"):
        taken |= set(TOKEN.findall(open(path, encoding="utf-8").read()))
    if "--list" in sys.argv:
        for old, new in names.items():
            print(old, new, "(taken)" if new in taken else "")
        return
    seen = {}
    for old, new in names.items():
        if new in taken:
            print("a name that stood already:", old, "->", new)
        if new in seen:
            print("two fall together:", old, seen[new], "->", new)
        seen[new] = old
    paths = list(files(".antt", ".rt", ".edit")) + sorted(glob.glob(".ci/must_not_compile.d/*.txt"))
    for path in paths:
        text = open(path, encoding="utf-8").read()
        antt = path.endswith(".antt")
        turned = "".join(turn_line(line, names, "--" if antt else "//", antt) for line in text.splitlines(True))
        if turned != text:
            open(path, "w", encoding="utf-8").write(turned)


if __name__ == "__main__":
    main()
