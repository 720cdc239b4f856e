"""Reads names of source files, and prints the functions that have the same text as another: in two files, or twice in one.

The text of a function is its signature and body without comments, clauses, its own name and the names of types and modules."""
import re
import sys


def functions(text):
    """The functions of a source: where each begins, its name and its text."""
    for found in re.finditer(r"(?m)^( *)(?:pub(?:\(crate\))? )?fn (\w+)", text):
        indent, name = found.groups()
        end = re.compile(r"(?m)^%s\}" % indent).search(text, found.end())
        semicolon = re.compile(r"(?m);$").search(text, found.end())
        brace = re.compile(r"(?m)\{$").search(text, found.end())
        if end is None or brace is None or (semicolon and semicolon.start() < brace.start()):
            continue
        yield text.count("\n", 0, found.start()) + 1, name, text[found.start():end.end()]


def bare(text, name):
    """The text without comments, clauses and names that may differ."""
    kept = []
    skipping = False
    for line in text.split("\n"):
        plain = line.strip()
        if plain.startswith("//"):
            continue
        if re.match(r"(requires|ensures)\b", plain):
            skipping = not plain.endswith("}")
            continue
        if skipping:
            skipping = not plain.endswith("}")
            continue
        kept.append(plain)
    body = " ".join(kept)
    body = re.sub(r"\b%s\b" % name, "_", body)
    body = re.sub(r"\b[A-Z]\w*\b", "T", body)
    body = re.sub(r"\bu(8|16|32|64)\b", "u", body)
    body = re.sub(r"\b\d+\b", "0", body)
    body = re.sub(r"\s+", " ", body)
    return body


groups = {}
for path in sys.stdin.read().split():
    with open(path, encoding="utf-8") as source:
        text = source.read()
    for line, name, function in functions(text):
        groups.setdefault(bare(function, name), []).append("%s:%d: %s" % (path, line, name))
several = [group for group in groups.values() if len(group) > 1]
print("   functions: %d in %d groups" % (sum(map(len, several)), len(several)))
for group in several:
    print("   " + "; ".join(group))
