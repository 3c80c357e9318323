#!/usr/bin/env python3
"""Breaks lines of more than 120 characters in .antt files, at a space that is as shallow in brackets as can be.

    long_lines.py FILE..

What it breaks means the same: a line that goes on stands further in than the one that it belongs to, a
comment goes on in further comments, and a long list of imports is cut into several. What it can't break it
leaves. Run `rt fmt` in the crate afterwards, which has the last word on layout, and prove the crate again.
A file of another kind is refused, and then no file is changed: a list of crates or a page means something else
once its lines are broken.
"""
import re
import sys

LIMIT = 120
OPEN, CLOSE = "([{", ")]}"


def candidates(text, start):
    """Places of spaces after `start`, each with its depth and whether what follows or precedes joins parts."""
    depth = 0
    quote = False
    found = []
    for k, c in enumerate(text):
        if c == '"' and text[k - 1] != "\\":
            quote = not quote
        if quote:
            continue
        if c in OPEN:
            depth += 1
        elif c in CLOSE:
            depth -= 1
        elif c == " " and k > start:
            found.append((k, depth))
    return found


def strength(text, k):
    """How well a break at the space suits: before a joining sign best, after `=` or `in` too."""
    rest = text[k + 1:]
    word = rest.split(" ", 1)[0]
    before = text[:k].rsplit(" ", 1)[-1]
    if word == "→":
        return 6
    if before in ("=", "in", "↦") or before.endswith(";"):
        return 5
    if word == "∙":
        return 4
    if word in ("×", "⊎"):
        return 3
    if word in ("≡", "++"):
        return 2
    if before in ("λ", "(λ", "let", "ap") or word in (":", "=", "in", "where", "∷", "<", "≤", "+", "-", "*", "/", "%", "^", "∷", "==", "&&", "]", "|") or before in (":", "≡", "<", "≤", "+", "-", "*", "/", "%", "^", "==", "&&", "∷", "→", "∙", "×", "++", "⊎", "|") :
        return 0
    return 1


def broken(line):
    if len(line) <= LIMIT:
        return [line]
    indent = len(line) - len(line.lstrip(" "))
    if line.lstrip().startswith("--"):
        words = line.split()
        out, now = [], " " * indent + words[0]
        for w in words[1:]:
            if len(now) + 1 + len(w) > 100:
                out.append(now)
                now = " " * indent + "-- " + w
            else:
                now += " " + w
        return out + [now]
    if re.match(r"\s*(pub )?use ", line):
        m = re.match(r"(\s*(?:pub )?use [^{]*\{)(.*)\}\s*$", line)
        if not m:
            return [line]
        names = [n.strip() for n in m.group(2).split(",")]
        head = m.group(1)
        out, now = [], []
        for n in names:
            if now and len(head + ", ".join(now + [n]) + "}") > LIMIT:
                out.append(head + ", ".join(now) + "}")
                now = []
            now.append(n)
        return out + [head + ", ".join(now) + "}"]
    after = re.match(r"(.*?)\s+-- (.*)$", line)
    if after and '"' not in after.group(1):
        return broken(" " * indent + "-- " + after.group(2)) + broken(after.group(1))
    out = []
    while len(line) > LIMIT:
        lead = len(line) - len(line.lstrip(" "))
        able = [(d, -strength(line, k), k) for k, d in candidates(line, lead) if lead + 20 < k <= LIMIT and strength(line, k) > 0]
        if not able:
            able = [(d, 0, k) for k, d in candidates(line, lead) if lead + 8 < k <= LIMIT and strength(line, k) > 0]
        if not able:
            break
        shallow = min(d for d, s, k in able)
        near = [(s, -k, k) for d, s, k in able if d == shallow]
        # the strongest at the shallowest depth, the last of these; but not one that leaves almost nothing before it
        k = min(near)[2]
        if k < lead + 45:
            wide = [(d, s, -k2, k2) for d, s, k2 in able if k2 >= lead + 45]
            if wide:
                k = min(wide)[3]
        out.append(line[:k].rstrip())
        line = " " * (indent + 4) + line[k + 1:]
    return out + [line]


def main():
    others = [path for path in sys.argv[1:] if not path.endswith(".antt")]
    if others:
        sys.exit("long_lines.py: for .antt files alone, and not " + " ".join(others))
    for path in sys.argv[1:]:
        text = open(path, encoding="utf-8").read()
        lines = []
        for line in text.split("\n"):
            lines += broken(line)
        new = "\n".join(lines)
        if new != text:
            open(path, "w", encoding="utf-8").write(new)


main()
