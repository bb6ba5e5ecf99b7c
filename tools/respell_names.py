#!/usr/bin/env python3
"""Turns the names of this repository's own definitions and lemmas to the spelling of today's Rattle.

usage: python3 tools/respell_names.py [--check]      at the top of the repository, once, after Rattle's own port.py

A definition, a constructor or a field is written with underscores; a type, a record or a fact in camel case; a lemma with underscores, but for a dash
that joins two functions (length-flatten). What turns: names that specs/ and proofs/ declare, wherever they stand in these, in clauses and ghost items
of the code, and in code spans of README.md and docs/. Names of goals, the code, strings and must-fail edits stay.
--check writes nothing, and prints each name that would fall together with one that stands in the same file.
"""

import collections
import glob
import re
import sys

# Functions whose names a lemma's name may join by a dash.
FUNCTIONS = set("length map flatten read append get_or set put size".split())
# Names that would fall together with another.
OTHERWISE = {"put-mid": "put_mid-put"}
TOKEN = re.compile(r'[^\s(){}.;,@"«»]+')
DECLARED = re.compile(r'^\s*(?:abbrev |unfoldable |opaque )?(?:pub )?(?:(?:record|data) )?([^\s(){}.;,@"]+) (?:\(|\{|:)')


def spelled(name, lemma):
    if name in OTHERWISE:
        return OTHERWISE[name]
    parts = name.split("-")
    if name[0].isupper():
        return "".join(p[:1].upper() + p[1:] for p in parts)
    if lemma and all(p in FUNCTIONS for p in parts):
        return name
    return "_".join(parts)


def table():
    rows, where = {}, collections.defaultdict(set)
    for kind in ("specs", "proofs"):
        for path in sorted(glob.glob(f"crates/*/{kind}/**/*.antt", recursive=True)):
            with open(path, encoding="utf-8") as f:
                for line in f:
                    m = DECLARED.match(line)
                    if not m or re.search(r":\s*goal\.", line):
                        continue
                    name = m[1]
                    if "-" not in name or name.startswith("--"):
                        continue
                    new = spelled(name, kind == "proofs")
                    if new != name:
                        rows.setdefault(name, new)
                        where[name].add(path)
    return rows, where


def turned(text, rows):
    return TOKEN.sub(lambda m: rows.get(m[0], m[0]), text)


def in_antt(text, rows):
    out = []
    for line in text.split("\n"):
        m = re.search(r"(?:^|(?<=\s))--(?=\s|$)", line)
        code, mark, comment = (line[: m.start()], "--", line[m.end() :]) if m else (line, "", "")
        comment = in_page(comment, rows)
        out.append(turned(code, rows) + mark + comment)
    return "\n".join(out)


def in_code(text, rows):
    out = []
    for line in text.split("\n"):
        if re.match(r"\s*(?:pub )?(?:ghost|ensures|requires)\b", line):
            line = turned(line, rows)
        out.append(line)
    return "\n".join(out)


def in_page(text, rows):
    return re.sub(r"(`+)([^`\n]+)\1", lambda m: m[1] + turned(m[2], rows) + m[1], text)


def main():
    rows, where = table()
    check = "--check" in sys.argv[1:]
    falls = collections.Counter(rows.values())
    for old, new in rows.items():
        if falls[new] > 1:
            print(f"two names become {new}: {old}")
    changed = 0
    for path in sorted(
        glob.glob("crates/*/specs/**/*.antt", recursive=True)
        + glob.glob("crates/*/proofs/**/*.antt", recursive=True)
        + glob.glob("crates/*/src/**/*.rt", recursive=True)
        + glob.glob("docs/*.md")
        + ["README.md"]
    ):
        with open(path, encoding="utf-8") as f:
            text = f.read()
        turn = in_antt if path.endswith(".antt") else in_code if path.endswith(".rt") else in_page
        new = turn(text, rows)
        if check:
            if path.endswith((".antt",)):
                tokens = set(TOKEN.findall(text))
                for old in sorted(tokens & set(rows)):
                    if rows[old] in tokens:
                        print(f"{path}: {old} falls together with {rows[old]}")
        elif new != text:
            with open(path, "w", encoding="utf-8") as f:
                f.write(new)
            changed += 1
    print(f"{len(rows)} names, {changed} files changed")


main()
