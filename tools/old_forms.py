#!/usr/bin/env python3
"""Lists the places in src/ that are written in older forms of the language, point by point.

    tools/old_forms.py [COMMIT]

Without a commit the files as they stand are read. docs/DESIGN-PASS.md says what each point means.
"""
import re, subprocess, sys
from collections import defaultdict

def files(commit):
    if commit:
        names = subprocess.run(["git", "ls-tree", "-r", "--name-only", commit, "crates"], capture_output=True, text=True).stdout.split()
        read = lambda n: subprocess.run(["git", "show", f"{commit}:{n}"], capture_output=True, text=True).stdout
    else:
        names = subprocess.run(["git", "ls-files", "crates"], capture_output=True, text=True).stdout.split()
        read = lambda n: open(n).read()
    for n in names:
        if "/src/" in n and n.endswith(".rt"):
            yield n.removeprefix("crates/"), read(n)

# What is looked for in a line of code, by point; comments and clauses are left out.
LINES = {
    "1 an Option that tells what is wrong": r"-> Option<\w*(Fault|Misfit|Refusal)\b",
    "1 a kind or a refusal as a number": r"match \w+(\.\w+)*\.kind \{|\.kind [!=]= \d|^\s+\d+( \| \d+| ?\.\.=? ?\d+)* (if \w+ )?=> (?!Ok\()|=> \(\d+, 0\)|pub number: u32|RowFault::\w+ => \d|\bnumber: \d+,",
    "1 a flag with values beside it": r"^\s+pub is_\w+: bool",
    "3 a loop that counts by hand": r"for \w+ in \d+\.\.|\bwhile \w|= \w+\.saturating_add\(1\);|^\s+\w+ \+= 1;",
    "4 a comparison, conversion or printing by hand": r"fn (equals|from_number|of_word|refusal|show_\w+|fault_of_\w+|rows_of\w*|row_fault_number)\b|fn word\(self\)|impl.* Clone for",
    "6 a buffer with a length beside it": r"\bcount: usize|\bdepth: usize|keys: \[u32; 32\]|filled: Filled",
    "7 a switch on which step to run": r"\b(Asked|Shape)::\w+ =>|\bAsked::\w+,?$",
}
# Members copied one by one from another value, three or more in a row.
COPIED = re.compile(r"(?:^\s+(\w+): (?:\w+\.\1|n\[\d+\]),\n){3,}", re.M)

def code(text):
    for number, line in enumerate(text.split("\n"), 1):
        plain = line.split("//")[0]
        if not re.match(r"\s*(requires|ensures|ghost)\b", plain) and plain.strip():
            yield number, plain

def shape(body):
    """A function's text without its names and numbers: twins have the same."""
    body = re.sub(r"//[^\n]*", "", body)
    body = re.sub(r"\b[a-zA-Z_]\w*|\d+", lambda m: m.group(0) if m.group(0) in KEYWORDS else "x", body)
    return re.sub(r"\s+", "", body)

KEYWORDS = set("fn for in if else match while let mut return self Some None Ok Err true false u32 usize impl struct enum".split())

def functions(text):
    """Each function: its name, its line, the names of its parameters, its clauses, and its body."""
    for m in re.finditer(r"^( *)(?:pub(?:\(\w+\))? )?fn (\w+)", text, re.M):
        rest = text[m.start():]
        end = re.search(r"^%s\}$|^%s\{\}$|;$|\{\}$| \}$" % (m.group(1), m.group(1)), rest, re.M)
        start = re.search(r"^%s\{$|\{$" % m.group(1), rest, re.M)
        if start and end and end.start() < start.start() and not rest[: end.end()].rstrip().endswith(";"):
            end = re.search(r"^%s\}$" % m.group(1), rest, re.M)
        elif start and end and end.group(0) == ";" and start.start() < end.start():
            end = re.search(r"^%s\}$" % m.group(1), rest, re.M)
        elif start and end and end.group(0) == " }" and start.start() < end.start():
            end = re.search(r"^%s\}$" % m.group(1), rest, re.M)
        whole = rest[: end.end()] if end else rest
        header = re.split(r"\n\s*(?:requires|ensures|\{)", whole)[0]
        clauses = re.findall(r"(?:requires|ensures)\s*\w*\s*\{ (.*) \};?$", whole, re.M)
        body = re.sub(r"(?m)^\s*(requires|ensures).*$", "", whole)
        yield m.group(2), text.count("\n", 0, m.start()) + 1, re.findall(r"\b(\w+):", header) + ["self"], clauses, body

def main():
    commit = sys.argv[1] if len(sys.argv) > 1 else None
    found, clauses, shapes = defaultdict(list), defaultdict(set), defaultdict(list)
    for name, text in files(commit):
        for number, line in code(text):
            for point, pattern in LINES.items():
                if re.search(pattern, line):
                    found[point].append(f"{name}:{number}: {line.strip()[:90]}")
        for m in COPIED.finditer(text):
            found["4 members copied one by one"].append(f"{name}:{text.count(chr(10), 0, m.start()) + 1}: {m.group(0).split(chr(10))[0].strip()} ..")
        for fn, at, parameters, facts, body in functions(text):
            for fact in facts:
                fact = re.sub(r"\b(%s)\b(\.(now|old|new)\b)?" % "|".join(parameters), "_", fact)
                if len(fact) > 20 and "result" not in fact:
                    clauses[fact].add(f"{name}:{at} {fn}")
            if len(shape(body)) > 45:
                shapes[shape(body)].append(f"{name}:{at} {fn}")
    for group in shapes.values():
        if len(group) > 1:
            found["2 functions that differ only in names and numbers"].append(" = ".join(group))
    for fact, where in clauses.items():
        if len(where) > 2:
            found["5 a fact in the clauses of three or more functions"].append(f"{fact[:90]}: {'; '.join(sorted(where))}")
    for point in sorted(found):
        print(f"{point}: {len(found[point])}")
        for place in found[point]:
            print("   ", place)

main()
