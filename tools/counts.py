#!/usr/bin/env python3
"""Counts what docs/DESIGN-PASS.md speaks of: python3 tools/counts.py [COMMIT]

Reads crates/*/src as COMMIT (HEAD, where none is given) has it, from the top of the checkout.
A line of the output is a point of the page, what is counted and how many lines or functions there are.
"""
import re
import subprocess
import sys

LINES = [
    ("1", "enums", r"^(pub(\(crate\))? )?enum "),
    ("1", "enums with a derived equality", r"derive\(.*\bPartialEq\b"),
    ("1", "flags and faults beside a value", r"^\s*pub (fault: Fault|is_read: bool)|^    (lawful|plain): bool"),
    ("1", "numbers that a comment calls none", r"(?i)//.*\b(for|or|is|are|were) none\b"),
    ("1", "refusals that hold a number", r"Stop\(u32\)|code: u32"),
    ("1", "results of the library's Result", r"-> .*\bResult<"),
    ("1", "results of the library's Option", r"-> .*\bOption<"),
    ("1", "steps taken by ?", r"\?(;|\)|,|\.|$)"),
    ("3", "while", r"^\s*while "),
    ("3", "for", r"^\s*for "),
    ("3", "methods of iterators and slices in place of a loop",
     r"\.(all|any|find|position|fill|fill_with|copy_from_slice|strip_prefix|chunks_exact|as_chunks)\("),
    ("4", "conversions and comparisons as functions",
     r"fn (is_digit|digit|hex_digit|is_same|are_same|code|number|place|[a-z_]+_of)\("),
    ("4", "impl From", r"^impl.* From<"),
    ("6", "arrays", r"\[[a-z0-9_]+; [A-Z0-9_ +]+\]"),
    ("7", "parameters that are functions", r"Fn\("),
]

TABLES = set("pool names type_refs types members fields arguments nodes literals variables "
             "sets selections fragments given answers".split())


def run(*words):
    return subprocess.run(words, capture_output=True, text=True, check=True).stdout


def sources(commit):
    paths = run("git", "ls-tree", "-r", "--name-only", commit, "crates").split()
    return [run("git", "show", f"{commit}:{p}") for p in paths if "/src/" in p and p.endswith(".rt")]


def lenders(text):
    """The functions of a file that take two tables or more as slices of their own."""
    heads = re.findall(r"\bfn \w+(?:<[^>]*>)?\(([^{]*?)\)\s*(?:->|\n|\{|#)", text, re.S)
    taken = (re.findall(r"(\w+):\s*&(?:'\w+ )?\[u(?:8|32)\]", head) for head in heads)
    return sum(len(TABLES.intersection(names)) >= 2 for names in taken)


def main():
    commit = sys.argv[1] if len(sys.argv) > 1 else "HEAD"
    texts = sources(commit)
    lines = [line for text in texts for line in text.splitlines()]
    print(f"files {len(texts)}, lines {len(lines)}")
    for point, what, pattern in LINES:
        print(f"{point}  {what}: {sum(re.search(pattern, line) is not None for line in lines)}")
    print(f"5  functions with two tables or more as slices: {sum(map(lenders, texts))}")
    print(f"5  functions that take the tables together: {sum(t.count('tables: &Tables') for t in texts)}")


main()
