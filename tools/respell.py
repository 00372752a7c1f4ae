#!/usr/bin/env python3
"""Brings the definitions and lemmas of crates/*/specs and crates/*/proofs to snake case, after port.py: usage: respell.py [--table]

A name with a capital inside, as closedEnd, becomes closed_end. A dash stays between two of the library's words, as in take-drop; elsewhere it becomes _.
A lemma that would have another's name gets _lem. Only names that the repository declares itself are turned, in .antt files, in the ghost lines and
clauses of .rt files, in the texts of edits, and in comments where they stand in backquotes; never a string, and no name of src/. --table prints old and
new and writes nothing. It was run for the port that docs/PORT.md tells of, and has nothing to do since.
"""
import os
import re
import sys
import collections

WORD = re.compile(r'[^\s(){}.;,@"«»]+')
DECL = re.compile(r"^(\s*)((?:(?:pub|abbrev|unfoldable|infixr|infixl|data|record|records|ruleset)\s+)*)((?:[^\s(){}.;,@\"«»:=]+\s+)*)(?:[({][^\n]*?)?:\s", re.M)
HEAD = {"use", "mod", "module", "unfolding", "let", "--", "elim", "in", "if", "then", "else", "rw", "open", "mutual", "where", "infixr", "infixl", "infix"}
# names that a proof file of the older form makes for the goals of a function, and that are turned with the file
MADE = re.compile(r"^(returns|invariant-|decreases-|loop-again|loop-init|loop-less|loop-done|μ|\+)|(-requires|-loop|-Inv-loop)(-\d+)?$|^(add|sub|mul|cast|part|part-is)-[a-z]*$")
STD = set("and true false take drop length append map reverse set get filter replicate sum min max".split())
# where two names would fall together, or one with a word of the library or of src/
VARIABLES = {"object-rows": "object_rows"}
FIXED = {"closed-in": "closed_in_lem", "set-row": "set_row_lem", "is-none": "is_none_lem"}
# lemmas that port.py gave the very name that a definition gets here: in these crates, and in files that import them from there, they get _lem first
FIRST = {"tables": ["field_row", "node_row", "type_row", "root_answer", "holds_at"], "input_coercion": ["is_found"]}


def snake(name):
    """closedEnd as closed_end, listOf! as list_of!, isUtf8 as is_utf8"""
    s = re.sub(r"(?<=[a-z0-9])([A-Z]+)(?=[A-Z][a-z])", lambda m: "_" + m[1], name)
    s = re.sub(r"(?<=[a-z0-9!])([A-Z])", lambda m: "_" + m[1], s)
    s = re.sub(r"([A-Z])(?=[A-Z][a-z])", lambda m: m[1] + "_", s)
    return s.lower()


def files(kind):
    for folder, dirs, names in os.walk("crates"):
        dirs[:] = sorted(d for d in dirs if d not in ("out",))
        for f in sorted(names):
            if f.endswith(kind):
                yield os.path.join(folder, f)


def uncommented(t):
    return re.sub(r"--[^\n]*", "", t)


def declared():
    camel, kebab, plain, where = set(), set(), set(), collections.defaultdict(set)
    for p in files(".antt"):
        if "/proofs/" in p and os.path.basename(p) in ("Answers.antt", "Invariants.antt") and not p.endswith("proofs/Answers.antt"):
            continue
        walked = "/+" in p
        by_hand = p.endswith("/Proof.antt")
        for line in uncommented(open(p, encoding="utf-8").read()).splitlines():
            m = DECL.match(line)
            if not m:
                continue
            ws = m[3].split()
            if len(m[1]) > 4 and (by_hand or len(ws) != 1):
                continue
            if not ws or any(w in HEAD for w in ws) or "λ" in line[: m.end(3)]:
                continue
            if not m[2] and len(ws) > 1:
                continue
            for w in ws:
                if w in ("pub", "abbrev", "unfoldable"):
                    continue
                where[w].add(p)
                if re.match(r"[a-z][A-Za-z0-9]*[A-Z]", w):
                    camel.add(w)
                elif "-" in w and re.match(r"[a-z]", w):
                    if not walked and not (by_hand and MADE.search(w)):
                        kebab.add(w)
                elif re.match(r"[a-z]", w):
                    plain.add(w)
    return camel, kebab, plain, where


def table():
    camel, kebab, plain, where = declared()
    new = {}
    for w in sorted(camel):
        new[w] = FIXED.get(w) or "-".join(snake(x) for x in w.split("-"))
    for w in sorted(kebab | {w for w in camel if "-" in w}):
        if w in FIXED:
            new[w] = FIXED[w]
            continue
        parts = [snake(x) for x in w.split("-")]
        new[w] = ("-" if all(x in STD for x in parts) else "_").join(parts)
    together = collections.Counter(new.values())
    for w in kebab:
        if together[new[w]] > 1 and w not in FIXED:
            new[w] += "_lem"
    new.update(VARIABLES)
    for w in aliases() + bound():
        new.setdefault(w, w.replace("-", "_"))
    return {a: b for a, b in new.items() if a != b}, camel, kebab, plain, where


def aliases():
    """what a use line of ours calls a name, as the_type as kind-type; and rulesets"""
    out = set()
    for p in files(".antt"):
        if p.endswith("/Proof.antt"):
            continue
        t = uncommented(open(p, encoding="utf-8").read())
        for m in re.finditer(r"^use [^\n]*", t, re.M):
            out |= set(re.findall(r" as ([a-z][\w']*(?:-[\w']+)+)(?=[,}])", m[0]))
        out |= set(re.findall(r"^(?:pub )?ruleset ([a-z][\w']*(?:-[\w']+)+)", t, re.M))
    return sorted(out)


def bound():
    """variables with a dash, as they are bound with a type; not what the library or a generated module calls so"""
    out, used = set(), set()
    for p in files(".antt"):
        t = uncommented(open(p, encoding="utf-8").read())
        for m in re.finditer(r"^\s*(?:pub )?use ([^\n{]*)(?:\{([^}]*)\})?", t, re.M):
            used |= set(WORD.findall(m[2] or ""))
        for m in re.finditer(r"[({]((?:[^\s(){}.;,@\"«»:]+ )+):(?= )", t):
            out |= {w for w in m[1].split() if re.match(r"[a-z]+(-[a-z]+)+$", w)}
    return sorted(w for w in out - used if not MADE.search(w))


def first():
    for crate, names in FIRST.items():
        for p in files(".antt"):
            t = open(p, encoding="utf-8").read()
            here = p.startswith(f"crates/{crate}/")
            s = t
            for n in names:
                if here or re.search(rf"use Rattle\.{crate}\.proofs[^\n]*[{{ ]{n}[,}}]", t):
                    s = re.sub(rf"(?<![\w.'-]){n}(?![\w'-])", n + "_lem", s)
            if s != t:
                open(p, "w", encoding="utf-8").write(s)


RT_SKIP = re.compile(r'//[^\n]*|"(?:\\.|[^"\\])*"|b?\'(?:\\.|[^\'\\])\'', re.S)


def turned(text, new):
    return WORD.sub(lambda m: new.get(m[0], m[0]), text)


def antt(text, new):
    out, i = [], 0
    for m in re.finditer(r"--[^\n]*", text):
        if m.start() and text[m.start() - 1] not in " \n\t(":
            continue
        out.append(turned_strings(text[i : m.start()], new))
        out.append(comment(m[0], new))
        i = m.end()
    out.append(turned_strings(text[i:], new))
    return "".join(out)


def turned_strings(text, new):
    parts = re.split(r'("(?:[^"\\\n]|\\.)*")', text)
    return "".join(p if k % 2 else turned(p, new) for k, p in enumerate(parts))


def comment(text, new):
    """in a comment only what stands in backquotes is a name of ours: objectType may be the specification's own word"""
    return re.sub(r"`([^`\n]+)`", lambda m: "`" + WORD.sub(lambda k: new.get(k[0], k[0]), m[1]) + "`", text)


def rt(text, new):
    out, i = [], 0
    for m in RT_SKIP.finditer(text):
        out.append(turned(text[i : m.start()], new))
        out.append(comment(m[0], new) if m[0].startswith("//") else m[0])
        i = m.end()
    out.append(turned(text[i:], new))
    return "".join(out)


def edit(text, new):
    return "".join(turned(l, new) if re.match(r"(old|new):", l) else comment(l, new) if l.startswith("#") else l for l in text.splitlines(keepends=True))


def main(argv):
    new, camel, kebab, plain, where = table()
    if argv == ["--table"]:
        for a, b in sorted(new.items()):
            print(a + "\t" + b)
        return 0
    if "fieldRow" in new:  # the names of FIRST are still those that port.py gave
        first()
    for kind, turn in ((".antt", antt), (".rt", rt), (".edit", edit)):
        for p in files(kind):
            t = open(p, encoding="utf-8").read()
            s = turn(t, new)
            if s != t:
                open(p, "w", encoding="utf-8").write(s)
    return 0


if __name__ == "__main__":
    sys.exit(main(sys.argv[1:]))
