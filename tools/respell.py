#!/usr/bin/env python3
"""Spells the project's own definitions, lemmas, fields and constructors of antt in snake case: a capital inside a word and a dash become an underscore.

usage: tools/respell.py        at the top of the repository, once, on the tree that /opt/rattle/port/port.py left

What is declared in a crate's specs/, or in a lemma file of its proofs/, is respelt in every .antt file, in the clauses and ghost items of every .rt file, and in the
code spans of the pages. In a function's own proof files capitals alone are turned, since a dash there joins the parts of a name that Rattle makes.
Types, facts and modules keep their capital at the head. Functions of src/, exported names, strings, inputs and outputs are not touched.
Names that would fall together are listed, and nothing is written.
"""
import collections
import os
import re
import subprocess
import sys

NAME = r'[^\s(){}\[\].;,@"«»`λ]+'
TOKEN = re.compile(NAME)
DECL = re.compile(r"(?:(?:abbrev|unfoldable|pub|private)\s+)*(%s)(?:\s+[^:\s]+)*?\s+:(?:\s|$)" % NAME)
TYPE = re.compile(r"(?:abbrev |unfoldable |pub )*(record|data|ruleset)\s+(%s)" % NAME)
FIELD = re.compile(r"  (?:pub )?((?:%s\s+)*%s)\s+:\s" % (NAME, NAME))
LIBRARY = re.compile(r"^(?:pub )?(?:ghost )?(?:unfoldable )?(?:pub )?use (?!Rattle\.(?!std))([\w.ᴰ]+)\.\{([^}]*)\}")

# The library's lemmas that were brought in under a name with a middle dot: a namespace is a module, and no dot in a name.
DOTS = {
    "Bool·beq": "bool_beq",
    "List·getD-eq-default": "get_or-eq_default",
    "List·getD-append": "get_or-append",
    "List·getD-map": "get_or-map",
    "List·Memᴰ·cases-cons": "Mem-cases_cons",
    "List·Memᴰ·not-nil": "Mem-not_nil",
    "List·Memᴰ·append-cases": "Mem-append_cases",
    "Memᴰ·append-left": "Mem-append_left",
    "Memᴰ·append-right": "Mem-append_right",
    "List·Memᴰ·head": "Mem-head",
    "List·Memᴰ·tail": "Mem-tail",
    "List-as-Memᴰ": "Mem",
    "leb·zero": "leb-zero",
    "leb·suc-zero": "leb-suc-zero",
    "eqb·suc-zero": "eqb-suc-zero",
    "eqb·zero-suc": "eqb-zero-suc",
}
# Names that would meet another one: each gets a word that tells them apart.
APART = {
    "fromEnd": "is_from_end",
    "toEnd": "is_to_end",
    "rowCount": "count_of_rows",
    "row-end": "row_below",
    "owner_of": "owner_is",
    "join-of": "join_of_lem",
    "run-from": "run_from_lem",
    "same-words": "same_words_lem",
    "row-of": "row_of_lem",
    "slots-by": "slots_by_lem",
    "in-float": "in_float_lem",
    "in-range": "in_range_lem",
    "end-of": "end_of_lem",
    "next-of": "next_of_lem",
    "lines-of": "lines_of_lem",
    "row-at": "row_at_lem",
    "row-in": "row_in_lem",
    "row-line": "row_line_lem",
}
# Lemmas that would have a definition's name, each in its module: where it stands, and where it is brought in from there.
LEMMAS = {
    "laws_facts.specs.Nets": ["area_of"],
    "laws_local.specs.Nodes": ["free_of"],
    "laws_spelling.specs.Lines": ["same_bytes"],
    "paper.specs.Apart": ["spot_in"],
    "plan_lay.specs.Ends": ["node_end"],
    "step_flow.specs.Beyond": ["first_by"],
    "step_solve.specs.Settling": ["out_of_range"],
    "laws_breakers.specs.Breakers": ["is_open"],
}


def snake(name, dashes):
    if name[0].isupper():
        return name
    words = re.sub(r"(?<=[a-z0-9'])([A-Z])(?=[a-z])", lambda m: "_" + m[1].lower(), name)
    words = re.sub(r"(?<=[a-z0-9'])([A-Z])(?![a-z])", lambda m: "_" + m[1].lower(), words)
    return words.replace("-", "_") if dashes else words


def files(*ends):
    for folder, dirs, names in os.walk("crates"):
        dirs[:] = sorted(d for d in dirs if d != "out")
        for n in sorted(names):
            if n.endswith(ends):
                yield os.path.join(folder, n)


def of_function(path):
    parts = path.split("/")
    return parts[2] == "proofs" and len(parts) > 4


def declared(text):
    inside = False
    for line in text.split("\n"):
        if not line or line.startswith("--"):
            continue
        kind = TYPE.match(line.lstrip())
        if kind:
            inside = True
            yield kind[2]
            continue
        if line[0] != " ":
            inside = False
        it = DECL.match(line.lstrip())
        if it and it[1] not in ("use", "pub", "open"):
            yield it[1]
        elif inside:
            it = FIELD.match(line)
            if it:
                yield from it[1].split()


def read(path):
    with open(path, encoding="utf-8") as f:
        return f.read()


def tables():
    """The names to turn everywhere, and those to turn in one function's proofs alone."""
    wide, narrow, lent = {}, collections.defaultdict(dict), set()
    for p in files(".antt"):
        text = read(p)
        for line in text.split("\n"):
            it = LIBRARY.match(line)
            if it:
                for w in it[2].split(","):
                    lent.add(w.split(" as ")[-1].strip())
        for n in declared(text):
            new = APART.get(n) or snake(n, not of_function(p))
            if new != n:
                (narrow[p] if of_function(p) else wide)[n] = new
    for p in narrow:
        narrow[p] = {n: snake(n, False) for n in narrow[p]}
    both = sorted(n for n in wide if n in lent)
    for n in both:
        del wide[n]
    wide.update(APART)
    every = {n for p in files(".antt") if not of_function(p) for n in declared(read(p))}
    for line in part_them(wide, every):
        print("apart:", line)
    return wide, narrow, both


def turned(text, table, made=False):
    """With made, a word behind a dot is a name that Rattle makes of a function's."""

    def word(m):
        new = table.get(m[0], m[0])
        return snake(m[0], True) if made and new.endswith("_lem") and text[m.start() - 1 : m.start()] == "." else new

    return TOKEN.sub(word, text)


def lemmas(path, text):
    """The table of LEMMAS as it holds in one file, by what stands in it or is brought in; and the text with these turned."""
    module = path[len("crates/") : -len(".antt")].replace("/", ".")
    for home, names in LEMMAS.items():
        for n in names:
            if module == home or re.search(r"(?m)^(?:pub )?use Rattle\.%s\.\{[^}]*(?<![\w-])%s(?![\w-])" % (re.escape(home), n), text):
                text = re.sub(r"(?<![.\w-])%s(?![\w'-])" % n, n + "_lem", text)
    return text


# ---- a .rt file: ghost items and clauses
def in_rust(text, table):
    out, at = [], 0
    for m in re.finditer(r"(?m)^ *(?:pub )?ghost use [^;]*;|\b(?:requires|ensures|ghost|decreases|invariant)\*?(?: +\w+)?:? *\{", text):
        if m.start() < at:
            continue
        end = m.end()
        if text[end - 1] == "{":
            depth = 1
            while depth:
                depth += {"{": 1, "}": -1}.get(text[end], 0)
                end += 1
        out += [text[at : m.start()], turned(text[m.start() : end], table)]
        at = end
    return "".join(out) + text[at:]


def in_spans(text, table):
    def span(m):
        return "`" + turned(m[1], table) + "`"
    return re.sub(r"`([^`\n]+)`", span, text)


def in_comments(text, table):
    return re.sub(r"(?m)^( *)(--|//)(.*)$", lambda m: m[1] + m[2] + in_spans(m[3], table), text)


def antt(text, table, made):
    lines = []
    for line in text.split("\n"):
        if line.lstrip().startswith("--"):
            lines.append(in_comments(line, table))
        else:
            lines.append(turned(line, table, made))
    return re.sub(r"(\S+) as (\S+?)(?=[,}])", lambda m: m[1] if m[1] == m[2] else m[0], "\n".join(lines))


def part_them(wide, every):
    """A lemma or a field that would have a definition's name gets _lem, as the library has it."""
    told = []
    for p in files(".antt"):
        code = "\n".join(l for l in read(p).split("\n") if not l.lstrip().startswith("--"))
        seen = collections.defaultdict(set)
        for m in TOKEN.finditer(code):
            if m[0] in every:
                seen[wide.get(m[0], m[0])].add(m[0])
        for new, old in seen.items():
            camel = [n for n in old if re.search("[a-z][A-Z]", n)]
            old = {n for n in old if "-" in n or n in camel}
            if len(old) > 1 and len(camel) == 1:
                for n in old - set(camel):
                    APART[n] = wide[n] = new + "_lem"
                    told.append(f"{p}: {n} -> {new}_lem, beside {camel[0]}")
    return told


def meeting(path, before, table):
    """Two words of one file that become one."""
    seen = collections.defaultdict(set)
    for m in TOKEN.finditer(before):
        seen[table.get(m[0], m[0])].add(m[0])
    for new, old in sorted(seen.items()):
        if len(old) > 1:
            yield f"{path}: {' '.join(sorted(old))} -> {new}"


def main():
    wide, narrow, both = tables()
    wide.update(DOTS)
    bad = []
    print("as the library has them, and left:", *both)
    new_text = {}
    for p in files(".antt", ".rt"):
        text = read(p)
        mine = set(declared(text)) if of_function(p) else set()
        table = {n: w for n, w in wide.items() if n not in mine} | narrow.get(p, {})
        code = "\n".join(l for l in text.split("\n") if not l.lstrip().startswith(("--", "//")))
        if p.endswith(".rt"):
            now = in_comments(in_rust(text, table), table)
            was, is_now = ({w for m in re.finditer(r"(?m)^ghost use [^;]*;", t) for w in TOKEN.findall(m[0])} for t in (text, in_rust(text, table)))
            for m in re.finditer(r"\bfn (\w+)\s*(?:<[^>]*>)?\(([^)]*)\)", text):
                for w in re.findall(r"(\w+):", m[2]):
                    if w in is_now - was:
                        bad.append(f"{p}: {w} is a ghost name and a parameter of {m[1]}")
            bad += meeting(p, "\n".join(m[0] for m in re.finditer(r"(?m)^ghost use [^;]*;", text)), table)
        else:
            text = lemmas(p, text)
            now = antt(text, table, of_function(p))
            code = "\n".join(l for l in text.split("\n") if not l.lstrip().startswith("--"))
            bad += meeting(p, code, table)
        if now != read(p):
            new_text[p] = now
    if bad and "--force" not in sys.argv:
        print("\n".join(bad))
        print(f"{len(bad)} to look at; nothing is written")
        return 1
    if "--list" in sys.argv:
        print("\n".join(f"{n} {w}" for n, w in sorted(wide.items())))
    pages = [p for p in subprocess.run(["git", "ls-files", "*.md"], capture_output=True, text=True).stdout.split()]
    for p in pages:
        text = read(p)
        now = in_spans(text, wide)
        if now != text:
            new_text[p] = now
    for p, t in new_text.items():
        with open(p, "w", encoding="utf-8") as f:
            f.write(t)
    print(f"{len(wide)} names, {len(new_text)} files")
    return 0


sys.exit(main())
