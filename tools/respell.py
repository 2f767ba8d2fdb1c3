#!/usr/bin/env python3
"""Respells the repository's own definitions, lemmas and fields in snake case: totalKey and total-key become total_key.

usage: tools/respell.py [--check]        at the top of the repository

A name is the repository's own where a file of specs/, or of proofs/ other than a function's folder, declares it. Types, modules, names that Rattle
makes, functions of src/ and names of the library stay. It rewrites crates/*/{specs,proofs}/**.antt, the clauses and comments of crates/*/src/*.rt, crates/*/must-fail/**.edit and
what the pages name in backticks. --check writes nothing. It prints where two names would fall together.
"""
import collections
import glob
import os
import re
import sys

TOKEN = re.compile(r"[^\s(){}.;,@\"«»\[\]\\`|]+")
WORDS = {"module", "where", "record", "data", "pub", "abbrev", "unfoldable", "unfolding", "use", "let", "in", "λ", "if", "then", "else", "mod", "as", "elim", "rw", "syntax", "infix", "infixl", "infixr", "ruleset"}


# Names that would fall together with another of the repository, or with a parameter where they are cited.
CHOSEN = {
    "allAre": "each_is",
    "atFront": "put_in_front",
    "edgeNumber": "edge_answer_number",
    "faceNumber": "face_answer_number",
    "vertexNumber": "vertex_answer_number",
    "windowNumber": "window_answer_number",
    "entriesFrom": "entries_from_link",
    "fitsIn": "field_fits_in",
    "goesBack": "goes_back_along",
    "headAt": "form_head_at",
    "inOrder": "queue_in_order",
    "movedLength": "length_moved",
    "nonePassed": "no_windows_passed",
    "noneYet": "empty_state",
    "notFinite": "bytes_not_finite",
    "numberRead": "value_read",
    "pieceReals": "piece_reals_of",
    "pieceWords": "piece_words_of",
    "pointAt": "offered_from_point",
    "sameOf": "same_comparison",
    "secondAt": "second_double_at",
    "toldOf": "told_run",
    "tooMany": "counts_too_many",
    "tooShort": "is_too_short",
    "unitRow": "unit_row_of",
    "windowReals": "window_reals_of",
    "windowWords": "window_words_of",
    "workIn": "work_slices_in",
}


def read(p):
    with open(p, encoding="utf-8") as f:
        return f.read()


def snake_part(p):
    if not p or p[0].isupper():
        return p
    p = re.sub(r"(?<=[a-z0-9])([A-Z])(?=[a-z0-9']|$)", lambda m: "_" + m[1].lower(), p)
    return p


def snake(n):
    return "_".join(snake_part(p) for p in n.split("-"))


def plain(n):
    return re.fullmatch(r"[a-z][A-Za-z0-9'\-_]*", n) is not None


def files():
    for p in sorted(glob.glob("crates/*/specs/**/*.antt", recursive=True) + glob.glob("crates/*/proofs/**/*.antt", recursive=True)):
        yield p


def is_function_file(p):
    """Whether a file answers the goals of a function, and declares no names of the repository's."""
    base, folder = os.path.basename(p), os.path.dirname(p)
    return base == "Proof.antt" or (base in ("Answers.antt", "Invariants.antt") and "/proofs/" in p)


def declared(text):
    out = set()
    for line in text.splitlines():
        m = re.match(r"^( *)((?:abbrev |unfoldable |pub )*)([^\s(){}:;]+(?: [^\s(){}:;]+)*) :( |$)", line)
        if m and not m[3].split()[0] in WORDS:
            for n in m[3].split():
                out.add(n)
    return out


def own_names():
    names = collections.defaultdict(set)
    for p in files():
        if is_function_file(p):
            continue
        for n in declared(read(p)):
            if plain(n) and snake(n) != n:
                names[n].add(p)
    return names


def imports(text):
    """The names that a file takes from elsewhere than this repository's crates."""
    out = set()
    for m in re.finditer(r"(?m)^(?:pub |ghost )?use ([^\s{]+?)\.\{([^}]*)\}", text):
        if m[1].startswith("Rattle.") and m[1].split(".")[1] in CRATES:
            if ".declared." not in m[1]:
                continue
        for n in m[2].split(","):
            n = n.strip()
            out.add(n.split(" as ")[-1].strip() if " as " in n else n)
    return out


CRATES = {os.path.basename(os.path.dirname(p)) for p in glob.glob("crates/*/src")}


def tokens(text):
    return set(TOKEN.findall(text))


def parameters(text):
    """What a source file binds: parameters, locals and fields of structs."""
    return set(re.findall(r"(?:\(|, |\bmut |\blet |^ *(?:pub )?)([a-z_][a-z0-9_]*)(?=: | = )", text, re.M))


def locals_of(text):
    """What a proof file binds in place."""
    out = set()
    for m in re.finditer(r"\blet ([^\s(){}:;]+)|λ ([^.→]*)\.|[({]([^\s(){}:;]+(?: [^\s(){}:;]+)*) : ", text):
        for g in m.groups():
            if g:
                out.update(TOKEN.findall(g))
    return out


def choose(names, texts):
    """Old name -> new name. A definition in camel case has the plain name; a lemma or field that would share it gets an ending."""
    by_token = collections.defaultdict(set)
    for p, t in texts.items():
        for n in tokens(t):
            by_token[n].add(p)
    lib = {p: imports(t) for p, t in texts.items()}
    bound = {p: (parameters(t) if p.endswith(".rt") else locals_of(t)) for p, t in texts.items()}
    own = collections.defaultdict(set)
    for p, t in texts.items():
        if p.endswith(".antt") and not is_function_file(p):
            for n in declared(t):
                if plain(n):
                    own[n].add(p)
    new, taken = {}, {}
    camel = sorted(n for n in names if re.search(r"[A-Z]", n) and "-" not in n)
    rest = sorted(n for n in own if n not in camel)

    fields = set()
    for p, t in texts.items():
        if p.endswith(".antt"):
            depth = None
            for line in t.splitlines():
                if re.match(r" *(pub )?record ", line):
                    depth = len(line) - len(line.lstrip())
                elif line.strip() and depth is not None and len(line) - len(line.lstrip()) <= depth:
                    depth = None
                elif depth is not None:
                    m = re.match(r" +(?:pub )?([^\s(){}:;]+) : ", line)
                    if m:
                        fields.add(m[1])

    def clash(n, s):
        return [p for p in by_token[n] if n not in lib[p] and (s in lib[p] or s in bound[p])]

    for n in camel:
        s = snake(n)
        if n in CHOSEN:
            s = CHOSEN[n]
        if s in taken or s in own or clash(n, s) or n in CHOSEN and any(s in tokens(t) for t in texts.values()):
            raise SystemExit(f"no name for {n}")
        taken[s] = n
        new[n] = s
    for n in rest:
        s = snake(n)
        if s == n:
            continue
        bad = clash(n, s) if s != n else []
        if s in taken or bad or s in own and s != n:
            print("rest:", n, "->", s, "meets", taken.get(s), s in own, bad[:4], sorted(own[n])[:2])
            s += "_held" if n in fields else "_lem"
            if s in taken or s in own:
                raise SystemExit(f"no name for {n}")
        taken[s] = n
        new[n] = s
    return {n: s for n, s in new.items() if n != s}


def in_clauses(text, swap, new):
    return TOKEN.sub(swap, text)


def main():
    check = "--check" in sys.argv
    sources = sorted(glob.glob("crates/*/src/**/*.rt", recursive=True))
    texts = {p: read(p) for p in [*files(), *sources]}
    new = choose(own_names(), texts)
    changed = 0
    for p, text in texts.items():
        kept = imports(text)
        swap = lambda m: new[m[0]] if m[0] in new and m[0] not in kept else m[0]
        if p.endswith(".rt"):
            out = in_clauses(text, swap, new)
        else:
            out = TOKEN.sub(swap, text)
        if out != text:
            changed += 1
            if not check:
                with open(p, "w", encoding="utf-8") as f:
                    f.write(out)
    swap = lambda m: new.get(m[0], m[0])
    for p in sorted(glob.glob("crates/*/must-fail/**/*.edit", recursive=True)):
        text = read(p)
        out = TOKEN.sub(swap, text)
        if out != text:
            changed += 1
            if not check:
                with open(p, "w", encoding="utf-8") as f:
                    f.write(out)
    for p in sorted(glob.glob("*.md") + glob.glob("docs/*.md") + glob.glob("tests/*.md") + glob.glob("oracle/*.md")):
        text = read(p)
        out = re.sub(r"`[^`\n]+`", lambda q: TOKEN.sub(swap, q[0]), text)
        if out != text:
            changed += 1
            if not check:
                with open(p, "w", encoding="utf-8") as f:
                    f.write(out)
    print(f"{len(new)} names, {changed} files")
    return new


if __name__ == "__main__":
    main()
