#!/usr/bin/env python3
"""Lists the places in src/ of each form that docs/DESIGN-PASS.md speaks of: tools/forms.py [POINT..], at the top of the repository.

It reads text, not the language: a line that it prints is a place to look at, and the page says what was decided there.
"""
import glob
import re
import sys

FILES = {file: open(file, encoding="utf-8").read() for file in sorted(glob.glob("crates/*/src/*.rt"))}
CODE = {file: re.sub(r"//.*", "", text) for file, text in FILES.items()}


def line(file, at):
    return f"{file[len('crates/'):]}:{CODE[file].count(chr(10), 0, at) + 1}"


def block(text, at):
    """Returns where the braces or parentheses that open at `at` close."""
    depth = 0
    for i in range(at, len(text)):
        depth += (text[i] in "({") - (text[i] in ")}")
        if depth == 0:
            return i
    return len(text)


def functions():
    for file, text in CODE.items():
        for m in re.finditer(r"^ *(?:pub )?(?:extern \"C\" )?fn (\w+)(?:<[^(]*>)?\(", text, re.M):
            close = block(text, m.end() - 1)
            names = [it.split(":") for it in re.split(r",\s*(?![^<(\[]*[>)\]])", text[m.end():close]) if ":" in it]
            # the body opens at the last brace that stands alone at the function's own depth
            at = close
            while True:
                at = text.index("{", at + 1)
                end = block(text, at)
                head = text[close:at].rstrip()
                if not re.search(r"(requires|ensures)\*?( \w+)?$", head):
                    break
                at = end
            yield file, m.start(), m.group(1), [(n.strip(), t.strip()) for n, t in ((it[0], ":".join(it[1:])) for it in names)], text[close + 1:at], text[at:end + 1]


def enums():
    for file, text in CODE.items():
        for m in re.finditer(r"^(?:pub )?enum (\w+) \{", text, re.M):
            body = text[m.end():block(text, m.end() - 1)]
            flat = re.sub(r"\([^)]*\)|\{[^}]*\}", lambda it: "*" if it.group().strip("(){} \n") else "", body)
            variants = [it.strip() for it in flat.split(",") if it.strip()]
            yield file, m.start(), m.group(1), variants


def point1():
    for file, at, name, variants in enums():
        values = [it for it in variants if "*" in it]
        if values:
            yield line(file, at), f"enum {name}: {', '.join(variants)}"
    for file, text in CODE.items():
        for m in re.finditer(r"^(?:pub )?struct (\w+) \{([^}]*)\}", text, re.M):
            if ": bool" in m.group(2):
                yield line(file, m.start()), f"struct {m.group(1)} with a flag"
        for m in re.finditer(r"\b(Refused|Stopped|Ended)\b[^,\n]*\bu32\b", text):
            yield line(file, m.start()), f"number for a refusal: {m.group(0).strip()}"


def shape(text):
    text = re.sub(r"\b(u8|u16|u32|u64|usize|f32|f64)\b", "#", text)
    text = re.sub(r"\b\d[\d_.]*\b", "0", text)
    return re.sub(r"\s+", " ", text)


def point2():
    known = {}
    for file, at, name, parameters, clauses, body in functions():
        if body.count("\n") < 3:
            continue
        words = {}
        # names are told apart only by where they stand
        form = re.sub(r"\b[a-z_]\w*\b", lambda it: words.setdefault(it.group(), f"v{len(words)}"), shape(body))
        known.setdefault(form, []).append((line(file, at), name))
    for group in known.values():
        if len(group) > 1:
            for where, name in group:
                yield where, f"{name}: as " + ", ".join(f"{n} ({w.split('/')[0]})" for w, n in group if (w, n) != (where, name))


def point3():
    for file, text in CODE.items():
        for m in re.finditer(r"^ *while (.*) \{$", text, re.M):
            yield line(file, m.start()), f"while {m.group(1)}"


def point4():
    for file, at, name, parameters, clauses, body in functions():
        arms = re.findall(r"=> (\d[\d_]*|true|false),", body)
        if len(arms) > 1 and "match" in body:
            yield line(file, at), f"{name}: numbers or truths by a match"
        elif re.search(r"^(same_|equal_|is_same|less$|earlier$|precedes$|comes_first$|total_|agrees$|repeated$)", name):
            yield line(file, at), f"{name}: a comparison"
        elif re.search(r"^(item_of|kind_of|part_of|form_of|\w+_of_bits|\w+_from)$", name):
            yield line(file, at), f"{name}: a conversion"


def point5():
    for file, at, name, parameters, clauses, body in functions():
        if len(parameters) > 8:
            yield line(file, at), f"{name}: {len(parameters)} parameters"


def point6():
    for file, at, name, parameters, clauses, body in functions():
        names = [n for n, _ in parameters]
        kinds = dict(parameters)
        for a, b in (("words", "reals"), ("keys", "events"), ("edge_words", "edge_reals"), ("triangle_words", "triangle_reals"), ("piece_words", "piece_reals")):
            if a in names and b in names and "[" in kinds[a]:
                yield line(file, at), f"{name}: {a} beside {b}"
                break


def point7():
    for file, at, name, parameters, clauses, body in functions():
        calls = re.findall(r"=> (?:[a-z_]\w*::)?[a-z_]\w*\(", body)
        if len(calls) > 2 and "match" in body:
            yield line(file, at), f"{name}: {len(calls)} arms that only call"


points = sys.argv[1:] or list("1234567")
for point in points:
    places = sorted(set(globals()[f"point{point}"]()))
    print(f"point {point}: {len(places)}")
    for where, what in places:
        print(f"  {where} {what}")
