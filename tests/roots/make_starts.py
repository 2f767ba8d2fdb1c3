#!/usr/bin/env python3
"""Writes the table of the crate root_starts again, from the repository's root: its two forms in the source, and its numbers and the arms of the
look-up in the proofs. The numbers come from Python's own whole root."""
from math import isqrt
from pathlib import Path

CRATE = Path(__file__).resolve().parents[2] / "crates" / "root_starts"
STARTS = [isqrt(65536 * k) for k in range(256, 1024)]
MIDDLES = [STARTS[i] + 4 for i in range(256)] + [STARTS[2 * i] + 6 for i in range(128, 384)]


def replace(path, begin, end, text):
    """Puts text between the line that ends with begin and the line that is end."""
    lines = (CRATE / path).read_text().split("\n")
    a = next(i for i, line in enumerate(lines) if line.endswith(begin)) + 1
    b = next(i for i in range(a, len(lines)) if lines[i] == end)
    (CRATE / path).write_text("\n".join(lines[:a] + text + lines[b:]))


def chain(numbers, width):
    text = [str(n) + " ∷" for n in numbers] + ["[]"]
    return ["    " + " ".join(text[i : i + width]) for i in range(0, len(text), width)]


replace("src/lib.rt", "const STARTS: [u16; 768] = [", "];", [f"    {n}," for n in STARTS])
replace("src/lib.rt", "match j {", "        _ => 0,", [f"        {256 + i} => {n}," for i, n in enumerate(MIDDLES)])
replace("proofs/Table.antt", "starts =", "", chain(STARTS, 24))
replace("proofs/Table.antt", "middles =", "", chain(MIDDLES, 24))
names = ["returns"] + [f"returns-{i}" for i in range(2, 514)]
arms = [line for i, n in enumerate(names[:512]) for line in (f"{n} : tie.Need-{n}", f"{n} c = arm {i} tt (c .match .keys{i + 1})", "")]
replace("proofs/quick_start/Proof.antt", "-- ---- the arms", "-- ---- none of them", arms)
