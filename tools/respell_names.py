#!/usr/bin/env python3
"""Spells the definitions and lemmas of specs/ and proofs/ as Rattle does: words in snake case, for camel case and dashes.

usage: tools/respell_names.py [--dry]   at the top of the repository; once, on the text of the older kit as the kit's own script leaves it

Names of src/, exported names, strings and what Rattle generates keep their spelling; types and modules keep their capitals.
Where two names would fall together, the later one takes the word that OTHERS gives it.
"""

import glob
import re
import sys

# A name that would be that of something else, and what it is called instead.
OTHERS = {
    "afterLine": "rest_after_line",
    "allDigits": "only_digits",
    "allHold": "every_one_holds",
    "allIn": "all_in_range",
    "apartBy": "apart_as_read",
    "bufferAfter": "buffer_written",
    "countBy": "count_for",
    "countFits": "count_is_allowed",
    "eachLine": "each_line_of",
    "fieldAt": "field_there",
    "freeOf": "sum_free_of",
    "inRows": "in_all_rows",
    "isDigit": "is_a_digit",
    "linesLeft": "lines_to_come",
    "loadLine": "line_loaded",
    "lookIn": "look_inside",
    "marksLine": "line_of_marks",
    "measureOf": "measure_value",
    "noKind": "no_entry",
    "noStep": "no_step_there",
    "numberAfter": "number_behind",
    "rowIs": "row_as_is",
    "rowMade": "made_row",
    "rowSeen": "seen_row",
    "rowTold": "told_row",
    "rowsAll": "all_rows_seen",
    "rowsFit": "rows_are_allowed",
    "sameBytes": "bytes_agree",
    "sameLines": "lines_agree",
    "stepIn": "step_inside",
    "walkedBy": "walked_under",
}

# What Rattle makes of a function's code is named after that code.
GENERATED = re.compile(r"(invariant|decreases)-loop")
TOKEN = re.compile(r"[^\s(){}\[\].,;:=|⌜⌝@\"`⟦⟧/<>&!*?#]+")


def read(path):
    with open(path, encoding="utf-8") as f:
        return f.read()


def files(pattern):
    return sorted(glob.glob(pattern, recursive=True))


def snake(name):
    words = re.sub(r"([a-z0-9])([A-Z])", lambda m: m[1] + "_" + m[2].lower(), name)
    return words.replace("-", "_")


def defined(text):
    for line in text.split("\n"):
        if line.startswith("use ") or line.lstrip().startswith("--"):
            continue
        for pattern in (r"^(?:unfoldable |abbrev |pub |mutual )*([^\s(){}:,;=|]+)\s*:", r"^\s+(?:pub |abbrev |unfoldable )*([a-z][^\s(){}:,;=|]*)\s*:", r"^\s*\|\s*([a-z][^\s(){}:,;=|]*)\s*:"):
            m = re.match(pattern, line)
            if m:
                yield m[1]


def aliases(text):
    return re.findall(r"\bas ([^\s,{};]+)", text)


def main(dry):
    antt = files("crates/*/specs/**/*.antt") + files("crates/*/proofs/**/*.antt")
    rust = files("crates/*/src/**/*.rt")
    edits = files("crates/*/must-fail/*.edit")
    texts = {p: read(p) for p in antt + rust + edits}
    names, used, ours = set(), set(), set()
    for p in antt:
        ours |= set(defined(texts[p]))
        ours |= {a for a in aliases(texts[p])}
    for p in antt + rust:
        lines = [l for l in texts[p].split("\n") if not l.lstrip().startswith(("--", "//"))]
        if p.endswith(".rt"):
            # The name of a function is none of a clause's.
            code = re.sub(r"\b(?:\w+::)*\w+\(|\bfn \w+|\w+::\w+", " ", "\n".join(l for l in lines if not re.match(r"(pub )?(ghost )?(use|mod) ", l)))
        else:
            code = "\n".join(re.sub(r"^use [^{]*", "", l) for l in lines)
        used |= set(TOKEN.findall(code))
    library = set()
    for p in antt + rust:
        for m in re.finditer(r"^(?:ghost )?use ([\w.+'-]+)\.\{([^}]*)\}", texts[p], re.M):
            crate = re.match(r"Rattle\.(\w+)\.", m[1])
            if not crate or crate[1] in ("std",):
                library |= {re.split(r"\s+as\s+", w.strip())[0] for w in m[2].split(",")}
    table, taken, bad = {}, {}, []
    # Definitions first: a lemma that would have its definition's name gets `_lem`.
    for n in sorted(ours, key=lambda n: ("-" in n, n)):
        if not re.match(r"[+]?[a-zμ]", n) or GENERATED.match(n) or n in ("◌⇒◌",):
            continue
        new = OTHERS.get(n, snake(n))
        if new == n:
            continue
        if n in library:
            bad.append(("library", n, new))
            continue
        if "-" in n and (new in used or new in ours or new in taken):
            new += "_lem"
        if new in used or new in ours:
            bad.append(("used", n, new))
            continue
        if new in taken:
            bad.append(("twice", n, new, taken[new]))
            continue
        taken[new] = n
        table[n] = new
    for b in bad:
        print(*b)
    print(len(table), "names")
    if dry:
        return
    for p in antt + edits:
        new = TOKEN.sub(lambda m: table.get(m[0], m[0]), texts[p])
        if new != texts[p]:
            open(p, "w", encoding="utf-8").write(new)
    for p in rust:
        # In code a dash is a minus; only camel case can't be Rust's.
        new = TOKEN.sub(lambda m: table.get(m[0], m[0]) if "-" not in m[0] else m[0], texts[p])
        if new != texts[p]:
            open(p, "w", encoding="utf-8").write(new)


main("--dry" in sys.argv)
