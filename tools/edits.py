#!/usr/bin/env python3
# Looks for wrong edits that no longer fit: what an edit replaces stands once in its file, as the edit's earlier pairs leave it, something else
# comes in its place, and every line of the edit is read. Ends with 1 if there is any; that each edit is refused is the gate's to try.
import pathlib
import re
import sys

HERE = pathlib.Path(__file__).resolve().parent.parent
unfit = 0


def complain(edit, words):
    global unfit
    unfit += 1
    print("edits: %s: %s" % (edit.relative_to(HERE), words), file=sys.stderr)


def look(edit):
    crate = edit.parent.parent
    file = old = None
    texts = {}
    for line in edit.read_text().splitlines():
        if line.startswith("file: "):
            file = line[6:].strip()
            if not file.startswith(("src/", "specs/", "proofs/")) or not (crate / file).is_file():
                complain(edit, "there is no file " + file)
                return
            texts.setdefault(file, (crate / file).read_text())
        elif line.startswith("old: ") and file and old is None:
            old = line[5:]
        elif line.startswith(("new: ", "new:")) and old is not None:
            new = line[5:]
            count = texts[file].count(old)
            if count != 1:
                complain(edit, "what it replaces stands there %d times" % count)
            if new == old:
                complain(edit, "it changes nothing")
            texts[file] = texts[file].replace(old, new)
            old = None
        else:
            complain(edit, "a line that is none of an edit: " + line)
    if old is not None or not texts:
        complain(edit, "it has no pair of lines, or half of one")


edits = sorted(HERE.glob("crates/*/must-fail/*.edit"))
for other in sorted({*HERE.glob("crates/*/must-fail/**/*")} - {*edits}):
    complain(other, "it is no edit")
for edit in edits:
    if not re.fullmatch(r"[A-Za-z0-9_-][A-Za-z0-9_.-]*\.edit", edit.name):
        complain(edit, "a name that rt ci does not take")
    look(edit)
if not unfit:
    print("edits: %d, and each fits" % len(edits))
sys.exit(1 if unfit else 0)
