#!/usr/bin/env python3
# Looks for what pages and comments name and the repository doesn't have: links of the pages, and files named in pages and in comments of
# .rt and .antt files (`reader/specs/Text`, specs/Faults, proofs/Lowest, tools/inlined.sh). Ends with 1 if there is any.
import pathlib
import re
import sys

HERE = pathlib.Path(__file__).resolve().parent.parent
CRATES = HERE / "crates"
HISTORY = HERE / "docs" / "LANDINGS.md"  # it names what was there
LINK = re.compile(r"\[[^\]]*\]\(([^)#\s]+)(?:#[^)]*)?\)")
# A file of specs/ or proofs/, with the crate before it or in the crate at hand; the endings are left out.
PART = re.compile(r"(?<![\w/.-])(?:(?:crates/)?(\w+)/)?(specs|proofs)/([A-Z]\w*)\b")
PLAIN = re.compile(r"(?<![\w/.-])((?:tools|compare|bench|linkcheck|examples|include|docs|store)/[\w./-]*\w\.(?:sh|py|c|h|md|txt|tsv))\b")
COMMENT = {".rt": re.compile(r"//(.*)"), ".antt": re.compile(r"--(.*)")}
missing = []


def look(file, number, text, crate):
    where = "%s:%d" % (file.relative_to(HERE), number)
    for named, part, name in PART.findall(text):
        base = named or crate
        if base and (CRATES / base).is_dir() and not any((CRATES / base / part / (name + end)).exists() for end in ("", ".antt")):
            missing.append("%s: %s/%s/%s is not there" % (where, base, part, name))
    for path in PLAIN.findall(text) if file != HISTORY else []:
        if not (HERE / path).exists():
            missing.append("%s: %s is not there" % (where, path))


for page in sorted(HERE.glob("**/*.md")):
    if {"target", "out"} & {*page.relative_to(HERE).parts}:
        continue
    for number, line in enumerate(page.read_text().splitlines(), 1):
        look(page, number, line, None)
        for link in LINK.findall(line):
            if "://" not in link and not (page.parent / link).exists():
                missing.append("%s:%d: the link %s leads nowhere" % (page.relative_to(HERE), number, link))
# What rt keeps in out/ is no source.
for source in sorted(p for end in COMMENT for part in ("src", "specs", "proofs") for p in CRATES.glob("*/%s/**/*%s" % (part, end))):
    crate = source.relative_to(CRATES).parts[0]
    for number, line in enumerate(source.read_text().splitlines(), 1):
        for comment in COMMENT[source.suffix].findall(line):
            look(source, number, comment, crate)
for line in missing:
    print("pages: " + line, file=sys.stderr)
if not missing:
    print("pages: every link and every file that is named is there")
sys.exit(1 if missing else 0)
