#!/usr/bin/env python3
# Runs the examples of pages, whose blocks of code are pairs: a command for bash, and what it writes. Usage: shown.py PAGE... Ends with 1
# if something else is written, or a page has no example.
import pathlib
import subprocess
import sys

HERE = pathlib.Path(__file__).resolve().parent.parent


def blocks(page):
    """the page's blocks of code, without their indent, each with the number of its first line"""
    found, block, start = [], [], 0
    for number, line in enumerate(page.read_text().splitlines() + ["end"], 1):
        if line.startswith("    "):
            start = start or number
            block.append(line[4:])
        elif block:
            found.append((start, block))
            block, start = [], 0
    return found


failed = tried = 0
for name in sys.argv[1:]:
    found = blocks(HERE / name)
    if not found or len(found) % 2:
        sys.exit("shown: %s: its blocks are no pairs of a command and what it writes" % name)
    for (line, command), (_, due) in zip(found[::2], found[1::2]):
        ran = subprocess.run(["bash", "-c", "\n".join(command)], cwd=HERE, stdout=subprocess.PIPE, stderr=subprocess.STDOUT, timeout=60)
        tried += 1
        if ran.stdout != "".join(word + "\n" for word in due).encode():
            failed += 1
            print("shown: %s:%d: what is written is\n%s" % (name, line, ran.stdout.decode(errors="replace")), file=sys.stderr)
if failed or not tried:
    sys.exit("shown: %d of %d examples write something else than their page says" % (failed, tried))
print("shown: %d examples of %d page(s) write what is said" % (tried, len(sys.argv) - 1))
