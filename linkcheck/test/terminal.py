#!/usr/bin/env python3
"""Runs a command with descriptors at a terminal of its own, and writes what came there. Usage: terminal.py DESCRIPTORS COMMAND..., where
descriptors are digits, as 2 or 12; what isn't at the terminal goes to nothing. Ends with the command's status."""
import os
import pty
import subprocess
import sys

ours, theirs = pty.openpty()
where = [theirs if str(number) in sys.argv[1] else subprocess.DEVNULL for number in range(3)]
process = subprocess.Popen(sys.argv[2:], stdin=where[0], stdout=where[1], stderr=where[2])
os.close(theirs)
while True:
    try: told = os.read(ours, 4096)
    except OSError: break
    if not told: break
    sys.stdout.buffer.write(told)
sys.exit(process.wait())
