#!/usr/bin/env bash
# Runs rt with these arguments in the folder of a crate. Its own lines are shown as they come; where it fails, so is the end of all that was
# written, whatever it begins with. All of it goes to standard error; a program that rt runs reads nothing.
# Usage: rt.sh CRATE ARGUMENTS...
set -euo pipefail
cd "$(dirname "$0")/../crates/$1"
shift
command -v rt > /dev/null || { echo "rt, the Rattle toolchain, is not found" >&2; exit 127; }
log=$(mktemp)
trap 'rm -f "$log"' EXIT
rt "$@" < /dev/null 2>&1 | tee "$log" | sed -un '/^rt:/p' >&2 || { tail -n 20 "$log" >&2; exit 1; }
