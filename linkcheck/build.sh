#!/usr/bin/env bash
# Builds target/bin/linkcheck over the proved libraries, which are made first where that is needed.
# Usage: build.sh [OUTPUT [COMPILER FLAGS]]
set -euo pipefail
cd "$(dirname "$0")/.."
output=${1:-target/bin/linkcheck}
libraries=(target/staticlib/lib{checker,lent_desk,duty,conversion,measuring,looking}.a)
tools/library.sh checker lent_desk duty conversion measuring looking
mkdir -p "$(dirname "$output")"
${CC:-cc} -std=c11 -Wall -Wextra -O2 "${@:2}" linkcheck/*.c "${libraries[@]}" -o "$output"
