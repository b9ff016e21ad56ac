#!/usr/bin/env bash
# Builds the reference checker for C programs: target/reference/release/libreference_c.a. Needs cargo.
set -euo pipefail
cd "$(dirname "$0")/../.."
cargo build --quiet --release --offline --manifest-path compare/reference_c/Cargo.toml --target-dir target/reference
