#!/usr/bin/env bash
# Other programs `assemble` and `disassemble` held against the reference's, byte for byte.
#
#     tools/assembly.sh [ASSEMBLE DISASSEMBLE [--seed S] [--count N] [--case N] [--limit SECONDS]]
set -euo pipefail
here=$(dirname "$0")/..
assemble=$(realpath -m "${1:-$here/../crates/assemble/out/assemble}")
disassemble=$(realpath -m "${2:-$here/../crates/disassemble/out/disassemble}")
cd "$here"
cargo build --release --offline --quiet --bin assembly
"${CARGO_TARGET_DIR:-target}/release/assembly" compare "$assemble" "$disassemble" "${@:3}"
