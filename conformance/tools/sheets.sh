#!/usr/bin/env bash
# Another program's exam sheets held against the reference's, byte for byte.
#
#     tools/sheets.sh [PROGRAM [--seed S] [--count N] [--case N] [--limit SECONDS]]
set -euo pipefail
here=$(dirname "$0")/..
program=$(realpath -m "${1:-$here/../crates/exam_sheet/out/exam_sheet}")
cd "$here"
cargo build --release --offline --quiet --bin sheets
target/release/sheets compare "$program" "${@:2}"
