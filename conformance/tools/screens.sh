#!/usr/bin/env bash
# The file that question four is held to is what the reference and its mistaken versions print: made again, and compared.
set -euo pipefail
cd "$(dirname "$0")/.."
printed=$(mktemp)
trap 'rm -f "$printed"' EXIT
cargo run --release --offline --quiet --bin screens > "$printed"
diff ../crates/question_four/stdout "$printed"
echo "crates/question_four/stdout is what the other implementation prints"
