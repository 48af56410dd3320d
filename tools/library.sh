#!/usr/bin/env bash
# Write target/staticlib/libexports.a, the functions of include/runtime.h: crates/exports_c and what it stands on, proved.
set -euo pipefail
cd "$(dirname "$0")/.."
(cd crates/exports_c && rt lib)
mkdir -p target/staticlib
cp crates/exports_c/out/libexports_c.a target/staticlib/libexports.a
