#!/usr/bin/env bash
# Write target/standin/libexports.a: the functions of include/runtime.h with the reference behind them. Of its symbols only these
# functions are left to the linker, so that a Rust program links it too, though it has a standard library of its own inside.
#
#     tools/standin.sh
#     RUNTIME_ARCHIVE=target/standin/libexports.a cargo build --release --offline --features library
#
# With STANDIN_MISTAKE=TailBeforeDatum, say, in the environment of the program that links it, it has that mistake.
set -eu
cd "$(dirname "$0")/.."
cargo build --release --offline --quiet --example exports
mkdir -p target/standin
cd target/standin
rm -f exports.o libexports.a
ld -r -o exports.o -u runtime_step ../release/examples/libexports.a
objcopy --wildcard --keep-global-symbol='runtime_*' --keep-global-symbol='DW.ref.*' exports.o
ar rcs libexports.a exports.o
