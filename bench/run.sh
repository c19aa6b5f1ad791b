#!/bin/sh
# Proves and builds the machine as a static library, links it with the plain one, compares the two and times them.
# From the repository's top: sh bench/run.sh
# The library is left in out/ by the name that it had before machine_export_c was a crate, for callers who link by that.
set -e
mkdir -p out
(cd crates/machine_export_c && rt lib) >out/bench.log 2>&1 || { cat out/bench.log; exit 1; }
cp crates/machine_export_c/out/libmachine_export_c.a out/libmachine_export.a
rustc --edition 2021 -C opt-level=3 bench/main.rs -o out/bench -L out -l static=machine_export
out/bench
