#!/bin/sh
# build.sh SOURCES [LIB]: builds the oracle from the port's source (take.sh) into its own folder, once without and once with
# overflow checks. LIB, if given, is the folder of libzagxuli.a, which library/build makes in target/staticlib: then the comparisons
# with our side (src/ours.rs) are built too.
set -eu
lib=${2:+$(cd "$2" && pwd)}
"$(dirname "$0")/take.sh" "$1"
cd "$(dirname "$0")"
ours=${lib:+--cfg ours -L $lib -l static=zagxuli}
for checks in off on; do
    # shellcheck disable=SC2086
    rustc --edition 2021 -O -C overflow-checks=$checks -C debug-assertions=$checks $ours -o "oracle-$checks" src/main.rs
done
