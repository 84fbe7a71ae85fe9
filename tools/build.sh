#!/usr/bin/env bash
# Builds what is used outside the prover: the programs into target/bin, the static library into target/staticlib. A crate is proved first, or nothing is built of it.
#
#     bash tools/build.sh [NAME..]                from anywhere in the repository; no name: all of them
set -uo pipefail
cd "$(dirname "$0")/.." || exit 2

failed=0
mkdir -p target/bin target/staticlib

# `rt run` proves, builds and runs; the run itself is of no interest here.
build_program() { # NAME
    rm -f "crates/$1/out/$1"
    (cd "crates/$1" && rt run) </dev/null >"target/$1.log" 2>&1
    if [ -x "crates/$1/out/$1" ]; then
        cp -f "crates/$1/out/$1" "target/bin/$1"
    else
        cat "target/$1.log"
        echo "$1 was not built"
        failed=1
    fi
}

# The functions of `exports` for C: the crate `exports_c` has an export for each.
build_library() {
    if (cd crates/exports_c && rt lib) >target/exports.log 2>&1 && [ -f crates/exports_c/out/libexports_c.a ]; then
        cp -f crates/exports_c/out/libexports_c.a target/staticlib/libexports.a
    else
        cat target/exports.log
        echo "libexports.a was not built"
        failed=1
    fi
}

if [ $# -eq 0 ] || [[ " $* " == *" exports "* ]]; then build_library; fi
for main in crates/*/src/main.rt; do
    name=$(basename "$(dirname "$(dirname "$main")")")
    if [ $# -eq 0 ] || [[ " $* " == *" $name "* ]]; then build_program "$name"; fi
done
exit $failed
