#!/bin/sh
# Compiles benches without their proofs, all of them or those that are named: sh bench/compile.sh [NAME..]
# Fails where one doesn't compile. A bench is run for a moment too, and what came of that isn't looked at.
set -eu
top=$(cd "$(dirname "$0")/.." && pwd)
# What checks kept is not needed.
without=out
. "$top/bench/copy.sh"
if [ $# = 0 ]; then
    for main in "$top"/bench/*/main.rt.txt; do
        set -- "$@" "$(basename "$(dirname "$main")")"
    done
fi
failed=0
for name in "$@"; do
    add_bench "$name"
    cd "$copy/crates/bench_$name"
    status=0
    rt try --steps 1 --seconds 1 >"$copy/said" 2>&1 </dev/null || status=$?
    # From 1 to 3: it was refused, or couldn't be tried. All else is of the run.
    if [ "$status" -ge 1 ] && [ "$status" -le 3 ] && grep -q '^run=none' "$copy/said"; then
        cat "$copy/said"
        echo "bench/$name doesn't compile"
        failed=1
    else
        echo "bench/$name compiles"
    fi
done
exit "$failed"
