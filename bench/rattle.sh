#!/bin/sh
# Proves, builds and runs bench/NAME as a program of its own: sh bench/rattle.sh NAME [WORD..]
set -eu
name=$1
shift
top=$(cd "$(dirname "$0")/.." && pwd)
. "$top/bench/copy.sh"
add_bench "$name"
cd "$copy/crates/bench_$name"
rt run -- "$@"
