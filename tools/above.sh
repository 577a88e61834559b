#!/bin/sh
# Prints the crates that stand on a crate, the lowest first, each with the minutes of its row in the table
# of docs/CHECKING.md, and their sum: sh tools/above.sh NAME
set -eu
top=$(cd "$(dirname "$0")/.." && pwd)
[ $# = 1 ] || { echo "usage: sh tools/above.sh NAME" >&2; exit 2; }
awk -v name="$1" -f "$top/tools/above.awk" "$top/docs/CHECKING.md" "$top/crates.txt"
