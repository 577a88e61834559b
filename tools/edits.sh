#!/bin/sh
# Tries the edits of tools/edits/NAME, which the prover must refuse:
#   sh tools/edits.sh NAME..            of these crates
#   sh tools/edits.sh --changed REV     of each crate whose src, specs or proofs changed since the commit REV
# The gate leaves them out, since the edits of a crate begin with a proof of it. They are tried before a
# change of the crate is handed in, on a copy of the repository, with what rt check kept in out/.
set -eu
top=$(cd "$(dirname "$0")/.." && pwd)
. "$top/tools/toolchain.sh"

usage() {
    echo "usage: sh tools/edits.sh NAME..  or  sh tools/edits.sh --changed REV" >&2
    exit 2
}

changed_since() {
    git -C "$top" diff --name-only "$1" -- crates | sed -n 's|^crates/\([^/]*\)/\(src\|specs\|proofs\)/.*|\1|p' | sort -u
}

case $#:${1-} in
0:) usage ;;
2:--changed)
    names=
    for name in $(changed_since "$2"); do
        [ ! -d "$top/tools/edits/$name" ] || names="$names $name"
    done
    set -- $names
    [ $# -gt 0 ] || { echo "no crate with edits in tools/edits has changed"; exit 0; }
    ;;
*:--*) usage ;;
esac

copy=$(mktemp -d)
trap 'rm -rf "$copy"' EXIT
cp -r "$top/HANDLES" "$top/crates.txt" "$top/crates" "$copy"
for name in "$@"; do
    [ -d "$top/tools/edits/$name" ] || { echo "tools/edits has no edits of $name" >&2; exit 2; }
    rm -rf "$copy/crates/$name/must-fail"
    cp -r "$top/tools/edits/$name" "$copy/crates/$name/must-fail"
done
cd "$copy"
echo "edits of: $*"
# A run of its own for each: the next crate is tried also where an edit of this one was let through.
status=0
for name in "$@"; do
    "$RT" must-fail "$name" || status=1
done
exit $status
