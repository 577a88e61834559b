# Copies benches into a copy of the repository, so that its crates.txt stays as it is. To be read by `.`; needs $top, the
# repository, and gives $copy, which goes when the caller ends. Folders with the name in $without are not copied.
#
# A bench's sources end in .rt.txt, its specs and proofs in .antt.txt, since the gate takes every .rt and .antt file for one
# of a crate.
copy=$(mktemp -d)
trap 'rm -rf "$copy"' EXIT
tar -C "$top" ${without:+--exclude="$without"} -cf - HANDLES crates.txt crates | tar -C "$copy" -xf -

# The bench $1 becomes the crate bench_$1 of the copy.
add_bench() {
    mkdir -p "$copy/crates/bench_$1/src"
    for source in "$top/bench/$1"/*.rt.txt; do
        cp "$source" "$copy/crates/bench_$1/src/$(basename "$source" .txt)"
    done
    for part in specs proofs; do
        if [ -d "$top/bench/$1/$part" ]; then
            cp -r "$top/bench/$1/$part" "$copy/crates/bench_$1/$part"
            find "$copy/crates/bench_$1/$part" -name '*.txt' | while read -r file; do
                mv "$file" "${file%.txt}"
            done
        fi
    done
    cat "$top/bench/$1/deps.txt" >>"$copy/crates.txt"
}
