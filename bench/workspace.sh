# Each benchmark's run.sh reads this first. It works in a temporary folder, which is taken away at the end.
set -e
here=$(cd "$(dirname "$0")" && pwd)
top=$(cd "$here/../.." && pwd)
work=$(mktemp -d)
trap 'rm -rf "$work"' EXIT

# lay_out PROGRAM CRATE...: a workspace with these crates of the repository, and the benchmark's program over them
lay_out() {
    program=$1
    shift
    cp "$top/HANDLES" "$work/"
    for crate in "$@"; do
        mkdir -p "$work/crates/$crate"
        for part in src specs proofs; do
            cp -r "$top/crates/$crate/$part" "$work/crates/$crate/"
        done
        grep "^$crate[: ]" "$top/crates.txt" >> "$work/crates.txt"
    done
    echo "$program: $*" >> "$work/crates.txt"
    mkdir -p "$work/crates/$program/src"
    cp "$here/main.rt.txt" "$work/crates/$program/src/main.rt"
}
