#!/bin/sh
# Runs the tests of the cursor in a copy of the crates. See README.md.
set -e
here=$(cd "$(dirname "$0")" && pwd)
top=$(cd "$here/../.." && pwd)
work=$(mktemp -d)
trap 'rm -rf "$work"' EXIT
cp "$top/HANDLES" "$work/"
for crate in rdb_base rdb_schema rdb_pages rdb_cells rdb_rows rdb_objects rdb_hash rdb_tree rdb_access rdb_sight rdb_space rdb_model rdb_history rdb_shown rdb_store rdb_cursor; do
    mkdir -p "$work/crates/$crate"
    for part in src specs proofs; do
        cp -r "$top/crates/$crate/$part" "$work/crates/$crate/"
    done
    grep "^$crate[: ]" "$top/crates.txt" >> "$work/crates.txt"
done
cp "$here/tests.rt.txt" "$work/crates/rdb_cursor/src/tests.rt"
cp "$here/OneMark.antt.txt" "$work/crates/rdb_cursor/specs/OneMark.antt"
echo "pub mod OneMark" >> "$work/crates/rdb_cursor/specs/Lib.antt"
printf '\n#[cfg(test)]\nmod tests;\n' >> "$work/crates/rdb_cursor/src/lib.rt"
cd "$work/crates/rdb_cursor" && rt try --test
