#!/bin/sh
# Measures versions, keys and objects beside the same work in Rust. See README.md.
. "$(dirname "$0")/../workspace.sh"
lay_out rows_bench rdb_base rdb_schema rdb_access rdb_pages rdb_cells rdb_space rdb_rows rdb_objects
for part in "$here"/*.rt.txt; do
    cp "$part" "$work/crates/rows_bench/src/$(basename "$part" .txt)"
done
for part in $(cd "$here" && find specs proofs -name '*.antt.txt'); do
    mkdir -p "$work/crates/rows_bench/$(dirname "$part")"
    cp "$here/$part" "$work/crates/rows_bench/${part%.txt}"
done
cargo build --quiet --release --manifest-path "$here/plain/Cargo.toml" --target-dir "$work/target"
(cd "$work/crates/rows_bench" && rt run) > "$work/ours"
# in turn, so that both meet what else the machine does
for turn in 1 2 3; do
    "$work/target/release/plain" >> "$work/plain"
    "$work/crates/rows_bench/out/rows_bench" >> "$work/ours"
done
# the least of the rounds of each, in nanoseconds a call, and the ratio of the two
for call in write read number text find-1000 find-30000 find-300000; do
    ours=$(grep "^$call " "$work/ours" | cut -d' ' -f2 | sort -n | head -1)
    plain=$(grep "^$call " "$work/plain" | cut -d' ' -f2 | sort -n | head -1)
    echo "$call $ours $plain" | awk '{ printf "%s: %s ns, in Rust %s ns, ratio %.2f\n", $1, $2, $3, $2 / $3 }'
done
