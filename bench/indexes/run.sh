#!/bin/sh
# Measures the hash index and the tree index beside Rust's maps and LMDB. See README.md.
. "$(dirname "$0")/../workspace.sh"
lay_out indexes_bench rdb_base rdb_schema rdb_access rdb_pages rdb_cells rdb_space rdb_rows rdb_hash rdb_tree rdb_trials
for part in "$here"/*.rt.txt; do
    cp "$part" "$work/crates/indexes_bench/src/$(basename "$part" .txt)"
done
for part in $(cd "$here" && find specs proofs -name '*.antt.txt'); do
    mkdir -p "$work/crates/indexes_bench/$(dirname "$part")"
    cp "$here/$part" "$work/crates/indexes_bench/${part%.txt}"
done
cargo build --quiet --release --manifest-path "$here/plain/Cargo.toml" --target-dir "$work/target"
cc -O2 -o "$work/lmdb" "$here/lmdb.c" -llmdb
(cd "$work/crates/indexes_bench" && rt run) > "$work/ours"
# in turn, so that all meet what else the machine does
for turn in 1 2 3; do
    "$work/target/release/plain" >> "$work/plain"
    "$work/lmdb" "$work/pairs" >> "$work/lmdb.out"
    rm -f "$work/pairs" "$work/pairs-lock"
    "$work/crates/indexes_bench/out/indexes_bench" >> "$work/ours"
done
# the least of the rounds of each, in nanoseconds a call, and the ratios of ours to the others
least() { grep "^$1 " "$2" | cut -d' ' -f2 | sort -n | head -1; }
for count in 1000 30000 300000; do
    for call in hash-put hash-found hash-removed tree-put tree-found tree-sought tree-removed; do
        ours=$(least "$call-$count" "$work/ours")
        plain=$(least "$call-$count" "$work/plain")
        lmdb=$(least "$call-$count" "$work/lmdb.out")
        echo "$call-$count $ours $plain ${lmdb:-0}" | awk '{
            printf "%s: %s ns, in Rust %s ns, ratio %.1f", $1, $2, $3, $2 / $3
            if ($4 > 0) printf ", in LMDB %s ns, ratio %.1f", $4, $2 / $4
            printf "\n"
        }'
    done
done
