#!/bin/sh
# Measures the accessors beside the same work in Rust. See README.md.
. "$(dirname "$0")/../workspace.sh"
lay_out access_bench rdb_base rdb_schema rdb_access
cargo build --quiet --release --manifest-path "$here/plain/Cargo.toml" --target-dir "$work/target"
(cd "$work/crates/access_bench" && rt run) > "$work/ours"
"$work/target/release/plain" > "$work/plain"
# the least of the rounds of each, in nanoseconds a call, and the ratio of the two
for call in number encode decode; do
    ours=$(grep "^$call " "$work/ours" | cut -d' ' -f2 | sort -n | head -1)
    plain=$(grep "^$call " "$work/plain" | cut -d' ' -f2 | sort -n | head -1)
    echo "$call $ours $plain" | awk '{ printf "%s: %s ns, in Rust %s ns, ratio %.2f\n", $1, $2, $3, $2 / $3 }'
done
