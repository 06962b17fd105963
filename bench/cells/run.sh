#!/bin/sh
# Measures reads through plans and undo records, and the calls of a region's memory. See README.md.
. "$(dirname "$0")/../workspace.sh"
lay_out cells_bench rdb_base rdb_schema rdb_pages rdb_cells rdb_space
cp "$here/region.rt.txt" "$work/crates/cells_bench/src/region.rt"
for part in "$here"/invariants_*.antt.txt; do
    name=$(basename "$part" .antt.txt)
    mkdir -p "$work/crates/cells_bench/proofs/${name#invariants_}"
    cp "$part" "$work/crates/cells_bench/proofs/${name#invariants_}/Invariants.antt"
done
(cd "$work/crates/cells_bench" && rt run) > "$work/out"
# the least of the rounds of each, in nanoseconds a call
awk '
    { key = $1 " " $2; if (!(key in least) || $3 < least[key]) least[key] = $3 }
    END {
        print "logged cells: as it stands, overlay, settled, a scan (nanoseconds a read); ratios overlay and settled to as it stands"
        for (n = 10; n <= 1000; n *= 10) {
            bare = least[n " bare"]; over = least[n " overlay"]; settled = least[n " settled"]
            printf "%d: %s, %s, %s, %s; %.2f %.2f\n", n, bare, over, settled, least[n " scan"], over / bare, settled / bare
        }
        print "calls of the memory at 64 and at 16,384 pages (nanoseconds a call); ratio"
        split("read write room free_after", calls)
        for (i = 1; i <= 4; i++) {
            small = least["64 " calls[i]]; large = least["16384 " calls[i]]
            printf "%s: %s, %s; %.2f\n", calls[i], small, large, large / small
        }
    }
' "$work/out"
