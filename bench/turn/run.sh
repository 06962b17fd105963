#!/bin/sh
# Measures the turn lock beside a Mutex. See README.md.
. "$(dirname "$0")/../workspace.sh"
lay_out turn_bench rdb_base rdb_turn
mkdir -p "$work/crates/turn_bench/proofs/main"
cp "$here/invariants.antt.txt" "$work/crates/turn_bench/proofs/main/Invariants.antt"
mutex() {
    cargo run --quiet --release --manifest-path "$here/mutex/Cargo.toml" --target-dir "$work/target"
}
mutex > "$work/mutex_before"
(cd "$work/crates/turn_bench" && rt run) > "$work/turn"
mutex > "$work/mutex_after"
awk '
    $1 == "mutex" { run = $2 " " $3; turns[run] += $4 / 2; hands[run] += $5 / 2; busy[run] += $6 / 200 }
    $1 == "turn" { run = $2 " " $3; own_turns[run] = $4; own_hands[run] = $5; own_busy[run] = $6 / 100 }
    function ratio(a, b) { return b > 0 ? sprintf("%.2f", a / b) : "-" }
    END {
        print "work inside in ns, threads; turns a second: turn lock, mutex, ratio; hand-overs a second: turn lock, mutex, ratio;" \
            " processor time by wall time: turn lock, mutex"
        for (work = 0; work <= 200; work += 200)
            for (n = 1; n <= 16; n *= 2) {
                run = work " " n
                printf "%d %d  %.0f %.0f %s  %.0f %.0f %s  %.2f %.2f\n", work, n, own_turns[run], turns[run], \
                    ratio(own_turns[run], turns[run]), own_hands[run], hands[run], ratio(own_hands[run], hands[run]), own_busy[run], busy[run]
            }
    }
' "$work/mutex_before" "$work/turn" "$work/mutex_after"
