#!/bin/sh
# Measures validation and the next event behind journals of two lengths. See README.md.
. "$(dirname "$0")/../workspace.sh"
lay_out validate_bench rdb_base rdb_schema rdb_model rdb_history rdb_mvcc rdb_events
mkdir -p "$work/crates/validate_bench/proofs/all_fit"
cp "$here/invariants_all_fit.antt.txt" "$work/crates/validate_bench/proofs/all_fit/Invariants.antt"
(cd "$work/crates/validate_bench" && rt run)
