#!/bin/sh
# Measures the law of journals on journals of three lengths. See README.md.
. "$(dirname "$0")/../workspace.sh"
lay_out legal_bench rdb_base rdb_schema rdb_model
(cd "$work/crates/legal_bench" && rt run)
