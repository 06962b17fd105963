#!/bin/sh
# Measures the schema reader on hostile texts of three lengths. See README.md.
. "$(dirname "$0")/../workspace.sh"
lay_out ddl_bench rdb_base rdb_schema rdb_ddl
(cd "$work/crates/ddl_bench" && rt try)
