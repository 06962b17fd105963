#!/bin/sh
# Lets sixteen threads take turns for a minute. See README.md.
. "$(dirname "$0")/../workspace.sh"
lay_out turn_soak rdb_base rdb_turn
cd "$work/crates/turn_soak"
rt run
