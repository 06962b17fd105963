#!/bin/sh
# Times the command `audit` on legal reports of 12,000 and of 48,000 commits. See README.md.
# run.sh [PROGRAM]: without a program that which the last `rt ci` of this checkout built.
set -e
program=$(realpath "${1:-$(dirname "$0")/../../crates/regiondb/out/regiondb}")
work=$(mktemp -d)
trap 'rm -rf "$work"' EXIT
cd "$work"
echo 'declare database shop; class Item { uint4 n; autoid; };' > schema
for commits in 12000 48000; do
    awk -v commits=$commits 'BEGIN {
        for (n = 1; n <= commits; n++)
            printf "commit %d client 1 tx %d begun %d snapshot %d\n  new Item {%d} -> made %d\n  get Item %d -> {%d}\n",
                n, n, n - 1, n - 1, n, n, n, n
        printf "closed client 1\nclient 1 done\ntotal commits %d reads 0 aborts 0 handled 0\n", commits
    }' > report
    least=
    for run in 1 2 3 4 5 6 7; do
        before=$(date +%s%N)
        "$program" audit schema report > answer
        after=$(date +%s%N)
        spent=$(((after - before) / 1000))
        if [ -z "$least" ] || [ $spent -lt $least ]; then least=$spent; fi
    done
    echo "$commits commits, $(wc -c < report) bytes: $least microseconds, the least of seven; $(cat answer)"
done
