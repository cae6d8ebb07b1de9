#!/usr/bin/env bash
# Times pushes of records to 64 chains of a pool and their drains, beside the same pool in `rustc -O`, in turn, and prints a
# table. The words: how many records (100,000,000), and of how many runs the least is taken (3). The checksums must agree.
set -eu
cd "$(dirname "$0")/.."
count=${1:-100000000}
runs=${2:-3}
. bench/compare.sh
build bench_pool pool.rs
head_of_table "pool of 4,096 blocks and 64 chains"
compare "$count"
awk -v count="$count" -v ours="$ours" -v theirs="$theirs" 'BEGIN {
    printf "| push and drain %d | %.2f ns | %.2f ns | %.2f |\n", count, ours / count, theirs / count, ours / theirs
}'
