#!/usr/bin/env bash
# Times the hash and the buckets beside the same code in `rustc -O`, in turn, and prints a table. Each figure is
# the least of three runs, or of as many as the first word says. The checksums of both must agree.
. "$(dirname "$0")/compare.sh"
begin "${1:-}" bench_search main.rs

# one row: what is timed, its word, how many bytes or keys, the unit, and what a second's worth of it is divided by
row() {
    compare "$2" "$3"
    awk -v name="$1" -v unit="$4" -v work="$5" -v ours="$ours" -v theirs="$theirs" 'BEGIN {
        printf "| %s | %.2f %s | %.2f %s | %.2f |\n", name, work * 1000000000 / ours, unit, work * 1000000000 / theirs, unit, ours / theirs
    }'
}

head_of_table part
row "murmur64, 64,000,000 bytes" murmur64 64000000 "GB/s" 0.064
row "hash_pair, 4,000,000 keys of 16 bytes" hash_pair 64000000 "million keys/s" 4
row "ordered_buckets, 1,000,000 pairs" ordered_buckets 1000000 "million pairs/s" 1
row "ordered_buckets, 4,000,000 pairs" ordered_buckets 4000000 "million pairs/s" 4
