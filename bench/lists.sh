#!/usr/bin/env bash
# Times select1 and EliasFano::get at random places, and each code of small numbers, beside the best plain Rust for the same work
# (bench/yardstick/lists.rs and packed.rs), in turn, and prints two tables. Each figure is the least of three runs, or of as many
# as the first word says. The checksums of both must agree.
set -eu
cd "$(dirname "$0")/.."
runs=${1:-3}
. bench/compare.sh
build bench_lists lists.rs x86-64-v3

# one row: the unit, what the nanoseconds are divided by, and the words
row() {
    local unit=$1 scale=$2
    shift 2
    compare "$@"
    awk -v name="$*" -v unit="$unit" -v scale="$scale" -v ours="$ours" -v theirs="$theirs" 'BEGIN {
        printf "| %s | %.1f %s | %.1f %s | %.2f |\n", name, ours / scale, unit, theirs / scale, unit, ours / theirs
    }'
}

head_of_table part
for part in select1 get_dense get_sparse; do
    row ns 1000000 "$part" 10000
    row ns 1000000 "$part" 10000000
done
"$yardstick" samples 10000000
echo
head_of_table "part and code"
for code in c pc d ef; do
    row ns 1000000 get 1000000 "$code"
    row ms 1000000 encode 1000000 "$code"
    row ms 1000000 read 1000000 "$code"
done
for code in c pc d ef; do
    echo "$code: $("$yardstick" encode 1000000 "$code" | awk '{ printf "%.2f", $2 * 8 / 1000000 }') bits a value"
done
