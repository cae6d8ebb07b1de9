#!/usr/bin/env bash
# Times the writing and the reading of an index in memory and lookups in it, beside the same in `rustc -O`, in turn, and prints a
# table; besides, the memory that a read index takes, beside its file. The words: how many keys (5,000,000), of how many runs the
# least is taken (3), and how many partitions (1). The checksums must agree, and the yardstick writes the same bytes.
set -eu
cd "$(dirname "$0")/.."
keys=${1:-5000000}
runs=${2:-3}
parts=${3:-1}
. bench/compare.sh
build bench_index index.rs x86-64-v3
folder=$(mktemp -d)
trap 'rm -rf "$yardstick" "$folder"' EXIT

# row NAME UNIT COUNT: one row of what `compare` measured, a COUNT-th of it in a unit.
row() {
    awk -v name="$1" -v unit="$2" -v count="$3" -v ours="$ours" -v theirs="$theirs" 'BEGIN {
        printf "| %s | %.2f %s | %.2f %s | %.2f |\n", name, ours / count, unit, theirs / count, unit, ours / theirs
    }'
}

echo "load $(cut -d' ' -f1-3 /proc/loadavg), $(nproc) processors"
head_of_table "index of $keys keys in $parts partitions"
for enc in d-d c pc ef; do
    file=$folder/$enc
    "$rattle" write "$file" "$keys" "$enc" "$parts" > /dev/null
    compare write "$file" "$keys" "$enc" "$parts"
    row "write $enc" ms 1000000
    compare read "$file" "$keys" "$enc"
    row "read $enc" ms 1000000
    compare lookup "$file" "$keys" "$enc"
    row "2,000,000 lookups $enc, each" ns 2000000
    compare memory "$file" "$keys" "$enc"
    row "memory $enc" MB 1000000
    awk -v ours="$ours" -v file="$(stat -c %s "$file")" 'BEGIN {
        printf "| memory over the file %s | %.2f | | |\n", "'"$enc"'", ours / file
    }'
done
