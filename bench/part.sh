#!/usr/bin/env bash
# Times the build of one partition, its buckets and its lookups beside plain Rust of the same shape (bench/yardstick/part.rs), in turn,
# and prints two tables, with what a build holds at its peak beside the records, and between them the steps of one build in plain
# Rust. Each figure of a table is the least of three runs, or of as many as the first word says. The checksums of both must agree.
. "$(dirname "$0")/compare.sh"
begin "${1:-}" bench_part part.rs

# one row: what is timed, the part, its count, the unit, and what the nanoseconds are divided by
row() {
    compare "$2" "$3"
    awk -v name="$1" -v unit="$4" -v scale="$5" -v ours="$ours" -v theirs="$theirs" 'BEGIN {
        printf "| %s | %.1f %s | %.1f %s | %.2f |\n", name, ours / scale, unit, theirs / scale, unit, ours / theirs
    }'
}

# peak PROGRAM PART COUNT: the most memory that the program has, in kilobytes.
peak() {
    python3 -c 'import resource, subprocess, sys
subprocess.run(sys.argv[1:], check=True, stdout=subprocess.DEVNULL)
print(resource.getrusage(resource.RUSAGE_CHILDREN).ru_maxrss)' "$@"
}

# one row on memory: the count of records
memory() {
    local ours theirs
    ours=$(($(peak "$rattle" build "$1") - $(peak "$rattle" records "$1")))
    theirs=$(($(peak "$yardstick" build "$1") - $(peak "$yardstick" records "$1")))
    awk -v count="$1" -v ours="$ours" -v theirs="$theirs" 'BEGIN {
        printf "| %d records | %.1f | %.1f |\n", count, ours * 1024 / count, theirs * 1024 / count
    }'
}

head_of_table "one partition"
for count in 1000000 5000000; do
    row "buckets of $count records" buckets "$count" ms 1000000
    row "build of $count records" build "$count" ms 1000000
    row "hash and value, of $count keys" lookup "$count" ns "$count"
done
echo
for count in 1000000 5000000; do
    echo "rustc -O, $count records: $("$yardstick" steps "$count")"
done
echo
echo "| bytes a record at the peak, beside the records | Rattle | rustc -O |"
echo "|---|---|---|"
memory 1000000
memory 5000000
