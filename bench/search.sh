#!/usr/bin/env bash
# Times the search in all its parts beside plain Rust of the shape that is fastest, in turn, and prints five tables. Each figure
# is the least of three runs, or of as many as the first word says. Checksums must agree. It takes a few minutes, and with the word `tight` after the runs some more.
. "$(dirname "$0")/compare.sh"
begin "${1:-}" bench_search search.rs

# one row: what is timed, the part, its count, the unit, and what the nanoseconds are divided by
row() {
    compare "$2" "$3"
    awk -v name="$1" -v unit="$4" -v scale="$5" -v ours="$ours" -v theirs="$theirs" 'BEGIN {
        printf "| %s | %.2f %s | %.2f %s | %.2f |\n", name, ours / scale, unit, theirs / scale, unit, ours / theirs
    }'
}

# times COUNT PART..: a line of part, nanoseconds and checksum for each run of our parts, in turn
times() {
    local part
    for _ in $(seq "$runs"); do
        for part in "${@:2}"; do
            echo "$part $("$rattle" "$part" "$1")"
        done
    done
}

# one row on two parts of ours: what is timed, both parts, and their count
pair() {
    times "$4" "$2" "$3" | awk -v name="$1" -v with="$2" -v without="$3" '
        !($1 in least) || $2 < least[$1] { least[$1] = $2 }
        END { printf "| %s | %.1f ms | %.1f ms | %.2f |\n", name, least[with] / 1000000, least[without] / 1000000, least[with] / least[without] }'
}

# one row on a search alone and in rounds: what is searched, the end of the names of its parts, and its count
rounds() {
    times "$3" "place$2" "two$2" "four$2" | awk -v name="$1" '
        NR == 1 { sum = $3 }
        $3 != sum { differ = 1 }
        { part = $1; sub(/_.*/, "", part) }
        !(part in least) || $2 < least[part] { least[part] = $2 }
        END {
            if (differ) { print "the checksums of " name " differ" > "/dev/stderr"; exit 1 }
            alone = least["place"]
            printf "| %s | %.1f ms | %.1f ms | %.1f ms | %.2f | %.2f |\n", name, alone / 1000000,
                least["two"] / 1000000, least["four"] / 1000000, least["two"] / alone, least["four"] / alone
        }'
}

# one row on a search alone and by turns: what is searched, the end of the names of its parts, and its count
turns() {
    times "$3" "place$2" "turns1$2" "turns2$2" "turns4$2" | awk -v name="$1" '
        NR == 1 { sum = $3 }
        $3 != sum { differ = 1 }
        { part = $1; sub(/_.*/, "", part) }
        !(part in least) || $2 < least[part] { least[part] = $2 }
        END {
            if (differ) { print "the checksums of " name " differ" > "/dev/stderr"; exit 1 }
            alone = least["place"]
            printf "| %s | %.1f ms | %.1f ms, %.2f | %.1f ms, %.2f | %.1f ms, %.2f |\n", name, alone / 1000000,
                least["turns1"] / 1000000, least["turns1"] / alone, least["turns2"] / 1000000, least["turns2"] / alone,
                least["turns4"] / 1000000, least["turns4"] / alone
        }'
}

head_of_table "search"
row "100,000 records" place 100000 ms 1000000
row "1,000,000 records" place 1000000 ms 1000000
row "5,000,000 records" place 5000000 ms 1000000
row "20,000,000 records" place 20000000 ms 1000000
row "1,000,000 records in 64 partitions" partitions 1000000 ms 1000000
row "5,000,000 records in 64 partitions" partitions 5000000 ms 1000000
row "100 records, of 1,000 lists" lists 100 µs 1000000
row "1,000 records, of 1,000 lists" lists 1000 µs 1000000
echo
head_of_table "large buckets"
row "a pilot of 2,000 members, none of which fits" large 2000 µs 100000000
row "70,000 of 1,000,000 records, 10,000 pilots" among 70000 ms 1000000
echo
echo "| search of 1,000,000 records | with it | without it | time, as a ratio |"
echo "|---|---|---|---|"
pair "two equal records" repeat place 1000000
echo
echo "| search on $(nproc) processors | alone | 2 workers | 4 workers | 2, as a ratio | 4, as a ratio |"
echo "|---|---|---|---|---|---|"
rounds "1,000,000 records" "" 1000000
rounds "1,000,000 records, c=300 alpha=99" _lean 1000000
rounds "100,000 records, c=200 alpha=99" _tight 100000
if [ "${2:-}" = tight ]; then
    rounds "1,000,000 records, c=200 alpha=99" _tight 1000000
fi

echo
echo "| search by turns on $(nproc) processors | alone | 1 worker, to alone | 2 | 4 |"
echo "|---|---|---|---|---|"
turns "1,000,000 records" "" 1000000
turns "1,000,000 records, c=300 alpha=99" _lean 1000000
turns "100,000 records, c=200 alpha=99" _tight 100000
