# What the scripts beside share: they build two programs that print nanoseconds and a checksum, and run them in turn.
set -eu
cd "$(dirname "${BASH_SOURCE[0]}")/.."

# begin RUNS CRATE YARDSTICK LEVEL: builds both programs. Each figure is the least of so many runs, or of three.
begin() {
    runs=${1:-3}
    build "${@:2}"
}

# build CRATE YARDSTICK LEVEL: proves and builds a program of crates/, and builds its like in plain Rust, for a level of processors.
build() {
    yardstick=$(mktemp)
    trap 'rm -f "$yardstick"' EXIT
    rustc --edition 2024 -O -C target-cpu="${3:-x86-64-v2}" -o "$yardstick" "bench/yardstick/$2"
    (cd "crates/$1" && rt run > /dev/null)
    rattle=crates/$1/out/$1
}

# compare WORDS..: runs both on these words, $runs times each, and sets `ours` and `theirs` to the least nanoseconds.
compare() {
    local from_rattle="" from_rustc=""
    for _ in $(seq "$runs"); do
        from_rattle+="$("$rattle" "$@")"$'\n'
        from_rustc+="$("$yardstick" "$@")"$'\n'
    done
    if [ "$(printf '%s%s' "$from_rattle" "$from_rustc" | cut -d' ' -f2 | sort -u | wc -l)" != 1 ]; then
        echo "the checksums of $* differ" >&2
        exit 1
    fi
    ours=$(printf '%s' "$from_rattle" | sort -n | head -1 | cut -d' ' -f1)
    theirs=$(printf '%s' "$from_rustc" | sort -n | head -1 | cut -d' ' -f1)
}

# head_of_table COLUMN: the first two lines of a table.
head_of_table() {
    echo "| $1 | Rattle | rustc -O | time, as a ratio |"
    echo "|---|---|---|---|"
}
