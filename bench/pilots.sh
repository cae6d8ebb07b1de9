#!/usr/bin/env bash
# Times `pth pilots` on keys of 16 hexadecimal digits beside the same work in `rustc -O`, in turn: seconds and peak memory of
# each run. The texts must agree. usage: pilots.sh COUNT PARTS RUNS; the program must be built.
set -eu
cd "$(dirname "$0")/.."
count=${1:-1000000} parts=${2:-1} runs=${3:-3}
work=$(mktemp -d)
trap 'rm -rf "$work"' EXIT
rustc --edition 2024 -O -C target-cpu=x86-64-v2 -o "$work/yardstick" bench/yardstick/main.rs
"$work/yardstick" keys "$count" >"$work/keys"

timed() {
  python3 - "$work/$1" "${@:2}" <<'PYTHON'
import resource, subprocess, sys, time
with open(sys.argv[1], "wb") as out:
    start = time.monotonic()
    subprocess.run(sys.argv[2:], stdout=out, check=True)
    seconds = time.monotonic() - start
usage = resource.getrusage(resource.RUSAGE_CHILDREN)
print(f"{seconds:.2f} s, {usage.ru_utime + usage.ru_stime:.2f} s of processor time, {usage.ru_maxrss / 1024:.0f} MiB at most")
PYTHON
}

for _ in $(seq "$runs"); do
  echo "pth pilots: $(timed ours crates/pth/out/pth pilots "$work/keys" parts="$parts")"
  echo "rustc -O:   $(timed theirs "$work/yardstick" pilots "$work/keys" "$parts")"
  cmp "$work/ours" "$work/theirs"
done
