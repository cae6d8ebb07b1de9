#!/usr/bin/env bash
# Compares the hash with that of GNU's C++ library on random inputs. Run it after `rt ci`; it is skipped where g++ is missing.
set -u
count=${1:-5000}
top=$(cd "$(dirname "${BASH_SOURCE[0]}")/.." && pwd)
program=$top/crates/check_hash/out/check_hash
if ! command -v g++ >/dev/null; then
  echo "hash: skipped, g++ is missing"
  exit 0
fi
work=$(mktemp -d) || exit 2
trap 'rm -rf "$work"' EXIT
if [ ! -x "$program" ] || [ -n "$(find "$top"/crates/{pthash,murmur64,check_hash} "$top/crates.txt" -name out -prune -o -type f -newer "$program" -print -quit)" ]; then
  if ! (cd "$top/crates/check_hash" && rt run --jobs 1 <stdin) >"$work/log" 2>&1 || [ ! -x "$program" ]; then
    echo "hash: the program could not be proved and built; what rt said:" >&2
    tail -n 30 "$work/log" >&2
    exit 1
  fi
  touch "$program"
fi
g++ -O2 -o "$work/hash" "$top/checks/hash.cpp" || exit 1
"$work/hash" "$count" "$work/lines" "$work/wanted" || exit 1
"$program" <"$work/lines" >"$work/found" || exit 1
if ! cmp "$work/wanted" "$work/found"; then
  echo "hash: the hashes differ" >&2
  exit 1
fi
echo "hash: $count inputs, all hashes the same"
