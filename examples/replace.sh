#!/usr/bin/env bash
# An index is replaced while readers use it: each answer is that of a whole index, the old one or the new one.
# usage: replace.sh PROGRAM
set -eu
program=$(realpath "$1")
room=$(mktemp -d)
trap 'rm -rf "$room"' EXIT
cd "$room"

seq 1 2000 >first
seq 1 3000 >second
"$program" build first index workers=1
"$program" query index first >by_first
"$program" build second other workers=1
"$program" query other first >by_second

# a reader asks for the same keys while another process replaces the index
for _ in $(seq 20); do
  "$program" build second index workers=1 >built
  "$program" build first index workers=1 >built
done &
answers=0
for _ in $(seq 60); do
  "$program" query index first >answer
  if cmp -s answer by_first || cmp -s answer by_second; then answers=$((answers + 1)); fi
done
wait
echo "$answers of 60 answers are those of a whole index"
