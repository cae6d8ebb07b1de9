#!/usr/bin/env bash
# The substrings of 21 letters of a genome get dense numbers, and their counts stand in an array without the substrings.
# usage: kmers.sh PROGRAM
set -eu
program=$(realpath "$1")
room=$(mktemp -d)
trap 'rm -rf "$room"' EXIT

# a genome of 20,000 letters by a small generator, of which a piece comes twice
awk 'BEGIN {
  state = 1
  for (i = 0; i < 19000; i++) { state = (state * 16807) % 2147483647; genome = genome substr("ACGT", state % 4 + 1, 1) }
  genome = genome substr(genome, 5001, 1000)
  for (i = 1; i + 20 <= length(genome); i++) print substr(genome, i, 21)
}' >"$room/all"
sort -u "$room/all" >"$room/kmers"
"$program" build "$room/kmers" "$room/kmers.pth" parts=4 alpha=94 enc=pc workers=2

# each occurrence counts at the number of its substring
"$program" query "$room/kmers.pth" "$room/all" | awk '
  { counts[$1]++ }
  END {
    for (number in counts) times[counts[number]]++
    for (most in times) print times[most], "substrings come", most, "times"
  }' | sort -k4n
