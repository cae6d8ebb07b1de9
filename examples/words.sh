#!/usr/bin/env bash
# A list of words gets dense numbers, and a file of fixed records by these numbers takes the place of a table of words.
# usage: words.sh PROGRAM
set -eu
program=$(realpath "$1")
cd "$(dirname "$0")"
room=$(mktemp -d)
trap 'rm -rf "$room"' EXIT

# the words of a text, here of this script, each with how often it comes
tr -cs 'A-Za-z' '\n' <words.sh | grep . | sort | uniq -c | awk '{ print $2 "\t" $1 }' >"$room/table"
cut -f1 "$room/table" >"$room/words"
"$program" build "$room/words" "$room/words.pth" workers=1

# records of eight bytes, in the order of the numbers: the place of a record says whose it is
"$program" query "$room/words.pth" "$room/words" | paste - "$room/table" | sort -n |
  awk -F'\t' '{ printf "%-7s\n", $3 }' >"$room/records"

# a word is looked up by its number, without the list of words
for word in program words record; do
  number=$(printf '%s\n' "$word" | "$program" query "$room/words.pth" /dev/stdin)
  times=$(dd if="$room/records" bs=8 skip="$number" count=1 2>/dev/null)
  echo "$word comes ${times%% *} times"
done
