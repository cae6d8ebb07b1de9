#!/usr/bin/env bash
# Builds indexes of random lists by up to 64 workers, by turns and in rounds, on one processor and on four, and compares status,
# text and index of each with those of one worker. A build that takes longer than two minutes counts as hung.
#
# usage: turns.sh PROGRAM [SECONDS [SEED]]     for so many seconds (20 by default), with random numbers from that seed on
set -u
for tool in awk cmp realpath taskset timeout; do
  command -v "$tool" >/dev/null || { echo "builds by workers: skipped, since $tool is missing"; exit 0; }
done
program=$(realpath "$1")
seconds=${2:-20}
seed=${3:-$$}
RANDOM=$seed
folder=$(mktemp -d) || exit 2
trap 'rm -rf "$folder"' EXIT
cd "$folder" || exit 2
lists=0
builds=0
failed=0
hung=0
declare -A ends=([0]=0 [4]=0 [5]=0)

# The first four of the processors that this may run on, joined by commas.
four=$(awk -F'\t' '/^Cpus_allowed_list/ {
  count = split($2, ranges, ",")
  for (i = 1; i <= count; i++) {
    split(ranges[i], ends, "-")
    for (p = ends[1]; p <= (ends[2] == "" ? ends[1] : ends[2]) && n < 4; p++) printf "%s%s", n++ ? "," : "", p
  }
}' /proc/self/status)
one=${four%%,*}

# A random number from LOW to HIGH, in `number`. No subshell, so that a seed has one sequence.
draw() { # LOW HIGH
  number=$(($1 + (RANDOM * 32768 + RANDOM) % ($2 - $1 + 1)))
}

# One of the words, in `word`.
one_of() {
  shift $((RANDOM % $#))
  word=$1
}

# Builds the index of the list on some processors, with status, text and index under a name.
build() { # NAME PROCESSORS WORD..
  local name=$1 processors=$2
  shift 2
  rm -f "$name" "$name.text"
  timeout -k 5 120 taskset -c "$processors" "$program" build keys "$name" "$@" >"$name.text" 2>"$name.errors"
  status=$?
  builds=$((builds + 1))
  case $status in 124 | 137) hung=$((hung + 1)) ;; esac
}

# A list of 1 to 3000 keys, in one of sixteen with a line that comes twice.
write_keys() {
  draw 1 3000
  count=$number
  draw 0 999999
  awk -v n="$count" -v p="$number" 'BEGIN { for (i = 0; i < n; i++) print p "." i }' >keys
  one_of 1 0 0 0 0 0 0 0 0 0 0 0 0 0 0 0
  if [ "$word" = 1 ]; then
    draw 1 "$count"
    awk -v line="$number" 'NR == line' keys >again
    cat again >>keys
  fi
}

# Random settings, in `settings`. A few pilots leave seeds stuck.
draw_settings() {
  one_of 1 1 2 3 8 64 4096
  settings="parts=$word"
  one_of skewed uniform
  settings="$settings map=$word"
  one_of 90 98 100
  settings="$settings alpha=$word"
  one_of 300 500 700
  settings="$settings c=$word"
  one_of any any few
  if [ "$word" = few ]; then
    draw 1 400
    settings="$settings pilots=$number"
  fi
}

# Whether a build is that by one worker.
is_same() { # STATUS
  [ "$status" = "$1" ] && cmp -s text.wanted "found.text" || return 1
  if [ "$status" = 0 ]; then cmp -s wanted found; else [ ! -e found ]; fi
}

begun=$SECONDS
while ((SECONDS - begun < seconds)); do
  write_keys
  draw_settings
  # shellcheck disable=SC2086
  build wanted "$four" workers=1 search=rounds $settings
  wanted=$status
  mv wanted.text text.wanted
  lists=$((lists + 1))
  ends[$wanted]=$((${ends[$wanted]:-0} + 1))
  for search in turns turns rounds; do
    for processors in "$one" "$four"; do
      one_of 2 3 7 64 any any
      workers=$word
      [ "$word" = any ] && draw 1 64 && workers=$number
      # shellcheck disable=SC2086
      build found "$processors" "workers=$workers" "search=$search" $settings
      if ! is_same "$wanted"; then
        failed=$((failed + 1))
        echo "$count keys with seed $seed, list $lists: workers=$workers search=$search $settings on processors $processors:" \
          "status $status, wanted that of one worker, $wanted"
      fi
    done
  done
done
case " ${!ends[*]} " in *" 2 "* | *" 9 "* | *" 1 "*) failed=$((failed + 1)) && echo "a build by one worker failed" ;; esac

echo "builds by workers: $builds builds of $lists lists, $failed differ from one worker's, $hung hung; lists that were built ${ends[0]}," \
  "with a line twice ${ends[4]}, exhausted ${ends[5]}"
[ "$failed" = 0 ] && [ "$hung" = 0 ]
