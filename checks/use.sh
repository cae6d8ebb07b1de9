#!/usr/bin/env bash
# Builds and asks indexes with the built program as a user does, and disturbs it: killed at any moment, with a full disk, with
# little memory, with outputs that fail, many at once, on links and folders. After each run the index must be the whole old file
# or the whole new one.
#
# usage: use.sh PROGRAM [ROUNDS [KEYS]]     ROUNDS builds are killed (24 by default), each of KEYS keys (10000 by default)
set -u
for tool in awk cmp realpath seq sort; do
  command -v "$tool" >/dev/null || { echo "use of the program: skipped, since $tool is missing"; exit 0; }
done
program=$(realpath "$1")
rounds=${2:-24}
count=${3:-10000}
folder=$(mktemp -d) || exit 2
trap 'rm -rf "$folder"' EXIT
cd "$folder" || exit 2
passed=0
failed=0

check() { # WHAT FOUND WANTED
  if [ "$2" = "$3" ]; then
    passed=$((passed + 1))
  else
    failed=$((failed + 1))
    echo "$1: $2, wanted $3"
  fi
}

# Which of the two files the index is.
which_index() {
  if cmp -s "$1" new; then echo new; elif cmp -s "$1" old; then echo old; else echo neither; fi
}

# Runs words with their text in `text`, and says the status.
status() {
  "$program" "$@" >text 2>errors
  echo $?
}

keys() { # PREFIX
  awk -v p="$1" -v n="$count" 'BEGIN { for (i = 0; i < n; i++) print p i }'
}

keys old >old.keys
keys new >new.keys
check "a build" "$(status build old.keys old)" 0
# by one worker, so that a build takes about as long each time
begun=$(date +%s%N)
check "a build" "$(status build new.keys new workers=1)" 0
took=$((($(date +%s%N) - begun) / 1000))
check "a summary" "$(cut -d' ' -f1-3 text)" "built keys $count"
check "the length of the file" "$(cut -d' ' -f9 text)" "$(wc -c <new | tr -d ' ')"

# Each key has a number of its own below their count.
for name in old new; do
  check "the values of $name" "$(status query $name $name.keys)" 0
  check "numbers of $name" "$(sort -n text | cmp - <(seq 0 $((count - 1))) && echo all)" all
done
check "a pipe of queries" "$(head -3 new.keys | "$program" query new /dev/stdin | cmp - <(head -3 text) && echo same)" same
check "a pipe of keys" "$(cat new.keys | "$program" build /dev/stdin piped >/dev/null && cmp piped new && echo same)" same
check "no queries" "$(status query new /dev/null) $(wc -c <text | tr -d ' ')" "0 0"
check "a pipe of keys to check" "$(sort -r new.keys | "$program" check new /dev/stdin)" "good $count keys"
check "a check of other keys" "$(status check new old.keys)" 7
check "an upgrade of an index with a mark" "$("$program" upgrade new new.keys)" "already version 2"
check "no index" "$(status query missing new.keys)" 2
check "no queries' file" "$(status query new missing)" 2

# Killed at a random moment.
declare -A ends=([old]=0 [new]=0)
left=0
for ((round = 0; round < rounds; round++)); do
  cp old I
  rm -f I.tmp
  "$program" build new.keys I workers=1 >/dev/null 2>&1 &
  pid=$!
  moment=$(((RANDOM * 32768 + RANDOM) % (took + took / 8)))
  sleep "$(printf '%d.%06d' $((moment / 1000000)) $((moment % 1000000)))"
  kill -9 "$pid" 2>/dev/null
  wait "$pid" 2>/dev/null
  end=$(which_index I)
  check "killed after $moment microseconds" "$(case $end in old | new) echo whole ;; *) echo "$end" ;; esac)" whole
  ends[$end]=$((${ends[$end]:-0} + 1))
  [ -e I.tmp ] && left=$((left + 1))
done
check "a build after those" "$(status build new.keys I) $(which_index I) $(ls I.tmp 2>/dev/null)" "0 new "

# A build that finds an interrupted one's file takes it away.
echo half >I.tmp
check "over an interrupted build" "$(status build new.keys I) $(which_index I) $(ls I.tmp 2>/dev/null)" "0 new "

# No room on the disk.
cp old I
check "a full disk" "$( (trap '' XFSZ; ulimit -f 1; "$program" build new.keys I 2>/dev/null; echo $?) | tr '\n' ' ')" "file fault 2 "
check "the index on a full disk" "$(which_index I)" old

# Little memory, in twenty steps up to what a build takes.
enough=
for ((step = 1; step < 4096 && ${enough:-0} == 0; step++)); do
  (ulimit -v $((step * 8192)); exec "$program" build new.keys measured) >/dev/null 2>&1 && enough=$((step * 8192))
done
# Whether the program starts in so many KiB: it then refuses to do nothing, or has no memory for that.
starts_in() {
  (ulimit -v "$1"; exec "$program") >/dev/null 2>&1
  case $? in 1 | 9) return 0 ;; *) return 1 ;; esac
}

statuses=
for ((step = 1; step <= 20; step++)); do
  limit=$((enough * step / 20))
  cp old I
  (ulimit -v $limit; exec "$program" build new.keys I) >/dev/null 2>&1
  end=$?
  if ! starts_in $limit; then
    check "the index with no start" "$(which_index I)" old
    statuses="$statuses -"
    continue
  fi
  case $end in
    0) check "the index with enough memory" "$(which_index I)" new ;;
    9) check "the index without memory" "$(case $(which_index I) in old | new) echo whole ;; esac)" whole ;;
    *) check "a build in $limit KiB" "$end" "0 or 9" ;;
  esac
  statuses="$statuses $end"
done
check "a build in $enough KiB" "$end" 0

# Outputs that fail, and descriptors that are closed from the start.
cp old I
"$program" build new.keys I >/dev/full 2>/dev/null
check "a full output" "$? $(which_index I)" "8 new"
for closed in '<&-' '>&-' '2>&-' '<&- >&-' '<&- 2>&-' '>&- 2>&-' '<&- >&- 2>&-'; do
  cp old I
  bash -c "exec \"\$0\" build new.keys I $closed" "$program" >text 2>errors
  end=$?
  case $closed in
    *'>&-'*) case $closed in '2>&-' | '<&- 2>&-') wanted=0 ;; *) wanted=8 ;; esac ;;
    *) wanted=0 ;;
  esac
  check "with $closed" "$end $(which_index I)" "$wanted new"
done
check "the keys after that" "$(cmp new.keys <(keys new) && echo same)" same

# Twenty builds of one index at once.
cp old I
pids=
for ((i = 0; i < 20; i++)); do
  [ $((i % 2)) = 0 ] && list=old.keys || list=new.keys
  "$program" build $list I >/dev/null 2>&1 &
  pids="$pids $!"
done
many=
for pid in $pids; do
  wait "$pid"
  end=$?
  many="$many $end"
  check "one of twenty builds" "$(case $end in 0 | 2) echo fine ;; *) echo $end ;; esac)" fine
done
check "the index after twenty builds" "$(case $(which_index I) in old | new) echo whole ;; esac)" whole
check "a build after those" "$(status build new.keys I) $(which_index I)" "0 new"

# Links: an index that is one is replaced, and what it pointed at stays; so with the name that the index is written under.
cp old target
ln -s target link
check "an index that is a link" "$(status build new.keys link) $(which_index link) $(which_index target) $(readlink link)" "0 new old "
echo other >elsewhere
ln -s elsewhere K.tmp
check "a link where the index is written" "$(status build new.keys K) $(which_index K) $(cat elsewhere)" "0 new other"

# Places where no index can be written.
check "no folder" "$(status build new.keys missing/I)" 2
mkdir taken
check "a folder of that name" "$(status build new.keys taken) $(ls taken | wc -l | tr -d ' ')" "2 0"
mkdir closed
cp old closed/I
chmod 555 closed
if [ "$(id -u)" != 0 ]; then
  check "a folder that can't be written" "$(status build new.keys closed/I) $(which_index closed/I)" "2 old"
elif command -v setpriv >/dev/null; then
  chmod 755 "$folder" && cp "$program" pth
  setpriv --reuid=65534 --regid=65534 --clear-groups ./pth build new.keys closed/I >text 2>errors
  check "a folder that can't be written" "$? $(which_index closed/I)" "2 old"
fi

echo "use of the program: $passed passed, $failed failed; killed builds left ${ends[old]} old and ${ends[new]} new indexes and" \
  "$left unfinished files; in twenty steps of memory:$statuses; at once:$(echo "$many" | tr ' ' '\n' | sort | uniq -c | awk 'NF > 1 { printf " %s times %s", $1, $2 }')"
[ "$failed" = 0 ]
