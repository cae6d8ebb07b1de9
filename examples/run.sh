#!/usr/bin/env bash
# Runs the examples of this folder with the built program and compares what they print.
# usage: run.sh PROGRAM
set -u
for tool in awk dd paste realpath sort; do
  command -v "$tool" >/dev/null || { echo "examples: skipped, since $tool is missing"; exit 0; }
done
program=$(realpath "$1")
cd "$(dirname "$0")" || exit 2
status=0
for name in words kmers replace; do
  if bash "$name.sh" "$program" | diff - "$name.out"; then echo "examples/$name.sh: passed"; else echo "examples/$name.sh: FAILED"; status=1; fi
done
exit "$status"
