#!/usr/bin/env python3
"""Runs the built program on long words under rising limits of memory, and on words that are no text.

usage: memory.py PROGRAM

Under a limit each run fails to start, says that it has no memory, or answers as without one; some must say that they have none.
"""
import collections
import pathlib
import resource
import subprocess
import sys

WORDS = ["pilots", "missing", *(f"word{i}" + "x" * 100000 for i in range(15))]
STEP = 1 << 16
MOST = 1 << 25


def run(program, words, limit):
    """The status and the text under a limit of the address space, or `None` where the program didn't start."""
    def hold():
        resource.setrlimit(resource.RLIMIT_AS, (limit, limit))

    try:
        found = subprocess.run([program, *words], stdout=subprocess.PIPE, stderr=subprocess.DEVNULL, preexec_fn=hold, timeout=20)
    except (OSError, subprocess.SubprocessError):
        return None
    started = 0 <= found.returncode < 127
    return (found.returncode, found.stdout) if started else None


def main():
    program = str(pathlib.Path(sys.argv[1]).resolve())
    right = run(program, WORDS, resource.RLIM_INFINITY)
    want = (9, b"no memory\n")
    answers = collections.Counter()
    for limit in range(STEP, MOST, STEP):
        answer = run(program, WORDS, limit)
        answers[answer] += 1
        if answer == right:
            break
    failed = sum(count for answer, count in answers.items() if answer not in (None, want, right))
    for answer in answers:
        if answer not in (None, want, right):
            print(f"a run under a limit of memory: {answer}")
    if not answers[want] or not answers[right]:
        failed += 1
        print(f"no run had too little memory, or none had enough: {answers}")
    no_text = run(program, [b"pilots", b"\xff"], resource.RLIM_INFINITY)
    if no_text != (1, b"word 0: command\n"):
        failed += 1
        print(f"words that are no text: {no_text}")
    print(f"limits of memory: {answers[want]} without memory, {answers[None]} without a start, {failed} failed")
    return 1 if failed else 0


if __name__ == "__main__":
    sys.exit(main())
