#!/usr/bin/env python3
"""Compares the callers that the READMEs of the crates show with those that the crate `callers` proves, text for text.

usage: callers.py
"""
import pathlib
import re
import sys

TOP = pathlib.Path(__file__).resolve().parent.parent
SHOWN = re.compile(r"^```rust\n(.*?)^```$", re.MULTILINE | re.DOTALL)


def main():
    proved = {path.read_text() for path in (TOP / "crates/callers/src").glob("*.rt")}
    passed = failed = 0
    for readme in sorted(TOP.glob("crates/*/README.md")):
        for shown in SHOWN.findall(readme.read_text()):
            if shown in proved:
                passed += 1
            else:
                failed += 1
                print(f"{readme.relative_to(TOP)}: no file of crates/callers/src has the text that begins with {shown[:60]!r}")
    print(f"callers of the READMEs: {passed} passed, {failed} failed")
    return 1 if failed or not passed else 0


if __name__ == "__main__":
    sys.exit(main())
