#!/usr/bin/env python3
"""Runs the built program and compares its statuses, texts and files with those that an independent program computed.

usage: texts.py PROGRAM

checks/pilots.tsv: the key file (checks/pilots/NAME.keys, or one of those that `made` describes), further words, the
status and the text. checks/words.tsv: all words, over a file K of one empty line, the status and the text. A text is
`text` and the text with \\n for a line feed, or `sha256 SUM length N`; in words.tsv it is the text alone.
checks/indexes.tsv, queries.tsv, checks.tsv, stats.tsv, demos.tsv and commands.tsv say in their heads what they hold. The stored run of the
crate `check_index` has indexes with a fault, and the words for each.
"""
import hashlib
import pathlib
import subprocess
import sys
import tempfile

from read_index import hash_of

HERE = pathlib.Path(__file__).resolve().parent
MULTIPLIER = 0xC6A4A7935BD1E995
MASK = 2**64 - 1


def hash_of(data, seed):
    """MurmurHash64A."""
    state = seed ^ (len(data) * MULTIPLIER & MASK)
    whole = len(data) // 8 * 8
    for at in range(0, whole, 8):
        block = int.from_bytes(data[at : at + 8], "little") * MULTIPLIER & MASK
        block = (block ^ block >> 47) * MULTIPLIER & MASK
        state = (state ^ block) * MULTIPLIER & MASK
    if whole < len(data):
        state = (state ^ int.from_bytes(data[whole:], "little")) * MULTIPLIER & MASK
    state = (state ^ state >> 47) * MULTIPLIER & MASK
    return state ^ state >> 47


def generated(count, seed):
    return b"".join(b"%016x\n" % hash_of(i.to_bytes(8, "little"), seed) for i in range(count))


def unmarked(index):
    """An index of version 2 as one of version 1."""
    body = index[:4] + b"\1" + index[5:48] + index[64:-8]
    return body + hash_of(body, 0).to_bytes(8, "little")


def made(name):
    """Key files that are too long to keep."""
    if name.startswith("generated "):
        _, count, _, seed = name.split(" ")
        return generated(int(count), int(seed))
    return {
        "longest_line": b"q" * 65535 + b"\nz\n",
        "too_long_second": b"z\n" + b"q" * 65536 + b"\n",
        "too_long_last_no_feed": b"z\n" + b"q" * 65536,
    }[name]


def written(name):
    """A file that a table describes."""
    kind, _, rest = name.partition(":")
    if kind == "hex":
        return bytes.fromhex(rest)
    if kind == "seq":
        return b"".join(b"k%d\n" % i for i in range(int(rest)))
    count, _, seed = rest.partition(":")
    return generated(int(count), int(seed))


def plain(text):
    return text.replace("\\n", "\n").encode()


def matches(text, want):
    kind, _, rest = want.partition(" ")
    if kind == "text":
        return text == plain(rest)
    _, total, _, length = want.split(" ")
    return len(text) == int(length) and hashlib.sha256(text).hexdigest() == total


def table(name):
    for line in (HERE / name).read_text().splitlines():
        if not line.startswith("#"):
            yield line.split("\t")


class Checks:
    def __init__(self, program, folder):
        self.program = program
        self.folder = pathlib.Path(folder)
        self.passed = self.failed = 0

    def put(self, name, data):
        (self.folder / name).write_bytes(data)

    def run(self, words):
        return subprocess.run([self.program, *words], stdout=subprocess.PIPE, cwd=self.folder, timeout=600)

    def same(self, what, holds, found, wanted):
        if holds:
            self.passed += 1
        else:
            self.failed += 1
            print(f"{what}: {str(found)[:200]}, wanted {str(wanted)[:200]}")

    def texts(self):
        for name, words, status, want in table("pilots.tsv"):
            path = HERE / "pilots" / f"{name}.keys"
            self.put("K", path.read_bytes() if path.exists() else made(name))
            self.text(["pilots", "K", *words.split()], int(status), want)
        self.put("K", b"\n")
        for words, status, want in table("words.tsv"):
            self.text(words.split(), int(status), "text " + want)

    def text(self, words, status, want):
        run = self.run(words)
        self.same(words, run.returncode == status and matches(run.stdout, want), (run.returncode, run.stdout), (status, want))

    def indexes(self):
        index = self.folder / "I"
        for keys, settings, status, want, length, digest, text in table("indexes.tsv"):
            self.put("K", written(keys))
            self.put("I", b"old")
            run = self.run(["build", "K", "I", *settings.split()])
            found = index.read_bytes()
            right = run.returncode == int(status) and run.stdout == plain(want) and not (self.folder / "I.tmp").exists()
            if status == "0":
                right = right and len(found) == int(length) and int.from_bytes(found[-8:], "little") == int(digest)
                right = right and text in ("-", found.hex())
            else:
                right = right and found == b"old"
            self.same(("build", keys, settings), right, (run.returncode, run.stdout, found[-8:]), (status, want, digest))

    def queries(self):
        built = None
        for keys, settings, queries, status, want in table("queries.tsv"):
            if built != (keys, settings):
                built = (keys, settings)
                self.put("K", written(keys))
                self.run(["build", "K", "I", *settings.split()])
            self.put("Q", written(queries))
            run = self.run(["query", "I", "Q"])
            right = run.returncode == int(status) and run.stdout == plain(want)
            self.same(("query", keys, settings, queries), right, (run.returncode, run.stdout), (status, want))

    def checks(self):
        built = None
        for command, version, keys, settings, lines, status, want, left in table("checks.tsv"):
            if built != (keys, settings):
                built = (keys, settings)
                self.put("K", written(keys))
                self.run(["build", "K", "I", *settings.split()])
                index = (self.folder / "I").read_bytes()
            old = index if version == "2" else unmarked(index)
            self.put("I", old)
            self.put("L", written(lines))
            run = self.run([command, "I", "L"])
            found = (self.folder / "I").read_bytes()
            right = run.returncode == int(status) and run.stdout == plain(want) and not (self.folder / "I.tmp").exists()
            if left.startswith("another"):
                _, length, _, _, digest = left.replace(",", "").split(" ")
                right = right and (len(found), int.from_bytes(found[-8:], "little")) == (int(length), int(digest))
            else:
                right = right and found == (index if left == "as built" else old)
            self.same((command, version, keys, settings, lines), right, (run.returncode, run.stdout, found[-8:]), (status, want, left))
    def stats(self):
        for version, keys, settings, status, want in table("stats.tsv"):
            self.put("K", written(keys))
            self.run(["build", "K", "I", *settings.split()])
            if version == "1":
                self.put("I", unmarked((self.folder / "I").read_bytes()))
            run = self.run(["stats", "I"])
            right = run.returncode == int(status) and run.stdout == plain(want)
            self.same(("stats", version, keys, settings), right, (run.returncode, run.stdout), (status, want))

    def demos(self):
        for words, status, want in table("demos.tsv"):
            self.text(words.split(), int(status), "text " + want)
        run = self.run(["demo", "5000", "1"])
        lines = run.stdout.decode().splitlines()
        right = run.returncode == 0 and len(lines) == 21 and all(line.endswith(" sum 12497500") for line in lines[1:])
        self.same("demo 5000 1", right, (run.returncode, run.stdout), "21 lines, each sum 12497500")

    def commands(self):
        self.put("K", b"\n")
        self.run(["build", "K", "I"])
        index = (self.folder / "I").read_bytes()
        for words, status, want in table("commands.tsv"):
            for name in self.folder.iterdir():
                name.unlink()
            for name in ["K", "I.part", "I.part0", "I.partition", "I.tmp", "I.par"]:
                self.put(name, b"\n")
            self.put("I", index)
            run = self.run(words.split(" ") if words else [])
            right = run.returncode == int(status) and want in ("-", run.stdout.decode().replace("\n", "\\n"))
            self.same(words, right, (run.returncode, run.stdout), (status, want))

    def refusals(self):
        stored = HERE.parent / "crates" / "check_index"
        lines = (stored / "stdin").read_text().splitlines(), (stored / "stdout").read_text().splitlines()
        self.put("Q", b"")
        for line, fault in zip(*lines):
            if " " in line:
                continue
            self.put("I", bytes.fromhex(line))
            if fault == "ok":
                self.same(("stats", line[:80]), self.run(["stats", "I"]).returncode == 0, "refused", fault)
                continue
            want = b"index refused: %s\n" % fault.encode()
            for words in [["query", "I", "Q"], ["stats", "I"]]:
                run = self.run(words)
                self.same((words[0], line[:80]), (run.returncode, run.stdout) == (6, want), (run.returncode, run.stdout), (6, want))


def main():
    with tempfile.TemporaryDirectory() as folder:
        checks = Checks(str(pathlib.Path(sys.argv[1]).resolve()), folder)
        checks.texts()
        checks.indexes()
        checks.queries()
        checks.checks()
        checks.stats()
        checks.demos()
        checks.refusals()
        checks.commands()
    print(f"texts and indexes of the program: {checks.passed} passed, {checks.failed} failed")
    return 1 if checks.failed else 0


if __name__ == "__main__":
    sys.exit(main())
