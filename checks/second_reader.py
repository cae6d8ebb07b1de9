#!/usr/bin/env python3
"""Builds indexes with the program in every encoding and under both maps, and reads them with the reader of docs/FORMAT.md.

usage: second_reader.py PROGRAM

For each index the reader's values of all keys, and of strangers, are those that `query` prints. The skewed ones are compared
in version 1 as well, which is made here: byte 4 is 1, the mark is gone and the digest is new. Python alone is needed.
"""
import pathlib
import subprocess
import sys
import tempfile

from read_index import Index, hash_of

CODES = ["c", "pc", "d", "ef"]
ENCODINGS = CODES + [f"{front}-{back}" for front in CODES for back in CODES]


def version_1(data):
    """The version 1 form of a version 2 index."""
    body = data[:4] + b"\x01" + data[5:48] + data[64:-8]
    return body + hash_of(body, 0).to_bytes(8, "little")


def main(program):
    program = str(pathlib.Path(program).resolve())
    passed = failed = 0
    with tempfile.TemporaryDirectory() as name:
        folder = pathlib.Path(name)

        def run(*words):
            return subprocess.run([program, *words], cwd=folder, capture_output=True, check=True).stdout.decode()

        keys = [b"key %d" % i for i in range(300)]
        queries = keys + [b"stranger %d" % i for i in range(20)] + [b""]
        (folder / "keys").write_bytes(b"".join(key + b"\n" for key in keys))
        (folder / "queries").write_bytes(b"".join(query + b"\n" for query in queries))
        for spread in ("skewed", "uniform"):
            for enc in ENCODINGS:
                run("build", "keys", "index", f"enc={enc}", f"map={spread}", "parts=3")
                built = (folder / "index").read_bytes()
                for version, data in ((2, built), (1, version_1(built)))[: 2 if spread == "skewed" else 1]:
                    (folder / "index").write_bytes(data)
                    index = Index(data)
                    values = [index.lookup(query) for query in queries]
                    text = "".join(f"{'-' if value is None else value}\n" for value in values)
                    if run("query", "index", "queries") == text and sorted(values[: len(keys)]) == list(range(len(keys))):
                        passed += 1
                    else:
                        failed += 1
                        print(f"version {version}, {enc}, {spread}: the values differ")
    print(f"built indexes by a second reader: {passed} passed, {failed} failed")
    return 1 if failed or not passed else 0


if __name__ == "__main__":
    if len(sys.argv) != 2:
        sys.exit(__doc__)
    sys.exit(main(sys.argv[1]))
