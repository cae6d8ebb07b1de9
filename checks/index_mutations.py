#!/usr/bin/env python3
"""Changes small valid indexes in many ways, gives them the digest that belongs to them, and has `check_index` read them: it must
not crash, and each answer is a fault or an index whose values are below its number of keys. A tenth is compared with the
reader in read_index.py. Run it after `rt run` in crates/check_index.

usage: index_mutations.py [COUNT [SEED]]
"""
import pathlib
import random
import subprocess
import sys
import time

from read_index import TOP, answer, hash_of

EDGES = [0, 1, 2, 3, 49, 50, 63, 64, 65, 99, 100, 101, 1500, 1501, 4096, 4097, 67_108_864, 67_108_865, 2**32 - 2, 2**32 - 1, 2**32]
EDGES += [2**36, 2**63 - 1, 2**63, 2**64 - 2, 2**64 - 1]
KEYS = " ".join(":" + key.hex() for key in [b"", b"a", b"k0", b"k1", b"k2", b"k7", b"\xff" * 9])


def changed(rng, body):
    """The bytes before a digest, changed once."""
    body = bytearray(body)
    kind, at = rng.randrange(7), rng.randrange(len(body))
    word = min(at // 8 * 8, len(body) - 8)
    if kind == 0:
        body[at] ^= 1 << rng.randrange(8)
    elif kind == 1:
        body[at] = rng.randrange(256)
    elif kind == 2:
        body[word : word + 8] = rng.choice(EDGES).to_bytes(8, "little")
    elif kind == 3:
        number = int.from_bytes(body[word : word + 8], "little") + rng.choice([-2, -1, 1, 2])
        body[word : word + 8] = (number % 2**64).to_bytes(8, "little")
    elif kind == 4:
        del body[at : at + rng.choice([1, 8, 8, 16, 40])]
    elif kind == 5:
        body[word:word] = body[word : word + 8 * rng.randrange(1, 4)]
    else:
        other = rng.randrange(len(body) // 8) * 8
        body[word : word + 8], body[other : other + 8] = body[other : other + 8], body[word : word + 8]
    return bytes(body)


def keys_in(text):
    """How many keys an index in hex has."""
    return int.from_bytes(bytes.fromhex(text[32:48]), "little")


def batch(rng, bases, count, program):
    """Reads so many changed indexes; gives how many were read as indexes, how many compared, and what failed."""
    lines = []
    for _ in range(count):
        body = rng.choice(bases)
        for _ in range(rng.choice([1, 1, 1, 2, 3])):
            if len(body) > 16:
                body = changed(rng, body)
        lines.append((body + hash_of(body, 0).to_bytes(8, "little")).hex() + " " + KEYS)
    ran = subprocess.run([program], input="\n".join(lines) + "\n", capture_output=True, text=True)
    answers = ran.stdout.splitlines()
    if ran.returncode or len(answers) != count:
        return 0, 0, [f"status {ran.returncode} after {len(answers)} of {count} answers"]
    failed, read, compared = [], 0, 0
    for line, found in zip(lines, answers):
        if found.startswith("ok"):
            read += 1
            if any(value != "-" and int(value) >= keys_in(line) for value in found.split()[1:]):
                failed.append(f"a value is out of range: {line}")
        if rng.randrange(10) == 0:
            compared += 1
            if answer(line) != found:
                failed.append(f"the readers differ, {found!r} and {answer(line)!r}: {line}")
    return read, compared, failed


def main():
    count = int(sys.argv[1]) if len(sys.argv) > 1 else 1_000_000
    seed = int(sys.argv[2]) if len(sys.argv) > 2 else int(time.time())
    print(f"seed {seed}")
    folder = TOP / "crates/check_index"
    program = folder / "out/check_index"
    pairs = zip((folder / "stdin").read_text().splitlines(), (folder / "stdout").read_text().splitlines())
    bases = sorted({bytes.fromhex(line.split(" ")[0])[:-8] for line, found in pairs if found.startswith("ok")})
    rng = random.Random(seed)
    read = compared = done = 0
    while done < count:
        size = min(20_000, count - done)
        more = batch(rng, bases, size, program)
        if more[2]:
            print("\n".join(more[2][:5]))
            return 1
        read, compared, done = read + more[0], compared + more[1], done + size
    print(f"{done} changed indexes: {read} read as indexes, the others refused; {compared} compared with the second reader")
    return 0


if __name__ == "__main__":
    sys.exit(main())
