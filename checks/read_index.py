#!/usr/bin/env python3
"""Reads indexes as docs/FORMAT.md says, from that document alone, and compares with the program `check_index`.

usage: read_index.py          compares the stored runs of `check_index`: each fault and each value
       read_index.py FILE ..  prints the fault of each file, or its fields
"""
import pathlib
import sys

TOP = pathlib.Path(__file__).resolve().parent.parent
MASK = 2**64 - 1
FRONT_HASHES = 11_068_046_444_225_730_969
MOST = 67_108_864


class Fault(Exception):
    """The first fault, as its words."""


def hash_of(data, seed):
    """MurmurHash64A."""
    m = 0xC6A4A7935BD1E995
    h = seed ^ (len(data) * m & MASK)
    whole = len(data) // 8 * 8
    for at in range(0, whole, 8):
        k = int.from_bytes(data[at : at + 8], "little") * m & MASK
        k = (k ^ k >> 47) * m & MASK
        h = (h ^ k) * m & MASK
    if whole < len(data):
        h = (h ^ int.from_bytes(data[whole:], "little")) * m & MASK
    h = (h ^ h >> 47) * m & MASK
    return h ^ h >> 47


def floor_log2(number):
    return number.bit_length() - 1


def size_of(n, alpha):
    size = -(-100 * n // alpha)
    return size + 1 if size > 0 and size & (size - 1) == 0 else size


def buckets_of(n, c):
    return -(-c * n // (100 * max(1, floor_log2(n) if n else 0)))


class Reader:
    """Fields from a place on, up to an end."""

    def __init__(self, data, at, end):
        self.data, self.at, self.end = data, at, end

    def numbers(self, count):
        if self.end - self.at < 8 * count:
            raise Fault(f"form 1 {self.at}")
        self.at += 8 * count
        return [int.from_bytes(self.data[a : a + 8], "little") for a in range(self.at - 8 * count, self.at, 8)]

    def run(self, length):
        words = self.numbers(-(-length // 64))
        return sum(word << 64 * i for i, word in enumerate(words))

    def padded(self, bits, length):
        if bits >> length:
            raise Fault(f"form 3 {self.at - 8}")

    def compact(self, count):
        start = self.at
        (width,) = self.numbers(1)
        if not 1 <= width <= 64:
            raise Fault(f"form 2 {start}")
        bits = self.run(count * width)
        values = [bits >> i * width & (1 << width) - 1 for i in range(count)]
        if max([1] + [value.bit_length() for value in values]) != width:
            raise Fault(f"form 2 {start}")
        self.padded(bits, count * width)
        return values

    def parted(self, count):
        values = []
        for first in range(0, count, 256):
            values += self.compact(min(256, count - first))
        return values

    def dict(self, count):
        start = self.at
        (size,) = self.numbers(1)
        if size > count or (size == 0 and count):
            raise Fault(f"form 5 {start}")
        entries = self.numbers(size)
        for i in range(1, size):
            if entries[i] <= entries[i - 1]:
                raise Fault(f"form 4 {start + 8 + 8 * i}")
        words = self.at + 8
        places = self.compact(count)
        if any(place >= size for place in places):
            raise Fault(f"form 5 {words}")
        if len(set(places)) != size:
            raise Fault(f"form 5 {start}")
        return [entries[place] for place in places]

    def rising(self, count):
        start = self.at
        (last,) = self.numbers(1)
        if count == 0 and last:
            raise Fault(f"form 6 {start}")
        width = floor_log2(max(1, last // count)) if count else 0
        low = self.run(count * width)
        self.padded(low, count * width)
        high_at = self.at
        length = count + (last >> width) + 1
        if self.end - self.at < 8 * -(-length // 64):
            raise Fault(f"form 1 {self.at}")
        high = self.run(length)
        self.padded(high, length)
        places = [at for at in range(high.bit_length()) if high >> at & 1]
        if len(places) != count:
            raise Fault(f"form 5 {high_at}")
        values = [(at - i << width) + (low >> i * width & (1 << width) - 1) for i, at in enumerate(places)]
        if any(values[i] < values[i - 1] for i in range(1, count)):
            raise Fault(f"form 4 {start + 8}")
        if (values[-1] if values else 0) != last:
            raise Fault(f"form 6 {start}")
        return values

    def sums(self, count):
        values = self.rising(count)
        return [value - before for before, value in zip([0] + values, values)]

    def list(self, code, count):
        return {1: self.compact, 2: self.parted, 3: self.dict, 4: self.sums}[code](count)


class Index:
    def __init__(self, data):
        self.check_digest(data)
        end = len(data) - 8
        number = lambda at: int.from_bytes(data[at : at + 8], "little")
        version, self.front, self.back, self.map = data[4:8]
        if not 1 <= self.front <= 4 or self.back > 4 or self.map > version - 1:
            raise Fault("encoding")
        self.seed, self.n, self.alpha, self.c, parts = (number(at) for at in range(8, 48, 8))
        for at, least, most in ((16, 1, MOST), (24, 50, 100), (32, 100, 1500), (40, 1, 4096)):
            if not least <= number(at) <= most:
                raise Fault(f"field {at}")
        at = 48 if version == 1 else 64
        if end < at + 8 * parts:
            raise Fault("short")
        self.mark = None if version == 1 else (number(48), number(56))
        counts = [number(at + 8 * q) for q in range(parts)]
        for q, count in enumerate(counts):
            if count > MOST:
                raise Fault(f"field {at + 8 * q}")
        if sum(counts) != self.n:
            raise Fault(f"count {self.n} {sum(counts)}")
        reader = Reader(data, at + 8 * parts, end)
        self.parts = [self.partition(reader, q, count) for q, count in enumerate(counts)]
        if reader.at != end:
            raise Fault(f"long {reader.at}")

    @staticmethod
    def check_digest(data):
        if len(data) > 2**36:
            raise Fault("large")
        if len(data) < 56:
            raise Fault("short")
        if data[:4] != b"PTHX":
            raise Fault("magic")
        if data[4] not in (1, 2):
            raise Fault(f"version {data[4]}")
        kept, counted = int.from_bytes(data[-8:], "little"), hash_of(data[:-8], 0)
        if kept != counted:
            raise Fault(f"digest {kept} {counted}")

    def partition(self, reader, q, n):
        if n == 0:
            return 0, [], []
        m = buckets_of(n, self.c)
        first = 3 * m // 10 if self.back else m
        pilots = reader.list(self.front, first)
        if self.back:
            pilots += reader.list(self.back, m - first)
        for bucket, pilot in enumerate(pilots):
            if pilot >= 4_294_967_295:
                raise Fault(f"pilot {q} {bucket}")
        free = reader.rising(size_of(n, self.alpha) - n)
        for place, entry in enumerate(free):
            if entry >= n:
                raise Fault(f"free {q} {place}")
        return n, pilots, free

    def lookup(self, key):
        a, b = hash_of(key, self.seed), hash_of(key, self.seed ^ MASK)
        q = (a ^ b) * len(self.parts) >> 64
        n, pilots, free = self.parts[q]
        if n == 0:
            return None
        m = len(pilots)
        d = 3 * m // 10
        if self.map:
            bucket = a % m
        else:
            bucket = a % d if a < FRONT_HASHES and d else d + a % (m - d)
        position = (b ^ hash_of(pilots[bucket].to_bytes(8, "little"), self.seed)) % (n + len(free))
        return sum(part[0] for part in self.parts[:q]) + (position if position < n else free[position - n])


def answer(line):
    """What `check_index` prints for a line."""
    first, *keys = line.split(" ")
    try:
        index = Index(bytes.fromhex(first))
    except Fault as fault:
        return str(fault)
    values = (index.lookup(bytes.fromhex(key[1:])) for key in keys)
    return " ".join(["ok"] + ["-" if value is None else str(value) for value in values])


def main(names):
    if names:
        for name in names:
            try:
                print(name, {key: value for key, value in vars(Index(pathlib.Path(name).read_bytes())).items() if key != "parts"})
            except Fault as fault:
                print(name, fault)
        return 0
    folder = TOP / "crates/check_index"
    lines = (folder / "stdin").read_text().splitlines()
    wanted = (folder / "stdout").read_text().splitlines()
    failed = 0
    for number, (line, want) in enumerate(zip(lines, wanted, strict=True), 1):
        found = answer(line)
        if found != want:
            failed += 1
            print(f"line {number}: the reader says {found!r}, stored is {want!r}")
    print(f"indexes by a second reader: {len(lines) - failed} passed, {failed} failed")
    return 1 if failed or not lines else 0


if __name__ == "__main__":
    sys.exit(main(sys.argv[1:]))
