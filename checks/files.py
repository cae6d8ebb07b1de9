#!/usr/bin/env python3
"""Runs the built program on pipes, links and folders, without its standard streams, and into outputs that fail.

usage: files.py PROGRAM
"""
import array
import fcntl
import itertools
import os
import pathlib
import signal
import subprocess
import sys
import tempfile
import termios
import threading
import time

KEYS = b"".join(b"key number %d\n" % i for i in range(40000))
# With so many buckets the text is longer than what a pipe holds. One worker, so that no turn waits for a thread to be run.
SETTINGS = ("c=1500", "workers=1")
PIPE = 65536
WAIT = 20


class Checks:
    def __init__(self, program):
        self.program = program
        self.passed = self.failed = 0

    def run(self, *words, **how):
        return subprocess.run([self.program, *words], timeout=WAIT, **{"stdout": subprocess.PIPE, **how})

    def start(self, *words, **how):
        return subprocess.Popen([self.program, *words], **{"stdout": subprocess.PIPE, **how})

    def same(self, what, found, wanted):
        if found == wanted:
            self.passed += 1
        else:
            self.failed += 1
            print(f"{what}: {str(found)[:200]}, wanted {str(wanted)[:200]}")


def until(holds):
    """Waits until something holds, for a second at most."""
    end = time.monotonic() + 1
    while not holds() and time.monotonic() < end:
        time.sleep(0.001)


def held(pipe):
    """How many bytes a pipe holds."""
    count = array.array("i", [0])
    fcntl.ioctl(pipe, termios.FIONREAD, count)
    return count[0]


def feed(pipe, data):
    try:
        with open(pipe, "wb") as into:
            into.write(data)
    except BrokenPipeError:
        pass


def key_files(checks, text):
    """A pipe and a link are key files, a folder is none."""
    reader, writer = os.pipe()
    feeder = threading.Thread(target=feed, args=(writer, KEYS))
    feeder.start()
    run = checks.run("pilots", f"/dev/fd/{reader}", *SETTINGS, pass_fds=[reader])
    os.close(reader)
    feeder.join()
    checks.same("a pipe", (run.returncode, run.stdout), (0, text))
    os.symlink("K", "link")
    run = checks.run("pilots", "link", *SETTINGS)
    checks.same("a link", (run.returncode, run.stdout), (0, text))
    run = checks.run("pilots", ".", *SETTINGS)
    checks.same("a folder", (run.returncode, run.stdout), (2, b"file fault\n"))


def outputs(checks, text):
    """An output that fails is status 8, and one that takes the text in parts gets the whole."""
    for output in ["/dev/full", os.devnull]:
        with open(output, "rb" if output == os.devnull else "wb") as out:
            what = "a full output" if output == "/dev/full" else "an output that takes nothing"
            checks.same(what, checks.run("pilots", "K", *SETTINGS, stdout=out).returncode, 8)
            checks.same(f"{what}, words refused", checks.run("pilot", stdout=out).returncode, 1)
    reader, writer = os.pipe()
    run = checks.start("pilots", "K", *SETTINGS, stdout=writer)
    os.close(writer)
    until(lambda: held(reader) >= PIPE or run.poll() is not None)
    # The write that waits for room is cut off where it is.
    for _ in range(3):
        run.send_signal(signal.SIGSTOP)
        run.send_signal(signal.SIGCONT)
    with open(reader, "rb") as out:
        checks.same("a text in parts", (out.read(), run.wait(WAIT)), (text, 0))


def standard_streams(checks, text):
    """Without standard streams the key file stays itself, and gets a descriptor above theirs."""
    os.mkfifo("fifo")
    link = os.path.realpath("fifo")
    for closed in itertools.chain.from_iterable(itertools.combinations(range(3), n) for n in range(4)):
        def close():
            for descriptor in closed:
                os.close(descriptor)

        keys = os.open("fifo", os.O_RDWR)
        run = checks.start("pilots", "fifo", *SETTINGS, preexec_fn=close)
        os.write(keys, b"one\n")
        until(lambda: held(keys) == 0)
        folder = pathlib.Path(f"/proc/{run.pid}/fd")
        opened = [int(fd) for fd in os.listdir(folder) if os.readlink(folder / fd) == link]
        checks.same(f"descriptors where {closed} are closed", [fd > 2 for fd in opened], [True])
        os.close(keys)
        run.stdout.close()
        run.wait(WAIT)
        run = checks.run("pilots", "K", *SETTINGS, preexec_fn=close)
        wanted = (8, b"") if 1 in closed else (0, text)
        checks.same(f"{closed} closed", (run.returncode, run.stdout), wanted)
        checks.same(f"the key file where {closed} are closed", pathlib.Path("K").read_bytes() == KEYS, True)


def main():
    checks = Checks(str(pathlib.Path(sys.argv[1]).resolve()))
    with tempfile.TemporaryDirectory() as folder:
        os.chdir(folder)
        pathlib.Path("K").write_bytes(KEYS)
        run = checks.run("pilots", "K", *SETTINGS)
        checks.same("a file", (run.returncode, len(run.stdout) > PIPE), (0, True))
        key_files(checks, run.stdout)
        outputs(checks, run.stdout)
        standard_streams(checks, run.stdout)
        os.chdir("/")
    print(f"files and outputs of the program: {checks.passed} passed, {checks.failed} failed")
    return 1 if checks.failed else 0


if __name__ == "__main__":
    sys.exit(main())
