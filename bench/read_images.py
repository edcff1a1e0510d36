#!/usr/bin/env python3
"""Times ./sw rewrite on files that are read whole and then refused, so that little but their reading takes time.

A file of 16 MiB with one large segment is timed beside cat of the same file. Files of 1,000, 8,000 and 65,535 segments of
a page, in three orders, are timed beside a call that only reads its words; eight times the segments may cost at most
sixteen times as much, so that the cost doesn't grow with the square of their number. Each call may take at most five
seconds. The status is 0 where that is so, 1 where it isn't, and 3 where nothing was measured, since the program isn't there.
"""

import os
import shutil
import struct
import subprocess
import sys
import tempfile

sys.dont_write_bytecode = True
from timing import best_time, built_sw  # noqa: E402

CALLS = 9
MIB = 1 << 20


def file_header(entry, count):
    return b"\x7FELF\1\1\1" + bytes(9) + struct.pack("<HHIIIIIHHHHHH", 2, 3, 1, entry, 52, 0, 0, 52, 32, count, 0, 0, 0)


def segment(offset, address, file_size, memory_size, flags):
    return struct.pack("<8I", 1, offset, address, address, file_size, memory_size, flags, 4096)


def large_file(size):
    """A segment that holds the whole file, and its first page once more as code."""
    headers = segment(0, 0x08048000, size, size, 4) + segment(0, 0x0A000000, 4096, 4096, 5)
    return (file_header(0x0A000000, 2) + headers).ljust(size, b"\0")


def pages(numbers):
    """A segment of a page for each of these numbers, without bytes in the file."""
    return file_header(0x10000, len(numbers)) + b"".join(segment(0, 0x10000 + 4096 * i, 0, 4096, 5) for i in numbers)


ORDERS = (
    ("in order", lambda n: list(range(n))),
    ("from the last on", lambda n: list(reversed(range(n)))),
    ("turned about", lambda n: [i * 7919 % n for i in range(n)]),
)


def line_of(command):
    return subprocess.run(command, capture_output=True, check=False).stderr.decode().strip()


def main():
    program = built_sw()
    alone = best_time([program, "none"], CALLS, 125)
    print(f"words alone                  {1000 * alone:9.2f} ms")
    failed = False
    with tempfile.TemporaryDirectory() as folder:
        path, out, map_ = (os.path.join(folder, name) for name in ("in", "out", "map"))
        command = [program, "rewrite", path, out, map_]

        def timed(name, content):
            with open(path, "wb") as file:
                file.write(content)
            whole = best_time(command, CALLS, 124)
            print(f"{name:28} {1000 * whole:9.2f} ms, {line_of(command)}")
            return whole

        large = timed("16 MiB in one segment", large_file(16 * MIB))
        failed = failed or large > 5
        if shutil.which("cat") is None:
            print("skipped: cat isn't found")
        else:
            copied = best_time(["cat", path], CALLS)
            print(f"{'cat of it':28} {1000 * copied:9.2f} ms, so reading takes {large / copied:.1f} times as long")
        for name, order in ORDERS:
            costs = []
            for count in (1000, 8000, 65535):
                whole = timed(f"{count:5} {name}", pages(order(count)))
                costs.append(max(whole - alone, 0.0))
                failed = failed or whole > 5
            for less, more in zip(costs, costs[1:]):
                # below a millisecond the clock says nothing
                print(f"{'':28} {more / max(less, 0.001):9.1f} times the cost of an eighth")
                failed = failed or (more > 0.001 and more > 16 * max(less, 0.001))
    print("too slow" if failed else "ok")
    return failed


if __name__ == "__main__":
    sys.exit(main())
