#!/usr/bin/env python3
"""Times rewriting on pages of code, beside a call that only reads its words, in one run.

Prints for each file the best time of a call that stores to devices, that time less the call that only reads its words, and the
best time of a call that stores to files, most of which the two syncs take. A page of twice the instructions may cost at most four
times as much, so that cost doesn't grow with the square of the work, and each call at most a second. The status is 0 where
that is so, 1 where it isn't, and 3 where nothing was measured, since the program isn't there.
"""

import importlib.util
import os
import sys
import tempfile

sys.dont_write_bytecode = True
from timing import TOP, best_time, built_sw  # noqa: E402

CALLS = 50


def example_maker():
    spec = importlib.util.spec_from_file_location("make", os.path.join(TOP, "examples", "make.py"))
    module = importlib.util.module_from_spec(spec)
    spec.loader.exec_module(module)
    return module


def backward(count):
    """A jump to the last of so many jumps, each of which leads to the one before it, and the first to itself."""
    return b"\xE9" + (2 * (count - 1)).to_bytes(4, "little") + b"\xEB\xFE" + b"\xEB\xFC" * (count - 1)


def main():
    maker = example_maker()
    program = built_sw()
    alone = best_time([program, "none"], CALLS, 125)
    print(f"words alone              {1000 * alone:8.2f} ms")
    failed = False
    for name, make, counts in (
        ("moves", lambda n: b"\xB8\x01\0\0\0" * n + b"\xF4", (409, 818)),
        ("jumps onward", lambda n: b"\xEB\0" * n + b"\xF4", (1023, 2046)),
        ("jumps backward", backward, (1022, 2044)),
    ):
        costs = []
        for count in counts:
            with tempfile.TemporaryDirectory() as folder:
                path = os.path.join(folder, "in")
                with open(path, "wb") as file:
                    file.write(maker.executable(make(count)))
                whole = best_time([program, "rewrite", path, "/dev/null", "/dev/stdout"], CALLS)
                out, map_ = os.path.join(folder, "out"), os.path.join(folder, "map")
                stored = best_time([program, "rewrite", path, out, map_], CALLS)
            costs.append(max(whole - alone, 0.0))
            more = f"{1000 * costs[-1]:8.2f} ms more than words alone"
            print(f"{count:5} {name:18} {1000 * whole:8.2f} ms, {more}; to files {1000 * stored:8.2f} ms")
            failed = failed or stored > 1
        # below a millisecond the clock says nothing
        failed = failed or (costs[1] > 0.001 and costs[1] > 4 * max(costs[0], 0.00025))
    print("too slow" if failed else "ok")
    return failed


if __name__ == "__main__":
    sys.exit(main())
