#!/usr/bin/env python3
"""Times ./sw beside the program that it starts, where there is nothing to build, each in 200 calls in turn.

Prints the best time and the middle one of each. The script may cost at most 3 ms more than the program, by the best ones. The status
is 0 where that is so, 1 where it isn't, and 3 where nothing was measured, since the program isn't there.
"""

import os
import statistics
import sys

sys.dont_write_bytecode = True
from timing import TOP, best_time, built_sw  # noqa: E402

CALLS = 200
MOST = 0.003


def main():
    program, script = built_sw(), os.path.join(TOP, "sw")
    times = {program: [], script: []}
    for _ in range(CALLS):
        for command, found in times.items():
            found.append(best_time([command, "none"], 1, 125))
    for command, found in times.items():
        name = os.path.relpath(command, TOP)
        print(f"{name:26} {1000 * min(found):6.2f} ms at best, {1000 * statistics.median(found):6.2f} ms in the middle")
    more = min(times[script]) - min(times[program])
    print(f"{'more':26} {1000 * more:6.2f} ms at best")
    print("too slow" if more > MOST else "ok")
    return more > MOST


if __name__ == "__main__":
    sys.exit(main())
