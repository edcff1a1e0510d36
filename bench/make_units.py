#!/usr/bin/env python3
"""Times the unit of a whole program, by unit_listing with it and without it, in one run.

Each file is made here, of 32,768 found instructions or fewer: jumps that are spread over 4 MiB; straight code of the common forms; conditional jumps to addresses
at which nothing is found; repeats. What is printed is the processor time that reading and finding take, and how much more it is with the unit. 32,768 instructions may take 0.2 s more,
and twice the size may cost at most 2.5 times as much. The status is 0 where that is so, 1 where it isn't, and 3 where nothing was measured, since the program isn't there.
"""

import os
import struct
import subprocess
import sys
import tempfile

sys.dont_write_bytecode = True
from find_code import MIB, RET, code_alone, jump  # noqa: E402
from timing import best_processor_time, built  # noqa: E402

CALLS = 25
GROWTH = 2.5
MOST = 0.2
SIZE = 32768
# below this time in seconds the clock says nothing
LEAST = 0.002


def spread(size):
    """Jumps and a RET, each in 128 bytes of its own."""
    return code_alone(b"".join(jump(128).ljust(128, b"\0") for _ in range(size - 1)) + RET.ljust(128, b"\0"))


def straight(size):
    """MOV, ADD, LEA, PUSH, POP, IMUL, SHL and CMP, as compiled code has them, and a RET."""
    some = (b"\x8B\x44\x24\x08", b"\x01\xD8", b"\x8D\x4C\x81\x04", b"\x53", b"\x5B", b"\x0F\xAF\xC1", b"\xC1\xE0\x04", b"\x83\xF8\x10")
    return code_alone(b"".join(some[place % len(some)] for place in range(size - 1)) + RET)


def branches_out(size):
    """JE to addresses 16 MiB on, where no instruction stands, and a RET."""
    return code_alone((b"\x0F\x84" + struct.pack("<i", 16 * MIB)) * (size - 1) + RET)


def repeats(size):
    """REP MOVSD and a RET."""
    return code_alone(b"\xF3\xA5" * (size - 1) + RET)


SHAPES = (
    ("jumps in 4 MiB", spread),
    ("straight code", straight),
    ("branches to nothing", branches_out),
    ("repeats", repeats),
)


def main():
    program = built("unit_listing")
    failed = False
    with tempfile.TemporaryDirectory() as folder:
        path = os.path.join(folder, "file")

        def timed(name, content):
            with open(path, "wb") as file:
                file.write(content)
            with open(path, "rb") as file:
                said = subprocess.run([program], stdin=file, capture_output=True, text=True, check=True).stdout
            found = best_processor_time([program, "found"], CALLS, path)
            more = max(best_processor_time([program], CALLS, path) - found, 0.0)
            print(f"{name:28} {1000 * found:8.1f} ms without the unit, {1000 * more:8.1f} ms more with it; {', '.join(said.splitlines())}")
            return more

        for name, made in SHAPES:
            less, more = (timed(f"{name}, {count}", made(count)) for count in (SIZE // 2, SIZE))
            growth = more / max(less, LEAST)
            print(f"{'':28} {growth:8.2f} times the cost of half the size")
            failed = failed or more > MOST or growth > GROWTH
    print("too slow" if failed else "ok")
    return failed


if __name__ == "__main__":
    sys.exit(main())
