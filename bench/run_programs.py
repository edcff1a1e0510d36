#!/usr/bin/env python3
"""Times `run` on compiled programs, beside the processor itself and qemu-i386, in one run.

Compiles each program of bench/programs by gcc -m32, without a library, and prints how many steps a second the stated machine makes of it
(from a run of 20 million steps, less one of no step), and how long the whole program takes natively, under qemu-i386 where that is found, and
by `run`. What they print has to be the same. Four programs more show that a step costs the same where esp moves far, also within a page, and where the file has
a thousand segments, one of which runs or all. The status is 0 where each program makes at least 20 million steps a second and those four cost at most twice as much a step
as the plain loop, 1 where one doesn't, and 3 where nothing was measured, since the program, gcc or a system that runs i386 files isn't there.
"""

import os
import shutil
import struct
import subprocess
import sys
import tempfile

sys.dont_write_bytecode = True
from timing import TOP, best_time, built_sw, printed_by, skip  # noqa: E402

GOAL = 20 * 1000 * 1000
STEPS = 20 * 1000 * 1000
SPENT = 119
FLAGS = (
    "-m32 -O2 -march=i686 -mno-sse -fno-pic -fno-pie -no-pie -static -nostdlib -ffreestanding -fcf-protection=none "
    "-fno-stack-protector -fno-asynchronous-unwind-tables -Wl,--build-id=none"
).split()


def compiled(name, folder):
    """The path of a program of bench/programs."""
    path = os.path.join(folder, name)
    source = os.path.join(TOP, "bench", "programs", name + ".c")
    done = subprocess.run(["gcc", *FLAGS, "-o", path, source], capture_output=True, text=True, check=False)
    if done.returncode:
        skip(f"gcc -m32 doesn't compile: {done.stderr.strip().splitlines()[-1]}")
    return path


def file_of(code, segments, path):
    """Writes an executable: a page of code, and so many pages of data, each a segment of its own with a page between."""
    count = 1 + segments
    offset = -(-(52 + 32 * count) // 4096) * 4096
    headers = struct.pack("<8I", 1, offset, 0x08048000, 0x08048000, len(code), len(code), 5, 4096)
    for place in range(segments):
        start = 0x10000000 + 8192 * place
        headers += struct.pack("<8I", 1, offset, start, start, 0, 4096, 6, 4096)
    head = b"\x7fELF\x01\x01\x01" + b"\0" * 9 + struct.pack("<HHIIIIIHHHHHH", 2, 3, 1, 0x08048000, 52, 0, 0, 52, 32, count, 0, 0, 0)
    with open(path, "wb") as file:
        file.write((head + headers).ljust(offset, b"\0") + code)
    return path


def chain_of(count, path):
    """Writes an executable: so many segments with code, 65,536 addresses apart, each of which jumps to the next one, and the last to the first."""
    offset = -(-(52 + 32 * count) // 4096) * 4096
    headers, code = b"", b""
    for place in range(count):
        start, target = 0x10000000 + 0x10000 * place, 0x10000000 + 0x10000 * ((place + 1) % count)
        headers += struct.pack("<8I", 1, offset + 4096 * place, start, start, 5, 5, 5, 4096)
        code += (b"\xE9" + struct.pack("<i", target - start - 5)).ljust(4096, b"\0")
    head = b"\x7fELF\x01\x01\x01" + b"\0" * 9 + struct.pack("<HHIIIIIHHHHHH", 2, 3, 1, 0x10000000, 52, 0, 0, 52, 32, count, 0, 0, 0)
    with open(path, "wb") as file:
        file.write((head + headers).ljust(offset, b"\0") + code)
    return path


def steps_a_second(program, path):
    """From a run that is cut, less one of no step."""
    none = best_time([program, "run-steps", "0", path], 3, SPENT)
    some = best_time([program, "run-steps", str(STEPS), path], 3, SPENT)
    return STEPS / max(some - none, 1e-9)


def main():
    if shutil.which("gcc") is None:
        skip("gcc isn't found")
    program = built_sw()
    qemu = shutil.which("qemu-i386")
    failed = False
    with tempfile.TemporaryDirectory() as folder:
        for name in ("sieve", "hash", "sort"):
            path = compiled(name, folder)
            try:
                wanted = printed_by([path])
            except OSError:
                skip("this system runs no i386 files")
            rate = steps_a_second(program, path)
            failed = failed or rate < GOAL
            whole = [program, "run-steps", "4000000000", path]
            same = printed_by(whole) == wanted and (qemu is None or printed_by([qemu, path]) == wanted)
            failed = failed or not same
            native, ours = best_time([path], 5), best_time(whole, 2)
            beside = f", qemu-i386 {1000 * best_time([qemu, path], 3):.0f} ms" if qemu else ""
            print(
                f"{name:6} {rate / 1e6:6.1f} million steps a second; native {1000 * native:.0f} ms{beside}, run {1000 * ours:.0f} ms,"
                f" {ours / native:.0f} times native; prints {wanted}{'' if same else ', but not everywhere'}"
            )
        loop = b"\x40\xEB\xFD"
        far = b"\x81\xEC\0\0\x60\0\x50\x81\xC4\x04\0\x60\0\xEB\xF1"
        plain = steps_a_second(program, file_of(loop, 0, os.path.join(folder, "plain")))
        near = steps_a_second(program, file_of(far.replace(b"\0\x60\0", b"\x10\0\0"), 0, os.path.join(folder, "near")))
        within = far.replace(b"\0\0\x60\0", b"\xB8\x0B\0\0").replace(b"\x04\0\x60\0", b"\xBC\x0B\0\0")
        path = os.path.join(folder, "file")
        one = steps_a_second(program, chain_of(1, path))
        for what, base, write in (
            ("esp moves by 6 MiB", near, lambda: file_of(far, 0, path)),
            ("esp moves by 3,000, within a page", near, lambda: file_of(within, 0, path)),
            ("a thousand segments", plain, lambda: file_of(loop, 1000, path)),
            ("a thousand segments in which it runs", one, lambda: chain_of(1000, path)),
        ):
            rate = steps_a_second(program, write())
            print(f"{what}: {rate / 1e6:.1f} million steps a second, {base / rate:.2f} times the time of a step of the plain one")
            failed = failed or base > 2 * rate
    print("too slow" if failed else "ok")
    return failed


if __name__ == "__main__":
    sys.exit(main())
