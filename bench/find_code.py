#!/usr/bin/env python3
"""Times code_listing on files whose code is hard to find, beside objdump -d and cat of the same file, in one run.

Each file is made here, with a section .text, so that objdump has something to do. Large ones: 32,768 jumps that are spread over 4 MiB,
an image of 64 MiB that is nearly all data, and one all of whose words are the address of the entry. Of the other shapes, each would show a
cost that grows with the square of its size: jumps backwards, each to the one before; calls of one procedure; calls into one run, each at
another place; table jumps whose tables share their words; words beside many tables; runs that overlap; and a thousand segments. They are
timed at two sizes, and twice the size may cost at most 2.5 times as much. The status is 0 where that is so, 1 where it isn't, and 3 where
nothing was measured, since the program isn't there.
"""

import os
import random
import shutil
import struct
import subprocess
import sys
import tempfile

sys.dont_write_bytecode = True
from timing import best_time, built  # noqa: E402

CALLS = 5
GROWTH = 2.5
# below this time in seconds the clock says nothing
LEAST = 0.002
MIB = 1 << 20
PAGE = 4096
BASE = 0x08048000
DATA = 0x10000000
READ, WRITE, RUN = 4, 2, 1
RET, NOP = b"\xC3", b"\x90"


def whole_pages(count):
    return -(-count // PAGE) * PAGE


def file_of(entry, segments):
    """An executable of segments: address, bytes and permissions; the first that can be run is its section .text."""
    front = whole_pages(52 + 32 * len(segments))
    headers, body, sections = b"", b"", []
    for address, content, flags in segments:
        offset = front + len(body)
        headers += struct.pack("<8I", 1, offset, address, address, len(content), len(content), flags, PAGE)
        if flags & RUN and not sections:
            sections = [(1, 1, 6, address, offset, len(content))]
        body += content.ljust(whole_pages(len(content)), b"\0")
    names = b"\0.text\0.shstrtab\0"
    table = front + len(body) + len(names)
    sections = [(0, 0, 0, 0, 0, 0), *sections, (7, 3, 0, 0, front + len(body), len(names))]
    packed = b"".join(struct.pack("<10I", *section, 0, 0, 1, 0) for section in sections)
    head = b"\x7FELF\1\1\1" + bytes(9)
    head += struct.pack("<HHIIIIIHHHHHH", 2, 3, 1, entry, 52, table, 0, 52, 32, len(segments), 40, len(sections), len(sections) - 1)
    return (head + headers).ljust(front, b"\0") + body + names + packed


def code_alone(code, entry=BASE):
    return file_of(entry, [(BASE, code, READ | RUN)])


def jump(distance):
    """JMP rel32, by the distance from its first byte."""
    return b"\xE9" + struct.pack("<i", distance - 5)


def call(distance):
    return b"\xE8" + struct.pack("<i", distance - 5)


# ---- large files
def spread():
    """32,767 jumps and a RET, each in 128 bytes of its own."""
    return code_alone(b"".join(jump(128).ljust(128, b"\0") for _ in range(32767)) + RET.ljust(128, b"\0"))


def mostly_data():
    words = random.Random(1).randbytes(64 * MIB - PAGE)
    return file_of(BASE, [(BASE, RET, READ | RUN), (DATA, words, READ | WRITE)])


def entries_alone():
    words = struct.pack("<I", BASE) * (16 * MIB - PAGE // 4)
    return file_of(BASE, [(BASE, RET, READ | RUN), (DATA, words, READ | WRITE)])


# ---- shapes, by their size
def jumps_backwards(size):
    return code_alone(RET.ljust(5, NOP) + jump(-5) * size, BASE + 5 * size)


def calls_of_one(size):
    code = b"".join(call(5 * (size - place) + 1) for place in range(size))
    return code_alone(code + RET + RET)


def calls_into_a_run(size):
    """Half are calls, each of the next place of a run of as many instructions."""
    half = size // 2
    code = b"".join(call(5 * (half - place) + 1 + place) for place in range(half))
    return code_alone(code + RET + NOP * half + RET)


def shared_tables(size):
    """JE to behind it and JMP [ecx*4 + table], so often; the tables begin one word apart, and their words are 1,024 RETs and more."""
    front = 9 * size + 1
    code = b"".join(b"\x74\x07\xFF\x24\x8D" + struct.pack("<I", DATA + 4 * place) for place in range(size))
    words = b"".join(struct.pack("<I", BASE + front + place % 1024) for place in range(1024 + size))
    return file_of(BASE, [(BASE, code + RET + RET * 1024, READ | RUN), (DATA, words, READ)])


def words_beside_tables(size):
    """JE to behind it and JMP [ecx*4 + table], so often, each with a table of one word; and 32 times as many words that are the address of a
    byte at which no instruction stands."""
    front = 9 * size
    code = b"".join(b"\x74\x07\xFF\x24\x8D" + struct.pack("<I", DATA + 8 * place) for place in range(size))
    tables = struct.pack("<II", BASE + front, 0) * size
    words = struct.pack("<I", BASE + front + 1) * (32 * size)
    return file_of(BASE, [(BASE, code + RET + b"\x06", READ | RUN), (DATA, tables + words, READ)])


def overlapping_runs(size):
    """Five runs of MOV eax, imm32 through the same bytes, each a byte later than the one before."""
    front = b"".join(b"\x0F\x84" + struct.pack("<I", 6 * (3 - place) + 1 + place) for place in range(4))
    return code_alone(front + b"\xB8" * size + NOP * 8 + RET)


def many_segments(size):
    """Segments of a page: 29 NOPs and a jump to the next one."""
    segments = [(BASE + PAGE * place, NOP * 29 + jump(PAGE - 29), READ | RUN) for place in range(size)]
    return file_of(BASE, [*segments, (BASE + PAGE * size, RET, READ | RUN)])


LARGE = (
    ("32,768 jumps in 4 MiB", spread),
    ("64 MiB, nearly all data", mostly_data),
    ("64 MiB of one address", entries_alone),
)

SHAPES = (
    ("jumps backwards", jumps_backwards, 30000),
    ("calls of one procedure", calls_of_one, 30000),
    ("calls into one run", calls_into_a_run, 30000),
    ("tables that share words", shared_tables, 1000),
    ("words beside tables", words_beside_tables, 10000),
    ("runs that overlap", overlapping_runs, 30000),
    ("segments of 30", many_segments, 1000),
)


def instructions(program, path):
    """How many instructions are listed."""
    with open(path, "rb") as file:
        said = subprocess.run([program], stdin=file, capture_output=True, text=True, check=True).stdout
    return sum(1 for line in said.splitlines() if line[:5] not in ("proce", "table"))


def main():
    program = built("code_listing")
    objdump = shutil.which("objdump")
    failed = False
    with tempfile.TemporaryDirectory() as folder:
        path = os.path.join(folder, "file")

        def timed(name, content):
            with open(path, "wb") as file:
                file.write(content)
            count = instructions(program, path)
            own = best_time([program], CALLS, 0, path)
            beside = [f"cat {1000 * best_time(['cat', path], CALLS):.1f} ms"] if shutil.which("cat") else []
            if objdump:
                taken = best_time([objdump, "-d", path], CALLS)
                beside.append(f"objdump -d {1000 * taken:.1f} ms, {own / taken:.2f} times its time")
            print(f"{name:32} {1000 * own:9.1f} ms, {count:5} instructions; {'; '.join(beside)}")
            return own

        with open(path, "wb") as file:
            file.write(code_alone(RET))
        alone = best_time([program], CALLS, 0, path)
        print(f"{'one instruction':32} {1000 * alone:9.1f} ms")
        for name, made in LARGE:
            timed(name, made())
        for name, made, size in SHAPES:
            less, more = (max(timed(f"{name}, {count}", made(count)) - alone, 0.0) for count in (size // 2, size))
            growth = more / max(less, LEAST)
            print(f"{'':32} {growth:9.2f} times the cost of half the size")
            failed = failed or growth > GROWTH
    print("too slow" if failed else "ok")
    return failed


if __name__ == "__main__":
    sys.exit(main())
