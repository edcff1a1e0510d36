#!/usr/bin/env python3
"""Prints what objdump reads beside each worked spelling, and beside each worked best spelling.

It judges nothing: a reader compares the two columns. The status is 0 where all were printed, and 3 where objdump is missing.
"""

import importlib.util
import os
import re
import shutil
import subprocess
import sys
import tempfile

TOP = os.path.dirname(os.path.dirname(os.path.abspath(__file__)))
sys.dont_write_bytecode = True
sys.path.insert(0, os.path.join(TOP, "checks"))
from programs import skip  # noqa: E402


def worked():
    path = os.path.join(TOP, "crates", "x86_grammar", "tools", "worked.py")
    spec = importlib.util.spec_from_file_location("worked", path)
    module = importlib.util.module_from_spec(spec)
    spec.loader.exec_module(module)
    return module


def best_rows():
    """The rows of the encoder's worked table: the bytes, and the instruction as it stands there."""
    path = os.path.join(TOP, "crates", "x86_encode", "specs", "Worked.antt")
    with open(path, encoding="utf-8") as file:
        for line in file:
            row = re.fullmatch(r"\s*\((instr\..*), (0x[0-9A-F]{2}(?: ∷ 0x[0-9A-F]{2})*) ∷ \[\]\) ∷\n", line)
            if row:
                yield bytes(int(number, 16) for number in row[2].split(" ∷ ")), row[1]


def print_row(spelling, instr):
    with tempfile.NamedTemporaryFile() as file:
        file.write(spelling)
        file.flush()
        words = ["objdump", "-D", "-b", "binary", "-m", "i386", "-M", "intel", file.name]
        said = subprocess.run(words, capture_output=True, text=True, check=True).stdout
    read = [line.split("\t")[2] for line in said.splitlines() if line.count("\t") == 2]
    print(spelling.hex(" ").ljust(48), "; ".join(read).ljust(48), instr)


def main():
    if shutil.which("objdump") is None:
        skip("objdump, of the package binutils, isn't found")
    rows = worked()
    for text, instr, _ in rows.SPELLED:
        print_row(bytes(rows.numbers(text.replace("|", " "))), instr)
    for spelling, instr in best_rows():
        print_row(spelling, instr)


if __name__ == "__main__":
    main()
