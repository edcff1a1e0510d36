#!/usr/bin/env python3
"""Times decoding of real i386 text beside disassembler libraries, in one run.

    decode_text.py [FILE..]

The files are i386 ELF files, by default the system's i386 libraries; others are passed over. Where their executable sections
together have less than 16 MB, they are taken several times. Each program sweeps the same bytes, instruction after instruction:
crates/linear_sweep by this decoder, and one for capstone and one for Zydis where gcc finds them, without printing. Prints the best
of some runs of each, and the ratio. The status is 0 where the decoder is no slower than the slower of the two, 1 where it is, and
3 where nothing was compared, since there is no text, no program or neither library.
"""

import os
import subprocess
import sys
import tempfile

sys.dont_write_bytecode = True
from timing import best_time, built, printed_by, skip, timed_text  # noqa: E402

RUNS = 5

READING = r"""
#include <stdio.h>
#include <stdlib.h>
static unsigned char *bytes;
static size_t count;
static int load(const char *name) {
    FILE *file = fopen(name, "rb");
    if (!file) return 0;
    fseek(file, 0, SEEK_END);
    count = ftell(file);
    rewind(file);
    bytes = malloc(count);
    return bytes && fread(bytes, 1, count, file) == count;
}
"""

PEERS = {
    "capstone": (READING + r"""
#include <capstone/capstone.h>
int main(int words, char **word) {
    csh handle;
    if (words < 2 || !load(word[1]) || cs_open(CS_ARCH_X86, CS_MODE_32, &handle)) return 1;
    cs_insn *one = cs_malloc(handle);
    const uint8_t *at = bytes;
    size_t left = count, found = 0;
    uint64_t address = 0;
    while (left) {
        if (cs_disasm_iter(handle, &at, &left, &address, one)) { found++; } else { at++; left--; address++; }
    }
    printf("%zu instructions\n", found);
}
""", "-lcapstone", "libcapstone-dev"),
    "Zydis": (READING + r"""
#include <Zydis/Zydis.h>
int main(int words, char **word) {
    ZydisDecoder decoder;
    ZydisDecodedInstruction one;
    ZydisDecodedOperand operands[ZYDIS_MAX_OPERAND_COUNT];
    size_t at = 0, found = 0;
    if (words < 2 || !load(word[1])) return 1;
    ZydisDecoderInit(&decoder, ZYDIS_MACHINE_MODE_LEGACY_32, ZYDIS_STACK_WIDTH_32);
    while (at < count) {
        if (ZYAN_SUCCESS(ZydisDecoderDecodeFull(&decoder, bytes + at, count - at, &one, operands))) {
            found++;
            at += one.length;
        } else {
            at++;
        }
    }
    printf("%zu instructions\n", found);
}
""", "-lZydis", "libzydis-dev"),
}


def compiled(folder, name):
    source, library, _ = PEERS[name]
    path = os.path.join(folder, name)
    with open(path + ".c", "w") as file:
        file.write(source)
    try:
        subprocess.run(["gcc", "-O2", "-o", path, path + ".c", library], capture_output=True, check=True)
    except (OSError, subprocess.CalledProcessError):
        return None
    return path


def main():
    program = built("linear_sweep")
    text = timed_text(sys.argv[1:])
    with tempfile.TemporaryDirectory() as folder:
        path = os.path.join(folder, "text")
        with open(path, "wb") as file:
            file.write(text)
        own = best_time([program, path], RUNS)
        print(f"this decoder  {own:7.3f} s  {printed_by([program, path])}")
        peers = []
        for name, (_, _, package) in PEERS.items():
            peer = compiled(folder, name)
            if peer is None:
                print(f"{name:12}  skipped: gcc or the package {package} is missing")
                continue
            taken = best_time([peer, path], RUNS)
            peers.append(taken)
            print(f"{name:12}  {taken:7.3f} s  {printed_by([peer, path])}; {taken / own:.2f} times as long")
    if not peers:
        skip("there is no library to compare the decoder with")
    print("ok" if own <= max(peers) else "too slow")
    return 0 if own <= max(peers) else 1


if __name__ == "__main__":
    sys.exit(main())
