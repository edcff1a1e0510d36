"""Makes the example executables from their listings, NAME.lst beside this file.

    python3 examples/make.py            writes the executables
    python3 examples/make.py --check    says of each whether it is as made, and ends with status 1 where one isn't
"""

import os
import struct
import sys

HERE = os.path.dirname(os.path.abspath(__file__))
NAMES = ("echo_byte", "exit7", "hello", "jumps", "other_call")
PAGE = 4096
TEXT_ADDRESS = 0x08049000
ROOM_ADDRESS = 0x0804A000


def listed(lines):
    """The bytes of a listing: hexadecimal, up to a `;` in each line."""
    return bytes.fromhex(" ".join(line.split(";")[0] for line in lines))


def segment(offset, address, file_size, memory_size, flags):
    """A program header: PT_LOAD, with the physical address as the virtual one, aligned to a page."""
    fields = (1, offset, address, address, file_size, memory_size, flags, PAGE)
    return struct.pack("<8I", *fields)


def executable(text):
    """An ELF file with two segments: a page of code, and a page of zeros that can be written."""
    assert 1 <= len(text) <= PAGE
    # ELFCLASS32, ELFDATA2LSB, EV_CURRENT
    ident = b"\x7fELF" + bytes([1, 1, 1]) + bytes(9)
    # ET_EXEC, EM_386, EV_CURRENT, the entry, two program headers at 52, no sections
    fields = (2, 3, 1, TEXT_ADDRESS, 52, 0, 0, 52, 32, 2, 0, 0, 0)
    header = ident + struct.pack("<2H5I6H", *fields)
    header += segment(PAGE, TEXT_ADDRESS, len(text), len(text), 5)
    header += segment(2 * PAGE, ROOM_ADDRESS, 0, PAGE, 6)
    return header.ljust(PAGE, b"\0") + text.ljust(PAGE, b"\0")


def main(words):
    if words not in ([], ["--check"]):
        print(__doc__, file=sys.stderr)
        return 2
    status = 0
    for name in NAMES:
        path = os.path.join(HERE, name)
        with open(path + ".lst", encoding="ascii") as listing:
            made = executable(listed(listing))
        if not words:
            with open(path, "wb") as file:
                file.write(made)
            os.chmod(path, 0o755)
            continue
        try:
            with open(path, "rb") as file:
                is_same = file.read() == made
        except FileNotFoundError:
            is_same = False
        print(f"{name}: {'as made' if is_same else 'differs from its listing'}")
        status |= not is_same
    return status


if __name__ == "__main__":
    sys.exit(main(sys.argv[1:]))
