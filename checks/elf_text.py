"""The executable sections of i386 ELF files, for comparisons outside the product."""

import os
import struct

SHF_EXECINSTR = 4
SHT_PROGBITS = 1
EM_386 = 3

# where Debian has i386 libraries, for a script that wants more of their text
PACKAGES = "libc6-i386 and lib32stdc++6"


def text_of(path):
    """The bytes of the file's executable sections, one after the other; empty where it is no i386 ELF file, as a linker's script
    that is named like a library."""
    with open(path, "rb") as file:
        data = file.read()
    if len(data) < 52 or data[:6] != b"\x7fELF\x01\x01" or struct.unpack_from("<H", data, 18)[0] != EM_386:
        return b""
    offset = struct.unpack_from("<I", data, 32)[0]
    size, count = struct.unpack_from("<HH", data, 46)
    parts = []
    for i in range(count):
        _, kind, flags, _, start, length = struct.unpack_from("<6I", data, offset + size * i)
        if kind == SHT_PROGBITS and flags & SHF_EXECINSTR:
            parts.append(data[start : start + length])
    return b"".join(parts)


def texts_of(paths):
    """The executable bytes of each file that has any."""
    for path in paths:
        text = text_of(path)
        if text:
            yield text


def libraries():
    """The i386 libraries of the system, where it has any."""
    for folder in ("/usr/lib/i386-linux-gnu", "/lib/i386-linux-gnu", "/usr/lib32"):
        for root, _, names in os.walk(folder):
            for name in sorted(names):
                path = os.path.join(root, name)
                if ".so" in name and os.path.isfile(path) and not os.path.islink(path):
                    yield path
