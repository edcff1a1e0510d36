#!/usr/bin/env python3
"""Writes stdin and stdout of tools/rows.txt and of the lines below, in the crate's folder.

With --check it writes nothing, and ends with 1 where a file differs.
"""

import os
import re
import sys

HERE = os.path.dirname(os.path.abspath(__file__))
CRATE = os.path.dirname(HERE)

# lines that are written in other ways, and lines that are no list of bytes
LINES = [
    (b"", "Short"),
    (b"   ", "Short"),
    (b"bb07000000", "5 Mov width=4 to=ebx from=0x00000007 encode=bb07000000 wide=bb07000000"),
    (b"  Bb 07\t000000 \r", "5 Mov width=4 to=ebx from=0x00000007 encode=bb07000000 wide=bb07000000"),
    (b"9 0", "not bytes"),
    (b"B8 1", "not bytes"),
    (b"B", "not bytes"),
    (b"0x90", "not bytes"),
    (b"90, 90", "not bytes"),
    (b"90 90 g0", "not bytes"),
    (b"90 @0", "not bytes"),
    (b"90 `0", "not bytes"),
    (b"90 /0", "not bytes"),
    (b"90 :0", "not bytes"),
    (b"\xc3\xa9 90", "not bytes"),
    (b"\xff\xfe90", "not bytes"),
    (b"66" * 5000 + b"90", "Outside"),
    (b"90" + b" 82" * 5000 + b" 8", "not bytes"),
    # the last line has no end
    (b"90", "1 Nop encode=90 wide=90"),
]


def repeated(text):
    return re.sub(r"([0-9A-F]{2})\*(\d+)", lambda m: " ".join([m.group(1)] * int(m.group(2))), text)


def rows():
    with open(os.path.join(HERE, "rows.txt")) as file:
        for line in file:
            if not line.strip() or line.startswith("#"):
                continue
            text, expected, *best = line.strip().split(" | ")
            spelled = repeated(text)
            length = expected.split()[0]
            if length.isdigit():
                best = best or [" ".join(spelled.split()[: int(length)])]
                encode, wide = (words.replace(" ", "").lower() for words in (best[0], best[-1]))
                expected += f" encode={encode} wide={wide}"
            yield spelled.encode(), expected


def main():
    table = list(rows()) + LINES
    texts = {
        "stdin": b"\n".join(text for text, _ in table),
        "stdout": "".join(expected + "\n" for _, expected in table).encode(),
    }
    others = []
    for name, text in texts.items():
        path = os.path.join(CRATE, name)
        if "--check" not in sys.argv[1:]:
            with open(path, "wb") as file:
                file.write(text)
        elif open(path, "rb").read() != text:
            others.append(path)
    for path in others:
        print(path, "is not what write_table.py writes")
    sys.exit(1 if others else 0)


if __name__ == "__main__":
    main()
