#!/usr/bin/env python3
"""Times the encoder beside the decoder on the instructions of real i386 text, in one run.

    encode_text.py [FILE..]

The files are i386 ELF files, by default the system's i386 libraries; others are passed over. Where their executable sections
together have less than 16 MB, they are taken several times. crates/linear_sweep decodes the bytes, instruction after instruction;
crates/encode_sweep decodes them in the same way and encodes each instruction found, so the difference of their times is the
encoder's. Prints the best of some runs of each, and the ratio. The status is 0 where encoding an instruction takes at most as long
as decoding two, 1 where it takes longer, and 3 where nothing was measured, since there is no text or no program.
"""

import os
import re
import sys
import tempfile

sys.dont_write_bytecode = True
from timing import best_time, built, printed_by, timed_text  # noqa: E402

RUNS = 5
# times as long as the decoder
MOST_RATIO = 2


def found(said):
    """How many instructions a sweep found."""
    return int(re.match(r"(\d+) instructions", said)[1])


def main():
    decoder, encoder = built("linear_sweep"), built("encode_sweep")
    text = timed_text(sys.argv[1:])
    with tempfile.TemporaryDirectory() as folder:
        path = os.path.join(folder, "text")
        with open(path, "wb") as file:
            file.write(text)
        decoding, both = best_time([decoder, path], RUNS), best_time([encoder, path], RUNS)
        decoded, encoded = printed_by([decoder, path]), printed_by([encoder, path])
    count = found(decoded)
    if found(encoded) != count:
        print(f"the programs found other instructions: {decoded}; {encoded}")
        return 1
    encoding = max(both - decoding, 0.0)
    print(f"decoding      {decoding:7.3f} s  {decoded}")
    print(f"both          {both:7.3f} s  {encoded}")
    print(f"encoding      {encoding:7.3f} s  {1e9 * encoding / count:.0f} ns an instruction; {encoding / decoding:.2f} times as long as decoding")
    good = encoding <= MOST_RATIO * decoding
    print("ok" if good else "too slow")
    return 0 if good else 1


if __name__ == "__main__":
    sys.exit(main())
