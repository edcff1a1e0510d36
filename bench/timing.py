"""What the benches share: the text that is decoded, and the best time of some calls."""

import os
import subprocess
import sys
import time

TOP = os.path.dirname(os.path.dirname(os.path.abspath(__file__)))
sys.dont_write_bytecode = True
sys.path.insert(0, os.path.join(TOP, "checks"))
from elf_text import PACKAGES, libraries, texts_of  # noqa: E402
from programs import built, built_sw, skip  # noqa: E402, F401

LEAST = 16 * 1000 * 1000
MOST = 64 * 1000 * 1000


def timed_text(paths):
    """At most 64 MB of the files' text, by default of the system's i386 libraries. Where that is less than 16 MB it is repeated."""
    found = b""
    for text in texts_of(paths or libraries()):
        found += text
        if len(found) >= MOST:
            break
    found = found[:MOST]
    if not found:
        skip(f"no i386 ELF file was found; the packages {PACKAGES} have some")
    times = -(-LEAST // len(found))
    if times == 1:
        print(f"{len(found)} bytes of text")
    else:
        print(f"{len(found)} bytes of text, {times} times over, since {LEAST} are wanted; give more i386 files, or install more than {PACKAGES}")
    return found * times


def best_time(command, calls, wanted=0, given=os.devnull):
    """The least time of some calls that all end with the wanted status. The file `given` is their standard input."""
    times = []
    for _ in range(calls):
        with open(given, "rb") as file:
            start = time.perf_counter()
            status = subprocess.run(command, stdin=file, stdout=subprocess.DEVNULL, stderr=subprocess.DEVNULL, check=False).returncode
            times.append(time.perf_counter() - start)
        if status != wanted:
            sys.exit(f"{' '.join(command)}: status {status} instead of {wanted}")
    return min(times)


def best_processor_time(command, calls, given=os.devnull):
    """The least processor time of some calls that all end with status 0, which other programs on the machine change less than the clock's."""
    times = []
    for _ in range(calls):
        with open(given, "rb") as file, subprocess.Popen(command, stdin=file, stdout=subprocess.DEVNULL, stderr=subprocess.DEVNULL) as process:
            _, status, used = os.wait4(process.pid, 0)
            process.returncode = os.waitstatus_to_exitcode(status)
            times.append(used.ru_utime + used.ru_stime)
        if status:
            sys.exit(f"{' '.join(command)}: status {status} instead of 0")
    return min(times)


def printed_by(command):
    """What one call prints."""
    return subprocess.run(command, capture_output=True, text=True, check=True).stdout.strip()
