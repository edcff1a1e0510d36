"""Programs of this repository, built by rt where they are missing or older than their sources; and how a script ends that
compared or measured nothing."""

import os
import shutil
import subprocess
import sys

TOP = os.path.dirname(os.path.dirname(os.path.abspath(__file__)))

# the status of a script that compared or measured nothing
NOTHING = 3


def skip(why):
    """Ends the script, which can't compare or measure anything."""
    print(f"skipped: {why}")
    sys.exit(NOTHING)


def built(name):
    """The path of a program crate's executable. Building proves the crate, and takes minutes the first time."""
    folder = os.path.join(TOP, "crates", name)
    path = os.path.join(folder, "out", name)
    if shutil.which("rt") is not None:
        said = subprocess.run(["rt", "run"], cwd=folder, stdin=subprocess.DEVNULL, capture_output=True, text=True, check=False)
        if not os.path.exists(path):
            sys.exit(said.stdout + said.stderr + f"{name} can't be built")
    if not os.path.exists(path):
        skip(f"{name} isn't built, and rt, which builds it, isn't found")
    return path


def built_sw():
    """The path of the program that ./sw builds and runs. It is called itself where time is taken, since the script around it takes
    longer than some calls."""
    path = os.path.join(TOP, "crates", "sw_cli", "out", "sw_cli")
    if shutil.which("rt") is None and not os.path.exists(path):
        skip("the program isn't built, and rt, which builds it, isn't found")
    subprocess.run([os.path.join(TOP, "sw")], stderr=subprocess.DEVNULL, check=False)
    if not os.path.exists(path):
        sys.exit("the program can't be built")
    return path
