"""Writes generated files in the layout of rt fmt, or compares them, for the scripts beside this file."""

import os
import shutil
import subprocess
import sys
import tempfile

CRATE = os.path.dirname(os.path.dirname(os.path.abspath(__file__)))


def read(path):
    """A file of the crate."""
    with open(os.path.join(CRATE, path)) as file:
        return file.read()


def laid_out(texts):
    """The texts as rt fmt lays them out, in a copy of the crate."""
    with tempfile.TemporaryDirectory() as top:
        crate = os.path.join(top, os.path.basename(CRATE))
        shutil.copytree(CRATE, crate, ignore=shutil.ignore_patterns("out", "tools", "must-fail"))
        for path, text in texts.items():
            with open(os.path.join(crate, path), "w") as file:
                file.write(text)
        subprocess.run(["rt", "fmt"], cwd=crate, capture_output=True, check=True)
        return {path: open(os.path.join(crate, path)).read() for path in texts}


def finish(texts):
    """Writes the texts, by path in the crate. With --check it ends with 1 where a file is another."""
    texts = laid_out(texts)
    if "--check" not in sys.argv[1:]:
        for path, text in texts.items():
            with open(os.path.join(CRATE, path), "w") as file:
                file.write(text)
        return
    others = [path for path, text in texts.items() if read(path) != text]
    for path in others:
        print(os.path.join(CRATE, path), "is not what", os.path.basename(sys.argv[0]), "writes")
    sys.exit(1 if others else 0)
