"""catch.py FOLDER FILE: links each module.bc of LLVM that comes up below FOLDER to FILE, until it is killed: the last one is left there."""
import os
import pathlib
import sys
import time

folder, file = map(pathlib.Path, sys.argv[1:])


def modules():
    """Returns the modules that are there now, which may go at any time."""
    try:
        return [*folder.glob("*/module.bc"), *folder.glob("*/*/module.bc")]
    except OSError:
        return []


seen = set()
while True:
    for module in modules():
        try:
            number = module.stat().st_ino
            if number not in seen:
                link = file.with_suffix(".new")
                os.link(module, link)
                os.replace(link, file)
                seen.add(number)
        except OSError:
            pass
    time.sleep(0.005)
