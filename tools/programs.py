"""Where the programs are that other tools run."""
import os
import pathlib
import subprocess
import sys

TOP = pathlib.Path(__file__).resolve().parent.parent


def told(call):
    """Returns what a call of tools/program prints, or None where it fails."""
    done = subprocess.run(["bash", "-c", f'top={TOP}; . "$top/tools/program"; {call}'], stdout=subprocess.PIPE, text=True)
    return None if done.returncode else done.stdout.strip()


def path_of(name):
    """Returns the path of a program of this name, which may not be built yet."""
    return pathlib.Path(told(f"program_of {name}"))


def timed():
    """Returns the path of the db_bench that is timed: the one that OURS names (tools/fastbench), or that of ./bench."""
    return pathlib.Path(os.environ["OURS"]) if "OURS" in os.environ else path_of("db_bench")


def ready(name):
    """Returns the path of the program of this name, which is proved and built where it isn't yet."""
    return told(f"ready_program {name} && program_of {name}") or sys.exit(f"{name} can't be built")
