"""What the tools share that call the prover by the kit's own script."""
import importlib.machinery
import importlib.util
import os
import pathlib
import re
import shutil

TOP = pathlib.Path(__file__).resolve().parent.parent
FLAGS = ["--jobs", "1"]
OVER = "--over="
# the line of an edit that names its crate, and the one that leaves it to be tried by hand
CRATE = re.compile(r"^crate: (\w+)$", re.MULTILINE)
BY_HAND = re.compile(r"^tried: by hand$", re.MULTILINE)
# a check's line on a function: its name, its state, and more of it
STATE = re.compile(r"^fn (\S+): (proved|not proved|no proof)(.*)$", re.MULTILINE)
# what a proof file says where it names what an edit took away, which tells nothing of a goal
NAMES = re.compile(r"has no field|is not in scope|has no `|was not admitted")
# what a check says of a function for which it has no goals, since it covers no such code or lacks a measure
UNJUDGED = re.compile(r"has no proof|does not cover|expected a measure|expected `\w+` in")
# what a check may say of a function that an edit changes
PROVED, BY_CALL, BY_GOAL, BY_NAME, NOTHING = "proved", "by a call", "by a goal", "by a name alone", "nothing"


def load_rt():
    """Returns the kit's script as a module, for its reading of edits and its checks, or None where rt isn't on the path."""
    script = shutil.which("rt")
    if not script:
        return None
    loader = importlib.machinery.SourceFileLoader("rt", os.path.realpath(script))
    rt = importlib.util.module_from_spec(importlib.util.spec_from_loader("rt", loader))
    loader.exec_module(rt)
    return rt


def crate_named(rt, name):
    """Returns the crate of that name, or None."""
    return next((it for it in rt.rtlib.crates_below(str(TOP)) if it.name == name), None)


def over_in(words):
    """Returns the folder that `--over=FOLDER` names, or none, and the other words."""
    folders = [os.path.abspath(it.removeprefix(OVER)) for it in words if it.startswith(OVER)]
    return folders[-1] if folders else None, [it for it in words if not it.startswith(OVER)]


def build_below(crate):
    """Builds the libraries below the crate that aren't built, and returns whether all are."""
    return not any(it.build_rlib(FLAGS, anew=False) for it in crate.below())


def take_below(crate, over):
    """Has checks of the crate read the libraries below it in the folder `over`, or else where `build_below` builds them. Returns whether all are there."""
    for it in crate.below():
        it.rlib = f"{over or f'{TOP}/crates/{it.name}/out/rlib'}/{it.name}.rlib"
    return all(os.path.isdir(it.rlib) for it in crate.below())


def has_below(crate, over):
    """Returns whether the libraries below the crate are ready for its checks: those in the folder `over`, or else those that it builds where they aren't built."""
    return take_below(crate, over) if over else build_below(crate)


def read_edits(file):
    """Returns the lines of each edit of a file by its name, or raises ValueError where two have one name."""
    edits, name = {}, None
    for line in file.read_text(encoding="utf-8").splitlines():
        if line.startswith("== "):
            name = line[3:].strip()
            if name in edits:
                raise ValueError(f"{file}: two edits have the name {name}")
            edits[name] = ""
        elif name and line and not line.startswith("#"):
            edits[name] += line + "\n"
    return edits


def gate_edits(by_hand=False):
    """Returns the gate's must-fail edits by the crates that they are of, or those under must-fail/ that are tried by hand: the lines of each by its
    name. An edit is of the crate that its line `crate:` names, or else of that whose name its file has. Raises ValueError where a crate has two of
    one name."""
    found = {}
    for file in sorted((TOP / "must-fail").glob("*.edits")):
        for name, lines in read_edits(file).items():
            named = CRATE.search(lines)
            edits = found.setdefault(named[1] if named else file.stem, {})
            if name in edits:
                raise ValueError(f"{file}: another edit of its crate has the name {name}")
            edits[name] = lines
    chosen = {crate: {it: lines for it, lines in edits.items() if bool(BY_HAND.search(lines)) == by_hand} for crate, edits in found.items()}
    return {crate: edits for crate, edits in chosen.items() if edits}


def edits_by_hand(crate):
    """Returns the must-fail edits of a crate that are tried by hand, those of tools/edits/CRATE.edits first: the lines of each by its name. Raises
    ValueError where two have one name."""
    file, others = TOP / f"tools/edits/{crate}.edits", gate_edits(by_hand=True).get(crate, {})
    edits = read_edits(file) if file.is_file() else {}
    twice = sorted(edits.keys() & others.keys())
    if twice:
        raise ValueError(f"{file}: an edit under must-fail/ has the name {twice[0]}, too")
    return edits | others


def verdict(name, state, why, lines):
    """Returns what a check that said these lines says of a function: proved; refused since it calls a refused one, by a goal of its own,
    or only by a name that its proof file lacks; or nothing, since it has no goals."""
    if state == "proved":
        return PROVED
    if "it calls" in why:
        return BY_CALL
    if UNJUDGED.search(why) or state == "no proof" and "did not prove" not in why:
        return NOTHING
    folder = "proofs/" + "/".join(name.split("::")[1:]) + "/"
    errors = [it for it in lines if it.removeprefix("./").startswith(folder) and ": error" in it]
    return BY_NAME if errors and all(map(NAMES.search, errors)) else BY_GOAL
