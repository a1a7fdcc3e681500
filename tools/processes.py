"""Which processes run, for ./check, which ends those that it started, and tools/gate-minutes, which counts what they use."""
import collections
import os

TICKS = os.sysconf("SC_CLK_TCK")
# a process: the words that it was started with, its folder, its parent's id, when it began, and its processor seconds so far
Process = collections.namedtuple("Process", "words folder parent began seconds")


def read_process(pid):
    """Returns the process that has this id, or none."""
    try:
        words = open(f"/proc/{pid}/cmdline", "rb").read().decode(errors="replace").split("\0")
        fields = open(f"/proc/{pid}/stat").read().rsplit(")", 1)[1].split()
        return Process(words, os.readlink(f"/proc/{pid}/cwd"), int(fields[1]), fields[19], (int(fields[11]) + int(fields[12])) / TICKS)
    except OSError:
        return None


def below(root):
    """Returns each process that one started, or that those started, by its id."""
    read = {int(it): read_process(it) for it in os.listdir("/proc") if it.isdigit()}
    every, found = {pid: it for pid, it in read.items() if it}, {}
    for pid in every:
        above = pid
        while above in every and above != root:
            above = every[above].parent
        if above == root and pid != root:
            found[pid] = every[pid]
    return found


def tool_of(process):
    """Returns the name of the program that a process runs."""
    return process.words[0].rpartition("/")[2]


def send(signal, pid, process):
    """Sends a signal to a process, if it still runs."""
    now = read_process(pid)
    if now and now.began == process.began:
        try:
            os.kill(pid, signal)
        except ProcessLookupError:
            pass
