#!/usr/bin/env python3
"""Runs a command at the top of the repository (without one: the gate, with every proof from nothing), and prints what each crate took of it: the processor
seconds of its proof, of its tests, of its must-fail edits and of its build, and the most memory that one of its processes held.

Processes are looked at ten times a second, and each counts with what it had used when it was last seen. The last line has
the processor seconds of the whole, as the system counts them."""
import os
import re
import resource
import subprocess
import sys
import time

TOP = os.path.dirname(os.path.dirname(os.path.abspath(__file__)))
TICK = os.sysconf("SC_CLK_TCK")
PARTS = ("proof", "tests", "edits", "build")


def read(pid, name):
    with open(f"/proc/{pid}/{name}", "rb") as it:
        return it.read()


def part_of(words, folder):
    """Tells the crate that a process works on, and what for, or None."""
    text = " ".join(words)
    named = re.search(r"--crate-name[= ](\w+)", text)
    if named:
        is_edit = "/rt-edit" in folder or "/rt-edits" in text
        return named[1], "edits" if is_edit else "tests" if "--test" in words else "proof"
    made = re.search(r"/crates/(\w+)/", f"{folder}/ {text}/")
    return (made[1], "build") if made else None


def children_of(root):
    """The seconds that each process below this one has used, by its number."""
    parents, seconds = {}, {}
    for pid in map(int, filter(str.isdigit, os.listdir("/proc"))):
        try:
            fields = read(pid, "stat").rsplit(b")", 1)[1].split()
        except OSError:
            continue
        parents[pid], seconds[pid] = int(fields[1]), (int(fields[11]) + int(fields[12])) / TICK

    def is_below(pid):
        while pid in parents and pid != root:
            pid = parents[pid]
        return pid == root

    return {pid: it for pid, it in seconds.items() if pid != root and is_below(pid)}


def look(seen, root):
    for pid, seconds in children_of(root).items():
        try:
            words = [it.decode(errors="replace") for it in read(pid, "cmdline").split(b"\0")]
            part = None if "python" in words[0] else part_of(words, os.readlink(f"/proc/{pid}/cwd"))
            peak = re.search(rb"VmHWM:\s+(\d+)", read(pid, "status"))
        except OSError:
            continue
        # (a process may begin another program, and keeps what it had used)
        used, of = seen.setdefault(pid, [0.0, {}])
        seen[pid][0] = seconds
        if part:
            before, most = of.get(part, (0.0, 0))
            of[part] = before + seconds - used, max(most, int(peak[1]) // 1024 if peak else 0)


def measured(command, folder, out=None):
    """Runs the command in the folder. Returns the seconds of each crate by part, its peak in megabytes, and its status; all seconds
    are under no crate's name."""
    before, seen = resource.getrusage(resource.RUSAGE_CHILDREN), {}
    child = subprocess.Popen(command, cwd=folder, stdout=out, stderr=out)
    while child.poll() is None:
        look(seen, child.pid)
        time.sleep(0.1)
    after = resource.getrusage(resource.RUSAGE_CHILDREN)
    sums, peaks = {}, {}
    for (crate, part), (seconds, peak) in [it for _, of in seen.values() for it in of.items()]:
        sums.setdefault(crate, dict.fromkeys(PARTS, 0.0))[part] += seconds
        peaks[crate] = max(peaks.get(crate, 0), peak)
    whole = after.ru_utime + after.ru_stime - before.ru_utime - before.ru_stime
    return sums, peaks, whole, child.returncode


def gate():
    """The gate. Some toolchains keep what they proved before, and are told to prove it anew; the others do so always."""
    told = subprocess.run(["rt", "help"], capture_output=True, text=True)
    return ["rt", "ci", "--anew"] if "--anew" in told.stdout + told.stderr else ["rt", "ci"]


def main():
    began = time.monotonic()
    sums, peaks, whole, status = measured(sys.argv[1:] or gate(), TOP)
    print("| crate | " + " | ".join(PARTS) + " | all | peak, MB |")
    print("|---" * (len(PARTS) + 3) + "|")
    for crate, of in sums.items():
        print(f"| `{crate}` | " + " | ".join(f"{of[it]:.0f}" for it in PARTS) + f" | {sum(of.values()):.0f} | {peaks[crate]} |")
    print(f"all: {whole:.0f} processor seconds, {time.monotonic() - began:.0f} seconds on the clock, status {status}")
    return status


if __name__ == "__main__":
    sys.exit(main())
