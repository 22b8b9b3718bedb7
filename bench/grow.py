#!/usr/bin/env python3
"""What a further type of node costs the gate: `grow.py N` proves two copies of the repository from nothing, one as it is and one
with N synthetic types in turn, and prints the processor seconds and the peak memory of each crate in both, and the functions of
the printer's steps and of the reader that take more than a tenth longer.

A synthetic type is an entry of tools/nodes/table.txt, the one of a type that has a spelling under another name (SHAPES), and no
reading is promised of it. So what is measured is all that follows from the table, and neither a production nor its lemma; and no
program that tests print has the type. The copies have no must-fail edits."""
import re
import shutil
import subprocess
import sys
import tempfile
import time
from bisect import bisect
from concurrent.futures import ThreadPoolExecutor
from pathlib import Path

from gate import TICK, TOP, gate, measured

# Not jsgen_nodes: the check writes what it proved of many of its functions at one time, so that they can't be told apart.
WATCHED = ("jsgen_printer", "jsgen_kept", "jsgen_fields", "jsgen_expression_rows", "jsgen_statement_rows", "jsgen_rows")
SHAPES = (("ConditionalExpression", "Expression"), ("SequenceExpression", "Expression"), ("WhileStatement", "Statement"))
FILES = {"Expression": ("synthetic_expressions", "jsgen_expression_rows"), "Statement": ("synthetic_statements", "jsgen_statement_rows")}
TABLE = "tools/nodes/table.txt"
PARTS = (".ci", "HANDLES", "crates", "crates.txt", "docs", "tools", "tests")


def code(number):
    """A word of two letters for a number below 676."""
    return chr(65 + number // 26) + chr(97 + number % 26)


def change(path, changed):
    path.write_text(changed(path.read_text()))


def with_type(table, number):
    """The table with one more type, in a file of synthetic ones: the entry of its shape under another name."""
    shape, of_set = SHAPES[number % len(SHAPES)]
    name = f"{shape.removesuffix(of_set)}{code(number)}{of_set}"
    section, lines = re.search(rf"^node {shape} (\S+).*\n((?:    .*\n)+)", table, re.M).groups()
    entry = f"node {name} {section}\n{lines}    unpromised\n".replace("    rules\n", "")
    file, crate = FILES[of_set]
    head = f"\nfile {file} in {crate}: Types that stand in no program.\n"
    table = table if head in table else table.replace("\nset ", f"{head}\nset ", 1)
    table = table.replace(head, f"{head}\n{entry}", 1)
    return re.sub(rf"^set {of_set} .*\n", lambda line: f"{line[0]}    {name}\n", table, flags=re.M)


def grown(folder, number):
    for at in range(number):
        change(folder / TABLE, lambda table: with_type(table, at))
    subprocess.run([folder / "tools/nodes/generate"], check=True, stdout=subprocess.DEVNULL)
    for crate in ("jsgen_check", "jsgen_alone"):
        for file in (file for file, _ in FILES.values() if (folder / f"crates/{crate}/src/{file}.rt").exists()):
            change(folder / f"crates/{crate}/src/lib.rt", lambda text: text.replace("mod statements;\n", f"mod statements;\nmod {file};\n", 1))
    for crate in sorted(p.parent for p in (folder / "crates").glob("*/src")):
        subprocess.run(["rt", "fmt"], cwd=crate, check=True, stdout=subprocess.DEVNULL)


def copied(folder):
    for part in PARTS:
        if (Path(TOP) / part).is_dir():
            shutil.copytree(Path(TOP) / part, folder / part, ignore=shutil.ignore_patterns("out", "must-fail", "__pycache__"))
        else:
            shutil.copy2(Path(TOP) / part, folder / part)


def check_from_nothing(folder, crate, kept):
    """The command that checks a crate and keeps what it checked in a folder, with the libraries below it as the gate built them.
    (`rt check` would begin with what other copies kept.)"""
    kit = Path(shutil.which("rt")).resolve().parents[1]
    uses = dict(line.split("#")[0].split(":", 1) for line in (folder / "crates.txt").read_text().splitlines() if ":" in line.split("#")[0])
    built = {name: folder / "crates" / name / "out/rlib" for name in uses}
    words = ["--extern", f"std={kit}/rlibs/std.rlib", "-L", f"dependency={kit}/rlibs"]
    for name in uses[crate].split():
        words += ["--extern", f"{name}={built.get(name, kit / 'rlibs')}/{name}.rlib"]
    for rlib in filter(Path.is_dir, built.values()):
        words += ["-L", f"dependency={rlib}"]
    words += ["--antt-project", f"{kit}/rattle/logic/antt-project.json", "--logic-built", f"{kit}/logic_built", "--links", f"{crate}="]
    return [f"{kit}/bin/rattle", "check", "--crate-name", crate, "src/lib.rt", *words, "--jobs", "1", "--incremental", kept]


def used(pid):
    """The seconds that a process and those below it have used."""
    with open(f"/proc/{pid}/stat", "rb") as stat, open(f"/proc/{pid}/task/{pid}/children") as below:
        fields = stat.read().rsplit(b")", 1)[1].split()
        return sum(map(int, fields[11:15])) / TICK + sum(map(used, below.read().split()))


def watched(command, folder):
    """Runs a command. Returns what it says on standard error, and the processor seconds that it had used at each of many moments."""
    moments = []
    with tempfile.TemporaryFile("w+") as said:
        child = subprocess.Popen(command, cwd=folder, stdout=subprocess.DEVNULL, stderr=said)
        while child.poll() is None:
            try:
                moments.append((time.time(), used(child.pid)))
            except OSError:     # one of them has just ended
                pass
            time.sleep(0.01)
        said.seek(0)
        if child.returncode:
            sys.exit(f"{folder}: not proved")
        return said.read(), moments


def by_function(folder, crate):
    """The processor seconds of each function's proof, from nothing and one after the other: the check writes a file behind each part
    of it. What several functions that call one another share is one function here."""
    with tempfile.TemporaryDirectory() as kept:
        said, moments = watched(check_from_nothing(folder, crate, kept), folder / "crates" / crate)
        functions = {it.replace("::", ".") for it in re.findall(rf"^fn {crate}::(\S+): proved$", said, re.M)}
        prefix = f"Rattle-{crate}-proofs."
        shared = {file.name.removeprefix(prefix).split(".+")[0] for file in Path(kept).rglob(f"{prefix}*.+*")}
        times, last, ends = {}, None, [it for it, _ in moments]
        for file in sorted(Path(kept).rglob("*.oantt"), key=lambda it: it.stat().st_mtime):
            at = moments[min(bisect(ends, file.stat().st_mtime), len(moments) - 1)][1]
            parts = file.name.removeprefix(prefix).split(".")
            names = [".".join(parts[:end]) for end in range(len(parts), 0, -1)]
            name = next((it for it in names if it in functions or it in shared), None)
            if name in functions and name.rsplit(".", 1)[0] in shared:
                name = name.rsplit(".", 1)[0]
            if name and last is not None:
                times[name] = times.get(name, 0) + at - last
            last = at
    return times


def grown_functions(before, after, crate):
    """The functions of a crate that take more than a tenth longer in the second copy, and a tenth of a second at least. Both copies
    are checked at one time, so that what else is at work slows both. (Two crates are at work at a time, on four processors.)"""
    with ThreadPoolExecutor(2) as pool:
        times, later = pool.map(lambda folder: by_function(folder, crate), (before, after))
    return [(name, it, later[name]) for name, it in sorted(times.items()) if later.get(name, 0) > 1.1 * it + 0.1]


def proved(work, name):
    """Proves a copy from nothing. Returns the seconds and the peak of each crate."""
    with open(work / f"{name}.log", "wb") as log:
        sums, peaks, _, status = measured(gate(), work / name, log)
    if status:
        sys.exit(f"{name}: not proved; see {work}/{name}.log")
    return {crate: sum(of.values()) for crate, of in sums.items()}, peaks


def main(number):
    work = Path(tempfile.mkdtemp(prefix="jsgen-grow-"))
    for name in ("before", "after"):
        (work / name).mkdir()
        copied(work / name)
    grown(work / "after", number)
    # (both at one time, so that what else is at work slows both)
    with ThreadPoolExecutor(2) as pool:
        (before, peaks), (after, higher) = pool.map(lambda name: proved(work, name), ("before", "after"))
    print(f"| crate | seconds | with {number} types | a type | peak, MB | with {number} types | a type |")
    print("|---" * 7 + "|")
    for crate, two in after.items():
        if crate in before:
            one = before[crate]
            print(f"| `{crate}` | {one:.0f} | {two:.0f} | {(two - one) / number:.2f} | {peaks[crate]} | {higher[crate]} | {(higher[crate] - peaks[crate]) / number:.1f} |")
        else:
            print(f"| `{crate}` | | {two:.0f} | {two / number:.2f} | | {higher[crate]} | |")
    one, two = sum(before.values()), sum(after.values())
    print(f"| all | {one:.0f} | {two:.0f} | {(two - one) / number:.2f} | | | |", flush=True)
    with ThreadPoolExecutor(2) as pool:
        for crate, functions in zip(WATCHED, pool.map(lambda it: grown_functions(work / "before", work / "after", it), WATCHED)):
            for function, seconds, with_more in functions:
                print(f"{crate}: {function}: {seconds:.2f} s, with {number} types {with_more:.2f} s", flush=True)
    shutil.rmtree(work)


if len(sys.argv) != 2 or not sys.argv[1].isdigit():
    sys.exit("usage: bench/grow.sh N")
main(int(sys.argv[1]))
