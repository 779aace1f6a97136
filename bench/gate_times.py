#!/usr/bin/env python3
"""gate_times.py PID [FILE]: what a running `rt ci` spends, where PID is the id of its process.

Looks at the processes below it every two seconds until it ends, then prints for each crate the processor seconds of its proofs, of the proofs of its tests and
of its must-fail edits, the dearest crate first; a last line has the sums and the time by the clock. The table also goes to FILE, each half minute, where it is named.
A prover that lives for less than two seconds may be missed.
"""
import sys
import time
from collections import defaultdict
from os import sysconf
from pathlib import Path

COLUMNS = ("proofs", "tests", "edits")
TICKS = sysconf("SC_CLK_TCK")


def status(folder):
    """The parent of a process, and the processor seconds that it took itself; none where it is gone."""
    try:
        fields = (folder / "stat").read_text().rpartition(")")[2].split()
    except OSError:
        return None
    return int(fields[1]), (int(fields[11]) + int(fields[12])) / TICKS


def below(top):
    """The processes below that one, each with its processor seconds."""
    seen = {int(p.name): status(p) for p in Path("/proc").iterdir() if p.name.isdigit()}
    children = defaultdict(list)
    for number, found in seen.items():
        if found:
            children[found[0]].append(number)
    found, waiting = {}, [top]
    while waiting:
        for number in children[waiting.pop()]:
            found[number] = seen[number][1]
            waiting.append(number)
    return found


def purpose(number):
    """The crate that a prover is at work on, and for what; none for other processes."""
    try:
        words = Path(f"/proc/{number}/cmdline").read_text(errors="replace").split("\0")
        crate = words[words.index("--crate-name") + 1]
    except (OSError, ValueError, IndexError):
        return None
    if "--test" in words:
        return crate, "tests"
    return crate, "edits" if any("must-fail" in word or "edit" in word for word in words) else "proofs"


def table(spent, clock):
    """The rows of all crates, and their sums."""
    sums = defaultdict(float)
    for (crate, _), seconds in spent.items():
        sums[crate] += seconds
    lines = [f"{'crate':22}" + "".join(f"{column:>9}" for column in COLUMNS)]
    for crate in sorted(sums, key=sums.get, reverse=True):
        lines.append(f"{crate:22}" + "".join(f"{spent.get((crate, column), 0):9.0f}" for column in COLUMNS))
    total = [sum(seconds for (_, c), seconds in spent.items() if c == column) for column in COLUMNS]
    lines.append(f"{'all':22}" + "".join(f"{seconds:9.0f}" for seconds in total) + f"   {clock / 60:.1f} minutes by the clock")
    return "\n".join(lines) + "\n"


def main():
    top = int(sys.argv[1])
    kept = Path(sys.argv[2]) if len(sys.argv) > 2 else None
    begun, told = time.monotonic(), 0.0
    last = {}
    while Path(f"/proc/{top}").exists():
        for number, seconds in below(top).items():
            what = purpose(number)
            if what:
                last[number, what] = seconds
        clock = time.monotonic() - begun
        if kept and clock - told > 30:
            told = clock
            kept.write_text(table(summed(last), clock))
        time.sleep(2)
    done = table(summed(last), time.monotonic() - begun)
    if kept:
        kept.write_text(done)
    print(done, end="")


def summed(last):
    """The seconds of each crate and purpose, over the processes that were seen."""
    spent = defaultdict(float)
    for (_, what), seconds in last.items():
        spent[what] += seconds
    return spent


main()
