#!/usr/bin/env python3
"""Times `replay` of the counter with 1,250, 2,500 and 5,000 clicks in one run, and prints a table.

reading   the same script with a last line that is refused: start, read and check the script, print one line
playing   the rest, with standard output thrown away (/dev/null)
writing   what a file as standard output adds to that
Each figure is the best of many runs of the whole process. `growth` is the time of the row over that of the row before, less the start of
the process (an empty script); 2.0 is linear."""
import os, subprocess, sys, tempfile, time

sys.dont_write_bytecode = True
from programs import TOP, program

qwk = program("qwk")


def blocks(clicks):
    """What is printed of so many clicks."""
    shown = lambda item: f'item {item}\nhtml <button id="b">{item}</button>\n'
    return "".join(map(shown, range(clicks + 1)))


def check(folder, script, printed, status):
    """The run prints this and ends so."""
    run = subprocess.run([qwk, "replay", script], cwd=folder, capture_output=True, text=True)
    if (run.stdout, run.returncode, run.stderr) != (printed, status, ""):
        raise SystemExit(f"{script}: {run.stdout[-200:]!r} ({run.returncode}) {run.stderr}")


def best(folder, script, out, status=0, runs=100):
    times = []
    for _ in range(runs):
        with open(out, "wb") as sink:
            begin = time.perf_counter()
            ended = subprocess.run([qwk, "replay", script], cwd=folder, stdout=sink).returncode
            times.append(time.perf_counter() - begin)
        if ended != status:
            raise SystemExit(f"{script}: status {ended}")
    return min(times) * 1000


with tempfile.TemporaryDirectory() as folder:
    with open(os.path.join(TOP, "examples", "counter", "root.jsx"), "rb") as source:
        root = source.read()
    with open(os.path.join(folder, "root.jsx"), "wb") as copy:
        copy.write(root)
    write = lambda name, text: open(os.path.join(folder, name), "w").write(text)
    write("empty", "")
    start = best(folder, "empty", os.devnull)
    print(f"start of the process, an empty script: {start:.2f} ms")
    print("| clicks | whole, ms | reading | playing | writing | microseconds a click | growth |")
    print("|---|---|---|---|---|---|---|")
    before = None
    for clicks in (1250, 2500, 5000):
        write("script", "click b\n" * clicks)
        write("refused", "click b\n" * (clicks - 1) + "pause\n")
        check(folder, "script", blocks(clicks), 0)
        check(folder, "refused", "refused NotBuilt\n", 5)
        reading = best(folder, "refused", os.devnull, status=5)
        played = best(folder, "script", os.devnull)
        whole = best(folder, "script", os.path.join(folder, "printed"))
        work = whole - start
        share = lambda part: f"{100 * max(part, 0) / whole:.0f}%"
        growth = "" if before is None else f"{work / before:.2f}"
        print(f"| {clicks} | {whole:.2f} | {share(reading)} | {share(played - reading)} | {share(whole - played)} | {1000 * work / clicks:.2f} | {growth} |")
        before = work
