#!/usr/bin/env python3
"""Runs the built program beside the judge on made applications, and prints where they differ.

compare.py PROGRAM N SEED [--small SHARE] [--examples] [--stop K]

Each application is played with an empty script in a folder of its own, and all that is printed and
the status are compared with what the judge says: the line of the first refusal, or of an accepted
application what `first.py` says is printed of it. That share of the applications are small texts
that are hardly one. `--examples` first compares the judge with the answers written beside its own
examples, and plays these too. It stops after K differences (5 else). A difference is made small
before it is printed. At the end stands how many applications reached which rule.
"""

import argparse
import itertools
import os
import shutil
import subprocess
import sys
import tempfile

sys.dont_write_bytecode = True
sys.path.insert(0, os.path.dirname(os.path.abspath(__file__)))

from applications import applications, safe_tokens  # noqa: E402
from examples import ACCEPTED, CASES, LARGE_CASES, SITES, application  # noqa: E402
from first import played  # noqa: E402
from rules import Refused, judge  # noqa: E402

LIMIT_SECONDS = 300
MOST_TRIES = 600


class Program:
    """The built program and the folder in which it runs."""

    def __init__(self, path):
        self.path = os.path.abspath(path)
        self.folder = tempfile.mkdtemp()

    def answer(self, files):
        """What is printed and the status for these files."""
        for old in os.listdir(self.folder):
            path = os.path.join(self.folder, old)
            shutil.rmtree(path) if os.path.isdir(path) else os.remove(path)
        for name, data in {**files, "s.txt": b""}.items():
            with open(os.path.join(self.folder, name), "wb") as out:
                out.write(data)
        try:
            run = subprocess.run(
                [self.path, "replay", "s.txt"], cwd=self.folder, capture_output=True, timeout=LIMIT_SECONDS
            )
        except subprocess.TimeoutExpired:
            return "no answer in time", None
        printed = run.stdout.decode("utf-8", "replace")
        return printed + ("and standard error" if run.stderr else ""), run.returncode

    def close(self):
        """Drops the folder."""
        shutil.rmtree(self.folder)


def wanted(said):
    """What is to be printed, and the status."""
    return (f"{said}\n", 2) if isinstance(said, Refused) else played(said.modules)


def differs(program, files):
    """What both say, where they differ."""
    said, answer = wanted(judge(files)), program.answer(files)
    return None if said == answer else (shown(said), shown(answer))


def shown(answer):
    """Something printed and its status on one line."""
    printed, status = answer
    return f"{printed!r} ({status})"


def kinds(difference):
    """The kinds of both answers: what has to stay while an example is made smaller."""
    return tuple(said.split(" ")[:2] for said in difference)


def smaller(files, size):
    """The files with a run of about so many tokens left out of one of them, in all ways."""
    for name in sorted(files):
        if name != "root.jsx":
            yield {other: data for other, data in files.items() if other != name}
        text = files[name].decode("utf-8", "replace")
        cuts = [0] + [token.end for token in safe_tokens(text)] + [len(text)]
        cuts += range(cuts[-2], len(text), max(1, (len(text) - cuts[-2]) // 20))
        cuts = sorted(set(cuts))
        for at in range(0, len(cuts) - 1, max(1, size // 2)):
            end = cuts[min(at + size, len(cuts) - 1)]
            yield {**files, name: (text[: cuts[at]] + text[end:]).encode("utf-8", "replace")}


def shrink(program, files, difference):
    """A smaller example of the same difference."""
    wanted, tries, size = kinds(difference), 0, 64
    while size and tries < MOST_TRIES:
        for candidate in smaller(files, size):
            tries += 1
            found = differs(program, candidate)
            if found and kinds(found) == wanted:
                files, difference = candidate, found
                break
            if tries >= MOST_TRIES:
                break
        else:
            size //= 2
    return files, difference


def show(number, files, difference):
    """Prints one difference."""
    print(f"difference at {number}: the judge says {difference[0]}, the program {difference[1]}")
    for name, data in sorted(files.items()):
        print(f"--- {name} ({len(data)} bytes)\n{data[:2000].decode('utf-8', 'replace')}")
    print(flush=True)


def all_examples():
    """The examples with what is written beside them."""
    written = [(application(files), wanted) for files, wanted in CASES + LARGE_CASES]
    return written + [(files, "ok") for files in ACCEPTED] + [(application(files), "ok") for files, _ in SITES]


def check_examples():
    """Compares the judge with what its own examples say; how many differ."""
    wrong = 0
    for files, wanted in all_examples():
        said = judge(files)
        got = str(said).removeprefix("refused ") if isinstance(said, Refused) else "ok"
        if got != wanted:
            wrong += 1
            print(f"example: wanted {wanted!r}, got {got!r}\n{str(files)[:300]}")
    for files, wanted in SITES:
        got = ", ".join(map(site_words, judge(application(files)).sites["root"]))
        if got != wanted:
            wrong += 1
            print(f"sites: wanted {wanted!r}, got {got!r}\n{str(files)[:300]}")
    return wrong


def site_words(site):
    """A site's kind and captures."""
    return " ".join(["dollar" if site.dollar else "plain"] + site.captures)


def all_applications(arguments):
    """The applications to play: the examples where they are asked for, then the made ones."""
    if arguments.examples:
        yield from (files for files, _ in all_examples())
    yield from itertools.islice(applications(arguments.seed, arguments.small), arguments.number)


def compare(program, arguments):
    """Compares application after application; how many differ."""
    found = number = 0
    reached = {}
    for number, files in enumerate(all_applications(arguments), 1):
        if number % 200 == 0:
            print(f"{number} so far, {found} differences", file=sys.stderr, flush=True)
        said = judge(files)
        rule = said.rule if isinstance(said, Refused) else "accepted"
        reached[rule] = reached.get(rule, 0) + 1
        difference = differs(program, files)
        if difference:
            found += 1
            show(number, *shrink(program, files, difference))
            if found >= arguments.stop:
                print("stopped")
                break
    print(f"{number} applications, {found} differences")
    print("".join(f"{count:8} {rule}\n" for rule, count in sorted(reached.items())), end="")
    return found


def main():
    """Reads the words, compares, and ends with 1 where something differs."""
    parser = argparse.ArgumentParser()
    parser.add_argument("program")
    parser.add_argument("number", type=int)
    parser.add_argument("seed", type=int)
    parser.add_argument("--small", type=float, default=0.0)
    parser.add_argument("--examples", action="store_true")
    parser.add_argument("--stop", type=int, default=5)
    arguments = parser.parse_args()
    found = check_examples() if arguments.examples else 0
    program = Program(arguments.program)
    try:
        found += compare(program, arguments)
    finally:
        program.close()
    return 1 if found else 0


if __name__ == "__main__":
    sys.exit(main())
