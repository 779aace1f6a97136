#!/usr/bin/env python3
"""Times the evaluator, by `qk_call`, beside `node --jitless` on the same text in one run, and prints tables.

Each figure is the least processor time of several runs of the whole process, less its start (a call of `() => 0`), and what both print is checked to be the same.

The first table has loops of 300,000 rounds: `mixed` has integer sums, `%`, the length of a short text, `map` over a list of 8 and an index read; `called` calls a
function that captures three values, `plain` one that captures none. `ratio` is ours over theirs.
The second has 100,000 reads and as many writes of a state object with so many keys, less the time in which the object is made; `growth` is that of the row over the row before.
The third has the greatest resident size of `mixed` with so many rounds, as /usr/bin/time tells it: of a child of this process the system would count the size of this
one too."""
import os, re, shutil, subprocess, sys, tempfile

sys.dont_write_bytecode = True
from programs import program

ROUNDS, KEYS, STEPS, SIZES = 300000, (10, 10000), 100000, (3000, 30000, 300000)

MODULE = """import { component$ } from "@builder.io/qwik";
export const App = component$(() => null);
const nothing = () => 0;
const mixed = (rounds) => {
  const list = [1, 2, 3, 4, 5, 6, 7, 8];
  let sum = 0;
  let n = 0;
  while (n < rounds) {
    n++;
    sum = (sum + n * 3) % 1000003;
    sum += `${n}`.length;
    sum += list.map((x) => x + 1)[n % 8];
  }
  return sum;
};
const called = (rounds) => {
  const a = 1;
  const b = 20;
  const c = 300;
  const f = (x) => (x + a * b + c) % 1000003;
  let sum = 0;
  let n = 0;
  while (n < rounds) {
    n++;
    sum = f(sum);
  }
  return sum;
};
const plain = (rounds) => {
  const f = (x) => (x + 1 * 20 + 300) % 1000003;
  let sum = 0;
  let n = 0;
  while (n < rounds) {
    n++;
    sum = f(sum);
  }
  return sum;
};
const stored = (size, steps) => {
  const keys = [];
  const s = {};
  let n = 0;
  while (n < size) {
    keys.push(`k${n}`);
    s[keys[n]] = n;
    n++;
  }
  let sum = 0;
  let at = 0;
  while (at < steps) {
    const key = keys[at % size];
    s[key] = at;
    sum = (sum + s[keys[0]]) % 1000003;
    at++;
  }
  return sum;
};
"""


def root(name, *given):
    """The name of a root arrow that calls another with these arguments."""
    return "_".join([name, *map(str, given)])


def module():
    """The module with all root arrows that are called here."""
    calls = [("mixed", (rounds,)) for rounds in SIZES] + [("called", (ROUNDS,)), ("plain", (ROUNDS,))]
    calls += [("stored", (size, steps)) for size in KEYS for steps in (0, STEPS)]
    return MODULE + "".join(f"const {root(name, *given)} = () => {name}({', '.join(map(str, given))});\n" for name, given in calls)


def ours(name):
    return [call, "root.jsx", name, "effect"]


def theirs(text):
    """The same text for an engine that knows no modules: the framework's names stand for functions that do nothing."""
    bare = re.sub(r"^export ", "", re.sub(r"^import .*$", "const component$ = () => null;", text, flags=re.M), flags=re.M)
    return lambda name: [node, "--jitless", "--no-expose-wasm", "-e", f"{bare}\nconsole.log(String({name}()));"]


def seconds(command, folder):
    """The processor seconds of a run, and what it prints."""
    with tempfile.TemporaryFile() as out:
        child = subprocess.Popen(command, cwd=folder, stdout=out)
        _, ended, used = os.wait4(child.pid, 0)
        child.returncode = os.waitstatus_to_exitcode(ended)
        if child.returncode:
            raise SystemExit(f"{command[0]}: status {child.returncode}")
        out.seek(0)
        return used.ru_utime + used.ru_stime, out.read().decode()


def both(name, folder, runs=5):
    """The least milliseconds of ours and of theirs, in turn; both print the same."""
    least = [float("inf"), float("inf")]
    for _ in range(runs):
        (mine, printed), (other, wanted) = seconds(ours(name), folder), seconds(engine(name), folder)
        if printed != wanted:
            raise SystemExit(f"{name}: {printed!r} in place of {wanted!r}")
        least = [min(least[0], mine * 1000), min(least[1], other * 1000)]
    return least


def size(command, folder):
    """The greatest resident size of a run, in KiB."""
    told = subprocess.run(["/usr/bin/time", "-f", "%M", *command], cwd=folder, stdout=subprocess.DEVNULL, stderr=subprocess.PIPE, text=True)
    return int(told.stderr.split()[-1])


call, node = program("qk_call"), shutil.which("node")
engine = theirs(module())
with tempfile.TemporaryDirectory() as folder:
    with open(os.path.join(folder, "root.jsx"), "w") as out:
        out.write(module())
    start = both("nothing", folder)
    print(f"start of the process: ours {start[0]:.2f} ms, theirs {start[1]:.2f} ms")
    work = lambda name: [whole - begin for whole, begin in zip(both(name, folder), start)]
    print(f"| {ROUNDS} rounds | ours, ms | microseconds a round | theirs, ms | ratio |")
    print("|---|---|---|---|---|")
    for name in ("mixed", "called", "plain"):
        mine, other = work(root(name, ROUNDS))
        print(f"| {name} | {mine:.1f} | {1000 * mine / ROUNDS:.2f} | {other:.1f} | {mine / other:.2f} |")
    print("| keys | ours, ms | growth | theirs, ms | growth |")
    print("|---|---|---|---|---|")
    before = None
    for keys in KEYS:
        row = [whole - made for whole, made in zip(work(root("stored", keys, STEPS)), work(root("stored", keys, 0)))]
        growth = ["" if before is None else f"{now / then:.2f}" for now, then in zip(row, before or row)]
        print(f"| {keys} | {row[0]:.1f} | {growth[0]} | {row[1]:.1f} | {growth[1]} |")
        before = row
    print("| rounds | greatest size, KiB |")
    print("|---|---|")
    for rounds in SIZES:
        print(f"| {rounds} | {min(size(ours(root('mixed', rounds)), folder) for _ in range(3))} |")
