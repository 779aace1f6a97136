#!/usr/bin/env python3
"""Times reading, parsing and printing real module text of 64 KiB, 256 KiB and 1 MiB, in one run beside esbuild on the same text, and prints a table.

ours      `qk_reprint root.jsx`: reads the file, parses it and prints the module as built files have it, the output thrown away
esbuild   `esbuild --jsx=preserve --loader:.jsx=jsx`, one thread, its output thrown away
Each figure is the least processor time of many runs of the whole process. `growth` is the time of the row over that of the row before, less the start of the
process (an empty module); 4.0 is linear. `memory` is the greatest resident size less that of an empty module, in bytes a byte of text, as /usr/bin/time tells it:
of a child of this process the system would count the size of this one too."""
import os, shutil, subprocess, sys, tempfile

sys.dont_write_bytecode = True
from pages import pages
from programs import program

reprint = program("qk_reprint")
esbuild = shutil.which("esbuild")

IMPORT = 'import { component$, useComputed$, useSignal, useStore } from "@builder.io/qwik";\n'
PAGE = """
export const AppNN = component$(() => {
  const draft = useSignal("");
  const st = useStore({ items: [], next: 1 });
  const left = useComputed$(() => st.items.filter((t) => !t.done).length);
  return (
    <main class="todo">
      <input id="in" value={draft.value} onInput$={(e, el) => { draft.value = el.value; }} />
      <button id="add" onClick$={() => {
        if (draft.value === "") { return; }
        st.items.push({ id: st.next, text: draft.value, done: false });
        st.next++;
        draft.value = "";
      }}>Add</button>
      <ul>{st.items.map((t) => <ItemNN key={t.id} todo={t} />)}</ul>
      <p>{left.value} left</p>
    </main>
  );
});

export const ItemNN = component$((props) => (
  <li>
    <input id={`i${props.todo.id}`} type="checkbox" checked={props.todo.done}
      onClick$={() => { props.todo.done = !props.todo.done; }} />
    {props.todo.text}
  </li>
));
"""


def module(size):
    """Pages up to that many bytes."""
    return IMPORT + pages(PAGE, size - len(IMPORT))


def seconds(command, folder):
    """The processor seconds of a run."""
    child = subprocess.Popen(command, cwd=folder, stdout=subprocess.DEVNULL, stderr=subprocess.DEVNULL,
                             env={**os.environ, "GOMAXPROCS": "1"})
    _, ended, used = os.wait4(child.pid, 0)
    child.returncode = os.waitstatus_to_exitcode(ended)
    if child.returncode:
        raise SystemExit(f"{command[0]}: status {child.returncode}")
    return used.ru_utime + used.ru_stime


def check(text, folder):
    """What we print has each item of the text, one a line, in order, and its import first."""
    printed = subprocess.run(OURS, cwd=folder, stdout=subprocess.PIPE, text=True, check=True).stdout.splitlines()
    names = [line.split()[2] for line in text.splitlines() if line.startswith("export const ")]
    if not printed[0].startswith("import {") or [line.split()[2] for line in printed[1:]] != names:
        raise SystemExit("another module is printed")


def size(command, folder):
    """The greatest resident size of a run, in KiB."""
    told = subprocess.run(["/usr/bin/time", "-f", "%M", *command], cwd=folder, stdout=subprocess.DEVNULL, stderr=subprocess.PIPE, text=True)
    return int(told.stderr.split()[-1])


def best(measure, command, folder, runs=20):
    return min(measure(command, folder) for _ in range(runs))


OURS = [reprint, "root.jsx"]
THEIRS = [esbuild, "--jsx=preserve", "--loader:.jsx=jsx", "root.jsx"] if esbuild else None

with tempfile.TemporaryDirectory() as folder:
    def write(name, text):
        with open(os.path.join(folder, name), "w") as out:
            out.write(text)

    write("root.jsx", "")
    start, bare = best(seconds, OURS, folder) * 1000, best(size, OURS, folder, 3)
    print(f"start of our process, an empty module: {start:.2f} ms")
    print("| KiB | ours, ms | MB/s | growth | memory | esbuild, ms | MB/s |")
    print("|---|---|---|---|---|---|---|")
    before = None
    for kib in (64, 256, 1024):
        text = module(kib * 1024)
        write("root.jsx", text)
        check(text, folder)
        whole, resident = best(seconds, OURS, folder) * 1000, best(size, OURS, folder, 3)
        work = whole - start
        growth = "" if before is None else f"{work / before:.2f}"
        memory = (resident - bare) * 1024 / len(text)
        theirs = best(seconds, THEIRS, folder) * 1000 if THEIRS else None
        speed = lambda ms: f"{len(text) / ms / 1000:.1f}"
        print(f"| {kib} | {whole:.2f} | {speed(whole)} | {growth} | {memory:.0f} | " + (f"{theirs:.2f} | {speed(theirs)} |" if theirs else "- | - |"))
        before = work
