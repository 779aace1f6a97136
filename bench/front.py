#!/usr/bin/env python3
"""Times the front end, from reading to the last rule, beside reading and parsing alone, in one run, and prints a table.

An application is played with an empty script; it keeps all rules and is then refused as not yet played. Beside it stands the same one whose `App`
isn't exported, which is refused when all modules are read and parsed, before the first rule of names. So what the rules cost is the difference.
Once one module grows to 1 MiB, once modules of 4 KiB grow to 256. Each figure is the least processor time of many runs of the whole process, less its
start (no application). `rules / parsing` is to be 1 at most; `growth` is that of the row over the row before, 4.0 being linear.

With `--instructions` each figure is the number of instructions of one run, in millions, as valgrind counts them: exact on a busy machine too."""
import os, re, subprocess, sys, tempfile

sys.dont_write_bytecode = True
from pages import pages
from programs import program

qwk = program("qwk")

IMPORT = 'import { component$, useComputed$, useSignal, useStore } from "@builder.io/qwik";\n'
APP = 'export const App = component$(() => <p>{"all"}</p>);\n'
PAGE = """
const labelsNN = { add: "Add an item", left: "items left", clear: "Clear what is done", hint: "What needs to be done? Write it down and press enter." };

const PageNN = component$(() => {
  const draft = useSignal("");
  const st = useStore({ items: [], next: 1, shown: "all" });
  const left = useComputed$(() => st.items.filter((t) => !t.done).length);
  const classes = (todo) => { if (todo.done) { return "todo done"; } else { return "todo"; } };
  return (
    <main class="todo">
      <h1>Things to do</h1>
      <input id="in" value={draft.value} placeholder={labelsNN.hint} onInput$={(e, el) => { draft.value = el.value; }} />
      <button id="add" onClick$={() => {
        if (draft.value === "") { return; }
        st.items.push({ id: st.next, text: draft.value, done: false });
        st.next++;
        draft.value = "";
      }}>{labelsNN.add}</button>
      <ul>{st.items.map((t) => <li class={classes(t)} key={t.id}><ItemNN todo={t} /></li>)}</ul>
      <p>{left.value} {labelsNN.left}</p>
      <footer>
        <p>{`${left.value} of ${st.items.length} ${labelsNN.left}`}</p>
        <a class={st.shown === "all" ? "chosen" : "other"} href="/all">All</a>
        <a class={st.shown === "active" ? "chosen" : "other"} href="/active">Active</a>
        <a class={st.shown === "done" ? "chosen" : "other"} href="/done">{labelsNN.clear}</a>
      </footer>
    </main>
  );
});

const ItemNN = component$((props) => (
  <label>
    <input id={`i${props.todo.id}`} type="checkbox" checked={props.todo.done}
      onClick$={() => { props.todo.done = !props.todo.done; }} />
    {props.todo.text}
  </label>
));
"""


def one_module(size):
    return {"root.jsx": IMPORT + APP + pages(PAGE, size - len(IMPORT) - len(APP))}


def many_modules(count):
    """Each module imports the next one's page."""
    files = {}
    for number in range(count):
        name = "root" if number == 0 else f"m{number}"
        nearest = f'import {{ Page0 as_ }} from "./m{number + 1}.jsx";\n'.replace(" as_", "") if number + 1 < count else ""
        head = IMPORT + (APP if number == 0 else "")
        text = pages(PAGE, 4096 - len(head) - len(nearest))
        text = text.replace("const Page0 =", "export const Page0 =") if number else text.replace("Page0", "PageRoot")
        files[name + ".jsx"] = nearest.replace("Page0", f"Page{number}x") + head + text.replace("Page0", f"Page{number - 1}x")
    return files


def run(folder):
    """The processor seconds of a run that ends with status 2, and what it answers."""
    with tempfile.TemporaryFile() as out:
        child = subprocess.Popen([qwk, "replay", "s"], cwd=folder, stdout=out)
        _, ended, used = os.wait4(child.pid, 0)
        child.returncode = os.waitstatus_to_exitcode(ended)
        if child.returncode != 2:
            raise SystemExit(f"status {child.returncode}")
        out.seek(0)
        return used.ru_utime + used.ru_stime, out.read().decode().strip()


def instructions(folder):
    """The millions of instructions of a run, and what it answers."""
    told = subprocess.run(["valgrind", "--tool=callgrind", "--callgrind-out-file=/dev/null", qwk, "replay", "s"], cwd=folder, capture_output=True, text=True)
    if told.returncode != 2:
        raise SystemExit(f"status {told.returncode}: {told.stderr[-200:]}")
    return int(re.search(r"Collected : (\d+)", told.stderr).group(1)) / 1e6, told.stdout.strip()


def best(files, wanted, runs=15):
    """The least seconds of many runs that answer this, in milliseconds; or the instructions of one."""
    with tempfile.TemporaryDirectory() as folder:
        for name, text in {**files, "s": ""}.items():
            with open(os.path.join(folder, name), "w") as out:
                out.write(text)
        results = [instructions(folder)] if EXACT else [run(folder) for _ in range(runs)]
        for _, answer in results:
            if answer != wanted:
                raise SystemExit(f"{answer} in place of {wanted}")
        return min(cost for cost, _ in results) * (1 if EXACT else 1000)


def hidden(files):
    return {**files, "root.jsx": files["root.jsx"].replace("export const App", "const App")}


EXACT = "--instructions" in sys.argv
UNIT = "million instructions" if EXACT else "ms"
start = best({}, "refused RootMissing root -")
print(f"start of the process: {start:.2f} {UNIT}")
print(f"| modules | KiB | reading and parsing, {UNIT} | all rules, {UNIT} | rules / parsing | growth of parsing | growth of rules |")
print("|---|---|---|---|---|---|---|")
for rows in ([one_module(kib * 1024) for kib in (64, 256, 1024)], [many_modules(count) for count in (16, 64, 256)]):
    before = None
    for files in rows:
        parsed = best(hidden(files), "refused ExportMissing root App") - start
        rules = best(files, "refused NotBuilt root -") - start - parsed
        size = sum(map(len, files.values())) / 1024
        growth = " - | - |" if before is None else f" {parsed / before[0]:.2f} | {rules / before[1]:.2f} |"
        print(f"| {len(files)} | {size:.0f} | {parsed:.2f} | {rules:.2f} | {rules / parsed:.2f} |" + growth)
        before = parsed, rules
