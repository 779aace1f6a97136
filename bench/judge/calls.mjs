#!/usr/bin/env node
// Runs the built program qk_call beside the judge of evaluation on made modules, and prints where they differ.
//
// calls.mjs PROGRAM N SEED [STOP]
//
// N calls, each in one of the two modes; it stops after STOP differences (5 else), and ends with 1 where there is one. At the end stands how many calls came to what.
import { spawnSync } from "node:child_process";
import { mkdtempSync, rmSync, writeFileSync } from "node:fs";
import { tmpdir } from "node:os";
import { join } from "node:path";
import { argv, exit } from "node:process";
import { answer } from "./evaluate.mjs";
import { module } from "./expressions.mjs";

const [, , program, number, seed, stop = "5"] = argv;
const ARROWS = 100, folder = mkdtempSync(join(tmpdir(), "calls-")), met = new Map();
let done = 0, found = 0;
for (let at = 0; done < Number(number) && found < Number(stop); at++) {
  const text = module(Number(seed) * 1000003 + at, ARROWS), file = join(folder, "root.jsx");
  writeFileSync(file, text);
  for (let arrow = 0; arrow < ARROWS && done < Number(number) && found < Number(stop); arrow++, done++) {
    const mode = (at + arrow) % 2 ? "pure" : "effect", name = `f${arrow}`;
    const wanted = answer(text, name, mode);
    const run = spawnSync(program, ["root.jsx", name, mode], { cwd: folder, encoding: "utf8", maxBuffer: 1 << 26, timeout: 60000 });
    const last = wanted.trimEnd().split("\n").pop(), kind = /^(fault \w+|ended)$/.test(last) ? last : "a value";
    met.set(kind, (met.get(kind) ?? 0) + 1);
    const status = kind === "a value" ? 0 : kind === "ended" ? 4 : 3;
    if (run.stdout === wanted && run.stderr === "" && run.status === status) continue;
    found++;
    console.log(`${mode}: ${text.split("\n").find((line) => line.startsWith(`const ${name} =`))}\n  the judge: ${JSON.stringify(wanted)}\n  the program: ${JSON.stringify(run.stdout)} (${run.status}) ${run.stderr}`);
  }
}
rmSync(folder, { recursive: true });
console.log(`${done} calls, ${found} differences`);
for (const [kind, count] of [...met].sort()) console.log(`${String(count).padStart(8)} ${kind}`);
exit(found ? 1 : 0);
