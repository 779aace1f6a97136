#!/usr/bin/env node
// Tries the judge of evaluation on worked examples, and the built program qk_call too where one is given.
//
// evaluation_examples.mjs [PROGRAM]
import { spawnSync } from "node:child_process";
import { mkdtempSync, rmSync, writeFileSync } from "node:fs";
import { tmpdir } from "node:os";
import { join } from "node:path";
import { answer } from "./evaluate.mjs";

const PURE = [
  ["-7 % 3", "-1"], ["Math.trunc(-7 / 2)", "-3"], ["Math.trunc(2 * 7 / 4)", "3"], ['1 + 2 + "a"', "3a"], ['"a" + 1 + 2', "a12"],
  ["-9007199254740991 - 1", "fault OutOfSafeRange"], ["5 % 0", "fault ZeroDivisor"], ['"😀".length', "2"], ['[1, 2, 3].slice(-2).join("-")', "2-3"],
  ['Object.keys({ b: 1, "10": 2, "2": 3 }).join(",")', "2,10,b"], ["[1] === [1]", "fault Identity"], ["[1] === 1", "false"], ["null ?? 3", "3"],
  ["[].pop()", "fault FixedWrite"], ["({ toString: 1 })", "fault NoProperty"], ["console.log(1)", "fault RenderLog"], ['1 < "a"', "fault TypeMismatch"],
  ["[1](0)", "fault NotCallable"], ["[1, 2].map((x) => x)", "[1,2]"], ["-7 % 7", "0"], ["(1).x", "fault NoProperty"], ["[1][true]", "fault TypeMismatch"],
  ["<p key={1}>a {[<b key=\"x\"/>, <b key=\"y\"/>]}</p>", '<element p 1  {} ["a ",[<element b x  {} []>,<element b y  {} []>]]>'],
  ["<p>{[<b key=\"x\"/>, <b key={\"x\"}/>]}</p>", "fault DuplicateKey"], ["<p a={[]}/>", "fault NotText"], ["<p onA$={1}/>", "fault NotCallable"],
];
const EFFECT = [["() => { const a = [1]; a[1] = 2; a[3] = 3; }", "fault IndexPastEnd"], ["() => { const a = { x: 1 }; a.me = a; return a; }", '&0{"x":1,"me":&0}'],
  ["() => { console.log(`a${1}`); return [1].push(2); }", "log a1\n2"]];
const program = process.argv[2], folder = mkdtempSync(join(tmpdir(), "examples-"));
let wrong = 0;
const compare = (text, wanted, got) => { if (got !== `${wanted}\n`) { wrong++; console.log(`${text}: wanted ${wanted}, got ${got}`); } };
const check = (text, mode, wanted, ...limits) => compare(text, wanted, answer(`const f = ${text};`, "f", mode, ...limits));
const statusOf = (wanted) => (/^fault /.test(wanted) ? 3 : wanted === "ended" ? 4 : 0);
const both = (text, mode, wanted, ...limits) => {
  check(text, mode, wanted, ...limits);
  if (!program) return;
  writeFileSync(join(folder, "root.jsx"), `const f = ${text};\n`);
  const run = spawnSync(program, ["root.jsx", "f", mode, ...limits.map(String)], { cwd: folder, encoding: "utf8" });
  compare(`${text}, by the program (${run.status})`, wanted, run.stdout);
  if (run.status !== statusOf(wanted)) { wrong++; console.log(`${text}: status ${run.status}`); }
};
for (const [text, wanted] of PURE) both(`() => ${text}`, "pure", wanted);
for (const [text, wanted] of EFFECT) both(text, "effect", wanted);
both("() => [1, 2].map((x) => x)", "pure", "[1,2]", 3, 2);
both("() => [1, 2].map((x) => x)", "pure", "ended", 2, 2);
both("() => [1, 2].map((x) => x)", "pure", "ended", 3, 1);
rmSync(folder, { recursive: true });
console.log(`${PURE.length + EFFECT.length + 3} examples, ${wrong} wrong`);
process.exit(wrong ? 1 : 0);
