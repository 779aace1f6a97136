// Seeded modules of root arrows without parameters, for the judge of evaluation: expressions and bodies over every operator, method, statement and fault, with objects
// that are read and written and functions that are passed about. All of them keep the rules of names and places.

// A small generator of numbers: the same seed gives the same modules.
export const chance = (seed) => {
  let state = seed >>> 0;
  const next = () => { state = (state + 0x6d2b79f5) >>> 0; let t = Math.imul(state ^ (state >>> 15), state | 1); t ^= t + Math.imul(t ^ (t >>> 7), t | 61); return ((t ^ (t >>> 14)) >>> 0) / 4294967296; };
  const below = (n) => Math.floor(next() * n);
  return { below, one: (list) => list[below(list.length)], sometimes: (share) => next() < share };
};

const INTS = ["0", "1", "2", "3", "7", "10", "-1", "-2", "65535", "65536", "4294967294", "4294967295", "9007199254740991", "-9007199254740991"];
const TEXTS = ['""', '"a"', '"b1"', '"10"', '"2"', '"length"', '"value"', '"😀é"', '"x\\ny"', '"toString"', '"map"', '"\\u{1F600}z"'];
const KEYS = ["a", "b", "k", "v1", "length", "value", "map", "if"];
const ODD_KEYS = ['"10"', '"2"', '"01"', '"a b"', '"4294967294"', '"4294967295"', "toString", '"__proto__"'];
const KINDS = ["int", "text", "truth", "nullish", "list", "record", "function", "markup"];

export class Maker {
  constructor(dice) { this.dice = dice; this.locals = []; this.arrow = 0; this.names = 0; this.roots = []; }

  fresh() { return `n${this.names++}`; }

  // A local or root of that kind, where one may be used here.
  known(kind) {
    const fit = [...this.locals, ...this.roots].filter((one) => one.kind === kind && (!one.variable || one.arrow === this.arrow));
    return fit.length ? this.dice.one(fit).name : null;
  }

  expression(kind, fuel) {
    const { dice } = this;
    if (dice.sometimes(0.04)) kind = dice.one(KINDS);
    if (dice.sometimes(fuel > 0 ? 0.25 : 0.6)) { const name = this.known(kind); if (name) return name; }
    if (fuel > 0 && dice.sometimes(0.12)) return this.either(kind, fuel - 1);
    if (fuel > 0 && dice.sometimes(0.06)) return `(${this.arrowOf(kind, fuel - 1)})()`;
    return this[kind](fuel);
  }

  either(kind, fuel) {
    const e = (k) => this.expression(k, fuel), { dice } = this;
    switch (dice.below(4)) {
      case 0: return `(${e("truth")} ? ${e(kind)} : ${e(kind)})`;
      case 1: return `(${e(dice.one(KINDS))} && ${e(kind)})`;
      case 2: return `(${e(dice.one(["nullish", kind]))} || ${e(kind)})`;
      default: return `(${e(dice.one(["nullish", kind]))} ?? ${e(kind)})`;
    }
  }

  int(fuel) {
    const { dice } = this, e = (k) => this.expression(k, fuel - 1);
    if (fuel <= 0) return this.bare(dice.one(INTS));
    switch (dice.below(12)) {
      case 0: case 1: case 2: return `(${e("int")} ${dice.one(["+", "-", "*", "%"])} ${e("int")})`;
      case 3: return `Math.trunc(${e("int")} / ${e("int")})`;
      case 4: return `(-${e("int")})`;
      case 5: return `${e("text")}.length`;
      case 6: return `${e("list")}.length`;
      case 7: return `${e("list")}[${e("int")}]`;
      case 8: return `${e("record")}.${dice.one(KEYS)}`;
      case 9: return `${e("list")}.push(${e(dice.one(KINDS))})`;
      case 10: return `(${this.function(fuel - 1)})(${e("int")})`;
      default: return this.bare(dice.one(INTS));
    }
  }

  // A number or text before which a sign and behind which a dot may stand.
  bare(literal) { return `(${literal})`; }

  text(fuel) {
    const { dice } = this, e = (k) => this.expression(k, fuel - 1), any = () => e(dice.one(KINDS)), primitive = () => e(dice.one(["int", "text", "truth", "nullish"]));
    if (fuel <= 0) return this.bare(dice.one(TEXTS));
    switch (dice.below(9)) {
      case 0: return `(${e("text")} + ${primitive()})`;
      case 1: return `(${primitive()} + ${e("text")})`;
      case 2: return `\`a\${${primitive()}}b\${${primitive()}}\``;
      case 3: return `String(${primitive()})`;
      case 4: return `${e("list")}.join(${e("text")})`;
      case 5: return `Object.keys(${e("record")}).join(${e("text")})`;
      case 6: return `\`\${${any()}}\``;
      case 7: return `${e("record")}[${this.key(fuel - 1)}]`;
      default: return this.bare(dice.one(TEXTS));
    }
  }

  truth(fuel) {
    const { dice } = this, e = (k) => this.expression(k, fuel - 1), any = () => e(dice.one(KINDS));
    if (fuel <= 0) return dice.one(["true", "false"]);
    switch (dice.below(7)) {
      case 0: case 1: return `(${e("int")} ${dice.one(["<", "<=", ">", ">="])} ${e("int")})`;
      case 2: return `(${any()} ${dice.one(["===", "!=="])} ${any()})`;
      case 3: { const kind = dice.one(["int", "text", "truth", "nullish"]); return `(${e(kind)} ${dice.one(["===", "!=="])} ${e(kind)})`; }
      case 4: return `(!${any()})`;
      case 5: return `${e("text")}.${dice.one(["includes", "startsWith"])}(${e("text")})`;
      default: return dice.one(["true", "false"]);
    }
  }

  nullish(fuel) {
    const { dice } = this;
    return fuel > 0 && dice.sometimes(0.3) ? `${this.expression("list", fuel - 1)}[${this.expression("int", fuel - 1)}]` : dice.one(["null", "undefined"]);
  }

  list(fuel) {
    const { dice } = this, e = (k) => this.expression(k, fuel - 1), any = () => e(dice.one(KINDS));
    const kind = dice.one(["int", "text", dice.one(KINDS)]);
    if (fuel > 0) {
      switch (dice.below(8)) {
        case 0: return `${e("list")}.map(${this.callback(fuel - 1, kind)})`;
        case 1: return `${e("list")}.filter(${this.callback(fuel - 1, "truth")})`;
        case 2: return `${e("list")}.slice(${[[], [e("int")], [e("int"), e("int")]][dice.below(3)].join(", ")})`;
        case 3: return `Object.keys(${e("record")})`;
        case 4: return `${e("list")}.splice(${e("int")}, ${e("int")})`;
        case 5: return `${e("list")}.${dice.one(["pop()", `slice(${any()})`, `map(${any()})`, `join(${any()})`, `push()`, "map"])}`;
      }
    }
    return `[${Array.from({ length: dice.below(5) }, () => (fuel > 0 ? e(kind) : this.expression(kind, 0))).join(", ")}]`;
  }

  key(fuel) { const { dice } = this; return dice.one([dice.one(ODD_KEYS.filter((k) => k[0] === '"')), `"${dice.one(KEYS)}"`, this.expression(dice.one(["int", "text", "truth"]), fuel)]); }

  record(fuel) {
    const { dice } = this, keys = new Set(), parts = [];
    for (let left = dice.below(4); left > 0; left--) {
      const key = dice.sometimes(0.15) ? dice.one(ODD_KEYS) : dice.one(KEYS), spelled = key.replace(/"/g, "");
      if (keys.has(spelled)) continue;
      keys.add(spelled);
      parts.push(`${key}: ${this.expression(dice.one(["int", "int", "text", dice.one(KINDS)]), fuel - 1)}`);
    }
    return `({ ${parts.join(", ")} })`;
  }

  function(fuel) {
    const { dice } = this;
    if (dice.sometimes(0.1)) return `noSerialize(${this.expression(dice.one(["function", "function", "int"]), fuel - 1)})`;
    if (dice.sometimes(0.1)) return `$(${this.arrowOf("int", fuel)})`;
    return `(${this.arrowOf(dice.one(["int", "int", dice.one(KINDS)]), fuel)})`;
  }

  callback(fuel, kind) { return this.dice.sometimes(0.9) ? `(${this.arrowOf(kind, fuel, 2)})` : this.expression(this.dice.one(KINDS), fuel); }

  arrowOf(kind, fuel, most = 1) {
    const { dice } = this, outer = this.locals;
    this.locals = [...outer]; this.arrow++;
    const arrow = this.arrow;
    const params = Array.from({ length: dice.below(most + 1) }, (_, at) => {
      if (dice.sometimes(0.1)) { const key = dice.one(KEYS.slice(0, 4)); if (!this.locals.some((one) => one.name === key)) { this.locals.push({ name: key, kind: "int" }); return `{ ${key} }`; } }
      const name = this.fresh();
      this.locals.push({ name, kind: at === 1 ? "int" : dice.one(["int", "int", "text", "list", "record"]) });
      return name;
    });
    const body = fuel > 0 && dice.sometimes(0.3) ? this.block(kind, fuel - 1) : this.expression(kind, fuel - 1);
    this.locals = outer; this.arrow = this.arrow === arrow ? arrow - 1 : this.arrow;
    return `(${params.filter((p, at) => params.indexOf(p) === at).join(", ")}) => ${body}`;
  }

  // A body that meets a limit.
  limit() {
    const { dice } = this;
    return dice.one([
      `{ let t = "${dice.one(["ab", "é"])}"; while (t.length < ${dice.one([40000, 2000000])}) { t = t + t; } return t.length; }`,
      `{ let l = [1]; let n = 0; while (n < ${dice.one([14, 15, 16, 17])}) { l = [l, l]; n++; } return n; }`,
      `{ let l = 1; let n = 0; while (n < ${dice.one([31, 32, 33])}) { l = ${dice.one(["[l]", "({ k: l })", "(<b>{l}</b>)"])}; n++; } return l; }`,
      `{ const l = [1]; while (l.length < ${dice.one([65535, 65536, 65537])}) { l.push(l.length); } return l.length; }`,
      `deep(${58 + dice.below(10)})`,
      `{ const l = [1, 2]; l[${dice.one(["2", "3", "-1"])}] = 5; return l; }`,
      `(<p><b key="${dice.one(["x", "y"])}"/>{[(<b key={"x"}/>)]}<i key="x"/></p>)`,
    ]);
  }

  // Statements in a scope of their own, with what they return.
  block(kind, fuel) {
    const outer = this.locals, parts = [];
    this.locals = [...outer];
    for (let left = 1 + this.dice.below(4); left > 0; left--) parts.push(this.statement(kind, fuel));
    parts.push(`return ${this.expression(kind, fuel)};`);
    this.locals = outer;
    return `{ ${parts.join(" ")} }`;
  }

  inner(kind, fuel, more = "") {
    const outer = this.locals, parts = [];
    this.locals = [...outer];
    for (let left = 1 + this.dice.below(3); left > 0; left--) parts.push(this.statement(kind, fuel));
    this.locals = outer;
    return `{ ${parts.join(" ")} ${more}}`;
  }

  declare(word, kind, fuel) {
    const value = this.expression(kind, fuel), name = this.fresh();
    this.locals.push({ name, kind, variable: word === "let", arrow: this.arrow });
    return `${word} ${name} = ${value};`;
  }

  member(fuel) {
    const { dice } = this;
    return dice.sometimes(0.5) ? `${this.expression("record", fuel)}.${dice.one(KEYS)}` : `${this.expression(dice.one(["list", "record"]), fuel)}[${dice.one([this.key(fuel), this.expression("int", fuel)])}]`;
  }

  target(fuel) {
    const variables = this.locals.filter((one) => one.variable && one.arrow === this.arrow);
    return variables.length && this.dice.sometimes(0.5) ? this.dice.one(variables).name : this.member(fuel);
  }

  statement(kind, fuel) {
    const { dice } = this, e = (k) => this.expression(k, fuel - 1);
    switch (fuel > 0 ? dice.below(14) : dice.below(4)) {
      case 0: case 1: return this.declare("const", dice.one(KINDS), fuel - 1);
      case 2: return this.declare("let", dice.one(["int", "text", "list"]), fuel - 1);
      case 3: return `console.log(${this.expression(dice.one(["int", "text", "truth", dice.one(KINDS)]), fuel - 1)});`;
      case 4: case 5: return `${this.target(fuel - 1)} ${dice.one(["=", "+=", "-=", "*="])} ${e(dice.one(["int", "text", dice.one(KINDS)]))};`;
      case 6: return `${this.target(fuel - 1)}${dice.one(["++", "--"])};`;
      case 7: return `delete ${this.member(fuel - 1)};`;
      case 8: return `if (${e("truth")}) ${this.inner(kind, fuel - 1)}${dice.sometimes(0.5) ? ` else ${this.inner(kind, fuel - 1)}` : ""}`;
      case 9: { const name = this.fresh(); return `let ${name} = 0; while (${name} < ${dice.below(4)}) { ${name}++; ${this.inner(kind, fuel - 1, dice.one(["", "", "break; ", "continue; "]))} }`; }
      case 10: {
        const list = e(dice.one(["list", "list", "record"])), name = this.fresh(), outer = this.locals;
        this.locals = [...outer, { name, kind: "int" }];
        const body = this.inner(kind, fuel - 1, dice.one(["", "", "break; ", "continue; "]));
        this.locals = outer;
        return `for (const ${name} of ${list}) ${body}`;
      }
      case 11: return `if (${e("truth")}) { return ${e(kind)}; }`;
      case 12: return `const ${this.fresh()} = (({ a, b }) => a)(${e("record")});`;
      default: return `${e(dice.one(["list", "int", "function"]))};`;
    }
  }

  markup(fuel) {
    const { dice } = this, e = (k) => this.expression(k, fuel - 1);
    if (fuel <= 0) return "(<b/>)";
    const attributes = [];
    if (dice.sometimes(0.3)) attributes.push(`key={${e(dice.one(["int", "text", "text", dice.one(KINDS)]))}}`);
    if (dice.sometimes(0.3)) attributes.push(`id={${e(dice.one(["text", "int", dice.one(KINDS)]))}}`);
    if (dice.sometimes(0.2)) attributes.push(`onClick$={${dice.one([`(${this.arrowOf("int", fuel - 1)})`.slice(1, -1), "null", this.expression(dice.one(KINDS), 0)])}}`);
    const children = Array.from({ length: dice.below(3) }, () => dice.one([`{${e(dice.one(["int", "text", "nullish", dice.one(KINDS)]))}}`, " t &amp; u ", `{[${e("markup")}, ${e("markup")}]}`]));
    const tag = dice.one(["p", "b", "Card"]), head = [tag, ...attributes].join(" ");
    return children.length ? `(<${head}>${children.join("")}</${tag}>)` : `(<${head}/>)`;
  }
}




const HEAD = 'import { $, component$, noSerialize } from "@builder.io/qwik";\n';

// A module of so many root arrows f0, f1, ..
export const module = (seed, count) => {
  const dice = chance(seed), maker = new Maker(dice), items = [];
  items.push("export const App = component$(() => <p/>);", 'const Card = component$(() => <p/>);', "const data0 = [1, -2, \"t\", { a: 1, b: [2] }];", "const data1 = { a: 3, \"10\": 1, \"2\": 2 };");
  items.push("const deep = (n) => (n > 0 ? deep(n - 1) : n);");
  maker.roots.push({ name: "data0", kind: "list" }, { name: "data1", kind: "record" });
  for (let at = 0; at < count; at++) {
    const kind = dice.one(KINDS), fuel = 1 + dice.below(5);
    maker.names = 0; maker.locals = []; maker.arrow = 1;
    if (dice.sometimes(0.05)) { items.push(`const f${at} = () => ${maker.limit()};`); continue; }
    items.push(`const f${at} = () => ${dice.sometimes(0.5) ? maker.block(kind, fuel) : maker.expression(kind, fuel)};`);
    if (dice.sometimes(0.1)) maker.roots.push({ name: `f${at}`, kind: "function" });
  }
  return HEAD + items.join("\n") + "\n";
};
