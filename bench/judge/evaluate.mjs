#!/usr/bin/env node
// What a root arrow of a module gives when it is called without arguments: a judge of evaluation on a real engine, written apart from the code.
//
// evaluate.mjs FILE NAME [pure|effect]
//
// Babel (Debian's node-babel7) parses; operators, texts, key order and indexes are the engine's own. Printed are the console lines as `log TEXT`, and then one
// line: the value, `fault KIND` or `ended`. A text stands as it is at the top, and in JSON elsewhere; lists are `[a,b]`, records `{"k":v}`, functions
// `function`, JSX values `<TAG key slot {attributes} [children]>`. A state object is `&N` with its number by first meeting, and its contents at the first.
import { createRequire } from "node:module";
import { readFileSync } from "node:fs";
import { argv } from "node:process";
import { pathToFileURL } from "node:url";

const require = createRequire(import.meta.url);
const { parse } = require("/usr/share/nodejs/@babel/parser");

export const TURNS = 10000000, LEVELS = 64;
const MOST_ITEMS = 65536, MOST_WEIGHT = 65536, MOST_DEPTH = 32, MOST_BYTES = 1048576;
const FORBIDDEN = new Set(("constructor hasOwnProperty isPrototypeOf propertyIsEnumerable toLocaleString toString valueOf __proto__ __defineGetter__ " +
  "__defineSetter__ __lookupGetter__ __lookupSetter__").split(" "));

class Fault { constructor(kind) { this.kind = kind; } }
class Ended {}
const fault = (kind) => { throw new Fault(kind); };

// ---- values: primitives are the engine's; these are the others

class List { constructor(items) { this.items = items; } }
class Rec { constructor(fields) { this.fields = fields; } }
class Markup { constructor(shown, key, slot, attributes, children) { Object.assign(this, { shown, key, slot, attributes, children }); } }
class Fun { constructor(arrow, scope, hidden) { Object.assign(this, { arrow, scope, hidden }); } }
class Plain { constructor(fields) { this.fields = fields; } }
class Arr { constructor(items) { this.items = items; } }

const isInt = (v) => typeof v === "number";
const isText = (v) => typeof v === "string";
const isPrimitive = (v) => v === null || v === undefined || typeof v === "boolean" || isInt(v) || isText(v);
const isState = (v) => v instanceof Plain || v instanceof Arr;
const isFixed = (v) => v instanceof List || v instanceof Rec || v instanceof Markup;
const isList = (v) => v instanceof List || v instanceof Arr;
const hasFields = (v) => v instanceof Rec || v instanceof Plain;
const truthy = (v) => !!v;
const textOf = (v) => (isPrimitive(v) ? String(v) : fault("NotText"));
const fields = (pairs) => { const made = Object.create(null); for (const [k, v] of pairs) made[k] = v; return made; };
const short = (t) => (Buffer.byteLength(t) > MOST_BYTES ? fault("TextTooLong") : t);
const safe = (n) => (Number.isSafeInteger(n) ? n + 0 : fault("OutOfSafeRange"));
const ints = (a, b) => { if (!isInt(a) || !isInt(b)) fault("TypeMismatch"); };

// ---- weight and depth

const weights = new WeakMap(), depths = new WeakMap();
const parts = (v) => {
  if (v instanceof List) return v.items;
  if (v instanceof Rec) return Object.values(v.fields);
  if (v instanceof Markup) return [...v.attributes.map((a) => a[1]), ...v.children];
  return captures(v.arrow, v.scope).map((name) => v.scope.find(name).names.get(name));
};
const weight = (v) => {
  if (isText(v)) return 1 + Math.floor(Buffer.byteLength(v) / 32);
  if (isPrimitive(v) || isState(v)) return 1;
  if (!weights.has(v)) weights.set(v, parts(v).reduce((sum, part) => sum + weight(part), 1));
  return weights.get(v);
};
const depth = (v) => {
  if (isPrimitive(v) || isState(v)) return 0;
  if (!depths.has(v)) depths.set(v, 1 + parts(v).reduce((most, part) => Math.max(most, depth(part)), 0));
  return depths.get(v);
};
const made = (v) => {
  if (weight(v) > MOST_WEIGHT) fault("TreeTooLarge");
  if (depth(v) > MOST_DEPTH) fault("TreeTooDeep");
  return v;
};

// ---- scopes, and the names that an arrow captures

class Scope {
  constructor(outer, names) { this.outer = outer; this.names = new Map(names.map((name) => [name, undefined])); }
  find(name) { for (let at = this; at; at = at.outer) if (at.names.has(name)) return at; return null; }
}
const patternNames = (p) => (p.type === "Identifier" ? [p.name] : p.properties.map((q) => q.value.name));
const declared = (statements) => statements.flatMap((s) => (s.type === "VariableDeclaration" ? patternNames(s.declarations[0].id) : []));

const freeNames = new WeakMap();
const free = (arrow) => {
  if (!freeNames.has(arrow)) {
    const found = [];
    collect(arrow, new Set(), found);
    freeNames.set(arrow, [...new Set(found)]);
  }
  return freeNames.get(arrow);
};
const collect = (node, bound, found) => {
  if (Array.isArray(node)) return node.forEach((one) => collect(one, bound, found));
  if (!node || typeof node.type !== "string") return;
  const inside = (names, inner) => collect(inner, new Set([...bound, ...names]), found);
  switch (node.type) {
    case "Identifier": case "JSXIdentifier": if (!bound.has(node.name)) found.push(node.name); return;
    case "ArrowFunctionExpression": {
      const names = node.params.flatMap(patternNames);
      return node.body.type === "BlockStatement" ? inside([...names, ...declared(node.body.body)], node.body.body) : inside(names, node.body);
    }
    case "BlockStatement": return inside(declared(node.body), node.body);
    case "ForOfStatement": { const names = patternNames(node.left.declarations[0].id); inside(names, node.right); return inside(names, node.body); }
    case "VariableDeclarator": return collect(node.init, bound, found);
    case "MemberExpression": collect(node.object, bound, found); if (node.computed) collect(node.property, bound, found); return;
    case "ObjectProperty": return collect(node.value, bound, found);
    case "JSXOpeningElement": {
      if (node.name.type === "JSXIdentifier" && /^[A-Z]/.test(node.name.name)) collect(node.name, bound, found);
      return node.attributes.forEach((a) => collect(a.value, bound, found));
    }
    case "JSXClosingElement": return;
    default: for (const key of Object.keys(node)) if (!["loc", "extra", "leadingComments", "trailingComments", "innerComments"].includes(key)) collect(node[key], bound, found);
  }
};
const captures = (arrow, scope) => free(arrow).filter((name) => scope && scope.find(name));

// ---- texts between tags, and attributes' texts

const entities = (t) => t.replace(/&(amp|lt|gt|quot|nbsp);/g, (_, name) => ({ amp: "&", lt: "<", gt: ">", quot: '"', nbsp: "\u00a0" })[name]);
const jsxText = (raw) => {
  const lines = raw.replace(/\r\n/g, "\n").replace(/\t/g, " ").split("\n");
  const trimmed = lines.map((line, at) => {
    if (at > 0) line = line.replace(/^ +/, "");
    return at < lines.length - 1 ? line.replace(/ +$/, "") : line;
  });
  return entities(trimmed.filter((line) => line !== "").join(" "));
};

// ---- evaluation

export class Machine {
  constructor(text, turns = TURNS, levels = LEVELS) {
    this.turns = turns; this.levels = levels; this.lines = []; this.roots = new Map();
    const tree = parse(text, { sourceType: "module", plugins: ["jsx"], errorRecovery: false });
    for (const item of tree.program.body) {
      if (item.type === "ImportDeclaration") { for (const one of item.specifiers) this.roots.set(one.local.name, { framework: one.imported.name }); continue; }
      const declaration = (item.type === "ExportNamedDeclaration" ? item.declaration : item).declarations[0];
      this.roots.set(declaration.id.name, this.rootOf(declaration.id.name, declaration.init));
    }
  }

  rootOf(name, init) {
    if (init.type === "ArrowFunctionExpression") return { value: new Fun(init, null, false) };
    if (init.type === "CallExpression") return init.callee.name === "component$" ? { component: name } : { value: init.arguments[0].value };
    return { value: this.literal(init) };
  }

  literal(e) {
    switch (e.type) {
      case "ArrayExpression": return new List(e.elements.map((one) => this.literal(one)));
      case "ObjectExpression": return new Rec(fields(e.properties.map((p) => [keyName(p), this.literal(p.value)])));
      case "UnaryExpression": return 0 - this.literal(e.argument);
      case "NullLiteral": return null;
      case "Identifier": return undefined;
      default: return e.value;
    }
  }

  call(name, mode) { return this.enter(this.roots.get(name).value, [], mode); }

  // A function is entered: it takes a level and a turn.
  enter(f, given, mode) {
    if (this.levels === 0) throw new Ended();
    this.turn();
    this.levels--;
    const { params, body } = f.arrow, block = body.type === "BlockStatement";
    const scope = new Scope(f.scope, [...params.flatMap(patternNames), ...(block ? declared(body.body) : [])]);
    params.forEach((p, at) => this.bind(p, given[at], scope));
    const value = block ? (this.all(body.body, scope, mode)?.value) : this.step(body, scope, mode);
    this.levels++;
    return value;
  }

  turn() { if (this.turns === 0) throw new Ended(); this.turns--; }

  bind(pattern, value, scope) {
    if (pattern.type === "Identifier") { scope.names.set(pattern.name, value); return; }
    for (const name of patternNames(pattern)) scope.names.set(name, this.read(value, name));
  }

  // Statements give nothing, or how they are left: { kind: "return" | "break" | "continue", value }.
  all(statements, scope, mode) {
    for (const one of statements) { const left = this.run(one, scope, mode); if (left) return left; }
    return null;
  }

  block(node, scope, mode) {
    const statements = node.type === "BlockStatement" ? node.body : [node];
    return this.all(statements, new Scope(scope, declared(statements)), mode);
  }

  run(s, scope, mode) {
    switch (s.type) {
      case "VariableDeclaration": this.bind(s.declarations[0].id, this.value(s.declarations[0].init, scope, mode), scope); return null;
      case "ExpressionStatement": this.step(s.expression, scope, mode); return null;
      case "ReturnStatement": return { kind: "return", value: s.argument ? this.step(s.argument, scope, mode) : undefined };
      case "IfStatement": {
        if (truthy(this.value(s.test, scope, mode))) return this.block(s.consequent, scope, mode);
        return s.alternate ? this.block(s.alternate, scope, mode) : null;
      }
      case "WhileStatement": {
        while (truthy(this.value(s.test, scope, mode))) {
          this.turn();
          const left = this.block(s.body, scope, mode);
          if (left?.kind === "break") return null;
          if (left?.kind === "return") return left;
        }
        return null;
      }
      case "ForOfStatement": {
        const list = this.value(s.right, scope, mode);
        if (!isList(list)) fault("TypeMismatch");
        for (const item of [...list.items]) {
          this.turn();
          const inner = new Scope(scope, []);
          inner.names.set(s.left.declarations[0].id.name, item);
          const left = this.block(s.body, inner, mode);
          if (left?.kind === "break") return null;
          if (left?.kind === "return") return left;
        }
        return null;
      }
      case "BreakStatement": return { kind: "break" };
      case "ContinueStatement": return { kind: "continue" };
      case "BlockStatement": return this.block(s, scope, mode);
    }
    throw new Error(s.type);
  }

  step(e, scope, mode) {
    switch (e.type) {
      case "AssignmentExpression": return this.assign(e, scope, mode);
      case "UpdateExpression": {
        const target = this.target(e.argument, scope, mode), old = target.get();
        if (!isInt(old)) fault("TypeMismatch");
        target.set(safe(e.operator === "++" ? old + 1 : old - 1));
        return old;
      }
      case "UnaryExpression": if (e.operator === "delete") { this.remove(e.argument, scope, mode); return undefined; }
    }
    return this.value(e, scope, mode);
  }

  assign(e, scope, mode) {
    const target = this.target(e.left, scope, mode);
    const old = e.operator === "=" ? undefined : target.get();
    const right = this.value(e.right, scope, mode);
    const written = e.operator === "=" ? right : this.binary(e.operator[0], old, right);
    target.set(written);
    return written;
  }

  target(e, scope, mode) {
    if (e.type === "Identifier") {
      const home = scope.find(e.name);
      return { get: () => home.names.get(e.name), set: (v) => home.names.set(e.name, v) };
    }
    const object = this.value(e.object, scope, mode), key = this.key(e, scope, mode);
    return { get: () => this.read(object, key), set: (v) => this.write(object, key, v, mode) };
  }

  remove(e, scope, mode) {
    const object = this.value(e.object, scope, mode), key = this.key(e, scope, mode);
    this.mayChange(object, mode);
    if (isText(key) && FORBIDDEN.has(key)) fault("NoProperty");
    if (!isText(key) && !isInt(key)) fault("TypeMismatch");
    if (!(object instanceof Plain)) fault("TypeMismatch");
    delete object.fields[key];
  }

  key(e, scope, mode) { return e.computed ? this.value(e.property, scope, mode) : e.property.name; }

  read(object, key) {
    if (!(isText(object) || isList(object) || hasFields(object))) fault("NoProperty");
    if (!isText(key) && !isInt(key)) fault("TypeMismatch");
    if (hasFields(object)) return FORBIDDEN.has(key) ? fault("NoProperty") : object.fields[key];
    if (key === "length") return isText(object) ? object.length : object.items.length;
    return isList(object) && isInt(key) ? object.items[key] : fault("NoProperty");
  }

  mayChange(object, mode) {
    if (isPrimitive(object)) fault("NoProperty");
    if (!isState(object)) fault("FixedWrite");
    if (mode !== "effect") fault("RenderWrite");
  }

  write(object, key, value, mode) {
    this.mayChange(object, mode);
    if (isText(key) && (object instanceof Arr || FORBIDDEN.has(key))) fault("NoProperty");
    if (!isText(key) && !isInt(key)) fault("TypeMismatch");
    if (object instanceof Arr) {
      if (key < 0 || key > object.items.length) fault("IndexPastEnd");
      if (key === MOST_ITEMS) fault("ListTooLong");
    } else if (!(key in object.fields) && Object.keys(object.fields).length === MOST_ITEMS) fault("ListTooLong");
    (object instanceof Arr ? object.items : object.fields)[key] = value;
  }

  newList(items, mode) {
    if (items.length > MOST_ITEMS) fault("ListTooLong");
    return mode === "effect" ? new Arr(items) : made(new List(items));
  }

  newRecord(pairs, mode) {
    if (pairs.some(([k]) => FORBIDDEN.has(k))) fault("NoProperty");
    if (pairs.length > MOST_ITEMS) fault("ListTooLong");
    return mode === "effect" ? new Plain(fields(pairs)) : made(new Rec(fields(pairs)));
  }

  value(e, scope, mode) {
    switch (e.type) {
      case "NumericLiteral": case "StringLiteral": case "BooleanLiteral": return e.value;
      case "NullLiteral": return null;
      case "Identifier": return e.name === "undefined" ? undefined : this.named(e.name, scope);
      case "ArrayExpression": return this.newList(e.elements.map((one) => this.value(one, scope, mode)), mode);
      case "ObjectExpression": return this.newRecord(e.properties.map((p) => [keyName(p), this.value(p.value, scope, mode)]), mode);
      case "TemplateLiteral": {
        let text = e.quasis[0].value.cooked;
        e.expressions.forEach((one, at) => { text += textOf(this.value(one, scope, mode)) + e.quasis[at + 1].value.cooked; });
        return short(text);
      }
      case "UnaryExpression": {
        const v = this.value(e.argument, scope, mode);
        if (e.operator === "!") return !truthy(v);
        return isInt(v) ? safe(0 - v) : fault("TypeMismatch");
      }
      case "LogicalExpression": {
        const left = this.value(e.left, scope, mode);
        const decided = e.operator === "&&" ? !truthy(left) : e.operator === "||" ? truthy(left) : left !== null && left !== undefined;
        return decided ? left : this.value(e.right, scope, mode);
      }
      case "BinaryExpression": { const left = this.value(e.left, scope, mode); return this.binary(e.operator, left, this.value(e.right, scope, mode)); }
      case "ConditionalExpression": return this.value(truthy(this.value(e.test, scope, mode)) ? e.consequent : e.alternate, scope, mode);
      case "MemberExpression": { const object = this.value(e.object, scope, mode); return this.read(object, this.key(e, scope, mode)); }
      case "CallExpression": return this.called(e, scope, mode);
      case "ArrowFunctionExpression": return made(new Fun(e, scope, false));
      case "JSXElement": case "JSXFragment": return this.markup(e, scope, mode);
    }
    throw new Error(e.type);
  }

  named(name, scope) {
    const home = scope.find(name);
    return home ? home.names.get(name) : this.roots.get(name).value;
  }

  binary(operator, a, b) {
    switch (operator) {
      case "+":
        if (isInt(a) && isInt(b)) return safe(a + b);
        return (isText(a) && isPrimitive(b)) || (isText(b) && isPrimitive(a)) ? short(String(a) + String(b)) : fault("TypeMismatch");
      case "-": ints(a, b); return safe(a - b);
      case "*": ints(a, b); return safe(a * b);
      case "%": ints(a, b); return b === 0 ? fault("ZeroDivisor") : safe(a % b);
      case "<": ints(a, b); return a < b;
      case "<=": ints(a, b); return a <= b;
      case ">": ints(a, b); return a > b;
      case ">=": ints(a, b); return a >= b;
      case "===": return this.identical(a, b);
      case "!==": return !this.identical(a, b);
    }
    throw new Error(operator);
  }

  identical(a, b) {
    if ((isFixed(a) && isFixed(b)) || (a instanceof Fun && b instanceof Fun)) fault("Identity");
    return a === b;
  }

  values(all, scope, mode) { return all.map((one) => this.value(one, scope, mode)); }

  called(e, scope, mode) {
    const { callee } = e;
    const known = callee.type === "MemberExpression" && !callee.computed && callee.object.type === "Identifier" && !scope.find(callee.object.name) ? `${callee.object.name}.${callee.property.name}` : callee.name;
    const host = !(callee.type === "Identifier" && (scope.find(callee.name) || this.roots.has(callee.name)));
    if (known === "console.log") return this.log(this.value(e.arguments[0], scope, mode), mode);
    if (known === "Object.keys") return this.keys(this.value(e.arguments[0], scope, mode), mode);
    if (known === "String" && host) return textOf(this.value(e.arguments[0], scope, mode));
    if (known === "Math.trunc") return this.quotient(e.arguments[0], scope, mode);
    if (callee.type === "Identifier" && !scope.find(callee.name) && this.roots.get(callee.name).framework) return this.framework(callee.name, this.values(e.arguments, scope, mode));
    if (callee.type === "MemberExpression") {
      const object = this.value(callee.object, scope, mode), key = this.key(callee, scope, mode);
      if (isMethod(object, key)) return this.method(object, key, this.values(e.arguments, scope, mode), mode);
      return this.apply(this.read(object, key), this.values(e.arguments, scope, mode), mode);
    }
    const f = this.value(callee, scope, mode);
    return this.apply(f, this.values(e.arguments, scope, mode), mode);
  }

  apply(f, given, mode) { return f instanceof Fun ? this.enter(f, given, mode) : fault("NotCallable"); }

  framework(name, [f]) {
    if (name === "$") return f;
    return f instanceof Fun ? new Fun(f.arrow, f.scope, true) : fault("TypeMismatch");
  }

  log(v, mode) {
    if (mode !== "effect") fault("RenderLog");
    this.lines.push(textOf(v));
    return undefined;
  }

  keys(v, mode) { return hasFields(v) ? this.newList(Object.keys(v.fields), mode) : fault("TypeMismatch"); }

  quotient(e, scope, mode) {
    const a = this.value(e.left, scope, mode), b = this.value(e.right, scope, mode);
    ints(a, b);
    return b === 0 ? fault("ZeroDivisor") : Number(BigInt(a) / BigInt(b));
  }

  method(object, key, given, mode) {
    if (isText(object)) return given.length === 1 && isText(given[0]) ? object[key](given[0]) : fault("TypeMismatch");
    if (["push", "pop", "splice"].includes(key)) return this.change(object, key, given, mode);
    const [a, b] = given;
    if (key === "map" || key === "filter") {
      if (given.length !== 1 || !(a instanceof Fun)) fault("TypeMismatch");
      const items = [...object.items], results = items.map((item, at) => this.enter(a, [item, at], mode));
      return this.newList(key === "map" ? results : items.filter((_, at) => truthy(results[at])), mode);
    }
    if (key === "join") {
      if (given.length !== 1 || !isText(a)) fault("TypeMismatch");
      return short(object.items.map((item) => (item === null || item === undefined ? "" : textOf(item))).join(a));
    }
    if (given.length > 2 || !given.every(isInt)) fault("TypeMismatch");
    return this.newList(object.items.slice(...given), mode);
  }

  change(array, key, given, mode) {
    this.mayChange(array, mode);
    if (key === "push") {
      if (given.length !== 1) fault("TypeMismatch");
      if (array.items.length === MOST_ITEMS) fault("ListTooLong");
      return array.items.push(given[0]);
    }
    if (key === "pop") return given.length ? fault("TypeMismatch") : array.items.pop();
    if (given.length !== 2 || !given.every(isInt)) fault("TypeMismatch");
    return this.newList(array.items.splice(...given), mode);
  }

  // ---- JSX values

  markup(e, scope, mode) {
    const opening = e.openingElement, shown = opening ? this.shown(opening.name.name) : { kind: "fragment" };
    const attributes = (opening?.attributes ?? []).map((a) => [attributeName(a.name), this.attribute(a.value, scope, mode)]);
    const children = e.children.flatMap((c) => this.child(c, scope, mode));
    for (const [name, v] of attributes) checkAttribute(shown, name, v);
    checkSequence(children);
    const of = (name) => attributes.find((a) => a[0] === name)?.[1];
    if (shown.kind === "slot") return made(new Markup({ kind: "slot", name: of("name") ?? "" }, undefined, "", [], []));
    const key = of("key");
    return made(new Markup(shown, key === undefined ? undefined : String(key), of("q:slot") ?? "", attributes.filter((a) => a[0] !== "key" && a[0] !== "q:slot"), children));
  }

  shown(name) {
    if (/^[a-z]/.test(name)) return { kind: "element", name };
    return this.roots.get(name).framework ? { kind: "slot" } : { kind: "component", name };
  }

  attribute(node, scope, mode) {
    if (node === null) return true;
    return node.type === "StringLiteral" ? entities(node.extra.raw.slice(1, -1)) : this.value(node.expression, scope, mode);
  }

  child(node, scope, mode) {
    if (node.type === "JSXText") { const text = jsxText(node.extra.raw); return text === "" ? [] : [text]; }
    if (node.type === "JSXExpressionContainer") return node.expression.type === "JSXEmptyExpression" ? [] : [this.value(node.expression, scope, mode)];
    return [this.value(node, scope, mode)];
  }
}

const keyName = (p) => (p.key.type === "Identifier" ? p.key.name : p.key.value);
const attributeName = (n) => (n.type === "JSXNamespacedName" ? `${n.namespace.name}:${n.name.name}` : n.name);
const isMethod = (object, key) =>
  (isList(object) && ["map", "filter", "slice", "join", "push", "pop", "splice"].includes(key)) || (isText(object) && ["includes", "startsWith"].includes(key));
const checkAttribute = (shown, name, v) => {
  if (name === "key") return isText(v) || isInt(v) ? undefined : fault("NotText");
  if (shown.kind !== "element") return FORBIDDEN.has(name) ? fault("NoProperty") : undefined;
  if (name.endsWith("$")) return v instanceof Fun || v === null || v === undefined ? undefined : fault("NotCallable");
  return isPrimitive(v) ? undefined : fault("NotText");
};
const checkSequence = (items) => {
  const met = new Set();
  for (const one of items) {
    if (one instanceof List) checkSequence(one.items);
    else if (!isPrimitive(one) && !(one instanceof Markup)) fault("NotText");
    if (one instanceof Markup && one.key !== undefined) { if (met.has(one.key)) fault("DuplicateKey"); met.add(one.key); }
  }
};

// ---- how a value is printed

const escaped = (t) => t.replace(/[\\\n\r]/g, (c) => ({ "\\": "\\\\", "\n": "\\n", "\r": "\\r" })[c]);
export const printed = (v) => {
  const met = new Map();
  const pairs = (list) => `{${list.map(([k, w]) => `${JSON.stringify(k)}:${inner(w)}`).join(",")}}`;
  const inner = (w) => {
    if (isText(w)) return JSON.stringify(w);
    if (isPrimitive(w)) return String(w);
    if (w instanceof Fun) return "function";
    if (w instanceof List) return `[${w.items.map(inner).join(",")}]`;
    if (w instanceof Rec) return pairs(Object.entries(w.fields));
    if (w instanceof Markup) return `<${[w.shown.kind, w.shown.name ?? "", w.key ?? "-", w.slot].join(" ")} ${pairs(w.attributes)} [${w.children.map(inner).join(",")}]>`;
    if (met.has(w)) return `&${met.get(w)}`;
    met.set(w, met.size);
    return `&${met.get(w)}${w instanceof Arr ? `[${w.items.map(inner).join(",")}]` : pairs(Object.entries(w.fields))}`;
  };
  return escaped(isText(v) ? v : inner(v));
};

// All that is printed of a call.
export const answer = (text, name, mode, turns, levels) => {
  const machine = new Machine(text, turns, levels);
  const lines = () => machine.lines.map((line) => `log ${escaped(line)}\n`).join("");
  try {
    const v = machine.call(name, mode);
    return `${lines()}${printed(v)}\n`;
  } catch (stop) {
    if (stop instanceof Fault) return `${lines()}fault ${stop.kind}\n`;
    if (stop instanceof Ended) return `${lines()}ended\n`;
    throw stop;
  }
};

if (argv[1] && import.meta.url === pathToFileURL(argv[1]).href) process.stdout.write(answer(readFileSync(argv[2], "utf8"), argv[3], argv[4] ?? "pure"));
