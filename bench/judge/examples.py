"""Applications with what must be said of them.

`ACCEPTED` are whole applications. `CASES` has, for each rule, texts just within it and just
outside of it, each with the answer: `ok`, or kind, module and what. A text without imports
stands in `root.jsx` under a line that imports every Qwik name; where no text declares `App`,
a small `App` follows it.
"""

HEAD = (
    "import { $, Slot, component$, createContextId, noSerialize, useComputed$, useContext, "
    'useContextProvider, useSignal, useStore, useTask$ } from "@builder.io/qwik";\n'
)
SMALL_APP = " export const App = component$(() => <p/>);"


def module(name, text):
    """The bytes of a module: bytes as they are, a text that begins with no import under one."""
    if isinstance(text, bytes):
        return text
    if text and not text.startswith("import"):
        text = HEAD + text + (SMALL_APP if name == "root" and "App" not in text else "")
    return text.encode()


def application(files):
    """The files of an application as bytes; a text alone is `root.jsx`."""
    if isinstance(files, (str, bytes)):
        files = {"root": files}
    return {name + ".jsx": module(name, text) for name, text in files.items()}


def component(body):
    """An application whose `App` has this body."""
    return "export const App = component$(" + body + ");"


def within(statements, view="<p/>"):
    """An application whose `App` has these statements and this view."""
    return component("() => { " + statements + " return " + view + "; }")


COUNTER = within(
    "const n = useSignal(0);", '<button id="b" onClick$={() => n.value++}>{n.value}</button>'
)
CARD = (
    'export const Theme = createContextId("theme"); '
    'export const Card = component$(() => <section><h1><Slot name="t"/></h1><Slot/></section>); '
    "export const Who = component$(() => { const t = useContext(Theme); return <u>{t.name}</u>; }); "
)
TODO_ROOT = """import { component$, useComputed$, useSignal, useStore } from "@builder.io/qwik";
import { Item } from "./item.jsx";

export const App = component$(() => {
  const draft = useSignal("");
  const st = useStore({ items: [], next: 1 });
  const left = useComputed$(() => st.items.filter((t) => !t.done).length);
  return (
    <main class="todo">
      <input id="in" value={draft.value} onInput$={(e, el) => { draft.value = el.value; }} />
      <button id="add" onClick$={() => {
        if (draft.value === "") { return; }
        st.items.push({ id: st.next, text: draft.value, done: false });
        st.next++;
        draft.value = "";
      }}>Add</button>
      <ul>{st.items.map((t) => <Item key={t.id} todo={t} />)}</ul>
      <p>{left.value} left</p>
    </main>
  );
});
"""
TODO_ITEM = """import { component$ } from "@builder.io/qwik";

export const Item = component$((props) => (
  <li>
    <input id={`i${props.todo.id}`} type="checkbox" checked={props.todo.done}
      onClick$={() => { props.todo.done = !props.todo.done; }} />
    {props.todo.text}
  </li>
));
"""
EVERYTHING = """import { $, Slot, component$, noSerialize, useSignal, useStore, useTask$ } from "@builder.io/qwik";
import { Row, Theme, sizes, twice } from "./parts.jsx";
/* every form of the language, once */
const limits = { "least": -1, most: [1, 2, 3], none: undefined, no: null, yes: true };
const sign = (x) => x < 0 ? -1 : x > 0 ? 1 : 0;
export const App = component$(({ title }) => {
  const total = useSignal(limits.most[0]);
  const st = useStore({ list: [], "the key": 1 });
  useTask$(({ track }) => {
    const seen = track(() => total.value);
    for (const size of sizes) { if (size > seen) { break; } else if (size === seen) continue; st.list.push(size); }
  });
  const { list } = st;
  const half = Math.trunc(total.value * 2 / 4); const text = String(half);
  let left = list.length;
  while (left >= 1 && left !== 7) { left -= 1; left--; left += twice(0); left *= 1; }
  { const left = 1; console.log(`l${left}${"a" + text}\\n`); }
  const wrapped = noSerialize((y) => y % 3);
  const act = $((e, { value }) => { delete st["the key"]; st.list = Object.keys(st); return; });
  return <>
    <h1 class='a &amp; b' hidden>{title ?? "none"} &lt; {/* nothing */}</h1>
    <Row key="k" act={act} onDone$={() => { total.value = sign(wrapped(4)) || !total.value ? 1 : 2; }}>
      <b q:slot="left">x</b> and {list.map(x => <i key={x}>{x}</i>)}
    </Row>
  </>;
});
"""
PARTS = (
    'import { Slot, component$, createContextId } from "@builder.io/qwik";\n'
    'export const Theme = createContextId("theme");\n'
    "export const sizes = [1, 2, 3];\n"
    "export const twice = (n) => n * 2;\n"
    'export const Row = component$((props) => <div id="r" onClick$={props.act}><Slot name="left"/><Slot/></div>);\n'
)

ACCEPTED = [
    application(one)
    for one in [
        COUNTER,
        component("() => <p id=\"p\">hi</p>"),
        within("return <p/>;"),
        within(
            "const a = useSignal(null); const b = useSignal(null); "
            "useTask$(() => { const o = { n: 1 }; a.value = o; b.value = o; });",
            '<button id="b" onClick$={() => { a.value.n = 5; }}>{b.value.n}</button>',
        ),
        within(
            "const st = useStore({ fact: null, out: 0 }); "
            "useTask$(() => { st.fact = $((k) => k < 2 ? 1 : k * st.fact(k - 1)); });",
            '<button id="b" onClick$={() => { st.out = st.fact(5); }}>{st.out}</button>',
        ),
        within(
            "const f = useSignal(null); const x = useSignal(10);",
            '<div><i id="m" onClick$={() => { const k = x.value; f.value = $((d) => x.value + k + d); '
            'x.value = 20; }}/><i id="c" onClick$={() => { console.log(f.value(1)); }}/></div>',
        ),
        within(
            "const s = useSignal(0); useTask$(({ track }) => { const v = track(() => s.value); "
            'console.log("t" + v); });',
            '<button id="b" onClick$={() => { s.value = 1; s.value = 0; }}>{s.value}</button>',
        ),
        "export const Late = component$((props) => { useTask$(() => { props.s.value = 7; }); "
        "return <i>{props.s.value}</i>; }); "
        + within("const s = useSignal(0);", "<div><b>{s.value}</b><Late s={s}/></div>"),
        "export const Cell = component$((props) => { const n = useSignal(0); "
        "return <button id={props.k} onClick$={() => n.value++}>{n.value}</button>; }); "
        + within(
            'const st = useStore({ order: ["a", "b"] });',
            "<div>{st.order.map((k) => <Cell key={k} k={k}/>)}"
            '<i id="r" onClick$={() => { st.order = ["b", "a"]; }}/></div>',
        ),
        "export const C = component$((props) => <b>{props.f ? props.f(1) : 0}</b>); "
        + within(
            "const on = useSignal(true);",
            "<div><C f={on.value ? (x) => x + 1 : undefined}/>"
            '<i id="t" onClick$={() => { on.value = !on.value; }}/></div>',
        ),
        CARD
        + within(
            'const st = useStore({ name: "x" }); useContextProvider(Theme, st);',
            '<Card><Who/> and <b q:slot="t">T</b></Card>',
        ),
        component("() => <p>\n  a &amp; b\n  c {1} d\n</p>"),
        component('() => <p id="p" onClick$={() => { while (true) { } }}/>'),
        within(
            "const s = useSignal(null); const x = useSignal(0);",
            '<div><b id="m" onClick$={() => { s.value = noSerialize((y) => y + 1); }}>'
            '{s.value ? "set" : "none"}</b><i id="x" onClick$={() => x.value++}>{x.value}</i></div>',
        ),
        {"root": TODO_ROOT, "item": TODO_ITEM},
        {"root": EVERYTHING, "parts": PARTS},
    ]
]

NAME_CASES = [
    (within("x;"), "UnknownName root x"),
    (within("String(console);"), "UnknownName root console"),
    (within("console.log(1, 2);"), "UnknownName root console"),
    (within("console.log(1,);"), "UnknownName root console"),
    (within("(console).log(1);"), "UnknownName root console"),
    (within("console.log(1);"), "ok"),
    (within("Math.trunc(1);"), "UnknownName root Math"),
    (within("Math.trunc(1 / 2);"), "ok"),
    (within("Object.keys({}).x;"), "ok"),
    (within("String;"), "UnknownName root String"),
    (within("const s = { String };"), "UnknownName root String"),
    (within("const s = { String: 1 };"), "ok"),
    (component("() => <Foo/>"), "UnknownName root Foo"),
    ('import { component$ } from "@builder.io/qwik"; ' + component("() => <Slot/>"), "UnknownName root Slot"),
    ('import { component$ } from "@builder.io/qwik"; ' + within("$(() => 1);"), "UnknownName root $"),
    (within("{ const x = 1; } x;"), "UnknownName root x"),
    (within("for (const x of []) { } x;"), "UnknownName root x"),
    (within("const f = (x) => 1; x;"), "UnknownName root x"),
    ("const a = () => console; const console = 1;", "UnknownName root console"),
    ("const a = () => b; const b = () => a;", "ok"),
    ("const a = () => a;", "ok"),
    (within("const a = 1; const a = 2;"), "DuplicateName root a"),
    (within("const a = 1; { const a = 2; }"), "ok"),
    (within("const f = (a) => { const a = 1; };"), "DuplicateName root a"),
    (within("const f = (a) => { { const a = 1; } };"), "ok"),
    (within("const f = (a, a) => 1;"), "DuplicateName root a"),
    (within("const f = ({ a, a }) => 1;"), "DuplicateName root a"),
    (within("const f = (a, { a }) => 1;"), "DuplicateName root a"),
    (within("for (const x of []) { const x = 1; }"), "ok"),
    (within("const x = []; for (const x of []) x;"), "ok"),
    (within("const a = 1; let a = 2;"), "DuplicateName root a"),
    (within("const useSignal = 1;"), "DuplicateName root useSignal"),
    (within("const f = ($) => 1;"), "DuplicateName root $"),
    (within("const qrl = 1;"), "DuplicateName root qrl"),
    (within("const f = ({ useLexicalScope }) => 1;"), "DuplicateName root useLexicalScope"),
    (within("const Math = 1;"), "DuplicateName root Math"),
    (within("for (const String of []) { }"), "DuplicateName root String"),
    (within("const root_s1 = 1;"), "ok"),
    ("const root_s1 = 1;", "DuplicateName root root_s1"),
    ("const other_s4294967295 = 1;", "DuplicateName root other_s4294967295"),
    ("const other_s4294967296 = 1; const a_s0 = 1; const a_s01 = 1; const A_s1 = 1; const a_b_s1 = 1;", "ok"),
    ("const " + "a" * 32 + "_s1 = 1;", "DuplicateName root " + "a" * 32 + "_s1"),
    ("const " + "a" * 33 + "_s1 = 1;", "ok"),
    ("const a = 1; const a = 2;", "DuplicateName root a"),
    ('import { component$, component$ } from "@builder.io/qwik";' + SMALL_APP, "DuplicateName root component$"),
    ({"root": 'import { a } from "./x.jsx"; import { component$ } from "@builder.io/qwik"; const a = 1;'
      + SMALL_APP, "x": "export const a = 1;"}, "DuplicateName root a"),
    ({"root": 'import { a_s1 } from "./x.jsx"; import { component$ } from "@builder.io/qwik";' + SMALL_APP,
      "x": "export const a_s1 = 1;"}, "DuplicateName root a_s1"),
    ({"root": 'import { useTask$ } from "./x.jsx"; import { component$ } from "@builder.io/qwik";' + SMALL_APP,
      "x": "import { } from"}, "Syntax x 1:10"),
    (within("let n = 0; const f = () => n;"), "LetCaptured root n"),
    (within("let n = 0; { n; }"), "ok"),
    (within("let n = 0; n = 1; n++; n += 2;"), "ok"),
    (within("const f = () => { let n = 0; n = 1; return n; };"), "ok"),
    (within("const f = () => n; let n = 0;"), "LetCaptured root n"),
    (within("let f = () => f;"), "LetCaptured root f"),
    (within("let n = 0;", "<p onClick$={() => { n = 1; }}/>"), "LetCaptured root n"),
    (within("let n = 0;", "<p id={n}/>"), "ok"),
    (within("const a = 1; a = 2;"), "ConstAssigned root a"),
    (within("const a = 1; a++;"), "ConstAssigned root a"),
    (within("const a = 1; a.b = 2;"), "ok"),
    (within("const f = (a) => { a = 1; };"), "ConstAssigned root a"),
    (within("for (const a of []) a -= 1;"), "ConstAssigned root a"),
    ("const a = 1; const f = () => { a = 2; };", "ConstAssigned root a"),
    (within("useSignal = 1;"), "ConstAssigned root useSignal"),
    (within("a = 1; const a = 2;"), "ConstAssigned root a"),
    (within("a = 1; let a = 2;"), "EarlyUse root a"),
    (within("x = y;"), "UnknownName root x"),
    (within("a = y; const a = 1;"), "ConstAssigned root a"),
    (within("a; const a = 1;"), "EarlyUse root a"),
    (within("{ a; } const a = 1;"), "EarlyUse root a"),
    (within("const a = a;"), "EarlyUse root a"),
    (within("const f = () => f();"), "EarlyUse root f"),
    (within("const f = () => k; const k = 1;"), "EarlyUse root k"),
    (within("for (const x of x) { }"), "EarlyUse root x"),
    (within("for (const x of [1]) x;"), "ok"),
    (within("const { a, b } = { a: 1, b: a };"), "EarlyUse root a"),
    (within("const a = 1; { a; const a = 2; }"), "EarlyUse root a"),
    (within("const v = <Foo/>; const Foo = 1;"), "EarlyUse root Foo"),
]

PLACE_CASES = [
    (within("const s = useSignal();"), "ok"),
    (within("const s = useSignal(1, 2);"), "HookPlace root useSignal"),
    (within("useSignal(0);"), "HookPlace root useSignal"),
    (within("const { value } = useSignal(0);"), "HookPlace root useSignal"),
    (within("let s = useSignal(0);"), "HookPlace root useSignal"),
    (within("const s = useSignal(0).value;"), "HookPlace root useSignal"),
    (within("const s = [useSignal(0)];"), "HookPlace root useSignal"),
    (within("const s = (useSignal(0));"), "ok"),
    (within("const s = useSignal;"), "HookPlace root useSignal"),
    (within("{ const s = useSignal(0); }"), "HookPlace root useSignal"),
    (within("if (true) { useSignal(0); }"), "HookPlace root useSignal"),
    (component("() => useSignal(0)"), "HookPlace root useSignal"),
    (within("const f = () => { const s = useSignal(0); };"), "HookPlace root useSignal"),
    (within("const f = $(() => { const s = useSignal(0); });"), "HookPlace root useSignal"),
    ("const f = () => { const s = useSignal(0); };", "HookPlace root useSignal"),
    ("const x = useSignal(0);", "RootValue root x"),
    ("export const App = useSignal(0);", "NotComponent root App"),
    (within("useTask$(() => 1);"), "ok"),
    (within("const t = useTask$(() => 1);"), "HookPlace root useTask$"),
    (within("return useTask$(() => 1);"), "HookPlace root useTask$"),
    (within("const a = 1; useTask$(() => 1); const s = useStore({});"), "ok"),
    (within("let a = 1; const s = useStore({});"), "HookPlace root useStore"),
    (within('console.log("x"); useTask$(() => 1);'), "HookPlace root useTask$"),
    (within("if (true) { } const s = useSignal(0);"), "HookPlace root useSignal"),
    (within("const s = useSignal(0); let a = 1; a = 2;"), "ok"),
    (within("const c = useComputed$();"), "HookPlace root useComputed$"),
    (within("const s = useStore();"), "HookPlace root useStore"),
    (within("useTask$(() => 1, { });"), "HookPlace root useTask$"),
    (within("const t = useContext(1);"), "HookPlace root useContext"),
    (CARD + within("useContextProvider(Theme, 1);"), "ok"),
    (CARD + within("useContextProvider(Theme);"), "HookPlace root useContextProvider"),
    (CARD + within("useContextProvider(Theme, Theme);"), "HookPlace root Theme"),
    (CARD + within("const t = Theme;"), "HookPlace root Theme"),
    (CARD + component("() => <Theme/>"), "HookPlace root Theme"),
    (CARD + within("const Theme = 1; const t = useContext(Theme);"), "HookPlace root useContext"),
    (CARD + within("const t = useContext(Card);"), "HookPlace root useContext"),
    ({"root": 'import { T } from "./x.jsx"; import { component$, useContext } from "@builder.io/qwik"; '
      + within("const t = useContext(T);"), "x": 'export const T = createContextId("t");'}, "ok"),
    ({"root": 'import { T } from "./x.jsx"; import { component$, useContext } from "@builder.io/qwik"; '
      + within("const t = T;"), "x": 'export const T = createContextId("t");'}, "HookPlace root T"),
    (within("const s = useSignal(0); useTask$(({ track }) => { if (true) { track(() => s.value); } });"), "ok"),
    (within("useTask$(({ track }) => track(() => 1).x);"), "ok"),
    (within("useTask$(({ track }) => track(() => { return 1; }));"), "HookPlace root track"),
    (within("useTask$(({ track }) => track((x) => 1));"), "HookPlace root track"),
    (within("useTask$(({ track }) => track(1));"), "HookPlace root track"),
    (within("useTask$(({ track }) => { const t = track; });"), "HookPlace root track"),
    (within("useTask$(({ track }) => { const f = () => track(() => 1); });"), "HookPlace root track"),
    (within("useTask$(({ track }) => track(() => track(() => 1)));"), "HookPlace root track"),
    (within("useTask$(({ track }) => { { const track = 1; track; } });"), "ok"),
    (within("const track = (f) => f; track(1);"), "ok"),
    (within("track(() => 1);"), "UnknownName root track"),
    ("export const App = component$(1);", "DollarArgument root component$"),
    ("export const App = component$();", "DollarArgument root component$"),
    ("export const App = component$((a, b) => <p/>);", "DollarArgument root component$"),
    ("export const App = component$(({ a, b }) => <p/>);", "ok"),
    (within("$(1);"), "DollarArgument root $"),
    (within("$(() => 1, 2);"), "DollarArgument root $"),
    (within("const f = (x) => 1; $(f);"), "DollarArgument root $"),
    (within("$((a, b, c) => 1)(1);"), "ok"),
    (within("useTask$((t) => 1);"), "DollarArgument root useTask$"),
    (within("useTask$(({ track, x }) => 1);"), "DollarArgument root useTask$"),
    (within("useTask$(({ track }, x) => 1);"), "DollarArgument root useTask$"),
    (within("useTask$(({ clean }) => 1);"), "DollarArgument root useTask$"),
    (within("const c = useComputed$((x) => 1);"), "DollarArgument root useComputed$"),
    (within("const c = useComputed$(1);"), "DollarArgument root useComputed$"),
    (within("const c = useComputed$(() => 1);"), "ok"),
    ("const x = $(() => 1);", "RootValue root x"),
    ("const x = $(1);", "RootValue root x"),
    ("const x = -1; const y = [1, { a: -2, b: [null, undefined, true] }]; const z = 'a';", "ok"),
    ("const x = -y; const y = 1;", "RootValue root x"),
    ("const x = - - 1;", "RootValue root x"),
    ("const x = [() => 1];", "RootValue root x"),
    ("const x = `a`;", "RootValue root x"),
    ("const x = <p/>;", "RootValue root x"),
    ("const x = 1 + 1;", "RootValue root x"),
    ("const y = 1; const x = { y };", "RootValue root x"),
    ('const x = createContextId("a", 1);', "RootValue root x"),
    ("const x = createContextId(`a`);", "RootValue root x"),
    ("const x = component$(() => <p/>)(1);", "RootValue root x"),
    ("const x = component$;", "RootValue root x"),
    (within("component$(() => <p/>);"), "RootValue root component$"),
    (within('createContextId("a");'), "RootValue root createContextId"),
    (within("const f = $;"), "RootValue root $"),
    (within("const f = noSerialize;"), "RootValue root noSerialize"),
    (within("noSerialize();"), "RootValue root noSerialize"),
    (within("noSerialize(1);"), "ok"),
    (within("const f = Slot;"), "RootValue root Slot"),
    (within("Slot();"), "RootValue root Slot"),
    ("export const App = 1;", "NotComponent root App"),
    ("export const App = () => 1;", "NotComponent root App"),
    ("export const App = 1 + 1;", "NotComponent root App"),
    ("const x = 1; " + component("() => <x/>"), "ok"),
    ("const X = 1; " + component("() => <X/>"), "NotComponent root X"),
    (within("const X = 1;", "<X/>"), "NotComponent root X"),
    (CARD + within("const Card = 1;", "<Card/>"), "NotComponent root Card"),
    (CARD + within("const Card = 1; const c = Card;"), "ok"),
    (CARD + within("const c = Card;"), "NotComponent root Card"),
    (within("const a = App;"), "NotComponent root App"),
    (component("() => <App/>"), "ok"),
    (component("() => <title/>"), "TagRefused root title"),
    (component("() => <br>x</br>"), "TagRefused root br"),
    (component("() => <br></br>"), "ok"),
    (component("() => <br>\n</br>"), "ok"),
    (component("() => <br> </br>"), "TagRefused root br"),
    (component("() => <br>{ }</br>"), "ok"),
    (component('() => <p id="a" id="b"/>'), "TagRefused root id"),
    (component("() => <p onClick$={() => 1} onCLICK$={() => 2}/>"), "TagRefused root onCLICK$"),
    (component("() => <p onA$={1}/>"), "ok"),
    (component("() => <p onclick$={1}/>"), "TagRefused root onclick$"),
    (component("() => <p on$={1}/>"), "TagRefused root on$"),
    (component("() => <p onA2$={1}/>"), "TagRefused root onA2$"),
    (component("() => <p onA={1} a-b2={1} key={1}/>"), "ok"),
    (component("() => <p a:b={1}/>"), "TagRefused root a:b"),
    (component("() => <p foo$={1}/>"), "TagRefused root foo$"),
    (component("() => <App foo$={1} q:slot=\"x\"/>"), "ok"),
    (component("() => <App a:b={1}/>"), "TagRefused root a:b"),
    (component("() => <App children={1}/>"), "TagRefused root children"),
    (component("() => <p ref={1}/>"), "TagRefused root ref"),
    (component("() => <p dangerouslySetInnerHTML={1}/>"), "TagRefused root dangerouslySetInnerHTML"),
    (component('() => <p q:slot={"a"}/>'), "ok"),
    (component("() => <p q:slot={`a`}/>"), "TagRefused root q:slot"),
    (component("() => <p q:slot/>"), "TagRefused root q:slot"),
    (component('() => <Slot name="a"/>'), "ok"),
    (component("() => <Slot name={1}/>"), "TagRefused root name"),
    (component("() => <Slot key={1}/>"), "TagRefused root key"),
    (component("() => <Slot>x</Slot>"), "TagRefused root Slot"),
    (component("() => <Slot> { } </Slot>"), "TagRefused root Slot"),
    (component("() => <Slot>\n</Slot>"), "ok"),
]

GATHER_CASES = [
    ({}, "RootMissing root -"),
    ({"root": ""}, "ExportMissing root App"),
    ({"root": b"\xff const"}, "NotUtf8 root -"),
    ({"root": b"const"}, "Syntax root 1:6"),
    ({"root": 'import { X } from "./x.jsx";' + SMALL_APP, "x": b"export const X = '\xc3\x28';"}, "NotUtf8 x -"),
    ({"root": "import { x as y }"}, "Syntax root 1:12"),
    ("const App = component$(() => <p/>);", "ExportMissing root App"),
    ({"root": 'import { X } from "./x.jsx";' + SMALL_APP}, "ImportMissing root ./x.jsx"),
    ({"root": 'import { X } from "x";' + SMALL_APP}, "ImportMissing root x"),
    ({"root": 'import { X } from "./x.js";' + SMALL_APP}, "ImportMissing root ./x.js"),
    ({"root": 'import { X } from "./xY.jsx";' + SMALL_APP, "xY": ""}, "ImportMissing root ./xY.jsx"),
    ({"root": 'import { a } from "./a.jsx"; import { b } from "b";' + SMALL_APP, "a": "const"}, "Syntax a 2:6"),
    ({"root": 'import { useX } from "@builder.io/qwik";' + SMALL_APP}, "ExportMissing root useX"),
    ({"root": 'import { qrl } from "@builder.io/qwik";' + SMALL_APP}, "ExportMissing root qrl"),
    ({"root": 'import { X } from "./x.jsx"; const', "x": ""}, "Syntax root 1:35"),
    ({"root": 'import { X } from "./x.jsx"; ' + COUNTER, "x": "const X = 1;"}, "ExportMissing root X"),
    ({"root": 'import { App } from "./root.jsx"; import { component$ } from "@builder.io/qwik";' + SMALL_APP},
     "DuplicateName root App"),
    ({"root": 'import { A } from "./a.jsx"; import { component$ } from "@builder.io/qwik";' + SMALL_APP,
      "a": 'import { B } from "./b.jsx"; export const A = 1;', "b": "export const B = 1 + 1;"}, "RootValue b B"),
    ({"root": 'import { A } from "./a.jsx"; import { component$ } from "@builder.io/qwik"; '
      + within("useTask$;"), "a": "export const A = () => y;"}, "UnknownName root useTask$"),
]


# The arrows of `root` in text order: a dollar site or a plain one, and what it captures.
SITES = [
    (COUNTER, "dollar, dollar n"),
    (within("const f = useSignal(null); const x = useSignal(10); "
            "$(() => { const k = x.value; f.value = $((d) => x.value + k + d); }); $(() => f.value(1));"),
     "dollar, dollar x f, dollar x k, dollar f"),
    (within("const a = 1; const f = (b) => { const a = b; return () => a + b; };"), "dollar, plain, plain a b"),
    (within("const a = 1; const f = () => { const b = 2; return () => b + a; };"), "dollar, plain a, plain b a"),
    (within("const a = 1; const b = 2; const f = () => ({ b, a, c: b });"), "dollar, plain b a"),
    (within("const a = 1; const f = () => { { const a = 2; a; } return a; };"), "dollar, plain a"),
    (within("const a = 1; const f = () => { { const a = 2; a; } };"), "dollar, plain"),
    (within("for (const x of [1]) { $(() => x); }"), "dollar, dollar x"),
    (within("const s = useSignal(0); useTask$(({ track }) => { track(() => s.value); });"),
     "dollar, dollar s, plain s"),
    (within("const a = 1; const b = 2;", "<p onClick$={(e) => b(e, a)} id={(() => a)()}/>"),
     "dollar, dollar b a, plain a"),
    ("const g = (x) => h(x); const h = (x) => [1].map((y) => y + x);" + SMALL_APP, "plain, plain, plain x, dollar"),
    (within("const a = [1];", "<App f$={() => a} g={() => a} h$={true ? () => a : null}/>"),
     "dollar, dollar a, plain a, plain a"),
    (within("const a = { b: 1 }; const f = () => { a.b = 2; a.b++; delete a.b; };"), "dollar, plain a"),
    (within("let n = 0; const f = (n) => () => n;"), "dollar, plain, plain n"),
]


def many_modules(count, last):
    """An application of `root` and so many more modules, of which the last has these bytes (None: it is missing)."""
    numbers = range(count)
    imports = "".join(f'import {{ n{number} }} from "./n{number}.jsx";\n' for number in numbers)
    files = {f"n{number}": f"export const n{number} = 1;".encode() for number in numbers}
    files["root"] = imports + HEAD + SMALL_APP
    if last is None:
        del files[f"n{count - 1}"]
    else:
        files[f"n{count - 1}"] = last
    return files


LONG = b"/*" + b" " * (1 << 20) + b"*/"
# Large texts, which are not changed by chance.
LARGE_CASES = [
    (within("$(() => 1);" * 4095), "ok"),
    (within("$(() => 1);" * 4096), "TooManySites root -"),
    ({"root": LONG}, "TooLong root 1:1"),
    ({"root": LONG + b"\xff"}, "TooLong root 1:1"),
    ({"root": LONG[5:-2] + b"\n"}, "ExportMissing root App"),
    ({"root": b"/*\n" + LONG[6:-2] + b"\xc3"}, "NotUtf8 root -"),
    (many_modules(255, b"export const n254 = 1;"), "ok"),
    (many_modules(256, b"export const n255 = 1;"), "TooMany root -"),
    (many_modules(256, None), "ImportMissing root ./n255.jsx"),
    (many_modules(256, b"\xff"), "NotUtf8 n255 -"),
    (many_modules(256, b"const"), "Syntax n255 1:6"),
    (many_modules(257, None), "TooMany root -"),
]
CASES = GATHER_CASES + NAME_CASES + PLACE_CASES
