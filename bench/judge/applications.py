"""Seeded applications: whole ones, made ones, and changed ones.

`applications(seed)` gives one after the other without an end. A changed one is an application
in which a few tokens, statements or characters were moved, exchanged, dropped or put in.
"""

import random

from examples import ACCEPTED, CASES, HEAD, application
from names import BUILT_NAMES, HOST_NAMES, QWIK_NAMES
from tokens import RESERVED, Lexical, tokens

LOCALS = ["a", "b", "k", "n", "s", "x", "f", "st", "e", "props", "track", "of", "from"]
ODD_NAMES = sorted(QWIK_NAMES | BUILT_NAMES | HOST_NAMES) + ["root_s1", "a_s0", "App", "Card", "Theme", "Item"]
TAGS = ["p", "b", "i", "div", "br", "input", "title", "body", "track", "Slot", "App", "Card", "Item", "Theme"]
ATTRIBUTES = [
    "id", "key", "q:slot", "name", "onClick$", "onCLICK$", "onInput$", "onclick$", "on$", "foo$", "a:b",
    "a-b", "children", "ref", "dangerouslySetInnerHTML", "class", "onA2$", "onClick",
]
PUNCTS = (
    "=== !== => <= >= && || ?? += -= *= ++ -- { } ( ) [ ] , ; = ? : < > + - * % ! . / </ /> </> <>".split()
)
PIECES = [
    "(", ")", "{", "}", "[", "]", "=>", "() => ", "x => ", "1", "0", "08", "9007199254740991", "9007199254740992",
    '"t"', "'t'", '"\\u{1F600}"', '"\\ud800"', '"\\q"', "`t`", "`a${", "${", "}b`", "<p/>", "<p>", "</p>", "<>",
    "</>", "<App/>", "return ", "return;", "break;", "continue;", "if (a) ", "else ", "while (a) ", "delete a.b;",
    "for (const a of b) ", "const a = 1;", "let a = 1;", "export ", "import ", "undefined", "null", "true", "-", "!",
    "- -", "!!", "?? a", "&& a", "|| a", "? a : b", "a ? b : ", "= a", "+= 1", "++", "--", ".a", ".if", "[a]", "(a)",
    "(a, b)", "(a,)", "({a})", "({a, a})", "{a: 1, a: 2}", "{a, b: 1}", "console.log(a)", "Math.trunc(a / b)",
    "Object.keys(a)", "String(a)", "/ 2", "/* c */", "// c\n", "/*", "\n", "\t", "\r\n", "&amp;", "a=1", 'a="1"',
    "a={1}", "\u00e9", "\u2028", "\u0663", "\u0300", "$a", "_", "#", "@", "\\", "\f", "\ufeff", "\U0001f600",
    "useSignal(0);", "useTask$(() => 1);", "$(() => 1);", "noSerialize(a);", "track(() => a);", "const [a] = b;",
    "const { a, b } = c;", "{ a; }", "async ", "a: ", "...", "==", "!=", "?.", "**", "const", "let", ";",
]

# What can be put around an expression, with the levels of nesting that it takes.
WRAPPERS = [
    ("(", ")", 1), ("[", "]", 1), ("- ", "", 1), ("!", "", 1), ("() => ", "", 1), ("a => ", "", 1),
    ("a ? b : ", "", 1), ("a ? ", " : b", 1), ("<p>{", "}</p>", 2), ("<a>x <b/>{", "}</a>", 2), ("<>{", "}</>", 2),
    ("<b a={", "}/>", 2), ("{ a: ", " }", 1), ("{ b, 'c': 1, a: ", " }", 1), ("`${", "}`", 1), ("`a${b}${", "}c`", 1),
    ("f(", ")", 1), ("f(1, ", ")", 1), ("a[", "]", 1), ("String(", ")", 1), ("Math.trunc(a / ", ")", 1),
    ("console.log(", ")", 1), ("(a)(b)[", "]", 1), ("() => { return ", "; }", 2), ("() => { { return ", "; } }", 3),
    ("() => { if (a) return ", "; }", 3), ("() => { if (", ") b; }", 3), ("() => { if (a) b; else return ", "; }", 4),
    ("() => { if (a) b; else { return ", "; } }", 4), ("() => { while (a) return ", "; }", 3),
    ("() => { while (", ") { break; } }", 3), ("() => { for (const a of ", ") b; }", 3),
    ("() => { for (const a of b) { return ", "; } }", 3), ("() => { const a = ", "; }", 2), ("({ a }) => ", "", 1),
    ("() => { a[", "] = b; }", 3), ("() => { a = ", "; }", 2), ("() => { delete a[", "]; }", 3),
]


class Changer:
    """Changes one text, token by token. All choices come from one source of chance."""

    def __init__(self, chance, text):
        self.chance = chance
        self.text = text
        self.changes = [
            self.rename, self.rename, self.rename, self.drop, self.double, self.exchange, self.put_in, self.put_in,
            self.other_punct, self.move_statement, self.double_statement, self.drop_statement, self.const_or_let,
            self.other_tag, self.drop_span, self.character, self.nest, self.other_word,
        ]

    def change(self):
        """The text after one change."""
        self.chance.choice(self.changes)()
        return self.text

    def cut(self):
        """The tokens, or words between blanks where the text has none."""
        try:
            return [token for token in tokens(self.text) if token.kind != "jsxtext"]
        except Lexical as fault:
            return [token for token in safe_tokens(self.text[: fault.at])]

    def pick(self, *kinds):
        """One of the tokens of these kinds, or None."""
        found = [token for token in self.cut() if not kinds or token.kind in kinds]
        return self.chance.choice(found) if found else None

    def replace(self, token, spelling):
        """Another spelling in a token's place."""
        if token:
            self.text = self.text[: token.start] + spelling + self.text[token.end :]

    def spelling(self, token):
        """A token as it is written."""
        return self.text[token.start : token.end]

    def rename(self):
        """Another name: of the text, a plain one or an odd one."""
        token = self.pick("name")
        others = [self.spelling(other) for other in self.cut() if other.kind == "name"]
        pool = self.chance.choice([others, LOCALS, ODD_NAMES])
        self.replace(token, self.chance.choice(pool or LOCALS))

    def drop(self):
        """A token less."""
        self.replace(self.pick(), "")

    def double(self):
        """A token twice."""
        token = self.pick()
        if token:
            self.replace(token, self.spelling(token) + self.chance.choice([" ", ""]) + self.spelling(token))

    def exchange(self):
        """Two tokens exchanged."""
        found = self.cut()
        if len(found) > 1:
            first, second = sorted(self.chance.sample(found, 2), key=lambda token: token.start)
            middle = self.text[first.end : second.start]
            changed = self.spelling(second) + middle + self.spelling(first)
            self.text = self.text[: first.start] + changed + self.text[second.end :]

    def put_in(self):
        """A piece put in before a token or instead of one."""
        token = self.pick()
        piece = self.chance.choice(PIECES)
        if token and self.chance.random() < 0.7:
            piece += " " + self.spelling(token)
        if token:
            self.replace(token, piece)
        else:
            self.text += piece

    def other_punct(self):
        """Another punct."""
        self.replace(self.pick("punct", "jsx"), self.chance.choice(PUNCTS))

    def other_word(self):
        """A reserved word in place of a token."""
        self.replace(self.pick("word", "name"), self.chance.choice(sorted(RESERVED)))

    def const_or_let(self):
        """`let` for `const` or the other way round."""
        found = [token for token in self.cut() if token.value in ("const", "let")]
        if found:
            token = self.chance.choice(found)
            self.replace(token, "let" if token.value == "const" else "const")

    def other_tag(self):
        """Another tag or attribute."""
        token = self.pick("tagname")
        self.replace(token, self.chance.choice(TAGS if self.chance.random() < 0.5 else ATTRIBUTES))

    def statement(self):
        """The span of something that ends with a semicolon."""
        ends = [token.end for token in self.cut() if token.value in (";", "{", "}")]
        if len(ends) < 2:
            return None
        at = self.chance.randrange(len(ends) - 1)
        return ends[at], ends[at + self.chance.randint(1, min(3, len(ends) - 1 - at))]

    def put_somewhere(self, piece):
        """A piece after some semicolon or brace."""
        ends = [token.end for token in self.cut() if token.value in (";", "{", "}")] or [0]
        at = self.chance.choice(ends)
        self.text = self.text[:at] + piece + self.text[at:]

    def move_statement(self):
        """A statement moved."""
        span = self.statement()
        if span:
            piece = self.text[span[0] : span[1]]
            self.text = self.text[: span[0]] + self.text[span[1] :]
            self.put_somewhere(piece)

    def double_statement(self):
        """A statement once more elsewhere."""
        span = self.statement()
        if span:
            self.put_somewhere(self.text[span[0] : span[1]])

    def drop_statement(self):
        """A statement less."""
        span = self.statement()
        if span:
            self.text = self.text[: span[0]] + self.text[span[1] :]

    def drop_span(self):
        """A few tokens less."""
        found = self.cut()
        if found:
            at = self.chance.randrange(len(found))
            last = found[min(at + self.chance.randint(0, 4), len(found) - 1)]
            self.text = self.text[: found[at].start] + self.text[last.end :]

    def character(self):
        """One character more, less or another."""
        at = self.chance.randint(0, len(self.text))
        put = self.chance.choice(["", "", self.chance.choice(PIECES), chr(self.chance.randint(1, 300))])
        self.text = self.text[:at] + put + self.text[at + self.chance.randint(0, 1) :]

    def nest(self):
        """Something nested about as deep as may be, by one wrapper or by many kinds of them."""
        token = self.pick("name", "int", "text")
        some = self.chance.sample(WRAPPERS, self.chance.choice([1, 1, 2, 5, len(WRAPPERS)]))
        levels = self.chance.choice([1, 3, 8, 15, 26, 27, 28, 29, 30, 31, 32, 33, 40])
        if token:
            self.replace(token, nested(self.chance, some, levels, self.spelling(token)))


def nested(chance, wrappers, levels, inner):
    """The inner text with wrappers around it that take so many levels, or one more."""
    before, after = [], []
    while levels > 0:
        opener, closer, cost = chance.choice(wrappers)
        before.append(opener)
        after.append(closer)
        levels -= cost
    return "".join(before) + inner + "".join(reversed(after))


def nested_alone(chance):
    """A module of one item that is nested about to the limit."""
    some = chance.sample(WRAPPERS, chance.choice([1, 2, 5, len(WRAPPERS)]))
    text = "const a = " + nested(chance, some, chance.randint(30, 34), chance.choice(["1", "a", "<p/>"])) + ";"
    files = {"root.jsx": (chance.choice(["", "export "]) + text).encode()}
    return changed(chance, files) if chance.random() < 0.3 else files


def safe_tokens(text):
    """The tokens of a text's beginning, as many as there are."""
    try:
        return tokens(text)
    except Lexical as fault:
        return safe_tokens(text[: fault.at]) if fault.at < len(text) else []


class Maker:
    """Makes modules by chance, mostly within the rules. `scopes` has the names in scope."""

    def __init__(self, chance):
        self.chance = chance
        self.scopes = [[]]
        self.components = []
        self.ids = []
        self.depth = 0

    def one_of(self, *makers):
        """What one of these makes."""
        return self.chance.choice(makers)()

    def fresh(self):
        """Declares a name in the innermost scope."""
        name = self.chance.choice("abcdefghk") + self.chance.choice(["", "", "1", "2"])
        if name in self.scopes[-1] and self.chance.random() < 0.97:
            return self.fresh()
        self.scopes[-1].append(name)
        return name

    def name(self):
        """A use of a name, mostly of one in scope."""
        names = [name for scope in self.scopes for name in scope]
        if not names or self.chance.random() < 0.01:
            return self.chance.choice(["zz", "1"])
        return self.chance.choice(names)

    def scoped(self, make):
        """What is made in a scope of its own."""
        self.scopes.append([])
        made = make()
        self.scopes.pop()
        return made

    # Expressions.

    def expression(self):
        """An expression."""
        self.depth += 1
        if self.depth > 6:
            made = self.one_of(self.name, self.literal)
        else:
            made = self.one_of(
                self.name, self.name, self.name, self.literal, self.binary, self.binary, self.ternary, self.arrow,
                self.items, self.record, self.template, self.unary, self.postfix, self.postfix, self.known,
                self.jsx, self.parenthesised, self.dollar,
            )
        self.depth -= 1
        return made

    def operand(self):
        """An expression that may stand beside an operator."""
        return self.one_of(self.name, self.literal, self.parenthesised, self.postfix, self.unary)

    def literal(self):
        """A literal."""
        return self.chance.choice(["0", "7", '"t"', "'u'", "true", "false", "null", "undefined"])

    def parenthesised(self):
        """An expression in parentheses."""
        return f"({self.expression()})"

    def binary(self):
        """Two operands."""
        operator = self.chance.choice("=== !== < <= > >= + - * % && || ??".split())
        return f"{self.operand()} {operator} {self.operand()}"

    def ternary(self):
        """A choice."""
        return f"{self.operand()} ? {self.expression()} : {self.expression()}"

    def unary(self):
        """A unary operator."""
        return self.chance.choice(["!", "- "]) + self.chance.choice([self.name, self.literal, self.parenthesised])()

    def items(self):
        """A list."""
        return "[" + ", ".join(self.expression() for _ in range(self.chance.randint(0, 3))) + "]"

    def record(self):
        """A record."""
        keys = self.chance.sample(["a", "b", "if", '"k"', "c"], self.chance.randint(0, 3))
        return "({ " + ", ".join(f"{key}: {self.expression()}" for key in keys) + " })"

    def template(self):
        """A template."""
        return "`t${" + self.expression() + "}`"

    def postfix(self):
        """A name or parentheses with links."""
        link = self.chance.choice([".value", ".length", ".map", "[%s]", "(%s)", "(%s, %s)", "()"])
        while "%s" in link:
            link = link.replace("%s", self.expression(), 1)
        return self.chance.choice([self.name, self.name, self.parenthesised])() + link

    def known(self):
        """A known call."""
        form = self.chance.choice(["console.log(%s)", "Object.keys(%s)", "String(%s)", "Math.trunc(%s / %s)"])
        while "%s" in form:
            form = form.replace("%s", self.operand(), 1)
        return form

    def dollar(self):
        """A dollar function, or a marked one."""
        return self.chance.choice(["$", "$", "noSerialize"]) + f"({self.arrow()})"

    def arrow(self):
        """An arrow."""
        return self.scoped(lambda: self.arrow_of(self.parameters()))

    def parameters(self):
        """The parameters of an arrow."""
        form = self.chance.choice(["()", "%s", "(%s)", "(%s, %s)", "({ %s })", "({ %s, %s }, %s)"])
        while "%s" in form:
            form = form.replace("%s", self.fresh(), 1)
        return form

    def arrow_of(self, parameters):
        """An arrow with these parameters, whose scope is open."""
        if self.chance.random() < 0.5:
            return f"{parameters} => {self.expression()}"
        return f"{parameters} => {{ {self.statements()} return {self.expression()}; }}"

    # Statements.

    def statements(self, most=3):
        """Statements of the innermost scope."""
        return " ".join(self.statement() for _ in range(self.chance.randint(0, most)))

    def statement(self):
        """A statement."""
        self.depth += 1
        made = self.one_of(
            self.constant, self.constant, self.constant, self.variable, self.conditional, self.loop, self.walk,
            self.block, self.doing, self.assignment,
        )
        self.depth -= 1
        return made

    def constant(self):
        """A const."""
        init = self.expression()
        if self.chance.random() < 0.2:
            return f"const {{ {self.fresh()}, {self.fresh()} }} = {init};"
        return f"const {self.fresh()} = {init};"

    def variable(self):
        """A let, which is rarely used."""
        init = self.expression()
        name = self.fresh()
        if self.chance.random() < 0.8:
            self.scopes[-1].remove(name)
        return f"let {name} = {init};"

    def body(self):
        """A block with its scope."""
        return "{ " + self.scoped(lambda: self.statements(2)) + " }"

    def block(self):
        """A block."""
        return self.body() if self.depth < 8 else self.doing()

    def conditional(self):
        """An if."""
        rest = f" else {self.body()}" if self.chance.random() < 0.3 else ""
        return f"if ({self.operand()}) {self.body() if self.depth < 8 else self.doing()}{rest}"

    def loop(self):
        """A while."""
        return f"while ({self.operand()}) {self.body() if self.depth < 8 else 'break;'}"

    def walk(self):
        """A for."""
        items = self.expression()
        return self.scoped(lambda: f"for (const {self.fresh()} of {items}) {self.body()}")

    def doing(self):
        """An expression."""
        return self.one_of(self.operand, self.known) + ";"

    def assignment(self):
        """An assignment or a step."""
        target = self.name() + self.chance.choice([".a", ".value", "[0]", ".b.c"])
        if self.chance.random() < 0.3:
            return target + self.chance.choice(["++;", "--;"])
        return f"{target} {self.chance.choice(['=', '+=', '-=', '*='])} {self.expression()};"

    # JSX.

    def jsx(self):
        """An element or a component."""
        if self.components and self.chance.random() < 0.3:
            return self.tag(self.chance.choice(self.components), ["a={%s}", "f$={%a}", 'q:slot="l"', 'key="k"'])
        if self.chance.random() < 0.1:
            return f"<>{self.jsx_children()}</>"
        return self.tag(
            self.chance.choice(["p", "b", "div", "i"]), ["id={%s}", "onClick$={%a}", 'class="c"', "hidden"]
        )

    def tag(self, tag, attributes):
        """A tag with some of these attributes."""
        written = ""
        for form in self.chance.sample(attributes, self.chance.randint(0, 2)):
            form = form.replace("%s", self.expression()) if "%s" in form else form
            written += " " + (form.replace("%a", self.arrow()) if "%a" in form else form)
        if self.chance.random() < 0.4:
            return f"<{tag}{written}/>"
        return f"<{tag}{written}>{self.jsx_children()}</{tag}>"

    def jsx_children(self):
        """Some children."""
        made = ""
        for _ in range(self.chance.randint(0, 2)):
            made += self.one_of(lambda: "{" + self.expression() + "}", self.jsx_child, lambda: "text ")
        return made

    def jsx_child(self):
        """A tag among children, not too deep."""
        return self.jsx() if self.depth < 6 else "t"

    # Modules.

    def hooks(self):
        """Hooks at the beginning of a component, in its scope."""
        made = []
        for _ in range(self.chance.randint(0, 3)):
            made.append(self.one_of(self.held_hook, self.held_hook, self.task, self.provider, self.constant))
        return " ".join(made)

    def held_hook(self):
        """A hook whose value is kept."""
        form = self.chance.choice(["useSignal(%s)", "useStore(%s)", "useSignal()", "useComputed$(%a)", "useContext(%i)"])
        if "%i" in form and not self.ids:
            form = "useSignal(%s)"
        form = form.replace("%i", self.chance.choice(self.ids or ["x"]))
        form = form.replace("%s", self.expression()) if "%s" in form else form
        if "%a" in form:
            form = form.replace("%a", self.scoped(lambda: self.arrow_of("()")))
        return f"const {self.fresh()} = {form};"

    def task(self):
        """A task."""
        tracked = self.name()
        body = self.scoped(lambda: f"const {self.fresh()} = track(() => {tracked}.value); {self.statements(2)}")
        return f"useTask$(({{ track }}) => {{ {body} }});"

    def provider(self):
        """A provider of a context."""
        if not self.ids:
            return self.task()
        return f"useContextProvider({self.chance.choice(self.ids)}, {self.expression()});"

    def component(self, name):
        """A component."""
        parameters = self.chance.choice(["()", "(props)", "({ a, b })"])
        self.scopes.append({"()": [], "(props)": ["props"], "({ a, b })": ["a", "b"]}[parameters])
        made = f"{self.hooks()} {self.statements(2)} return {self.jsx()};"
        self.scopes.pop()
        return f"export const {name} = component$({parameters} => {{ {made} }});"

    def root_data(self):
        """A root item that is data, an arrow or a context."""
        name = self.fresh()
        if self.chance.random() < 0.3:
            self.scopes[-1].remove(name)
            self.ids.append(name)
            return f'export const {name} = createContextId("{name}");'
        return f"export const {name} = " + self.one_of(
            self.literal, self.arrow, lambda: '[1, -2, { a: "b" }]', lambda: "{ x: [], y: null }"
        ) + ";"

    def module(self, components):
        """The text of a module with these components, but for its imports."""
        data = [self.root_data() for _ in range(self.chance.randint(0, 3))]
        self.components += components
        return "\n".join(data + [self.component(name) for name in components])

    def import_from(self, other, source):
        """Imports some names that another maker's module exports."""
        names = other.scopes[0] + other.ids + other.components
        taken = self.chance.sample(names, self.chance.randint(0, min(4, len(names))))
        if self.chance.random() < 0.03:
            taken.append(self.chance.choice(ODD_NAMES))
        self.scopes[0] += [name for name in taken if name in other.scopes[0]]
        self.ids += [name for name in taken if name in other.ids]
        self.components += [name for name in taken if name in other.components]
        return f"import {{ {', '.join(taken)} }} from \"./{source}.jsx\";\n" if taken else ""


def made(chance):
    """A made application of one module or two."""
    root, other = Maker(chance), Maker(chance)
    files, imports = {}, ""
    if chance.random() < 0.5:
        files["other.jsx"] = (HEAD + other.module(["Item", "Row"])).encode()
        imports = root.import_from(other, "other")
    extra = ["Card"] if chance.random() < 0.5 else []
    files["root.jsx"] = (HEAD + imports + root.module(extra + ["App"])).encode()
    return files


def changed(chance, files):
    """An application after a few changes in its modules."""
    files = dict(files)
    for _ in range(chance.choice([1, 1, 1, 2, 3])):
        if files:
            name = chance.choice(sorted(files))
            text = files[name].decode("utf-8", "replace")
            files[name] = Changer(chance, text).change().encode("utf-8", "replace")
    return files


def one_application(chance):
    """One application."""
    kind = chance.random()
    if kind > 0.93:
        return nested_alone(chance)
    if kind < 0.1:
        return application(chance.choice(CASES)[0])
    files = chance.choice(ACCEPTED)
    if kind < 0.35:
        files = application(chance.choice(CASES)[0])
    elif kind < 0.6:
        files = made(chance)
        if chance.random() < 0.4:
            return files
    return changed(chance, files)


# Where a few pieces can stand.
FRAMES = [
    "const a = %s;", "const a = %s", "%s", "const a = () => { %s };", "const a = () => { while (b) { %s } };",
    "const a = <p %s/>;", "const a = <p>%s</p>;", "const a = <>%s</>;", "const a = `t${%s}`;", "const a = b(%s);",
    "const a = { %s };", "const a = (%s) => b;", "const a = () => { if (b) %s };", 'import { %s } from "x";',
    "const a = () => { const %s; };", "const a = <p b={%s}/>;", "const a = Math.trunc(%s);", "const a = b ? %s : c;",
    "const a = () => { return %s; };", "const a = () => { delete %s; };", "const a = [%s];", "const a = b.%s;",
    "const a = () => { b %s };", "const a = () => { for (%s) b; };", "const a = console.log(%s);", "const a = '%s';",
]


def small_text(chance):
    """A small text: some pieces in a frame, a nested item, or a made expression."""
    kind = chance.random()
    if kind < 0.2:
        return nested_alone(chance)
    if kind < 0.5:
        maker = Maker(chance)
        maker.scopes[0] += ["a", "b"]
        files = {"root.jsx": f"const a = {maker.expression()};".encode()}
        return changed(chance, files)
    pieces = [chance.choice(PIECES + PUNCTS + LOCALS) for _ in range(chance.choice([1, 1, 2, 2, 3, 4, 6]))]
    text = chance.choice(FRAMES).replace("%s", chance.choice(["", " "]).join(pieces))
    return {"root.jsx": text.encode("utf-8", "replace")}


def applications(seed, small=0.0):
    """Applications without an end, a part of them small texts that are hardly one."""
    chance = random.Random(seed)
    while True:
        yield small_text(chance) if chance.random() < small else one_application(chance)
