"""The grammar of a module in both forms: from bytes to a tree, or to the first fault.

The reader goes from left to right and never gives up a token that something could go on with.
So the token at which it stops is the first one with which no module goes on. It reads once
within the limit on nesting; where that stops, it reads again without the limit, which tells
a text that is nowhere a module from one that is only nested too deep.
"""

import sys
from typing import NamedTuple

from tokens import Lexical, jsx_text, tokens
from tree import (
    Arrow, Assign, Attribute, Block, Chain, Cond, Const, Delete, Do, ForOf, If, Import, Item, Items,
    Jsx, Jump, Known, Let, Link, Literal, Module, Name, Pattern, Post, Record, Return, Spelled, Step,
    Template, Unary, While,
)

SOURCE = "source"
BUILT = "built"
MODULE_BYTES = {SOURCE: 1 << 20, BUILT: 16 << 20}
NESTING = {SOURCE: 32, BUILT: 1024}
NO_LIMIT = 1 << 60

# How far an expression is from the atoms: what may be a target, what an operand of a level.
TARGET, POSTFIX, UNARY, PRODUCT, OTHER = range(5)
ASSIGNMENTS = frozenset(["=", "+=", "-=", "*="])
STEPS = frozenset(["++", "--"])
LITERAL_WORDS = {
    "true": ("bool", True),
    "false": ("bool", False),
    "null": ("null", None),
    "undefined": ("undefined", None),
}

sys.setrecursionlimit(200000)


class Fault(NamedTuple):
    """Lexical, Syntax, TooDeep or TooLong, with its place in bytes."""

    kind: str
    at: int


class Stop(Exception):
    """Nothing goes on with the token of this number."""

    def __init__(self, number):
        super().__init__(number)
        self.number = number


class Reader:
    """Reads one token list. `depth` is the nesting of the place where it stands."""

    def __init__(self, token_list, form, limit):
        self.tokens = token_list
        self.form = form
        self.limit = limit
        self.number = 0
        self.farthest = -1
        self.depth = 0
        self.loops = 0
        self.arrows = 0

    # Single tokens.

    def peek(self, *spellings):
        """Whether the next token is one of these puncts or reserved words."""
        if self.number >= len(self.tokens):
            return False
        token = self.tokens[self.number]
        return token.kind in ("punct", "word", "jsx") and token.value in spellings

    def kind(self):
        """The next token's kind, or None at the end."""
        return self.tokens[self.number].kind if self.number < len(self.tokens) else None

    def stop(self):
        """Nothing goes on with the next token."""
        raise Stop(self.number)

    def take(self, *spellings):
        """Takes one of these puncts or words where it stands next; whether it did."""
        if self.peek(*spellings):
            self.number += 1
            return True
        return False

    def want(self, *spellings):
        """Takes one of these puncts or words, and gives it."""
        if not self.peek(*spellings):
            self.stop()
        return self.next()

    def want_kind(self, *kinds):
        """Takes a token of one of these kinds, and gives it."""
        if self.kind() not in kinds:
            self.stop()
        return self.next()

    def next(self):
        """Takes the next token."""
        self.number += 1
        return self.tokens[self.number - 1]

    def name(self):
        """Takes a name."""
        token = self.want_kind("name")
        return Spelled(token.value, token.start)

    def is_word(self, spelling):
        """Whether the next token is the name of this spelling, a word of its place."""
        return self.kind() == "name" and self.tokens[self.number].value == spelling

    def want_word(self, spelling):
        """Takes a word of its place."""
        if not self.is_word(spelling):
            self.stop()
        self.next()

    # Nesting.

    def room(self, levels=1):
        """The next token needs so many levels of nesting inside."""
        if self.depth + levels > self.limit:
            self.stop()

    def opening(self, *spellings):
        """Takes an opening token and goes one level in."""
        if self.peek(*spellings):
            self.room()
        token = self.want(*spellings)
        self.depth += 1
        return token

    def closing(self, *spellings):
        """Takes a closing token and comes one level out."""
        self.want(*spellings)
        self.depth -= 1

    def inside(self, levels, reading):
        """Reads something so many levels deeper."""
        self.depth += levels
        answer = reading()
        self.depth -= levels
        return answer

    # Lists between brackets.

    def separated(self, closer, reading):
        """Things between commas up to the closer, which stays; and whether a comma is last."""
        things = []
        while not self.peek(closer):
            things.append(reading())
            if not self.take(","):
                return things, False
        return things, bool(things)

    def names_in_braces(self):
        """`{ a, b }` of names, at least one."""
        self.opening("{")
        names = [self.name()]
        while self.take(","):
            if self.peek("}"):
                break
            names.append(self.name())
        self.closing("}")
        return names

    # The module.

    def module(self):
        """The whole module."""
        imports, items = [], []
        while self.peek("import"):
            imports.append(self.one_import())
        while self.number < len(self.tokens):
            items.append(self.item())
        return Module(imports, items)

    def one_import(self):
        """`import { a, b } from "x";`"""
        self.want("import")
        names = self.names_in_braces()
        self.want_word("from")
        source = self.want_kind("text").value
        self.want(";")
        return Import(names, source)

    def item(self):
        """`export const a = E;`"""
        exported = self.take("export")
        self.want("const")
        name = self.name()
        self.want("=")
        init = self.expression()
        self.want(";")
        return Item(exported, name, init)

    # Statements.

    def block(self):
        """`{ S }`, each statement with its rules."""
        self.opening("{")
        body = []
        while not self.peek("}"):
            body.append(self.statement(first=not body))
        self.closing("}")
        return body

    def statement(self, first=False):
        """One statement of a block."""
        if self.peek("{"):
            return Block(self.block())
        if self.peek("const"):
            return self.constant(first)
        if self.peek("let"):
            return self.variable()
        return self.plain_statement()

    def constant(self, first):
        """`const P = E;`, in Form Built also the statement of `useLexicalScope`."""
        self.want("const")
        if first and self.form == BUILT and self.peek("["):
            return self.lexical_scope()
        pattern = self.pattern()
        self.want("=")
        init = self.expression()
        self.want(";")
        return Const(pattern, init)

    def lexical_scope(self):
        """`[a, b] = useLexicalScope();`"""
        self.opening("[")
        names = [self.name()]
        while self.take(","):
            names.append(self.name())
        self.closing("]")
        self.want("=")
        if not self.is_word("useLexicalScope"):
            self.stop()
        head = self.next()
        self.opening("(")
        self.closing(")")
        self.want(";")
        init = Post(Name(head.value, head.start), [Link("call", [])])
        return Const(Pattern("scope", names), init)

    def variable(self):
        """`let a = E;`"""
        self.want("let")
        name = self.name()
        self.want("=")
        init = self.expression()
        self.want(";")
        return Let(name, init)

    def plain_statement(self):
        """A statement that is no const, let or block."""
        forms = {
            "return": self.returning,
            "if": self.conditional,
            "while": self.while_loop,
            "for": self.for_loop,
            "break": self.jump,
            "continue": self.jump,
            "delete": self.deletion,
        }
        if self.kind() == "word":
            form = forms.get(self.tokens[self.number].value)
            if form:
                return form()
        value = self.step()
        self.want(";")
        return Do(value)

    def returning(self):
        """`return;` or `return S;`"""
        self.want("return")
        value = None if self.peek(";") else self.step()
        self.want(";")
        return Return(value)

    def condition(self):
        """`(E)`"""
        self.opening("(")
        value = self.expression()
        self.closing(")")
        return value

    def part(self):
        """A block, or one statement, which counts as a block."""
        if self.peek("{"):
            return self.block()
        return [self.inside(1, self.plain_statement)]

    def conditional(self):
        """`if (E) P` and perhaps `else P`."""
        self.room()
        self.want("if")
        condition = self.condition()
        then = self.part()
        otherwise = []
        if self.peek("else"):
            self.room(2)
            self.want("else")
            otherwise = self.inside(1, self.part)
        return If(condition, then, otherwise)

    def loop_part(self):
        """The part of a loop, in which `break` and `continue` may stand."""
        self.loops += 1
        body = self.part()
        self.loops -= 1
        return body

    def while_loop(self):
        """`while (E) P`"""
        self.room()
        self.want("while")
        condition = self.condition()
        return While(condition, self.loop_part())

    def for_loop(self):
        """`for (const a of E) P`"""
        self.room()
        self.want("for")
        self.opening("(")
        self.want("const")
        name = self.name()
        self.want_word("of")
        items = self.expression()
        self.closing(")")
        return ForOf(name, items, self.loop_part())

    def jump(self):
        """`break;` or `continue;`"""
        if not self.loops:
            self.stop()
        word = self.want("break", "continue").value
        self.want(";")
        return Jump(word)

    def deletion(self):
        """`delete a.b;`"""
        self.want("delete")
        target, level = self.postfix()
        if level != TARGET or isinstance(target, Name):
            self.stop()
        self.want(";")
        return Delete(target)

    # Expressions. Those that come with a level are operands.

    def step(self):
        """An assignment, a step or an expression."""
        value, level = self.levelled()
        if self.peek(*ASSIGNMENTS, *STEPS):
            if level != TARGET:
                self.stop()
            operator = self.next().value
            if operator in STEPS:
                return Step(operator, value)
            return Assign(operator, value, self.expression())
        return value

    def expression(self):
        """An expression."""
        return self.levelled()[0]

    def levelled(self):
        """An expression with its level."""
        arrow = self.arrow()
        if arrow:
            return arrow, OTHER
        value, level = self.logic()
        if not self.peek("?"):
            return value, level
        self.room()
        self.want("?")
        yes = self.inside(1, self.expression)
        self.want(":")
        no = self.inside(1, self.expression)
        return Cond(value, yes, no), OTHER

    def arrow(self):
        """An arrow, where one stands here."""
        begin, depth = self.number, self.depth
        if self.kind() == "name":
            if not self.arrow_after(begin + 1):
                return None
            params = [Pattern("name", [self.name()])]
        elif self.peek("("):
            try:
                params = self.parameters()
            except Stop as stop:
                self.farthest = max(self.farthest, stop.number)
                self.number, self.depth = begin, depth
                return None
        else:
            return None
        return self.arrow_rest(self.tokens[begin].start, params)

    def arrow_after(self, number):
        """Whether the token of this number is `=>`."""
        return number < len(self.tokens) and self.tokens[number][:2] == ("punct", "=>")

    def parameters(self):
        """`(P, P)` with `=>` after it, which stays."""
        self.opening("(")
        params, _ = self.separated(")", self.pattern)
        self.closing(")")
        if not self.peek("=>"):
            self.stop()
        return params

    def pattern(self):
        """A name, or names in braces."""
        if self.peek("{"):
            return Pattern("fields", self.names_in_braces())
        return Pattern("name", [self.name()])

    def arrow_rest(self, at, params):
        """`=>` and the body."""
        self.opening("=>")
        arrow = Arrow(self.arrows, at, params, None)
        self.arrows += 1
        loops, self.loops = self.loops, 0
        if self.peek("{"):
            arrow.block = self.block()
        else:
            arrow.body = self.step()
        self.loops = loops
        self.depth -= 1
        return arrow

    def logic(self):
        """Operands between `??`, or between `||` and `&&`."""
        value, level = self.equality()
        if self.peek("??"):
            return self.chain_after(value, ["??"], self.equality)
        value, level = self.chain_from(value, level, ["&&"], self.equality)
        return self.chain_from(value, level, ["||"], self.conjunction)

    def conjunction(self):
        """Operands between `&&`."""
        return self.chain(["&&"], self.equality)

    def equality(self):
        """Operands between `===` and `!==`."""
        return self.chain(["===", "!=="], self.relation)

    def relation(self):
        """Operands between the four comparisons."""
        return self.chain(["<", "<=", ">", ">="], self.sum)

    def sum(self):
        """Operands between `+` and `-`."""
        return self.chain(["+", "-"], self.product)

    def product(self):
        """Operands between `*` and `%`."""
        value, level = self.chain(["*", "%"], self.unary)
        return value, PRODUCT if isinstance(value, Chain) and level == OTHER else level

    def chain(self, operators, operand):
        """Operands between operators of one level."""
        value, level = operand()
        return self.chain_from(value, level, operators, operand)

    def chain_from(self, value, level, operators, operand):
        """The same, where the first operand was read."""
        if not self.peek_operator(operators):
            return value, level
        return self.chain_after(value, operators, operand)

    def chain_after(self, value, operators, operand):
        """The same, where an operator stands next."""
        rest = []
        while self.peek_operator(operators):
            operator = self.next().value
            rest.append((operator, operand()[0]))
        return Chain(value, rest), OTHER

    def peek_operator(self, operators):
        """Whether one of these puncts stands next; a `<` that begins JSX is none."""
        return self.kind() == "punct" and self.tokens[self.number].value in operators

    def unary(self):
        """`!` or `-` before an operand."""
        if not self.peek("!", "-"):
            return self.postfix()
        self.room()
        operator = self.next().value
        operand = self.inside(1, lambda: self.unary()[0])
        return Unary(operator, operand), UNARY

    def postfix(self):
        """An atom with its links."""
        bare = self.kind() == "name"
        head = self.atom()
        links = []
        while self.peek(".", "[", "("):
            call = self.known(head, links) if bare else None
            if isinstance(call, Known):
                head, links, bare = call, [], False
            else:
                links.append(call or self.link())
        if not links:
            return head, TARGET if bare else POSTFIX
        return Post(head, links), TARGET if links[-1].kind != "call" else POSTFIX

    def link(self):
        """`.a`, `[E]` or `(E, E)`."""
        if self.take("."):
            return Link("prop", self.want_kind("name", "word").value)
        if self.peek("["):
            self.opening("[")
            index = self.expression()
            self.closing("]")
            return Link("index", index)
        return self.call_link()

    def call_link(self):
        """`(E, E)`"""
        self.opening("(")
        arguments, comma = self.separated(")", self.expression)
        self.closing(")")
        return Link("call", arguments, comma)

    def known(self, head, links):
        """A known call, or the call of a name that could have begun one; else nothing."""
        words = [head.name] + [link.value for link in links if link.kind == "prop"]
        if not self.peek("(") or len(words) != len(links) + 1:
            return None
        kinds = {"console.log": "log", "Object.keys": "keys", "String": "str", "Math.trunc": "trunc"}
        kind = kinds.get(".".join(words))
        if kind is None:
            return None
        return self.known_call(kind)

    def known_call(self, kind):
        """The known call where the arguments have its form, else their link."""
        self.opening("(")
        first, level = self.levelled() if not self.peek(")") else (None, OTHER)
        if kind == "trunc" and first and level <= PRODUCT and self.take("/"):
            divisor, _ = self.unary()
            self.closing(")")
            return Known("trunc", [first, divisor])
        if kind != "trunc" and first and self.peek(")"):
            self.closing(")")
            return Known(kind, [first])
        arguments, comma = ([first], False) if first else ([], False)
        if first and self.take(","):
            more, _ = self.separated(")", self.expression)
            arguments += more
            comma = True
        self.closing(")")
        return Link("call", arguments, comma)

    # Atoms.

    def atom(self):
        """An atom."""
        kind = self.kind()
        if kind == "name":
            token = self.next()
            return Name(token.value, token.start)
        if kind in ("int", "text"):
            return Literal(kind, self.next().value)
        if kind == "template":
            return self.template()
        if kind == "jsx":
            return self.jsx()
        if self.peek(*LITERAL_WORDS):
            return Literal(*LITERAL_WORDS[self.next().value])
        return self.bracketed()

    def bracketed(self):
        """A list, a record, or an expression in parentheses."""
        if self.peek("["):
            self.opening("[")
            items, _ = self.separated("]", self.expression)
            self.closing("]")
            return Items(items)
        if self.peek("{"):
            return self.record()
        return self.condition()

    def template(self):
        """A template with its holes."""
        if not self.tokens[self.number].value[1]:
            self.stop()
        parts, holes = [], []
        while True:
            if self.kind() != "template" or self.tokens[self.number].value[1] == bool(parts):
                self.stop()
            text, _, opens = self.tokens[self.number].value
            if opens:
                self.room()
            self.next()
            parts.append(text)
            if not opens:
                return Template(parts, holes)
            holes.append(self.inside(1, self.expression))

    def record(self):
        """`{ a: E, "b": E, c }`"""
        self.opening("{")
        keys = set()
        fields, _ = self.separated("}", lambda: self.one_field(keys))
        self.closing("}")
        return Record(fields)

    def one_field(self, keys):
        """One field of a record, whose key is a new one."""
        if self.kind() not in ("name", "word", "text") or self.tokens[self.number].value in keys:
            self.stop()
        token = self.next()
        keys.add(token.value)
        if token.kind == "name" and not self.peek(":"):
            if not self.peek(",", "}"):
                self.stop()
            return token.value, Name(token.value, token.start)
        self.want(":")
        return token.value, self.expression()

    # JSX.

    def jsx(self):
        """An element, a component or a fragment."""
        opener = self.opening("<", "<>")
        if opener.value == "<>":
            node = Jsx("fragment", Spelled("", opener.start))
            node.children = self.children()
            self.want("</>")
        else:
            node = self.element()
        self.depth -= 1
        return node

    def element(self):
        """An element or a component after its `<`."""
        if self.kind() != "tagname" or set(":$") & set(self.tokens[self.number].value):
            self.stop()
        token = self.next()
        kind = "element" if token.value[0].islower() else "component"
        node = Jsx(kind, Spelled(token.value, token.start))
        while self.kind() == "tagname":
            node.attributes.append(self.attribute())
        if self.want("/>", ">").value == ">":
            node.children = self.children()
            self.want("</")
            if self.kind() != "tagname" or self.tokens[self.number].value != token.value:
                self.stop()
            self.next()
            self.want(">")
        return node

    def attribute(self):
        """One attribute."""
        token = self.next()
        value = Literal("bool", True)
        if self.take("="):
            if self.kind() == "attrtext":
                value = Literal("text", self.next().value)
            else:
                self.opening("{")
                value = self.expression()
                self.closing("}")
        return Attribute(token.value, token.start, value)

    def children(self):
        """All children up to the closing tag."""
        children = []
        while self.kind() in ("jsxtext", "jsx") or self.peek("{"):
            if self.kind() == "jsxtext":
                text = jsx_text(self.next().value)
                children += [Literal("text", text)] if text else []
            elif self.kind() == "jsx":
                children.append(self.jsx())
            else:
                self.opening("{")
                children += [] if self.peek("}") else [self.expression()]
                self.closing("}")
        return children


def read(token_list, form, limit):
    """The module of these tokens, or the number of the first token that nothing goes on with."""
    reader = Reader(token_list, form, limit)
    try:
        return reader.module()
    except Stop as stop:
        return max(stop.number, reader.farthest)


def byte_place(text, at):
    """The place in bytes of a place in characters."""
    return len(text[:at].encode())


def token_place(text, token_list, number):
    """The place in bytes of a token; the end of the text where there is none."""
    at = token_list[number].start if number < len(token_list) else len(text)
    return byte_place(text, at)


def parse_text(text, form=SOURCE):
    """The module that the text derives, or its fault."""
    if len(text.encode()) > MODULE_BYTES[form]:
        return Fault("TooLong", 0)
    try:
        token_list = tokens(text)
    except Lexical as fault:
        return Fault("Lexical", byte_place(text, fault.at))
    answer = read(token_list, form, NESTING[form])
    if isinstance(answer, Module):
        return answer
    unlimited = read(token_list, form, NO_LIMIT)
    kind = "Syntax" if unlimited == answer else "TooDeep"
    return Fault(kind, token_place(text, token_list, answer))
