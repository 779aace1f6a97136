#!/usr/bin/env python3
"""Holds the reader of `grammar.py` against the grammar written as productions.

recognise.py N SEED

Where a token list is no module, both must stop at the same token. The productions leave out
three conditions: `break` and `continue` stand in a loop, a record's keys differ, the tags of an
element agree. So the reader may stop earlier, but only at a token that such a condition can refuse.
"""

import re
import sys

sys.dont_write_bytecode = True

from applications import applications
from grammar import NO_LIMIT, SOURCE, Module, read
from tokens import Lexical, tokens

GRAMMAR = r"""
Module  = Import* Item*
Import  = 'import' '{' Name (',' Name)* ','? '}' 'from' Text ';'
Item    = 'export'? 'const' Name '=' Expr ';'
Arrow   = (Name | '(' (Pattern (',' Pattern)* ','?)? ')') '=>' (Block | Plain)
Pattern = Name | '{' Name (',' Name)* ','? '}'
Block   = '{' Stmt* '}'
Stmt    = 'const' Pattern '=' Expr ';' | 'let' Name '=' Expr ';' | Block | Simple
Simple  = 'return' Step? ';' | 'if' '(' Expr ')' Part ('else' Part)? | 'while' '(' Expr ')' Part
        | 'for' '(' 'const' Name 'of' Expr ')' Part | 'break' ';' | 'continue' ';'
        | 'delete' Ended ';' | Plain ';'
Part    = Block | Simple
Plain   = !Step
Step    = Target ('=' | '+=' | '-=' | '*=') Expr | Target ('++' | '--') | Expr
Target  = Name | Ended
Ended   = Postfix ('.' Word | '[' Expr ']')
Expr    = Arrow | Logic ('?' Expr ':' Expr)?
Logic   = Eq ('??' Eq)+ | And ('||' And)*
And     = Eq ('&&' Eq)*
Eq      = Rel (('===' | '!==') Rel)*
Rel     = Sum (('<' | '<=' | '>' | '>=') Sum)*
Sum     = Prod (('+' | '-') Prod)*
Prod    = Unary (('*' | '%') Unary)*
Unary   = ('!' | '-') Unary | Postfix
Postfix = Atom ('.' Word | '[' Expr ']' | '(' Args ')')*
Args    = (Expr (',' Expr)* ','?)?
Atom    = Int | Text | Template | 'true' | 'false' | 'null' | 'undefined' | Name
        | '[' Args ']' | '{' (Field (',' Field)* ','?)? '}' | '(' Expr ')' | Jsx
        | 'Math' '.' 'trunc' '(' Prod '/' Unary ')'
Template = Whole | First Expr (Middle Expr)* Last
Field   = Word ':' Expr | Text ':' Expr | Name
Jsx     = '<jsx' Tag Attr* '/>' | '<jsx' Tag Attr* '>' Child* '</' Tag '>' | '<>jsx' Child* '</>'
Attr    = AttrName ('=' (AttrText | '{' Expr '}'))?
Child   = JsxText | '{' Expr? '}' | Jsx
"""

SYMBOL = re.compile(r"'([^']+)'|([A-Za-z]+)|([()|*?+=!])")
NO_BRACE = "0"  # the mark of a nonterminal's texts that don't begin with a brace


def rules_of(text):
    """The lines of a grammar, each as a name and its symbols."""
    joined = re.sub(r"\n\s+\|", " |", text.strip())
    for line in joined.split("\n"):
        name, right = line.split("=", 1)
        yield name.strip(), SYMBOL.findall(right)


class Productions:
    """Productions without repetition signs, made from the grammar's lines."""

    def __init__(self, text):
        self.rules = {}
        for name, symbols in rules_of(text):
            self.symbols, self.at = symbols, 0
            self.rules[name] = self.choice()
        for name in [name for name in self.rules]:
            for right in self.rules[name]:
                for symbol in right:
                    if symbol.endswith(NO_BRACE) and symbol.startswith("!"):
                        self.without_brace(symbol[1:-1])
        self.nullable = self.find_nullable()

    def fresh(self, rights):
        """A nonterminal of its own for these right sides."""
        name = f"#{len(self.rules)}"
        self.rules[name] = rights
        return name

    def choice(self):
        """Right sides between bars."""
        rights = [self.sequence()]
        while self.at < len(self.symbols) and self.symbols[self.at][2] == "|":
            self.at += 1
            rights.append(self.sequence())
        return rights

    def sequence(self):
        """Symbols one after the other, each perhaps repeated."""
        right = []
        while self.at < len(self.symbols) and self.symbols[self.at][2] not in ("|", ")"):
            right.append(self.repeated(self.one()))
        return tuple(right)

    def one(self):
        """A terminal, a name or a group."""
        literal, name, sign = self.symbols[self.at]
        self.at += 1
        if literal:
            return "'" + literal
        if name:
            return name
        if sign == "!":
            return "!" + self.one() + NO_BRACE
        group = self.fresh(self.choice())
        self.at += 1
        return group

    def repeated(self, symbol):
        """The symbol with its repetition sign, if one follows."""
        sign = self.symbols[self.at][2] if self.at < len(self.symbols) else ""
        if sign not in ("*", "?", "+") or not sign:
            return symbol
        self.at += 1
        if sign == "?":
            return self.fresh([(), (symbol,)])
        name = self.fresh([])
        self.rules[name] = [() if sign == "*" else (symbol,), (name, symbol)]
        return name

    def without_brace(self, name):
        """Makes the nonterminal of the texts that don't begin with a brace."""
        marked = "!" + name + NO_BRACE
        if marked in self.rules:
            return
        self.rules[marked] = []
        for right in self.rules[name]:
            if not right or right[0] == "'{":
                continue
            first = right[0]
            if first in self.rules:
                self.without_brace(first)
                first = "!" + first + NO_BRACE
            self.rules[marked].append((first,) + right[1:])

    def find_nullable(self):
        """The nonterminals that derive nothing at all."""
        nullable, grown = set(), True
        while grown:
            more = {
                name for name, rights in self.rules.items() for right in rights if all(s in nullable for s in right)
            }
            grown, nullable = more != nullable, more
        return nullable


def terminals(token):
    """The terminals that a token can stand for."""
    kind, value = token.kind, token.value
    if kind == "name":
        return {"Name", "Word", "'" + value}
    if kind == "word":
        return {"Word", "'" + value}
    if kind == "jsx":
        return {"'" + value + "jsx"}
    if kind == "punct":
        return {"'" + value}
    if kind == "template":
        return {{(True, False): "Whole", (True, True): "First", (False, True): "Middle", (False, False): "Last"}[value[1:]]}
    if kind == "tagname":
        return {"AttrName"} if set(":$") & set(value) else {"AttrName", "Tag"}
    return {{"int": "Int", "text": "Text", "attrtext": "AttrText", "jsxtext": "JsxText"}[kind]}


def items_at(productions, sets, number, begun):
    """Closes one set of begun productions (rule, right side, dot, origin) under predicting and completing."""
    waiting, seen, wanting = list(begun), set(begun), {}
    sets.append(wanting)
    while waiting:
        item = waiting.pop()
        name, right, dot, origin = item
        more = []
        if dot == len(right):
            more = [(n, r, d + 1, o) for n, r, d, o in sets[origin].get(name, [])]
        else:
            symbol = right[dot]
            wanting.setdefault(symbol, []).append(item)
            if symbol in productions.rules:
                more = [(symbol, rule, 0, number) for rule in productions.rules[symbol]]
                if symbol in productions.nullable:
                    more.append((name, right, dot + 1, origin))
        for one in more:
            if one not in seen:
                seen.add(one)
                waiting.append(one)
    return wanting, seen


def first_refused(productions, token_list):
    """The number of the first token with which no module goes on, or None."""
    sets = []
    begun = [("Module", right, 0, 0) for right in productions.rules["Module"]]
    for number, token in enumerate(token_list):
        wanting, _ = items_at(productions, sets, number, begun)
        begun = [
            (name, right, dot + 1, origin)
            for terminal in terminals(token)
            for name, right, dot, origin in wanting.get(terminal, [])
        ]
        if not begun:
            return number
    _, seen = items_at(productions, sets, len(token_list), begun)
    whole = any(name == "Module" and dot == len(right) and origin == 0 for name, right, dot, origin in seen)
    return None if whole else len(token_list)


def may_refuse(token_list, number):
    """Whether a condition that the productions leave out can refuse this token."""
    token = token_list[number]
    if token.kind == "tagname":
        return token_list[number - 1].value == "</"
    if token.value in ("break", "continue"):
        return True
    if [before.value for before in token_list[max(0, number - 2) : number]] == ["}", ")"]:
        return True  # names in braces with one of them twice can only be an arrow's parameters
    return token.kind in ("name", "word", "text") and token_list[number - 1].value in ("{", ",")


def check(productions, text):
    """Whether both stop at the same token; None where the text has no tokens."""
    try:
        token_list = tokens(text)
    except Lexical:
        return None
    answer = read(token_list, SOURCE, NO_LIMIT)
    stopped = None if isinstance(answer, Module) else answer
    refused = first_refused(productions, token_list)
    if stopped == refused:
        return True
    earlier = stopped is not None and (refused is None or stopped < refused)
    return earlier and may_refuse(token_list, stopped)


def main(number, seed):
    """Compares so many texts."""
    productions = Productions(GRAMMAR)
    made = applications(seed, small=0.7)
    counts = {True: 0, False: 0, None: 0}
    while sum(counts.values()) < number:
        for data in next(made).values():
            text = data.decode("utf-8", "replace")
            if len(text) > 3000:
                continue
            answer = check(productions, text)
            counts[answer] += 1
            if answer is False:
                print(repr(text))
    print(f"{counts[True]} agree, {counts[False]} differ, {counts[None]} without tokens")
    return 1 if counts[False] else 0


if __name__ == "__main__":
    sys.exit(main(int(sys.argv[1]), int(sys.argv[2])))
