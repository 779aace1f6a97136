"""The parts of a tree in text order."""

from tree import (
    Arrow, Assign, Block, Chain, Cond, Const, Delete, Do, ForOf, If, Items, Jsx, Known, Let, Post,
    Record, Return, Step, Template, Unary, While,
)


def link_parts(post):
    """The head and what stands in the links."""
    parts = [post.head]
    for link in post.links:
        if link.kind == "index":
            parts.append(link.value)
        elif link.kind == "call":
            parts += link.value
    return parts


PARTS = {
    Items: lambda e: e.items,
    Record: lambda e: [value for _, value in e.fields],
    Template: lambda e: e.holes,
    Unary: lambda e: [e.operand],
    Chain: lambda e: [e.first] + [operand for _, operand in e.rest],
    Cond: lambda e: [e.condition, e.yes, e.no],
    Post: link_parts,
    Assign: lambda e: [e.target, e.value],
    Step: lambda e: [e.target],
    Known: lambda e: e.arguments,
    Jsx: lambda e: [a.value for a in e.attributes] + e.children,
    Arrow: lambda e: [e.body] if e.block is None else e.block,
    Const: lambda s: [s.init],
    Let: lambda s: [s.init],
    Do: lambda s: [s.value],
    Delete: lambda s: [s.target],
    Return: lambda s: [] if s.value is None else [s.value],
    If: lambda s: [s.condition] + s.then + s.otherwise,
    While: lambda s: [s.condition] + s.body,
    ForOf: lambda s: [s.items] + s.body,
    Block: lambda s: s.body,
}


def parts(node):
    """The expressions and statements that stand directly in this one, in text order."""
    reading = PARTS.get(type(node))
    return reading(node) if reading else []


def all_nodes(node):
    """The node and all that stands in it, in text order."""
    waiting = [node]
    while waiting:
        one = waiting.pop()
        yield one
        waiting += reversed(parts(one))
