"""What is played so far: an accepted application of one module of the first shape, a counter."""

import re

from names import QWIK
from tree import Arrow, Const, Jsx, Literal, Name, Post, Return, Step

SMALL_LETTERS = re.compile(r"[a-z]{1,8}")
TAGS = frozenset(["button", "div", "p"])
GREATEST = 1000000
SHOWN_LATER = "refused NotBuilt root -\n"


def played(modules):
    """What is printed of an accepted application and the empty script, and the status."""
    shown = counter_html(modules)
    return (SHOWN_LATER, 2) if shown is None else (f"item 0\nhtml {shown}\n", 0)


def counter_html(modules):
    """The HTML of the first render, or None where the application is no counter."""
    if len(modules) != 1:
        return None
    module = modules[0][1]
    if len(module.imports) != 1 or module.imports[0].source != QWIK or len(module.items) != 1:
        return None
    item = module.items[0]
    block = component_block(item.init)
    if item.name.name != "App" or not item.exported or block is None:
        return None
    state, value = split_state(block)
    return None if value is None or state is False else element_html(value, state)


def component_block(init):
    """The block of `component$(() => { .. })`."""
    if not isinstance(init, Post) or not isinstance(init.head, Name) or len(init.links) != 1:
        return None
    arguments = init.links[0].value
    if init.head.name != "component$" or init.links[0].kind != "call" or len(arguments) != 1:
        return None
    arrow = arguments[0]
    return arrow.block if isinstance(arrow, Arrow) and not arrow.params else None


def split_state(block):
    """The name and first value of the signal, None without one and False for another; and what is returned."""
    if not 1 <= len(block) <= 2 or not isinstance(block[-1], Return):
        return False, None
    return (signal(block[0]) if len(block) == 2 else None), block[-1].value


def signal(statement):
    """The name and first value of `const n = useSignal(0);`, or False."""
    if not isinstance(statement, Const) or statement.pattern.form != "name":
        return False
    name, init = statement.pattern.names[0].name, statement.init
    if not SMALL_LETTERS.fullmatch(name) or not isinstance(init, Post) or len(init.links) != 1:
        return False
    arguments = init.links[0].value
    if not isinstance(init.head, Name) or init.head.name != "useSignal" or init.links[0].kind != "call":
        return False
    if len(arguments) != 1 or not isinstance(arguments[0], Literal) or arguments[0].kind != "int":
        return False
    first = arguments[0].value
    return (name, first) if first <= GREATEST else False


def element_html(value, state):
    """The HTML of the element, or None where it is no counter's."""
    if not isinstance(value, Jsx) or value.kind != "element" or value.tag.name not in TAGS:
        return None
    names = [attribute.name for attribute in value.attributes]
    if len(set(names)) != len(names) or len(value.children) > 1:
        return None
    if not all(attribute_stands(attribute, state) for attribute in value.attributes):
        return None
    if value.children and not is_value_of(value.children[0], state):
        return None
    ids = [attribute.value.value for attribute in value.attributes if attribute.name == "id"]
    attributes = "".join(f' id="{one}"' for one in ids)
    tag, shown = value.tag.name, state[1] if value.children else ""
    return f"<{tag}{attributes}>{shown}</{tag}>"


def attribute_stands(attribute, state):
    """Whether an attribute is an id of small letters or a listener that counts."""
    value = attribute.value
    if attribute.name == "id":
        return isinstance(value, Literal) and value.kind == "text" and bool(SMALL_LETTERS.fullmatch(value.value))
    if attribute.name != "onClick$" or not isinstance(value, Arrow):
        return False
    return not value.params and value.block is None and isinstance(value.body, Step) and is_value_of(value.body.target, state)


def is_value_of(expression, state):
    """Whether an expression is the signal's `.value`."""
    if state is None or not isinstance(expression, Post) or len(expression.links) != 1:
        return False
    head, link = expression.head, expression.links[0]
    return isinstance(head, Name) and head.name == state[0] and link.kind == "prop" and link.value == "value"
