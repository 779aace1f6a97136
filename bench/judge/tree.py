"""The tree of a module. `at` is the place of a node's deciding token, in characters."""

from dataclasses import dataclass, field
from typing import NamedTuple, Optional


class Spelled(NamedTuple):
    """A name as it stands at a place of the text."""

    name: str
    at: int


@dataclass(slots=True)
class Module:
    imports: list
    items: list


@dataclass(slots=True)
class Import:
    names: list  # of Spelled
    source: str


@dataclass(slots=True)
class Item:
    exported: bool
    name: Spelled
    init: object


# Patterns.


@dataclass(slots=True)
class Pattern:
    """`form` is name, fields or scope (the list of `useLexicalScope`)."""

    form: str
    names: list  # of Spelled


# Statements. Blocks and parts are lists of statements.


@dataclass(slots=True)
class Const:
    pattern: Pattern
    init: object


@dataclass(slots=True)
class Let:
    name: Spelled
    init: object


@dataclass(slots=True)
class Do:
    value: object


@dataclass(slots=True)
class Delete:
    target: object


@dataclass(slots=True)
class Return:
    value: Optional[object]


@dataclass(slots=True)
class If:
    condition: object
    then: list
    otherwise: list


@dataclass(slots=True)
class While:
    condition: object
    body: list


@dataclass(slots=True)
class ForOf:
    name: Spelled
    items: object
    body: list


@dataclass(slots=True)
class Jump:
    """`break` or `continue`."""

    word: str


@dataclass(slots=True)
class Block:
    body: list


# Expressions.


@dataclass(slots=True)
class Literal:
    """`kind` is undefined, null, bool, int or text."""

    kind: str
    value: object


@dataclass(slots=True)
class Name:
    name: str
    at: int


@dataclass(slots=True)
class Items:
    """A list."""

    items: list


@dataclass(slots=True)
class Record:
    fields: list  # of (key, value)


@dataclass(slots=True)
class Template:
    parts: list
    holes: list


@dataclass(slots=True)
class Unary:
    operator: str
    operand: object


@dataclass(slots=True)
class Chain:
    first: object
    rest: list  # of (operator, operand)


@dataclass(slots=True)
class Cond:
    condition: object
    yes: object
    no: object


@dataclass(slots=True)
class Post:
    head: object
    links: list  # of Link


@dataclass(slots=True)
class Link:
    """`kind` is prop, index or call; `value` the word, the index or the arguments."""

    kind: str
    value: object
    comma: bool = False  # whether a call's arguments end in a comma


@dataclass(slots=True)
class Assign:
    operator: str
    target: object
    value: object


@dataclass(slots=True)
class Step:
    operator: str
    target: object


@dataclass(slots=True)
class Known:
    """One of the four known calls: log, keys, str or trunc."""

    kind: str
    arguments: list


@dataclass(slots=True)
class Arrow:
    place: int
    at: int
    params: list  # of Pattern
    body: object  # an expression
    block: Optional[list] = None  # of statements, in place of the body


@dataclass(slots=True)
class Attribute:
    name: str
    at: int
    value: object


@dataclass(slots=True)
class Jsx:
    """`kind` is element, component or fragment."""

    kind: str
    tag: Spelled
    attributes: list = field(default_factory=list)
    children: list = field(default_factory=list)
