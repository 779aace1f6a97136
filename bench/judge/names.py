"""The rules of names of one module, and the captures of its arrows.

The module is walked once in text order. The walk opens scopes, fills each with what is declared
in it, and notes every use with its scope. Then every use is looked up.
"""

import re
from dataclasses import dataclass, field
from typing import NamedTuple, Optional

from tree import Arrow, Assign, Block, Const, ForOf, If, Jsx, Let, Name, Post, Step, While
from walk import parts

QWIK = "@builder.io/qwik"
QWIK_NAMES = frozenset(
    "$ Slot component$ createContextId noSerialize useComputed$ useContext useContextProvider "
    "useSignal useStore useTask$".split()
)
BUILT_NAMES = frozenset("componentQrl qrl useComputedQrl useTaskQrl useLexicalScope".split())
HOST_NAMES = frozenset(["console", "Math", "Object", "String"])
DOLLAR_CALLS = frozenset(["component$", "$", "useTask$", "useComputed$"])
SYMBOL = re.compile(r"[a-z][a-z0-9]{0,31}_s([1-9][0-9]{0,9})")
KINDS = ["UnknownName", "DuplicateName", "LetCaptured", "ConstAssigned", "EarlyUse"]


class Refusal(NamedTuple):
    """A refusal by its place and number, which decide which one comes."""

    at: int
    number: float
    kind: str
    what: str
    broken: str = ""


@dataclass(eq=False)
class Scope:
    """A scope: what stands around it, the arrow that it stands in, its first declarations by name."""

    outer: Optional["Scope"]
    arrow: Optional[Arrow]
    declared: dict = field(default_factory=dict)


@dataclass(eq=False)
class Declaration:
    """A declared name. `kind` is import, item, param, const, let or for.

    `end` is the number of uses in the module that stand before the declaration's end.
    """

    name: str
    at: int
    kind: str
    scope: Scope
    source: Optional[str] = None
    end: int = 0

    @property
    def local(self):
        """Whether the name belongs to no module's root."""
        return self.kind not in ("import", "item")


class Use(NamedTuple):
    """A use of a name: its scope, and whether it is assigned."""

    name: str
    at: int
    scope: Scope
    assigned: bool


class Site(NamedTuple):
    """An arrow's site with its captures."""

    dollar: bool
    number: int
    captures: list


def is_symbol(name):
    """Whether the name is the spelling of a symbol."""
    match = SYMBOL.fullmatch(name)
    return bool(match) and int(match.group(1)) <= 4294967295


class Names:
    """The scopes and uses of one module."""

    def __init__(self, module):
        self.refusals = []
        self.uses = []
        self.meanings = {}  # the place of a use -> (use, declaration or None)
        self.arrows = []
        self.outer = {}  # the place of an arrow -> the arrow around it
        self.dollars = set()  # the places of the arrows that are dollar sites
        self.captures = {}
        self.root = Scope(None, None)
        self.walk_module(module)
        for number, use in enumerate(self.uses):
            self.look_up(number, use)

    # Refusals and declarations.

    def refuse(self, at, kind, what):
        """Notes a refusal."""
        self.refusals.append(Refusal(at, KINDS.index(kind) + 1, kind, what))

    def declare(self, scope, spelled, kind, source=None):
        """Declares a name in a scope."""
        declaration = Declaration(spelled.name, spelled.at, kind, scope, source)
        twice = spelled.name in scope.declared
        if twice or self.forbidden(declaration):
            self.refuse(spelled.at, "DuplicateName", spelled.name)
        if not twice:
            scope.declared[spelled.name] = declaration
        return declaration

    def forbidden(self, declaration):
        """Whether nothing may be declared by this name here."""
        name = declaration.name
        if name in QWIK_NAMES:
            return declaration.source != QWIK
        if name in BUILT_NAMES or name in HOST_NAMES:
            return True
        return declaration.scope is self.root and is_symbol(name)

    # The walk.

    def walk_module(self, module):
        """Imports, then items."""
        for one in module.imports:
            for spelled in one.names:
                self.declare(self.root, spelled, "import", one.source)
        for item in module.items:
            self.declare(self.root, item.name, "item")
        for item in module.items:
            self.walk(item.init, self.root)

    def walk(self, node, scope):
        """One statement or expression."""
        special = {
            Name: self.walk_name, Arrow: self.walk_arrow, Assign: self.walk_target,
            Step: self.walk_target, Jsx: self.walk_jsx, Post: self.walk_post, Const: self.walk_const,
            Let: self.walk_let, ForOf: self.walk_for, Block: self.walk_block, If: self.walk_if,
            While: self.walk_while,
        }.get(type(node))
        if special:
            special(node, scope)
        else:
            self.walk_parts(node, scope)

    def walk_parts(self, node, scope):
        """What stands in a node that is no rule's own."""
        for part in parts(node):
            self.walk(part, scope)

    def use(self, name, at, scope, assigned=False):
        """Notes a use."""
        self.uses.append(Use(name, at, scope, assigned))

    def walk_name(self, node, scope):
        """A name as an expression."""
        self.use(node.name, node.at, scope)

    def walk_target(self, node, scope):
        """An assignment or step."""
        if isinstance(node.target, Name):
            self.use(node.target.name, node.target.at, scope, assigned=True)
        else:
            self.walk(node.target, scope)
        if isinstance(node, Assign):
            self.walk(node.value, scope)

    def walk_jsx(self, node, scope):
        """A tag, its attributes, its children."""
        if node.kind == "component":
            self.use(node.tag.name, node.tag.at, scope)
        for attribute in node.attributes:
            if attribute.name.endswith("$") and isinstance(attribute.value, Arrow):
                self.dollars.add(attribute.value.place)
        self.walk_parts(node, scope)

    def walk_post(self, node, scope):
        """A head and its links."""
        arrow = dollar_argument(node)
        if arrow:
            self.dollars.add(arrow.place)
        self.walk_parts(node, scope)

    def walk_arrow(self, node, scope):
        """An arrow: its parameters and its block are one scope."""
        self.arrows.append(node)
        self.outer[node.place] = scope.arrow
        self.captures[node.place] = []
        inner = Scope(scope, node)
        for pattern in node.params:
            for spelled in pattern.names:
                self.declare(inner, spelled, "param")
        if node.block is None:
            self.walk(node.body, inner)
        else:
            self.walk_statements(node.block, inner)

    def walk_block(self, node, scope):
        """A block among statements."""
        self.walk_statements(node.body, Scope(scope, scope.arrow))

    def walk_if(self, node, scope):
        """The condition, then both parts."""
        self.walk(node.condition, scope)
        self.walk_statements(node.then, Scope(scope, scope.arrow))
        self.walk_statements(node.otherwise, Scope(scope, scope.arrow))

    def walk_while(self, node, scope):
        """The condition, then the part."""
        self.walk(node.condition, scope)
        self.walk_statements(node.body, Scope(scope, scope.arrow))

    def walk_for(self, node, scope):
        """A `for` is a scope, its block another one."""
        inner = Scope(scope, scope.arrow)
        declaration = self.declare(inner, node.name, "for")
        self.walk(node.items, inner)
        declaration.end = len(self.uses)
        self.walk_statements(node.body, Scope(inner, scope.arrow))

    def walk_statements(self, statements, scope):
        """Statements of one scope: first what they declare, then what they use."""
        for statement in statements:
            if isinstance(statement, Const):
                for spelled in statement.pattern.names:
                    self.declare(scope, spelled, "const")
            elif isinstance(statement, Let):
                self.declare(scope, statement.name, "let")
        for statement in statements:
            self.walk(statement, scope)

    def walk_const(self, node, scope):
        """The initialiser; there the declaration ends."""
        self.walk(node.init, scope)
        for spelled in node.pattern.names:
            self.end_declaration(scope, spelled)

    def walk_let(self, node, scope):
        """The initialiser; there the declaration ends."""
        self.walk(node.init, scope)
        self.end_declaration(scope, node.name)

    def end_declaration(self, scope, spelled):
        """The declaration of this name at this place ends here."""
        declaration = scope.declared[spelled.name]
        if declaration.at == spelled.at:
            declaration.end = len(self.uses)

    # Looking up.

    def look_up(self, number, use):
        """What one use means, and whether it keeps the rules."""
        declaration = None if use.name in HOST_NAMES else find(use.name, use.scope)
        self.meanings[use.at] = (use, declaration)
        if declaration is None:
            self.refuse(use.at, "UnknownName", use.name)
            return
        if use.assigned and declaration.kind != "let":
            self.refuse(use.at, "ConstAssigned", use.name)
        if not declaration.local:
            return
        if declaration.kind == "let" and use.scope.arrow is not declaration.scope.arrow:
            self.refuse(use.at, "LetCaptured", use.name)
        if number < declaration.end:
            self.refuse(use.at, "EarlyUse", use.name)
        self.capture(use, declaration)

    def capture(self, use, declaration):
        """Every arrow between the use and the declaration captures the name."""
        arrow = use.scope.arrow
        while arrow is not declaration.scope.arrow:
            kept = self.captures[arrow.place]
            if use.name not in kept:
                kept.append(use.name)
            arrow = self.outer[arrow.place]

    def sites(self):
        """The site of each arrow in text order."""
        counts = {True: 0, False: 0}
        sites = []
        for arrow in self.arrows:
            dollar = arrow.place in self.dollars
            counts[dollar] += 1
            sites.append(Site(dollar, counts[dollar], self.captures[arrow.place]))
        return sites


def find(name, scope):
    """The innermost declaration of the name in scope, or None."""
    while scope is not None:
        if name in scope.declared:
            return scope.declared[name]
        scope = scope.outer
    return None


def called(node, names):
    """The arguments where the node's head is one of these names and its first link calls it."""
    if isinstance(node, Post) and isinstance(node.head, Name) and node.head.name in names:
        if node.links[0].kind == "call":
            return node.links[0].value
    return None


def dollar_argument(node):
    """The arrow that is the one argument of a dollar call, or None."""
    arguments = called(node, DOLLAR_CALLS)
    if arguments and len(arguments) == 1 and isinstance(arguments[0], Arrow):
        return arguments[0]
    return None
