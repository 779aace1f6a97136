"""The rules of places of one module whose names keep their rules."""

import re

from names import DOLLAR_CALLS, QWIK, Refusal, called, dollar_argument
from tree import Arrow, Const, Do, Items, Jsx, Literal, Name, Post, Record, Unary
from walk import all_nodes

KINDS = ["HookPlace", "DollarArgument", "RootValue", "NotComponent", "TagRefused", "TooManySites"]
MOST_SITES = 4096
INITIALISER_HOOKS = frozenset(["useSignal", "useStore", "useComputed$", "useContext"])
STATEMENT_HOOKS = frozenset(["useTask$", "useContextProvider"])
HOOKS = INITIALISER_HOOKS | STATEMENT_HOOKS
CONTEXT_HOOKS = frozenset(["useContext", "useContextProvider"])
ROOT_CALLS = frozenset(["component$", "createContextId"])
HOOK_COUNTS = {"useSignal": (0, 1), "useContextProvider": (2,)}
LEFT_OUT_TAGS = frozenset("script style textarea title template html head body".split())
VOID_TAGS = frozenset("area base br col embed hr img input link meta source track wbr".split())
REFUSED_ATTRIBUTES = frozenset(["children", "ref", "dangerouslySetInnerHTML"])
LISTENER = re.compile(r"on[A-Z][A-Za-z]*\$")
PLAIN_ATTRIBUTE = re.compile(r"[A-Za-z][A-Za-z0-9-]*")


def is_component(init):
    """Whether a root initialiser has the form `component$(..)`."""
    return called(init, ["component$"]) is not None and len(init.links) == 1


def is_context(init):
    """Whether a root initialiser has the form `createContextId(Text)`."""
    arguments = called(init, ["createContextId"])
    if arguments is None or len(init.links) != 1 or len(arguments) != 1:
        return False
    return isinstance(arguments[0], Literal) and arguments[0].kind == "text"


def is_fixed_data(init):
    """Whether an initialiser is built of literals, lists and records."""
    if isinstance(init, Unary):
        operand = init.operand
        return init.operator == "-" and isinstance(operand, Literal) and operand.kind == "int"
    if isinstance(init, Items):
        return all(map(is_fixed_data, init.items))
    if isinstance(init, Record):
        return all(is_fixed_data(value) for _, value in init.fields)
    return isinstance(init, Literal)


def is_track_pattern(params):
    """Whether the parameters are `{ track }`."""
    if len(params) != 1 or params[0].form != "fields":
        return False
    return [spelled.name for spelled in params[0].names] == ["track"]


class Places:
    """What is allowed where in one module, and what isn't."""

    def __init__(self, name, module, names, components, contexts):
        self.name = name
        self.names = names
        self.components = components
        self.contexts = contexts
        self.refusals = []
        self.well_placed = set()  # hooks, tracks, ids and root calls that may stand where they do
        self.calls = {}  # the place of a called name -> its arguments
        self.tracks = {}  # the place of a task's `track` -> the task's arrow
        nodes = [node for item in module.items for node in all_nodes(item.init)]
        self.find_places(module, nodes)
        for item in module.items:
            self.check_item(item)
        for node in nodes:
            self.check_node(node)

    def refuse(self, at, kind, what, broken="", number=None):
        """Notes a refusal."""
        number = KINDS.index(kind) + 1 if number is None else number
        self.refusals.append(Refusal(at, number, kind, what, broken))

    # What names mean.

    def declaration(self, at):
        """The declaration that the name at this place means."""
        return self.names.meanings[at][1]

    def qwik(self, node):
        """The Qwik name that a name expression means, or None."""
        if not isinstance(node, Name):
            return None
        return node.name if self.declaration(node.at).source == QWIK else None

    def is_listed(self, at, listed):
        """Whether the name at this place means a root name of a list of modules and names."""
        declaration = self.declaration(at)
        if declaration.kind == "item":
            return (self.name, declaration.name) in listed
        if declaration.kind == "import" and declaration.source != QWIK:
            return (declaration.source[2:-4], declaration.name) in listed
        return False

    # What may stand where it does.

    def find_places(self, module, nodes):
        """Notes all well placed names."""
        for item in module.items:
            if is_component(item.init) or is_context(item.init):
                self.well_placed.add(item.init.head.at)
        for node in nodes:
            if isinstance(node, Post) and isinstance(node.head, Name):
                self.find_call(node)
        for node in nodes:
            if isinstance(node, Post) and isinstance(node.head, Name):
                self.find_track(node)

    def find_call(self, node):
        """Notes a call, and what it makes a place for."""
        if node.links[0].kind != "call":
            return
        head = self.qwik(node.head)
        arguments = self.calls[node.head.at] = node.links[0].value
        if head in CONTEXT_HOOKS and arguments and self.is_id(arguments[0]):
            self.well_placed.add(arguments[0].at)
        arrow = dollar_argument(node)
        if arrow and head == "component$" and arrow.block is not None:
            self.find_hooks(arrow.block)
        if arrow and head == "useTask$" and is_track_pattern(arrow.params):
            self.tracks[arrow.params[0].names[0].at] = arrow

    def is_id(self, node):
        """Whether an argument is a context id's name."""
        return isinstance(node, Name) and self.is_listed(node.at, self.contexts)

    def find_hooks(self, block):
        """Notes the hooks that stand rightly in a component's block."""
        for statement in block:
            if isinstance(statement, Const):
                if statement.pattern.form == "name":
                    self.find_hook(statement.init, INITIALISER_HOOKS)
            elif not isinstance(statement, Do) or not self.find_hook(statement.value, STATEMENT_HOOKS):
                return

    def find_hook(self, value, hooks):
        """Notes a hook that is this whole expression; whether it is one."""
        if called(value, hooks) is None or len(value.links) != 1:
            return False
        self.well_placed.add(value.head.at)
        return True

    def find_track(self, node):
        """Notes a call `track(() => e)` in its task's own body."""
        use, declaration = self.names.meanings[node.head.at]
        task = self.tracks.get(declaration.at)
        arguments = self.calls.get(node.head.at)
        if task is None or arguments is None or len(arguments) != 1:
            return
        arrow = arguments[0]
        if use.scope.arrow is task and isinstance(arrow, Arrow):
            if not arrow.params and arrow.block is None:
                self.well_placed.add(node.head.at)

    # Checks.

    def check_item(self, item):
        """A root initialiser."""
        init = item.init
        if self.name == "root" and item.name.name == "App" and not is_component(init):
            self.refuse(item.name.at, "NotComponent", "App", "App of root", number=KINDS.index("RootValue") + 0.5)
        if not (is_component(init) or is_context(init) or isinstance(init, Arrow) or is_fixed_data(init)):
            self.refuse(item.name.at, "RootValue", item.name.name, "an initialiser")

    def check_node(self, node):
        """A name or a tag."""
        if isinstance(node, Jsx):
            self.check_tag(node)
        elif isinstance(node, Name):
            self.check_name(node)

    def check_name(self, node):
        """A name as an expression."""
        at, name = node.at, node.name
        declaration = self.declaration(at)
        if self.qwik(node):
            self.check_qwik(node)
        elif declaration.at in self.tracks and at not in self.well_placed:
            self.refuse(at, "HookPlace", name, "track")
        elif self.is_listed(at, self.contexts) and at not in self.well_placed:
            self.refuse(at, "HookPlace", name, "a context id elsewhere")
        elif self.is_listed(at, self.components):
            self.refuse(at, "NotComponent", name, "a component elsewhere than as a tag")

    def check_qwik(self, node):
        """A Qwik name as an expression."""
        at, name = node.at, node.name
        arguments = self.calls.get(at)
        if name in HOOKS:
            self.check_hook(at, name, arguments)
        if name in DOLLAR_CALLS and arguments is not None and not self.dollar_stands(name, arguments):
            self.refuse(at, "DollarArgument", name, "no one arrow" if not one_arrow(arguments) else "parameters")
        if not self.value_stands(at, name, arguments):
            self.refuse(at, "RootValue", name, "a framework name elsewhere")

    def check_hook(self, at, name, arguments):
        """A hook, by the rules of hooks."""
        if at not in self.well_placed:
            self.refuse(at, "HookPlace", name, "a hook elsewhere")
        elif len(arguments) not in HOOK_COUNTS.get(name, (1,)):
            self.refuse(at, "HookPlace", name, "the number of arguments")
        elif name in CONTEXT_HOOKS and not self.is_id(arguments[0]):
            self.refuse(at, "HookPlace", name, "no context id")

    def dollar_stands(self, name, arguments):
        """Whether the arguments of a dollar call are one arrow with the right parameters."""
        if not one_arrow(arguments):
            return False
        params = arguments[0].params
        if name == "component$":
            return len(params) <= 1
        if name == "useTask$":
            return not params or is_track_pattern(params)
        return name != "useComputed$" or not params

    def value_stands(self, at, name, arguments):
        """Whether a Qwik name is used as what RootValue lets it be."""
        if name in ROOT_CALLS:
            return at in self.well_placed
        if name == "Slot" or arguments is None:
            return False
        return name not in ("$", "noSerialize") or len(arguments) == 1

    # Tags.

    def check_tag(self, node):
        """A tag with its attributes."""
        if node.kind == "fragment":
            return
        at, tag = node.tag.at, node.tag.name
        slot = node.kind == "component" and self.declaration(at).source == QWIK
        if node.kind == "component" and not slot:
            self.check_component(at, tag)
        childless = slot or node.kind == "element" and tag in VOID_TAGS
        if node.kind == "element" and tag in LEFT_OUT_TAGS:
            self.refuse(at, "TagRefused", tag, "a tag that is left out")
        elif childless and node.children:
            self.refuse(at, "TagRefused", tag, "children")
        self.check_attributes(node, slot)

    def check_component(self, at, tag):
        """A capital tag other than `Slot`."""
        if self.is_listed(at, self.contexts):
            self.refuse(at, "HookPlace", tag, "a context id as a tag")
        if not self.is_listed(at, self.components):
            self.refuse(at, "NotComponent", tag, "a tag")

    def check_attributes(self, node, slot):
        """The attributes of one tag."""
        names, events = set(), set()
        for attribute in node.attributes:
            name = attribute.name
            event = name[2:-1].lower() if LISTENER.fullmatch(name) else None
            if name in names:
                self.refuse(attribute.at, "TagRefused", name, "an attribute twice")
            elif event in events:
                self.refuse(attribute.at, "TagRefused", name, "an event twice")
            elif not attribute_stands(node, slot, attribute):
                self.refuse(attribute.at, "TagRefused", name, "an attribute")
            names.add(name)
            if event:
                events.add(event)


def one_arrow(arguments):
    """Whether the arguments are one arrow."""
    return len(arguments) == 1 and isinstance(arguments[0], Arrow)


def attribute_stands(node, slot, attribute):
    """Whether an attribute may stand on its tag, whatever the others are."""
    name, value = attribute.name, attribute.value
    if name in REFUSED_ATTRIBUTES or slot and name != "name":
        return False
    if name == "q:slot" or slot:
        return isinstance(value, Literal) and value.kind == "text"
    if node.kind == "component":
        return ":" not in name
    return bool(LISTENER.fullmatch(name) or PLAIN_ATTRIBUTE.fullmatch(name))
