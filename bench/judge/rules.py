#!/usr/bin/env python3
"""Whether a folder of modules is an application: gathering, rules of names, rules of places.

`judge` takes the files by name and gives the first refusal, or the sites of all modules.

rules.py FOLDER prints the line of the refusal, or a line for each arrow of each module in text
order: the module, whether it is a dollar site or a plain one, its number, and what it captures.
"""

import os
import re
import sys
from typing import NamedTuple

from grammar import MODULE_BYTES, SOURCE, Fault, parse_text
from names import QWIK, QWIK_NAMES, Names
from places import MOST_SITES, Places, is_component, is_context

MOST_MODULES = 256
SOURCE_NAME = re.compile(r"\./([a-z][a-z0-9]{0,31})\.jsx")


class Refused(NamedTuple):
    """The line of a refusal; `broken` says which rule of that kind is broken, where there are several."""

    kind: str
    module: str
    what: str
    broken: str = ""

    @property
    def rule(self):
        """The kind, and the rule of that kind."""
        return f"{self.kind}: {self.broken}" if self.broken else self.kind

    def __str__(self):
        return f"refused {self.kind} {self.module} {self.what}"


class Accepted(NamedTuple):
    """The modules, and the sites of each module's arrows."""

    modules: list  # of (name, Module)
    sites: dict  # module -> list of Site


class Gathered(NamedTuple):
    """A listed module: its name, and who imported it first."""

    source: str
    importer: str


def parse_bytes(module, data):
    """The module of a file, or the refusal that its own bytes give."""
    if len(data) > MODULE_BYTES[SOURCE]:
        return Refused("TooLong", module, "1:1")
    try:
        text = data.decode()
    except UnicodeDecodeError:
        return Refused("NotUtf8", module, "-")
    answer = parse_text(text)
    if isinstance(answer, Fault):
        before = data[: answer.at]
        line = before.count(b"\n") + 1
        column = answer.at - (before.rfind(b"\n") + 1) + 1
        return Refused(answer.kind, module, f"{line}:{column}")
    return answer


def take_module(files, listed, position):
    """The name and module of a listed source, or its refusal."""
    match = SOURCE_NAME.fullmatch(listed.source)
    if not match or match.group(1) + ".jsx" not in files:
        if position == 0:
            return "root", Refused("RootMissing", "root", "-")
        return "", Refused("ImportMissing", listed.importer, listed.source)
    name = match.group(1)
    answer = parse_bytes(name, files[name + ".jsx"])
    if position >= MOST_MODULES and not isinstance(answer, Refused):
        answer = Refused("TooMany", "root", "-")
    return name, answer


def gather(files):
    """The modules that `root` reaches, in order of first import, or a refusal."""
    waiting = [Gathered("./root.jsx", "root")]
    listed = {"./root.jsx"}
    modules = []
    for position, one in enumerate(waiting):  # grows while it is walked
        name, answer = take_module(files, one, position)
        if isinstance(answer, Refused):
            return answer
        modules.append((name, answer))
        for source in (imported.source for imported in answer.imports):
            if source != QWIK and source not in listed:
                listed.add(source)
                waiting.append(Gathered(source, name))
    return missing_export(modules) or modules


def missing_export(modules):
    """The first imported name that isn't exported where it is imported from."""
    exported = {
        f"./{name}.jsx": {item.name.name for item in module.items if item.exported}
        for name, module in modules
    }
    exported[QWIK] = QWIK_NAMES
    for name, module in modules:
        for one in module.imports:
            for spelled in one.names:
                if spelled.name not in exported[one.source]:
                    return Refused("ExportMissing", name, spelled.name)
    if "App" not in exported["./root.jsx"]:
        return Refused("ExportMissing", "root", "App")
    return None


def first_refusal(module, refusals):
    """The refusal that comes first, at one place the lowest number."""
    first = min(refusals)
    return Refused(first.kind, module, first.what, first.broken)


def root_names(modules, form):
    """All pairs of module and root name whose initialiser has this form."""
    return {(name, item.name.name) for name, module in modules for item in module.items if form(item.init)}


def judge(files):
    """The first refusal of an application, or what is accepted."""
    modules = gather(files)
    if isinstance(modules, Refused):
        return modules
    names = {}
    for name, module in modules:
        names[name] = Names(module)
        if names[name].refusals:
            return first_refusal(name, names[name].refusals)
    components, contexts = root_names(modules, is_component), root_names(modules, is_context)
    for name, module in modules:
        places = Places(name, module, names[name], components, contexts)
        if places.refusals:
            return first_refusal(name, places.refusals)
        if len(names[name].dollars) > MOST_SITES:
            return Refused("TooManySites", name, "-")
    return Accepted(modules, {name: names[name].sites() for name, _ in modules})


def main(folder):
    """Judges a folder; ends with 2 where it is refused."""
    files = {}
    for name in os.listdir(folder):
        if name.endswith(".jsx"):
            with open(os.path.join(folder, name), "rb") as module:
                files[name] = module.read()
    said = judge(files)
    if isinstance(said, Refused):
        print(said)
        return 2
    for module, sites in said.sites.items():
        for site in sites:
            kind = "dollar" if site.dollar else "plain"
            print(" ".join([module, kind, str(site.number)] + site.captures))
    return 0


if __name__ == "__main__":
    sys.exit(main(sys.argv[1]))
