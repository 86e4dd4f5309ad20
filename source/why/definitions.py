"""Where the texts of a program give locations their values."""

from __future__ import annotations

from typing import Optional

from c.places import Place
from c.trees import Declarator, Expression, FunctionDefinition, Specifiers, Statement, Symbol
from rewriting.unit import Program, Unit
from rewriting.walk import Context, Rewriting, Walk

from .cells import Cells, is_function, qualified
from .values import Nodes, Uses

# What is said of a value that is there at the start.
STARTS = "starts as 0"
OUTSIDE = "is defined in no file"
ARGUMENT = "is a parameter of main"

STEPS = ("postfix", "prefix")
# What may have an alarm at its first token.
ACCESSES = ("index", "member", "call", "binary", "assign", "unary")


class Definition:
    """A part of a text that gives locations a value, or from where they have one at the start."""

    def __init__(self, unit: Unit, function: str, token: int, last: int) -> None:
        self.unit = unit
        self.function = function
        self.token = token
        self.last = last
        self.name: Optional[str] = None
        self.target: Optional[Expression] = None
        self.value: Optional[Expression] = None
        self.known_uses: Optional[Uses] = None

    @property
    def place(self) -> Place:
        """Its place."""
        return self.unit.places.of(self.unit.tokens.starts[self.token])

    @property
    def end(self) -> Place:
        """The place of its last token."""
        return self.unit.places.of(self.unit.tokens.starts[self.last])

    def cells(self, nodes: Nodes) -> Cells:
        """The locations of its expressions, by what is used at its tokens."""
        if self.known_uses is None:
            starts = self.unit.tokens.starts[self.token : self.last + 1]
            self.known_uses = nodes.used_at({self.unit.places.of(start) for start in starts})
        return Cells(self.function, self.known_uses)

    def locations(self, nodes: Nodes) -> list[str]:
        """What it gives a value."""
        if self.name is not None:
            return [self.name]
        return [] if self.target is None else self.cells(nodes).named(self.target)


class Gather(Rewriting):
    """Finds the definitions of a unit, and the expressions that may have alarms."""

    def prepare(self) -> None:
        """None is found yet."""
        self.found: list[Definition] = []
        # Those of objects that nothing initialises, that are defined elsewhere, and of main.
        self.starting: list[Definition] = []
        self.outside: list[Definition] = []
        self.arguments: list[Definition] = []
        self.accesses: dict[Place, list[Definition]] = {}
        # All objects that are declared.
        self.objects: dict[str, Definition] = {}
        # The calls of each function by its name, all others, and the formals of each function that
        # is defined.
        self.calls: dict[str, list[Definition]] = {}
        self.indirect: list[Definition] = []
        self.formals: dict[str, list[Optional[str]]] = {}

    def new(self, first: int, last: int) -> Definition:
        """A definition of the function that is walked through."""
        node = self.context.function
        name = "" if node is None else node.declarator.name or ""
        return Definition(self.unit, name, first, last)

    def function(self, node: FunctionDefinition) -> None:
        """A function with its formals."""
        name = node.declarator.name or ""
        part = node.declarator.functions[0]
        named = [each.declarators[0] if each.declarators else None for each in part.parameters]
        self.formals[name] = [
            None if each is None or each.name is None else f"{name}.{each.name}" for each in named
        ]
        for each in named if name == "main" else ():
            if each is not None and each.name is not None:
                made = Definition(self.unit, name, each.token, each.last)
                made.name = f"{name}.{each.name}"
                self.arguments.append(made)

    def declarator(self, node: Declarator, specifiers: Specifiers) -> None:
        """An object, with what it starts with."""
        symbol = node.symbol
        if symbol is None or symbol.kind != "object" or node.token < 0:
            return
        made = self.new(node.token, node.last)
        made.name = qualified(symbol, made.function)
        self.objects.setdefault(made.name, made)
        is_extern = "extern" in specifiers.storage
        if node.values is not None:
            made.value = node.values.expression
            self.found += [made] if made.value is not None else []
        elif is_extern:
            self.outside.append(made)
        elif symbol.depth == 0 or "static" in specifiers.storage:
            self.starting.append(made)

    def expression(self, node: Expression) -> None:
        """An assignment, a step, a call; and what may have an alarm."""
        if node.kind == "assign" or node.kind in STEPS:
            made = self.new(node.first, node.last)
            made.target = node.parts[0]
            is_plain = node.kind == "assign" and node.text == "="
            made.value = node.parts[1] if is_plain else node
            self.found.append(made)
        if node.kind == "call":
            made = self.new(node.first, node.last)
            made.value = node
            is_direct = is_function(node.parts[0])
            named = self.calls.setdefault(node.parts[0].text, []) if is_direct else self.indirect
            named.append(made)
        if node.kind in ACCESSES:
            made = self.new(node.first, node.last)
            made.value = node
            token = node.first
            if node.kind in ("binary", "assign"):
                # The place of a division is its operator's.
                token = node.parts[0].last + 1
            place = self.unit.places.of(self.unit.tokens.starts[token])
            self.accesses.setdefault(place, []).append(made)

    def statement(self, node: Statement) -> None:
        """What a function gives back."""
        value = node.expressions[0] if node.kind == "return" and node.expressions else None
        if value is not None:
            made = self.new(node.first, node.last)
            made.name = f"{made.function}.%ret"
            made.value = value
            self.found.append(made)

    def started(self, what: str) -> list[Definition]:
        """What has a value of that kind at the start."""
        return {OUTSIDE: self.outside, ARGUMENT: self.arguments, STARTS: self.starting}[what]


class Definitions:
    """The definitions of a program by the locations that they give values."""

    def __init__(self, texts: list[tuple[str, str]], nodes: Nodes) -> None:
        self.nodes = nodes
        self.by_location: dict[str, list[Definition]] = {}
        self.starting: dict[str, tuple[Definition, str]] = {}
        self.accesses: dict[Place, list[Definition]] = {}
        self.objects: dict[str, Definition] = {}
        self.functions: set[str] = set()
        # What main is given.
        self.given: list[Definition] = []
        gathered = [gathered_in(Unit(text, file)) for file, text in texts]
        for each in gathered:
            self.functions |= set(each.formals)
            self.objects.update(each.objects)
            self.given += each.arguments
            for place, found in each.accesses.items():
                self.accesses.setdefault(place, []).extend(found)
            for made in each.found:
                self.add(made)
        for what in (OUTSIDE, ARGUMENT, STARTS):
            for each in gathered:
                for made in each.started(what):
                    self.starting[made.name or ""] = made, what
        formals = {name: found for each in gathered for name, found in each.formals.items()}
        for each in gathered:
            for name, calls in each.calls.items():
                self.add_arguments(calls, formals.get(name, []))
            for call in each.indirect:
                self.add_indirect(call, formals)

    def add_arguments(self, calls: list[Definition], formals: list[Optional[str]]) -> None:
        """The arguments of a function's calls define its formals."""
        for call in calls:
            arguments = call.value.parts[1:] if call.value is not None else []
            for formal, argument in zip(formals, arguments):
                made = Definition(call.unit, call.function, call.token, call.last)
                made.name, made.value = formal, argument
                self.add(made)

    def add_indirect(self, call: Definition, formals: dict[str, list[Optional[str]]]) -> None:
        """The same of a call through a pointer. It calls the functions to which the values at its
        place point and that take as many arguments, as the command `calls` has it."""
        parts = [] if call.value is None else call.value.parts
        for name in call.cells(self.nodes).called(parts[0]) if parts else ():
            if len(formals.get(name, ())) == len(parts) - 1:
                self.add_arguments([call], formals[name])

    def add(self, made: Definition) -> None:
        """Keeps a definition."""
        for location in made.locations(self.nodes):
            self.by_location.setdefault(location, []).append(made)

    def of(self, location: str) -> list[Definition]:
        """The definitions of a location, or of a whole in which it is."""
        found = list(self.by_location.get(location, ()))
        for at in range(len(location) - 1, 0, -1):
            if location[at] in ".[" and location[:at] in self.by_location:
                found += self.by_location[location[:at]]
        return found


def gathered_in(unit: Unit) -> Gather:
    """What is found in a unit."""
    context = Context()
    gather = Gather(unit, Program(), context)
    Walk(unit, context, [gather]).walk()
    return gather
