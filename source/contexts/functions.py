"""The functions of a program with what hangs on a copy: calls, names from outside, parameters."""

from __future__ import annotations

from typing import Callable, Optional

from c.places import Place
from c.tokens import NAME
from c.trees import Declaration, Declarator, Expression, FunctionDefinition, Specifiers, Statement, Symbol
from c.types import Function, Integer, MaybeType, Pointer
from c.words import RESERVED, TAGGED
from rewriting.unit import Program, Unit
from rewriting.walk import Context, Rewriting, Walk

from .scopes import FileScope

# What gives a block; strdup gives characters, which need no type.
TYPED = frozenset(["malloc", "calloc", "realloc"])
ALLOCATING = TYPED | {"strdup"}
# The tokens that an allocation wrapper has at most.
MOST_OF_WRAPPER = 200

# What tells the functions to which indirect calls lead, by their places.
Targets = Callable[[], dict[Place, frozenset[str]]]


class Call:
    """A call, and the type that its result is meant for. An indirect one has no name until it is
    known which function it leads to."""

    def __init__(self, node: Expression, is_indirect: bool) -> None:
        function = node.parts[0]
        self.is_indirect = is_indirect
        self.name = "" if is_indirect else function.text
        self.token = function.first
        # The tokens of an indirect call: what is called, and all of it.
        self.called, self.last = function.last, node.last
        self.arguments = node.parts[1:]
        self.meant: MaybeType = None


class Candidate:
    """A function that is defined."""

    def __init__(self, unit: ContextUnit, node: FunctionDefinition) -> None:
        self.unit = unit
        self.node = node
        self.name = node.declarator.name or ""
        self.is_static = "static" in node.specifiers.storage
        self.size = node.last - node.first + 1
        self.calls: list[Call] = []
        self.has_return = False
        # Whether a copy would not mean the same, as with old parameters.
        self.is_bound = bool(node.old_style) or self.defines_types() or self.name == "main"
        self.locals: set[str] = set()
        # The declarations of its static objects, and their names.
        self.statics: list[Declaration] = []
        self.static_names: set[str] = set()
        # Names that surely mean something outside, even where a local has that name, too.
        self.outside: set[str] = set()
        # The symbols that are assigned, or whose address is taken.
        self.changed: set[int] = set()
        self.known_free: Optional[tuple[set[str], set[str]]] = None

    def defines_types(self) -> bool:
        """Whether its head defines a record or an enumerated type, or takes any arguments."""
        part = self.node.declarator.functions[0]
        return (
            self.node.specifiers.body is not None
            or part.ellipsis is not None
            or bool(part.identifiers)
            or any(parameter.specifiers.body is not None for parameter in part.parameters)
        )

    def parameters(self) -> list[Optional[Symbol]]:
        """What its parameters are called."""
        part = self.node.declarator.functions[0]
        return [
            parameter.declarators[0].symbol if parameter.declarators else None
            for parameter in part.parameters
        ]

    def may_be_fixed(self, symbol: Optional[Symbol]) -> bool:
        """Whether a parameter is an integer that the body never changes."""
        return (
            symbol is not None
            and isinstance(symbol.type, Integer)
            and id(symbol) not in self.changed
        )

    def declare(self, name: str, is_static: bool) -> None:
        """Notes a name that is declared in it. Where a static object's is another's, too, it isn't
        looked into which of them is meant."""
        if name in self.locals and (is_static or name in self.static_names):
            self.is_bound = True
        if is_static:
            self.static_names.add(name)
        self.locals.add(name)

    def may_be_lifted(self, declaration: Declaration) -> bool:
        """Whether static objects mean the same before the function: what declares them uses nothing
        of the function but others of them."""
        specifiers, tokens = declaration.specifiers, self.unit.tokens
        names = self.locals - self.static_names
        used = {
            tokens.values[token]
            for token in range(declaration.first, declaration.last + 1)
            if tokens.values[token - 1] not in (".", "->")
        }
        return specifiers.body is None and not specifiers.is_tag_local and not used & names

    def may_wrap(self) -> bool:
        """Whether it may be an allocation wrapper, but for what it calls."""
        kind = self.node.declarator.type
        return (
            isinstance(kind, Function)
            and isinstance(kind.result, Pointer)
            and self.size <= MOST_OF_WRAPPER
            and self.has_return
        )

    @property
    def free(self) -> tuple[set[str], set[str]]:
        """The names and the tags that a copy needs from outside."""
        if self.known_free is None:
            self.known_free = self.found_free()
        return self.known_free

    def found_free(self) -> tuple[set[str], set[str]]:
        """The same, found by the tokens: no name that could mean something is overlooked."""
        tokens = self.unit.tokens
        names, tags = set(self.outside), set[str]()
        for token in range(self.node.first, self.node.last + 1):
            value = tokens.values[token]
            before = tokens.values[token - 1] if token > 0 else ""
            if tokens.kinds[token] != NAME or value in RESERVED or before in (".", "->"):
                continue
            if before in TAGGED:
                tags.add(value)
            elif value not in self.locals:
                names.add(value)
        return names - {self.name}, tags


class Gather(Rewriting):
    """Looks at all functions of a unit."""

    def prepare(self) -> None:
        """None is seen yet."""
        self.found: list[Candidate] = []
        self.current: Optional[Candidate] = None
        self.known: dict[int, Call] = {}

    def candidate(self) -> Optional[Candidate]:
        """The function that is walked through."""
        node = self.context.function
        if node is None:
            return None
        if self.current is None or self.current.node is not node:
            unit = self.unit
            assert isinstance(unit, ContextUnit)
            self.current = Candidate(unit, node)
            self.found.append(self.current)
        return self.current

    def expression(self, node: Expression) -> None:
        """Names from outside, calls, and what is changed."""
        candidate = self.candidate()
        if candidate is None:
            return
        symbol = node.symbol
        if node.kind == "name" and (symbol is None or symbol.depth == 0):
            candidate.outside.add(node.text)
        elif node.kind == "call":
            self.call(candidate, node)
        elif node.kind in ("assign", "prefix", "postfix") or node.text == "&":
            changed = bare(node.parts[0]).symbol
            if changed is not None:
                candidate.changed.add(id(changed))

    def call(self, candidate: Candidate, node: Expression) -> None:
        """A call of a function by its name, or of what may be an allocator."""
        function = node.parts[0]
        symbol = function.symbol
        is_name = function.kind == "name" and (symbol is None or symbol.kind == "function")
        if is_name and (symbol is None or symbol.depth):
            return
        if not is_name and not (isinstance(node.type, Pointer) and is_pure(function)):
            return
        call = Call(node, not is_name)
        candidate.calls.append(call)
        self.known[id(node)] = call
        inner = node
        for parent in reversed(self.context.parents):
            if parent.kind == "cast" or (
                parent.kind == "assign" and parent.text == "=" and parent.parts[1] is inner
            ):
                call.meant = parent.type if parent.kind == "cast" else parent.parts[0].type
            if parent.kind != "parenthesis":
                break
            inner = parent

    def declarator(self, node: Declarator, specifiers: Specifiers) -> None:
        """What is declared within a function."""
        candidate = self.candidate()
        if candidate is None or node is candidate.node.declarator:
            return
        candidate.declare(node.name or "", "static" in specifiers.storage)
        if specifiers.body is not None:
            candidate.is_bound = True
        if node.values is not None and node.values.expression is not None:
            call = self.known.get(id(bare(node.values.expression)))
            if call is not None:
                call.meant = node.type

    def declaration(self, node: Declaration) -> None:
        """Static objects of a function."""
        candidate = self.candidate()
        if candidate is not None and "static" in node.specifiers.storage:
            candidate.statics.append(node)

    def function(self, node: FunctionDefinition) -> None:
        """A function whose static objects can't go before it isn't copied."""
        candidate = self.candidate()
        if candidate is not None and not all(map(candidate.may_be_lifted, candidate.statics)):
            candidate.is_bound = True

    def statement(self, node: Statement) -> None:
        """Labels, and whether anything is given back."""
        candidate = self.candidate()
        if candidate is None:
            return
        if node.kind == "return":
            self.returned(candidate, node)
        elif node.kind == "label":
            candidate.locals.add(self.tokens.values[node.first])


    def returned(self, candidate: Candidate, node: Statement) -> None:
        """What a return gives back is meant for the type of the result."""
        candidate.has_return = True
        value = node.expressions[0] if node.expressions else None
        call = None if value is None else self.known.get(id(bare(value)))
        kind = candidate.node.declarator.type
        if call is not None and isinstance(kind, Function):
            call.meant = kind.result


def is_pure(node: Expression) -> bool:
    """Whether an expression changes nothing, so that it may stand twice."""
    changes = node.kind in ("assign", "postfix", "call", "block") or node.text in ("++", "--")
    return not changes and all(map(is_pure, node.parts))


def bare(node: Expression) -> Expression:
    """An expression without the parentheses around it."""
    while node.kind == "parenthesis":
        node = node.parts[0]
    return node


class ContextUnit(Unit):
    """A unit with its functions and what it declares."""

    def __init__(self, text: str, file: str) -> None:
        super().__init__(text, file)
        self.scope = FileScope(self)
        context = Context()
        gather = Gather(self, Program(), context)
        Walk(self, context, [gather]).walk()
        self.candidates = gather.found


class Calls:
    """The functions of all units, and which one a call means."""

    def __init__(self, units: list[ContextUnit], targets: Targets) -> None:
        self.units = units
        self.candidates = [each for unit in units for each in unit.candidates]
        self.outside: dict[str, Candidate] = {}
        self.own: dict[tuple[int, str], Candidate] = {}
        # Functions whose name no other file has.
        self.only: dict[str, Optional[Candidate]] = {}
        for each in self.candidates:
            self.own[id(each.unit), each.name] = each
            self.only[each.name] = None if each.name in self.only else each
            if not each.is_static:
                self.outside.setdefault(each.name, each)
        self.name_indirect(targets)
        self.uses: dict[Candidate, int] = {}
        for each in self.candidates:
            for call in each.calls:
                callee = self.callee(each, call)
                if callee is not None:
                    self.uses[callee] = self.uses.get(callee, 0) + 1
        self.wrappers = self.allocating()

    def name_indirect(self, targets: Targets) -> None:
        """Gives the indirect calls that lead to one function its name. What they lead to takes a
        while to find, so it is asked for only where a wrapper may be among it."""
        found = [
            (each.unit, call) for each in self.candidates for call in each.calls if call.is_indirect
        ]
        if not found or not any(each.may_wrap() for each in self.candidates):
            return
        known = targets()
        for unit, call in found:
            names = known.get(unit.places.of(unit.tokens.starts[call.token]), frozenset())
            if len(names) == 1:
                (call.name,) = names

    def callee(self, caller: Candidate, call: Call) -> Optional[Candidate]:
        """The function that a call means; None where no file defines it, or it isn't known."""
        if call.is_indirect:
            return self.only.get(call.name)
        own = self.own.get((id(caller.unit), call.name))
        return own if own is not None else self.outside.get(call.name)

    def is_recursive(self, candidate: Candidate) -> bool:
        """Whether a function may come to itself by direct calls."""
        seen: set[Candidate] = set()
        left = [candidate]
        while left:
            current = left.pop()
            for call in current.calls:
                callee = self.callee(current, call)
                if callee is candidate:
                    return True
                if callee is not None and callee not in seen:
                    seen.add(callee)
                    left.append(callee)
        return False

    def allocating(self) -> set[Candidate]:
        """The functions that wrap an allocation, or another wrapper."""
        found: set[Candidate] = set()
        left = [each for each in self.candidates if each.may_wrap()]
        is_changed = True
        while is_changed:
            is_changed = False
            for each in left:
                is_one = any(self.allocates(each, call, found) for call in each.calls)
                if is_one and each not in found:
                    found.add(each)
                    is_changed = True
        return found

    def allocates(self, caller: Candidate, call: Call, wrappers: set[Candidate]) -> bool:
        """Whether a call gives a block: it is the library's, or a wrapper's."""
        callee = self.callee(caller, call)
        if callee is None:
            return call.name in ALLOCATING and not call.is_indirect
        return callee in wrappers
