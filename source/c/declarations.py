"""Reads declarations: specifiers, declarators, type names and initialisers (C90 6.5)."""

from __future__ import annotations

from typing import Optional

from .constants import value_of
from .expressions import Expressions
from .placing import completed
from .tokens import NAME
from .trees import (
    Declaration, Declarator, Designator, EnumBody, Expression, FunctionPart, Initialiser,
    RecordBody, Specifiers, TypeName,
)
from .types import ENUM, INT, Array, Function, MaybeType, Member, Pointer, Void, type_of_words
from .words import (
    ASSEMBLY, ASSERTION, QUALIFIERS, RESERVED, STORAGE, STRANGE, TAGGED, TYPES,
)


class Declarations(Expressions):
    """The readers of declarations."""

    def specifiers(self) -> Specifiers:
        """Storage, qualifiers and a type, in any order."""
        read = Specifiers(self.at)
        words: list[str] = []
        is_typed = False
        while self.kinds[self.at] == NAME:
            value = self.values[self.at]
            if value in STORAGE:
                read.storage.add(value)
            elif value in TYPES:
                words.append(value)
            elif value in TAGGED and not is_typed and not words:
                self.tagged(read)
                is_typed = True
                continue
            elif not is_typed and not words and self.scopes.is_type(value):
                symbol = self.scopes.find(value)
                if symbol is not None:
                    symbol.uses.append(self.at)
                    read.type = symbol.type
                is_typed = True
            elif value in STRANGE:
                raise self.unreadable(value)
            elif value not in QUALIFIERS:
                break
            self.at += 1
        read.last = self.at - 1
        if not is_typed:
            read.type = type_of_words(words)
            read.is_implicit = not words
        return read

    def tagged(self, read: Specifiers) -> None:
        """A struct, union or enum, with its tag, its body, or both."""
        word = self.values[self.at]
        self.at += 1
        tag = None
        if self.kinds[self.at] == NAME and self.values[self.at] not in RESERVED:
            read.tag, tag = self.at, self.values[self.at]
            self.at += 1
        has_body = self.values[self.at] == "{"
        if tag is None and not has_body:
            raise self.unreadable("no tag")
        if word == "enum":
            read.type = ENUM
            if has_body:
                read.body = self.constants()
            return
        # A tag that stands alone is declared anew in its scope.
        is_new = has_body or self.values[self.at] == ";"
        record = self.scopes.tagged(word, tag or f"{self.at}", is_new)
        read.type = record
        read.is_tag_local = tag is not None and self.scopes.is_local(tag)
        if has_body and record is not None:
            read.body = RecordBody(record, self.at)
            self.members(read.body)

    def members(self, body: RecordBody) -> None:
        """The members of a record."""
        self.at += 1
        members: list[Member] = []
        while not self.accept("}"):
            if self.accept(";"):
                continue
            if self.values[self.at] == ASSERTION:
                body.members.append(self.assertion())
                continue
            declaration = Declaration(self.specifiers())
            if self.values[self.at] == ";":
                specifiers = declaration.specifiers
                # Constants without a name of their type declare no member.
                if isinstance(specifiers.body, RecordBody) and specifiers.tag < 0:
                    members.append(Member(None, specifiers.type, None, specifiers.first))
            else:
                self.member_declarators(declaration, members)
            declaration.last = self.expect(";")
            body.members.append(declaration)
        body.close = self.at - 1
        body.record.members = members

    def member_declarators(self, declaration: Declaration, members: list[Member]) -> None:
        """The declarators of members, each with its width where it has one."""
        while True:
            declarator = self.declarator(declaration.specifiers.type)
            width = None
            if self.accept(":"):
                declarator.width = self.conditional()
                declarator.last = self.at - 1
                width = value_of(declarator.width)
                if width is None:
                    raise self.unreadable("a width that isn't known")
            declaration.declarators.append(declarator)
            members.append(Member(declarator.name, declarator.type, width, declarator.token))
            if not self.accept(","):
                return

    def constants(self) -> EnumBody:
        """The constants of an enumerated type."""
        body = EnumBody(self.at)
        self.at += 1
        value: Optional[int] = 0
        while not self.accept("}"):
            if self.kinds[self.at] != NAME or self.values[self.at] in RESERVED:
                raise self.unreadable("no constant")
            token, name = self.at, self.values[self.at]
            self.at += 1
            if self.accept("="):
                expression = self.conditional()
                body.values.append(expression)
                value = value_of(expression)
            symbol = self.scopes.declare("constant", name, INT)
            body.symbols.append((token, symbol))
            symbol.value = value
            value = None if value is None else value + 1
            if self.values[self.at] != "}":
                self.expect(",")
        body.close = self.at - 1
        return body

    def declarator(self, base: MaybeType, is_abstract: bool = False) -> Declarator:
        """A declarator over a type; the name may be missing where it may be a type name's."""
        read = Declarator(self.at)
        read.type = self.derived(base, read)
        if read.name is None and not is_abstract and self.values[self.at] != ":":
            raise self.unreadable("no name")
        if self.values[self.at] in ASSEMBLY:
            self.at = self.tokens.matching(self.at + 1) + 1
        read.last = self.at - 1
        return read

    def derived(self, base: MaybeType, read: Declarator) -> MaybeType:
        """The type of a declarator over a type; notes its name and parts in `read`."""
        while self.values[self.at] == "*" or self.values[self.at] in QUALIFIERS:
            if self.values[self.at] == "*":
                base = Pointer(base)
            self.at += 1
        inner = None
        read.place = self.at
        if self.kinds[self.at] == NAME and self.values[self.at] not in RESERVED:
            read.token, read.name = self.at, self.values[self.at]
            self.at += 1
        elif self.values[self.at] == "(" and self.is_inner():
            inner = self.at
            self.at = self.tokens.matching(inner) + 1
        functions: list[FunctionPart] = []
        base = self.suffixes(base, read, functions)
        if inner is not None:
            behind, self.at = self.at, inner + 1
            base = self.derived(base, read)
            self.expect(")")
            self.at = behind
        read.functions += functions
        return base

    def is_inner(self) -> bool:
        """Whether a parenthesis holds a declarator, and not parameters."""
        value = self.values[self.at + 1]
        return value in ("*", "(", "[") or not (value == ")" or self.starts_type(self.at + 1))

    def suffixes(
        self, base: MaybeType, read: Declarator, functions: list[FunctionPart]
    ) -> MaybeType:
        """Lengths and parameters behind a declarator."""
        if self.values[self.at] == "[":
            self.at += 1
            length = None
            while self.values[self.at] in QUALIFIERS or self.values[self.at] == "static":
                self.at += 1
            if self.values[self.at] != "]":
                length = self.assignment()
                read.lengths.append(length)
            self.expect("]")
            return Array(self.suffixes(base, read, functions), value_of(length))
        if self.values[self.at] == "(":
            part = FunctionPart(self.at)
            functions.append(part)
            parameters = self.parameters(part)
            result = self.suffixes(base, read, functions)
            return Function(result, parameters, part.ellipsis is not None)
        return base

    def parameters(self, part: FunctionPart) -> Optional[list[MaybeType]]:
        """The types of parameters, or None where a list of names or nothing is written."""
        self.at += 1
        if self.values[self.at] == ")":
            part.close = self.expect(")")
            return None
        if not self.starts_type(self.at):
            self.names(part)
            return None
        self.scopes.enter()
        types: list[MaybeType] = []
        while True:
            if self.values[self.at] == "...":
                part.ellipsis = self.at
                self.at += 1
                break
            parameter = self.parameter()
            part.parameters.append(parameter)
            types.append(parameter.declarators[0].type)
            if not self.accept(","):
                break
        part.close = self.expect(")")
        self.scopes.leave()
        is_empty = len(types) == 1 and isinstance(types[0], Void)
        return [] if is_empty else types

    def names(self, part: FunctionPart) -> None:
        """An old-style list of names."""
        while True:
            if self.kinds[self.at] != NAME or self.values[self.at] in RESERVED:
                raise self.unreadable("no parameter")
            part.identifiers.append(self.at)
            self.at += 1
            if not self.accept(","):
                break
        part.close = self.expect(")")

    def parameter(self) -> Declaration:
        """A parameter of a prototype; arrays and functions become pointers (C90 6.7.1)."""
        parameter = Declaration(self.specifiers())
        declarator = self.declarator(parameter.specifiers.type, is_abstract=True)
        if isinstance(declarator.type, Array):
            declarator.type = Pointer(declarator.type.element)
        elif isinstance(declarator.type, Function):
            declarator.type = Pointer(declarator.type)
        parameter.declarators.append(declarator)
        parameter.last = self.at - 1
        if declarator.name is not None:
            declarator.symbol = self.scopes.declare("object", declarator.name, declarator.type)
        return parameter

    def type_name(self) -> TypeName:
        """A type name."""
        specifiers = self.specifiers()
        declarator = self.declarator(specifiers.type, is_abstract=True)
        return TypeName(specifiers, declarator, self.at - 1)

    def declaration(self) -> Declaration:
        """A declaration with its semicolon."""
        if self.values[self.at] == ASSERTION:
            return self.assertion()
        declaration = Declaration(self.specifiers())
        if self.values[self.at] != ";":
            self.declare(declaration, self.declarator(declaration.specifiers.type))
            self.declarators(declaration)
        declaration.last = self.expect(";")
        return declaration

    def assertion(self) -> Declaration:
        """A static assertion (C11 6.7.10, C23 6.7.11)."""
        declaration = Declaration(Specifiers(self.at))
        self.at += 1
        self.expect("(")
        declaration.assertion = self.conditional()
        if self.accept(","):
            self.strings()
        self.expect(")")
        declaration.last = self.expect(";")
        return declaration

    def declarators(self, declaration: Declaration) -> None:
        """The declarators behind the first."""
        while self.accept(","):
            self.declare(declaration, self.declarator(declaration.specifiers.type))

    def declare(self, declaration: Declaration, declarator: Declarator) -> None:
        """Declares the name of a declarator, and reads its initialiser."""
        storage = declaration.specifiers.storage
        is_function = isinstance(declarator.type, Function)
        kind = "typedef" if "typedef" in storage else "function" if is_function else "object"
        declarator.type = self.with_prototype(declarator)
        symbol = self.scopes.declare(kind, declarator.name or "", declarator.type)
        declarator.symbol = symbol
        if self.accept("="):
            declarator.values = self.initialiser()
            declarator.type = symbol.type = completed(declarator.type, declarator.values)
            declarator.last = self.at - 1
        declaration.declarators.append(declarator)

    def with_prototype(self, declarator: Declarator) -> MaybeType:
        """The type of a declarator; a prototype before it tells its parameters (C90 6.5.4.3)."""
        kind = declarator.type
        if isinstance(kind, Function) and kind.parameters is None:
            known = self.scopes.find(declarator.name or "")
            if known is not None and isinstance(known.type, Function):
                return Function(kind.result, known.type.parameters, known.type.is_variadic)
        return kind

    def initialiser(self) -> Initialiser:
        """An expression, or values in braces."""
        read = Initialiser(self.at, self.at)
        if self.accept("{"):
            while not self.accept("}"):
                designators = self.designators()
                read.items.append((designators, self.initialiser()))
                if self.values[self.at] != "}":
                    self.expect(",")
        else:
            read.expression = self.assignment()
        read.last = self.at - 1
        return read

    def designators(self) -> list[Designator]:
        """`.name`, `[index]` and their like, with the = behind them; or `name:` of GNU C."""
        read: list[Designator] = []
        if self.kinds[self.at] == NAME and self.values[self.at + 1] == ":":
            read.append(Designator(self.values[self.at], None, None))
            self.at += 2
            return read
        while self.values[self.at] in (".", "["):
            if self.accept("."):
                read.append(Designator(self.values[self.at], None, None))
                self.at += 1
            else:
                read.append(self.index_designator())
        if read:
            self.accept("=")
        return read

    def index_designator(self) -> Designator:
        """`[index]` or `[from ... to]`."""
        self.expect("[")
        index: Expression = self.conditional()
        upto = self.conditional() if self.accept("...") else None
        self.expect("]")
        return Designator(None, index, upto)
