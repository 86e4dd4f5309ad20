"""Reads statements (C90 6.6) with declarations anywhere among them, as in C99."""

from __future__ import annotations

from typing import Optional

from .declarations import Declarations
from .tokens import NAME
from .trees import Expression, Statement
from .words import ASSEMBLY, RESERVED


class Statements(Declarations):
    """The readers of statements."""

    def block(self, is_scope: bool = True) -> Statement:
        """A block; that of a function has the scope of its parameters."""
        read = Statement("block", self.expect("{"))
        if is_scope:
            self.scopes.enter()
        while self.values[self.at] != "}":
            read.bodies.append(self.item())
        if is_scope:
            self.scopes.leave()
        read.last = self.expect("}")
        return read

    def item(self) -> Statement:
        """A declaration or a statement."""
        if self.starts_type(self.at) and self.values[self.at + 1] != ":":
            read = Statement("declaration", self.at)
            read.declaration = self.declaration()
            return self.ended(read)
        return self.statement()

    def statement(self) -> Statement:
        """A statement."""
        value = self.values[self.at]
        if value == "{":
            return self.block()
        reader = getattr(self, f"{value}_statement", None) if value in WITH_READER else None
        if reader is not None:
            read: Statement = reader(Statement(value, self.at))
            return self.ended(read)
        if value in ASSEMBLY:
            return self.assembly()
        is_name = self.kinds[self.at] == NAME and value not in RESERVED
        if is_name and self.values[self.at + 1] == ":":
            read = Statement("label", self.at)
            self.at += 2
            return self.labelled(read)
        read = Statement("empty" if value == ";" else "expression", self.at)
        if value != ";":
            read.expressions.append(self.expression())
        self.expect(";")
        return self.ended(read)

    def ended(self, read: Statement) -> Statement:
        """The statement, which ends with the last token read."""
        read.last = self.at - 1
        return read

    def head(self, read: Statement) -> None:
        """A word, and an expression in parentheses behind it."""
        self.at += 1
        self.expect("(")
        read.expressions.append(self.expression())
        self.expect(")")

    def if_statement(self, read: Statement) -> Statement:
        """`if` with or without `else`."""
        self.head(read)
        read.bodies.append(self.statement())
        if self.accept("else"):
            read.bodies.append(self.statement())
        return read

    def while_statement(self, read: Statement) -> Statement:
        """`while` or `switch`."""
        self.head(read)
        read.bodies.append(self.statement())
        return read

    switch_statement = while_statement

    def do_statement(self, read: Statement) -> Statement:
        """`do` with its `while`."""
        self.at += 1
        read.bodies.append(self.statement())
        if self.values[self.at] != "while":
            raise self.unreadable("no while")
        self.head(read)
        self.expect(";")
        return read

    def for_statement(self, read: Statement) -> Statement:
        """`for`, which may declare what it counts with."""
        self.at += 1
        self.expect("(")
        self.scopes.enter()
        if self.starts_type(self.at):
            read.declaration = self.declaration()
            read.expressions.append(None)
        else:
            read.expressions.append(self.optional(";"))
        read.expressions.append(self.optional(";"))
        read.expressions.append(self.optional(")"))
        read.bodies.append(self.statement())
        self.scopes.leave()
        return read

    def optional(self, end: str) -> Optional[Expression]:
        """An expression that may be missing, with the token behind it."""
        expression = None if self.values[self.at] == end else self.expression()
        self.expect(end)
        return expression

    def return_statement(self, read: Statement) -> Statement:
        """`return` with or without a value."""
        self.at += 1
        read.expressions.append(self.optional(";"))
        return read

    def goto_statement(self, read: Statement) -> Statement:
        """`goto` with its label."""
        self.at += 1
        if self.kinds[self.at] != NAME:
            raise self.unreadable("no label")
        self.at += 1
        self.expect(";")
        return read

    def break_statement(self, read: Statement) -> Statement:
        """`break` or `continue`."""
        read.kind = "jump"
        self.at += 1
        self.expect(";")
        return read

    continue_statement = break_statement

    def case_statement(self, read: Statement) -> Statement:
        """`case` with its value, or the first and the last of GNU C."""
        self.at += 1
        read.expressions.append(self.conditional())
        if self.accept("..."):
            read.expressions.append(self.conditional())
        self.expect(":")
        return self.labelled(read)

    def default_statement(self, read: Statement) -> Statement:
        """`default`."""
        self.at += 1
        self.expect(":")
        return self.labelled(read)

    def labelled(self, read: Statement) -> Statement:
        """What stands behind a label; nothing at the end of a block, and in C23 a declaration."""
        if self.values[self.at] != "}":
            read.bodies.append(self.statement())
        return self.ended(read)

    def assembly(self) -> Statement:
        """An `asm` statement, which isn't looked into."""
        read = Statement("asm", self.at)
        while self.values[self.at] != "(":
            self.at += 1
            if self.kinds[self.at] != NAME and self.values[self.at] != "(":
                raise self.unreadable("no '(' there")
        self.at = self.tokens.matching(self.at) + 1
        self.expect(";")
        return self.ended(read)


WITH_READER = frozenset(
    ["if", "while", "switch", "do", "for", "return", "goto", "break", "continue", "case", "default"]
)
