"""Reads expressions (C90 6.3, C99 6.5), and finds their types."""

from __future__ import annotations

from . import rules
from .constants import string_length
from .cursor import Cursor
from .generic import Choice, chosen_of
from .placing import completed
from .tokens import CHARACTER, NAME, NUMBER, STRING
from .trees import Expression, TypeName
from .types import INT, VOID, Function
from .wide import wide_values
from .words import FUNCTION_NAMES, GENERIC, RESERVED

LEVELS = [
    ["||"], ["&&"], ["|"], ["^"], ["&"], ["==", "!="], ["<", ">", "<=", ">="], ["<<", ">>"],
    ["+", "-"], ["*", "/", "%"],
]
LEVEL = {operator: level for level, operators in enumerate(LEVELS) for operator in operators}
ASSIGNING = frozenset(["=", "+=", "-=", "*=", "/=", "%=", "&=", "|=", "^=", "<<=", ">>="])
UNARY = frozenset(["&", "*", "+", "-", "~", "!"])


class Expressions(Cursor):
    """The readers of expressions."""

    def expression(self) -> Expression:
        """Expressions with commas between."""
        left = self.assignment()
        while self.values[self.at] == ",":
            self.at += 1
            right = self.assignment()
            left = self.made("comma", left.first, [left, right])
            left.type = rules.value_type(right)
        return left

    def assignment(self) -> Expression:
        """An assignment, or what may stand in its place."""
        left = self.conditional()
        operator = self.values[self.at]
        if operator not in ASSIGNING:
            return left
        self.at += 1
        right = self.assignment()
        node = self.made("assign", left.first, [left, right], operator)
        node.type = left.type
        return node

    def conditional(self) -> Expression:
        """`c ? a : b`, or `c ?: b` of GNU C."""
        condition = self.binary(0)
        if self.values[self.at] != "?":
            return condition
        self.at += 1
        parts = [condition]
        if self.values[self.at] != ":":
            parts.append(self.expression())
        self.expect(":")
        parts.append(self.conditional())
        node = self.made("conditional", condition.first, parts)
        node.type = rules.conditional_type(parts[-2], parts[-1])
        return node

    def binary(self, level: int) -> Expression:
        """Operands with binary operators of that level and above."""
        left = self.operand()
        while True:
            operator = self.values[self.at]
            above = LEVEL.get(operator, -1)
            if above < level:
                return left
            self.at += 1
            right = self.binary(above + 1)
            node = self.made("binary", left.first, [left, right], operator)
            node.type = rules.binary_type(operator, left, right)
            left = node

    def operand(self) -> Expression:
        """A unary expression or a cast."""
        first, value = self.at, self.values[self.at]
        if self.kinds[first] == NAME:
            return self.size(first) if value == "sizeof" else self.postfix(self.primary())
        if value == "(" and self.starts_type(first + 1):
            return self.cast(first)
        if value in ("++", "--"):
            self.at += 1
            part = self.operand()
            node = self.made("prefix", first, [part], value)
            node.type = part.type
            return node
        if value in UNARY:
            self.at += 1
            part = self.operand()
            node = self.made("unary", first, [part], value)
            node.type = rules.unary_type(value, part)
            return node
        return self.postfix(self.primary())

    def size(self, first: int) -> Expression:
        """`sizeof` of an expression or a type."""
        self.at += 1
        if self.values[self.at] == "(" and self.starts_type(self.at + 1):
            written = self.type_in_parentheses()
            if self.values[self.at] == "{":
                node = self.made("sizeof", first, [self.literal(written)])
            else:
                node = self.made("sizeof type", first, [])
                node.written = written
        else:
            node = self.made("sizeof", first, [self.operand()])
        node.type = rules.SIZE_TYPE
        return node

    def type_in_parentheses(self) -> TypeName:
        """A type name in parentheses."""
        self.expect("(")
        written = self.type_name()
        self.expect(")")
        return written

    def cast(self, first: int) -> Expression:
        """A cast, or a compound literal."""
        written = self.type_in_parentheses()
        if self.values[self.at] == "{":
            return self.literal(written)
        node = self.made("cast", first, [self.operand()])
        node.written = written
        node.type = written.type
        return node

    def literal(self, written: TypeName) -> Expression:
        """A compound literal (C99 6.5.2.5), behind its type."""
        values = self.initialiser()
        node = self.made("literal", written.first - 1, [])
        node.written = written
        node.values = values
        node.type = completed(written.type, values)
        return self.postfix(node)

    def primary(self) -> Expression:
        """A name, number, string or character, or what stands in parentheses."""
        first, kind, value = self.at, self.kinds[self.at], self.values[self.at]
        if kind == STRING:
            return self.strings()
        if value == "(":
            return self.parenthesis()
        if value == GENERIC:
            return self.generic()
        if kind not in (NAME, NUMBER, CHARACTER) or value in RESERVED:
            raise self.unreadable("no expression")
        self.at += 1
        node = self.made({NAME: "name", NUMBER: "number"}.get(kind, "character"), first, [], value)
        if kind == NUMBER:
            node.type = rules.number_type(value)
        elif kind == CHARACTER:
            node.type = INT
        elif value in FUNCTION_NAMES and self.scopes.find(value) is None:
            node.kind = "function name"
            node.type = rules.string_type(0, False)
        else:
            self.name(node)
        return node

    def name(self, node: Expression) -> None:
        """What a name stands for. One that isn't declared, and is called, is a function."""
        symbol = self.scopes.find(node.text)
        if symbol is None and self.values[self.at] == "(":
            symbol = self.scopes.declare("function", node.text, Function(INT, None, False))
            self.implicit.setdefault(node.text, node.first)
        if symbol is None:
            self.note_undeclared(node.first)
        elif symbol.kind == "typedef":
            raise self.unreadable("a type where an expression should be")
        else:
            symbol.uses.append(node.first)
        node.symbol = symbol
        node.type = None if symbol is None else symbol.type

    def strings(self) -> Expression:
        """Strings beside one another, which are one."""
        first = self.at
        while self.kinds[self.at] == STRING:
            self.at += 1
        texts = self.values[first : self.at]
        node = self.made("string", first, [])
        if any(text.startswith("L") for text in texts):
            numbers = wide_values(texts)
            node.type = None if numbers is None else rules.string_type(len(numbers), True)
        else:
            node.type = rules.string_type(string_length(texts), False)
        return node

    def generic(self) -> Expression:
        """`_Generic` (C11 6.5.1.1)."""
        first = self.at
        self.at += 1
        self.expect("(")
        control = self.assignment()
        choices: list[Choice] = []
        while self.accept(","):
            written = None if self.accept("default") else self.type_name()
            self.expect(":")
            choices.append(Choice(written, self.assignment()))
        self.expect(")")
        chosen = chosen_of(control, choices, self.tokens)
        node = self.made("generic", first, [] if chosen is None else [chosen])
        node.type = None if chosen is None else chosen.type
        return node

    def parenthesis(self) -> Expression:
        """An expression in parentheses, or a block of GNU C, whose value is the last one's."""
        first = self.at
        self.at += 1
        if self.values[self.at] == "{":
            block = self.block()
            self.expect(")")
            node = self.made("block", first, [])
            node.block = block
            last = block.bodies[-1] if block.bodies else None
            value = last.expressions[0] if last is not None and last.kind == "expression" else None
            node.type = VOID if value is None else rules.value_type(value)
            return node
        part = self.expression()
        self.expect(")")
        node = self.made("parenthesis", first, [part])
        node.type = part.type
        return node

    def postfix(self, node: Expression) -> Expression:
        """What stands behind an operand: indices, calls, members, ++ and --."""
        while True:
            value = self.values[self.at]
            if value == "[":
                node = self.index(node)
            elif value == "(":
                node = self.call(node)
            elif value in (".", "->"):
                node = self.member(node, value)
            elif value in ("++", "--"):
                self.at += 1
                whole = self.made("postfix", node.first, [node], value)
                whole.type = node.type
                node = whole
            else:
                return node

    def index(self, array: Expression) -> Expression:
        """`[index]` behind an array."""
        self.at += 1
        index = self.expression()
        self.expect("]")
        node = self.made("index", array.first, [array, index])
        node.type = rules.element_type(array, index)
        return node

    def call(self, function: Expression) -> Expression:
        """The arguments behind a function."""
        self.at += 1
        parts = [function]
        while self.values[self.at] != ")":
            parts.append(self.assignment())
            if self.values[self.at] != ")":
                self.expect(",")
        self.at += 1
        node = self.made("call", function.first, parts)
        node.type = rules.result_type(function)
        return node

    def member(self, record: Expression, operator: str) -> Expression:
        """`.name` or `->name` behind a record."""
        self.at += 1
        if self.kinds[self.at] != NAME:
            raise self.unreadable("no member")
        self.at += 1
        node = self.made("member", record.first, [record], operator)
        kind = rules.value_type(record) if operator == "->" else record.type
        node.path = rules.path_of(kind, operator, self.values[self.at - 1])
        node.type = node.path[-1].type if node.path else None
        return node

    def made(self, kind: str, first: int, parts: list[Expression], text: str = "") -> Expression:
        """An expression up to the last token read."""
        node = Expression(kind, first, self.at - 1, parts)
        node.text = text
        return node
