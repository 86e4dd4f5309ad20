"""Compound literals (C99 6.5.2.5) become objects with a name.

In a function `(T){ a, b }` becomes `(*(literal.x = a, literal.y = b, &literal))`, which sets each
part anew where it is evaluated. At file scope the object is static and starts so.
"""

from __future__ import annotations

from typing import Optional

from c.placing import Path, Unplaced, part_at, parts_of, place
from c.trees import Expression, Initialiser, TypeName
from c.types import Array, MaybeType, Record
from c.words import QUALIFIERS

from .initialisers import has_bits, has_designators, order
from .walk import Rewriting

# How many parts a literal in a function may have.
MAX_PARTS = 64


class Literals(Rewriting):
    """Declares the objects, at the head of the block or before the part at file scope."""

    def expression(self, node: Expression) -> None:
        """A literal."""
        if node.kind != "literal" or node.written is None or node.values is None:
            return
        if not is_visible(node.written):
            self.unit.leave(node.first, "a compound literal of a struct of the block")
            return
        if self.context.is_constant:
            self.at_file_scope(node, node.written, node.values)
        else:
            self.in_block(node, node.written, node.values)

    def declared(self, node: Expression, written: TypeName, name: str) -> Optional[str]:
        """The declaration of an object of the type."""
        declarator, specifiers = written.declarator, written.specifiers
        words = self.edits.text_of(specifiers.first, specifiers.last).split()
        text = " ".join(word for word in words if word not in QUALIFIERS)
        before = behind = ""
        if declarator.place > declarator.first:
            before = self.edits.text_of(declarator.first, declarator.place - 1)
        if declarator.last >= declarator.place:
            behind = self.edits.text_of(declarator.place, declarator.last)
        if isinstance(written.type, Array) and written.type.length is None:
            if not isinstance(node.type, Array) or node.type.length is None:
                return None
            behind = behind.replace("[ ]", f"[{node.type.length}]", 1)
        return f"{text} {before} {name} {behind}"

    def at_file_scope(self, node: Expression, written: TypeName, values: Initialiser) -> None:
        """A static object before the part at file scope."""
        name = self.unit.new_name("literal")
        declared = self.declared(node, written, name)
        is_in_order = not has_designators(values) and not has_bits(node.type)
        if declared is None or not (is_in_order or order(self.edits, node.type, values)):
            self.unit.leave(node.first, "a compound literal whose parts aren't known")
            return
        text = self.edits.text_of(values.first, values.last)
        self.edits.before(self.context.first, f"static {declared} = {text};")
        self.edits.replace(node.first, node.last, name)
        self.unit.count("compound literal")

    def in_block(self, node: Expression, written: TypeName, values: Initialiser) -> None:
        """An object at the head of the block, whose parts are set."""
        name = self.unit.new_name("literal")
        declared = self.declared(node, written, name)
        try:
            parts = {part.path: part.value for part in place(node.type, values)}
            leaves = leaves_of(node.type, (), parts)
            names = [name + selected(node.type, path) for path in leaves]
        except Unplaced:
            leaves, names = None, []
        block = self.context.block()
        if declared is None or leaves is None or block is None:
            self.unit.leave(node.first, "a compound literal whose parts aren't known")
            return
        self.edits.after(block.first, f"{declared};")
        self.edits.after(node.first, "*(")
        left = set(range(node.first, node.last))
        for path, part in zip(leaves, names):
            self.edits.after(node.first, f"{part} =")
            value = parts.get(path)
            if value is None:
                self.edits.after(node.first, "0,")
            else:
                self.edits.move(value.first, value.last, node.first)
                self.edits.after(node.first, ",")
                left.difference_update(range(value.first, value.last + 1))
        for token in left - {node.first}:
            self.edits.cut(token, token)
        self.edits.replace(node.last, node.last, f"&{name}))")
        self.unit.count("compound literal")


def is_visible(written: TypeName) -> bool:
    """Whether a type means the same at the head of a block as in it."""
    return written.specifiers.body is None and not written.specifiers.is_tag_local


def leaves_of(kind: MaybeType, path: Path, parts: dict[Path, Initialiser]) -> list[Path]:
    """The parts of an object that are set one by one."""
    if path in parts or not isinstance(kind, (Array, Record)):
        if path in parts and (parts[path].expression is None or isinstance(kind, Array)):
            # A list for a number, or a string for an array.
            raise Unplaced
        return [path]
    count = parts_of(kind)
    if count is None or count > MAX_PARTS:
        raise Unplaced
    if isinstance(kind, Record) and kind.word == "union" and any(
        other[: len(path)] == path for other in parts
    ):
        count = 1
    leaves: list[Path] = []
    for place_ in range(count):
        position, part = part_at(kind, place_)
        leaves += leaves_of(part, path + (position,), parts)
    if len(leaves) > MAX_PARTS:
        raise Unplaced
    return leaves


def selected(kind: MaybeType, path: Path) -> str:
    """The members and indices from an object to a part."""
    text = ""
    for position in path:
        if isinstance(kind, Array):
            text += f"[{position}]"
            kind = kind.element
        elif isinstance(kind, Record) and kind.members is not None:
            member = kind.members[position]
            if member.name is None or member.width is not None:
                raise Unplaced
            text += f".{member.name}"
            kind = member.type
    return text
