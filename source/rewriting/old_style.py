"""Old-style definitions (C90 6.7.1) become prototypes.

A parameter narrower than `int` or `double` is passed promoted: it is declared in the body, and gets
its value there, unless a prototype before says that it is passed as it is.
"""

from __future__ import annotations

from typing import Optional

from c.trees import Declarator, FunctionDefinition, Specifiers
from c.types import Floating, Function, Integer, MaybeType

from .floats import any_of
from .walk import Rewriting


class OldStyle(Rewriting):
    """Writes the declarations of parameters between the parentheses."""

    def function(self, node: FunctionDefinition) -> None:
        """A function with a list of names."""
        part = node.declarator.functions[0]
        if not part.identifiers and not node.old_style:
            return
        declared = self.declared(node)
        if declared is None:
            return
        conversions = []
        for position, token in enumerate(part.identifiers):
            name = self.tokens.values[token]
            text = declared.get(name, (f"int {name}", None))[0]
            kind = declared.get(name, ("", None))[1]
            passed = passed_type(kind)
            if passed is not None and not self.is_passed_as_is(node, position, kind):
                new = self.unit.new_name(name)
                # A floating parameter is any number here.
                is_any = self.unit.has_floats and isinstance(kind, Floating)
                conversions.append(f"{text} = {any_of(kind) if is_any else new};")
                text = f"{'long' if is_any else passed} {new}"
            self.edits.replace(token, token, text)
        if node.old_style:
            self.edits.cut(node.old_style[0].first, node.old_style[-1].last)
        if conversions:
            self.edits.after(node.body.first, " ".join(conversions))
        self.unit.count("old-style definition")

    def declared(self, node: FunctionDefinition) -> Optional[dict[str, tuple[str, MaybeType]]]:
        """The text and type of each parameter that is declared; None where one can't be written."""
        texts: dict[str, tuple[str, MaybeType]] = {}
        for declaration in node.old_style:
            specifiers = declaration.specifiers
            if specifiers.body is not None and len(declaration.declarators) > 1:
                self.unit.leave(declaration.first, "a struct that is defined among parameters")
                return None
            for declarator in declaration.declarators:
                if declarator.name is not None:
                    text = self.text(specifiers, declarator)
                    texts[declarator.name] = (text, declarator.type)
        return texts

    def text(self, specifiers: Specifiers, declarator: Declarator) -> str:
        """A parameter's declaration."""
        before = ""
        if specifiers.first <= specifiers.last:
            before = self.edits.text_of(specifiers.first, specifiers.last) + " "
        return before + self.edits.text_of(declarator.first, declarator.last)

    def is_passed_as_is(self, node: FunctionDefinition, position: int, kind: MaybeType) -> bool:
        """Whether a prototype before gives the parameter its own narrow type."""
        before = node.declarator.type
        if not isinstance(before, Function) or before.parameters is None:
            return False
        return position < len(before.parameters) and before.parameters[position] is kind


def passed_type(kind: MaybeType) -> Optional[str]:
    """The type as which a narrow parameter is passed, or None where it isn't narrow."""
    if isinstance(kind, Integer) and kind.size < 4:
        return "int"
    return "double" if isinstance(kind, Floating) and kind.size < 8 else None
