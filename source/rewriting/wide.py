"""Wide characters become numbers, and wide strings arrays of `int`, which wchar_t is."""

from __future__ import annotations

from c.constants import character_value
from c.placing import Unplaced, place, string_of
from c.trees import Expression, Initialiser
from c.types import Array, MaybeType
from c.wide import wide_values

from .walk import Rewriting


class WideLiterals(Rewriting):
    """A string that starts an array becomes a list; any other a static array with a name."""

    def prepare(self) -> None:
        """No array is declared yet."""
        # By the first token of each string: its array, and the part at file scope that it is in.
        self.arrays: dict[int, tuple[str, int]] = {}

    def expression(self, node: Expression) -> None:
        """A wide literal, or a compound literal that one starts."""
        if node.kind == "literal" and node.values is not None:
            self.values(node.type, node.values)
        is_wide = any(text.startswith("L") for text in self.texts(node))
        if node.kind == "character" and is_wide:
            value = character_value(node.text)
            if value is None:
                self.unit.leave(node.first, "a wide character of more than one")
                return
            self.edits.replace(node.first, node.last, f"{value}" if value >= 0 else f"({value})")
            self.unit.count("wide literal")
        elif node.kind == "string" and is_wide:
            numbers = wide_values(self.texts(node))
            if numbers is None:
                self.unit.leave(node.first, "a wide string whose bytes aren't UTF-8")
                return
            name = self.unit.new_name("wide")
            text = f"static int {name}[{len(numbers) + 1}] = {{ {listed([*numbers, 0])} }};"
            self.arrays[node.first] = text, self.context.first
            self.edits.replace(node.first, node.last, name)
            self.unit.count("wide literal")

    def texts(self, node: Expression) -> list[str]:
        """The spellings of a literal."""
        if node.kind not in ("string", "character"):
            return []
        return self.tokens.values[node.first : node.last + 1]

    def values(self, kind: MaybeType, values: Initialiser) -> None:
        """The arrays that wide strings start."""
        try:
            placed = place(kind, values)
        except Unplaced:
            return
        for part in placed:
            string = string_of(part.type, part.value)
            if string is None or string.first not in self.arrays:
                continue
            numbers = [*(wide_values(self.texts(string)) or []), 0]
            if isinstance(part.type, Array) and part.type.length == len(numbers) - 1:
                # The zero at the end has no room (C90 6.5.7).
                numbers.pop()
            if part.value.expression is None:
                self.edits.replace(string.first, string.last, listed(numbers))
            else:
                self.edits.replace(
                    part.value.first, part.value.last, f"{{ {listed(numbers)} }}"
                )
            del self.arrays[string.first]

    def finish(self) -> None:
        """Declares the arrays that are left, each before its part at file scope."""
        for text, first in self.arrays.values():
            self.edits.before(first, text)


def listed(numbers: list[int]) -> str:
    """Numbers with commas between."""
    return ", ".join(map(str, numbers))
