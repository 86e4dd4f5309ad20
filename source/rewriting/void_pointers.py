"""Steps of a `void *` are bytes in GNU C: they become those of a `char *`."""

from __future__ import annotations

from c.rules import value_type
from c.trees import Expression
from c.types import Pointer, Void

from .small_forms import is_repeatable
from .walk import Rewriting


def is_void_pointer(node: Expression) -> bool:
    """Whether an operand points to void."""
    kind = value_type(node)
    return isinstance(kind, Pointer) and isinstance(kind.target, Void)


class VoidPointers(Rewriting):
    """Casts operands to `char *`, and results back."""

    def expression(self, node: Expression) -> None:
        """A sum, a difference, an assignment or a step."""
        if node.kind == "binary" and node.text in ("+", "-"):
            operands = [part for part in node.parts if is_void_pointer(part)]
            for part in operands:
                self.edits.around(part.first, part.last, "((char *)(", "))")
            if operands and is_void_pointer(node):
                self.edits.around(node.first, node.last, "((void *)(", "))")
            if operands:
                self.unit.count("step of a void pointer")
        elif node.kind in ("prefix", "postfix") or node.text in ("+=", "-="):
            if is_void_pointer(node.parts[0]):
                self.step(node, node.parts[0])

    def step(self, node: Expression, target: Expression) -> None:
        """`p += n`, `++p` or `p++`, where `p` may be evaluated twice."""
        if not is_repeatable(target):
            self.unit.leave(node.first, "a step of a void pointer that has an effect")
            return
        sum_ = f"(void *)((char *)({self.edits.copy_of(target.first, target.last)}) {node.text[0]}"
        self.unit.count("step of a void pointer")
        if node.kind == "assign":
            right = node.parts[1]
            self.edits.replace(target.last + 1, target.last + 1, "=")
            self.edits.around(right.first, right.last, f"{sum_} (", "))")
            return
        operator = node.first if node.kind == "prefix" else node.last
        self.edits.cut(operator, operator)
        self.edits.around(node.first, node.last, "(", f"= {sum_} 1))")
        if node.kind == "postfix":
            back = "-" if node.text == "++" else "+"
            self.edits.around(node.first, node.last, "((void *)((char *)", f"{back} 1))")
