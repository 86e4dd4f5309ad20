"""Puts models in the place of calls of the library, in all units of a program together."""

from __future__ import annotations

import re
from typing import Optional

from c.fresh import FreshNames
from c.types import Function
from contexts.functions import Call, ContextUnit

from .changes import Changes
from .instance import Instance, Unfit
from .table import Model, models

# The calls of a program that get a model at most.
MOST = 4000
# The word for an object that the calls of several functions share.
RECORD = "RECORD"
# What models call.
CALLED = re.compile(r"\b(memset|memmove|strlen|malloc)\(")


class Modeller:
    """Makes the models of a program's calls."""

    def __init__(self, units: list[ContextUnit]) -> None:
        candidates = [each for unit in units for each in unit.candidates]
        shared = {each.name for each in candidates if not each.is_static}
        own = {(id(each.unit), each.name) for each in candidates}
        self.models = models()
        self.fresh = FreshNames({name for unit in units for name in unit.names})
        self.count = 0
        # The objects that calls of a function share, by its name, and the units that declare them.
        self.owned: dict[str, str] = {}
        self.declaring: set[tuple[int, str]] = set()
        # The functions that files define: for all of them, and each for itself.
        self.shared, self.own = shared, own

    def add(self, unit: ContextUnit, changes: Changes) -> set[str]:
        """Puts the models of a unit's calls before the functions that call them, and tells what
        they call."""
        called: set[str] = set()
        for caller in unit.candidates:
            before = caller.node.first
            made = [self.instance(unit, before, call, changes) for call in caller.calls]
            written = "".join(filter(None, made))
            if written:
                changes.before(before, written)
                called.update(CALLED.findall(written))
        return called

    def instance(
        self, unit: ContextUnit, before: int, call: Call, changes: Changes
    ) -> Optional[str]:
        """The model of a call, which gets its name; None where the call has none."""
        model = None if call.is_indirect else self.model_of(unit, call)
        known = unit.scope.names.get(call.name)
        if model is None or known is None or self.count == MOST:
            return None
        if not isinstance(known.type, Function):
            return None
        shared = shared_by(call.name, model)
        try:
            made = Instance(unit, call, known.type, model)
            own, head = self.owned_by(unit, shared, made.target(before))
            text = made.text(self.fresh.make(call.name), before, own)
        except Unfit:
            return None
        if own:
            self.owned[shared] = own
            self.declaring.add((id(unit), shared))
        self.count += 1
        changes.replace(call.token, call.token, made.name)
        if made.first:
            changes.before(call.token, f"({made.first}, ")
            changes.after(call.last, ")")
        return head + text

    def model_of(self, unit: ContextUnit, call: Call) -> Optional[Model]:
        """The model of what a call calls, where no file defines that."""
        model = self.models.get(call.name)
        is_defined = call.name in self.shared or (id(unit), call.name) in self.own
        return None if is_defined else model

    def owned_by(self, unit: ContextUnit, shared: str, target: str) -> tuple[str, str]:
        """The name of what calls share, and its declaration where the unit has none yet: the first
        of the program defines it."""
        if not shared:
            return "", ""
        kind = target if shared == RECORD else "char *"
        if (id(unit), shared) in self.declaring:
            return self.owned[shared], ""
        if shared in self.owned:
            return self.owned[shared], f"\nextern {kind} {self.owned[shared]};"
        own = self.fresh.make(f"{shared.lower()}__shared")
        return own, f"\n{kind} {own};"


def shared_by(name: str, model: Model) -> str:
    """What the calls of a function share: an object of its own, or that of several; or nothing."""
    if RECORD in model.body:
        return RECORD
    return name if "OWN" in model.body else ""
