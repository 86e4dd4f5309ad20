"""Structs and unions that are members without a name (C11 6.7.2.1) get one."""

from __future__ import annotations

from c.trees import Expression, RecordBody, records_of
from c.types import Member, Record

from .walk import Rewriting


def name_of(record: Record, member: Member) -> str:
    """The name of a member without one: its position tells, so all units agree."""
    members = record.members or []
    position = next(number for number, other in enumerate(members) if other is member)
    return f"unnamed__{position}"


class UnnamedMembers(Rewriting):
    """Writes the names where they are declared, and on the way to what is inside."""

    def record(self, node: RecordBody) -> None:
        """The members of a record."""
        by_token = {
            member.token: member for member in node.record.members or [] if is_unnamed(member)
        }
        for declaration in node.members:
            member = by_token.get(declaration.specifiers.first)
            if member is not None and not declaration.declarators:
                self.edits.before(declaration.last, name_of(node.record, member))
                self.unit.count("member without a name")

    def expression(self, node: Expression) -> None:
        """A member that lies in one without a name."""
        if node.kind != "member" or len(node.path) < 2:
            return
        for record, member in zip(records_of(node), node.path[:-1]):
            if record is not None:
                self.edits.before(node.last, f"{name_of(record, member)} .")


def is_unnamed(member: Member) -> bool:
    """Whether a member is a struct or union without a name."""
    return member.name is None and member.width is None
