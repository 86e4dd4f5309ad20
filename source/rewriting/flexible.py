"""Flexible members (C99 6.7.2.1): `T x[];` at the end of a struct.

Where one element doesn't change the size, the member gets one: an index past 0 is an alarm. Else
the member goes, and `p->x` becomes a pointer of type `T *` that many bytes behind `p`.
"""

from __future__ import annotations

from typing import Optional

from c.trees import Expression, RecordBody, records_of
from c.types import Array, Member, Record, layout_of, layout_of_members

from .spelled import spelled
from .walk import Rewriting


def flexible_member(record: Record) -> Optional[Member]:
    """The flexible member of a struct."""
    last = record.members[-1] if record.members else None
    if last is None or record.word != "struct" or not isinstance(last.type, Array):
        return None
    return last if last.type.length is None else None


def takes_one(record: Record, member: Member) -> bool:
    """Whether the size stays where the flexible member has one element."""
    element = member.type.element if isinstance(member.type, Array) else None
    return keeps_layout(record, [member._replace(type=Array(element, 1))])


def keeps_layout(record: Record, last: list[Member]) -> bool:
    """Whether size and alignment stay with these members in place of the last."""
    before = layout_of(record)
    after = layout_of_members(record.word, [*(record.members or [])[:-1], *last])
    if before is None or after is None:
        return False
    return (before.size, before.alignment) == (after.size, after.alignment)


class FlexibleMembers(Rewriting):
    """Rewrites the members, and the expressions that name those that go."""

    def record(self, node: RecordBody) -> None:
        """The members of a struct."""
        member = flexible_member(node.record)
        if member is None:
            return
        declaration = node.members[-1]
        if takes_one(node.record, member):
            self.edits.after(member.token + 1, "1")
        elif self.may_go(node.record, member) and len(declaration.declarators) == 1:
            self.edits.cut(declaration.first, declaration.last)
        else:
            self.unit.leave(member.token, "a flexible member that changes the size")
            return
        self.unit.count("flexible member")

    def may_go(self, record: Record, member: Member) -> bool:
        """Whether a member can be written without its struct, which stays as large."""
        element = member.type.element if isinstance(member.type, Array) else None
        return spelled(element) is not None and keeps_layout(record, [])

    def expression(self, node: Expression) -> None:
        """A flexible member that has gone."""
        if node.kind != "member" or not node.path:
            return
        member, records = node.path[-1], records_of(node)
        record = records[-1]
        if not isinstance(member.type, Array) or record is None:
            return
        if member is not flexible_member(record) or takes_one(record, member):
            return
        offset = offset_along(records, node.path)
        text = spelled(member.type.element)
        if offset is None or text is None or not self.may_go(record, member):
            return
        base = node.parts[0]
        address = "" if node.text == "->" else "&"
        self.edits.cut(base.last + 1, node.last)
        self.edits.around(
            node.first, node.last, f"(({text} *)((char *){address}(", f") + {offset}))"
        )


def offset_along(records: list[Optional[Record]], path: list[Member]) -> Optional[int]:
    """The offset of a path's last member from the first record."""
    offset = 0
    for record, member in zip(records, path):
        layout = None if record is None else layout_of(record)
        if record is None or layout is None:
            return None
        members = record.members or []
        position = next(at for at, other in enumerate(members) if other is member)
        offset += layout.offsets[position] // 8
    return offset
