"""Checks values of JSON by a schema: the words of JSON Schema that tests/report has, no other.

tests/report/sarif.schema.json is that of OASIS for SARIF 2.1.0, as it is.
"""

from __future__ import annotations

import json
import os
import re
from typing import Any

HERE = os.path.dirname(os.path.abspath(__file__))
TYPES: dict[str, Any] = {
    "object": dict, "array": list, "string": str, "boolean": bool, "null": type(None),
}
NUMBERS = frozenset(["integer", "number"])
KNOWN = frozenset(
    "$schema id title description default definitions $ref type required properties"
    " additionalProperties items minItems maxItems uniqueItems enum minimum maximum pattern format"
    " anyOf oneOf".split()
)
# What has one of these forms, as far as it is looked at.
FORMATS = {
    "uri": r"^[a-zA-Z][a-zA-Z0-9+.-]*:[!-~]+$",
    "uri-reference": r"^[!-~]*$",
    "date-time": r"^[0-9]{4}(-[0-9]{2}){2}T[0-9]{2}(:[0-9]{2}){2}",
}


def schema(name: str) -> Any:
    """A schema of tests/report."""
    with open(os.path.join(HERE, "report", f"{name}.schema.json"), encoding="utf-8") as file:
        return json.load(file)


def schema_faults(value: Any, rule: Any, root: Any, path: str = "") -> list[str]:
    """The paths at which a value doesn't meet a rule of a schema, and why."""
    if "$ref" in rule:
        return schema_faults(value, root["definitions"][rule["$ref"].rsplit("/", 1)[1]], root, path)
    faults = [f"{path}: no rule for {word}" for word in rule if word not in KNOWN]
    if "enum" in rule and value not in rule["enum"]:
        faults.append(f"{path}: {value!r} is none of {rule['enum']}")
    is_number = isinstance(value, int) and not isinstance(value, bool)
    if not is_of_type(value, rule.get("type"), is_number):
        return [*faults, f"{path}: {value!r} is no {rule['type']}"]
    faults += choice_faults(value, rule, root, path)
    if is_number and not rule.get("minimum", value) <= value <= rule.get("maximum", value):
        faults.append(f"{path}: {value} is out of range")
    if isinstance(value, str):
        form = FORMATS[rule["format"]] if "format" in rule else ""
        for pattern in (rule.get("pattern", ""), form):
            if not re.search(pattern, value):
                faults.append(f"{path}: {value!r} isn't {pattern}")
    if isinstance(value, list):
        faults += item_faults(value, rule, root, path)
    if isinstance(value, dict):
        faults += member_faults(value, rule, root, path)
    return faults


def is_of_type(value: Any, kinds: Any, is_number: bool) -> bool:
    """Whether a value has the type, or one of the types, that a rule tells, if it tells one."""
    if kinds is None:
        return True
    names = [kinds] if isinstance(kinds, str) else kinds
    return any(is_number if name in NUMBERS else isinstance(value, TYPES[name]) for name in names)


def choice_faults(value: Any, rule: Any, root: Any, path: str) -> list[str]:
    """The same of rules of which a value has to meet one at least, or one alone."""
    faults = []
    for word in ("anyOf", "oneOf"):
        choices = rule.get(word)
        if choices is not None:
            met = sum(not schema_faults(value, choice, root, path) for choice in choices)
            if met < 1 or (word == "oneOf" and met > 1):
                faults.append(f"{path}: {met} of {word}")
    return faults


def item_faults(value: list[Any], rule: Any, root: Any, path: str) -> list[str]:
    """The same of an array's items."""
    faults = []
    if not rule.get("minItems", 0) <= len(value) <= rule.get("maxItems", len(value)):
        faults.append(f"{path}: {len(value)} items")
    different = {json.dumps(each, sort_keys=True) for each in value}
    if rule.get("uniqueItems") and len(different) < len(value):
        faults.append(f"{path}: an item stands twice")
    for number, item in enumerate(value):
        faults += schema_faults(item, rule.get("items", {}), root, f"{path}/{number}")
    return faults


def member_faults(value: dict[str, Any], rule: Any, root: Any, path: str) -> list[str]:
    """The same of an object's members."""
    faults = [f"{path}: no {name}" for name in rule.get("required", []) if name not in value]
    for name, member in value.items():
        inner = rule.get("properties", {}).get(name, rule.get("additionalProperties", {}))
        if inner is False:
            faults.append(f"{path}: {name} is too much")
        elif inner is not True:
            faults += schema_faults(member, inner, root, f"{path}/{name}")
    return faults
