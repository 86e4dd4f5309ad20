"""What is said of the forms that were rewritten: each by its name for one and for more."""

from __future__ import annotations

FORMS = {
    "long long": "long long",
    "old-style definition": "old-style definitions",
    "variadic definition": "variadic definitions",
    "declaration behind a statement": "declarations behind statements",
    "declaration in a for": "declarations in a for",
    "comma at the end of an enum": "commas at the end of an enum",
    "enum before its constants": "enums before their constants",
    "label at the end of a block": "labels at the end of a block",
    "range of cases": "ranges of cases",
    "name of a function": "names of functions",
    "condition without a middle": "conditions without a middle",
    "flexible member": "flexible members",
    "type left out": "types left out",
    "typedef in a function": "typedefs in functions",
    "name that hides a type": "names that hide types",
    "designated initialiser": "designated initialisers",
    "empty initialiser": "empty initialisers",
    "compound literal": "compound literals",
    "member without a name": "members without a name",
    "struct with bit-fields": "structs with bit-fields",
    "block in an expression": "blocks in expressions",
    "function called before its definition": "functions called before their definition",
    "offset": "offsets",
    "builtin function": "builtin functions",
    "step of a void pointer": "steps of void pointers",
    "empty asm": "empty asm",
    "static assertion": "static assertions",
    "_Generic": "_Generic",
    "wide literal": "wide literals",
    "file with _Bool": "files with _Bool",
    "file with floating numbers": "files with floating numbers",
}


def told(counts: dict[str, int]) -> str:
    """How often each form was rewritten, in the order above."""
    return ", ".join(
        f"{counts[form]} {form if counts[form] == 1 else plural}"
        for form, plural in FORMS.items()
        if counts.get(form)
    )
