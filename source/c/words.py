"""Words of C with a meaning of their own."""

STORAGE = frozenset(["typedef", "extern", "static", "auto", "register"])
QUALIFIERS = frozenset(["const", "volatile"])
TYPES = frozenset(
    ["void", "char", "short", "int", "long", "signed", "unsigned", "float", "double", "_Bool"]
)
TAGGED = frozenset(["struct", "union", "enum"])
SPECIFIERS = STORAGE | QUALIFIERS | TYPES | TAGGED
# Words that would begin a declaration, and that nothing here reads.
STRANGE = frozenset(
    ["__typeof__", "__typeof", "typeof", "_Complex", "__complex__", "_Atomic", "_Alignas"]
    + ["_Thread_local", "__thread", "__auto_type", "__label__"]
    + ["__int128", "_Float128", "__float128", "__real__", "__imag__", "__alignof__", "_Alignof"]
)
ASSERTION = "_Static_assert"
GENERIC = "_Generic"
STATEMENTS = frozenset(
    ["if", "else", "while", "do", "for", "switch", "case", "default", "break", "continue"]
    + ["return", "goto"]
)
ASSEMBLY = frozenset(["asm", "__asm", "__asm__"])
FUNCTION_NAMES = frozenset(["__func__", "__FUNCTION__", "__PRETTY_FUNCTION__"])
RESERVED = SPECIFIERS | STRANGE | STATEMENTS | ASSEMBLY | {"sizeof", ASSERTION, GENERIC}
