"""The kinds of warnings, in the order of a place, and what each says."""

OVERRUN = "buffer-overrun"
ZERO = "zero-divisor"
NULL = "null-pointer"
UNKNOWN = "unknown-pointer"
NO_FUNCTION = "no-function"
PUNNED = "punned-access"
# A refusal isn't a warning, but has a place like one.
REFUSED = "refused"

KINDS = {
    OVERRUN: "An access may leave its object.",
    ZERO: "A divisor may be 0.",
    NULL: "What is followed may be the null pointer.",
    UNKNOWN: "What is followed may be a number that is no pointer.",
    NO_FUNCTION: "What is called may be no function of as many parameters.",
    PUNNED: "Elements may be accessed as a type that doesn't match.",
}
