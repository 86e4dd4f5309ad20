"""What tests of source/ tell of their rows: the faults, and how many passed."""

from __future__ import annotations


def tell(faults: dict[str, str]) -> int:
    """Prints each row that has a fault, and the count; gives the status."""
    wrong = {name: fault for name, fault in faults.items() if fault}
    for name, fault in wrong.items():
        print(f"FAILED {name}\n{fault}")
    print(f"{len(faults) - len(wrong)} passed, {len(wrong)} failed")
    return int(bool(wrong))
