"""Reads what callgrind writes: how many instructions go to functions of some names, with all that they call.

`entered(path, labels)` gives the instructions of the whole run, and of each label those of its functions: the cost of each call from a function that
is none of them to one that is. So what calls itself within the label is counted once, and what the label calls again by way of others is counted
with each of these calls.
"""

from pathlib import Path


def name_in(field: str, names: dict[str, str]) -> str:
    """The name of a function; the first time it stands behind its number, then the number stands alone."""
    number, _, name = field.partition(" ")
    if name:
        names[number] = name
    return names.get(number, number)


def calls(path: Path):
    """Each call that was made, as its caller, its callee and what it took, and of each function what it took itself."""
    names: dict[str, str] = {}
    function = callee = ""
    is_call = False
    with open(path, encoding="utf-8", errors="replace") as lines:
        for line in lines:
            first = line[:1]
            if line.startswith("fn="):
                function = name_in(line[3:].strip(), names)
            elif line.startswith("cfn="):
                callee = name_in(line[4:].strip(), names)
            elif line.startswith("calls="):
                is_call = True
            elif first.isdigit() or first in "+-*":
                cost = int(line.split()[1])
                yield function, callee if is_call else "", cost
                is_call = False


def entered(path: Path, labels: dict[str, tuple[str, ...]]) -> tuple[int, dict[str, int]]:
    total, found = 0, dict.fromkeys(labels, 0)
    of_name: dict[str, frozenset[str]] = {}

    def labels_of(name: str) -> frozenset[str]:
        if name not in of_name:
            of_name[name] = frozenset(label for label, beginnings in labels.items() if name.startswith(beginnings))
        return of_name[name]

    for caller, callee, cost in calls(path):
        if not callee:
            total += cost
            continue
        for label in labels_of(callee) - labels_of(caller):
            found[label] += cost
    return total, found
