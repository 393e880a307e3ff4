"""Checks a script; if it is accepted, runs it for at most 1,000 steps and prints the values of main's variables.

    python3 license.py FILE
"""

import sys

import nuyardi


def license(name: str) -> int:
    with open(name, "rb") as file:
        ended = nuyardi.run(file.read(), 1_000)
    if ended.refused:
        print(f"{name}: {ended}", file=sys.stderr)
        return 1
    print(f"line {ended.line} after {ended.steps} steps: {ended.number.meaning}")
    for variable in ended.variables:
        print(f"{variable.name} = {variable.value}")
    return 0 if ended.finished else 1


if __name__ == "__main__":
    if len(sys.argv) != 2:
        sys.exit("license.py FILE: a script to check and run")
    sys.exit(license(sys.argv[1]))
