#!/usr/bin/env python3
"""form.py FILE..: looks at the form of Python files, and ends with 1 where something is wrong.

A file parses, has a head that says what it does (a script in bin/ or bench/ one of five lines or more), no function
of 40 lines, no line of more than 118 marks, and imports nothing from outside the standard library and bin/office.
"""

import ast
import os
import sys

OWN = {"office"}
SCRIPTS = {"bin", "bench"}


def imports(tree):
    """The first words of what a module imports."""
    for node in ast.walk(tree):
        if isinstance(node, ast.Import):
            yield from (it.name.split(".")[0] for it in node.names)
        elif isinstance(node, ast.ImportFrom) and not node.level:
            yield node.module.split(".")[0]


def head(lines):
    """How many comments stand below the first line of a script."""
    count = 0
    while lines[1 + count : 2 + count] and lines[1 + count].startswith("# "):
        count += 1
    return count


def faults(path):
    """What is wrong with the form of a file."""
    with open(path, encoding="utf-8") as file:
        text = file.read()
    try:
        tree = ast.parse(text)
    except SyntaxError as error:
        return [f"line {error.lineno} does not parse"]
    lines = text.splitlines()
    is_script = os.path.basename(os.path.dirname(os.path.abspath(path))) in SCRIPTS
    found = [f"line {at} has {len(line)} marks" for at, line in enumerate(lines, 1) if len(line) > 118]
    if ast.get_docstring(tree) is None and (head(lines) < 5 or not is_script):
        found.append("has no head that says what it does")
    for node in ast.walk(tree):
        if isinstance(node, ast.FunctionDef) and node.end_lineno - node.lineno + 1 >= 40:
            found.append(f"{node.name} has {node.end_lineno - node.lineno + 1} lines")
    foreign = sorted({*imports(tree)} - {*sys.stdlib_module_names} - OWN)
    return found + [f"imports {it}" for it in foreign]


def main():
    found = [f"{path}: {it}" for path in sys.argv[1:] for it in faults(path)]
    for it in found:
        print(it, file=sys.stderr)
    sys.exit(1 if found else 0)


main()
