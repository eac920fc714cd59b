"""Which files of `tools` a command needs: its script, the modules that it imports, those that these do, and what lies beside them."""

from __future__ import annotations

import ast
from collections.abc import Iterator
from pathlib import Path


def needed(tools: Path, commands: list[str]) -> set[Path]:
    """The files that these commands need, which are scripts in the folder of the tools."""
    found: set[Path] = set()
    waiting = [tools / it for it in commands]
    while waiting:
        file = waiting.pop()
        if file in found:
            continue
        found.add(file)
        if file.suffix in ("", ".py"):
            waiting += [it for name in imported(file) for it in files_of(tools, name)]
    return found


def imported(file: Path) -> Iterator[str]:
    """The names that a file imports, wherever it does: of modules, and of what may be one."""
    text = file.read_text("utf-8")
    if file.suffix != ".py" and "python3" not in text.partition("\n")[0]:
        return
    for node in ast.walk(ast.parse(text)):
        if isinstance(node, ast.Import):
            yield from (it.name for it in node.names)
        elif isinstance(node, ast.ImportFrom) and node.module:
            yield node.module
            yield from (f"{node.module}.{it.name}" for it in node.names)


def files_of(tools: Path, name: str) -> Iterator[Path]:
    """The files of a module: itself, and what it needs of the folder that it lies in, which may hold files that are no modules."""
    *folders, last = name.split(".")
    module = tools.joinpath(*folders, f"{last}.py")
    if not module.is_file():
        module = tools.joinpath(*folders, last, "__init__.py")
    if module.is_file():
        yield module
        if module.parent != tools:
            yield module.parent / "__init__.py"
            yield from (it for it in module.parent.iterdir() if it.is_file() and it.suffix != ".py" and it.suffix != ".pyc")
