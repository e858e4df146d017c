"""The made rows: a module for each folder, and in it a function for each row, or for some alike.

A function yields the lines of the row's script. Its docstring says what the row shows and why, with
the section of the standard. The expected text is what the model says of the script.
"""

from dataclasses import dataclass
from importlib import import_module
from pathlib import Path
from typing import Callable

ROWS = {}
DEFAULT_BLOCKS, DEFAULT_POOL = 4096, 4  # of sgrun (docs/SCRIPT.md, "Options")


@dataclass(frozen=True)
class Row:
    name: str
    lines: Callable
    blocks: int
    pool: int
    profile: str  # of the disk that the row needs

    def script(self):
        return "".join(line + "\n" for line in self.lines()).encode("ascii")

    def listed(self):
        """The row's line in the list of rows."""
        is_default = (self.blocks, self.pool) == (DEFAULT_BLOCKS, DEFAULT_POOL)
        return self.name + ("" if is_default else f" {self.blocks} {self.pool}")


def row(name, *parameters, blocks=DEFAULT_BLOCKS, pool=DEFAULT_POOL, profile="base"):
    """Makes the function below it the lines of a row; `parameters` are passed to it."""
    def keep(lines):
        assert name not in ROWS, f"{name} is made twice"
        ROWS[name] = Row(name, lambda: lines(*parameters), blocks, pool, profile)
        return lines
    return keep


def all_rows():
    """All rows by their names, after reading the module of each folder."""
    for module in sorted(Path(__file__).parent.glob("*.py")):
        if module.stem not in ("__init__", "lines"):
            import_module(f"rows_of.{module.stem}")
    return ROWS
