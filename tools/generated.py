"""Writes the files that a script generates, or checks that they are what it would write."""

import difflib
import sys
from pathlib import Path
from typing import Dict


def write_or_check(folder: Path, texts: Dict[str, str], usage: str) -> int:
    """Writes texts by their paths in a folder. With the argument --check it prints how the files there
    differ from the texts, and returns 1 if one does."""
    if sys.argv[1:] not in ([], ["--check"]):
        sys.exit(usage)
    differ = False
    for name, text in texts.items():
        path = folder / name
        if not sys.argv[1:]:
            path.write_text(text, encoding="utf-8")
            continue
        written = path.read_text(encoding="utf-8") if path.exists() else ""
        differ |= written != text
        sys.stdout.writelines(difflib.unified_diff(
            written.splitlines(keepends=True), text.splitlines(keepends=True), name,
            f"what {sys.argv[0]} writes"))
    return int(differ)
