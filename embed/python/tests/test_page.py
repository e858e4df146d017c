"""The examples of docs/PYTHON.md: each test passes, and the tests that fail print what the page shows."""
import re
from pathlib import Path
from typing import Dict, List

import pytest

PAGE = Path(__file__).resolve().parents[3] / "docs/PYTHON.md"
PLUGINS = ("-p", "mehdalung.pytest_plugin", "-p", "no:cacheprovider")


def blocks() -> List[str]:
    """The indented blocks of the page, without their indents."""
    found = re.findall(r"(?m)(?:^    .*\n(?:\n(?=    ))*)+", PAGE.read_text(encoding="utf-8"))
    return [re.sub(r"(?m)^    ", "", it) for it in found]


def files() -> Dict[str, str]:
    """The examples by the names of their files, which are in their first lines."""
    named = [(re.match(r"# (test_\w+)\.py\n", it), it) for it in blocks()]
    return {name[1]: text for name, text in named if name}


def test_each_example_passes(pytester: pytest.Pytester) -> None:
    passing = {name: text for name, text in files().items() if name != "test_wrong"}
    pytester.makepyfile(**passing)
    tests = sum(len(re.findall(r"(?m)^def test_", text)) for text in passing.values())
    assert len(passing) == 5 and tests == 9
    pytester.runpytest_inprocess(*PLUGINS, "--strict-markers").assert_outcomes(passed=tests)


def test_the_others_print_what_the_page_shows(pytester: pytest.Pytester) -> None:
    pytester.makepyfile(test_wrong=files()["test_wrong"])
    result = pytester.runpytest_inprocess(*PLUGINS)
    result.assert_outcomes(failed=3)
    shown = [it for it in blocks() if it.startswith("E  ")]
    printed = "".join(f"{it}\n" for it in result.outlines if it.startswith("E  "))
    assert shown == [printed]


def test_each_python_block_is_tried() -> None:
    """No block of Python is left out because its first line is not a name."""
    of_python = [it for it in blocks() if re.search(r"(?m)^(def|from|import|class) ", it)]
    assert of_python == list(files().values())
