"""Where the shared object is looked for, and what the package says if it is not there."""
import os
import re
import shutil
import subprocess
import sys
from pathlib import Path
from typing import Dict, Optional

import pytest

import mehdalung
from mehdalung import _cdb, _library

SOURCE = Path(mehdalung.__file__).resolve().parent
PROJECT = Path(__file__).resolve().parents[1]
WHICH = "from mehdalung import _library; print(_library.LIBRARY._name)"


def in_python(folder: Path, code: str, library: Optional[str] = None) -> subprocess.CompletedProcess:
    """Runs code with the package in a folder, and MEHDALUNG_LIBRARY if it has a value."""
    settings: Dict[str, str] = {**os.environ, "PYTHONPATH": str(folder), "PYTHONDONTWRITEBYTECODE": "1"}
    settings.pop("MEHDALUNG_LIBRARY", None)
    settings.pop("LD_LIBRARY_PATH", None)
    if library is not None:
        settings["MEHDALUNG_LIBRARY"] = library
    return subprocess.run([sys.executable, "-c", code], env=settings, capture_output=True, text=True)


@pytest.fixture
def copied(tmp_path: Path) -> Path:
    """The folder of a copy of the package, as in a repository without anything built."""
    folder = tmp_path / "embed/python/src"
    shutil.copytree(SOURCE, folder / "mehdalung", ignore=shutil.ignore_patterns("*.so.1", "__pycache__"))
    return folder


@pytest.fixture
def shared_object() -> Path:
    path = Path(_library.LIBRARY._name)
    if not path.is_file():
        pytest.skip("the system's loader finds the library, so its path is not known")
    return path.resolve()


def test_the_order(copied: Path, tmp_path: Path, shared_object: Path) -> None:
    embed = tmp_path / "embed"
    (embed / "build").mkdir()
    shutil.copy(shared_object, embed / "build/libmehdalung.so")
    # no header: this is not the repository's folder
    assert str(embed) not in in_python(copied, WHICH).stdout
    (embed / "mehdalung.h").touch()
    assert in_python(copied, WHICH).stdout.strip() == str(embed / "build/libmehdalung.so")
    shutil.copy(shared_object, copied / "mehdalung/libmehdalung.so.1")
    assert in_python(copied, WHICH).stdout.strip() == str(copied / "mehdalung/libmehdalung.so.1")
    named = str(shutil.copy(shared_object, tmp_path / "named.so"))
    assert in_python(copied, WHICH, named).stdout.strip() == named


def test_the_one_of_the_system_is_the_last(copied: Path) -> None:
    ended = in_python(copied, WHICH)
    if ended.returncode == 0:
        assert ended.stdout.strip() == "libmehdalung.so.1"
    else:
        assert "ImportError: The library for C can't be loaded: libmehdalung.so.1: " in ended.stderr


def test_a_library_that_is_not_there_or_too_old(copied: Path, tmp_path: Path) -> None:
    ended = in_python(copied, WHICH, str(tmp_path / "none.so"))
    assert ended.returncode == 1 and "ImportError: The library for C can't be loaded: " in ended.stderr
    assert all(it in ended.stderr for it in ("none.so", "make -C embed", "MEHDALUNG_LIBRARY"))
    ended = in_python(copied, WHICH, "libc.so.6")
    assert "ImportError: libc.so.6 is too old: it has no mdl_make." in ended.stderr


def test_the_version_is_that_of_the_library() -> None:
    project = re.search(r'(?m)^version = "(.*)"$', (PROJECT / "pyproject.toml").read_text())
    assert project and mehdalung.version().startswith(f"mehdalung {project[1]}, ")


def test_the_names_of_the_module_are_still_here() -> None:
    """The public names of the module that the package was."""
    names = """INITIATORS BUFFER_LENGTH DATA_OUT_LENGTH NO_TEXT ANY_PROFILE GOOD CHECK_CONDITION
        RESERVATION_CONFLICT BUSY TASK_SET_FULL NO_REPLY Error Profile FaultOutcome Happening Kind Refused
        Slot IdentityRecord ReplyRecord Fault HappeningRecord Damage Command Sense read_happening decode
        version identity identity_of_seed Reply Disk"""
    assert set(names.split()) <= set(mehdalung.__all__)
    of_own_use = "LIBRARY load check within mask_of words_of text_of"
    assert all(hasattr(mehdalung, it) for it in of_own_use.split())
    assert all(hasattr(mehdalung, it) for it in mehdalung.__all__)
    assert len(mehdalung.__all__) == len(set(mehdalung.__all__))


def test_the_numbers_of_the_header() -> None:
    header = (PROJECT.parent / "mehdalung.h").read_text(encoding="utf-8")
    names = "BLOCK_LENGTH INITIATORS MOST_INITIATORS BUFFER_LENGTH DATA_OUT_LENGTH ANY_PROFILE"
    of_package = {"BLOCK_LENGTH": _cdb.BLOCK_LENGTH, **vars(mehdalung)}
    for name in names.split():
        number = re.search(rf"(?m)^#define MDL_{name} (\w+?)u?$", header)
        assert number and of_package[name] == int(number[1], 0), name
