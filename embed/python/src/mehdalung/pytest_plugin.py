"""Fixtures for pytest, and what a failed assertion prints of replies: docs/PYTHON.md."""
from __future__ import annotations  # pytest 6 lacks names of these

from itertools import zip_longest
from typing import Iterator, List, Optional, Tuple

import pytest

from ._library import Profile
from .disk import Disk, Initiator, Reply, identity_of_seed

# The most lines that a failed comparison prints without -vv. pytest may print fewer.
MOST_LINES = 20


def pytest_configure(config: pytest.Config) -> None:
    config.addinivalue_line(
        "markers", "scsi_disk(blocks=4096, pool=1024, profile=Profile.EXTENDED, seed=1): the disk "
        "that the fixtures scsi_disk and two_initiators make")


def make_disk(*, blocks: int = 4096, pool: int = 1024, profile: int = Profile.EXTENDED,
              seed: int = 1) -> Disk:
    """Makes the disk that a marker asks for."""
    return Disk(blocks, pool, identity_of_seed(seed), profile)


@pytest.fixture
def scsi_disk(request: pytest.FixtureRequest) -> Iterator[Disk]:
    """A new disk in memory, an extended one. The marker scsi_disk chooses its blocks, pool, profile
    and seed. A unit attention, POWER ON, is pending for each initiator."""
    marker = request.node.get_closest_marker("scsi_disk")
    with make_disk(*marker.args, **marker.kwargs) if marker else make_disk() as disk:
        yield disk


@pytest.fixture
def two_initiators(scsi_disk: Disk) -> Tuple[Initiator, Initiator]:
    """Initiators 0 and 1 of the same disk, which have taken their unit attentions."""
    pair = scsi_disk.initiator(0), scsi_disk.initiator(1)
    for initiator in pair:
        initiator.test_unit_ready()
    return pair


def headline(value: object) -> str:
    """A reply without what its sense data and its data-in contain, and any other value."""
    return f"<Reply {value.headline()}>" if isinstance(value, Reply) else repr(value)


def described(left: object, right: object) -> List[str]:
    """A reply and another value, line for line. Of two replies only the lines that differ."""
    ours, theirs = (it.lines() if isinstance(it, Reply) else [repr(it)] for it in (left, right))
    both_replies = isinstance(left, Reply) and isinstance(right, Reply)
    lines = []
    for our, their in zip_longest(ours, theirs):
        if our != their or not both_replies:
            lines += [f"left:  {our}"] * (our is not None) + [f"right: {their}"] * (their is not None)
    return lines


def pytest_assertrepr_compare(config: pytest.Config, op: str, left: object,
                              right: object) -> Optional[List[str]]:
    """The lines that pytest prints of a comparison with a reply that has failed. Of the comparison of
    a status pytest itself prints the reply."""
    if not isinstance(left, Reply) and not isinstance(right, Reply):
        return None
    lines = [f"{headline(left)} {op} {headline(right)}"]
    if isinstance(left, Reply) and isinstance(right, Reply):
        names = [it for it in Reply._fields if getattr(left, it) != getattr(right, it)]
        lines += [f"they differ in {', '.join(names)}"] if names else ["they are equal"]
    lines += described(left, right)
    most = len(lines) if config.getoption("verbose") > 1 else MOST_LINES
    return lines[:most] + [".."] * (len(lines) > most)
