"""The fixtures, the marker, and what a failed assertion prints: tests that run pytest."""
from typing import Tuple

import pytest

PLUGINS = ("-p", "mehdalung.pytest_plugin", "-p", "no:cacheprovider")


def run(pytester: pytest.Pytester, text: str, *options: str) -> pytest.RunResult:
    pytester.makepyfile(text)
    return pytester.runpytest_inprocess(*PLUGINS, *options)


USES_OF_FIXTURES = """
import pytest
from mehdalung import Disk, Initiator, Profile

def capacity(disk):
    disk.forget(7)
    return int.from_bytes(disk.initiator(7).read_capacity10().check().data_in[:4], "big") + 1

def serial(disk):
    return disk.initiator(7).inquiry(evpd=True, page_code=0x80).check().data_in[4:]

def test_of_default(scsi_disk):
    assert isinstance(scsi_disk, Disk) and capacity(scsi_disk) == 4096
    assert serial(scsi_disk) == b"00000001"
    assert scsi_disk.initiator(0).test_unit_ready().asc == 0x29
    assert scsi_disk.initiator(1).report_luns().is_good
    assert scsi_disk.initiator(7).write10(0, bytes(1024 * 512)).is_good
    assert scsi_disk.initiator(7).write10(1024, bytes(512)).sense_key == 7

@pytest.mark.scsi_disk(blocks=100, pool=3, profile=Profile.BASE, seed=0xF00D)
def test_with_a_marker(scsi_disk):
    assert capacity(scsi_disk) == 100 and serial(scsi_disk) == b"0000f00d"
    assert scsi_disk.initiator(7).report_luns().asc == 0x20
    assert scsi_disk.initiator(7).write10(0, bytes(3 * 512)).is_good
    assert scsi_disk.initiator(7).write10(3, bytes(512)).sense_key == 7

@pytest.mark.scsi_disk(blocks=50)
class TestOfAClass:
    def test_here(self, scsi_disk):
        assert capacity(scsi_disk) == 50

    @pytest.mark.scsi_disk(blocks=60)
    def test_nearer(self, scsi_disk):
        assert capacity(scsi_disk) == 60

def test_two(two_initiators, scsi_disk):
    first, second = two_initiators
    assert (first.number, second.number) == (0, 1)
    assert first.disk is scsi_disk and second.disk is scsi_disk
    assert first.test_unit_ready().is_good and second.test_unit_ready().is_good
    assert scsi_disk.initiator(2).test_unit_ready().asc == 0x29

KEPT = []

def test_a_new_disk(scsi_disk):
    KEPT.append(scsi_disk)

def test_for_each_test(scsi_disk):
    assert KEPT[0] is not scsi_disk and not KEPT[0].slot.target

def test_that_closes_it(scsi_disk):
    scsi_disk.close()
"""


def test_the_fixtures(pytester: pytest.Pytester) -> None:
    run(pytester, USES_OF_FIXTURES, "--strict-markers").assert_outcomes(passed=8)


def test_a_marker_with_another_word_is_an_error(pytester: pytest.Pytester) -> None:
    result = run(pytester, """
        import pytest

        @pytest.mark.scsi_disk(block=100)
        def test_it(scsi_disk): pass

        @pytest.mark.scsi_disk(100)
        def test_that(scsi_disk): pass
    """)
    result.assert_outcomes(errors=2)
    result.stdout.fnmatch_lines(["*unexpected keyword argument 'block'*"])


def test_the_marker_is_listed(pytester: pytest.Pytester) -> None:
    result = pytester.runpytest_inprocess(*PLUGINS, "--markers")
    result.stdout.fnmatch_lines(["@pytest.mark.scsi_disk(blocks=4096, pool=1024, "
                                 "profile=Profile.EXTENDED, seed=1): *"])


FAILING = """
from mehdalung import CHECK_CONDITION

def test_status(two_initiators):
    first, _ = two_initiators
    first.disk.arm(6, lba=7, count=1, key=3, asc=0x11)
    assert first.read10(5, 3).status == 0

def test_good(scsi_disk):
    reply = scsi_disk.initiator(5).test_unit_ready()
    assert reply.is_good

def test_another_status(two_initiators):
    assert two_initiators[0].test_unit_ready().status == CHECK_CONDITION

def test_replies(two_initiators):
    first, second = two_initiators
    first.write10(0, bytes([0xAB]) * 512).check()
    assert first.read10(0) == second.read10(1)

def test_no_reply(two_initiators):
    first, second = two_initiators
    assert first.read_capacity10() == b"data"

def test_many_lines(two_initiators):
    assert two_initiators[0].read10(0, 8) != two_initiators[1].read10(0, 8)

def test_status_and_sense(two_initiators):
    first, second = two_initiators
    first.disk.attention(0x2A, 0x01, [0])
    assert first.test_unit_ready() == second.test_unit_ready()

def test_check(scsi_disk):
    scsi_disk.initiator(0).read10(0).check()

def test_other_values():
    assert 3 == 4
"""

# What pytest prints of them, in this order.
PRINTED = [
    "E       assert CHECK CONDITION (02h) == 0",
    "E        +  where CHECK CONDITION (02h) = <Reply CHECK CONDITION: MEDIUM ERROR, 11h/00h, "
    "information 0x0000000000000007>.status",
    "E       assert False",
    "E        +  where False = <Reply CHECK CONDITION: UNIT ATTENTION, 29h/00h>.is_good",
    "E       assert GOOD (00h) == CHECK CONDITION (02h)",
    "E        +  where GOOD (00h) = <Reply GOOD>.status",
    "E * assert <Reply GOOD, 512 bytes of data-in> == <Reply GOOD, 512 bytes of data-in>",
    "E         they differ in data_in",
    "E         left:    00000000  ab ab ab ab ab ab ab ab ab ab ab ab ab ab ab ab",
    "E         right:   00000000  00 00 00 00 00 00 00 00 00 00 00 00 00 00 00 00",
    "E         left:    00000010  ab ab ab ab ab ab ab ab ab ab ab ab ab ab ab ab",
    "E * assert <Reply GOOD, 8 bytes of data-in> == b'data'",
    "E         left:  GOOD, 8 bytes of data-in",
    "E         right: b'data'",
    "E         left:    returned logical block address: 4095",
    "E         left:    logical block length: 512",
    "E       assert <Reply GOOD, 4096 bytes of data-in> != <Reply GOOD, 4096 bytes of data-in>",
    "E         they are equal",
    "E       assert <Reply CHECK CONDITION> == <Reply GOOD>",
    "E         they differ in status, sense, exit_status",
    "E         left:  CHECK CONDITION",
    "E         right: GOOD",
    "E         left:    sense: UNIT ATTENTION, 2Ah/01h",
    "E * mehdalung.disk.CheckCondition: <Reply CHECK CONDITION: UNIT ATTENTION, 29h/00h>",
    "E       assert 3 == 4",
]


def test_what_failed_assertions_print(pytester: pytest.Pytester) -> None:
    result = run(pytester, FAILING)
    result.assert_outcomes(failed=9)
    result.stdout.fnmatch_lines(PRINTED)


@pytest.mark.parametrize("options, lines", [((), 20), (("-vv",), 2 + 2 * 32)])
def test_how_many_lines_are_printed(pytester: pytest.Pytester, monkeypatch: pytest.MonkeyPatch,
                                    options: Tuple[str, ...], lines: int) -> None:
    monkeypatch.setenv("CI", "true")  # pytest itself cuts nothing then
    result = run(pytester, """
        def test_replies(two_initiators):
            first, second = two_initiators
            first.write10(0, bytes([0xAB]) * 512).check()
            assert first.read10(0) == second.read10(1)
    """, *options)
    assert len([it for it in result.outlines if it.startswith("E  ") and it != "E         .."]) == lines
