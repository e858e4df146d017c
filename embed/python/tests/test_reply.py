"""What a Reply says of itself."""
import pytest

from mehdalung import (GOOD, BadStatus, CheckCondition, Disk, FaultOutcome, Initiator, Kind, Profile,
                       Reply, SenseKey, Status, decode, kind_of)

READ_ONE = bytes.fromhex("28000000000500000100")


@pytest.fixture
def initiator(scsi_disk: Disk) -> Initiator:
    it = scsi_disk.initiator(3)
    it.test_unit_ready()
    return it


def test_the_fields_of_a_unit_attention(scsi_disk: Disk) -> None:
    reply = scsi_disk.initiator(3).test_unit_ready()
    assert (reply.status, reply.status_name, reply.is_good) == (0x02, "CHECK CONDITION", False)
    assert (reply.sense_key, reply.asc, reply.ascq) == (SenseKey.UNIT_ATTENTION, 0x29, 0x00)
    assert reply.sense_key == 6 and reply.information is None
    assert repr(reply) == "<Reply CHECK CONDITION: UNIT ATTENTION, 29h/00h>"
    assert reply.lines() == ["CHECK CONDITION", "  sense: UNIT ATTENTION, 29h/00h"]


def test_a_good_reply_has_no_sense(initiator: Initiator) -> None:
    reply = initiator.test_unit_ready()
    assert (reply.status, reply.status_name, reply.is_good) == (0, "GOOD", True)
    assert (reply.sense_key, reply.asc, reply.ascq, reply.information) == (None,) * 4
    assert repr(reply) == "<Reply GOOD>" and reply.check() is reply


def test_the_address_of_a_bad_block(initiator: Initiator) -> None:
    initiator.disk.arm(FaultOutcome.MEDIUM_CHECK_CONDITION, lba=7, count=1, key=3, asc=0x11, ascq=0x04)
    reply = initiator.read10(5, 3)
    assert (reply.sense_key, reply.asc, reply.ascq) == (SenseKey.MEDIUM_ERROR, 0x11, 0x04)
    assert reply.information == 7
    assert repr(reply) == ("<Reply CHECK CONDITION: MEDIUM ERROR, 11h/04h, "
                           "information 0x0000000000000007>")
    with pytest.raises(CheckCondition, match="MEDIUM ERROR, 11h/04h") as caught:
        reply.check()
    assert (caught.value.sense_key, caught.value.asc, caught.value.ascq) == (3, 0x11, 0x04)
    assert caught.value.information == 7 and caught.value.reply is reply


def test_the_kind_of_a_command_prints_its_data(initiator: Initiator) -> None:
    read_capacity = bytes.fromhex("25000000000000000000")
    reply = initiator.execute(read_capacity, kind=kind_of(read_capacity))
    assert reply.text() == "  returned logical block address: 4095\n  logical block length: 512\n"
    assert (kind_of(b""), kind_of(b"\x12"), kind_of(READ_ONE)) == (Kind.HEX, Kind.INQUIRY_EXTENDED, Kind.HEX)


def test_the_kinds_of_an_extended_disk_have_all_fields_of_reservations() -> None:
    capabilities = bytes.fromhex("00080db0ea010000")
    types = "  types: WE EA WE-RO EA-RO WE-AR EA-AR"
    assert decode(Kind.CAPABILITIES, capabilities).splitlines() == [
        "  length: 8", "  PTPL_C: 1", "  TMV: 1, PTPL_A: 0", types]
    assert decode(Kind.CAPABILITIES_EXTENDED, capabilities).splitlines() == [
        "  length: 8", "  RLR_C: 0, CRH: 0, SIP_C: 1, ATP_C: 1, PTPL_C: 1",
        "  TMV: 1, ALLOW COMMANDS: 3, PTPL_A: 0", types]
    full = bytes.fromhex("000000010000001c 00000000000000a1 00000000 03 05 00000000 0001 00000004 0a0b0c0d")
    key, rest = "  key: 0x00000000000000a1, ", "holder: 1, scope: 0, type: 5, port: 1, transport: 0a0b0c0d"
    assert decode(Kind.FULL_STATUS, full).splitlines()[2:] == [key + rest]
    assert decode(Kind.FULL_STATUS_EXTENDED, full).splitlines()[2:] == [key + "all target ports: 1, " + rest]


def test_the_sense_keys_are_those_of_spc_4() -> None:
    names = """NO_SENSE RECOVERED_ERROR NOT_READY MEDIUM_ERROR HARDWARE_ERROR ILLEGAL_REQUEST UNIT_ATTENTION
        DATA_PROTECT BLANK_CHECK VENDOR_SPECIFIC COPY_ABORTED ABORTED_COMMAND RESERVED VOLUME_OVERFLOW
        MISCOMPARE COMPLETED"""
    assert [(it.name, it.value) for it in SenseKey] == [(it, at) for at, it in enumerate(names.split())]


@pytest.mark.parametrize("descriptors", [False, True])
def test_each_sense_key_and_both_formats(initiator: Initiator, descriptors: bool) -> None:
    if descriptors:
        page = bytearray(initiator.mode_sense6(page_code=0x0A, dbd=True).check().data_in)
        page[0], page[2], page[6] = 0, 0, page[6] | 0x04  # D_SENSE
        initiator.mode_select6(bytes(page)).check()
    for key in set(SenseKey) - {SenseKey.RESERVED}:
        for outcome in FaultOutcome.ARRIVAL_CHECK_CONDITION, FaultOutcome.ARRIVAL_DEFERRED_ERROR:
            initiator.disk.arm(outcome, [3], times=1, key=key, asc=0x5D, ascq=0xFE)
            reply = initiator.test_unit_ready()
            # 70h to 73h are the response codes of SPC-4, 4.5.1
            deferred = outcome == FaultOutcome.ARRIVAL_DEFERRED_ERROR
            assert reply.sense[0] & 0x7F == 0x70 + 2 * descriptors + deferred
            assert (reply.sense_key, reply.asc, reply.ascq) == (key, 0x5D, 0xFE)
            assert ("deferred, " in repr(reply)) == deferred
            assert f"{key.name.replace('_', ' ')}, 5Dh/FEh" in repr(reply)
            assert initiator.test_unit_ready().is_good


@pytest.mark.parametrize("outcome, status, name", [
    (FaultOutcome.ARRIVAL_BUSY, 0x08, "BUSY"), (FaultOutcome.ARRIVAL_TASK_SET_FULL, 0x28, "TASK SET FULL"),
    (FaultOutcome.ARRIVAL_RESERVATION_CONFLICT, 0x18, "RESERVATION CONFLICT"),
    (FaultOutcome.ARRIVAL_NO_REPLY, 0xFF, "NO REPLY")])
def test_a_status_without_sense(initiator: Initiator, outcome: FaultOutcome, status: int,
                                name: str) -> None:
    initiator.disk.arm(outcome)
    reply = initiator.test_unit_ready()
    assert (reply.status, reply.status_name, repr(reply)) == (status, name, f"<Reply {name}>")
    with pytest.raises(BadStatus, match=name) as caught:
        reply.check()
    assert not isinstance(caught.value, CheckCondition) and caught.value.reply == reply


def test_repr_has_the_data_by_its_kind(initiator: Initiator) -> None:
    reply = initiator.read_capacity10()
    assert repr(reply) == ("<Reply GOOD, 8 bytes of data-in: "
                           "returned logical block address: 4095; logical block length: 512>")
    assert repr(initiator.read10(0, 0)) == "<Reply GOOD>"
    # of a megabyte only the begin, and in a line
    initiator.write10(0, bytes(range(16)) * 32).check()
    text = repr(initiator.read16(0, 2048))
    assert text.startswith("<Reply GOOD, 1048576 bytes of data-in: 00000000 00 01 02 03 04 05 06 07 08 09 0a")
    assert len(text) < 130 and "\n" not in text


def test_a_reply_with_sense_and_data(initiator: Initiator) -> None:
    initiator.disk.arm(FaultOutcome.AFTER_CHECK_CONDITION, key=1, asc=0x17, ascq=0x01)
    reply = initiator.read_capacity10()
    assert len(reply.data_in) == 8 and not reply.is_good
    assert reply.lines()[:3] == ["CHECK CONDITION, 8 bytes of data-in", "  sense: RECOVERED ERROR, 17h/01h",
                                 "  returned logical block address: 4095"]


def test_it_is_the_tuple_that_it_was(initiator: Initiator) -> None:
    assert Reply._fields == ("status", "sense", "data_in", "kind", "exit_status", "data_out_length", "waits")
    reply = initiator.execute(READ_ONE)
    assert reply == (0, b"", bytes(512), Kind.HEX, 0, 0, False) and hash(reply.status) == hash(0)
    assert f"{reply.status}, {reply.status:02X}, {reply.status:d}, {str(reply.status)}" == "0, 00, 0, 0"
    assert "%s" % Status.NO_REPLY == "255" and {GOOD: "GOOD"}[reply.status] == "GOOD"


def test_the_texts_of_a_base_disk() -> None:
    with Disk(64, 4, profile=Profile.BASE) as disk:
        disk.forget(0)
        initiator = disk.initiator(0)
        assert initiator.tool("sg_inq").text() in initiator.inquiry(allocation_length=36).text()
        assert "WSNZ: " in repr(initiator.inquiry(evpd=True, page_code=0xB0).lines())
