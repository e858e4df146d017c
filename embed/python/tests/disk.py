#!/usr/bin/env python3
"""Tries the calls of the library for C that the first minute does not use. It needs no pytest."""
import os
import tempfile

from mehdalung import (BUSY, CHECK_CONDITION, GOOD, INITIATORS, MOST_INITIATORS, NO_REPLY, Disk,
                       Error, FaultOutcome, HappeningRecord, Kind, Profile, Refused, decode,
                       identity, identity_of_seed, read_happening, version)

TEST_UNIT_READY = bytes(6)
INQUIRY = bytes.fromhex("120000002400")
READ_CAPACITY = bytes.fromhex("25000000000000000000")
READ_CAPACITY_16 = bytes.fromhex("9e100000000000000000000000200000")
BLOCK_LIMITS = bytes.fromhex("1201b0004000")


def refusal(call, *arguments):
    """The error or exception that a call ends with."""
    try:
        call(*arguments)
    except Refused as it:
        return it.error
    except ValueError:
        return ValueError
    except OSError as it:
        return type(it)
    return None


with Disk(64, 4, identity("ACME", "DISK", "0200", "00000042", 42)) as disk:
    reply = disk.execute(7, TEST_UNIT_READY)
    assert reply.status == CHECK_CONDITION and reply.exit_status == 6
    assert reply.text() == "  sense: UNIT ATTENTION, 29h/00h\n"
    fields = reply.fields()
    assert (fields.key, fields.asc, fields.ascq, fields.has_information) == (6, 0x29, 0, 0)
    inquiry = disk.execute(7, INQUIRY)
    assert inquiry.status == GOOD and inquiry.data_in[8:] == b"ACME    DISK            0200"
    assert inquiry.text().startswith("  00000000  ")
    assert decode(Kind.INQUIRY, inquiry.data_in) == disk.tool(7, "sg_inq").text() != ""
    assert refusal(inquiry.fields) == Error.UNREADABLE
    assert disk.initiators == INITIATORS == 8 and disk.initiator(7).number == 7
    for number in 8, 63, 64, 256:
        assert refusal(disk.execute, number, TEST_UNIT_READY) == Error.NO_INITIATOR
        assert refusal(disk.initiator, number) == Error.NO_INITIATOR
    for initiator in -1, 1 << 32:
        assert refusal(disk.execute, initiator, TEST_UNIT_READY) is ValueError
    assert refusal(disk.tool, 0, "sg_foo") == Error.UNKNOWN_TOOL
    assert refusal(disk.tool, 0, "sg_inq\0") is ValueError
    assert disk.execute(2, TEST_UNIT_READY).status == CHECK_CONDITION
    assert disk.tool(2, "sg_persist -o -G -S 2").status == GOOD and disk.registered() == {2}
    disk.power_cycle()
    assert disk.registered() == set()
    disk.forget(2)
    assert disk.execute(2, TEST_UNIT_READY).status == GOOD
    assert refusal(disk.forget, 8) == Error.NO_INITIATOR
    disk.close()
    assert refusal(lambda: disk.initiators) == Error.NO_DISK
    assert refusal(disk.registered) == Error.NO_DISK
    assert refusal(disk.reset) == Error.NO_DISK
    assert refusal(disk.power_cycle) == Error.NO_DISK


def codes(disk):
    """The codes that TEST UNIT READY of each initiator reports, or None if the disk is ready."""
    replies = [disk.execute(initiator, TEST_UNIT_READY) for initiator in range(disk.initiators)]
    fields = [reply.fields() if reply.sense else None for reply in replies]
    return [it and (it.key, it.asc, it.ascq) for it in fields]


def only(initiators, asc, ascq, count=8):
    """The codes if only these initiators, of `count`, have a condition pending."""
    return [(6, asc, ascq) if it in initiators else None for it in range(count)]


NONE = only((), 0, 0)
with Disk(64, 4) as disk:
    assert codes(disk) == only(range(8), 0x29, 0x00) and codes(disk) == NONE
    for happen, asc, ascq, initiators in (
            (disk.reset, 0x29, 0x03, range(8)), (disk.reset_target, 0x29, 0x02, range(8)),
            (lambda: disk.lose_nexus(5), 0x29, 0x07, [5]),
            (lambda: disk.attention(0x3F, 0x0E), 0x3F, 0x0E, range(8)),
            (lambda: disk.attention(0x28, 0x00, [2, 7, 2]), 0x28, 0x00, [2, 7]),
            (lambda: disk.attention(0x28, 0x00, range(8)), 0x28, 0x00, range(8)),
            (lambda: disk.attention(0x28, 0x00, range(64)), 0x28, 0x00, range(8)),
            (lambda: disk.attention(0x28, 0x00, []), 0x28, 0x00, []),
            (lambda: disk.grow(128), 0x2A, 0x09, range(8)),
            (lambda: disk.happen(HappeningRecord()), 0x29, 0x00, range(8))):
        happen()
        assert codes(disk) == only(initiators, asc, ascq) and codes(disk) == NONE
    assert disk.execute(0, READ_CAPACITY).data_in == bytes([0, 0, 0, 127, 0, 0, 2, 0])
    for call, why in (((disk.lose_nexus, 8), Error.NO_INITIATOR),
                      ((disk.lose_nexus, 63), Error.NO_INITIATOR),
                      ((disk.lose_nexus, 64), Error.NO_INITIATOR),
                      ((disk.lose_nexus, -1), ValueError),
                      ((disk.grow, 0), Error.BLOCKS), ((disk.grow, (1 << 40) + 1), Error.BLOCKS),
                      ((disk.grow, 1 << 64), ValueError),
                      ((disk.attention, 0x29, 0x01), Error.UNKNOWN_CONDITION),
                      ((disk.attention, 0x29, 0x101), ValueError),
                      ((disk.attention, 0x129, 0x01), ValueError),
                      ((disk.attention, 0x29, 0x00, [0, 8]), Error.NO_INITIATOR),
                      ((disk.attention, 0x29, 0x00, [63]), Error.NO_INITIATOR),
                      ((disk.attention, 0x29, 0x00, range(63)), Error.NO_INITIATOR),
                      ((disk.attention, 0x29, 0x00, [0, 64]), ValueError),
                      ((disk.attention, 0x29, 0x00, [-1]), ValueError),
                      ((disk.happen, HappeningRecord(kind=9)), Error.UNKNOWN_HAPPENING)):
        assert refusal(*call) == why
    assert codes(disk) == NONE
READ_FIVE = bytes.fromhex("28000000000000000500")
with Disk(64, 4) as disk:
    assert codes(disk) == only(range(8), 0x29, 0x00) and codes(disk) == NONE
    disk.arm(FaultOutcome.ARRIVAL_BUSY, initiators=[1, 2], code=0, skip=1, times=1)
    assert [disk.execute(2, TEST_UNIT_READY).status for _ in range(3)] == [GOOD, BUSY, GOOD]
    assert disk.execute(0, TEST_UNIT_READY).status == GOOD
    assert disk.execute(1, INQUIRY).status == GOOD
    disk.disarm(0)
    assert [disk.execute(1, TEST_UNIT_READY).status for _ in range(3)] == [GOOD] * 3
    disk.arm(FaultOutcome.MEDIUM_CHECK_CONDITION, lba=3, count=4, key=3, asc=0x11, ascq=0x01)
    fields = disk.execute(7, READ_FIVE).fields()
    assert (fields.key, fields.asc, fields.ascq, fields.information) == (3, 0x11, 0x01, 3)
    assert disk.execute(7, TEST_UNIT_READY).status == GOOD
    disk.arm(FaultOutcome.MEDIUM_MOVES_ONLY, [3], code=0x28, blocks=2)
    disk.disarm(0)
    assert len(disk.execute(3, READ_FIVE).data_in) == 2 * 512
    disk.arm(FaultOutcome.AFTER_NO_REPLY, [4])
    reply = disk.execute(4, READ_FIVE)
    assert (reply.status, reply.data_in) == (NO_REPLY, bytes(5 * 512))
    disk.arm(FaultOutcome.AFTER_SHORT_DATA_IN, [6], times=1, blocks=700)
    reply = disk.execute(6, READ_FIVE)
    assert (reply.status, reply.data_in) == (GOOD, bytes(700))
    for _ in range(6):
        disk.arm(FaultOutcome.ARRIVAL_BUSY, [5])
    assert refusal(disk.arm, FaultOutcome.ARRIVAL_BUSY, [5]) == Error.FAULTS
    assert disk.execute(5, TEST_UNIT_READY).status == BUSY
    disk.disarm_all()
    assert codes(disk) == NONE
    for call, why in (((disk.arm, 11), Error.UNKNOWN_FAULT), ((disk.arm, -1), ValueError),
                      ((disk.arm, 4, None, None, 0, 0, False, 0, 0, 16), Error.SENSE_KEY),
                      ((disk.arm, 0, []), Error.NO_INITIATOR),
                      ((disk.arm, 0, [8]), Error.NO_INITIATOR),
                      ((disk.arm, 0, [8, 6, 63], 0x12), Error.NO_INITIATOR),
                      ((disk.arm, 0, range(1, 64)), Error.NO_INITIATOR),
                      ((disk.arm, 0, [64]), ValueError),
                      ((disk.arm, 0, [0], 256), ValueError),
                      ((disk.arm, 0, [0], None, 0, 0, True), Error.FAULT_FLAG),
                      ((disk.arm, 0, [0], None, 0, 0, False, 1 << 16), ValueError),
                      ((disk.disarm, 8), Error.FAULT_NUMBER), ((disk.disarm, 256), ValueError)):
        assert refusal(*call) == why
    assert codes(disk) == NONE
with Disk(64, 4) as disk:
    assert codes(disk) == only(range(8), 0x29, 0x00) and codes(disk) == NONE
    disk.happen("attention 3Fh/0Eh 1 6")
    assert codes(disk) == only([1, 6], 0x3F, 0x0E)
    disk.happen("fault medium 3/11/00 to 2 blocks 2 2 healed")
    fields = disk.execute(2, READ_FIVE).fields()
    assert (fields.key, fields.asc, fields.ascq, fields.information) == (3, 0x11, 0x00, 2)
    assert disk.faults() == "  0: medium 3/11/00 blocks 2 2 healed to 2\n"
    disk.happen("heal 0")
    assert disk.faults() == ""
    assert disk.execute(2, READ_FIVE).status == GOOD
    assert read_happening("grow 0x80").blocks == 128
    for words, why in (("faults", Error.UNKNOWN_VERB), ("", Error.UNKNOWN_VERB),
                       ("nexus 64", Error.USAGE), ("nexus 8", Error.NO_INITIATOR),
                       ("fault arrival busy to 63 to 6", Error.NO_INITIATOR),
                       ("attention 28h/00h 0 8", Error.NO_INITIATOR),
                       ("reset\n", Error.BAD_BYTE),
                       ("reset\0", ValueError),
                       ("nexus " * 65, Error.TOO_MANY_WORDS)):
        assert refusal(disk.happen, words) == why
    assert codes(disk) == NONE
    disk.arm(FaultOutcome.ARRIVAL_BUSY, times=1)
    assert disk.execute(7, TEST_UNIT_READY).status == BUSY
    left = "".join(f"    to {it}: times 1\n" for it in range(7)) + "    to 7: times 0\n"
    assert disk.faults() == "  0: arrival busy times 1\n" + left
    assert [disk.execute(it, TEST_UNIT_READY).status for it in range(7)] == [BUSY] * 7
    assert disk.faults() == "" and codes(disk) == NONE
for profile in Profile.EXTENDED, Profile.EXTENDED_CUT, Profile.EXTENDED_512E:
    with Disk(64, 4, profile=profile) as disk:
        assert disk.initiators == MOST_INITIATORS == 64 and disk.initiator(63).number == 63
        assert codes(disk) == only(range(64), 0x29, 0x00, 64) and codes(disk) == only((), 0, 0, 64)
        for happen, asc, ascq, initiators in (
                (disk.reset, 0x29, 0x03, range(64)), (lambda: disk.lose_nexus(63), 0x29, 0x07, [63]),
                (lambda: disk.attention(0x3F, 0x0E), 0x3F, 0x0E, range(64)),
                (lambda: disk.attention(0x28, 0x00, [8, 63]), 0x28, 0x00, [8, 63]),
                (lambda: disk.happen("attention 2Ah/09h 0x3F 7"), 0x2A, 0x09, [7, 63])):
            happen()
            assert codes(disk) == only(initiators, asc, ascq, 64)
        assert read_happening("attention 2Ah/09h").initiators == (1 << 64) - 1
        for initiator in 63, 8:
            assert disk.tool(initiator, "sg_persist -o -G -S 2").status == GOOD
        assert disk.registered() == {8, 63}
        disk.power_cycle()
        disk.forget(63)
        assert codes(disk) == only(range(63), 0x29, 0x00, 64)
        disk.arm(FaultOutcome.ARRIVAL_BUSY, [63, 0], code=0, times=1)
        assert [disk.execute(63, TEST_UNIT_READY).status for _ in range(2)] == [BUSY, GOOD]
        assert disk.execute(62, TEST_UNIT_READY).status == GOOD
        assert disk.faults() == ("  0: arrival busy code 00h times 1 to 0 to 63\n"
                                 "    to 63: times 0\n")
        assert disk.execute(0, TEST_UNIT_READY).status == BUSY and disk.faults() == ""
        disk.arm(FaultOutcome.ARRIVAL_BUSY, times=1)
        assert disk.execute(0, TEST_UNIT_READY).status == BUSY
        assert disk.faults() == "  0: arrival busy times 1\n    to 0: times 0\n"
        assert [disk.execute(it, TEST_UNIT_READY).status for it in range(1, 64)] == [BUSY] * 63
        assert disk.faults() == ""
        disk.arm(FaultOutcome.ARRIVAL_BUSY, [8], skip=1)
        assert [disk.execute(8, TEST_UNIT_READY).status for _ in range(2)] == [GOOD, BUSY]
        assert disk.faults() == "  0: arrival busy skip 1 to 8\n    to 8: skip 0\n"
        disk.disarm_all()
        for call, why in (((disk.execute, 64, TEST_UNIT_READY), Error.NO_INITIATOR),
                          ((disk.initiator, 64), Error.NO_INITIATOR),
                          ((disk.forget, 64), Error.NO_INITIATOR),
                          ((disk.forget, 256 + 63), Error.NO_INITIATOR),
                          ((disk.lose_nexus, 64), Error.NO_INITIATOR)):
            assert refusal(*call) == why
        assert codes(disk) == only((), 0, 0, 64)
slot = Disk(64, 4).slot
assert slot.target is None
for blocks, pool, why in ((0, 4, Error.BLOCKS), (64, 65_537, Error.POOL), (-1, 4, ValueError),
                          ((1 << 64) + 64, 4, ValueError), (64, (1 << 32) + 4, ValueError)):
    assert refusal(Disk, blocks, pool) == why
assert refusal(Disk, 64, 4, identity("\x7f")) == Error.IDENTITY_TEXT
assert bytes(identity_of_seed(0xF00D)) == bytes(identity(serial="0000f00d", local=0xF00D))
assert refusal(identity_of_seed, 1 << 60) == Error.IDENTITY_LOCAL
assert refusal(identity_of_seed, 1 << 64) is ValueError
for profile in Profile:
    with Disk(64, 4, identity_of_seed(1), profile) as disk:
        assert disk.execute(0, INQUIRY).status == GOOD
with Disk(64, 4, profile=Profile.EXTENDED_512E) as disk:
    assert disk.execute(0, TEST_UNIT_READY).status == CHECK_CONDITION
    assert disk.execute(0, READ_CAPACITY_16).data_in[8:16].hex() == "000002000003c000"
    limits = disk.execute(0, BLOCK_LIMITS).data_in
    assert (limits[6:8].hex(), limits[28:32].hex()) == ("0008", "00000008")
assert refusal(Disk, 64, 4, None, max(Profile) + 1) == Error.UNKNOWN_PROFILE
assert refusal(Disk, 64, 4, None, 1 << 32) is ValueError


WRITE_ONE = bytes.fromhex("2a000000000500000100")
WRITE_THROUGH = bytes.fromhex("2a080000000500000100")
READ_ONE = bytes.fromhex("28000000000500000100")
SYNCHRONIZE = bytes.fromhex("35000000000000000000")


def block_of(disk):
    """The block at address 5, read by initiator 1."""
    assert disk.execute(1, TEST_UNIT_READY).status == CHECK_CONDITION
    return disk.execute(1, READ_ONE).data_in


with tempfile.TemporaryDirectory() as folder:
    path = os.path.join(folder, "disk")
    one, two, three = (bytes([byte]) * 512 for byte in (1, 2, 3))
    assert refusal(Disk.open, path) == Error.UNKNOWN_PROFILE
    with Disk.open(path, 64, 4, profile=Profile.EXTENDED) as disk:
        assert codes(disk) == only(range(64), 0x29, 0x00, 64)
        assert disk.execute(0, WRITE_ONE, one).status == GOOD
        assert refusal(Disk.open, path) == Error.FILE_BUSY
    with Disk.open(path) as disk:
        assert block_of(disk) == one and disk.execute(0, SYNCHRONIZE).status == CHECK_CONDITION
        assert disk.execute(0, WRITE_ONE, two).status == GOOD
        disk.flush()
        assert disk.execute(0, WRITE_ONE, three).status == GOOD
        disk.free()
        assert refusal(disk.flush) == Error.NO_DISK
    disk = Disk.open(path, 64, identity=identity())
    assert block_of(disk) == two and disk.execute(0, TEST_UNIT_READY).status == CHECK_CONDITION
    assert disk.execute(0, WRITE_ONE, three).status == GOOD
    del disk
    with Disk.open(path, pool=4, profile=Profile.EXTENDED) as disk:
        assert block_of(disk) == three
    with Disk.open(path) as disk:
        assert disk.initiators == 64 and codes(disk) == only(range(64), 0x29, 0x00, 64)
        for cdb, block, waits in ((WRITE_ONE, one, False), (WRITE_THROUGH, two, True),
                                  (WRITE_ONE, three, False)):
            reply = disk.execute(0, cdb, block, flush=False)
            assert (reply.status, reply.waits) == (GOOD, waits)
        disk.flush()
        assert disk.execute(0, WRITE_THROUGH, one, flush=False).waits
        disk.free()
    with Disk.open(path) as disk:
        assert block_of(disk) == three
    for arguments, why in (((65,), Error.OTHER_BLOCKS), ((64, 5), Error.OTHER_POOL),
                           ((64, 4, identity("X")), Error.OTHER_IDENTITY),
                           ((0, 0, None, Profile.BASE), Error.OTHER_PROFILE),
                           ((0, 0, None, Profile.EXTENDED_512E), Error.OTHER_PROFILE),
                           ((1 << 64,), ValueError), ((0, 1 << 32), ValueError)):
        assert refusal(Disk.open, path, *arguments) == why
    assert refusal(Disk.open, os.path.join(folder, "missing", "disk")) is FileNotFoundError
    assert refusal(Disk.open, folder) is IsADirectoryError
    assert refusal(Disk.open, path + "\0") is ValueError
    with open(path, "r+b") as file:
        file.seek(11)
        file.write(b"\x01")
    try:
        Disk.open(path)
    except Refused as it:
        assert (it.error, it.damage.offset) == (Error.OTHER_VERSION, 1)
    with open(path, "wb") as file:
        file.write(b"This is no disk.")
    assert refusal(Disk.open, path) == Error.NOT_A_DISK
with Disk(64, 4) as disk:
    assert refusal(disk.flush) == Error.NO_FILE
assert refusal(identity, "NINE BYTE") is ValueError and refusal(identity, "\xe9") is ValueError
assert refusal(decode, max(Kind) + 1, b"") is ValueError
print(version())
