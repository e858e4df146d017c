"""The CDBs of the functions of `commands`, and what the methods of an Initiator send.

The expected bits are of three sources: what REPORT SUPPORTED OPERATION CODES of the proved disk
reports, what the proved library plans for a tool, and CDBs written by hand from SPC-4 and SBC-3."""
import ctypes
import inspect
from typing import Callable, Dict, Iterator, List, Tuple

import pytest

from mehdalung import (Disk, Error, Initiator, Kind, Profile, Refused, Reply, ReservationType, ReserveIn,
                       ReserveOut, SenseKey, Status, commands, reserve_out_list, unmap_list)
from mehdalung._library import DATA_OUT_LENGTH, LIBRARY, Command
from mehdalung.methods import Commands

# The bits that the disk does not look at (PROFILE, "Commands"): the report has none of them.
IGNORED = {"address_descriptor_index", "ause", "byte_transfer_length", "cmplst", "devoffl", "fua_nv",
           "group_number", "sync_nv", "unitoffl"}
IGNORED_IN = {("send_diagnostic", "pf")}
# These service actions of PERSISTENT RESERVE OUT ignore SCOPE and TYPE (SPC-4, 6.16.2).
WITHOUT_TYPE = {ReserveOut.REGISTER, ReserveOut.CLEAR, ReserveOut.REGISTER_AND_IGNORE_EXISTING_KEY,
                ReserveOut.REGISTER_AND_MOVE}

Cdb = Callable[..., bytes]


def functions() -> Dict[str, Cdb]:
    found = inspect.getmembers(commands, inspect.isfunction)
    return {name: it for name, it in found if it.__module__ == commands.__name__}


def arguments(function: Cdb) -> List[str]:
    return list(inspect.signature(function).parameters)


def largest(function: Cdb, name: str, others: Dict[str, int]) -> int:
    """The largest value of an argument that the function takes."""
    fits = [it for it in (2 ** bits - 1 for bits in range(1, 65)) if takes(function, {**others, name: it})]
    assert not takes(function, {**others, name: fits[-1] + 2}) and not takes(function, {**others, name: -1})
    return fits[-1]


def takes(function: Cdb, values: Dict[str, int]) -> bool:
    try:
        function(**values)
    except ValueError:
        return False
    return True


def at_their_largest() -> Iterator[Tuple[str, bytes]]:
    """Each function with the CDB of its largest arguments, once for each service action."""
    for name, function in functions().items():
        actions = {"persistent_reserve_in": list(ReserveIn), "persistent_reserve_out": list(ReserveOut)}
        for action in actions.get(name, [0]):
            fixed = {"service_action": int(action)} if name in actions else {}
            if name == "persistent_reserve_out" and action in WITHOUT_TYPE:
                fixed.update(scope=0, type=0)
            values = {it: largest(function, it, fixed) for it in arguments(function)
                      if it not in fixed and it not in IGNORED and (name, it) not in IGNORED_IN}
            yield name, function(**fixed, **values)


def action_of(cdb: bytes) -> int:
    return cdb[1] & 0x1F if cdb[0] in (0x48, 0x5E, 0x5F, 0x83, 0x84, 0x9E, 0xA3) else 0


@pytest.fixture
def initiator(scsi_disk: Disk) -> Initiator:
    it = scsi_disk.initiator(0)
    it.test_unit_ready()
    return it


def test_the_largest_arguments_set_the_bits_that_the_disk_reports(initiator: Initiator) -> None:
    for name, cdb in at_their_largest():
        # REPORTING OPTIONS 3, REQUESTED OPERATION CODE and REQUESTED SERVICE ACTION
        reply = initiator.execute(bytes([0xA3, 0x0C, 3, cdb[0], 0, action_of(cdb), 0, 0, 4, 0, 0, 0]))
        assert reply.data_in[1] & 0x07 == 3, f"{name} is not supported"
        assert reply.data_in[4:].hex() == cdb.hex(), name


def test_the_disk_has_a_function_for_each_command(initiator: Initiator) -> None:
    reply = initiator.execute(bytes.fromhex("a30c00000000ffffffff0000"))
    descriptors = [reply.data_in[at:at + 8] for at in range(4, len(reply.data_in), 8)]
    reported = [(it[0], it[2] << 8 | it[3], it[6] << 8 | it[7]) for it in descriptors]
    made = [(cdb[0], action_of(cdb), len(cdb)) for _, cdb in at_their_largest()]
    assert sorted(made) == sorted(reported) and len(made) > 48


def test_ignored_bits_change_no_reply(initiator: Initiator) -> None:
    """A bit that is not allowed is found before a missing data-out, and its sense data has its byte."""
    tried = set()
    for name, function in functions().items():
        for argument in arguments(function):
            if argument in IGNORED or (name, argument) in IGNORED_IN:
                values = {argument: largest(function, argument, {})}
                given = initiator.execute(function(**values))
                assert given == initiator.execute(function()), (name, argument)
                tried.add(argument)
    assert tried == IGNORED | {argument for _, argument in IGNORED_IN}
    for action in WITHOUT_TYPE:
        key_0 = reserve_out_list(0, 0)
        given = initiator.persistent_reserve_out(action, key_0, scope=15, type=15)
        assert given == initiator.persistent_reserve_out(action, key_0), action


def test_byte_transfer_length_of_write_long_is_ignored(initiator: Initiator) -> None:
    assert initiator.execute(commands.write_long10(3, wr_uncor=True, byte_transfer_length=0xFFFF)).is_good
    assert initiator.read10(3).sense_key == SenseKey.MEDIUM_ERROR


def test_a_base_disk_has_the_commands_that_are_not_of_an_extended_disk() -> None:
    with Disk(64, 4, profile=Profile.BASE) as disk:
        disk.forget(0)
        for name, function in functions().items():
            cdb = function(*[0] * ("service_action" in arguments(function)))
            reply = disk.execute(0, cdb, bytes(512))
            is_unknown = (reply.sense_key, reply.asc) == (SenseKey.ILLEGAL_REQUEST, 0x20)
            assert is_unknown == ("Only an extended disk" in " ".join((function.__doc__ or "").split())), name


# By hand from SPC-4 and SBC-3.
BY_HAND = [
    (commands.test_unit_ready(), "00 00 00 00 00 00"),
    (commands.inquiry(evpd=True, page_code=0x83, allocation_length=0x1234), "12 01 83 12 34 00"),
    (commands.request_sense(desc=True), "03 01 00 00 ff 00"),
    (commands.mode_sense6(dbd=True, pc=2, page_code=0x0A), "1a 08 8a 00 ff 00"),
    (commands.mode_sense10(llbaa=True, page_code=0x3F, subpage_code=0xFF), "5a 10 3f ff 00 00 00 ff ff 00"),
    (commands.mode_select10(sp=True, parameter_list_length=24), "55 11 00 00 00 00 00 00 18 00"),
    (commands.read6(0x012345, 256), "08 01 23 45 00 00"),
    (commands.read6(0x1FFFFF, 255), "08 1f ff ff ff 00"),
    (commands.read10(0x01020304, 0x0506, dpo=True, group_number=31), "28 10 01 02 03 04 1f 05 06 00"),
    (commands.write10(16, 8, fua=True), "2a 08 00 00 00 10 00 00 08 00"),
    (commands.read12(1, 2), "a8 00 00 00 00 01 00 00 00 02 00 00"),
    (commands.write16(0x0102030405060708, 0x090A0B0C), "8a 00 01 02 03 04 05 06 07 08 09 0a 0b 0c 00 00"),
    (commands.compare_and_write(5, 1), "89 00 00 00 00 00 00 00 00 05 00 00 00 01 00 00"),
    (commands.verify10(7, 2, bytchk=1), "2f 02 00 00 00 07 00 00 02 00"),
    (commands.synchronize_cache10(immed=True), "35 02 00 00 00 00 00 00 00 00"),
    (commands.write_same16(9, 3, unmap=True, ndob=True), "93 09 00 00 00 00 00 00 00 09 00 00 00 03 00 00"),
    (commands.unmap(anchor=True, parameter_list_length=24), "42 01 00 00 00 00 00 00 18 00"),
    (commands.read_capacity10(), "25 00 00 00 00 00 00 00 00 00"),
    (commands.read_capacity16(allocation_length=32), "9e 10 00 00 00 00 00 00 00 00 00 00 00 20 00 00"),
    (commands.report_target_port_groups(parameter_data_format=1, allocation_length=0x80),
     "a3 2a 00 00 00 00 00 00 00 80 00 00"),
    (commands.get_lba_status(0x10, allocation_length=24), "9e 12 00 00 00 00 00 00 00 10 00 00 00 18 00 00"),
    (commands.persistent_reserve_in(ReserveIn.READ_FULL_STATUS), "5e 03 00 00 00 00 00 ff ff 00"),
    (commands.persistent_reserve_out(ReserveOut.PREEMPT, type=ReservationType.WRITE_EXCLUSIVE,
                                     parameter_list_length=24), "5f 04 01 00 00 00 00 00 18 00"),
    (commands.persistent_reserve_out(ReserveOut.REGISTER_AND_MOVE, parameter_list_length=48),
     "5f 07 00 00 00 00 00 00 30 00"),
    (commands.report_luns(select_report=2, allocation_length=16), "a0 00 02 00 00 00 00 00 00 10 00 00"),
    (commands.start_stop_unit(start=True, immed=True), "1b 01 00 00 01 00"),
    (commands.format_unit(fmtdata=True), "04 10 00 00 00 00"),
    (commands.sanitize_block_erase(immed=True), "48 82 00 00 00 00 00 00 00 00"),
    (commands.write_long10(3, wr_uncor=True), "3f 40 00 00 00 03 00 00 00 00"),
    (commands.log_sense(page_code=0x0C, parameter_pointer=0x0102), "4d 00 0c 00 00 01 02 ff ff 00"),
]


@pytest.mark.parametrize("cdb, expected", BY_HAND, ids=[expected[:5] for _, expected in BY_HAND])
def test_cdbs_by_hand(cdb: bytes, expected: str) -> None:
    assert cdb.hex(" ") == expected


def test_lists_by_hand() -> None:
    keys = "00 00 00 00 00 00 01 02 00 00 00 00 00 00 03 04 00 00 00 00 01 00 00 00"
    assert reserve_out_list(0x0102, 0x0304, True).hex(" ") == keys
    blocks = ("00 26 00 20 00 00 00 00 00 00 00 00 00 00 00 05 00 00 00 01 00 00 00 00 "
              "01 02 03 04 05 06 07 08 09 0a 0b 0c 00 00 00 00")
    assert unmap_list((5, 1), (0x0102030405060708, 0x090A0B0C)).hex(" ") == blocks
    assert unmap_list(*[(0, 1)] * 4095)[:4].hex() == "fff6fff0"
    with pytest.raises(ValueError, match="more than 4,095"):
        unmap_list(*[(0, 1)] * 4096)


# Words of a tool, and what sends the same command.
TOOLS: List[Tuple[str, Callable[[Initiator], object]]] = [
    ("sg_inq -l 96", lambda it: it.inquiry(allocation_length=96)),
    ("sg_vpd -p lbpv", lambda it: it.inquiry(evpd=True, page_code=0xB2, allocation_length=252)),
    ("sg_modes --six -d -p10", lambda it: it.mode_sense6(dbd=True, page_code=10, allocation_length=252)),
    ("sg_modes -L -c 3", lambda it: it.mode_sense10(
        llbaa=True, pc=3, page_code=0x3F, allocation_length=1024)),
    ("sg_unmap -l 0,16 -n 1,2 -g 5", lambda it: it.unmap(unmap_list((0, 1), (16, 2)), group_number=5)),
    ("sg_get_lba_status -l 3 -m 40", lambda it: it.get_lba_status(3, allocation_length=40)),
    ("sg_persist -k", lambda it: it.persistent_reserve_in(0, allocation_length=8192)),
    ("sg_persist -r", lambda it: it.persistent_reserve_in(1, allocation_length=8192)),
    ("sg_persist -c", lambda it: it.persistent_reserve_in(2, allocation_length=8192)),
    ("sg_persist -s", lambda it: it.persistent_reserve_in(3, allocation_length=8192)),
    ("sg_persist -I -S a1 -Z", lambda it: it.persistent_reserve_out(
        ReserveOut.REGISTER_AND_IGNORE_EXISTING_KEY, reserve_out_list(0, 0xA1, aptpl=True))),
    ("sg_persist -A -K fedcba9876543210 -S a1 -T 5", lambda it: it.persistent_reserve_out(
        ReserveOut.PREEMPT_AND_ABORT, reserve_out_list(0xFEDCBA9876543210, 0xA1),
        type=ReservationType.WRITE_EXCLUSIVE_REGISTRANTS_ONLY)),
    ("sg_turs", lambda it: it.test_unit_ready()),
    ("sg_requests -d -m 18", lambda it: it.request_sense(desc=True, allocation_length=18)),
    ("sg_luns -s 2", lambda it: it.report_luns(select_report=2, allocation_length=8192)),
    ("sg_opcodes -R", lambda it: it.report_supported_operation_codes(rctd=True, allocation_length=8192)),
    ("sg_opcodes -o 9eh -s 12h", lambda it: it.report_supported_operation_codes(
        reporting_options=2, requested_operation_code=0x9E, requested_service_action=0x12,
        allocation_length=8192)),
    ("sg_opcodes -tq", lambda it: it.report_supported_task_management_functions(
        repd=True, allocation_length=16)),
    ("sg_logs -p 2fh", lambda it: it.log_sense(page_code=0x2F, allocation_length=65532)),
    ("sg_logs -p 0ch -P 2", lambda it: it.log_sense(
        page_code=0x0C, parameter_pointer=2, allocation_length=65532)),
    ("sg_readcap", lambda it: it.read_capacity10()),
    ("sg_readcap --16", lambda it: it.read_capacity16(allocation_length=32)),
    ("sg_sync -l 16 -c 2", lambda it: it.synchronize_cache10(16, 2)),
    ("sg_sync -S", lambda it: it.synchronize_cache16()),
    ("sg_verify -l 1 -c 8", lambda it: it.verify10(1, blocks=8)),
    ("sg_verify -0", lambda it: it.verify10(0, bytes(512))),
    ("sg_verify -f -E 3 -c 4 -S", lambda it: it.verify16(0, b"\xff" * 512, blocks=4, bytchk=3)),
    ("sg_compare_and_write -l 1 -i " + "00" * 1024, lambda it: it.compare_and_write(1, bytes(1024))),
    ("sg_write_same -R -f -l 8 -n 4", lambda it: it.write_same10(8, b"\xff" * 512, blocks=4)),
    ("sg_write_same -U -l 1 -n 2 -a", lambda it: it.write_same16(
        1, bytes(512), blocks=2, unmap=True, anchor=True)),
    ("sg_write_same -N -n 4", lambda it: it.write_same16(blocks=4, ndob=True)),
    ("sg_start -e", lambda it: it.start_stop_unit(loej=True)),
    ("sg_start -p 10 -m 1", lambda it: it.start_stop_unit(power_condition=10, power_condition_modifier=1)),
]


class Recorder(Initiator):
    """An initiator that sends nothing, and keeps what it would send."""
    sent: Tuple[bytes, bytes, int]

    def execute(self, cdb: bytes, data_out: bytes = b"", kind: int = Kind.HEX,
                flush: bool = True) -> Reply:
        self.sent = cdb, data_out, kind
        return Reply(Status.GOOD, b"", b"", Kind(kind), 0, 0)


@pytest.mark.parametrize("words, call", TOOLS, ids=[words[:20] for words, _ in TOOLS])
def test_a_method_sends_what_a_tool_sends(words: str, call: Callable[[Initiator], object],
                                          scsi_disk: Disk) -> None:
    planned, data_out = Command(), (ctypes.c_uint8 * DATA_OUT_LENGTH)()
    assert LIBRARY.mdl_tool(words.encode(), data_out, DATA_OUT_LENGTH, planned) == 0
    recorder = Recorder(scsi_disk, 0)
    call(recorder)
    cdb, sent, kind = recorder.sent
    assert cdb.hex(" ") == bytes(planned.cdb[:planned.cdb_length]).hex(" ")
    assert sent == bytes(data_out[:planned.data_out_length])
    # a tool plans the kind of a base disk's text, and prints nothing of what it does not expect
    extended = {Kind.INQUIRY: Kind.INQUIRY_EXTENDED, Kind.VPD: Kind.VPD_EXTENDED,
                Kind.SENSE: Kind.SENSE_EXTENDED, Kind.CAPABILITIES: Kind.CAPABILITIES_EXTENDED,
                Kind.FULL_STATUS: Kind.FULL_STATUS_EXTENDED, Kind.NOTHING: Kind.HEX}
    assert Kind(kind) == extended.get(Kind(planned.kind), Kind(planned.kind))


def test_there_is_a_method_for_each_function() -> None:
    for name, function in functions().items():
        named = {it for it in inspect.signature(getattr(Commands, name)).parameters}
        assert named - {"self", "data_out"} == set(arguments(function)), name
    assert {it for it in vars(Commands) if not it.startswith("_")} == {"send", *functions()}


def test_a_method_hands_each_argument_on(scsi_disk: Disk) -> None:
    recorder = Recorder(scsi_disk, 0)
    for name, function in functions().items():
        others = {it: int(it == "blocks") for it in arguments(function)}
        has_data_out = "data_out" in inspect.signature(getattr(recorder, name)).parameters
        for argument in others:
            values = {**others, argument: largest(function, argument, others)}
            getattr(recorder, name)(**values, **{"data_out": b""} if has_data_out else {})
            assert recorder.sent[0].hex() == function(**values).hex(), (name, argument)


# From SPC-4, 5.13: whether an initiator that is not registered may read, whether one that is registered
# may write, and whether each of these holds the reservation.
TYPES = [
    (ReservationType.WRITE_EXCLUSIVE, True, False, False),
    (ReservationType.EXCLUSIVE_ACCESS, False, False, False),
    (ReservationType.WRITE_EXCLUSIVE_REGISTRANTS_ONLY, True, True, False),
    (ReservationType.EXCLUSIVE_ACCESS_REGISTRANTS_ONLY, False, True, False),
    (ReservationType.WRITE_EXCLUSIVE_ALL_REGISTRANTS, True, True, True),
    (ReservationType.EXCLUSIVE_ACCESS_ALL_REGISTRANTS, False, True, True),
]


@pytest.mark.parametrize("kind, others_read, registered_write, all_hold", TYPES)
def test_types_of_reservations(two_initiators: Tuple[Initiator, Initiator], kind: ReservationType,
                               others_read: bool, registered_write: bool, all_hold: bool) -> None:
    first, second = two_initiators
    third = first.disk.initiator(2)
    third.test_unit_ready()
    for it in first, second:
        it.persistent_reserve_out(ReserveOut.REGISTER, reserve_out_list(0, 0xA0 + it.number)).check()
    first.persistent_reserve_out(ReserveOut.RESERVE, reserve_out_list(0xA0), type=kind).check()
    assert third.read10(0).is_good == others_read and not third.write10(0, bytes(512)).is_good
    assert second.write10(0, bytes(512)).is_good == registered_write
    holders = first.persistent_reserve_in(ReserveIn.READ_FULL_STATUS).text().count("holder: 1")
    assert holders == 1 + all_hold and len(TYPES) == len(ReservationType)


def test_data_out_is_as_long_as_the_cdb_asks(initiator: Initiator) -> None:
    """data_out_length of a reply is the proved disk's word on the CDB."""
    for name in ("write6", "write10", "write12", "write16", "write_and_verify10", "write_and_verify12",
                 "write_and_verify16", "orwrite16", "write_atomic16", "verify10", "verify12", "verify16"):
        for blocks in 1, 3:
            reply = getattr(initiator, name)(5, b"\xa5" * 512 * blocks).check()
            assert reply.data_out_length == 512 * blocks, name
        assert initiator.read10(5, 3).data_in == b"\xa5" * 1536
    for blocks in 1, 2:
        pairs = b"\xa5" * 512 * blocks + b"\xa5" * 512 * blocks
        assert initiator.compare_and_write(5, pairs).check().data_out_length == 1024 * blocks
    for send, data_out in ((initiator.unmap, unmap_list((0, 1))),
                           (initiator.unmap, unmap_list((7, 2), (9, 9))),
                           (initiator.mode_select6, initiator.mode_sense6(page_code=8).data_in),
                           (initiator.mode_select10, initiator.mode_sense10(page_code=8).data_in)):
        # MODE DATA LENGTH is reserved in MODE SELECT, and the disk ignores it
        assert send(data_out).check().data_out_length == len(data_out)
    assert initiator.write_same10(1, bytes(512)).check().data_out_length == 512
    assert initiator.format_unit(bytes(4)).check().data_out_length == 4
    assert initiator.format_unit().check().data_out_length == 0


def test_whole_blocks_and_given_ones(initiator: Initiator) -> None:
    for call in (lambda: initiator.write10(0, bytes(513)), lambda: initiator.compare_and_write(0, bytes(512)),
                 lambda: initiator.verify10(0, bytes(1)), lambda: initiator.write6(0, b""),
                 lambda: initiator.write6(0, bytes(257 * 512)), lambda: initiator.read6(0, 0),
                 lambda: initiator.read6(0, 257), lambda: initiator.read6(1 << 21),
                 lambda: initiator.read10(-1), lambda: initiator.inquiry(page_code=256)):
        with pytest.raises(ValueError):
            call()
    # too little data-out for two blocks
    reply = initiator.write10(0, bytes(513), blocks=2)
    assert (reply.sense_key, reply.asc, reply.data_out_length) == (SenseKey.ILLEGAL_REQUEST, 0x0E, 1024)
    assert initiator.write6(0, bytes(256 * 512)).check().data_out_length == 256 * 512
    assert len(initiator.read6(0, 256).check().data_in) == 256 * 512


@pytest.mark.parametrize("profile, count", [(Profile.BASE, 8), (Profile.EXTENDED, 64)])
def test_a_profile_has_its_initiators(profile: Profile, count: int) -> None:
    with Disk(64, 4, profile=profile) as disk:
        assert disk.initiators == count
        assert [disk.initiator(it).number for it in range(count)] == list(range(count))
        with pytest.raises(Refused) as caught:
            disk.initiator(count)
        assert caught.value.error == Error.NO_INITIATOR


def test_initiators_are_numbers_of_the_disk(scsi_disk: Disk) -> None:
    with pytest.raises(ValueError):
        scsi_disk.initiator(-1)
    first, last = scsi_disk.initiator(0), scsi_disk.initiator(63)
    assert first.disk is scsi_disk and not first.test_unit_ready().is_good and first.test_unit_ready().is_good
    assert last.test_unit_ready().asc == 0x29 and last.tool("sg_turs").is_good
    assert last.execute(bytes(6), flush=False).waits is False
