"""A disk, its initiators, and the replies to their commands: docs/PYTHON.md."""
import ctypes
import os
from enum import IntEnum
from typing import Callable, Iterable, List, NamedTuple, Optional, Set, Type, TypeVar, Union

from ._cdb import within
from ._library import (ANY_PROFILE, BUFFER_LENGTH, DATA_OUT_LENGTH, LIBRARY, MOST_INITIATORS,
                       NO_TEXT, Command, Damage, Error, Fault, Happening, HappeningRecord,
                       IdentityRecord, Kind, Profile, ReplyRecord, Sense, Slot)
from .methods import Commands


class Status(IntEnum):
    """The status of a reply. Only a disk with armed faults returns the last three. NO_REPLY is no
    status of SAM-5: the disk never replies."""
    GOOD = 0x00
    CHECK_CONDITION = 0x02
    RESERVATION_CONFLICT = 0x18
    BUSY = 0x08
    TASK_SET_FULL = 0x28
    NO_REPLY = 0xFF

    def __repr__(self) -> str:
        return f"{self.name.replace('_', ' ')} ({self:02X}h)"

    # print and format show the number on each version of Python
    __str__ = int.__repr__

    def __format__(self, format_spec: str) -> str:
        return format(int(self), format_spec)


GOOD, CHECK_CONDITION = Status.GOOD, Status.CHECK_CONDITION
RESERVATION_CONFLICT, BUSY = Status.RESERVATION_CONFLICT, Status.BUSY
TASK_SET_FULL, NO_REPLY = Status.TASK_SET_FULL, Status.NO_REPLY


class SenseKey(IntEnum):
    """The sense keys of SPC-4."""
    NO_SENSE = 0x0
    RECOVERED_ERROR = 0x1
    NOT_READY = 0x2
    MEDIUM_ERROR = 0x3
    HARDWARE_ERROR = 0x4
    ILLEGAL_REQUEST = 0x5
    UNIT_ATTENTION = 0x6
    DATA_PROTECT = 0x7
    BLANK_CHECK = 0x8
    VENDOR_SPECIFIC = 0x9
    COPY_ABORTED = 0xA
    ABORTED_COMMAND = 0xB
    RESERVED = 0xC
    VOLUME_OVERFLOW = 0xD
    MISCOMPARE = 0xE
    COMPLETED = 0xF


class Refused(Exception):
    """A call was refused, for the reason `error`. It has changed nothing, except with FILE_FAILED. If
    a file is damaged, or has another version, `damage` says where, or which."""

    def __init__(self, error: int, damage: Optional[Damage] = None) -> None:
        self.error, self.damage = Error(error), damage
        super().__init__("MDL_" + self.error.name)


class BadStatus(Exception):
    """A `reply` that Reply.check does not let pass: its status is not GOOD."""

    def __init__(self, reply: "Reply") -> None:
        self.reply = reply
        super().__init__(repr(reply))


class CheckCondition(BadStatus):
    """A reply with CHECK CONDITION, and the fields of its sense data as Reply has them."""

    def __init__(self, reply: "Reply") -> None:
        self.sense_key, self.asc, self.ascq = reply.sense_key, reply.asc, reply.ascq
        self.information = reply.information
        super().__init__(reply)


def check(error: int) -> None:
    if error:
        raise Refused(error)


def mask_of(initiators: Optional[Iterable[int]]) -> int:
    """Returns the mask of some initiators, 0 to 63, or of all of them if there is None."""
    mask = 0
    for initiator in range(MOST_INITIATORS) if initiators is None else initiators:
        mask |= 1 << within("initiator", initiator, 6)
    return mask


def words_of(words: str) -> bytes:
    """Returns words as C reads them."""
    if "\0" in words:
        raise ValueError("C would take the words to end at their NUL")
    return words.encode()


def read_happening(words: str) -> HappeningRecord:
    """Returns the HappeningRecord that words ask for, such as "fault arrival busy times 2"."""
    record = HappeningRecord()
    check(LIBRARY.mdl_read_happening(words_of(words), record))
    return record


def text_of(write: Callable[..., int], *arguments: object) -> str:
    """Returns the text that a function writes as snprintf does."""
    length = write(*arguments, None, 0)
    if length != NO_TEXT:
        text = ctypes.create_string_buffer(length + 1)
        if write(*arguments, text, length + 1) == length:
            return text.raw[:length].decode("ascii")
    raise MemoryError("there is no memory for a text")


def decode(kind: int, data_in: bytes) -> str:
    """Returns what an answer of a kind contains, in lines."""
    return text_of(LIBRARY.mdl_decode, Kind(kind), data_in, len(data_in))


def version() -> str:
    """Returns the version of the library, and the identity of the logic that it is proved in."""
    return text_of(LIBRARY.mdl_version)


def identity(vendor: str = "SGMODEL", product: str = "THIN DISK", revision: str = "0100",
             serial: str = "00000001", local: int = 1) -> IdentityRecord:
    """Returns an identity: texts, padded with spaces, and a number of 60 bits."""
    record = IdentityRecord(local=within("local", local, 64))
    texts = {"vendor": vendor, "product": product, "revision": revision, "serial": serial}
    for name, text in texts.items():
        field = getattr(record, name)
        if len(text) > len(field):
            raise ValueError(f"{name} has more than {len(field)} characters: {text}")
        field[:] = text.encode("ascii").ljust(len(field))
    return record


def identity_of_seed(seed: int) -> IdentityRecord:
    """Returns the identity of a seed of at most 60 bits. Two seeds make two identities."""
    record = IdentityRecord()
    check(LIBRARY.mdl_identity_of_seed(within("seed", seed, 64), record))
    return record


# The kinds of data-in by the operation code, and by the service action if it has several.
KINDS = {
    (0x03, None): Kind.SENSE_EXTENDED, (0x1A, None): Kind.MODES_6, (0x25, None): Kind.CAPACITY_10,
    (0x37, None): Kind.DEFECTS_10, (0x4D, None): Kind.LOG_PAGE, (0x5A, None): Kind.MODES_10,
    (0x5E, 0x00): Kind.KEYS, (0x5E, 0x01): Kind.RESERVATION,
    (0x5E, 0x02): Kind.CAPABILITIES_EXTENDED, (0x5E, 0x03): Kind.FULL_STATUS_EXTENDED,
    (0x9E, 0x10): Kind.CAPACITY_16, (0x9E, 0x12): Kind.LBA_STATUS, (0xA0, None): Kind.LUNS,
    (0xA3, 0x0D): Kind.TASK_MANAGEMENT, (0xB7, None): Kind.DEFECTS_12,
}


def kind_of(cdb: bytes) -> Kind:
    """Returns the kind of the data-in of a command, and HEX if it has no other. The kinds of an
    extended disk print the data of a base disk, too."""
    code, second, third = (cdb + bytes(3))[:3]
    action = second & 0x1F
    if code == 0x12:
        return Kind.VPD_EXTENDED if second & 0x01 else Kind.INQUIRY_EXTENDED
    if (code, action) == (0xA3, 0x0C):
        return Kind.ONE_COMMAND if third & 0x07 else Kind.ALL_COMMANDS
    return KINDS.get((code, action if code in (0x5E, 0x9E, 0xA3) else None), Kind.HEX)


# The most characters of sense data and data-in that repr shows.
SHOWN = 80


class Reply(NamedTuple):
    """The reply to a command. Its kind says how data-in is printed. data_out_length is how many bytes
    of data-out the CDB asks for. If it waits, it must not go out before Disk.flush has returned."""
    status: Status
    sense: bytes
    data_in: bytes
    kind: Kind
    exit_status: int
    data_out_length: int
    waits: bool = False

    def text(self) -> str:
        """Returns what sgrun prints of it after its status: sense data, or data-in if there is
        none."""
        if self.sense:
            return decode(Kind.SENSE, self.sense)
        return decode(self.kind, self.data_in) if self.status == GOOD else ""

    def fields(self) -> Sense:
        """The fields of its sense data, a Sense. It raises Refused if there is no sense data, or if
        it is of a deferred error."""
        fields = Sense()
        check(LIBRARY.mdl_read_sense(self.sense, len(self.sense), fields))
        return fields

    @property
    def is_good(self) -> bool:
        """Its status is GOOD."""
        return self.status == GOOD

    @property
    def status_name(self) -> str:
        """The name of its status in SAM-5, such as CHECK CONDITION."""
        return Status(self.status).name.replace("_", " ")

    def _sense(self) -> Optional[Sense]:
        """The fields of its sense data, even of a deferred error. None if it has no sense data."""
        if not self.sense:
            return None
        # 71h and 73h are the response codes of deferred errors (SPC-4, 4.5.1)
        of_this_command = bytes([self.sense[0] & 0xFE]) + self.sense[1:]
        return self._replace(sense=of_this_command).fields()

    @property
    def sense_key(self) -> Optional[SenseKey]:
        """The sense key. None if it has no sense data."""
        fields = self._sense()
        return None if fields is None else SenseKey(fields.key)

    @property
    def asc(self) -> Optional[int]:
        """The additional sense code. None if it has no sense data."""
        fields = self._sense()
        return None if fields is None else fields.asc

    @property
    def ascq(self) -> Optional[int]:
        """The additional sense code qualifier. None if it has no sense data."""
        fields = self._sense()
        return None if fields is None else fields.ascq

    @property
    def information(self) -> Optional[int]:
        """The INFORMATION field, mostly a block's address. None if its sense data has no such field."""
        fields = self._sense()
        return fields.information if fields is not None and fields.has_information else None

    def check(self) -> "Reply":
        """Returns the reply if its status is GOOD. Otherwise it raises CheckCondition, or BadStatus
        for a status without sense data."""
        if self.is_good:
            return self
        raise CheckCondition(self) if self.sense else BadStatus(self)

    def headline(self) -> str:
        """Its status, and how many bytes of data-in it has."""
        of_data = f", {len(self.data_in)} bytes of data-in" if self.data_in else ""
        return self.status_name + of_data

    def lines(self) -> List[str]:
        """Its headline, and then what its sense data and its data-in contain."""
        lines = [self.headline()]
        if self.sense_key is not None:
            text = decode(Kind.SENSE_EXTENDED, self.sense)
            name = self.sense_key.name.replace("_", " ")
            lines += text.replace(f"KEY {self.sense_key:02X}h", name).splitlines()
        if self.data_in:
            lines += decode(self.kind, self.data_in).splitlines()
        return lines

    def __repr__(self) -> str:
        """Its headline, and the first of what its sense data and its data-in contain, in a line."""
        # a READ may have a megabyte, whose text takes time
        cut = self._replace(data_in=self.data_in[:SHOWN]) if self.kind == Kind.HEX else self
        text = "; ".join(" ".join(it.split()) for it in cut.lines()[1:])
        text = text[len("sense: "):] if text.startswith("sense: ") else text
        shown = text if len(text) <= SHOWN else text[:SHOWN] + ".."
        return f"<Reply {self.headline()}{': ' if shown else ''}{shown}>"


AnyDisk = TypeVar("AnyDisk", bound="Disk")
PathName = Union[str, bytes, "os.PathLike[str]", "os.PathLike[bytes]"]


class Disk:
    """A disk of `blocks` blocks. At most `pool` of them can be mapped or anchored at once. It has
    an identity, by default the standard one, and a Profile. `close`, the end of a `with` or the
    loss of its last reference frees it. A disk in a file is flushed before that."""

    def __init__(self, blocks: int = 4096, pool: int = 4, identity: Optional[IdentityRecord] = None,
                 profile: int = Profile.BASE) -> None:
        self.prepare()
        blocks, pool = within("blocks", blocks, 64), within("pool", pool, 32)
        profile = within("profile", profile, 32)
        check(LIBRARY.mdl_make_with_profile(self.slot, profile, blocks, pool, identity))

    def prepare(self) -> None:
        """Makes an empty slot for a disk, and the buffer for data-in."""
        self.slot = Slot()
        self.data_in = (ctypes.c_uint8 * BUFFER_LENGTH)()

    @classmethod
    def open(cls: Type[AnyDisk], path: PathName, blocks: int = 0, pool: int = 0,
             identity: Optional[IdentityRecord] = None, profile: int = ANY_PROFILE) -> AnyDisk:
        """The disk that a file keeps, as after power on. If there is no file, or an empty one, a new
        disk is made, and you have to give blocks, pool and profile. Otherwise what you give has to
        be what the disk has. An OSError says that the system refuses to open the file."""
        disk, damage = cls.__new__(cls), Damage()
        disk.prepare()
        name = os.fsencode(path)
        if b"\0" in name:
            raise ValueError("C would take the path to end at its NUL")
        blocks, pool = within("blocks", blocks, 64), within("pool", pool, 32)
        profile = within("profile", profile, 32)
        error = LIBRARY.mdl_open(disk.slot, name, profile, blocks, pool, identity, damage)
        if error == Error.CANNOT_OPEN:
            raise OSError(ctypes.get_errno(), os.strerror(ctypes.get_errno()), path)
        if error:
            raise Refused(error, damage)
        return disk

    @property
    def initiators(self) -> int:
        """How many initiators the disk has, numbered from 0 on: 8 of the base profile, or 64."""
        count = ctypes.c_uint32()
        check(LIBRARY.mdl_initiators(self.slot, count))
        return count.value

    def initiator(self, number: int) -> "Initiator":
        """The initiator with a number below `initiators`. It has a method for each command."""
        if within("initiator", number, 32) >= self.initiators:
            raise Refused(Error.NO_INITIATOR)
        return Initiator(self, number)

    def execute(self, initiator: int, cdb: bytes, data_out: bytes = b"", kind: int = Kind.HEX,
                flush: bool = True) -> Reply:
        """The Reply to the command of an initiator by its number. With flush=False the disk does not
        flush its file for it, and the reply may have to wait: see mdl_execute_unflushed."""
        record = ReplyRecord()
        execute = LIBRARY.mdl_execute if flush else LIBRARY.mdl_execute_unflushed
        error = execute(self.slot, within("initiator", initiator, 32), cdb, len(cdb), data_out,
                        len(data_out), self.data_in, BUFFER_LENGTH, record)
        if error != Error.FLUSH_OWED:
            check(error)
        return Reply(Status(record.status), bytes(record.sense[:record.sense_length]),
                     ctypes.string_at(self.data_in, record.data_in_length), Kind(kind),
                     LIBRARY.mdl_exit_status(record), record.data_out_length,
                     error == Error.FLUSH_OWED)

    def tool(self, initiator: int, words: str) -> Reply:
        """Executes what the words of a tool ask for, such as "sg_vpd -p lbpv"."""
        command = Command()
        data_out = (ctypes.c_uint8 * DATA_OUT_LENGTH)()
        check(LIBRARY.mdl_tool(words_of(words), data_out, DATA_OUT_LENGTH, command))
        return self.execute(initiator, bytes(command.cdb[:command.cdb_length]),
                            bytes(data_out[:command.data_out_length]), command.kind)

    def power_cycle(self) -> None:
        """Takes the power away and gives it back. Only POWER ON is pending for each initiator then."""
        check(LIBRARY.mdl_power_cycle(self.slot))

    def reset(self) -> None:
        """Resets the logical unit. The saved mode pages become the current ones, and each initiator
        gets the unit attention 29h/03h, unless one of a reset with a higher precedence is
        pending (mehdalung.h)."""
        self.happen(HappeningRecord(kind=Happening.LOGICAL_UNIT_RESET))

    def reset_target(self) -> None:
        """Resets the target that the disk belongs to. It does what `reset` does, with the unit
        attention 29h/02h."""
        self.happen(HappeningRecord(kind=Happening.TARGET_RESET))

    def lose_nexus(self, initiator: int) -> None:
        """An initiator loses its I_T nexus, and gets the unit attention 29h/07h, unless one of a
        reset is pending."""
        initiator = within("initiator", initiator, 32)
        self.happen(HappeningRecord(kind=Happening.NEXUS_LOSS, initiator=initiator))

    def grow(self, blocks: int) -> None:
        """The disk has `blocks` blocks from then on, and each initiator gets the unit attention
        2Ah/09h. If it has as many already, nothing changes."""
        blocks = within("blocks", blocks, 64)
        self.happen(HappeningRecord(kind=Happening.GROW, blocks=blocks))

    def attention(self, asc: int, ascq: int, initiators: Optional[Iterable[int]] = None) -> None:
        """Some initiators of the disk get the unit attention with an additional sense code and
        qualifier, by default all of them. mehdalung.h lists the codes."""
        self.happen(HappeningRecord(kind=Happening.ATTENTION, initiators=mask_of(initiators),
                                    asc=within("asc", asc, 8), ascq=within("ascq", ascq, 8)))

    def arm(self, outcome: int, initiators: Optional[Iterable[int]] = None,
            code: Optional[int] = None, lba: int = 0, count: int = 0,
            healed_by_writes: bool = False, skip: int = 0, times: int = 0, key: int = 0,
            asc: int = 0, ascq: int = 0, blocks: int = 0) -> None:
        """Arms a fault under the lowest free number. It has a FaultOutcome, and meets the commands
        of some initiators of the disk, by default of all. `code` is their operation code, by default
        any. They name one of `count` blocks from `lba` on, or with 0 any blocks or none. mehdalung.h
        says what the other arguments are."""
        fault = Fault(
            initiators=mask_of(initiators), lba=within("lba", lba, 64),
            count=within("count", count, 32), outcome=within("outcome", outcome, 32),
            blocks=within("blocks", blocks, 32), skip=within("skip", skip, 16),
            times=within("times", times, 16), has_code=code is not None,
            code=within("code", code or 0, 8), healed_by_writes=bool(healed_by_writes),
            key=within("key", key, 8), asc=within("asc", asc, 8), ascq=within("ascq", ascq, 8))
        self.happen(HappeningRecord(kind=Happening.ARM, fault=fault))

    def disarm(self, number: int) -> None:
        """Takes away the fault with a number, 0 to 7, if there is one."""
        self.happen(HappeningRecord(kind=Happening.DISARM, number=within("number", number, 8)))

    def disarm_all(self) -> None:
        """Takes away all faults."""
        self.happen(HappeningRecord(kind=Happening.DISARM_ALL))

    def faults(self) -> str:
        """Lists the armed faults, in lines: each with its number, in the words that arm it."""
        return text_of(LIBRARY.mdl_faults, self.slot)

    def happen(self, what: Union[str, HappeningRecord]) -> None:
        """Lets something happen: words such as "fault medium 3/11/00 blocks 10 2", or a
        HappeningRecord. The methods above do so by name."""
        record = read_happening(what) if isinstance(what, str) else what
        check(LIBRARY.mdl_happen(self.slot, record))

    def registered(self) -> Set[int]:
        """The set of the initiators that are registered."""
        mask = ctypes.c_uint64()
        check(LIBRARY.mdl_registered(self.slot, mask))
        return {initiator for initiator in range(MOST_INITIATORS) if mask.value >> initiator & 1}

    def forget(self, initiator: int) -> None:
        """Clears the unit attentions that are pending for an initiator whose port is gone."""
        check(LIBRARY.mdl_forget(self.slot, within("initiator", initiator, 32)))

    def flush(self) -> None:
        """Puts all that was changed so far into the disk's file."""
        check(LIBRARY.mdl_flush(self.slot))

    def close(self) -> None:
        """Frees the disk. A disk in a file is flushed before that, and its file is closed."""
        error = LIBRARY.mdl_close(self.slot)
        if error != Error.NO_DISK:
            check(error)

    def free(self) -> None:
        """Frees the disk without a flush, as if the program had stopped."""
        LIBRARY.mdl_free(self.slot)

    # LIBRARY may be gone when the interpreter ends. There is no slot if __init__ made none.
    def __del__(self, close: Callable[[Slot], int] = LIBRARY.mdl_close) -> None:
        if hasattr(self, "slot"):
            close(self.slot)

    def __enter__(self: AnyDisk) -> AnyDisk:
        return self

    def __exit__(self, *_: object) -> None:
        self.close()


class Initiator(Commands):
    """An initiator of a disk. It has a method for each command, such as `read10`, and `execute` for
    any CDB. The data-in of a command by name is printed by its kind."""

    def __init__(self, disk: Disk, number: int) -> None:
        self.disk, self.number = disk, number

    def execute(self, cdb: bytes, data_out: bytes = b"", kind: int = Kind.HEX,
                flush: bool = True) -> Reply:
        """The Reply to any CDB, as Disk.execute returns it."""
        return self.disk.execute(self.number, cdb, data_out, kind, flush)

    def send(self, cdb: bytes, data_out: bytes = b"") -> Reply:
        """The Reply to the CDB of a command of the disk, with the kind of its data-in."""
        return self.execute(cdb, data_out, kind_of(cdb))

    def tool(self, words: str) -> Reply:
        """Executes what the words of a tool ask for, such as "sg_vpd -p lbpv"."""
        return self.disk.tool(self.number, words)

    def __repr__(self) -> str:
        return f"<Initiator {self.number}>"
