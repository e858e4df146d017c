"""Scripts of random commands. A seed decides the script and the disk.

The commands are nearly valid. Fields have values that matter, and lists are whole or nearly so. Now
and then a bit is turned. So most states of a small disk come up within some hundred lines.
"""

import random

from copying import CSCD_LENGTH, copy_list, cscd_descriptor, segment_descriptor
from device import PROFILES, Device
from layouts import LAYOUTS_OF
from modes import CHANGEABLE, DEFAULT, ERROR_RECOVERY, PAGES_OF, PROVISIONING, page_header
from pages import extended_name
from random_words import attention_words, fault_words, in_any_form, show_line, tool_line
from reservations import ALL_TG_PT, INITIATORS, SPEC_I_PT, TYPES, UNREG, transport_id
from script import Run
from thresholds import ENABLED, LBPERE, LBPERE_AT, OF_AVAILABLE, OF_USED

# Who sends lines, by profile. Some initiators are more frequent.
SENDERS = {"base": (0, 0, 0, 0, 1, 1, 1, 2, 2, 3, 4, 5, 6, 7)}
SENDERS["extended"] = SENDERS["base"] + (8, 31, 32, 63)
# Some commands are more frequent in a script: of reservations, mode pages, provisioning, blocks,
# reports, or none. A base disk has few of the last two.
THEMES = (
    3 * ("REGISTER", "REGISTER AND IGNORE EXISTING KEY", "RESERVE")
    + ("RELEASE", "PREEMPT", "READ RESERVATION", "READ FULL STATUS", "TEST UNIT READY"),
    ("MODE SELECT(6)", "MODE SENSE(6)", "MODE SELECT(10)", "MODE SENSE(10)"),
    ("WRITE SAME(10)", "UNMAP", "WRITE SAME(16)", "GET LBA STATUS", "WRITE LONG(10)",
     "FORMAT UNIT", "SANITIZE, BLOCK ERASE"),
    ("WRITE AND VERIFY(10)", "WRITE AND VERIFY(16)", "READ(12)", "WRITE(12)", "PRE-FETCH(16)",
     "SYNCHRONIZE CACHE(10)"),
    (*3 * ("COMPARE AND WRITE",), "VERIFY(10)", "VERIFY(12)", "VERIFY(16)", "UNMAP",
     "WRITE SAME(10)", "WRITE LONG(10)"),
    (*2 * ("ORWRITE(16)",), "WRITE ATOMIC(16)", "READ(16)", "UNMAP", "WRITE SAME(10)",
     "WRITE LONG(10)"),
    ("REPORT LUNS", "LOG SENSE", "READ DEFECT DATA(12)", "SEND DIAGNOSTIC",
     *2 * ("REPORT SUPPORTED OPERATION CODES",), "REPORT SUPPORTED TASK MANAGEMENT FUNCTIONS",
     "REPORT TARGET PORT GROUPS"),
    (),
)
# Of an extended disk, too: moves of a reservation, with few lines that end it, thresholds, and copies.
THEMES_OF_EXTENDED = (
    (*4 * ("REGISTER AND MOVE", "REGISTER"), *2 * ("RESERVE", "READ FULL STATUS")),
    ("MODE SELECT(6)", "MODE SELECT(10)", *2 * ("WRITE(10)", "WRITE SAME(16)", "UNMAP"), "FORMAT UNIT"),
    (*6 * ("EXTENDED COPY(LID1)",), "RECEIVE COPY OPERATING PARAMETERS", "WRITE(10)", "READ(10)", "UNMAP",
     "WRITE LONG(10)"),
)
OFTEN = 6
TOOL_LINES = ("sg_inq", "sg_inq -l 5", "sg_vpd -p di", "sg_vpd -p bl", "sg_modes", "sg_modes -c 3",
              "sg_modes -L -p 10", "sg_get_lba_status -m 100", "sg_persist -k", "sg_persist -r",
              "sg_persist -s", "sg_persist -c")
# Tools of an extended disk. A, N and B are an address, a count and data-out of some blocks.
EXTENDED_LINES = (
    "sg_turs", "sg_requests", "sg_requests -d -m 5", "sg_luns", "sg_luns -s 1 -H", "sg_opcodes",
    "sg_opcodes -o 28h", "sg_opcodes -o 9eh -s 16 -R", "sg_opcodes -t -q", "sg_logs",
    "sg_logs -p 0ch", "sg_logs -p 0ch -P 2", "sg_logs -p 2fh", "sg_readcap", "sg_readcap -l", "sg_sync",
    "sg_sync -l A -c N", "sg_sync --16 -l A -c N", "sg_verify -l A -c N", "sg_verify --16 -l A -c N",
    "sg_verify -l A -c N -i B", "sg_verify -l A -c N -E 3 -i B", "sg_compare_and_write -l A -i B",
    "sg_compare_and_write -l A -i B", "sg_write_same -l A -n N -i B", "sg_write_same -S -l A -n N -U",
    "sg_write_same --10 -l A -n N -i B", "sg_write_same -N -l A -n N", "sg_write_same -NUa -l A -n N",
    "sg_modes -p 0x1c,2 -c 1", "sg_modes -p 63,255", "sg_modes --six -p 1ch,0ffh",
    "sg_start", "sg_start -s", "sg_start -S", "sg_start -p 3 -m 1")
# Subpage codes of MODE SENSE and LOG SENSE, by profile.
SUBPAGES = {"base": (0, 0, 0xFF), "extended": (0, 0, 0x02, 0xFF, 0xFF)}
# Verbs of an extended disk
HAPPENINGS = ("reset", "reset", "reset target", "nexus", "nexus", "grow", *4 * ("attention",),
              *7 * ("fault",), "faults", "faults", "heal", "heal")


class Script:
    def __init__(self, seed, profile="base"):
        self.random, self.disk = random.Random(seed), profile
        self.profile, self.takes_short_data_out, _ = PROFILES[profile]
        self.blocks = self.random.choice((1, 8, 20, 4096, 2**33))
        self.capacity = self.blocks  # as it is at the next line, if the disk grows
        self.pool = self.random.choice((1, 4, 9))
        if self.profile == "extended" and self.blocks == 2**33:  # a threshold set has 512 blocks
            self.pool = self.random.choice((self.pool, 600, 1030))
        self.has_large_pool = self.pool > 9
        self.type = self.random.choice(TYPES)  # most RESERVE, RELEASE and PREEMPT name it
        self.bad = 0  # where the blocks of the last fault begin, or of the last WRITE LONG
        self.run, self.key = Run(Device(self.blocks, self.pool, profile)), None
        theme = self.random.choice(
            THEMES if self.profile == "base" else THEMES + THEMES_OF_EXTENDED)
        self.layouts = [
            it for it in LAYOUTS_OF[self.profile].items()
            for _ in range(1 + OFTEN * theme.count(it[1].name))]

    def text(self, lines):
        return "".join(self.executed(self.line()) + "\n" for _ in range(lines))

    def executed(self, line):
        """A line that the model of an extended disk has executed. So later lines know who holds the
        reservation: only the holder can move it."""
        if self.profile == "extended":
            self.run.line(0, line.encode())
            self.run.printed.clear()
        return line

    def line(self):
        if self.profile == "extended":
            if self.is_rare(0.15):
                return self.happening()
            if self.is_rare(0.04):
                return self.near_bad_blocks()
            if self.is_rare(0.06):
                return self.near_thresholds()
        initiator, place = self.random.choice(SENDERS[self.profile]), self.random.random()
        if place < 0.005:
            return "power"
        if place < 0.10:
            return f"{self.word_of(initiator)} {self.usual_tool_line()}"
        if place < 0.13:
            return tool_line(self.random, self.word_of(initiator), self.profile)
        if place < 0.17:
            return show_line(self.random, self.profile)
        if place < 0.25:
            return "fill {} {} {} {}".format(self.word_of(initiator), *self.extent(), self.small())
        (code, action), layout = self.random.choice(self.layouts)
        initiator = self.sender(initiator, layout.name)
        cdb, data_out = self.command(code, action, layout)
        return f"raw {self.word_of(initiator)} {cdb.hex() or '-'} {data_out.hex() or '-'}"

    def word_of(self, initiator):
        """An initiator as a line names it. A line of an extended disk now and then has another form of the
        number, or rarely a number of no initiator."""
        if self.profile == "base" or not self.is_rare(0.2):
            return f"{initiator}"
        return in_any_form(self.random, 64 if self.is_rare(0.05) else initiator)

    def sender(self, initiator, command):
        """Who sends a command. A registrant mostly reserves an extended disk, and the holder moves the
        reservation, each with its own key. Mostly no unit attention is in the way of a copy."""
        state, self.key = self.run.device.reservations, None
        fitting = {
            "REGISTER": [initiator],
            "RESERVE": [*state.keys],
            "REGISTER AND MOVE": [it for it in state.keys if it == state.taker],
            "EXTENDED COPY(LID1)": [
                it for it in SENDERS[self.profile] if not self.run.device.attentions[it]],
        }.get(command)
        if self.profile == "extended" and fitting and not self.is_rare(0.15):
            initiator = self.random.choice(fitting)
            self.key = state.keys.get(initiator, 0)
        return initiator

    def usual_tool_line(self):
        """A tool whose words are valid, if its address and count are."""
        if self.profile == "base" or self.is_rare(0.4):
            return self.random.choice(TOOL_LINES)
        blocks = "".join(f"{self.small():02x}" * 512 for _ in range(self.random.choice((1, 2))))
        words = {"A": f"{self.address()}", "N": f"{self.small()}", "B": blocks}
        line = self.random.choice(EXTENDED_LINES)
        return " ".join(words.get(word, word) for word in line.split())

    def happening(self):
        """A verb of an extended disk, now and then with words that it does not take."""
        initiator = self.word_of(self.random.choice(SENDERS[self.profile]))
        verb = self.random.choice(HAPPENINGS)
        if verb == "nexus":
            verb += f" {initiator}"
        elif verb == "grow":
            verb += f" {self.growth()}"
        elif verb == "attention":
            verb += f" {attention_words(self.random, initiator)}"
        elif verb == "fault":
            verb += f" {fault_words(self.random, self.bad_address, self.small)}"
        elif verb == "heal":
            verb += self.random.choice(("", "", f" {self.random.randrange(9)}"))
        return verb + (self.random.choice((" 64", " x", " 0 0")) if self.is_rare(0.05) else "")

    def bad_address(self):
        self.bad = self.address()
        return self.bad

    def near_bad_blocks(self):
        """A command that reads, writes or marks the blocks of the last fault, if it is on blocks."""
        initiator = self.word_of(self.random.choice(SENDERS[self.profile]))
        address, count = max(0, self.bad - self.random.choice((0, 0, 1))), self.small()
        few = min(count, 3)  # as many as a line has room for
        return self.random.choice((
            f"fill {initiator} {address} {count} 9",
            f"raw {initiator} 8800{address:016x}{count:08x}0000",
            f"raw {initiator} 3f40{address % 2**32:08x}00000000",
            f"raw {initiator} a800{address % 2**32:08x}{count:08x}0000",
            f"raw {initiator} 8e02{address:016x}{few:08x}0000 {'5a' * 512 * few or '-'}",
            f"raw {initiator} 8b00{address:016x}{few:08x}0000 {'a5' * 512 * few or '-'}",
            f"raw {initiator} 9c00{address:016x}0000{few:04x}0000 {'5a' * 512 * few or '-'}",
            f"raw {initiator} 8f00{address:016x}{count:08x}0000",
            f"raw {initiator} af06{address % 2**32:08x}{count:08x}0000 {'00' * 512}",
            f"raw {initiator} 8900{address:016x}000000010000 {'00' * 512}{'5a' * 512}",
            f"raw {initiator} 9000{address:016x}{count:08x}0000",
            f"raw {initiator} 9100{address:016x}{count:08x}0000",
            f"{initiator} sg_unmap -l {address} -n 6",
            f"{initiator} sg_unmap -l {address + 1},{address} -n 6,6",
            f"{initiator} sg_get_lba_status -b -l {address}",
            f"raw {initiator} {self.copy_line(address, self.small(), count)}",
            f"raw {initiator} {self.copy_line(self.small(), address, count)}",
        ))

    def copy_line(self, source, destination, count):
        """A CDB of EXTENDED COPY with the list of one segment, both without a fault."""
        data = copy_list([self.cscd()], [segment_descriptor(source, destination, count)])
        return f"8300{'00' * 8}{len(data):08x}0000 {data.hex()}"

    def near_thresholds(self):
        """A command that sets thresholds, or one that takes blocks of the pool or gives some back. Mostly no
        unit attention and no reservation is in its way."""
        disk, senders = self.run.device, SENDERS[self.profile]
        fitting = [it for it in senders if not disk.attentions[it] and disk.reservations.allow(it, "writes")]
        initiator = self.word_of(self.random.choice(fitting or senders))
        page = page_header(PROVISIONING) + self.mode_values(PROVISIONING)
        address, count = self.extent()
        return self.random.choice((
            *3 * (f"raw {initiator} 15{self.random.choice((0x10, 0x11)):02x}00002400 00000000{page.hex()}",),
            *3 * (f"fill {initiator} {address} {count} 9",),
            f"raw {initiator} {self.copy_line(0, address, count)}",
            f"{initiator} sg_unmap -l {address} -n {count}",
            f"{initiator} sg_unmap -a -l {address} -n {count}",
            f"{initiator} sg_write_same -S -l {address} -n {count} -U",
            f"raw {initiator} 040000000000",
        ))

    def growth(self):
        """A number of blocks near the present one, or far above it, or out of range."""
        more = self.random.choice((-1, 0, 1, 1, 2, 7, 100, 2**32, 2**40 + 1 - self.capacity))
        asked = max(0, self.capacity + more)
        if self.capacity < asked <= 2**40:
            self.capacity = asked
        return asked

    def command(self, code, action, layout):
        """A CDB with data-out, rarely with a wrong bit or too short."""
        values = {name: self.value(name, layout.name) for name in layout.fields}
        if layout.name == "WRITE LONG(10)":
            self.bad = values["address"]
        data_out = self.data_out(layout.name, values)
        if "list_length" in values:
            if self.is_rare(0.1):
                data_out = data_out[:self.random.randrange(len(data_out) + 1)]
            values["list_length"] = len(data_out)
        cdb = bytearray(layout.length)
        cdb[:2] = code, action or 0
        for name, value in values.items():
            layout.fields[name].put(cdb, value)
        if self.is_rare(0.08):
            cdb[self.random.randrange(len(cdb))] ^= 1 << self.random.randrange(8)
        if self.takes_short_data_out and self.is_rare(0.2):
            data_out = data_out[:self.random.choice((0, 1, 511, 512, 513, 1023, 1024))]
        elif self.is_rare(0.05):
            data_out = data_out[:-1]
        elif self.is_rare(0.03):
            data_out += bytes(1)
        return (cdb[:self.random.randrange(len(cdb))] if self.is_rare(0.02) else cdb), data_out

    def is_rare(self, share):
        return self.random.random() < share

    def small(self):
        return self.random.choice((0, 1, 1, 1, 2, 2, 3, 5))

    def address(self):
        end = self.capacity
        near = (self.small(), self.small(), end - self.small(), end + self.small())
        return max(0, self.random.choice((*near, *near, 2**32 - self.small(), 2**64 - 1)))

    def extent(self):
        """An address and a count. They are larger if the pool is."""
        if self.has_large_pool and self.is_rare(0.7):
            return 200 * self.random.randrange(8), self.random.choice((100, 199, 255, 256))
        return self.address(), self.small()

    def value(self, field, command):
        pages = (0x01, 0x08, 0x0A, 0x1C, 0x3F)
        if command == "INQUIRY":
            pages = (0x00, 0x00, 0x80, 0x83, 0xB0, 0xB2)
        if command == "LOG SENSE":
            pages = (0x00, 0x0C, 0x0C, 0x2F)
        if field == "count" and self.is_rare(0.03):
            return self.random.choice((256, 257, 2048, 2049, 65535, 65536))
        if command == "COMPARE AND WRITE" and field == "count":
            return self.random.choice((0, 1, 1, 1, 1, 1, 1, 2))  # a line has room for one block
        if command.startswith("VERIFY(") and field == "bytchk":
            return self.random.choice((0, 1, 1, 1, 2, 3, 3))
        usual = {
            "address": self.address(),
            "count": self.small(),
            "boundary": 0,
            "allocation_length": self.random.choice((0, 5, 18, 24, 40, 255, 255, 255)),
            "page_code": self.random.choice(pages),
            "subpage_code": self.random.choice(SUBPAGES[self.profile]),
            "parameter_pointer": self.random.choice((0, 0, 0, 1, 2, 3)),
            "pf": 1,
            "ndob": self.random.choice((0, 0, 1) if self.profile == "extended" else (0,)),
            "wr_uncor": 1,
            "transfer_length": self.random.choice((0, 0, 512)),
            "bytchk": self.random.choice((0, 1)),
            "format": self.random.randrange(6),
            "options": self.random.randrange(4),
            "opcode": self.random.choice(self.layouts)[0][0],
            "action": self.random.choice((0, 0, 1, 3, 0x0A, 0x0C, 0x10, 0x12)),
            "data_format": self.random.randrange(2),
            "select_report": self.random.choice((0, 1, 2)),
            "self_test_code": 0,
            "parameter_list_length": 0,
            "scope": 0,
            "type": self.random.choice((self.type, self.type, self.random.choice(TYPES))),
        }
        if field in usual and not self.is_rare(0.05):
            return usual[field]
        return self.random.randrange(256)  # as much of it as the field has room for

    def data_out(self, command, values):
        if command.startswith(("WRITE(", "WRITE AND VERIFY(", "WRITE ATOMIC(", "ORWRITE(")):
            return bytes([self.small()]) * 512 * min(values["count"] or 256, 3)
        if command.startswith("VERIFY("):
            count = {1: min(values["count"], 3), 3: 1}.get(values["bytchk"], 0)
            return self.nearly_equal(bytes([self.small()]) * 512 * count)
        if command == "COMPARE AND WRITE":
            halves = (self.nearly_equal(bytes([self.small()]) * 512), bytes([self.small()]) * 512)
            return b"".join(halves) if values["count"] else b""
        if command.startswith("WRITE SAME"):
            if values.get("ndob") and self.profile == "extended":
                return b""
            return bytes([self.random.choice((0, 0, 7))]) * 512
        if command == "UNMAP":
            count = 65 if self.is_rare(0.03) else self.small()
            extents = [self.extent() for _ in range(count)]
            descriptors = b"".join(
                at.to_bytes(8, "big") + count.to_bytes(8, "big")[4:] + bytes(4)
                for at, count in extents)
            return bytes([0, 0]) + len(descriptors).to_bytes(2, "big") + bytes(4) + descriptors
        if command == "FORMAT UNIT":
            return self.format_header(8 if values["longlist"] else 4) if values["fmtdata"] else b""
        if command.startswith("MODE SELECT"):
            return self.mode_list(4 if command.endswith("(6)") else 8)
        if command == "EXTENDED COPY(LID1)":
            return self.list_of_copy()
        return self.reserve_list(command) if "list_length" in values else b""

    def cscd(self):
        return cscd_descriptor(extended_name(self.run.device))

    def list_of_copy(self):
        """A list of EXTENDED COPY. Most lists have no fault, and the others one or two."""
        chance, rare = self.random, self.is_rare
        cscds = [bytearray(self.cscd()) for _ in range(chance.choice((1, 1, 1, 2, 2)))]
        segments, inline = [bytearray(self.segment(len(cscds)))], b""
        usage, identifier = chance.choice(((0, 0), (0, 7), (2, 7), (3, 0), (3, 0)))
        if rare(0.06):
            usage, identifier = chance.randrange(4), chance.choice((0, 1, 255))
        if rare(0.06):
            cscds[0][1] ^= chance.choice((0x01, 0x1F, 0x20, 0x40, 0x80))
        if rare(0.08):
            self.turn_a_bit_of(chance.choice((*cscds, *segments)))
        if rare(0.06):
            cut = cscds[0][:chance.randrange(CSCD_LENGTH)]
            cscds = chance.choice(([], 3 * cscds, [*cscds, cut], [cut]))
        if rare(0.06):
            whole = segments[0]
            segments = chance.choice(([], 2 * segments, 40 * segments, [whole, b"\0"], [whole[:-1]]))
        if rare(0.03):
            inline = bytes(self.small())
        data = bytearray(copy_list(cscds, segments, usage, identifier, inline))
        if rare(0.06):
            self.turn_a_bit_of(data)
        return b"" if rare(0.03) else bytes(data)

    def segment(self, cscds):
        """A segment descriptor for a list of some CSCD descriptors. Most copy blocks of the disk."""
        chance, (address, count) = self.random, self.extent()
        if self.is_rare(0.03):
            count = chance.choice((2047, 2048, 2049, 65535))
        last = max(0, self.capacity - count)
        near = (address, self.bad, 0, 1, 2, 3, last)
        source, destination = chance.choices(near, k=2)
        if not self.is_rare(0.1):
            source, destination = min(source, last), min(destination, last)
        ids = [chance.choice((1, 2, 256, 65535)) if self.is_rare(0.04) else chance.randrange(cscds)
               for _ in range(2)]
        return segment_descriptor(source, destination, count, *ids)

    def turn_a_bit_of(self, data):
        """Turns a bit, mostly one of the first bytes, as bytes of addresses differ anyway."""
        if data:
            place = self.random.randrange(len(data) if self.is_rare(0.4) else min(len(data), 24))
            data[place] ^= 1 << self.random.randrange(8)

    def nearly_equal(self, data):
        """Bytes to compare with blocks, which WRITE and `fill` fill with one byte each."""
        data = bytearray(data)
        if data and self.is_rare(0.2):
            data[self.random.choice((0, 255, 511, len(data) - 1))] ^= 1
        return bytes(data)

    def reserve_list(self, command):
        """The list of PERSISTENT RESERVE OUT: most keys are 0 or 1, so many are the right ones."""
        key, action_key = self.random.choice((0, 1, 1, 1)), self.random.choice((0, 1, 1, 1, 2))
        flags = self.random.randrange(256) if self.is_rare(0.03) else self.random.choice((0, 1))
        key = key if self.key is None or self.is_rare(0.1) else self.key
        more = b""
        if self.profile == "extended":
            flags |= ALL_TG_PT if self.is_rare(0.2) else 0
            if self.is_rare(0.2 if command == "REGISTER" else 0.02):
                flags |= SPEC_I_PT
                key, more = self.random.choice((0, 0, 0, 1)), self.transport_ids()
        last = bytes([0, 0, 0, 0, flags, 0, 0, 0]) + more
        if command == "REGISTER AND MOVE":
            last = self.list_of_move(flags)
        return key.to_bytes(8, "big") + action_key.to_bytes(8, "big") + last

    def list_of_move(self, flags):
        """What follows the keys in a list of REGISTER AND MOVE: mostly port 1 and one TransportID."""
        flags |= UNREG if self.is_rare(0.4) else 0
        port = self.random.choice((0, 2, 256)) if self.is_rare(0.05) else 1
        named = self.transport_ids((0, *20 * (1,), 2))
        return bytes([0, flags]) + port.to_bytes(2, "big") + named

    def transport_ids(self, counts=(0, 1, 1, 1, 2, 2, 3, 5, 64, 65)):
        """TransportIDs after their length, now and then with a wrong bit, cut or with a wrong length. Many
        of them name most initiators."""
        count = self.random.choice(counts)
        few, all_of_them = SENDERS["extended"], INITIATORS["extended"]
        named = self.random.choices(few if count < len(few) else all_of_them, k=count)
        data = bytearray(b"".join(map(transport_id, named)))
        if data and self.is_rare(0.25):
            data[self.random.randrange(len(data))] ^= 1 << self.random.randrange(8)
        if self.is_rare(0.05):
            data = data[:self.random.randrange(len(data) + 1)]
        length = len(data) + (self.random.choice((1, 4, 24)) if self.is_rare(0.05) else 0)
        return length.to_bytes(4, "big") + data

    def format_header(self, length):
        """The header of FORMAT UNIT, now and then with a bit that the disk does not support."""
        data = bytearray(length)
        data[1] = self.random.choice((0, 0, 2, 0x80, 0xF2, 0x10))
        if self.is_rare(0.2):
            data[self.random.randrange(length)] ^= 1 << self.random.randrange(8)
        return bytes(data)

    def mode_list(self, header):
        data = bytearray(header)
        if self.is_rare(0.2):
            blocks = self.random.choice((0, min(self.capacity, 2**32 - 1), self.small()))
            data[header - 1] = 8
            data += blocks.to_bytes(4, "big") + (512).to_bytes(4, "big")
        pages = self.random.sample(PAGES_OF[self.profile], self.random.choice((0, 1, 1, 2)))
        if self.profile == "extended" and self.is_rare(0.3):
            pages.append(PROVISIONING)
        for page in pages:
            data += page_header(page) + self.mode_values(page)
        if self.is_rare(0.1):
            data[self.random.randrange(len(data))] ^= 1 << self.random.randrange(8)
        return bytes(data)

    def mode_values(self, page):
        """The default values with some changeable bits turned. Most thresholds of an extended disk are
        enabled and small, and most of its lists want them reported."""
        default, changeable = DEFAULT[self.profile][page], CHANGEABLE[self.profile][page]
        values = bytearray(
            kept ^ self.random.randrange(256) & bits for kept, bits in zip(default, changeable))
        if self.profile == "extended" and not self.is_rare(0.2):
            if page == ERROR_RECOVERY:
                values[LBPERE_AT] |= LBPERE
            for place in (OF_AVAILABLE, OF_USED) if page == PROVISIONING else ():
                values[place] |= 0 if self.is_rare(0.2) else ENABLED
                values[place + 4:place + 8] = self.random.choice((0, 1, 1, 2, 2, 3, 4)).to_bytes(4, "big")
        return bytes(values)
