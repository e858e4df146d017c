"""The command descriptor blocks of the profile (SPC-4, 4.2.5, and the section of each command).

One table: operation code, service action, name, reservation class, fields, ignored bits. A field is
written with its bytes, such as `4` or `2-5`. A mask gives the bits of its first byte, such as
`1:10` or `1:1F-3`. SERVICE ACTION, if the command has one, is 1:1F. A bit has to be zero unless it
belongs to a field or is ignored. So each bit of CONTROL, the last byte, has to be zero.

Reservation classes (SPC-4, 5.13, and SBC-3, the tables of commands that a reservation allows):
`allowed` under every reservation, `reads` and `writes` as their names say. `class_of` has the one
exception.
"""

from sense import invalid_field_in_cdb

TABLE = """
00    | TEST UNIT READY        | allowed |                                             |
03    | REQUEST SENSE          | allowed | desc 1:01, allocation_length 4              |
04    | FORMAT UNIT            | writes  | longlist 1:20, fmtdata 1:10                 | 1:08
08    | READ(6)                | reads   | address 1:1F-3, count 4                     |
0A    | WRITE(6)               | writes  | address 1:1F-3, count 4                     |
12    | INQUIRY                | allowed | evpd 1:01, page_code 2, \
                                           allocation_length 3-4                       |
15    | MODE SELECT(6)         | writes  | pf 1:10, sp 1:01, list_length 4             |
1A    | MODE SENSE(6)          | reads   | dbd 1:08, pc 2:C0, page_code 2:3F, \
                                           subpage_code 3, allocation_length 4         |
1B    | START STOP UNIT        | writes  | modifier 3:0F, power_condition 4:F0, loej 4:02, \
                                           start 4:01                                  | 1:01, 4:04
1D    | SEND DIAGNOSTIC        | writes  | self_test_code 1:E0, self_test 1:04, \
                                           parameter_list_length 3-4                   | 1:13
25    | READ CAPACITY(10)      | allowed |                                             |
28    | READ(10)               | reads   | address 2-5, count 7-8                      | 1:1A, 6:1F
2A    | WRITE(10)              | writes  | address 2-5, count 7-8                      | 1:1A, 6:1F
2E    | WRITE AND VERIFY(10)   | writes  | bytchk 1:06, address 2-5, count 7-8         | 1:10, 6:1F
2F    | VERIFY(10)             | reads   | bytchk 1:06, address 2-5, count 7-8         | 1:10, 6:1F
34    | PRE-FETCH(10)          | reads   | address 2-5, count 7-8                      | 1:02, 6:1F
35    | SYNCHRONIZE CACHE(10)  | writes  | address 2-5, count 7-8                      | 1:06, 6:1F
37    | READ DEFECT DATA(10)   | reads   | req_plist 2:10, req_glist 2:08, format 2:07, \
                                           allocation_length 7-8                       |
3F    | WRITE LONG(10)         | writes  | cor_dis 1:80, wr_uncor 1:40, address 2-5, \
                                           transfer_length 7-8                         |
41    | WRITE SAME(10)         | writes  | anchor 1:10, unmap 1:08, address 2-5, \
                                           count 7-8                                   | 6:1F
42    | UNMAP                  | writes  | anchor 1:01, group_number 6:1F, \
                                           list_length 7-8                             |
48.02 | SANITIZE, BLOCK ERASE  | writes  | parameter_list_length 7-8                   | 1:A0
48.03 | SANITIZE, CRYPTOGRAPHIC ERASE \
                               | writes  | parameter_list_length 7-8                   | 1:A0
48.1F | SANITIZE, EXIT FAILURE MODE \
                               | writes  | parameter_list_length 7-8                   | 1:A0
4D    | LOG SENSE              | allowed | page_code 2:3F, subpage_code 3, \
                                           parameter_pointer 5-6, \
                                           allocation_length 7-8                       | 2:C0
55    | MODE SELECT(10)        | writes  | pf 1:10, sp 1:01, list_length 7-8           |
5A    | MODE SENSE(10)         | reads   | llbaa 1:10, dbd 1:08, pc 2:C0, \
                                           page_code 2:3F, subpage_code 3, \
                                           allocation_length 7-8                       |
5E    | PERSISTENT RESERVE IN  | allowed | allocation_length 7-8                       |
5F    | PERSISTENT RESERVE OUT | allowed | scope 2:F0, type 2:0F, list_length 5-8      |
83.00 | EXTENDED COPY(LID1)    | writes  | list_length 10-13                           |
84.03 | RECEIVE COPY OPERATING PARAMETERS \
                               | writes  | allocation_length 10-13                     |
88    | READ(16)               | reads   | address 2-9, count 10-13                    | 1:1A, 14:1F
89    | COMPARE AND WRITE      | writes  | address 2-9, count 13                       | 1:1A, 14:1F
8A    | WRITE(16)              | writes  | address 2-9, count 10-13                    | 1:1A, 14:1F
8B    | ORWRITE(16)            | writes  | address 2-9, count 10-13                    | 1:1A, 14:1F
8E    | WRITE AND VERIFY(16)   | writes  | bytchk 1:06, address 2-9, count 10-13       | 1:10, 14:1F
8F    | VERIFY(16)             | reads   | bytchk 1:06, address 2-9, count 10-13       | 1:10, 14:1F
90    | PRE-FETCH(16)          | reads   | address 2-9, count 10-13                    | 1:02, 14:1F
91    | SYNCHRONIZE CACHE(16)  | writes  | address 2-9, count 10-13                    | 1:06, 14:1F
93    | WRITE SAME(16)         | writes  | anchor 1:10, unmap 1:08, ndob 1:01, \
                                           address 2-9, count 10-13                    | 14:1F
9C    | WRITE ATOMIC(16)       | writes  | address 2-9, boundary 10-11, count 12-13    | 1:18, 14:1F
9E.10 | READ CAPACITY(16)      | allowed | allocation_length 10-13                     |
9E.12 | GET LBA STATUS         | reads   | address 2-9, allocation_length 10-13        |
A0    | REPORT LUNS            | allowed | select_report 2, allocation_length 6-9      |
A3.0C | REPORT SUPPORTED OPERATION CODES \
                               | reads   | rctd 2:80, options 2:07, opcode 3, \
                                           action 4-5, allocation_length 6-9           |
A3.0D | REPORT SUPPORTED TASK MANAGEMENT FUNCTIONS \
                               | reads   | repd 2:80, allocation_length 6-9            |
A3.0A | REPORT TARGET PORT GROUPS \
                               | allowed | data_format 1:E0, allocation_length 6-9     |
A8    | READ(12)               | reads   | address 2-5, count 6-9                      | 1:1A, 10:1F
AA    | WRITE(12)              | writes  | address 2-5, count 6-9                      | 1:1A, 10:1F
AE    | WRITE AND VERIFY(12)   | writes  | bytchk 1:06, address 2-5, count 6-9         | 1:10, 10:1F
AF    | VERIFY(12)             | reads   | bytchk 1:06, address 2-5, count 6-9         | 1:10, 10:1F
B7    | READ DEFECT DATA(12)   | reads   | req_plist 1:10, req_glist 1:08, format 1:07, \
                                           index 2-5, allocation_length 6-9            |
"""

# Ignored bits that REPORT SUPPORTED OPERATION CODES shows: DPO and FUA, IMMED, NO_FLUSH, and PC
# (SPC-4, 6.35.3). `is_shown` says which fields it shows.
SHOWN = {
    **dict.fromkeys(("READ(10)", "READ(12)", "READ(16)", "WRITE(10)", "WRITE(12)", "WRITE(16)",
                     "COMPARE AND WRITE", "ORWRITE(16)", "WRITE ATOMIC(16)"), "1:18"),
    **dict.fromkeys((f"{name}({length})" for name in ("VERIFY", "WRITE AND VERIFY")
                     for length in (10, 12, 16)), "1:10"),
    **dict.fromkeys((f"{name}({length})" for name in ("SYNCHRONIZE CACHE", "PRE-FETCH")
                     for length in (10, 16)), "1:02"),
    **dict.fromkeys((f"SANITIZE, {action}" for action in (
        "BLOCK ERASE", "CRYPTOGRAPHIC ERASE", "EXIT FAILURE MODE")), "1:80"),
    "LOG SENSE": "2:C0",
    "START STOP UNIT": "1:01,4:04",
}

# Fields that the disk does not look at: a GROUP NUMBER, BYTE TRANSFER LENGTH of a WRITE LONG without data
# (SBC-3, 5.41), and ADDRESS DESCRIPTOR INDEX of lists without descriptors (SBC-3, 5.18).
NOT_SHOWN = {"group_number", "transfer_length", "index"}

# The service actions of PERSISTENT RESERVE OUT that ignore SCOPE and TYPE (SPC-4, 6.16.2)
WITHOUT_TYPE = {"REGISTER", "CLEAR", "REGISTER AND IGNORE EXISTING KEY", "REGISTER AND MOVE"}

# Operation codes that only a disk of the extended profile knows.
OF_EXTENDED = {0x04, 0x1B, 0x1D, 0x2E, 0x2F, 0x34, 0x37, 0x3F, 0x48, 0x4D, 0x83, 0x84, 0x89, 0x8B, 0x8E,
               0x8F, 0x90, 0x91, 0x9C, 0xA0, 0xA3, 0xA8, 0xAA, 0xAE, 0xAF, 0xB7}

# Fields that only a disk of the extended profile knows. A base disk refuses their bits.
FIELDS_OF_EXTENDED = {("WRITE SAME(16)", "ndob")}

# Service actions that only a disk of the extended profile knows, of an operation code that both know.
ACTIONS_OF_EXTENDED = {(0x5F, 0x07)}

# These two have a name for each service action, from 00h on.
SERVICE_ACTIONS = {
    "PERSISTENT RESERVE IN": (
        "READ KEYS", "READ RESERVATION", "REPORT CAPABILITIES", "READ FULL STATUS"),
    "PERSISTENT RESERVE OUT": (
        "REGISTER", "RESERVE", "RELEASE", "CLEAR", "PREEMPT", "PREEMPT AND ABORT",
        "REGISTER AND IGNORE EXISTING KEY", "REGISTER AND MOVE"),
}

# The length of a CDB by the group code, bits 7 to 5 of the operation code (SPC-4, OPERATION CODE).
LENGTH_OF_GROUP = {0: 6, 1: 10, 2: 10, 4: 16, 5: 12}


class Field:
    """Bytes `first` to `last` of a CDB, of the first of them the bits under `mask`."""

    def __init__(self, text):
        places, _, last = text.partition("-")
        first, _, mask = places.partition(":")
        self.first = int(first)
        self.last = int(last or first)
        self.mask = int(mask or "FF", 16)

    def value(self, cdb):
        first = cdb[self.first] & self.mask
        if self.first == self.last:
            return first // (self.mask & -self.mask)  # shifted to the right by the zeros below
        return int.from_bytes(bytes([first]) + cdb[self.first + 1:self.last + 1], "big")

    def put(self, cdb, value):
        """Sets the field in a CDB, for those who make one."""
        if self.first == self.last:
            cdb[self.first] |= value * (self.mask & -self.mask) & self.mask
        else:
            size = self.last - self.first + 1
            bits = self.mask << 8 * (size - 1) | 256 ** (size - 1) - 1
            cdb[self.first:self.last + 1] = (value & bits).to_bytes(size, "big")


class Layout:
    """The form of the CDB of a command, or of one service action."""

    def __init__(self, code, action, name, reservation_class, fields, ignored):
        self.name, self.reservation_class = name, reservation_class
        self.length = LENGTH_OF_GROUP[code >> 5]
        self.fields = {}
        for named in filter(None, fields.split(",")):
            field, places = named.split()
            self.fields[field] = Field(places)
        ignored = [*map(Field, filter(None, ignored.split(",")))]
        if action is not None:
            ignored.append(Field("1:1F"))
        of_base = [place for field, place in self.fields.items()
                   if (name, field) not in FIELDS_OF_EXTENDED]
        self.allowed_bits = {
            "base": bits_of([*of_base, *ignored], self.length),
            "extended": bits_of([*self.fields.values(), *ignored], self.length)}
        shown = [place for field, place in self.fields.items() if is_shown(name, field)]
        shown += map(Field, filter(None, SHOWN.get(name, "").split(",")))
        self.usage = bytearray(bits_of(shown, self.length))
        self.usage[0] = code
        self.usage[1] |= action or 0  # 1:1F has no field, but the service action is in its place


def is_shown(name, field):
    """Whether REPORT SUPPORTED OPERATION CODES shows a field of a command."""
    return field not in NOT_SHOWN and not (name in WITHOUT_TYPE and field in ("scope", "type"))


def bits_of(places, length):
    """The bits of some fields, byte by byte. Byte 0, the operation code, has all."""
    bits = [0xFF] + [0] * (length - 1)
    for place in places:
        bits[place.first] |= place.mask
        for byte in range(place.first + 1, place.last + 1):
            bits[byte] = 0xFF
    return bits


def read_table():
    """The layouts, by operation code and by service action, which is None if there is none."""
    layouts = {}
    for row in TABLE.strip().splitlines():
        codes, name, *others = (column.strip() for column in row.split("|"))
        code, *action = (int(number, 16) for number in codes.split("."))
        names = {action[0] if action else None: name}
        if name in SERVICE_ACTIONS:
            names = dict(enumerate(SERVICE_ACTIONS[name]))
        for action, name in names.items():
            layouts[code, action] = Layout(code, action, name, *others)
    return layouts


LAYOUTS = read_table()
LAYOUTS_OF = {"extended": LAYOUTS}  # that a disk of a profile knows
LAYOUTS_OF["base"] = {
    (code, action): layout for (code, action), layout in LAYOUTS.items()
    if code not in OF_EXTENDED and (code, action) not in ACTIONS_OF_EXTENDED}
OPERATION_CODES = {profile: {code for code, _ in its} for profile, its in LAYOUTS_OF.items()}
CODES_WITH_ACTIONS = {code for code, action in LAYOUTS if action is not None}


def layout_of(cdb, profile):
    """The layout of a CDB with a known operation code; None if its service action is unknown."""
    if cdb[0] not in CODES_WITH_ACTIONS:
        return LAYOUTS[cdb[0], None]
    return LAYOUTS_OF[profile].get((cdb[0], cdb[1] & 0x1F if len(cdb) > 1 else 0))


def class_of(cdb, layout):
    """The reservation class. A START STOP UNIT that only starts the unit is allowed (SBC-3, 4.17)."""
    if layout.name == "START STOP UNIT" and len(cdb) > 4:
        start, power_condition = layout.fields["start"], layout.fields["power_condition"]
        if start.value(cdb) and not power_condition.value(cdb):
            return "allowed"
    return layout.reservation_class


class Command:
    """A CDB that has passed the checks of its length and of its bits."""

    def __init__(self, cdb, layout, profile):
        """Checks length, service action, and bits (docs/PROFILE.md, checks 5 and 6)."""
        length = LENGTH_OF_GROUP[cdb[0] >> 5]
        if len(cdb) < length:
            raise invalid_field_in_cdb(len(cdb))
        if layout is None:
            raise invalid_field_in_cdb(1)  # no command allows the bits of this service action
        for byte, bits in enumerate(layout.allowed_bits[profile]):
            if cdb[byte] & ~bits:
                raise invalid_field_in_cdb(byte)
        self.cdb, self.layout, self.name = cdb, layout, layout.name

    def __getitem__(self, field):
        return self.layout.fields[field].value(self.cdb)

    def unsupported(self, field):
        """A value that the disk does not support: the pointer is to the field's first byte."""
        return invalid_field_in_cdb(self.layout.fields[field].first)
