"""The tools of an extended disk: their options, and the command that each sends (docs/SCRIPT.md).

Each answer is shown as its text, or in hex lines with --hex.
"""

from itertools import combinations

from words import hex_bytes, hex_lines

from .commands import HEX, Request, Tool, Usage, below, mode_page, shown
from .options import Option

BYTE, TWO, FOUR, EIGHT = below(2**8), below(2**16), below(2**32), below(2**64)


def of_bytes(*parts):
    """Bytes of values and their widths."""
    return b"".join(value.to_bytes(width, "big") for value, width in parts)


def sg_turs(_values):
    """TEST UNIT READY (SPC-4, 6.47)."""
    return Request(bytes(6))


def sg_requests(values):
    """REQUEST SENSE (SPC-4, 6.39): DESC is bit 0 of byte 1."""
    cdb = bytes([0x03, "desc" in values, 0, 0, values.get("maxlen") or 252, 0])
    return Request(cdb, show=shown("sense", values))


def sg_luns(values):
    """REPORT LUNS (SPC-4, 6.33)."""
    length = values.get("maxlen") or 8192
    cdb = of_bytes((0xA0, 1), (0, 1), (values.get("select", 0), 1), (0, 3), (length, 4), (0, 2))
    return Request(cdb, show=shown("luns", values))


def sg_opcodes(values):
    """REPORT SUPPORTED OPERATION CODES (SPC-4, 6.35), or REPORT SUPPORTED TASK MANAGEMENT FUNCTIONS
    (SPC-4, 6.36). RCTD and REPD are bit 7 of byte 2."""
    if "tmf" in values:
        length = 16 if "repd" in values else 4
        flags = 0x80 * ("repd" in values)
        return Request(of_bytes((0xA30D, 2), (flags, 1), (0, 3), (length, 4), (0, 2)),
                       show=shown("tmf", values))
    if "sa" in values and "opcode" not in values:
        raise Usage
    options = ("opcode" in values) + ("sa" in values)
    flags = 0x80 * ("rctd" in values) | options
    asked = (values.get("opcode", 0), 1), (values.get("sa", 0), 2)
    return Request(of_bytes((0xA30C, 2), (flags, 1), *asked, (8192, 4), (0, 2)),
                   show=shown("opcode" if "opcode" in values else "opcodes", values))


def sg_logs(values):
    """LOG SENSE (SPC-4, 6.8) of cumulative values, with PC 0, as the disk ignores PC."""
    page, subpage = values.get("page", (0, 0))
    pointer, length = values.get("paramp", 0), values.get("maxlen") or 65532
    cdb = of_bytes((0x4D00, 2), (page, 1), (subpage, 1), (0, 1), (pointer, 2), (length, 2), (0, 1))
    return Request(cdb, show=shown("log", values))


def sg_readcap(values):
    """READ CAPACITY(10) (SBC-3, 5.15), or (16) (SBC-3, 5.16) with room for its 32 bytes."""
    if {"16", "long"} & values.keys():
        cdb = of_bytes((0x9E10, 2), (0, 8), (32, 4), (0, 2))
        return Request(cdb, show=shown("readcap16", values))
    return Request(b"\x25" + bytes(9), show=shown("readcap10", values))


def sg_sync(values):
    """SYNCHRONIZE CACHE(10) (SBC-3, 5.26), or (16) (SBC-3, 5.27)."""
    lba, count = values.get("lba", 0), values.get("count", 0)
    if "16" in values:
        return Request(of_bytes((0x9100, 2), (lba, 8), (count, 4), (0, 2)))
    return Request(of_bytes((0x3500, 2), (lba, 4), (0, 1), (count, 2), (0, 1)))


def fits(values):
    """Without --16, an address and a count have to fit a CDB of 10 bytes."""
    return "16" in values or (values.get("lba", 0) < 2**32 and values.get("count", 0) < 2**16)


# ------------------------------------------------------------------------------ tools with data-out

MOST_BYTES = 8 + 16 * 64  # of data-out: a list of UNMAP with 64 descriptors has as many


def given_bytes(text):
    """HEX: a hexadecimal word, as `raw` takes it, or none, of no more bytes than a tool sends."""
    found = hex_bytes(text) if text else b""
    return None if found is None or len(found) > MOST_BYTES else found


def sg_verify(values):
    """VERIFY(10) (SBC-3, 5.29), or (16) (SBC-3, 5.31): BYTCHK is bits 2 and 1 of byte 1."""
    given = {"in", "0", "ff"} & values.keys()
    check = values.get("ebytchk", int(bool(given))) << 1
    lba, count = values.get("lba", 0), values.get("count", 1)
    data_out = values.get("in", bytes(512) if "0" in given else b"\xff" * 512 if given else b"")
    if "16" in values:
        return Request(of_bytes((0x8F, 1), (check, 1), (lba, 8), (count, 4), (0, 2)), data_out)
    return Request(of_bytes((0x2F, 1), (check, 1), (lba, 4), (0, 1), (count, 2), (0, 1)), data_out)


def sg_compare_and_write(values):
    """COMPARE AND WRITE (SBC-3, 5.2)."""
    cdb = of_bytes((0x8900, 2), (values["lba"], 8), (0, 3), (values.get("num", 1), 1), (0, 2))
    return Request(cdb, values["in"])


def sg_write_same(values):
    """WRITE SAME(10) (SBC-3, 5.43) or (16) (SBC-3, 5.44): ANCHOR is 10h of byte 1, UNMAP is 08h. NDOB
    is 01h of (16), and then there is no data-out."""
    flags = 0x10 * ("anchor" in values) | 0x08 * ("unmap" in values) | 0x01 * ("ndob" in values)
    lba, count = values.get("lba", 0), values.get("num", 1)
    data_out = values.get("in", (b"\xff" if "ff" in values else b"\0") * 512)
    if "ndob" in values:
        data_out = b""
    long = {"16", "unmap", "ndob"} & values.keys() or not has_room(values)
    if long and "10" not in values:
        return Request(of_bytes((0x93, 1), (flags, 1), (lba, 8), (count, 4), (0, 2)), data_out)
    return Request(of_bytes((0x41, 1), (flags, 1), (lba, 4), (0, 1), (count, 2), (0, 1)), data_out)


def has_room(values):
    """WRITE SAME(10) has room for the address and the count."""
    return values.get("lba", 0) < 2**32 and values.get("num", 1) < 2**16


def sg_start(values):
    """START STOP UNIT (SBC-3, 5.25): LOEJ is bit 1 of byte 4, and START bit 0. A POWER CONDITION, bits 7
    to 4, is sent with its modifier and with neither of these bits."""
    if values.get("pc"):
        return Request(bytes([0x1B, 0, 0, values.get("mod", 0), values["pc"] << 4, 0]))
    loej = bool({"loej", "load", "eject"} & values.keys())
    start = not {"stop", "eject"} & values.keys()
    return Request(bytes([0x1B, 0, 0, 0, loej << 1 | start, 0]))


EXTENDED_TOOLS = {
    "sg_turs": Tool([], sg_turs),
    "sg_requests": Tool([Option("d", "desc"), Option("m", "maxlen", BYTE), HEX], sg_requests),
    "sg_luns": Tool([Option("s", "select", BYTE), Option("m", "maxlen", FOUR), HEX], sg_luns),
    "sg_opcodes": Tool(
        [Option("o", "opcode", BYTE), Option("s", "sa", TWO), Option("R", "rctd"),
         Option("t", "tmf"), Option("q", "repd"), Option("n", "no-inquiry"), HEX],
        sg_opcodes),
    "sg_logs": Tool(
        [Option("p", "page", mode_page), Option("P", "paramp", TWO), Option("m", "maxlen", TWO), HEX],
        sg_logs),
    "sg_readcap": Tool([Option(None, "16"), Option("l", "long"), HEX], sg_readcap),
    "sg_sync": Tool(
        [Option("S", "16"), Option("l", "lba", EIGHT), Option("c", "count", FOUR)],
        sg_sync, in_range=fits),
    "sg_verify": Tool(
        [Option("S", "16"), Option("l", "lba", EIGHT), Option("c", "count", FOUR),
         Option("E", "ebytchk", below(4)), Option("i", "in", given_bytes), Option("0", "0"),
         Option("f", "ff")],
        sg_verify, exclusive=[("in", "0"), ("in", "ff"), ("0", "ff")], in_range=fits),
    "sg_compare_and_write": Tool(
        [Option("l", "lba", EIGHT), Option("n", "num", BYTE), Option("i", "in", given_bytes)],
        sg_compare_and_write, required=["lba", "in"]),
    "sg_write_same": Tool(
        [Option("R", "10"), Option("S", "16"), Option("l", "lba", EIGHT), Option("n", "num", FOUR),
         Option("a", "anchor"), Option("U", "unmap"), Option("N", "ndob"),
         Option("i", "in", given_bytes), Option("f", "ff")],
        sg_write_same,
        exclusive=[("in", "ff"), ("10", "16"), ("ndob", "in"), ("ndob", "ff"), ("ndob", "10")],
        one_of=["in", "lba", "num"],
        in_range=lambda values: "10" not in values or has_room(values)),
    "sg_start": Tool(
        [Option("e", "eject"), Option("l", "load"), Option("L", "loej"),
         Option("m", "mod", below(16)), Option("p", "pc", below(16)), Option("s", "start"),
         Option("S", "stop")],
        sg_start, exclusive=[*combinations(["start", "load", "stop", "eject"], 2)]),
}
