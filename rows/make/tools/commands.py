"""The six tools of each disk: their options, and the command that each sends (docs/SCRIPT.md).

A tool is a table of options, what they exclude, and a function from their values to a Request. An
option that is given has the value that it reads, or True if it is a flag.
"""

import re
from itertools import combinations, product
from typing import Callable, NamedTuple

import texts
from words import hex_lines, number

from .options import Option


class Request(NamedTuple):
    """A command, its data-out, and the function from data-in and a profile to the lines that are shown."""

    cdb: bytes
    data_out: bytes = b""
    show: Callable = lambda data, profile: []


class Usage(Exception):
    """Options that ask for no command, though each of them has a value."""


class Tool(NamedTuple):
    """Options, the pairs that exclude one another, those that must be given, and the command.
    Of `one_of` at least one must be given, unless it is empty. `in_range` returns whether the values
    fit the fields that other options choose."""

    options: list
    request: Callable
    exclusive: list = []
    required: list = []
    one_of: list = []
    in_range: Callable = lambda values: True


def shown(kind, values):
    """The answer as text, or in hex lines with --hex."""
    if "hex" in values:
        return lambda data, profile: hex_lines(data)
    return lambda data, profile: texts.show(kind, data, profile)


def below(limit):
    """A number below a limit."""
    return lambda text: number(text, 0, limit - 1)


# ------------------------------------------------------------------------------- sg_inq and sg_vpd

PAGE_NAMES = {"sv": 0x00, "sn": 0x80, "di": 0x83, "bl": 0xB0, "lbpv": 0xB2}


def vpd_page(text):
    """PG: a name in lower case, or a number."""
    return PAGE_NAMES[text] if text in PAGE_NAMES else number(text, 0, 255)


def inquiry(evpd, page, length):
    """INQUIRY (SPC-4, 6.6): EVPD is bit 0 of byte 1."""
    return bytes([0x12, evpd, page]) + length.to_bytes(2, "big") + b"\0"


def sg_inq(values):
    """Standard INQUIRY data, or a page; each has a default length."""
    evpd = bool({"vpd", "page", "id"} & values.keys())
    page = 0x83 if "id" in values else values.get("page", 0)
    length = values.get("len") or (252 if evpd else 36)
    return Request(inquiry(evpd, page, length), show=shown("vpd" if evpd else "inq", values))


def sg_vpd(values):
    """A page of vital product data."""
    cdb = inquiry(1, values.get("page", 0), values.get("maxlen") or 252)
    return Request(cdb, show=shown("vpd", values))


# ---------------------------------------------------------------------------------------- sg_modes


def mode_page(text):
    """PG or PG,SPG."""
    page, comma, subpage = text.partition(",")
    found = number(page, 0, 63), number(subpage, 0, 255) if comma else 0
    return None if None in found else found


def sg_modes(values):
    """MODE SENSE(10) (SPC-4, 6.14) or (6) (SPC-4, 6.13): LLBAA is 10h of byte 1, DBD is 08h."""
    page, subpage = values.get("page", (0x3F, 0))
    flags = 0x10 * ("llbaa" in values) | 0x08 * ("dbd" in values)
    asked = bytes([flags, values.get("control", 0) << 6 | page, subpage])
    if "six" in values:
        return Request(b"\x1a" + asked + bytes([252, 0]), show=shown("modes6", values))
    cdb = b"\x5a" + asked + bytes(3) + (1024).to_bytes(2, "big") + b"\0"
    return Request(cdb, show=shown("modes10", values))


# -------------------------------------------------------------------- sg_unmap, sg_get_lba_status


def list_below(limit):
    """LIST: numbers with commas between them."""
    def reads(text):
        found = [number(entry, 0, limit - 1) for entry in text.split(",")]
        return None if None in found else found
    return reads


def sg_unmap(values):
    """UNMAP (SBC-3, 5.28): 8 bytes of header, and a descriptor of 16 bytes for each address."""
    addresses, counts = values["lba"], values["num"]
    if len(addresses) != len(counts) or len(addresses) > 64:
        raise Usage
    descriptors = b"".join(
        address.to_bytes(8, "big") + count.to_bytes(4, "big") + bytes(4)
        for address, count in zip(addresses, counts))
    size = len(descriptors)
    data_out = (6 + size).to_bytes(2, "big") + size.to_bytes(2, "big") + bytes(4) + descriptors
    cdb = (bytes([0x42, "anchor" in values]) + bytes(4) + bytes([values.get("grpnum", 0)])
           + len(data_out).to_bytes(2, "big") + b"\0")
    return Request(cdb, data_out)


def sg_get_lba_status(values):
    """GET LBA STATUS (SBC-3, 5.4), by default with room for one descriptor."""
    cdb = (b"\x9e\x12" + values.get("lba", 0).to_bytes(8, "big")
           + values.get("maxlen", 24).to_bytes(4, "big") + bytes(2))
    return Request(cdb, show=shown("lba-brief" if "brief" in values else "lba", values))


# -------------------------------------------------------------------------------------- sg_persist

# Service actions of PERSISTENT RESERVE IN (SPC-4, 6.15), each with its kind of answer.
IN = {
    "read-keys": (0x00, "keys"),
    "read-reservation": (0x01, "resv"),
    "report-capabilities": (0x02, "caps"),
    "read-full-status": (0x03, "full"),
}

# Service actions of PERSISTENT RESERVE OUT (SPC-4, 6.16).
OUT = {
    "register": 0x00,
    "reserve": 0x01,
    "release": 0x02,
    "clear": 0x03,
    "preempt": 0x04,
    "preempt-abort": 0x05,
    "register-ignore": 0x06,
}


def digits(most):
    """KEY and T: 1 to `most` hexadecimal digits, with or without 0x before them."""
    def reads(text):
        found = re.fullmatch(f"(?:0[xX])?([0-9a-fA-F]{{1,{most}}})", text)
        return int(found[1], 16) if found else None
    return reads


def sg_persist(values):
    """The service action of OUT that is given, or the one of IN, which is READ KEYS by default."""
    for name in OUT.keys() & values.keys():
        return persistent_reserve_out(OUT[name], values)
    if "out" in values:
        raise Usage
    for name in IN.keys() & values.keys():
        return persistent_reserve_in(*IN[name])
    return persistent_reserve_in(*IN["read-keys"])


def persistent_reserve_in(action, kind):
    """PERSISTENT RESERVE IN, with an allocation length of 8,192."""
    cdb = bytes([0x5E, action]) + (8192).to_bytes(7, "big") + b"\0"
    return Request(cdb, show=lambda data, profile: texts.show(kind, data, profile))


def persistent_reserve_out(action, values):
    """PERSISTENT RESERVE OUT, with SCOPE 0 and a parameter list of 24 bytes."""
    cdb = bytes([0x5F, action, values.get("prout-type", 0)]) + (24).to_bytes(6, "big") + b"\0"
    keys = [values.get(key, 0).to_bytes(8, "big") for key in ("param-rk", "param-sark")]
    return Request(cdb, b"".join(keys) + bytes(4) + bytes(["param-aptpl" in values]) + bytes(3))


# --------------------------------------------------------------------------------------- the table

HEX = Option("H", "hex")

TOOLS = {
    "sg_inq": Tool(
        [Option("e", "vpd"), Option("p", "page", vpd_page), Option("i", "id"),
         Option("l", "len", below(2**16)), HEX],
        sg_inq, exclusive=[("id", "page")]),
    "sg_vpd": Tool(
        [Option("p", "page", vpd_page), Option("m", "maxlen", below(2**16)), HEX],
        sg_vpd),
    "sg_modes": Tool(
        [Option("a", "all"), Option("p", "page", mode_page), Option("c", "control", below(4)),
         Option("d", "dbd"), Option("L", "llbaa"), Option(None, "six"), HEX],
        sg_modes, exclusive=[("all", "page"), ("six", "llbaa")]),
    "sg_unmap": Tool(
        [Option("l", "lba", list_below(2**64)), Option("n", "num", list_below(2**32)),
         Option("a", "anchor"), Option("g", "grpnum", below(32))],
        sg_unmap, required=["lba", "num"]),
    "sg_get_lba_status": Tool(
        [Option("l", "lba", below(2**64)), Option("m", "maxlen", below(2**32)),
         Option("b", "brief"), HEX],
        sg_get_lba_status, exclusive=[("brief", "hex")]),
    "sg_persist": Tool(
        [Option("k", "read-keys"), Option("r", "read-reservation"),
         Option("c", "report-capabilities"), Option("s", "read-full-status"),
         Option("G", "register"), Option("R", "reserve"), Option("L", "release"),
         Option("C", "clear"), Option("P", "preempt"), Option("A", "preempt-abort"),
         Option("I", "register-ignore"), Option("K", "param-rk", digits(16)),
         Option("S", "param-sark", digits(16)), Option("T", "prout-type", digits(1)),
         Option("Z", "param-aptpl"), Option("i", "in"), Option("o", "out"),
         Option("n", "no-inquiry")],
        sg_persist,
        exclusive=[*combinations([*IN, *OUT], 2), *product(["in"], OUT), *product(["out"], IN),
                   ("in", "out")]),
}
