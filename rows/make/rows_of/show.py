"""Rows of lines of `show` (docs/SCRIPT.md, "show KIND HEX")."""

from rows_of import row

KINDS = "inq vpd modes6 modes10 lba keys resv caps sense".split()


@row("show/bytes-as-a-kind-that-they-are-not")
def other_kinds():
    """The row shows bytes of each kind as each other kind.

    Each kind has a text for every list of bytes.
    """
    answers = [
        "00000602", "00b2000400e40200", "0300900008", "0006001000000000",
        "00000014" + "00" * 11 + "070000000901000000", "00000001000000080000000000000abc",
        "0000000100000000", "00080080ea010000", "72062a0100000000",
    ]
    for answer in answers:
        for kind in KINDS:
            yield f"show {kind} {answer}"
    for answer in answers:
        yield f"show full {answer}"


@row("show/bad-hex")
def bad_hex():
    """HEX is an even number of digits of either case, or `-`.

    The row has words that are neither, also with the characters next to the digits.
    """
    words = ("0 000 0g g0 0x00 00h -- -0 0- -00 00- # +0 0_0 00,00 0G /0 :0 @0 `0 0/ 0: 0@ 0` zz . "
             "[]").split() + ["00 "]
    for kind in ("inq", "sense"):
        for word in words:
            yield f"show {kind} {word}"
    for word in ("0", "zz", "--"):
        for kind in KINDS:
            yield f"show {kind} {word}"
