"""A line of a text is a row of fields, and a text begins with a table of such rows.

A field is (name, place) or (name, place, form). A place counts bytes from 0, and bits as SPC-4
does: bit 7 is the highest. "4" is a byte, and "8-15" are eight bytes, big-endian. "0.7-5" are the
top three bits of byte 0, and "1.7" is a bit. docs/SCRIPT.md, "Texts of answers", has the forms.
"""

FORMS = {
    "number": lambda value, raw: str(value),
    "code": lambda value, raw: f"{value:02X}h",
    "address": lambda value, raw: f"0x{value:016x}",
    "text": lambda value, raw: bracketed(raw),
}


def bracketed(raw):
    """A text in brackets, with a dot for each byte that is not printable ASCII."""
    return "[" + "".join(chr(byte) if 0x20 <= byte <= 0x7E else "." for byte in raw) + "]"


def bounds(place):
    """The first and the last byte of a place, and its high and low bit, or None for whole bytes."""
    places, _, bits = place.partition(".")
    first, _, last = places.partition("-")
    high, _, low = bits.partition("-")
    return int(first), int(last or first), (int(high), int(low or high)) if bits else None


def raw(data, place):
    """The bytes of a place."""
    first, last, _ = bounds(place)
    return data[first:last + 1]


def number(data, place):
    """The number in a place."""
    value, bits = int.from_bytes(raw(data, place), "big"), bounds(place)[2]
    return value if bits is None else value >> bits[1] & (1 << bits[0] - bits[1] + 1) - 1


def end(place):
    """The number of bytes up to the end of a place."""
    return bounds(place)[1] + 1


def row_end(row):
    """The number of bytes up to the end of a row's last field."""
    return max(end(place) for _, place, *_ in row)


def line(data, row, between=": "):
    """A line of a text: the names and the values of the fields in a row."""
    return ", ".join(
        name + between + FORMS[form[0] if form else "number"](number(data, place), raw(data, place))
        for name, place, *form in row)
