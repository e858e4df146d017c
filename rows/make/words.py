"""The words of a script's line, and the bytes that a script prints (docs/SCRIPT.md).

`script.py` and `tools.py` both use these: numbers, hexadecimal bytes, hex lines.
"""

import re

DECIMAL = re.compile(r"[0-9]+")
HEXADECIMAL = re.compile(r"0[xX]([0-9a-fA-F]+)|([0-9a-fA-F]+)[hH]")


def number(text, least, most):
    """The number that `text` writes as 17, 0x11 or 11h; None if it is none, or out of range."""
    hexadecimal = HEXADECIMAL.fullmatch(text)
    if hexadecimal:
        value = int(hexadecimal[1] or hexadecimal[2], 16)
    elif DECIMAL.fullmatch(text):
        value = int(text)
    else:
        return None
    return value if least <= value <= most else None


def hex_bytes(text):
    """The bytes that `text` writes in hexadecimal digits, `-` for none; None if it writes none."""
    if text == "-":
        return b""
    if len(text) % 2 or not re.fullmatch(r"[0-9a-fA-F]+", text):
        return None
    return bytes.fromhex(text)


def hex_lines(data):
    """Lines of sixteen bytes each, with the offset of the first in eight digits."""
    places = range(0, len(data), 16)
    return [f"  {place:08x}  {data[place:place + 16].hex(' ')}" for place in places]
