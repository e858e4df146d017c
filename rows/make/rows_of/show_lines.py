"""Lines of `show` (docs/SCRIPT.md), which the rows of texts consist of."""


def octets(*parts):
    """Returns bytes. Each part is bytes, or hexadecimal text with or without blanks."""
    return b"".join(bytes.fromhex(part) if isinstance(part, str) else part for part in parts)


def show(kind, *parts):
    """Returns a line that shows these bytes."""
    return f"show {kind} {octets(*parts).hex() or '-'}"


def cuts(kind, *answers):
    """Returns lines that show each answer cut after each of its bytes. No line comes twice."""
    return list(dict.fromkeys(
        show(kind, answer[:length])
        for answer in map(octets, answers) for length in range(len(answer) + 1)))


def each(kind, form, values):
    """Returns a line for each value. The form is hexadecimal text, with braces for the value."""
    return [show(kind, form.format(value)) for value in values]


def one_bit(count):
    """Returns the numbers of `count` bytes with one bit, byte by byte, the lowest bit first."""
    return [1 << 8 * (count - 1 - byte) + bit for byte in range(count) for bit in range(8)]


def ascending(count, first=0, step=1):
    """Returns bytes that count up, modulo 256."""
    return bytes((first + step * place) % 256 for place in range(count))


def long_lines(kind, data):
    """Returns lines about 4,096 bytes, the longest that is read (docs/SCRIPT.md, "Lines").

    Each line shows as many bytes as it has room for. A second blank fills a byte that is left.
    """
    verb = f"show {kind}"
    lines = []
    for length in (4097, 4096, 4095, 4094, 3000):
        count = (length - len(verb) - 1) // 2
        lines.append(verb + data[:count].hex().rjust(length - len(verb)))
    return lines
