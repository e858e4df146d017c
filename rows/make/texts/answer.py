"""How a text ends: by the answer's own length field, or where bytes are missing.

An item is a line, a whole designator, or a whole mode page (docs/SCRIPT.md, "Texts of answers").
If the answer ends by its own length field within an item, the text ends before that item.
Otherwise, if bytes of an item are missing, the line `truncated` comes in its place, and ends the
text.
"""

from .fields import end, line, number, row_end


class Ended(Exception):
    """The answer ends by its own length field."""


class Truncated(Exception):
    """The answer lacks bytes of an item that its own length field counts."""


class Answer:
    """The bytes of an answer, and its end by its own length field."""

    def __init__(self, data, length, least):
        """`length` is the place of the length field, which counts the bytes after it. The first
        `least` bytes are part of each answer, whatever that field says."""
        self.data, self.end = data, least
        if end(length) <= len(data):
            self.end = max(least, end(length) + number(data, length))

    def need(self, count):
        """Stops the text unless the first `count` bytes are part of the answer and present."""
        if count > self.end:
            raise Ended
        if count > len(self.data):
            raise Truncated

    def take(self, at, count):
        """An item: `count` bytes from `at` on, which are all there."""
        self.need(at + count)
        return self.data[at:at + count]

    def rest(self, at):
        """The bytes from `at` to the end, as far as they are present."""
        return self.data[at:self.end]

    def number(self, place):
        """The number in a place of bytes that are all there."""
        self.need(end(place))
        return number(self.data, place)

    def lines(self, table):
        """A line for each row of a table."""
        for row in table:
            self.need(row_end(row))
            yield "  " + line(self.data, row)
