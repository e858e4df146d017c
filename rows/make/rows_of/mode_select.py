"""Rows of MODE SELECT (SPC-4, 6.11 and 6.12)."""

from itertools import permutations

from device import GOOD, INITIATORS
from modes import ALL_PAGES, CHANGEABLE
from rows_of import row
from rows_of.lines import (
    MODE_PAGES, POWER_ON_REPORTED, POWER_ON_TAKEN, PROVISIONING, mode_page, mode_select_10,
    mode_select_6, mode_sense_10, mode_sense_6, request_sense, test_unit_ready, with_byte)
from rows_of.session import Session

SHORT_DESCRIPTOR = bytes.fromhex("00001000 00000200")  # 4,096 blocks of 512 bytes
LONG_DESCRIPTOR = bytes.fromhex("0000000000001000 00000000 00000200")
LONG_HEADER = bytes.fromhex("0000 00 00 01 00 0010")  # LONGLBA 1, BLOCK DESCRIPTOR LENGTH 16
SHORT_HEADER = bytes.fromhex("0000 00 00 00 00 0008")
WITHOUT_SUBPAGES = [(code, 0) for code in MODE_PAGES]
FOUR_PAGES = [(code, 0) for code in (0x1C, 0x01, 0x08, 0x0A)]
FIVE_PAGES = [(0x0A, 0), PROVISIONING, (0x1C, 0), (0x01, 0), (0x08, 0)]


@row("mode-select/six-with-each-value-in-the-read-write-error-recovery-page", 0x01)
@row("mode-select/six-with-each-value-in-the-caching-page", 0x08)
@row("mode-select/six-with-each-value-in-the-control-page", 0x0A)
@row("mode-select/six-with-each-value-in-the-informational-exceptions-control-page", 0x1C)
@row("mode-select/six-with-each-value-in-the-read-write-error-recovery-page-of-an-extended-disk", 0x01, 0,
     "extended", profile="extended")
@row("mode-select/six-with-each-value-in-the-logical-block-provisioning-page", *PROVISIONING, "extended",
     profile="extended")
def each_value(code, subpage=0, profile="base"):
    """A list of one page. Each of its bytes takes each value (SPC-4, 6.11).

    Only changeable bits may differ, and PS; of another byte its number is reported. If a list is
    accepted and the pages are not the default ones then, the page is read. The default page is
    selected again before the next byte. In the end each other initiator has one unit attention, if the
    page has a bit that can be changed.
    """
    session = Session(profile)
    session.send(*POWER_ON_TAKEN)
    default = mode_page(code, subpage, profile)
    session.send(mode_select_6(bytes(4) + default))
    for place in range(len(default)):
        was_read = False
        for value in range(256):
            reply = session.send(mode_select_6(bytes(4) + with_byte(default, place, value)))
            if reply.status == GOOD and session.device.modes.current != session.device.modes.default:
                session.send(mode_sense_6(code, dbd=1, subpage=subpage))
                was_read = True
        if was_read:
            session.send(mode_select_6(bytes(4) + default))
    session.send(mode_sense_6(ALL_PAGES, dbd=1))
    for other in INITIATORS["base"][1:]:
        session.send(*2 * [test_unit_ready(other)])
    return session.lines


@row("mode-select/six-with-each-value-in-the-header", mode_select_6, mode_sense_6, 4)
@row("mode-select/ten-with-each-value-in-the-header", mode_select_10, mode_sense_10, 8)
def each_header(select, sense, size):
    """Each byte of the header takes each value (SPC-4, 7.5.5), D_SENSE being 1 for each odd one.

    So the control page, which is read four times a byte, shows which lists were accepted.
    """
    yield from POWER_ON_TAKEN
    for place in range(size):
        for value in range(256):
            d_sense = 0x04 if value % 2 else 0
            header = with_byte(bytes(size), place, value)
            yield select(header + with_byte(mode_page(0x0A), 2, d_sense))
            if value % 64 == 63:
                yield sense(0x0A, dbd=1)


@row("mode-select/six-with-each-bit-of-each-page", mode_select_6, 4, WITHOUT_SUBPAGES)
@row("mode-select/ten-with-each-bit-of-each-page", mode_select_10, 8, WITHOUT_SUBPAGES)
@row("mode-select/ten-with-each-bit-of-the-logical-block-provisioning-page", mode_select_10, 8,
     [PROVISIONING], "extended", profile="extended")
def each_bit(select, size, pages, profile="base"):
    """Each bit of each page differs from its default value, one after the other (SPC-4, 6.11).

    After a bit that can be changed the default values are selected again.
    """
    yield from POWER_ON_REPORTED
    for code, subpage in pages:
        page, changeable = mode_page(code, subpage), CHANGEABLE[profile][code, subpage]
        front = len(page) - len(changeable)
        for place in range(len(page)):
            for bit in range(8):
                yield select(bytes(size) + with_byte(page, place, page[place] ^ 1 << bit))
                if place >= front and changeable[place - front] & 1 << bit:
                    yield select(bytes(size) + page)


@row("mode-select/six-with-each-bit-of-the-block-descriptor", mode_select_6,
     bytes([0, 0, 0, 8]), SHORT_DESCRIPTOR)
@row("mode-select/ten-with-each-bit-of-the-short-block-descriptor", mode_select_10,
     SHORT_HEADER, SHORT_DESCRIPTOR)
@row("mode-select/ten-with-each-bit-of-the-long-block-descriptor", mode_select_10,
     LONG_HEADER, LONG_DESCRIPTOR)
def each_bit_of_the_descriptor(select, header, descriptor):
    """Each byte of the block descriptor: each bit turned, all bits turned, and zero.

    The descriptor has to be the disk's own (SBC-3, 6.4.2). It may have a number of blocks of 0, but
    its other bytes still have to be the disk's.
    """
    yield from POWER_ON_TAKEN
    for place, own in enumerate(descriptor):
        for value in (*(own ^ 1 << bit for bit in range(8)), own ^ 0xFF, 0):
            yield select(header + with_byte(descriptor, place, value))
    number = len(descriptor) // 2
    without = bytes(number) + descriptor[number:]
    yield select(header + without)
    for place in range(number, len(descriptor)):
        yield select(header + with_byte(without, place, without[place] ^ 0x01))


@row("mode-select/six-list-cut-at-each-length", mode_select_6,
     bytes([0, 0, 0, 8]) + SHORT_DESCRIPTOR, FOUR_PAGES)
@row("mode-select/ten-list-cut-at-each-length", mode_select_10, LONG_HEADER + LONG_DESCRIPTOR,
     FOUR_PAGES)
@row("mode-select/six-list-of-five-pages-cut-at-each-length", mode_select_6, bytes(4), FIVE_PAGES,
     "extended", profile="extended")
@row("mode-select/ten-list-of-five-pages-cut-at-each-length", mode_select_10,
     LONG_HEADER + LONG_DESCRIPTOR, FIVE_PAGES, "extended", profile="extended")
def cut_list(select, front, pages, profile="base"):
    """A list with all pages, cut: whole after an item, or 1Ah/00h (SPC-4, 6.11). Most have a descriptor."""
    yield from POWER_ON_REPORTED
    whole = front + b"".join(mode_page(*page, profile) for page in pages)
    for length in range(len(whole) + 1):
        yield select(whole[:length])


@row("mode-select/two-and-four-pages-in-any-order")
def pages_in_any_order():
    """Lists of two pages and of four in each order, which is left to the initiator (SPC-4, 6.12)"""
    yield request_sense(0)
    orders = [*permutations(MODE_PAGES, 2), *permutations(MODE_PAGES, 4)]
    for count, order in enumerate(orders, 1):
        pages = {code: mode_page(code) for code in MODE_PAGES}
        recovery = bytearray(pages[0x01])
        recovery[2] = (0xC0, 0x80, 0x40, 0x00)[count % 4]
        recovery[3], recovery[8] = count, 0xFF - count
        pages[0x01] = bytes(recovery)
        pages[0x08] = with_byte(pages[0x08], 2, 0x04 if count % 2 else 0)
        yield mode_select_10(bytes(8) + b"".join(pages[code] for code in order))
        yield mode_sense_10(ALL_PAGES, dbd=1)
