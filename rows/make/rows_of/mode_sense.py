"""Rows of MODE SENSE (SPC-4, 6.13 and 6.14)."""

from modes import ALL_PAGES, ALL_SUBPAGES
from rows_of import row
from rows_of.lines import (
    MODE_PAGES, POWER_ON_REPORTED, POWER_ON_TAKEN, PROVISIONING, mode_page,
    mode_select_10, mode_select_6, mode_sense_10, mode_sense_6, raw, with_byte)

PAGE_CONTROLS = range(4)
KNOWN_PAGES = (*MODE_PAGES, ALL_PAGES)
MISSING_PAGES = [page for page in range(ALL_PAGES) if page not in MODE_PAGES]
# What asks for the page with a subpage code, and the length of the pages that it asks for: 32 bytes, 12
# more, and all 12 + 20 + 12 + 12 + 32 bytes.
WITH_SUBPAGE = ((*PROVISIONING, 32), (0x1C, ALL_SUBPAGES, 44), (ALL_PAGES, ALL_SUBPAGES, 88))


def pages_with(error_recovery, wce, control):
    """All four pages of a base disk. Their changeable bits have values of their own."""
    recovery = bytes.fromhex("01 0A") + bytes.fromhex(error_recovery)
    return (recovery + with_byte(mode_page(0x08), 2, wce) + bytes.fromhex("0A 0A")
            + bytes.fromhex(control) + mode_page(0x1C))


ONE_SET = pages_with("80 21 00 00 00 00 43 00 00 00", 0x00, "00 00 08 00 00 00 00 00 00 00")
OTHER_SET = pages_with("40 65 00 00 00 00 87 00 00 00", 0x04, "04 00 00 00 00 00 00 00 00 00")


def provisioning(situa, available, used):
    """The page of logical block provisioning, with two threshold descriptors"""
    return mode_page(*PROVISIONING)[:4] + bytes([situa]) + bytes(11) + bytes.fromhex(available + used)


# LBPERE is 0 in these sets, and 1 by default.
ONE_OF_EXTENDED = ONE_SET + provisioning(1, "80 01 00 00 01 23 45 67", "01 02 00 00 89 AB CD EF")
OTHER_OF_EXTENDED = OTHER_SET + provisioning(0, "00 01 00 00 FF FE FD FC", "81 02 00 00 00 00 00 02")


def lengths_of(page, header_and_descriptor):
    """Each allocation length up to one byte past the list."""
    sizes = {code: len(mode_page(code)) for code in MODE_PAGES}
    return range(header_and_descriptor + sizes.get(page, sum(sizes.values())) + 2)


@row("mode-sense/six-of-each-page-and-pc-cut-at-each-length")
def six_cut():
    """Each page under each PC, cut at each allocation length, without and with DBD.

    MODE DATA LENGTH counts the full list, however it is cut (SPC-4, 4.2.5.6 and 7.5.5). Saved,
    current, default and changeable values all differ. With all subpages the list of a base disk is the
    same.
    """
    yield from POWER_ON_TAKEN
    yield mode_select_6(bytes(4) + ONE_SET, sp=1)
    yield mode_select_6(bytes(4) + OTHER_SET)
    for page in KNOWN_PAGES:
        for dbd in (0, 1):
            lengths = lengths_of(page, 4 if dbd else 12)
            for pc in PAGE_CONTROLS:
                for length in lengths:
                    yield mode_sense_6(page, length, pc, dbd)
            for length in lengths:
                yield mode_sense_6(page, length, length % 4, dbd, ALL_SUBPAGES)


@row("mode-sense/ten-with-the-long-block-descriptor-cut-at-each-length", 0, 8 + 16, 1)
@row("mode-sense/ten-with-the-short-block-descriptor-cut-at-each-length", 0, 8 + 8, 0)
def ten_cut(dbd, header_and_descriptor, llbaa):
    """As the row of MODE SENSE(6), with the block descriptor that LLBAA asks for (SPC-4, 6.14)."""
    yield from POWER_ON_TAKEN
    yield mode_select_10(bytes(8) + OTHER_SET, sp=1)
    yield mode_select_10(bytes(8) + ONE_SET)
    for page in KNOWN_PAGES:
        lengths = lengths_of(page, header_and_descriptor)
        for pc in PAGE_CONTROLS:
            for length in lengths:
                yield mode_sense_10(page, length, pc, dbd, 0, llbaa)
        for length in lengths:
            yield mode_sense_10(page, length, length % 4, dbd, ALL_SUBPAGES, llbaa)


@row("mode-sense/ten-without-block-descriptor-cut-at-each-length")
def ten_cut_without_descriptor():
    """With DBD there is no block descriptor, whatever LLBAA is, which alternates."""
    yield from POWER_ON_TAKEN
    yield mode_select_10(bytes(8) + OTHER_SET, sp=1)
    yield mode_select_10(bytes(8) + ONE_SET)
    for page in KNOWN_PAGES:
        lengths = lengths_of(page, 8)
        for pc in PAGE_CONTROLS:
            for length in lengths:
                yield mode_sense_10(page, length, pc, 1, 0, (pc + length // 4) % 2)
        for length in lengths:
            llbaa = (1 + length + length // 4) % 2
            yield mode_sense_10(page, length, length % 4, 1, ALL_SUBPAGES, llbaa)


@row("mode-sense/six-of-each-missing-page", 6)
@row("mode-sense/ten-of-each-missing-page", 10)
def missing_pages(size):
    """Each page code that the disk does not have, under each PC: command byte 2 (SPC-4, 6.13).

    Other fields take turns. A subpage that is missing too does not matter. A length of 0 does not
    matter either.
    """
    yield from POWER_ON_TAKEN
    for page in MISSING_PAGES:
        for pc in PAGE_CONTROLS:
            subpage = (0x00, 0xFF, 0x01, 0x80)[(page + pc) % 4]
            length = (0xFF, 0, 1)[(page + pc) % 3]
            dbd, llbaa = (page + pc // 2) % 2, (page // 2 + pc) % 2
            if size == 6:
                yield mode_sense_6(page, length, pc, dbd, subpage)
            else:
                yield mode_sense_10(page, length, pc, dbd, subpage, llbaa)


@row("mode-sense/six-of-each-missing-subpage", 6, (0x01, 0x7F, 0x80, 0xFE))
@row("mode-sense/ten-of-each-missing-subpage", 10, ())
def missing_subpages(size, of_all_pages):
    """Each subpage but 00h and FFh, of a page that the disk has: command byte 3 (SPC-4, 6.13).

    Pages and other fields take turns; of some subpages each page is asked for. An extended disk has subpage
    02h of page 1Ch, for which it is not page 1Ch's turn.
    """
    yield from POWER_ON_TAKEN
    for subpage in range(0x01, 0xFF):
        for index in range(5) if subpage in of_all_pages else [subpage % 5]:
            page, pc = KNOWN_PAGES[index], (index + subpage // 5) % 4
            length = (0, 1, 0xFF)[(index + subpage - 1) % 3]
            dbd, llbaa = (index + subpage // 4) % 2, (index + subpage // 8) % 2
            if size == 6:
                yield mode_sense_6(page, length, pc, dbd, subpage)
            else:
                yield mode_sense_10(page, length, pc, dbd, subpage, llbaa)


@row("mode-sense/of-each-page-control-cut-at-each-length")
def each_page_control():
    """Lists under each PC, cut, with each form of the block descriptor (SPC-4, 6.13 and 6.14)."""
    yield raw(0, "030000000000")
    yield "# current values of the control page"
    yield from (mode_sense_6(0x0A, length) for length in range(25))
    yield "# current values of all pages, with LLBAA, in part"
    yield from (mode_sense_10(ALL_PAGES, length, llbaa=1) for length in range(27))
    yield "# changeable values, with DBD and all subpages"
    yield from (mode_sense_6(0x01, length, 1, 1, ALL_SUBPAGES) for length in range(17))
    yield "# saved values, with LLBAA and DBD"
    yield from (mode_sense_10(0x1C, length, 3, 1, 0, 1) for length in range(21))
    yield "# default values, with DBD"
    yield from (mode_sense_6(ALL_PAGES, length, 2, 1) for length in range(61))
    yield "# pages and subpages that the disk does not have"
    for page, subpage in ((0x00, 0x00), (0x02, 0x01), (0x3E, 0xFF), (0x0A, 0x01), (0x3F, 0xFE)):
        yield mode_sense_6(page, subpage=subpage)


@row("mode-sense/pages-and-subpages-that-are-missing")
def pages_and_subpages():
    """Each missing page in both sizes, and some missing subpages of each page (SPC-4, 6.13)."""
    yield from POWER_ON_REPORTED
    for page in MISSING_PAGES:
        yield mode_sense_6(page, dbd=1, subpage=0x01)
        yield mode_sense_10(page, pc=3, llbaa=1)
    for page in KNOWN_PAGES:
        for subpage in (0x01, 0x02, 0x7F, 0x80, 0xFE):
            yield mode_sense_6(page, pc=1, subpage=subpage)
        yield mode_sense_6(page, dbd=1, subpage=ALL_SUBPAGES)


@row("mode-sense/ten-cut-at-each-length")
def ten_cut_at_each_length():
    """The default values of all pages with the long block descriptor, cut (SPC-4, 6.14)."""
    yield from POWER_ON_REPORTED
    for length in (*range(82), 0x0400, 0xFFFF):
        yield mode_sense_10(ALL_PAGES, length, 2, llbaa=1)


@row("mode-sense/six-with-a-subpage-cut-at-each-length", profile="extended")
def six_with_subpage_cut():
    """Lists with page 1Ch/02h, cut at each allocation length, without and with DBD (SPC-4, 6.13).

    PC takes turns. Its header has 4 bytes, and the page is the last one (SPC-4, 7.5). Saved, current, default
    and changeable values all differ.
    """
    yield from POWER_ON_TAKEN
    yield mode_select_6(bytes(4) + ONE_OF_EXTENDED, sp=1)
    yield mode_select_6(bytes(4) + OTHER_OF_EXTENDED)
    for page, subpage, size in WITH_SUBPAGE:
        for dbd in (0, 1):
            for length in range((4 if dbd else 12) + size + 2):
                yield mode_sense_6(page, length, (length + dbd) % 4, dbd, subpage)


@row("mode-sense/ten-with-a-subpage-cut-at-each-length", profile="extended")
def ten_with_subpage_cut():
    """As the row of MODE SENSE(6), without a block descriptor and with each (SPC-4, 6.14).

    The longest list has 112 bytes: a header of 8, the long descriptor, and all pages.
    """
    yield from POWER_ON_TAKEN
    yield mode_select_10(bytes(8) + OTHER_OF_EXTENDED, sp=1)
    yield mode_select_10(bytes(8) + ONE_OF_EXTENDED)
    for page, subpage, size in WITH_SUBPAGE:
        for dbd, llbaa, front in ((1, 0, 8), (1, 1, 8), (0, 0, 16), (0, 1, 24)):
            for length in range(front + size + 2):
                yield mode_sense_10(page, length, (length + llbaa) % 4, dbd, subpage, llbaa)


@row("mode-sense/each-subpage-of-each-page", profile="extended")
def each_subpage():
    """Each subpage code of each page, by both commands (SPC-4, 6.13 and 6.14).

    Of 02h only page 1Ch is there, and 00h and FFh are there of each page and of all pages. All others are
    refused: command byte 3. A page that is not there comes first: command byte 2.
    """
    yield from POWER_ON_TAKEN
    for page in KNOWN_PAGES:
        for subpage in range(256):
            yield mode_sense_6(page, 24, subpage % 4, 1, subpage)
            yield mode_sense_10(page, 24, subpage // 4 % 4, subpage % 2, subpage, subpage // 2 % 2)
    for page in MISSING_PAGES:
        for subpage in (0x00, 0x02, ALL_SUBPAGES):
            yield mode_sense_6(page, 24, page % 4, 0, subpage)
            yield mode_sense_10(page, 24, page % 4, 0, subpage)
