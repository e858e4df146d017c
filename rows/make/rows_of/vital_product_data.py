"""Rows of INQUIRY: its standard data and its pages (SPC-4, 6.6 and 7.8; SBC-3)."""

from rows_of import row
from rows_of.lines import inquiry

PAGES = (0x00, 0x80, 0x83, 0xB0, 0xB2)


@row("vital-product-data/other-pages-are-missing")
def missing_pages():
    """Each page code that the disk does not have: command byte 2 (SPC-4, 6.6.1).

    No unit attention is in the way of INQUIRY.
    """
    for page in range(256):
        if page not in PAGES:
            yield inquiry(page, 0xFF)


@row("inquiry/cut-at-each-length", 0x00, 0)
@row("vital-product-data/device-identification-cut-at-each-length", 0x83, 1)
@row("vital-product-data/unit-serial-number-cut-at-each-length", 0x80, 1)
def cut_with_far_lengths(page, evpd):
    """Cut at each allocation length, also above 255 (SPC-4, 4.2.5.6): lengths stay the full ones"""
    for length in (*range(55), 0xFF, 0x100, 0x124, 0xFFFF):
        yield inquiry(page, length, evpd)


@row("vital-product-data/block-limits-cut-at-each-length", 0xB0, 67)
@row("vital-product-data/supported-pages-cut-at-each-length", 0x00, 59)
def cut(page, lengths):
    """Cut at each allocation length (SPC-4, 4.2.5.6): PAGE LENGTH counts the full page"""
    for length in range(lengths):
        yield inquiry(page, length)
