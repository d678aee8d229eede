#!/usr/bin/env python3
"""Events of input devices, as linux/input.h has them for 64 bits: a record is two times of eight bytes, a type and a code of two, and a
value of four. Their numbers are those of linux/input-event-codes.h.

usage: tests/run/events.py COUNT     prints the events of a key that is pressed so often
"""
import struct
import sys

EV_SYN, EV_KEY, EV_REL, EV_MSC, EV_LED = 0, 1, 2, 4, 17
SYN_REPORT, SYN_DROPPED, MSC_SCAN, REL_X, LED_CAPSL = 0, 3, 4, 0, 1
KEY_A, KEY_CAPSLOCK, KEY_CALC, KEY_UNKNOWN, BTN_LEFT = 30, 58, 140, 240, 272
LET_GO, PRESSED, REPEATED = 0, 1, 2
# Scan codes: of Caps Lock and A on USB (usages 0x39 and 0x04 of page 7), of a calculator's key (0x192 of page 12), and of a vendor's page.
CAPS, LETTER, CALCULATOR, VENDOR = 0x70039, 0x70004, 0xC0192, 0xFF000003


def event(kind, code, value):
    """The record of an event, whose value may be negative."""
    return struct.pack("<qqHHI", 1717000000, 250000, kind, code, value % 2**32)


def scan_code(code):
    return event(EV_MSC, MSC_SCAN, code)


def key(code, value):
    return event(EV_KEY, code, value)


END = event(EV_SYN, SYN_REPORT, 0)


def press(code, scanned):
    """A key that is pressed, as a keyboard reports it."""
    return scan_code(scanned) + key(code, PRESSED) + END


def pressed(code, scanned):
    """One that is pressed, held, and let go."""
    return press(code, scanned) + key(code, REPEATED) + END + scan_code(scanned) + key(code, LET_GO) + END


if __name__ == "__main__":
    sys.stdout.buffer.write(int(sys.argv[1]) * pressed(KEY_A, LETTER))
