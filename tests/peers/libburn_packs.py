#!/usr/bin/env python3
"""Writes the CD-TEXT packs that libburn, the library of cdrskin, makes from a cue sheet: libburn_packs.py SHEET >PACKS.

The audio file of the sheet must exist. Needs libburn.so.4; it burns nothing and opens no drive."""
import argparse
import ctypes
import sys
from ctypes import byref

Bytes = ctypes.POINTER(ctypes.c_ubyte)


def packs_of(sheet: str) -> bytes:
    """The packs of a sheet, as libburn makes them."""
    libburn = ctypes.CDLL("libburn.so.4")
    libburn.burn_session_create.restype = ctypes.c_void_p
    if not libburn.burn_initialize():
        sys.exit("libburn cannot be initialized")
    session = ctypes.c_void_p(libburn.burn_session_create())
    fifo, file_packs, file_count = ctypes.c_void_p(), Bytes(), ctypes.c_int()
    outputs = (byref(fifo), byref(file_packs), byref(file_count))
    if libburn.burn_session_by_cue_file(session, sheet.encode(), 0, *outputs, 0) <= 0:
        sys.exit("libburn cannot read the sheet")
    packs, count = Bytes(), ctypes.c_int()
    if libburn.burn_cdtext_from_session(session, byref(packs), byref(count), 0) < 0:
        sys.exit("libburn cannot make packs")
    return bytes(packs[: 18 * count.value])


def main() -> int:
    parser = argparse.ArgumentParser(
        description="Writes the CD-TEXT packs that libburn, the library of cdrskin, makes from a cue sheet."
    )
    parser.add_argument("sheet", metavar="SHEET", help="the cue sheet")
    sys.stdout.buffer.write(packs_of(parser.parse_args().sheet))
    return 0


if __name__ == "__main__":
    sys.exit(main())
