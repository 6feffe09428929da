"""What a program for Linux needs of the machine that runs it.

libraries(program)   the libraries that it names, as libc.so.6
glibc(program)       the newest version of the GNU C library that it names, as 2.34, or None
"""

import os
import struct
import sys

sys.path.insert(0, os.path.join(os.path.dirname(os.path.dirname(os.path.dirname(os.path.realpath(__file__)))), "python"))
import backend

# kinds of segments, and of entries of the dynamic one
LOAD, DYNAMIC = 1, 2
NEEDED, STRINGS = 1, 5
glibc = backend.glibc_of


def libraries(program):
    """The names of the libraries; none of a program without a dynamic segment."""
    offset, size, count = struct.unpack_from("<Q", program, 32)[0], *struct.unpack_from("<HH", program, 54)
    # kind, flags, offset in the file, address, physical address, size in the file
    segments = [struct.unpack_from("<IIQQQQ", program, offset + i * size) for i in range(count)]
    dynamic = next((it for it in segments if it[0] == DYNAMIC), None)
    if dynamic is None:
        return []
    entries = [struct.unpack_from("<qQ", program, dynamic[2] + i) for i in range(0, dynamic[5], 16)]
    address = next(value for tag, value in entries if tag == STRINGS)
    strings = next(it[2] + address - it[3] for it in segments if it[0] == LOAD and it[3] <= address < it[3] + it[5])
    begins = [strings + value for tag, value in entries if tag == NEEDED]
    return [program[it : program.index(b"\0", it)].decode() for it in begins]
