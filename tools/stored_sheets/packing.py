"""Bytes written as runs between gaps of zeros. The format is told in __main__.py."""

import re
import struct

# A run begins and ends with a byte that is not zero and holds no stretch of
# four zeros.
RUN = re.compile(rb"[^\0](?:\0{0,3}[^\0])*", re.DOTALL)


def packed(plain):
    out, done = b"", 0
    for run in RUN.finditer(plain):
        while run.start() - done > 65_535:
            out += struct.pack(">HBB", 65_535, 1, 0)
            done += 65_536
        for start in range(run.start(), run.end(), 255):
            part = plain[start:min(start + 255, run.end())]
            out += struct.pack(">HB", start - done, len(part)) + part
            done = start + len(part)
    return out
