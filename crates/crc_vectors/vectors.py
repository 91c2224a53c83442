#!/usr/bin/env python3
"""vectors.py: writes the file stdout beside it, from programs that share no line with this project.

Every checksum is zlib.crc32 of Python's standard library (zlib's own C code), over the bytes of the words, each word's low byte first.
The check value is the published one of CRC-32, CBF43926 of ASCII 123456789. Run it in this folder: python3 vectors.py
"""
import struct
import zlib


def crc(words):
    return zlib.crc32(struct.pack("<%dI" % len(words), *words))


lines = ["bits_out 9 cbf43926"]
assert zlib.crc32(b"123456789") == 0xCBF43926

made, w = [], 1
for _ in range(1000):
    w = (w * 1664525 + 1013904223) % 2**32
    made.append(w)

for words in [made[:n] for n in list(range(21)) + [999, 1000]]:
    alone, after = crc(words), crc([0x9E00030E] + words)
    for name in ["long words_in", "short words_in"]:
        lines.append("%s %d %08x" % (name, len(words), alone))
    for name in ["words_in_both", "long words_in_both", "short words_in_both", "word words_in_both"]:
        lines.append("%s %d %08x %08x" % (name, len(words), alone, after))

with open("stdout", "w") as f:
    f.write("\n".join(lines) + "\n")
