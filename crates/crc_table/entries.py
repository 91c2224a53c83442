#!/usr/bin/env python3
"""entries.py: writes src/entries.rt, the four tables as specs/Table.antt defines them; the prover tests each entry. Run it in this folder, then `rt fmt`."""


def after(bits, r):
    for _ in range(bits):
        r = (r >> 1) ^ (0xEDB88320 if r & 1 else 0)
    return r


with open("src/entries.rt", "w") as f:
    f.write("// The entries of the four tables, made by entries.py as specs/Table.antt defines them: entry 256 j + b is the byte b after 32 n + 8 (j + 1) bits have left, for a word that n words follow.\n")
    for n, name in [(3, "FIRST"), (2, "SECOND"), (1, "THIRD"), (0, "LAST")]:
        entries = [after(32 * n + 8 * (i // 256 + 1), i % 256) for i in range(1024)]
        f.write("pub const %s: [u32; 1024] = [\n" % name)
        f.writelines("    0x%08X,\n" % e for e in entries)
        f.write("];\n")
        if n > 0:
            f.write("\n")
