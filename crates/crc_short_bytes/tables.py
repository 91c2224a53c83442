#!/usr/bin/env python3
"""tables.py: writes src/lib.rt of this crate and of crc_word_bytes, a table each as a match, and the proof of each, an answer to an arm. Run it in this folder.

The prover holds each number of each arm to the definition, so nothing rests on this program: it saves writing 512 arms by hand.
What stands in the two crates is what it writes. To compare: run it, `rt fmt`, and then `git status --short` names no file of theirs.
"""
import os

# The numbers of an arm, by how many bytes, its own with them, are still to leave with the byte.
COUNTS = ["one", "two", "three", "four", "five", "six", "seven", "eight"]

WHY = """// tables.py of crc_short_bytes made it.
// One match with all numbers of a byte is checked in a third of the time that one match for each number takes, and the compiler makes it the same
// tables. It is inlined, and a lookup is then one load, only where it has one caller in the whole program. Two matches of half the arms would be
// checked faster, but the compiler does not join them to one table.
// The two crates' matches stay apart: an arm is made of literals, eight of 64 bits in the one and four of 32 in the other, which a type parameter cannot give.
// And an arm's numbers are fields: with an array, of which the caller's loop takes one by its index, a run took six times the instructions.
"""

SHORT = """// The tables of CRC-32 by two words, in one match, so that they stand with the code and are never made: what a byte leaves, and the same two words
// later. crc_short is over them.
""" + WHY + """#![tactic(auto)]

ghost use Rattle.std.specs.Prelude.{{◌≡◌, ◌%◌}};
ghost use Rattle.crc.specs.Crc.{{bits_out}};
ghost use Rattle.crc_short_bytes.specs.Twice.{{twice}};

// What a byte leaves, by how many bytes, its own with them, are still to leave, each number with the same two words later.
#[derive(Clone, Copy)]
pub struct Leaves {{
{fields}
}}

// A number by the plain loop: what the arm for every other number holds, though a byte has no other.
fn plain(b: u32, n: u32) -> u64
    ensures {{ result ≡ twice (bits_out n b) }}
{{
    let z = crc::bits_out(b, n);
    let late = crc::bits_out(z, 64);
    u64::from(late) * 4294967296 + u64::from(z)
}}
"""

WORD = """// The tables of CRC-32 by one word, in one match, so that they stand with the code and are never made: what a byte leaves. crc_word is over them.
""" + WHY + """#![tactic(auto)]

ghost use Rattle.std.specs.Prelude.{{◌≡◌, ◌%◌}};
ghost use Rattle.crc.specs.Crc.{{bits_out}};

use crc::bits_out;

// What a byte leaves, by how many bytes, its own with them, are still to leave.
#[derive(Clone, Copy)]
pub struct Leaves {{
{fields}
}}
"""

TABLE = """
pub fn byte(b: u32) -> Leaves
    ensures {{ {holds} }}
{{
    let byte = b % 256;
    match byte + 256 {{
{arms}
        _ => Leaves {{ {others} }},
    }}
}}
"""

PROOF = """-- `{crate}::byte` meets its contract: each number of an arm is made of those at the powers of two.
use mathlib.Core.Path.{{◌≡◌, refl}}
use mathlib.Core.List.{{List, [], ◌∷◌}}
use Prim.Native.Nat.{{ℕ, ◌+◌, ◌<◌}}
use lib.Dec.{{T, eqb, lit<}}
use Rattle.crc.specs.Crc.{{bit, bits_out}}
{uses}
use Rattle.{crate}.proofs.byte.Goals as goal
{powers}
-- the numbers of the arm at 256 + k, for the byte k
numbers : (k b {values} : ℕ) → k < 256 → b + 256 ≡ k + 256
    → {tests}
    → {holds}
numbers k b {values} h e {names} = (
{proofs}
)
{answers}"""

POWERS = """
abbrev {count} : List ℕ
{count} = {powers} ∷ []

{count}_are : {count} ≡ {basis}
unfolding bit bits_out{unfolding}
{count}_are = refl
"""


def after(bits, r):
    for _ in range(bits):
        r = (r >> 1) ^ (0xEDB88320 if r & 1 else 0)
    return r


def twice(n, b):
    z = after(n, b)
    return after(64, z) << 32 | z


def write(path, text):
    os.makedirs(os.path.dirname(path), exist_ok=True)
    with open(path, "w") as out:
        out.write(text)


def table(crate, head, entry, digits, counts, means, plain, uses, basis, unfolding, arm):
    bits = {c: 8 * (k + 1) for k, c in enumerate(counts)}
    source = head.format(fields="\n".join("    pub %s: u%d," % (c, 4 * digits) for c in counts)) + TABLE.format(
        holds="\n        × ".join("(result.%s ≡ %s)" % (c, means % bits[c]) for c in counts),
        arms="\n".join("        %d => Leaves { %s }," % (256 + b, ", ".join("%s: 0x%0*X" % (c, digits, entry(bits[c], b)) for c in counts))
            for b in range(256)),
        others=", ".join("%s: %s(byte, %d)" % (c, plain, bits[c]) for c in counts))
    write("../%s/src/lib.rt" % crate, source)
    write("../%s/proofs/byte/Answers.antt" % crate, PROOF.format(
        crate=crate, uses=uses,
        powers="".join(POWERS.format(count=c, powers=" ∷ ".join("0x%X" % entry(bits[c], 1 << p) for p in range(8)), basis=basis % bits[c], unfolding=unfolding)
            for c in counts),
        values=" ".join("v%d" % bits[c] for c in counts), names=" ".join("t%d" % bits[c] for c in counts),
        tests="\n    → ".join("T (eqb v%d (pick %s k))" % (bits[c], c) for c in counts),
        holds="\n    × ".join("(v%d ≡ %s)" % (bits[c], means % bits[c]) for c in counts).replace("(b % 256)", "b"),
        proofs="\n".join("  %s %s k v%d b %s_are h t%d e," % (arm % bits[c], c, bits[c], c, bits[c]) for c in counts),
        answers="".join("\npub returns-in-%d : goal.returns-in-%d\nreturns-in-%d c = numbers %d _ %s (lit< tt) c.in-%d.is %s\n" % (256 + b, 256 + b, 256 + b, b,
            " ".join("_" for c in counts), 256 + b, " ".join("tt" for c in counts)) for b in range(256))))


table("crc_short_bytes", SHORT, twice, 16, COUNTS, "twice (bits_out %d (b %% 256))", "plain",
    "use Rattle.crc_short_bytes.specs.Twice.{twice}\nuse Rattle.crc_short_bytes.specs.Arm.{basis}\nuse Rattle.crc_short_bytes.specs.ArmLaws.{arm}\nuse Rattle.crc.specs.Arm.{pick}", "basis %d 0 8", " twice basis", "arm %d")
table("crc_word_bytes", WORD, after, 8, COUNTS[:4], "bits_out %d (b %% 256)", "bits_out",
    "use Rattle.crc.specs.Arm.{pick, basis}\nuse Rattle.crc.proofs.ArmLaws.{bits_linear, arm}", "basis (bits_out %d) 0 8", "", "arm (bits_linear %d)")
