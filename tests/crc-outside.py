"""crc-outside.py INPUT EXPECTED: lines `C octets` and `D start octets` for the program `cases`, and the value of each
by Python's own binascii.crc_hqx. They are chosen for a CRC that takes several octets in a turn, with a table for each,
and long inputs another way than short ones: what is wrong in one entry, at one place of a turn or on one side of a
length is to show.

C is with start FFFF: the published vectors, the OMEGA manual's connection test packet (source document 000), every
length up to 2,100, the lengths about multiples of 500 and 512 from there to 6,000 and about powers of two from 4,096 to
65,536, and the longest; and nothing but 00, or nothing but FF, on both sides of powers of two up to 8,192. D is with
any start: every length up to 600, every hundred up to 6,000, lengths about 64 KiB and any up to the longest; and in
parts, each with the value of the part before as its start, of which the last gives the value of the whole. D from 0000
has one octet, the others 00, at each of the first 40 and the last 40 places of a long input, with and without octets
left over behind its last turn; and it reads out every entry of every table of a turn of up to 32 octets, as `read_out`
says, in inputs of 32, 512 and 8,192 octets."""

import binascii
import random
import sys

START = 0xFFFF
STARTS = 0x10000
LONGEST = 70000
LONGEST_PART = LONGEST - 2
KNOWN = {
    "0000": 0x1D0F,
    "000000": 0xCC9C,
    "ABCDEF01": 0x04A2,
    "1456F89A0001": 0x7FD5,
    "1D1CC001000510110100": 0xD7D8,
}
# As many octets as a CRC may take in a turn; turns of 2, 4, 8 and 16 end where these do.
TURN = 32
# As many places at either end of a long input: more than a turn has.
WALK = 40

asked = []


def whole(octets):
    value = binascii.crc_hqx(octets, START)
    asked.append((f"C {octets.hex()}", value))
    return value


def part(start, octets):
    value = binascii.crc_hqx(octets, start)
    asked.append((f"D {start:04x}{octets.hex()}", value))
    return value


def in_parts(octets, places):
    value = START
    for begin, end in zip([0, *places], [*places, len(octets)]):
        value = part(value, octets[begin:end])
    assert value == whole(octets), "this tool's values over parts do not give that of the whole"


def about(place, reach):
    return range(place - reach, place + reach + 1)


def walk(length):
    for place in [*range(WALK), *range(length - WALK, length)]:
        octets = bytearray(length)
        octets[place] = random.randrange(1, 256)
        part(0, octets)


def read_out(place, values):
    """A turn for each value. The first two octets of a turn meet the register, of which nothing is left, and the value
    stands at the place: a CRC that takes the turn at once looks up that value there, and 0 at every other place."""
    octets = bytearray()
    register = 0
    for value in values:
        turn = bytearray(TURN)
        turn[:2] = register.to_bytes(2, "big")
        turn[place] ^= value
        register = binascii.crc_hqx(turn, register)
        octets += turn
    part(0, octets)


random.seed(1)
for text, value in KNOWN.items():
    octets = bytes.fromhex(text)
    assert whole(octets) == value, "this tool does not give the published values"
    for place in range(len(octets) + 1):
        in_parts(octets, [place])
for length in [*range(2101), LONGEST]:
    whole(random.randbytes(length))
for place in [4096, 8192, 16384, 32768, 65536]:
    for length in about(place, 17):
        whole(random.randbytes(length))
for place in [*range(2500, 6001, 500), *range(2560, 6001, 512)]:
    for length in about(place, 1):
        whole(random.randbytes(length))
for power in range(1, 14):
    for length in about(2**power, 1):
        whole(bytes(length))
        whole(b"\xff" * length)
for length in [*range(601), *range(700, 6001, 100)]:
    part(random.randrange(STARTS), random.randbytes(length))
for _ in range(12):
    part(random.randrange(STARTS), random.randbytes(random.randint(601, LONGEST_PART)))
for length in [*range(101), 65535, 65536, LONGEST_PART]:
    for start in [0, START, random.randrange(1, START)]:
        part(start, random.randbytes(length))
for length in [*range(101), 10000, 65536]:
    octets = random.randbytes(length)
    in_parts(octets, sorted(random.randint(0, length) for _ in range(random.randint(0, 8))))
    in_parts(octets, [0, 0, length // 2, length // 2, length])
for length in [4096, 4097, 10000, 65536]:
    in_parts(random.randbytes(length), range(4096, length, 4096))
# Whole turns alone, and as many octets left over as there can be.
for length in [128 * TURN, 128 * TURN + TURN - 1]:
    walk(length)
# One value, 16 and all of them in a line: a short input, a longer one, and one that no CRC would take for short.
for many in [1, 16, 256]:
    for place in range(TURN):
        for first in range(0, 256, many):
            read_out(place, range(first, first + many))
with open(sys.argv[1], "w") as lines:
    lines.writelines(f"{line}\n" for line, _ in asked)
with open(sys.argv[2], "w") as lines:
    lines.writelines(f"{value:04X}\n" for _, value in asked)
