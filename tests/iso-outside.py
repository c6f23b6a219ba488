"""iso-outside.py INPUT EXPECTED: lines `R packet` for the program `cases`, and what each has to print. No library has
the ISO checksum of ECSS-E-70-41A's annex, so it is worked out here in another way than by its rule: the plain sum of
the octets and their sum by weights, whole numbers both, and the modulus once at the end. Each packet with flag 0 stands
there with wrong error controls, which have to be refused by 2 with the right value as detail, and with the right one.

There is every length from 12 to 248 octets, of any octets and of nothing but one octet; every value of an octet at each
place of the header but the length field's and at places of the data, the fields of check 16 among them, whose refusal
comes behind that of the error control; every ack with both flags; values that have FF in the first octet, in the second
and in both, with 00 in their place too; and the published vectors, each behind a header over which both sums are 0, so
that the packet's value is the vector's own. With flag 1 the value is Python's own binascii.crc_hqx."""

import binascii
import random
import sys

SHORTEST = 12
LONGEST = 248
FLAG = 0x10
# Where the flag stands, and the data begins.
FLAG_OCTET = 6
HEADER = 10
PUBLISHED = {
    "0000": "FFFF",
    "000000": "FFFF",
    "ABCDEF01": "9CF8",
    "1456F89A0001": "24DC",
}

asked = []


def sums(octets):
    plain = sum(octets)
    weighted = sum(weight * octet for weight, octet in enumerate(reversed(octets), 1))
    return plain, weighted


def iso(octets):
    plain, weighted = sums(octets)
    return bytes([-(plain + weighted) % 255 or 255, weighted % 255 or 255])


def crc(octets):
    return binascii.crc_hqx(octets, 0xFFFF).to_bytes(2, "big")


def wrong_field(body):
    """The detail of check 16, 0 where the header is right."""
    rows = [body[0] >> 5, not body[0] & 16, not body[0] & 8, body[2] < 0xC0, body[FLAG_OCTET] >> 5]
    return next((detail for detail, wrong in enumerate(rows, 1) if wrong), 0)


def refused(number, detail):
    return f"01{number:02X} {detail} 0000 0000 00 00 00 00 00 "


def read(body):
    """What is printed where the error control is right."""
    if wrong_field(body):
        return refused(16, f"{wrong_field(body):04X}")
    apid = int.from_bytes(body[:2], "big") & 0x7FF
    count = int.from_bytes(body[2:4], "big") & 0x3FFF
    octet, kind, subtype, pad = body[FLAG_OCTET:HEADER]
    fields = f"{apid:04X} {count:04X} {octet >> 4 & 1:02X} {octet & 15:02X} {kind:02X} {subtype:02X} {pad:02X}"
    return f"0000 0000 {fields} {body[HEADER:].hex().upper()}"


def ask(body, *wrong):
    """The packet with its right error control, and with wrong ones: these, the other method's, one with an octet off
    and the right one with its octets exchanged."""
    body = bytes(body)
    methods = [iso(body), crc(body)]
    right, other = methods if not body[FLAG_OCTET] & FLAG else methods[::-1]
    off = bytearray(right)
    off[random.randrange(2)] ^= random.randrange(1, 256)
    detail = right.hex().upper()
    asked.append((f"R {body.hex()}{right.hex()}", read(body)))
    for value in sorted({other, bytes(off), right[::-1], *wrong} - {right}):
        asked.append((f"R {body.hex()}{value.hex()}", refused(2, detail)))
    return detail


def header(octets, first=0x18):
    """The header of a packet of so many octets with flag 0; it is right but for the bits of the first octet."""
    numbers = [first << 8 | random.randrange(0x800), 0xC000 | random.randrange(0x4000), octets - 7]
    rest = [random.randrange(16), random.randrange(256), random.randrange(256), random.randrange(256)]
    return bytearray(b"".join(number.to_bytes(2, "big") for number in numbers) + bytes(rest))


def packet(octets, data):
    return header(octets) + data


def with_sums(body, places, plain, weighted):
    """Whether the two octets could be chosen so that the sums are these, modulo 255."""
    one, other = places
    for octet in range(255):
        body[one], body[other] = octet, 0
        body[other] = (plain - sum(body)) % 255
        if sums(body)[1] % 255 == weighted % 255:
            return True
    return False


def chosen(octets, plain, weighted):
    """A packet of so many octets, without its error control, over which the sums are these, modulo 255."""
    while True:
        body = packet(octets, random.randbytes(octets - SHORTEST))
        places = [len(body) - 2, len(body) - 1] if octets > SHORTEST + 1 else [3, 9]
        if with_sums(body, places, plain, weighted):
            return body


random.seed(1)
for text, value in PUBLISHED.items():
    octets = bytes.fromhex(text)
    assert iso(octets).hex().upper() == value, "this way does not give the published values"
    while True:
        body = header(len(octets) + SHORTEST)
        if with_sums(body, [3, 9], 0, 0):
            break
    assert ask(body + octets) == value, "a header with both sums 0 changes the published value"
for length in range(SHORTEST, LONGEST + 1):
    data = length - SHORTEST
    for octets in [random.randbytes(data), bytes(data), b"\xff" * data, b"\xfe" * data, b"\x80" * data]:
        ask(packet(length, octets))
for length in [12, 14, 60, 248]:
    for place in [*range(4), *range(6, HEADER), *range(HEADER, length - 2, 47), length - 3]:
        body = packet(length, random.randbytes(length - SHORTEST))
        for octet in range(256):
            body[place] = octet
            ask(body)
for octet in range(256):
    for first in [0x18, 0x00, 0xF8]:
        body = header(12, first)
        body[FLAG_OCTET] = octet
        ask(body)
for length in [*range(12, 60), 100, 247, 248]:
    some = random.randrange(1, 255)
    both = [bytes.fromhex(value) for value in ["00FF", "FF00", "0000"]]
    assert ask(chosen(length, 0, 0), *both) == "FFFF"
    first = chosen(length, -some, some)
    assert ask(first, bytes([0, some])) == f"FF{some:02X}"
    second = chosen(length, some, 0)
    assert ask(second, bytes([255 - some, 0])) == f"{255 - some:02X}FF"
with open(sys.argv[1], "w") as lines:
    lines.writelines(f"{line}\n" for line, _ in asked)
with open(sys.argv[2], "w") as lines:
    lines.writelines(f"{answer}\n" for _, answer in asked)
