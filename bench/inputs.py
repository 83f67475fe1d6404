"""inputs.py FOLDER writes the inputs of bench/run, each one data item of nearly 1 MiB or a little more.

array_of and CREDENTIAL serve growth.py, too."""
import struct
import sys

MEBIBYTE = 1 << 20

# {"a": 1, "b": h'0102', 3: "text"}, 15 bytes
MAP = bytes.fromhex("a3 6161 01 6162 420102 03 6474657874")
# 255 arrays, one inside the other, 255 bytes; the array around them is the 256th level
NESTED = b"\x81" * 254 + b"\x80"
# a byte string and a text string, 4,096 bytes each
STRINGS = b"\x59\x10\x00" + bytes(range(256)) * 16 + b"\x79\x10\x00" + "Grüße, 4 kB: ".encode() * 273 + b"." * 1
# integers of each size: 7, 200, 60,000, 4,000,000,000 and -2^40
NUMBERS = bytes.fromhex("07 18c8 19ea60 1aee6b2800 3b000000ffffffffff")


def credential(number):
    """{1: number, "id": 16 bytes, "type": "public-key", "ok": true}"""
    head = bytes([number]) if number < 24 else b"\x18" + bytes([number]) if number < 256 else b"\x19" + struct.pack(">H", number)
    return b"\xa4\x01" + head + b"\x62id\x50" + bytes(16) + b"\x64type\x6apublic-key\x62ok\xf5"


def array(items):
    return b"\x9a" + struct.pack(">I", len(items)) + b"".join(items)


def filled(item):
    """An array of this item, as often as it fits into 1 MiB."""
    return array([item] * ((MEBIBYTE - 5) // len(item)))


def numbers():
    each = (MEBIBYTE - 5) // len(NUMBERS)
    return b"\x9a" + struct.pack(">I", 5 * each) + NUMBERS * each


def strings():
    each = (MEBIBYTE - 5) // len(STRINGS)
    return b"\x9a" + struct.pack(">I", 2 * each) + STRINGS * each


def inputs():
    return {
        "maps": filled(MAP),
        "nested": filled(NESTED),
        "strings": strings(),
        "numbers": numbers(),
        "credentials": array([credential(it) for it in range(23442)]),
    }


if __name__ == "__main__":
    for name, item in inputs().items():
        with open(f"{sys.argv[1]}/{name}", "wb") as file:
            file.write(item)
