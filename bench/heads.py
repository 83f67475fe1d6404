#!/usr/bin/env python3
"""heads.py [--stdout] prints rows of crates/passkey_rows, `heads-KIND MESSAGE` for each message of hostile.py in a small size,
for messages of the other commands, and for authenticator data that are whole, cut off or in chunks; with --stdout what they have to
print: the heads and the nodes that decoding the message at a cursor counts, and whether it is accepted.

The counts are worked out here, from the message alone, by what the README of passkey_cbor says of each call and docs/DECISIONS.md of the
order of calls: a message is skipped once, and each value is then decoded once, from left to right; what is refused where that is
tolerated is skipped as well."""
import sys
from dataclasses import dataclass, field

import hostile

MAX_LEVELS = 256


class NotWellFormed(Exception):
    pass


@dataclass
class Item:
    major: int
    argument: int | None = None
    heads: int = 1
    items: int = 1
    chunks: list | None = None
    content: bytes = b""
    parts: list = field(default_factory=list)
    is_break: bool = False

    @property
    def again(self):
        """The heads of looking at a string once more: none in one piece, else its chunks and the break."""
        return 0 if self.chunks is None else len(self.chunks) + 1


class Parser:
    def __init__(self, data):
        self.data, self.at, self.heads = data, 0, 0

    def take(self, n):
        if self.at + n > len(self.data):
            raise NotWellFormed
        self.at += n
        return self.data[self.at - n : self.at]

    def item(self, levels):
        self.heads += 1
        initial = self.take(1)[0]
        major, info = initial >> 5, initial & 31
        if info == 31:
            argument = None
        elif info < 24:
            argument = info
        elif info < 28:
            argument = int.from_bytes(self.take(1 << (info - 24)), "big")
        else:
            raise NotWellFormed
        item = Item(major, argument)
        if initial == 0xFF:
            item.is_break = True
        elif argument is None and major in (0, 1, 6):
            raise NotWellFormed
        elif major in (2, 3):
            self.string(item)
        elif major in (4, 5, 6):
            if levels == 0:
                raise NotWellFormed
            self.nest(item, levels - 1)
        return item

    def string(self, item):
        if item.argument is not None:
            item.content = self.take(item.argument)
            return
        item.chunks = []
        while True:
            chunk = self.item(0)
            item.heads += 1
            if chunk.is_break:
                break
            if chunk.major != item.major or chunk.chunks is not None:
                raise NotWellFormed
            item.chunks.append(chunk.content)
        item.content = b"".join(item.chunks)

    def nest(self, item, levels):
        count = {4: 1, 5: 2, 6: 1}[item.major] * (1 if item.major == 6 else item.argument or 0)
        while item.argument is None or len(item.parts) < count:
            part = self.item(levels)
            item.heads += part.heads
            if part.is_break:
                if item.argument is not None or item.major == 5 and len(item.parts) % 2:
                    raise NotWellFormed
                return
            item.parts.append(part)
            item.items += part.items


# A kind returns whether it accepts the item, the heads that decoding it counts, and the nodes.


def scalar(accepts):
    return lambda item: (bool(accepts(item)), 1, 0)


def text(item):
    return (True, item.heads + item.again, 0) if item.major == 3 else (False, 1, 0)


def byte_string(item):
    """A byte string, or an array of numbers; texts aren't among these messages."""
    if item.major == 2:
        return True, item.heads + item.again, 0
    accepted, heads, nodes = elements(number(8))(item)
    return accepted, 2 + heads, nodes


def number(bits):
    return scalar(lambda item: item.major == 0 and item.argument >> bits == 0)


def truth(item):
    return item.major == 7 and item.argument in (20, 21), 1, 0


def optional(kind):
    """A value or null, for which one head is decoded first."""

    def nullable(item):
        if item.major == 7 and item.argument in (22, 23):
            return True, 1, 0
        accepted, heads, nodes = kind(item)
        return accepted, 1 + heads, nodes

    return nullable


def one_of(*names):
    names = [it.encode() for it in names]

    def kind(item):
        if item.major != 3:
            return False, 1, 0
        if item.chunks is None:
            return item.content in names, item.heads, 0
        return item.content in names, item.heads + looks(item, names), 0

    return kind


def looks(item, names):
    """The heads of comparing a string in chunks with names: chunk by chunk while one begins with them, and then the break."""
    joined, heads = b"", 0
    for chunk in item.chunks:
        joined += chunk
        heads += 1
        if not any(it.startswith(joined) for it in names):
            return heads
    return heads + 1


def tolerated(kind):
    def tolerant(item):
        accepted, heads, nodes = kind(item)
        return (True, heads, nodes) if accepted else (True, heads + item.heads, nodes)

    return tolerant


def elements(kind):
    def array(item):
        if item.major != 4:
            return False, 1, 0
        heads, nodes = 1, 0
        for part in item.parts:
            accepted, more, made = kind(part)
            heads, nodes = heads + (item.argument is None) + more, nodes + made
            if not accepted:
                return False, heads, nodes
        return True, heads + (item.argument is None), nodes

    return array


def accepted_elements(kind):
    return elements(tolerated(kind))


def kept(item):
    return True, item.heads, item.items


def part_at(content):
    """The item that the bytes begin with, or None; the heads and nodes of skipping it and of decoding it; and the bytes after it."""
    parser = Parser(content)
    try:
        item = parser.item(MAX_LEVELS)
    except NotWellFormed:
        return None, parser.heads, 0, b""
    return item, 2 * item.heads, item.items, content[parser.at :]


def authenticator_data(item):
    if item.major != 2:
        return False, 1, 0
    heads, nodes = item.heads + item.again, 0
    flags, rest = item.content[32], item.content[37:]
    if flags & 0x40:
        rest = rest[18 + int.from_bytes(rest[16:18], "big") :]
        key, more, made, rest = part_at(rest)
        heads, nodes = heads + more, nodes + made
        if key is None or not any(it.major == 0 and it.argument == 1 for it in key.parts[::2]):
            return False, heads, nodes
    if flags & 0x80:
        extensions, more, made, rest = part_at(rest)
        heads, nodes = heads + more, nodes + made
        if extensions is None or extensions.major != 5:
            return False, heads, nodes
    return True, heads, nodes


def row_of(key, table, numbered):
    """The row that a key names, and the heads that finding it counts."""
    if key.major == 0:
        named = [it for it in table if it[0] == key.argument]
        return named[0] if named else None, 1 if numbered and key.argument < 256 else 3
    if key.major not in (2, 3):
        return None, 3
    missed = {3: 0, 2: 1}[key.major] + numbered
    compared = 0 if key.chunks is None else looks(key, [it[1].encode() for it in table])
    named = [it for it in table if it[1].encode() == key.content]
    return named[0] if named else None, missed + key.heads + compared


def record(table, numbered=False):
    def members(item):
        if item.major != 5:
            return "NotAMap", 1, 0
        heads, nodes, seen = 1, 0, set()
        for key, value in zip(item.parts[::2], item.parts[1::2]):
            heads += item.argument is None
            row, found = row_of(key, table, numbered)
            heads += found
            if not (key.major in (2, 3) or numbered and key.major == 0 and key.argument < 256):
                return "BadKey", heads, nodes
            if row is None:
                heads += value.heads
                continue
            if row[0] in seen:
                return f"Repeated({row[0]})", heads, nodes
            accepted, more, made = row[2](value)
            heads, nodes = heads + more, nodes + made
            if not accepted:
                return f"Refused({row[0]})", heads, nodes
            seen.add(row[0])
        heads += item.argument is None
        missing = [it[0] for it in table if it[3] and it[0] not in seen]
        return (f"Missing({missing[0]})" if missing else "accepted"), heads, nodes

    return members


def nested(table, numbered=False):
    def kind(item):
        answer, heads, nodes = record(table, numbered)(item)
        return answer == "accepted", heads, nodes

    return kind


TRANSPORTS = accepted_elements(one_of("usb", "nfc", "ble", "hybrid", "cable", "internal"))
DESCRIPTOR = [
    (2, "id", byte_string, True),
    (1, "type", tolerated(one_of("public-key")), True),
    (3, "transports", tolerated(TRANSPORTS), False),
]
RP = [(1, "id", text, True), (2, "name", optional(text), False)]
USER = [
    (1, "id", byte_string, True),
    (2, "name", optional(text), False),
    (3, "displayName", optional(text), False),
    (4, "icon", optional(text), False),
]
TEMPLATE = [(1, "templateId", byte_string, True), (2, "templateFriendlyName", optional(text), False)]
PARAMETERS = [
    (1, "rpIDHash", optional(byte_string), False),
    (2, "credentialID", optional(nested(DESCRIPTOR)), False),
    (3, "user", optional(nested(USER)), False),
]
BYTE, WORD, LONG = optional(number(8)), optional(number(32)), optional(number(64))
STRING, TEXT, TRUTH = optional(byte_string), optional(text), optional(truth)
MESSAGES = {
    "pin-request": [
        (1, "pinUvAuthProtocol", BYTE, False),
        (2, "subCommand", number(8), True),
        (3, "keyAgreement", optional(kept), False),
        (4, "pinUvAuthParam", STRING, False),
        (5, "newPinEnc", STRING, False),
        (6, "pinHashEnc", STRING, False),
        (9, "permissions", WORD, False),
        (10, "rpId", TEXT, False),
    ],
    "pin-response": [
        (1, "keyAgreement", optional(kept), False),
        (2, "pinUvAuthToken", STRING, False),
        (3, "pinRetries", WORD, False),
        (4, "powerCycleState", TRUTH, False),
        (5, "uvRetries", WORD, False),
    ],
    "bio-response": [
        (1, "modality", BYTE, False),
        (2, "fingerprintKind", BYTE, False),
        (3, "maxCaptureSamplesRequiredForEnroll", WORD, False),
        (4, "templateId", STRING, False),
        (5, "lastEnrollSampleStatus", BYTE, False),
        (6, "remainingSamples", WORD, False),
        (7, "templateInfos", optional(elements(nested(TEMPLATE, True))), False),
        (8, "maxTemplateFriendlyName", WORD, False),
    ],
    "cm-request": [
        (1, "subCommand", number(8), True),
        (2, "subCommandParams", optional(nested(PARAMETERS, True)), False),
        (3, "pinUvAuthProtocol", BYTE, False),
        (4, "pinUvAuthParam", STRING, False),
    ],
    "cm-response": [
        (1, "existingResidentCredentialsCount", WORD, False),
        (2, "maxPossibleRemainingResidentCredentialsCount", WORD, False),
        (3, "rp", optional(nested(RP)), False),
        (4, "rpIDHash", STRING, False),
        (5, "totalRPs", WORD, False),
        (6, "user", optional(nested(USER)), False),
        (7, "credentialID", optional(nested(DESCRIPTOR)), False),
        (8, "publicKey", optional(kept), False),
        (9, "totalCredentials", WORD, False),
        (10, "credProtect", BYTE, False),
        (11, "largeBlobKey", STRING, False),
        (12, "thirdPartyPayment", TRUTH, False),
    ],
    "lb-request": [
        (1, "get", LONG, False),
        (2, "set", STRING, False),
        (3, "offset", number(64), True),
        (4, "length", LONG, False),
        (5, "pinUvAuthParam", STRING, False),
        (6, "pinUvAuthProtocol", BYTE, False),
    ],
    "cfg-request": [
        (1, "subCommand", number(8), True),
        (2, "subCommandParams", optional(kept), False),
        (3, "pinUvAuthProtocol", BYTE, False),
        (4, "pinUvAuthParam", STRING, False),
    ],
    "ga-request": [
        (1, "rpId", text, True),
        (2, "clientDataHash", byte_string, True),
        (3, "allowList", tolerated(accepted_elements(nested(DESCRIPTOR))), False),
    ],
    "info": [
        (1, "versions", elements(text), True),
        (3, "aaguid", lambda item: (item.major == 2 and len(item.content) == 16, item.heads, 0), True),
        (9, "transports", tolerated(TRANSPORTS), False),
    ],
    "mc-response": [
        (1, "fmt", text, True),
        (2, "authData", authenticator_data, True),
        (3, "attStmt", kept, True),
    ],
}
# By the standard alone the same calls come in the same order.
MESSAGES["ctap-mc-response"] = MESSAGES["mc-response"]


def counted(kind, message):
    parser = Parser(message)
    try:
        item = parser.item(MAX_LEVELS)
    except NotWellFormed:
        return f"{parser.heads} 0 DecodeFailed"
    answer, heads, nodes = record(MESSAGES[kind], True)(item)
    return f"{item.heads + heads} {nodes} {answer}"


def others():
    """Messages of the other commands: their kinds and bytes."""
    text, data, pairs, array, chunked = hostile.text, hostile.data, hostile.pairs, hostile.array, hostile.chunked
    key = pairs([(b"\x01", b"\x02"), (b"\x03", b"\x38\x18"), (b"\x20", b"\x01"), (b"\x21", data(b"\x07"))])
    refused = pairs([(b"\x02", text("a")), (b"\x01", b"\xf6")])
    templates = [pairs([(b"\x01", data(b"\x07")), (b"\x02", text("thumb"))])] * 3
    return [
        ("pin-request", pairs([(b"\x01", b"\x02"), (b"\x02", b"\x02")])),
        ("pin-request", pairs([(b"\x02", b"\x03"), (b"\x03", key), (b"\x04", chunked(2, b"abc"))])),
        ("pin-request", pairs([(chunked(3, b"subCommand"), b"\x09"), (chunked(2, b"permissions"), b"\x18\xff")])),
        ("pin-request", pairs([(b"\x02", b"\x05"), (b"\x06", array([b"\x01", b"\x18\x02"])), (b"\x01", b"\xf6")])),
        ("pin-request", pairs([(b"\x02", b"\x05"), (b"\x18\x63", key), (b"\x09", b"\x20")])),
        ("pin-response", b"\xbf\x01" + key + b"\x04\xf4\x03\x08\xff"),
        ("bio-response", pairs([(b"\x07", b"\x9f" + b"".join(templates) + b"\xff")])),
        ("bio-response", pairs([(b"\x07", array([*templates, refused]))])),
        ("cm-request", pairs([(b"\x01", b"\x06"), (b"\x02", pairs([(b"\x02", hostile.descriptor())]))])),
        ("cm-request", pairs([(b"\x02", pairs([(b"\x01", data(b"\x07")), (b"\x01", b"\xf6")])), (b"\x01", b"\x04")])),
        ("cm-response", pairs([(b"\x03", pairs([(text("id"), text("a"))])), (b"\x05", b"\x01"), (b"\x0a", b"\x03")])),
        ("cm-response", pairs([(b"\x08", hostile.nested(255))])),
        ("cm-response", pairs([(b"\x08", hostile.nested(256))])),
        ("lb-request", pairs([(b"\x03", b"\x1b" + b"\xff" * 8), (b"\x01", b"\x00"), (b"\x03", b"\x00")])),
        ("cfg-request", pairs([(b"\x01", b"\x03"), (b"\x02", pairs([(b"\x01", b"\x08"), (b"\x03", b"\xf4")]))])),
    ]


def parts():
    """Messages with authenticator data, a key and extensions that are whole, cut off or in chunks, and with texts in chunks."""
    key = hostile.pairs([(b"\x01", b"\x02"), (b"\x03", b"\x26"), (b"\x20", b"\x01"), (b"\x21", hostile.chunked(2, b"abc")), (b"\x22", b"\xf5")])
    extensions = hostile.pairs([(hostile.text("credProtect"), b"\x02"), (hostile.text("hmac-secret"), b"\xf5")])
    chunked = hostile.pairs([(b"\x01", hostile.chunked(3, b"example.org")), (b"\x02", b"\x40")])
    data = hostile.chunked(2, bytes(32) + b"\x81" + bytes(4) + extensions)
    in_chunks = hostile.pairs([(b"\x01", hostile.text("none")), (b"\x02", data), (b"\x03", b"\xa0")])
    return [
        ("mc-response", hostile.response(key)),
        ("mc-response", hostile.response(key, extensions)),
        ("mc-response", hostile.response(key[:-1])),
        ("mc-response", hostile.response(key[:9])),
        ("mc-response", hostile.response(key, extensions[:-1])),
        ("mc-response", hostile.response(key, hostile.array([b"\x00"] * 5))),
        ("ga-request", chunked),
        ("ctap-mc-response", hostile.response(key, extensions)),
        ("ctap-mc-response", hostile.response(key, extensions[:-1])),
        *((kind, in_chunks) for kind in ("mc-response", "ctap-mc-response")),
    ]


def main():
    for kind, message in [*[it[1:] for it in hostile.inputs(10)], *others(), *parts()]:
        if sys.argv[1:] == ["--stdout"]:
            print(f"0 {counted(kind, message)}")
        else:
            print(f"heads-{kind} {message.hex()}")


if __name__ == "__main__":
    main()
