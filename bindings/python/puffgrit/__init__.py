"""Messages of CTAP2 and WebAuthn, decoded, checked and encoded again, and CBOR data items (RFC 8949) and authenticator data
(WebAuthn Level 3, section 6.1), looked at in place, by proved code.

The library is the one that the environment variable PUFFGRIT_LIBRARY names, or else libpuffgrit.so beside this file, or else the
system's libpuffgrit.so.3. A call lets other threads run, so its bytes have to be `bytes`, which no thread can change.
"""

from __future__ import annotations

import base64
import ctypes
import json
import operator
import struct
import uuid
from dataclasses import dataclass
from typing import Any, Callable, Final, Iterator

from . import _c
from ._kinds import DECODED, EXACT, EXPLAINED, KINDS, RECORDS, RULES

__all__ = [
    "ARRAY", "BYTES", "DECODED", "EXACT", "EXPLAINED", "FLOAT", "INDEFINITE", "KINDS", "MAP", "NEGATIVE", "RECORDS", "RULES", "SIMPLE",
    "TAG", "TEXT", "UNSIGNED", "AuthData", "Fault", "Item", "NotCanonical", "auth_parts", "decode", "decode_front", "elements", "encode", "explain",
    "is_canonical", "is_client_data", "item_at", "item_len", "member", "not_canonical", "rewrite", "rewrite_front", "version",
]  # fmt: skip

# The types of data items: the major types (RFC 8949, section 3.1), and one for floats.
UNSIGNED: Final = 0
NEGATIVE: Final = 1
BYTES: Final = 2
TEXT: Final = 3
ARRAY: Final = 4
MAP: Final = 5
TAG: Final = 6
SIMPLE: Final = 7
FLOAT: Final = 8

#: The number of a string, an array or a map of indefinite length.
INDEFINITE: Final = 2**64 - 1

_FAULTS = {
    16: "DecodeFailed",
    17: "NotAMap",
    18: "BadKey",
    19: "Repeated",
    20: "Refused",
    21: "Missing",
    22: "OutOfRangeIntegerValue",
    23: "DuplicateMapKey",
    24: "UnexpectedItem",
    25: "Float",
    26: "BadJson",
    27: "NoItem",
    28: "NotCanonical",
}


_library = _c.load()
_MOST = ctypes.c_size_t(-1).value


def _checked(data: bytes) -> bytes:
    if not isinstance(data, bytes):
        raise TypeError(f"bytes are wanted, not {type(data).__name__}")
    return data


def _offset(offset: int) -> int:
    """The offset, if C has it: ctypes would pass on its last 64 bits."""
    number = operator.index(offset)
    if not 0 <= number <= _MOST:
        raise OverflowError(f"an offset has to be from 0 to {_MOST}")
    return number


class Fault(ValueError):
    """Why an input is rejected: its first fault (docs/FAULTS.md)."""

    def __init__(self, name: str, member: int | None) -> None:
        super().__init__(name if member is None else f"{name}({member})")
        #: Where in the input and why, as "user.id: a byte string is wanted (offset 58, length 10)"; of `encode`, without an offset.
        self.explanation: str | None = None
        #: The offset of what is refused: of a data item or a map key, or of where the bytes aren't well-formed; 0 of a JSON text.
        self.offset: int | None = None
        #: The length of what is refused in bytes.
        self.length: int | None = None
        #: The fault's name, as `Refused`; `NotAMap` of a JSON value that is no object.
        self.name: str = name
        #: The number of the message's member that it is about.
        self.member: int | None = member
        #: Of `NotCanonical` the rule that is broken, one of `RULES`.
        self.rule: str | None = None


@dataclass(frozen=True)
class Item:
    """A data item in `data`: from `start`, its content from `content`, up to `end`."""

    data: bytes
    kind: int
    #: The argument: an integer n, or n of -1 - n; a length (INDEFINITE without one); a tag; a simple value; a float's bits.
    number: int
    start: int
    content: int
    end: int

    @property
    def integer(self) -> int:
        """The integer that the item is."""
        if self.kind not in (UNSIGNED, NEGATIVE):
            raise ValueError("no integer")
        return self.number if self.kind == UNSIGNED else -1 - self.number

    @property
    def string(self) -> bytes:
        """The content of a byte or text string of definite length."""
        if self.kind not in (BYTES, TEXT) or self.number == INDEFINITE:
            raise ValueError("no string of definite length")
        return self.data[self.content : self.end]

    def get(self, key: int | str) -> Item | None:
        """The value of the map's first member with the key, or `None`."""
        return member(self.data, key, self.start)

    def __iter__(self) -> Iterator[Item]:
        """The elements of an array, or the keys and values of a map in turn."""
        return elements(self.data, self)


@dataclass(frozen=True)
class NotCanonical:
    """Where bytes leave CTAP2's canonical form (CTAP 2.2, section 8)."""

    #: The rule that is broken there, one of `RULES`.
    rule: str
    #: The offset of the head that breaks it: of a key that isn't in its place, its own; of trailing bytes, that of the first.
    offset: int


@dataclass(frozen=True)
class AuthData:
    """Authenticator data (WebAuthn Level 3, section 6.1)."""

    rp_id_hash: bytes
    flags: int
    counter: int
    aaguid: bytes | None
    credential_id: bytes | None
    public_key: Item | None
    extensions: Item | None
    #: The offset after the last part: bytes after it have no meaning.
    end: int


def version() -> int:
    """The version of the library's interface."""
    return int(_library.puffgrit_version())


def item_len(data: bytes) -> int:
    """The length of the data item at the beginning of the bytes; 0 if no well-formed one of at most 256 levels is there."""
    return int(_library.puffgrit_item_len(_checked(data), len(data)))


def is_canonical(data: bytes) -> bool:
    """Whether the bytes are exactly one data item in CTAP2's canonical form (CTAP 2.1, section 8)."""
    return bool(_library.puffgrit_is_canonical(_checked(data), len(data)))


def _seen(data: bytes, found: bool, it: _c.Item) -> Item | None:
    return Item(data, it.kind, it.number, it.start, it.content, it.end) if found else None


def not_canonical(data: bytes, levels: int = 4) -> NotCanonical | None:
    """Where and why the bytes aren't exactly one data item in CTAP2's canonical form, with arrays and maps inside one another at no more
    levels than this, and at most 256; `None` if they are (CTAP 2.2, section 8)."""
    offset = ctypes.c_size_t()
    rule = _library.puffgrit_not_canonical(_checked(data), len(data), _offset(levels), ctypes.byref(offset))
    return NotCanonical(RULES[rule - 1], offset.value) if rule else None


def item_at(data: bytes, offset: int = 0) -> Item | None:
    """The data item at the offset, or `None` if no well-formed one of at most 256 levels is there."""
    it = _c.Item()
    return _seen(data, _library.puffgrit_item_at(_checked(data), len(data), _offset(offset), ctypes.byref(it)), it)


def member(data: bytes, key: int | str, offset: int = 0) -> Item | None:
    """The value of the first member with this key of the map at the offset, or `None`. An integer has to fit in 64 bits."""
    it = _c.Item()
    given = _checked(data), len(data), _offset(offset)
    if isinstance(key, str):
        name = key.encode()
        return _seen(data, _library.puffgrit_named(*given, name, len(name), ctypes.byref(it)), it)
    number = operator.index(key)
    if not -(2**63) <= number < 2**63:
        raise OverflowError("a key has to fit in 64 bits")
    return _seen(data, _library.puffgrit_member(*given, number, ctypes.byref(it)), it)


def elements(data: bytes, container: Item) -> Iterator[Item]:
    """The items in an array, or a map's keys and values in turn."""
    if container.kind not in (ARRAY, MAP):
        raise ValueError("neither an array nor a map")
    end = container.end - (container.number == INDEFINITE)
    at = container.content
    while at < end:
        found = item_at(data, at)
        if found is None:
            return
        yield found
        at = found.end


def auth_parts(data: bytes) -> AuthData | None:
    """The parts of authenticator data, or `None` if one is cut off or isn't a map where one belongs."""
    it = _c.AuthData()
    if not _library.puffgrit_auth_parts(_checked(data), len(data), ctypes.byref(it)):
        return None
    has_ids = it.aaguid != 0
    return AuthData(
        rp_id_hash=data[:32],
        flags=it.flags,
        counter=it.counter,
        aaguid=data[it.aaguid : it.aaguid + 16] if has_ids else None,
        credential_id=data[it.credential_id : it.credential_id + it.credential_id_len] if has_ids else None,
        public_key=item_at(data, it.public_key) if has_ids else None,
        extensions=item_at(data, it.extensions) if it.extensions else None,
        end=it.end,
    )


def is_client_data(
    data: bytes, kind: str, challenge: bytes, origin: str, top_origin: str | None = None, *, requires_top_origin: bool = True
) -> bool:
    """Whether the data begin as the client data that a client writes for this type (`webauthn.create` or `webauthn.get`), challenge,
    origin and top origin (WebAuthn Level 3, section 5.8.1.2). JSON isn't parsed, and other members may follow.

    A top origin is expected of a ceremony in a frame of another origin. If it isn't required, clients of WebAuthn Level 2, which don't
    write it, pass too.
    """
    if top_origin == "":
        raise ValueError("a top origin isn't empty")
    given = [_checked(data), kind.encode(), _checked(challenge), origin.encode(), (top_origin or "").encode()]
    return bool(_library.puffgrit_is_client_data(*[it for part in given for it in (part, len(part))], bool(requires_top_origin)))


def _number(kind: str, kinds: list[str] = KINDS) -> int:
    if kind not in kinds:
        raise ValueError(f"no kind {kind!r}")
    return KINDS.index(kind) + 1


def _flags(canonical: bool, four_levels: bool, all_bytes: bool) -> int:
    """What is added to a kind's number."""
    return (0x100 if canonical else 0) + (0x200 if four_levels else 0) + (0x400 if all_bytes else 0)


def _written(call: Callable[..., int], kind: str, data: bytes, flags: int) -> tuple[bytes, int]:
    """What the call writes, and how many bytes it read; an output that is too short is replaced by one that isn't."""
    number, room = _number(kind) + flags, len(_checked(data)) + 256
    read, length = ctypes.c_size_t(), ctypes.c_size_t()
    while True:
        out = ctypes.create_string_buffer(room)
        status = call(number, data, len(data), ctypes.byref(read), out, room, ctypes.byref(length))
        if status != 1:
            break
        room = length.value
    if status == 0:
        return out.raw[: length.value], read.value
    if status == 2:
        raise MemoryError("puffgrit")
    raise _explained(kind, data, flags) or _fault(status)


def _fault(status: int) -> Fault:
    name, second = status & 255, status >> 8
    fault = Fault(_FAULTS[name], second if name in (19, 20, 21) and second else None)
    fault.rule = RULES[second - 1] if name == 28 else None
    return fault


def rewrite(kind: str, data: bytes, *, canonical: bool = False, four_levels: bool = False, all_bytes: bool = False) -> bytes:
    """Decodes the data as the kind (one of `KINDS`), and returns its encoding: CTAP2's canonical form, or compact JSON.

    Raises `Fault` if the kind rejects the data, and `MemoryError`. Bytes after a data item, a message or authenticator data are
    ignored: `rewrite_front` tells where they begin.

    Data that the kind accepts are refused, too, with the fault `NotCanonical` and its `rule`, where more is asked: that the data item is
    in CTAP2's canonical form (`canonical`), that arrays, maps and tags are inside one another at no more than four levels
    (`four_levels`), or that no bytes follow (`all_bytes`). Of authenticator data, structures of a TPM and JSON texts only the last is.
    """
    return rewrite_front(kind, data, canonical=canonical, four_levels=four_levels, all_bytes=all_bytes)[0]


def rewrite_front(
    kind: str, data: bytes, *, canonical: bool = False, four_levels: bool = False, all_bytes: bool = False
) -> tuple[bytes, int]:
    """What `rewrite` returns, and how many bytes of the data were decoded: all of a JSON text."""
    return _written(_library.puffgrit_rewrite, kind, data, _flags(canonical, four_levels, all_bytes))


def decode(
    kind: str, data: bytes, *, exact: bool = False, canonical: bool = False, four_levels: bool = False, all_bytes: bool = False
) -> Any:
    """What is in the data, which is of the kind (one of `DECODED`): a message, a key, authenticator data or a record
    as a dictionary.

    Members have their names, also those of authenticator data, keys and attestation statements inside a message; byte strings are
    base64url without padding, AAGUIDs are UUIDs, and algorithms and flags have their names. Raises what `rewrite` raises, and asks for
    `canonical`, `four_levels` and `all_bytes` as it does.

    If it is exact, of any kind, nothing is lost, and `encode` makes what `rewrite` makes of the data: byte strings are `bytes`, AAGUIDs
    `uuid.UUID`, integers `int`, floats of 64 bits `float`; members of a message's tables and parameters of a key have their names, and
    other keys are `int`, `str` or `bytes`. Authenticator data are a dictionary of their parts, or `bytes` where these are encoded in
    another way than CTAP2's canonical form, and inside a message always `bytes`. Structures of a TPM are `bytes`, and of a JSON text it is
    what `rewrite` makes of it. What Python has no value for is an `Item` of its own bytes: a tag, a float of fewer bits, a key that is
    an array, a map whose keys aren't in CTAP2's order or that has a key twice, a message that has a name where its table has a number,
    and what is inside 60 arrays and maps.
    """
    return decode_front(kind, data, exact=exact, canonical=canonical, four_levels=four_levels, all_bytes=all_bytes)[0]


def decode_front(
    kind: str, data: bytes, *, exact: bool = False, canonical: bool = False, four_levels: bool = False, all_bytes: bool = False
) -> tuple[Any, int]:
    """What `decode` returns, and how many bytes of the data were decoded."""
    _number(kind, KINDS if exact else DECODED)
    flags = _flags(canonical, four_levels, all_bytes)
    text, read = _written(_library.puffgrit_values if exact else _library.puffgrit_json, kind, data, flags)
    told = json.loads(text)
    return (_exact(kind, told, data[:read]) if exact else told), read


def _exact(kind: str, told: Any, data: bytes) -> Any:
    """What `decode` returns of data that puffgrit_values shows so."""
    if kind in RECORDS:
        return told
    if kind.startswith("tpm-"):
        return data
    if kind != "auth":
        return _value(told, _whole(rewrite("cbor", data)))
    parts = auth_parts(data)
    if parts is None or not isinstance(told, dict) or "rpIdHash" not in told:
        return data
    told["rpIdHash"] = parts.rp_id_hash
    if parts.public_key is not None:
        attested = told["attestedCredentialData"]
        key = _value(attested["credentialPublicKey"], parts.public_key)
        attested.update(aaguid=uuid.UUID(bytes=parts.aaguid), credentialId=parts.credential_id, credentialPublicKey=key)
    if parts.extensions is not None:
        told["extensions"] = _value(told["extensions"], parts.extensions)
    return told


def _whole(encoding: bytes) -> Item:
    """The data item with this encoding."""
    found = item_at(encoding)
    assert found is not None
    return found


def _value(told: Any, it: Item) -> Any:
    """The value of an item, of which the JSON of puffgrit_values tells the names of members, and what is escaped as a whole."""
    if it.kind in (UNSIGNED, NEGATIVE):
        return it.integer
    if it.kind == TEXT:
        return it.string.decode()
    if it.kind == BYTES:
        # an AAGUID's UUID has 36 characters, and 16 bytes in base64url 22
        return uuid.UUID(bytes=it.string) if len(it.string) == 16 and len(told) == 36 else it.string
    if it.kind == ARRAY and isinstance(told, list):
        return [_value(*pair) for pair in zip(told, it)]
    # an unknown member may be there twice, and then JSON has its name twice
    if it.kind == MAP and told.keys() not in ({"$map"}, {"$cbor"}) and len(told) == it.number:
        parts = iter(it)
        return {_key(name, next(parts)): _value(inner, next(parts)) for name, inner in told.items()}
    if it.kind == SIMPLE and not isinstance(told, dict):
        return told
    if it.kind == FLOAT and it.end - it.start == 9:
        number = struct.unpack(">d", it.data[it.content - 8 : it.content])[0]
        if struct.pack(">d", number) == it.data[it.content - 8 : it.content]:
            return number
    return _whole(it.data[it.start : it.end])


def _key(name: str, key: Item) -> Any:
    """The key of a member with this name in the JSON of puffgrit_values."""
    if key.kind in (UNSIGNED, NEGATIVE) and not name.startswith("#"):
        return name
    return _value("", key) if key.kind in (UNSIGNED, NEGATIVE, BYTES, TEXT) else _whole(key.data[key.start : key.end])


def encode(kind: str, value: Any) -> bytes:
    """The encoding of an input from its values, as `rewrite` writes it, without unknown members.

    A value is `None`, a `bool`, `int`, `float` (of 64 bits), `str`, `bytes`, `uuid.UUID`, list, tuple or dictionary of values, or an
    `Item`, which is taken as it is encoded. A key is a member's name or another text as `str`, an `int`, `bytes` or an `Item`, and
    the keys of a map may be in any order. Where a message has keys that are byte strings, a `str` is base64url. Where bytes are wanted,
    a `str` is refused by the kinds of the standard alone (`ctap-mc-request` and its like), and decoded as `rewrite` does by the others.

    Raises `Fault` if the kind rejects the value, with the member and an explanation, as "user.id: a byte string is wanted"; with `NoItem`
    if it is no data item: an integer needs more than 64 bits, or a key is there twice; and with `BadJson` if a value is inside more
    than 127 lists and dictionaries. Raises `TypeError` for a value of another type, `UnicodeEncodeError` for a `str` with a lone
    surrogate, and `MemoryError`.
    """
    number, text = _number(kind), (_record(value) if kind in RECORDS else _json(value)).encode()
    room, why_room = len(text) + 256, 1024
    length, size = ctypes.c_size_t(), ctypes.c_size_t()
    while True:
        out, why = ctypes.create_string_buffer(room), ctypes.create_string_buffer(why_room)
        status = _library.puffgrit_encode(number, text, len(text), out, room, ctypes.byref(length), why, why_room, ctypes.byref(size))
        if status == 0:
            return out.raw[: length.value]
        if status == 2:
            raise MemoryError("puffgrit_encode")
        if status == 1:
            room = length.value
        elif size.value > why_room:
            why_room = size.value
        else:
            break
    fault = _fault(status)
    fault.explanation = why.raw[: size.value].decode() or None
    raise fault


def _record(value: Any) -> str:
    """The JSON text of a record, whose byte strings are base64url."""
    return json.dumps(value, ensure_ascii=False, default=lambda it: base64.urlsafe_b64encode(it).decode().rstrip("="))


def _json(value: Any) -> str:
    """The JSON of puffgrit_encode that is the value, whatever its member's type: texts and byte strings are escaped."""
    if value is None:
        return "null"
    if isinstance(value, bool):
        return "true" if value else "false"
    if isinstance(value, int):
        return format(value, "d")
    if isinstance(value, str):
        return f'{{"$text":{json.dumps(value, ensure_ascii=False)}}}'
    if isinstance(value, uuid.UUID):
        value = value.bytes
    if isinstance(value, bytes):
        return f'{{"$bytes":"{base64.urlsafe_b64encode(value).decode()}"}}'
    if isinstance(value, float):
        return f'{{"$cbor":"{struct.pack(">Bd", 0xFB, value).hex()}"}}'
    if isinstance(value, Item):
        return f'{{"$cbor":"{value.data[value.start : value.end].hex()}"}}'
    if isinstance(value, (list, tuple)):
        return f"[{','.join(_json(it) for it in value)}]"
    if isinstance(value, dict):
        return f"{{{','.join(f'{_name(key)}:{_json(it)}' for key, it in value.items())}}}"
    raise TypeError(f"a value of puffgrit isn't of the type {type(value).__name__}")


def _name(key: Any) -> str:
    """The name that a key has in the JSON of puffgrit_encode, quoted."""
    if isinstance(key, str) and not key.startswith(("$", "#")):
        return json.dumps(key, ensure_ascii=False)
    if isinstance(key, int) and not isinstance(key, bool):
        return f'"#{key:d}"'
    if isinstance(key, (str, bytes, Item)):
        return f'"${encode("cbor", key).hex()}"'
    raise TypeError(f"a key of puffgrit isn't of the type {type(key).__name__}")


def explain(
    kind: str, data: bytes, *, canonical: bool = False, four_levels: bool = False, all_bytes: bool = False
) -> Fault | None:
    """Why the data is rejected as the kind (one of `EXPLAINED`), or isn't as is asked (see `rewrite`), or `None` if neither. Raises
    `MemoryError`."""
    return _explained(kind, data, _flags(canonical, four_levels, all_bytes))


def _explained(kind: str, data: bytes, flags: int) -> Fault | None:
    number, room = _number(kind) + flags, 1024
    read, length, refusal = ctypes.c_size_t(), ctypes.c_size_t(), _c.Refusal()
    given = (number, _checked(data), len(data), ctypes.byref(read), ctypes.byref(refusal))
    while True:
        out = ctypes.create_string_buffer(room)
        status = _library.puffgrit_explain(*given, out, room, ctypes.byref(length))
        if status == 0:
            return None
        if status == 2:
            raise MemoryError("puffgrit_explain")
        if length.value <= room:
            break
        room = length.value
    fault = _fault(status)
    fault.explanation, fault.offset, fault.length = out.raw[: length.value].decode(), refusal.offset, refusal.length
    return fault
