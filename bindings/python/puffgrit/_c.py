"""libpuffgrit: where it is found, its structs and its calls."""

from __future__ import annotations

import ctypes
import os
from pathlib import Path

#: The version of the interface that this package knows, which is also in the name of the system's library.
VERSION = 3


class Item(ctypes.Structure):
    _fields_ = [
        ("number", ctypes.c_uint64),
        ("start", ctypes.c_size_t),
        ("content", ctypes.c_size_t),
        ("end", ctypes.c_size_t),
        ("kind", ctypes.c_uint32),
    ]


class AuthData(ctypes.Structure):
    _fields_ = [
        ("aaguid", ctypes.c_size_t),
        ("credential_id", ctypes.c_size_t),
        ("credential_id_len", ctypes.c_size_t),
        ("public_key", ctypes.c_size_t),
        ("extensions", ctypes.c_size_t),
        ("end", ctypes.c_size_t),
        ("counter", ctypes.c_uint32),
        ("flags", ctypes.c_uint32),
    ]


class Refusal(ctypes.Structure):
    _fields_ = [("offset", ctypes.c_size_t), ("length", ctypes.c_size_t)]


def _place() -> str:
    """What PUFFGRIT_LIBRARY names, else the library beside this file, else the system's."""
    beside = Path(__file__).with_name("libpuffgrit.so")
    return os.environ.get("PUFFGRIT_LIBRARY") or (str(beside) if beside.is_file() else f"libpuffgrit.so.{VERSION}")


def _open() -> ctypes.CDLL:
    """The library; an ImportError if there is none, or one of another version."""
    place = _place()
    try:
        library = ctypes.CDLL(place)
        version = library.puffgrit_version
    except (OSError, AttributeError) as error:
        raise ImportError(f"no libpuffgrit is there ({error}): install it, or name it in PUFFGRIT_LIBRARY") from error
    version.restype, version.argtypes = ctypes.c_uint32, []
    if version() != VERSION:
        raise ImportError(f"{place} has version {version()} of puffgrit's interface, and version {VERSION} is needed")
    return library


def load() -> ctypes.CDLL:
    """The library with the types of its calls. Raises ImportError if there is none, or one of another version."""
    library = _open()
    buffer, length = [ctypes.c_char_p, ctypes.c_size_t], ctypes.POINTER(ctypes.c_size_t)
    item, given, output = ctypes.POINTER(Item), [ctypes.c_uint32, *buffer, length], [*buffer, length]
    for name, result, arguments in [
        ("item_len", ctypes.c_size_t, buffer),
        ("is_canonical", ctypes.c_bool, buffer),
        ("not_canonical", ctypes.c_uint32, [*buffer, ctypes.c_size_t, length]),
        ("item_at", ctypes.c_bool, [*buffer, ctypes.c_size_t, item]),
        ("member", ctypes.c_bool, [*buffer, ctypes.c_size_t, ctypes.c_int64, item]),
        ("named", ctypes.c_bool, [*buffer, ctypes.c_size_t, *buffer, item]),
        ("auth_parts", ctypes.c_bool, [*buffer, ctypes.POINTER(AuthData)]),
        ("is_client_data", ctypes.c_bool, [*buffer * 5, ctypes.c_bool]),
        ("rewrite", ctypes.c_uint32, [*given, *output]),
        ("json", ctypes.c_uint32, [*given, *output]),
        ("values", ctypes.c_uint32, [*given, *output]),
        ("encode", ctypes.c_uint32, [ctypes.c_uint32, *buffer, *output, *output]),
        ("explain", ctypes.c_uint32, [*given, ctypes.POINTER(Refusal), *output]),
    ]:
        call = getattr(library, f"puffgrit_{name}")
        call.restype, call.argtypes = result, arguments
    return library
