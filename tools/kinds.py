"""The kinds of input, as the tables of the sources list them: what the tools that name kinds share."""

import re
from pathlib import Path

CRATES = Path(__file__).resolve().parent.parent / "crates"

# The tables, in the order of their numbers in C: each enumeration, its file, and whether it is one of JSON texts.
TABLES = [
    ("BytesKind", "passkey_rewrite/src/kind.rt", False),
    ("JsonKind", "passkey_rewrite/src/kind.rt", True),
    ("CtapKind", "passkey_catalogue/src/ctap_kind.rt", False),
    ("ClientKind", "passkey_catalogue/src/client_kind.rt", True),
]
NUMBERS = "passkey_catalogue/src/kind.rt"
FOUND = "passkey_inspect/src/kind.rt"


def rows_of(table):
    """Returns the rows of an enumeration's table: each name, and the value. A row may have the standard besides."""
    enumeration, file, _ = table
    return re.findall(rf'\("([a-z0-9-]+)", {enumeration}::(\w+)(?:, "[^"]+")?\)', (CRATES / file).read_text(encoding="utf-8"))


def names_of(table):
    """Returns the names of an enumeration's values, in the order of its table."""
    return [name for name, _ in rows_of(table)]


def docs():
    """Returns each kind, and the comment of its value."""
    found = {}
    for table in TABLES:
        enumeration, file, _ = table
        text = (CRATES / file).read_text(encoding="utf-8")
        body = text.partition(f"pub enum {enumeration} {{\n")[2].partition("\n}")[0]
        told = {name: " ".join(it.strip().removeprefix("/// ") for it in said.splitlines()) for said, name in re.findall(r"((?: *///.*\n)+) *(\w+),", body)}
        found.update((name, told[value]) for name, value in rows_of(table))
    return found


def names():
    """Returns all kinds, in the order of their tables."""
    return [name for it in TABLES for name in names_of(it)]


def numbers():
    """Returns each kind that has a number in C, and its number, in their order."""
    text = (CRATES / NUMBERS).read_text(encoding="utf-8")
    first = {name: int(number) for name, number in re.findall(r"placed::<(\w+)>\(number, (\d+)\)", text)}
    return {name: first[it[0]] + at for it in TABLES if it[0] in first for at, name in enumerate(names_of(it))}


def of_bytes():
    """Returns the kinds of bytes."""
    return [name for it in TABLES if not it[2] for name in names_of(it)]


def has_text(name):
    """Whether libpuffgrit says what is in inputs of this kind: of all but attestation statements and structures of a TPM."""
    return not name.startswith(("att-", "tpm-"))


def found():
    """Returns the kinds that passkey_inspect finds where none is named."""
    text = (CRATES / FOUND).read_text(encoding="utf-8").partition("FOUND_KINDS")[2].partition("pub fn")[0]
    values = {f"{it[0]}::{value}": name for it in TABLES for name, value in rows_of(it)}
    return {values[it] for it in re.findall(r"\w+Kind::\w+", text) if it in values} | {"cbor"}


def of_show():
    """Returns the kinds of bytes that passkey_show has, without `check`, and those of JSON."""
    return names_of(TABLES[0]), names_of(TABLES[1])
