"""Inputs that nest as deep as the library decodes, of one form of levels and of forms by turns, and how much of the stack calls take over them,
for tools/test-c and tools/test-release."""

import itertools
import subprocess

import kinds

# A level as the bytes before what is in it, and those after it: an array and a map, both of indefinite length, a tag, and a map whose key nests.
FORMS = [("81", ""), ("a100", ""), ("9f", "ff"), ("bf00", "ff"), ("c1", ""), ("a1", "00")]
# What is in the last level: numbers, strings in chunks, a byte that begins no item, and one level more than is decoded.
LEAVES = ["00", "fb3ff199999999999a", "7f6161ff", "5f4101ff", "1c", "8100"]
JSON_FORMS = [("[", "]"), ('{"a":', "}")]

INFO = "a3" + "0181" + "684649444f5f325f30" + "0350" + "00" * 16


def turns(forms, most):
    """Up to so many of the forms in each order."""
    return [it for count in range(1, most + 1) for it in itertools.product(forms, repeat=count)]


def nested(forms, levels, leaf):
    """So many levels in one another, of these forms by turns, and the leaf."""
    found = [forms[k % len(forms)] for k in range(levels)]
    return "".join(before for before, _ in found) + leaf + "".join(after for _, after in reversed(found))


def items():
    """Data items of 256 levels, in hexadecimal."""
    for forms in turns(FORMS, 3):
        for leaf in LEAVES if len(forms) < 3 else LEAVES[:1]:
            yield nested(forms, 256, leaf)


def byte_string(content):
    return f"59{len(content) // 2:04x}{content}"


def around(item):
    """Messages, authenticator data and keys that have this item of 255 levels: kept, passed over, and inside of one another."""
    hash_and_flags, key = "00" * 32 + "{}" + "00" * 4, "a2" + "0102" + "1860" + item
    with_key = hash_and_flags.format("40") + "00" * 16 + "0000" + key
    yield "info", INFO + "13" + item  # certifications
    yield "info", INFO + "1860" + item  # a member that isn't known
    yield "mc-response", "a3" + "01646e6f6e65" + "02" + byte_string(hash_and_flags.format("00")) + "03" + item  # a statement
    yield "mc-response", "a3" + "01646e6f6e65" + "02" + byte_string(with_key) + "03a0"
    yield "auth", hash_and_flags.format("80") + "a100" + item
    yield "auth", with_key
    yield "cose-key", key


def texts():
    """JSON texts of at most 127 levels by their kinds."""
    of_bytes = kinds.of_bytes()
    for kind in [it for it in kinds.numbers() if it not in of_bytes]:
        for forms in turns(JSON_FORMS, 2):
            inside = nested(forms, 124, "0")
            yield kind, nested(forms, 127, "0")
            yield kind, f'{{"publicKey":{{"challenge":"AQ","extensions":{{"a":{inside}}}}}}}'
            yield kind, f'{{"type":"webauthn.get","challenge":"AQ","origin":"a","a":{inside}}}'


def inputs():
    """All these as inputs of their kinds, in hexadecimal; and those of one form as inputs of all kinds."""
    yield from (("cbor", it) for it in items())
    for forms in turns(FORMS, 2):
        for leaf in LEAVES[::2]:
            yield from around(nested(forms, 255, leaf))
    yield from ((kind, nested([form], 256, "00")) for kind in kinds.numbers() for form in FORMS)
    yield from ((kind, text.encode().hex()) for kind, text in texts())


def stack(program, looks_alone=False):
    """What a program of bindings/c/stack.c says: how many bytes of the stack each call takes at most, and at which request; None if it fails."""
    numbers = kinds.numbers()
    asked = [f"{call} {numbers[kind]} {given}" for call in ["rewrite", "show"] for kind, given in inputs()] * (not looks_alone)
    asked += [f"{call} {given}" for call in ["look", "check"] for given in items()]
    done = subprocess.run([program], input="".join(f"{it}\n" for it in asked), capture_output=True, text=True, timeout=1200, check=False)
    taken = [int(it) for it in done.stdout.split()]
    if done.returncode != 0 or len(taken) != len(asked):
        return None
    most = {ask.partition(" ")[0]: (size, ask) for size, ask in sorted(zip(taken, asked))}
    for call, (size, ask) in most.items():
        print(f"{program.name}: {call} takes {size / 1024:.1f} KiB of the stack ({ask[:60]})", flush=True)
    return most
