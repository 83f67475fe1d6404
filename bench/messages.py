"""messages.py PROGRAM FOLDER INPUTS counts the instructions that decoding a message takes, and decoding and encoding it; what the
calls over whole data items take, of the same messages and of the array INPUTS/credentials; and what decoding and encoding JSON texts
takes.

FOLDER has the messages in hexadecimal, and the JSON texts. Counted are the instructions of valgrind's cachegrind outside the kernel."""
import subprocess
import sys
import tempfile
from pathlib import Path

from measure import instructions_a_round

KINDS = [("info", "authenticatorGetInfo response"), ("mc-response", "authenticatorMakeCredential response"), ("ga-request", "authenticatorGetAssertion request")]

TEXTS = [
    ("creation", "options of a registration"),
    ("request", "options of a sign-in"),
    ("created", "credential of a registration"),
    ("authenticated", "credential of a sign-in"),
    ("client-data", "client data"),
]


def message_row(program, kind, name, message, file):
    counted = subprocess.run([program, f"count-{kind}", "1"], input=message, capture_output=True, check=True).stdout.split()
    figures = [instructions_a_round(program, call, file) for call in (f"decode-{kind}", f"rewrite-{kind}")]
    return f"| {name} | {len(message):,} | {int(counted[1]):,} | {' | '.join(f'{it:,}' for it in figures)} |"


def item_row(program, name, size, file):
    skip, decode, rewrite = (instructions_a_round(program, call, file) for call in ("skip", "from_slice", "rewrite"))
    return f"| {name} | {size:,} | {skip:,} | {decode:,} | {rewrite - decode:,} |"


def main():
    program, folder, inputs = sys.argv[1], Path(sys.argv[2]), Path(sys.argv[3])
    print("| message | bytes | heads | decode | decode and encode |")
    print("|---|---:|---:|---:|---:|")
    items = []
    with tempfile.TemporaryDirectory() as work:
        for kind, name in KINDS:
            message = bytes.fromhex((folder / f"{kind}.hex").read_text(encoding="ascii"))
            file = Path(work) / kind
            file.write_bytes(message)
            print(message_row(program, kind, name, message, file), flush=True)
            items.append((name, len(message), file))
        array = inputs / "credentials"
        items.append(("array of 23,442 maps", array.stat().st_size, array))
        print("\n| item | bytes | `item_len` | `from_slice` | `to_vec` |\n|---|---:|---:|---:|---:|")
        for item in items:
            print(item_row(program, *item), flush=True)
    print("\n| JSON text | bytes | decode and encode |\n|---|---:|---:|")
    for kind, name in TEXTS:
        file = folder / f"{kind}.json"
        print(f"| {name} | {file.stat().st_size:,} | {instructions_a_round(program, kind, file):,} |", flush=True)


if __name__ == "__main__":
    main()
