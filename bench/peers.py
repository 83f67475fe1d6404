"""peers.py PEERS PROGRAM FOLDER INPUTS counts the instructions that libcbor and libfido2 take for what messages.py counts, and says how
many times as many they are as the program's."""
import sys
import tempfile
from pathlib import Path

from measure import instructions_a_round
from messages import KINDS

# what libfido2 decodes, and the message that it is in
OF_LIBFIDO2 = {"info": "info", "mc-response": "credential"}


def beside(theirs, ours):
    return f"{theirs:,} | {theirs / ours:.1f}"


def row(peers, program, name, kind, file):
    decode, again = (instructions_a_round(peers, call, file) for call in ("item", "item-again"))
    ours, ours_again = (instructions_a_round(program, call, file) for call in ("from_slice", "rewrite"))
    message = "- | -"
    if kind in OF_LIBFIDO2:
        message = beside(instructions_a_round(peers, OF_LIBFIDO2[kind], file), instructions_a_round(program, f"decode-{kind}", file))
    return f"| {name} | {beside(decode, ours)} | {beside(again - decode, ours_again - ours)} | {message} |"


def main():
    peers, program, folder, inputs = sys.argv[1], sys.argv[2], Path(sys.argv[3]), Path(sys.argv[4])
    print("| item | libcbor: decode | of `from_slice` | encode | of `to_vec` | libfido2: decode | of ours |\n|---|---:|---:|---:|---:|---:|---:|")
    with tempfile.TemporaryDirectory() as work:
        for kind, name in KINDS:
            file = Path(work) / kind
            file.write_bytes(bytes.fromhex((folder / f"{kind}.hex").read_text(encoding="ascii")))
            print(row(peers, program, name, kind, file), flush=True)
        print(row(peers, program, "array of 23,442 maps", "", inputs / "credentials"), flush=True)


if __name__ == "__main__":
    main()
