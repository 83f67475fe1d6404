"""json_peer.py PEER PROGRAM FOLDER counts the instructions that the Rust crate passkey-types takes to decode JSON texts and encode
them again, beside the program's, and says how many times as many the program takes; and the memory that both take for a request of
16 MiB.

PEER is the program of bench/rust. FOLDER has the JSON texts."""
import json
import subprocess
import sys
import tempfile
from pathlib import Path

from growth import memory
from measure import instructions_a_round
from messages import TEXTS

DESCRIPTORS = 151_000


def large_request(folder):
    """The options of a sign-in, with as many credentials as 16 MiB hold."""
    options = json.loads((folder / "request.json").read_text(encoding="utf-8"))
    few = options["publicKey"]["allowCredentials"]
    options["publicKey"]["allowCredentials"] = [few[it % len(few)] for it in range(DESCRIPTORS)]
    return json.dumps(options, separators=(",", ":"))


def both(programs, measure, kind, file):
    """What each program takes for the text, and how many times as much the program takes as the peer."""
    size = file.stat().st_size
    for it in programs:
        with open(file, "rb") as stdin:
            if int(subprocess.run([it, kind, "1"], stdin=stdin, capture_output=True, check=True).stdout) != size:
                sys.exit(f"{it} {kind} {file}: refused")
    theirs, ours = (measure(it, kind, file) for it in programs)
    return f"{size:,} | {theirs:,.0f} | {ours:,.0f} | {ours / theirs:.2f}"


def main():
    programs, folder = sys.argv[1:3], Path(sys.argv[3])
    print("| JSON text | bytes | Rust crate | ours | ratio |\n|---|---:|---:|---:|---:|")
    for kind, name in TEXTS:
        print(f"| {name} | {both(programs, instructions_a_round, kind, folder / f'{kind}.json')} |", flush=True)
    with tempfile.TemporaryDirectory() as work:
        file = Path(work) / "request"
        file.write_text(large_request(folder), encoding="utf-8")
        print(f"| options of a sign-in, MiB at most | {both(programs, memory, 'request', file)} |")


if __name__ == "__main__":
    main()
