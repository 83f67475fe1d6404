"""The inspector page: one file of HTML over the module of all calls, of bindings/wasm and of the tables of the sources."""

import base64
import gzip
import hashlib
import json
import re
from pathlib import Path

import docs
import kinds

ROOT = Path(__file__).resolve().parent.parent
SOURCES = ROOT / "bindings" / "wasm"
SCRIPTS = ["kinds", "puffgrit", "messages", "spelling", "json_text", "tree", "inspect", "dump", "outline", "page"]
INSPECT = "passkey_inspect/src"
# Inputs of passkey_inspect that the page offers: what they show, and the kind that is chosen, or none.
EXAMPLES = {
    "A refused request": ("text-as-user-id", "mc-request"),
    "authenticatorGetInfo": ("info-with-status", ""),
    "An attestation object": ("attestation-object", ""),
    "A refused credential": ("unknown-transport", ""),
}


def source(file):
    return (ROOT / "crates" / file).read_text(encoding="utf-8")


def kind_names():
    """The name of each kind by its path in the sources, as `CtapKind::Key`."""
    return {f"{table[0]}::{value}": name for table in kinds.TABLES for name, value in kinds.rows_of(table)}


def found(constant):
    """The kinds in a table of passkey_inspect, in its order."""
    names = kind_names()
    body = re.search(rf"{constant}: \[InspectKind; \d+\] = \[(.*?)\];", source(f"{INSPECT}/kind.rt"), re.S)[1]
    return [names.get(path, "cbor") for path in re.findall(r"InspectKind::\w+\((\w+::\w+)\)|CBOR", body)]


def statuses():
    """CTAP2's names of status codes, by their numbers."""
    return {int(number, 0): name for number, name in re.findall(r'\((0x[0-9A-F]+), "(\w+)"\)', source(f"{INSPECT}/status_name.rt"))}


def commands():
    """Each command by its byte: its name, and the kind of its parameters, if it has some."""
    bytes_of = dict(re.findall(r"/// (0x[0-9A-F]{2}): (?:.*\n\s+)(?:///.*\n\s+)*(\w+),", source("passkey_commands/src/framing/command.rt")))
    body = source(f"{INSPECT}/frame.rt").partition("fn request_kind")[2]
    kinds_of, names = {}, kind_names()
    for arm, path in re.findall(r"((?:Command::\w+[\s|]*)+)=>\s*\{?\s*Some\(InspectKind::\w+\((\w+::\w+)\)\)", body):
        kinds_of.update((it, names[path]) for it in re.findall(r"Command::(\w+)", arm))
    return {int(number, 0): {"name": name, "kind": kinds_of.get(name)} for number, name in bytes_of.items()}


def members(messages):
    """The names of messages' members by their numbers, by the kinds' names."""
    found = {}
    for word, file in messages:
        rows = re.findall(r'Row::\w+\((\w+), "(\w+)"\)', file.read_text(encoding="utf-8"))
        found[word.lower().replace("_", "-")] = {int(number, 0): name for number, name in sorted(rows, key=lambda it: int(it[0], 0))}
    return found


def lists(messages):
    """What the page takes from the sources, as a script; `messages` are those of tools/header."""
    made = {"found": found("FOUND_KINDS"), "foundJson": found("FOUND_JSON_KINDS"), "statuses": statuses(), "commands": commands()}
    made["members"] = members(messages)
    made["ofJson"] = [it for it in kinds.numbers() if it not in kinds.of_bytes()]
    lacking = [name for name, it in made.items() if not it] + [it for it, names in made["members"].items() if not names]
    if lacking:
        raise SystemExit(f"tools/page.py: the sources have no table of {', '.join(lacking)}")
    examples = [[title, kind, source(f"passkey_inspect/golden/{name}.in")] for title, (name, kind) in EXAMPLES.items()]
    return f"export const LISTS = {json.dumps(made)};\nexport const EXAMPLES = {json.dumps(examples)};\n"


def script(module, messages):
    """All scripts as one, which imports nothing."""
    texts = [f'const MODULE = "{base64.b64encode(gzip.compress(module, mtime=0)).decode()}";\n', lists(messages)]
    texts += [(SOURCES / f"{it}.mjs").read_text(encoding="utf-8") for it in SCRIPTS]
    text = re.sub(r"^(import |export \*).*\n", "", "".join(texts), flags=re.MULTILINE)
    return re.sub(r"^export ", "", text, flags=re.MULTILINE).replace("</", "<\\/")


def hash_of(text):
    return f"'sha256-{base64.b64encode(hashlib.sha256(text.encode()).digest()).decode()}'"


def write(module, messages):
    """The page: it runs this script and no other, and takes nothing from elsewhere."""
    parts = {"SCRIPT": script(module, messages), "STYLE": (SOURCES / "page.css").read_text(encoding="utf-8"), "VERSION": docs.version()}
    policy = ["default-src 'none'", f"script-src {hash_of(parts['SCRIPT'])} 'wasm-unsafe-eval'", f"style-src {hash_of(parts['STYLE'])}"]
    parts["POLICY"] = "; ".join([*policy, "base-uri 'none'", "form-action 'none'"])
    page = (SOURCES / "page.html").read_text(encoding="utf-8")
    return re.sub(r"@([A-Z]+)@", lambda it: parts[it[1]], page)
