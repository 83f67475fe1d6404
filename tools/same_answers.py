"""Gives the calls of puffgrit.h as one file of C99, and as WebAssembly, the requests of tools/test-c, and compares the answers with those of
libpuffgrit: the rows of crates/passkey_rows as each call decodes them, items of 256 and 257 levels, and mutated rows. The C is compiled by $CC
or cc, and by clang under ASan where it is installed; WebAssembly is run by node where that is installed.
"""

import importlib.machinery
import importlib.util
import itertools
import shutil
import subprocess
import sys
from pathlib import Path

import needs
import nests

ROOT = Path(__file__).resolve().parent.parent
ROOM = ROOT / "out" / "same-answers"
C, WASM = ROOT / "bindings" / "c", ROOT / "bindings" / "wasm"
MUTATED = 50_000
SANITIZED = ["-O0", "-fsanitize=address"]
STRICT = ["-std=c99", "-Wall", "-Wextra", "-pedantic", "-Werror"]


def test_c():
    """tools/test-c as a module."""
    loader = importlib.machinery.SourceFileLoader("test_c", str(ROOT / "tools" / "test-c"))
    module = importlib.util.module_from_spec(importlib.util.spec_from_loader("test_c", loader))
    sys.dont_write_bytecode = True
    loader.exec_module(module)
    return module


def deep():
    """Requests about items of 256 and 257 levels, alone and in a message that keeps them."""
    for level, end in [(b"\x81", b""), (b"\xa1\x00", b""), (b"\xc1", b""), (b"\x9f", b"\xff")]:
        for levels in [256, 257]:
            item, inner = (level * n + b"\x00" + end * n for n in (levels, levels - 1))
            info = b"\xa3\x01\x81\x68FIDO_2_0\x03\x50" + bytes(16) + b"\x18\x60" + inner
            for call in ["rewrite", "json", "explain", "values"]:
                yield from (f"{call} {kind} 60000 {given.hex()}" for kind, given in [(1, item), (7, info)])


def requests():
    """The requests to the calls that decode, and those to the calls that look; mutated ones are the same each time."""
    tool = test_c()
    rows, inputs = tool.rewritings()
    asked = [it for it, _ in [*rows, *tool.strict_rows(), *tool.examinations()]]
    asked += [f"{call} {kind} 60000 {given.hex() or '-'}" for call in ["json", "explain", "values"] for kind, given, _ in tool.examined_rows()]
    return [*asked, *deep(), *itertools.islice(tool.mutated_rewritings(inputs), MUTATED)], tool.mutated_looks()


def run(words, **more):
    return subprocess.run([str(it) for it in words], capture_output=True, text=True, check=False, **more)


def compiled(name, words):
    """Compiles a file, or ends the run."""
    made = ROOM / name
    done = run([*words, "-o", made])
    if done.returncode != 0:
        sys.exit(f"{needs.TOOL}: {name} doesn't compile: {done.stderr[:2000]}")
    return made


class Compared:
    """The answers of libpuffgrit, and what others answer to the same requests."""

    def __init__(self, library):
        self.failed = 0
        self.native = compiled("native", [*needs.CC, f"-I{C}", C / "looks.c", library / "lib" / "libpuffgrit.a"])
        self.files = [self.ask(name, asked) for name, asked in zip(["decoded", "looked"], requests())]

    def want(self, right, what):
        print(f"{what}: {'the same answers' if right else 'OTHERS'}", flush=True)
        self.failed += not right

    def ask(self, name, asked):
        """Writes the requests, and libpuffgrit's answers, to files."""
        given, answers = ROOM / f"{name}-requests", ROOM / f"{name}-answers"
        given.write_text("".join(f"{it}\n" for it in asked), encoding="utf-8")
        done = run([self.native], input=given.read_text(encoding="utf-8"))
        answers.write_text(done.stdout, encoding="utf-8")
        print(f"{name}: {len(asked)} requests", flush=True)
        self.failed += done.returncode != 0 or done.stdout.count("\n") != len(asked)
        return given, answers

    def c(self, name, compiler, source):
        """The C by this compiler; and the stack that it takes without a sanitizer."""
        code = compiled(f"{name}.o", [*compiler, *STRICT, f"-I{C}", "-c", source])
        program = compiled(name, [*compiler, f"-I{C}", C / "looks.c", code])
        for given, answers in self.files:
            done = run([program], input=given.read_text(encoding="utf-8"))
            self.want(done.stdout == answers.read_text(encoding="utf-8") and not done.stderr, f"C, {name}, {given.name}")
            print(done.stderr[:2000], end="", file=sys.stderr)
        if "-fsanitize" not in " ".join(compiler):
            nests.stack(compiled(f"stack_{name}", [*compiler, f"-I{C}", C / "stack.c", code, "-lpthread"]))

    def wasm(self, module):
        for script, (given, answers) in zip(["replay_all.mjs", "replay.mjs"], self.files):
            done = run(["node", WASM / script, module, given, answers])
            self.want(done.returncode == 0, f"WebAssembly in node, {given.name}, {done.stdout.strip()}")
            print(done.stderr[:2000], end="", file=sys.stderr)


def compare(library, source, module):
    """The status: 1 if an answer isn't libpuffgrit's."""
    shutil.rmtree(ROOM, ignore_errors=True)
    ROOM.mkdir(parents=True)
    compared = Compared(library)
    if shutil.which("node"):
        compared.wasm(module)
    compared.c("plain", [*needs.CC, "-O1"], source)
    if shutil.which("clang"):
        compared.c("sanitized", ["clang", *SANITIZED], source)
    return 1 if compared.failed else 0
