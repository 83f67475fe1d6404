"""The calls of puffgrit.h as one file of C99, and as a WebAssembly module with a memory of 32 bits, out of the LLVM bitcode that rattle makes of
the proved crates: those that look (bindings/c/portable/puffgrit_look.c and bindings/wasm/puffgrit_32.wasm), and all of them.

The bitcode is the one of which the static library for x86-64 is compiled. It becomes a WebAssembly module with addresses of 64 bits, for any
place in memory, which wasm_to_c.py writes as C; and clang compiles the C for WebAssembly with addresses of 32 bits. `clang` and `ld.lld` are the
toolchain's.
"""

import re
import subprocess
import tempfile
from dataclasses import dataclass
from pathlib import Path

import wasm_module
import wasm_to_c
from wasm_module import expect

ROOT = Path(__file__).resolve().parent.parent
TARGET = "wasm64-unknown-unknown"
FLAGS = ["--target=" + TARGET, "-mcpu=lime1", "--no-default-config", "-Werror", "-Os", "-fPIC", "-fwrapv", "-ffunction-sections", "-fdata-sections"]
# 128-bit division is written out, as rattle has it for wasm64.
FLAGS += ["-mllvm", "-expand-div-rem-bits=64", "-mllvm", "-expand-fp-convert-bits=64"]
LINKED = ["-flavor", "wasm", "-mwasm64", "--no-entry", "-shared", "--experimental-pic", "--gc-sections", "--fatal-warnings", "--threads=1"]
LINKED.append("--allow-undefined")
WIDE = Path(__file__).with_name("wide.c")
HEAP = Path(__file__).with_name("wasm_heap.h")

FRONT_OF_LOOK = """\
/* puffgrit_look.c: the calls of puffgrit.h that look at data items and authenticator data, and that write data items, for any compiler of
   C99. It calls no function, takes no memory but the stack, and has nothing that changes. Made by tools/release from
   crates/passkey_view_c; Puffgrit's bindings/c/README.md says what is proved, and what is trusted. MIT or Apache-2.0. */
#include "puffgrit.h"

"""
FRONT = """\
/* puffgrit.c: all calls of puffgrit.h, for any compiler of C99 for a little-endian machine. It calls malloc, realloc and free, or what
   PUFFGRIT_MALLOC, PUFFGRIT_REALLOC and PUFFGRIT_FREE are defined as, and has nothing that changes. Made by tools/release from
   crates/passkey_c and crates/passkey_view_c; Puffgrit's bindings/c/README.md says what is proved, and what is trusted. MIT or
   Apache-2.0. */
#include "puffgrit.h"

"""


@dataclass(frozen=True)
class Part:
    """Crates whose calls are made into one file."""

    crates: list
    #: the file's first lines
    front: str
    #: the stack of the module with a memory of 32 bits, in bytes
    stack: int
    #: the C before the file where it is compiled for that module: its heap
    before: str = ""


LOOK = Part(["passkey_view_c"], FRONT_OF_LOOK, 131072)
ALL = Part(["passkey_c", "passkey_view_c"], FRONT, 1 << 20, HEAP.read_text(encoding="utf-8"))

# What the bitcode says of functions that is about x86-64.
OF_X86 = r' ?"(?:probe-stack|stack-probe-size|target-cpu)"="[^"]*"'


def run(words, folder, **more):
    done = subprocess.run([str(it) for it in words], cwd=folder, capture_output=True, text=True, check=False, **more)
    expect(done.returncode == 0, f"{Path(words[0]).name} failed: {done.stderr[-600:]}")
    return done.stdout


def layout(clang, folder):
    """How the target lays out memory, as LLVM writes it."""
    made = run([clang, *FLAGS, "-S", "-emit-llvm", "-x", "c", "-", "-o", "-"], folder, input="")
    return re.search(r"^target datalayout = .*$", made, re.MULTILINE)[0]


def for_wasm(text, data_layout):
    """LLVM's text for x86-64 as it is for WebAssembly: nothing in it is of a processor. Refuses variables, since the C has no memory of its own."""
    text = re.sub(r"^target datalayout = .*$", lambda _: data_layout, text, flags=re.MULTILINE)
    text = re.sub(r"^target triple = .*$", f'target triple = "{TARGET}"', text, flags=re.MULTILINE)
    text = re.sub(OF_X86, "", text)
    left = re.search(r'@llvm\.(?:x86|aarch64)[\w.]+|^@(?:"[^"]*"|\S+) = (?:\w+ )*global .*$', text, re.MULTILINE)
    expect(not left, f"the bitcode has {left and left[0][:100]}")
    return text


def compiled(bitcode, name, clang, folder):
    """Compiles the bitcode as an object of this name for WebAssembly; returns the names of the calls that C sees."""
    (folder / "module.bc").write_bytes(bitcode)
    words = [clang, "--target=x86_64-unknown-linux-gnu", "--no-default-config", "-x", "ir", "module.bc", "-S", "-emit-llvm", "-Xclang", "-disable-llvm-passes"]
    text = for_wasm(run([*words, "-o", "-"], folder), layout(clang, folder))
    (folder / "module.ll").write_text(text, encoding="utf-8")
    run([clang, *FLAGS, "-c", "-x", "ir", "module.ll", "-o", name], folder)
    return re.findall(r"^define (?!internal|private).*?@(\w+)\(", text, re.MULTILINE)


def module_of(bitcodes, toolchain):
    """The bytes of the WebAssembly module of these bitcodes, whose exports are the calls that C sees."""
    clang, linker = toolchain / "bin" / "clang", toolchain / "bin" / "ld.lld"
    with tempfile.TemporaryDirectory() as name:
        folder = Path(name)
        objects = [f"module{number}.o" for number in range(len(bitcodes))]
        calls = [call for bitcode, it in zip(bitcodes, objects) for call in compiled(bitcode, it, clang, folder)]
        run([clang, *FLAGS, "-O1", "-ffreestanding", "-fvisibility=hidden", "-c", WIDE, "-o", "wide.o"], folder)
        exports = [f"--export={it}" for it in calls]
        run([linker, *LINKED, *exports, "-o", "module.wasm", *objects, "--start-lib", "wide.o", "--end-lib"], folder)
        return (folder / "module.wasm").read_bytes()


# What C sees of a value: its bytes in the module, and how it is read there.
SIZES = {"u64": 8, "i64": 8, "usize": 8, "u32": 4}


def places(fields):
    """Each field of a struct, its type, and where it is in the module."""
    at = 0
    for _, field, kind in fields:
        at += -at % SIZES[kind]
        yield field, kind, at
        at += SIZES[kind]


def is_output(kind):
    """Whether a parameter is written, and isn't a buffer."""
    return kind.startswith("&mut ") and kind != "&mut [u8]"


def outputs(layouts, parameters):
    """What is written: the parameter, and each of its parts as C names it, with its type and with where it is in the frame."""
    start = 0
    for name, kind in [it for it in parameters if is_output(it[1])]:
        is_struct = kind[5:] in layouts
        for field, inner, at in places(layouts[kind[5:]] if is_struct else [(0, name, kind[5:])]):
            yield name, f"{name}->{field}" if is_struct else f"*{name}", inner, start + at
        start += -(-(at + SIZES[inner]) // 8) * 8


def place(at):
    return f"at + {at}u" if at else "at"


def argument(name, kind, written):
    """A parameter as the module's function has it; of what is written the place."""
    if kind in ("&[u8]", "&mut [u8]"):
        return f"ADDRESS({name}), {name}_len"
    if kind == "bool":
        return f"{name} ? 1 : 0"
    if is_output(kind):
        return place(min(at for it, _, _, at in written if it == name))
    expect(kind in ("usize", "i64", "u64", "u32"), f"a parameter of the type {kind}")
    return f"(uint64_t){name}" if kind == "i64" else name


def wrapper(header, layouts, signature):
    """A call of puffgrit.h: it calls the module's function, and copies what this wrote. If the call returns whether there is something that it
    writes into a struct, it is copied then; else all is copied both ways, since what isn't written stays as it was."""
    name, parameters, result = signature
    written = list(outputs(layouts, parameters))
    call = f"code_{name}({', '.join(argument(*it, written) for it in parameters)})"
    lines = [f"{header.prototype(*signature)} {{"]
    if not written:
        lines.append(f"    return ({header.TYPES[result]}){f'({call} & 1)' if result == 'bool' else call};")
        return "\n".join([*lines, "}"])
    read = [f"{it} = {'(size_t)' * (kind == 'usize')}ld{8 * SIZES[kind]}({place(at)});" for _, it, kind, at in written]
    size = -(-(written[-1][3] + SIZES[written[-1][2]]) // 16) * 16
    lines += [f"    FRAME(frame, {size});", "    const uint64_t at = FRAME_AT(frame);"]
    if result == "bool" and all(kind[5:] in layouts for _, kind in parameters if is_output(kind)):
        lines += [f"    if (({call} & 1) == 0) return 0;", *(f"    {it}" for it in read), "    return 1;", "}"]
        return "\n".join(lines)
    lines += [f"    {header.TYPES[result]} result;", *(f"    st{8 * SIZES[kind]}({place(at)}, {it});" for _, it, kind, at in written)]
    result = f"({call} & 1)" if result == "bool" else call
    return "\n".join([*lines, f"    result = {result};", *(f"    {it}" for it in read), "    return result;", "}"])


def write(part, bitcodes, toolchain, header):
    """The text of the C file, and the bytes of the module of 32 bits, of the bitcodes of the part's crates; `header` is tools/header as a
    module."""
    module = wasm_module.read(module_of(bitcodes, toolchain))
    files = [it for crate in part.crates for it in sorted((ROOT / "crates" / crate / "src").glob("*.rt"), reverse=True)]
    texts = [it.read_text(encoding="utf-8") for it in files]
    layouts = {name: fields for text in texts for _, name, fields in header.layouts(text)}
    calls = [signature for text in texts for _, *signature in header.signatures(text)]
    made = sorted(name for name in module.exports.values() if name not in wasm_to_c.OWN)
    expect(made == sorted(it[0] for it in calls), f"the module has the calls {made}")
    code = wasm_to_c.write(module) + "\n" + "\n\n".join(wrapper(header, layouts, it) for it in calls) + "\n"
    text = part.front + wasm_to_c.prelude(code) + "\n\n" + code
    return text, small_module(part, text, module, toolchain, header.HEADER)


# ---- WebAssembly with a memory of 32 bits

SMALL = ["--target=wasm32-unknown-unknown", "-mcpu=lime1", "--no-default-config", "-std=c99", "-Werror", "-Oz", "-ffreestanding", "-nostdinc", "-I."]
SMALL_LINKED = ["-flavor", "wasm", "--no-entry", "--stack-first", "--export=__heap_base", "--gc-sections", "--strip-all", "--fatal-warnings", "--threads=1"]
# What the C takes of the two headers that a compiler without an operating system has too.
STDDEF = "#pragma once\ntypedef __SIZE_TYPE__ size_t;\n"
STDINT = "#pragma once\n" + "".join(f"typedef __{it.upper()}_TYPE__ {it}_t;\n" for it in ["int64", "uint8", "uint16", "uint32", "uint64", "uintptr"])
STDINT += "".join(f"#define {it}_MAX __{it}_MAX__\n" for it in ["PTRDIFF", "UINTPTR"])


def exported(module):
    """The calls with the parameters and results that the module of 64 bits has, so that JavaScript calls both alike."""
    for number, name in sorted(module.exports.items()):
        if name not in wasm_to_c.OWN:
            signature = module.functions[number]
            parameters = ", ".join(f"{wasm_to_c.TYPES[it]} a{k}" for k, it in enumerate(signature.parameters)) or "void"
            arguments = ", ".join(f"a{k}" for k in range(len(signature.parameters)))
            yield f'__attribute__((export_name("{name}"))) {wasm_to_c.TYPES[signature.results[0]]} export_{name}({parameters}) {{'
            yield f"    return code_{name}({arguments});\n}}"


def small_module(part, text, module, toolchain, header):
    with tempfile.TemporaryDirectory() as name:
        folder = Path(name)
        files = {"stddef.h": STDDEF, "stdint.h": STDINT, "puffgrit.h": header.read_text(encoding="utf-8")}
        files["module.c"] = part.before + text + "\n" + "\n".join(exported(module)) + "\n"
        for file, content in files.items():
            (folder / file).write_text(content, encoding="utf-8")
        run([toolchain / "bin" / "clang", *SMALL, "-c", "module.c", "-o", "module.o"], folder)
        run([toolchain / "bin" / "ld.lld", *SMALL_LINKED, f"-zstack-size={part.stack}", "-o", "module.wasm", "module.o"], folder)
        return (folder / "module.wasm").read_bytes()
