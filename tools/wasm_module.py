"""A WebAssembly module as its linker wrote it for any place in memory (WebAssembly Core 2.0, section 5; LLVM's dynamic linking): what
wasm_to_c.py writes as C. What no such module of ours has is refused: tables, results of several values, memory that grows, and
most arithmetic on floats."""

from dataclasses import dataclass, field

I32, I64, F32, F64 = 0x7F, 0x7E, 0x7D, 0x7C
NOTHING = 0x40

# Each instruction by its byte: its name, and what follows it: a type, numbers ("u": unsigned; "s": signed; "4", "8": the bits of a float), or
# a list of numbers.
WORDS = {0x00: "unreachable", 0x01: "nop", 0x05: "else", 0x0B: "end", 0x0F: "return", 0x1A: "drop", 0x1B: "select"}
OPCODES = {byte: (name, "") for byte, name in WORDS.items()}
OPCODES |= {0x02: ("block", "t"), 0x03: ("loop", "t"), 0x04: ("if", "t"), 0x0C: ("br", "u"), 0x0D: ("br_if", "u"), 0x0E: ("br_table", "l")}
OPCODES |= {0x10: ("call", "u"), 0x20: ("local.get", "u"), 0x21: ("local.set", "u"), 0x22: ("local.tee", "u")}
OPCODES |= {0x23: ("global.get", "u"), 0x24: ("global.set", "u"), 0x41: ("i32.const", "s"), 0x42: ("i64.const", "s")}
OPCODES |= {0x43: ("f32.const", "4"), 0x44: ("f64.const", "8")}

LOADS = ["i32.load", "i64.load", "f32.load", "f64.load", "i32.load8_s", "i32.load8_u", "i32.load16_s", "i32.load16_u", "i64.load8_s"]
LOADS += ["i64.load8_u", "i64.load16_s", "i64.load16_u", "i64.load32_s", "i64.load32_u"]
STORES = ["i32.store", "i64.store", "f32.store", "f64.store", "i32.store8", "i32.store16", "i64.store8", "i64.store16", "i64.store32"]
OPCODES |= {0x28 + k: (name, "uu") for k, name in enumerate(LOADS + STORES)}

TESTS = ["eqz", "eq", "ne", "lt_s", "lt_u", "gt_s", "gt_u", "le_s", "le_u", "ge_s", "ge_u"]
COUNTS = ["clz", "ctz", "popcnt"]
BINARY = ["add", "sub", "mul", "div_s", "div_u", "rem_s", "rem_u", "and", "or", "xor", "shl", "shr_s", "shr_u", "rotl", "rotr"]
for bits, tests, numbers in [(32, 0x45, 0x67), (64, 0x50, 0x79)]:
    OPCODES |= {tests + k: (f"i{bits}.{name}", "") for k, name in enumerate(TESTS)}
    OPCODES |= {numbers + k: (f"i{bits}.{name}", "") for k, name in enumerate(COUNTS + BINARY)}
OPCODES |= {0xA7: ("i32.wrap_i64", ""), 0xAC: ("i64.extend_i32_s", ""), 0xAD: ("i64.extend_i32_u", "")}
FLOAT_TESTS = ["eq", "ne", "lt", "gt", "le", "ge"]
SIGNS = ["abs", "neg", "copysign"]
for bits, tests, signs in [(32, 0x5B, (0x8B, 0x8C, 0x98)), (64, 0x61, (0x99, 0x9A, 0xA6))]:
    OPCODES |= {tests + k: (f"f{bits}.{name}", "") for k, name in enumerate(FLOAT_TESTS)}
    OPCODES |= {byte: (f"f{bits}.{name}", "") for byte, name in zip(signs, SIGNS)}
FLOAT_BINARY = ["f64.add", "f64.sub", "f64.mul", "f64.div"]
OPCODES |= {0xA0 + k: (name, "") for k, name in enumerate(FLOAT_BINARY)}
CONVERSIONS = ["f64.convert_i32_s", "f64.convert_i32_u", "f64.convert_i64_s", "f64.convert_i64_u", "f64.promote_f32"]
OPCODES |= {0xB7 + k: (name, "") for k, name in enumerate(CONVERSIONS)}
OPCODES |= {0xB6: ("f32.demote_f64", ""), 0xBC: ("i32.reinterpret_f32", ""), 0xBD: ("i64.reinterpret_f64", "")}
OPCODES |= {0xBE: ("f32.reinterpret_i32", ""), 0xBF: ("f64.reinterpret_i64", "")}
EXTENSIONS = ["i32.extend8_s", "i32.extend16_s", "i64.extend8_s", "i64.extend16_s", "i64.extend32_s"]
OPCODES |= {0xC0 + k: (name, "") for k, name in enumerate(EXTENSIONS)}

# Instructions of two bytes.
OPCODES |= {(0xFC, 10): ("memory.copy", "uu"), (0xFC, 11): ("memory.fill", "u")}


class Refused(Exception):
    """What this reader, or wasm_to_c.py, has no place for."""


def expect(right, what):
    if not right:
        raise Refused(what)


class Reader:
    """Bytes, read from front to back."""

    def __init__(self, data, at=0, end=None):
        self.data, self.at, self.end = data, at, len(data) if end is None else end

    def more(self):
        return self.at < self.end

    def byte(self):
        self.at += 1
        expect(self.at <= self.end, "bytes that end too soon")
        return self.data[self.at - 1]

    def take(self, length):
        self.at += length
        expect(self.at <= self.end, "bytes that end too soon")
        return self.data[self.at - length : self.at]

    def unsigned(self):
        """A number in LEB128."""
        number = shift = 0
        while True:
            byte = self.byte()
            number |= (byte & 127) << shift
            shift += 7
            if byte < 128:
                return number

    def signed(self):
        """A signed number in LEB128."""
        number = shift = 0
        while True:
            byte = self.byte()
            number |= (byte & 127) << shift
            shift += 7
            if byte < 128:
                return number - (1 << shift) if byte & 64 else number

    def name(self):
        return self.take(self.unsigned()).decode()

    def part(self):
        """A reader of the next bytes, whose number comes first; they are passed."""
        length = self.unsigned()
        self.take(length)
        return Reader(self.data, self.at - length, self.at)

    def times(self, read):
        return [read() for _ in range(self.unsigned())]


@dataclass
class Signature:
    parameters: list
    results: list


@dataclass
class Body:
    """A function's locals after its parameters, and its instructions: the name and what follows it."""

    locals: list
    code: list


@dataclass
class Module:
    signatures: list = field(default_factory=list)
    #: the names of the functions that are imported, which come first
    imports: list = field(default_factory=list)
    #: the signature of each function
    functions: list = field(default_factory=list)
    #: the body of each function; None of those that are imported
    bodies: list = field(default_factory=list)
    #: the name of each global; all are imported
    globals: list = field(default_factory=list)
    #: the names of exported functions by their numbers
    exports: dict = field(default_factory=dict)
    #: the names of all functions
    names: dict = field(default_factory=dict)
    #: bytes, and where they are from __memory_base on
    data: list = field(default_factory=list)
    #: how many bytes of data there are, those that are 0 and stand in no part of it too, and the exponent of their alignment
    size: int = 0
    alignment: int = 0
    #: where the data hold an address in the data, and the offset of what is there
    addresses: dict = field(default_factory=dict)


def value_type(reader):
    kind = reader.byte()
    expect(kind in (I32, I64, F32, F64), f"a value of the type {kind:#x}")
    return kind


def read_signature(reader):
    expect(reader.byte() == 0x60, "a type that is no function's")
    found = Signature(reader.times(lambda: value_type(reader)), reader.times(lambda: value_type(reader)))
    expect(len(found.results) < 2, "a function with several results")
    return found


def read_types(module, reader):
    module.signatures = reader.times(lambda: read_signature(reader))


def read_import(module, reader):
    where, name, kind = reader.name(), reader.name(), reader.byte()
    if kind == 0:
        expect(where == "env", f"the import {where}.{name}")
        module.imports.append(name)
        module.functions.append(module.signatures[reader.unsigned()])
        module.bodies.append(None)
        return
    if kind == 3:
        wanted = [I64, 1] if name == "__stack_pointer" else [I64, 0]
        expect([reader.byte(), reader.byte()] == wanted and where == "env", f"the import {where}.{name} of another form")
        module.globals.append(name)
        return
    expect(kind == 2 and (where, name) == ("env", "memory"), f"the import {where}.{name}")
    flags = reader.unsigned()
    expect(flags in (4, 5), "a memory that isn't of 64 bits")
    for _ in range(1 + (flags & 1)):
        reader.unsigned()


def read_imports(module, reader):
    reader.times(lambda: read_import(module, reader))


def read_functions(module, reader):
    module.functions += [module.signatures[it] for it in reader.times(reader.unsigned)]


def read_exports(module, reader):
    for _ in range(reader.unsigned()):
        name, kind, number = reader.name(), reader.byte(), reader.unsigned()
        expect(kind == 0, f"the export {name}, which is no function")
        module.exports[number] = name


def instruction(reader):
    byte = reader.byte()
    byte = (byte, reader.unsigned()) if byte == 0xFC else byte
    expect(byte in OPCODES, f"the instruction {byte}")
    name, forms = OPCODES[byte]
    found = [name]
    for form in forms:
        if form == "u":
            found.append(reader.unsigned())
        elif form == "s":
            found.append(reader.signed())
        elif form in "48":
            found.append(int.from_bytes(reader.take(int(form)), "little"))
        elif form == "l":
            found.append([*reader.times(reader.unsigned), reader.unsigned()])
        else:
            kind = reader.byte()
            expect(kind in (I32, I64, F32, F64, NOTHING), f"a block of the type {kind:#x}")
            found.append(kind)
    return tuple(found)


def read_body(reader):
    inner, types = reader.part(), []
    for _ in range(inner.unsigned()):
        length = inner.unsigned()
        types += [value_type(inner)] * length
    code = []
    while inner.more():
        code.append(instruction(inner))
    expect(code and code[-1] == ("end",), "a function without an end")
    return Body(types, code)


def read_bodies(module, reader):
    module.bodies += reader.times(lambda: read_body(reader))


def read_datum(module, reader):
    """Bytes at __memory_base, or at an offset from it."""
    expect(reader.unsigned() == 0, "data that are passive or of another memory")
    code = []
    while not code or code[-1] != ("end",):
        code.append(instruction(reader))
    at = 0 if len(code) == 2 else code[1][1] if len(code) == 4 else -1
    forms = [("global.get", module.globals.index("__memory_base")), ("i64.const", at), ("i64.add",), ("end",)]
    expect(at >= 0 and code == (forms if len(code) == 4 else [forms[0], forms[3]]), "data at a place of another form")
    module.data.append((at, reader.take(reader.unsigned())))


def read_data(module, reader):
    reader.times(lambda: read_datum(module, reader))


def read_custom(module, reader):
    """The names of functions, and the data's size and alignment; other parts say nothing that counts."""
    what = reader.name()
    while what in ("name", "dylink.0") and reader.more():
        kind, part = reader.byte(), reader.part()
        if what == "name" and kind == 1:
            for _ in range(part.unsigned()):
                number = part.unsigned()
                module.names[number] = part.name()
        if what == "dylink.0" and kind == 1:
            module.size, module.alignment = part.unsigned(), part.unsigned()


# What the linker adds: what fills the data in, and what stores addresses in them.
FILLS, RELOCATES = OWN = ["__wasm_call_ctors", "__wasm_apply_data_relocs"]


def read_addresses(module):
    """What RELOCATES stores: each is `__memory_base` and a number, at another such place."""
    code = [it for number, body in enumerate(module.bodies) if module.names.get(number) == RELOCATES for it in body.code[:-1]]
    expect(len(code) % 7 == 0, "addresses in the data of another form")
    for k in range(0, len(code), 7):
        base, at, to = ("global.get", module.globals.index("__memory_base")), code[k][-1], code[k + 4][-1]
        form = [("i64.const", at), base, ("i64.add",), base, ("i64.const", to), ("i64.add",), ("i64.store", 2, 0)]
        expect(code[k : k + 7] == form and 0 <= at <= module.size - 8 and 0 <= to <= module.size, "an address in the data of another form")
        module.addresses[at] = to


SECTIONS = {0: read_custom, 1: read_types, 2: read_imports, 3: read_functions, 7: read_exports, 10: read_bodies, 11: read_data}
# The number of data.
SKIPPED = [12]


def read(data):
    """Returns the module in these bytes."""
    expect(data[:8] == b"\0asm\1\0\0\0", "bytes that are no WebAssembly module")
    module, reader = Module(), Reader(data, 8)
    while reader.more():
        kind, part = reader.byte(), reader.part()
        expect(kind in SECTIONS or kind in SKIPPED, f"the section {kind}")
        if kind in SECTIONS:
            SECTIONS[kind](module, part)
    expect(len(module.bodies) == len(module.functions), "functions without a body")
    read_addresses(module)
    return module
