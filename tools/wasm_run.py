"""Runs a module of wasm_module.py in Python, by the rules of WebAssembly (Core 2.0, section 4), and makes modules by chance: what
tools/test-release compares the C of wasm_to_c.py with. It knows nothing of wasm_to_c.py."""

import math
import random
import struct

from wasm_module import BINARY, EXTENSIONS, I32, I64, NOTHING, TESTS, Body, Module, Signature

SIZE = 64
STACK = 4096


def signed(n, bits):
    return n - (1 << bits) if n >> (bits - 1) else n


def quotient(a, b):
    n = abs(a) // abs(b)
    return n if (a < 0) == (b < 0) else -n


def compute(name, bits, a, b=0):
    """An instruction that makes a number: its name without the type, and its operands as unsigned numbers."""
    sa, sb, n = signed(a, bits), signed(b, bits), b % bits
    extended = {"extend8_s": 8, "extend16_s": 16, "extend32_s": 32, "extend_i32_s": 32}
    if name in extended:
        return signed(a % (1 << extended[name]), extended[name]) % (1 << bits)
    found = {
        "eqz": lambda: a == 0, "eq": lambda: a == b, "ne": lambda: a != b, "lt_u": lambda: a < b, "gt_u": lambda: a > b,
        "le_u": lambda: a <= b, "ge_u": lambda: a >= b, "lt_s": lambda: sa < sb, "gt_s": lambda: sa > sb, "le_s": lambda: sa <= sb,
        "ge_s": lambda: sa >= sb, "clz": lambda: bits - a.bit_length(), "ctz": lambda: (a & -a).bit_length() - 1 if a else bits,
        "popcnt": lambda: a.bit_count(), "add": lambda: a + b, "sub": lambda: a - b, "mul": lambda: a * b, "and": lambda: a & b,
        "or": lambda: a | b, "xor": lambda: a ^ b, "div_u": lambda: a // b, "rem_u": lambda: a % b, "div_s": lambda: quotient(sa, sb),
        "rem_s": lambda: sa - sb * quotient(sa, sb), "shl": lambda: a << n, "shr_u": lambda: a >> n, "shr_s": lambda: sa >> n,
        "rotl": lambda: a << n | a >> (bits - n), "rotr": lambda: a >> n | a << (bits - n), "wrap_i64": lambda: a, "extend_i32_u": lambda: a,
    }  # fmt: skip
    return int(found[name]()) % (1 << bits)


def number_of(n, bits):
    """The float of these bits."""
    return struct.unpack("<f" if bits == 32 else "<d", n.to_bytes(bits // 8, "little"))[0]


def bits_of(number, bits):
    try:
        return int.from_bytes(struct.pack("<f" if bits == 32 else "<d", number), "little")
    except OverflowError:
        return bits_of(math.copysign(math.inf, number), bits)


def ratio(a, b):
    if b == 0:
        return math.nan if a == 0 or a != a else math.copysign(math.inf, a) * math.copysign(1, b)
    return a / b


def compute_float(name, bits, a, b=0):
    """An instruction that takes or makes floats, over their bits, of which `bits` is the result's or the operands' number."""
    what = name.partition(".")[2]
    top, (fa, fb) = 1 << (bits - 1), (number_of(it % (1 << bits), bits) for it in (a, b))
    found = {
        "eq": lambda: int(fa == fb), "ne": lambda: int(fa != fb), "lt": lambda: int(fa < fb), "gt": lambda: int(fa > fb),
        "le": lambda: int(fa <= fb), "ge": lambda: int(fa >= fb), "abs": lambda: a & (top - 1), "neg": lambda: a ^ top,
        "copysign": lambda: a & (top - 1) | b & top, "convert_i32_s": lambda: bits_of(float(signed(a, 32)), bits),
        "convert_i32_u": lambda: bits_of(float(a), bits), "convert_i64_s": lambda: bits_of(float(signed(a, 64)), bits),
        "convert_i64_u": lambda: bits_of(float(a), bits), "promote_f32": lambda: bits_of(number_of(a, 32), 64),
        "demote_f64": lambda: bits_of(number_of(a, 64), 32), "add": lambda: bits_of(fa + fb, bits), "sub": lambda: bits_of(fa - fb, bits),
        "mul": lambda: bits_of(fa * fb, bits), "div": lambda: bits_of(ratio(fa, fb), bits),
    }  # fmt: skip
    return a if what.startswith("reinterpret") else found[what]()


def ends(code):
    """Where each block ends, and where its `else` is, by where it begins."""
    open_blocks, found = [], {}
    for at, (name, *_) in enumerate(code):
        if name in ("block", "loop", "if"):
            open_blocks.append(at)
            found[at] = [None, None]
        elif name == "else":
            found[open_blocks[-1]][0] = at
        elif name == "end" and open_blocks:
            found[open_blocks.pop()][1] = at
    return found


class Run:
    """A call of a function over a memory, whose stack ends where it does."""

    def __init__(self, module, number, arguments, memory, top):
        self.module, self.memory, self.top = module, memory, top
        body, signature = module.bodies[number], module.functions[number]
        self.code, self.ends = body.code, ends(body.code)
        self.locals = [*arguments, *[0] * len(body.locals)]
        self.stack, self.blocks, self.results = [], [], len(signature.results)

    def branch(self, levels):
        """Returns where the code goes on, past its end for a return."""
        if levels == len(self.blocks):
            return len(self.code)
        begin, height, kept = self.blocks[-1 - levels]
        is_loop = self.code[begin][0] == "loop"
        values = self.stack[len(self.stack) - kept :] if kept and not is_loop else []
        del self.blocks[len(self.blocks) - levels - (not is_loop) :]
        self.stack = self.stack[:height] + values
        return begin + 1 if is_loop else self.ends[begin][1] + 1

    def enter(self, at, name, kind):
        middle, end = self.ends[at]
        is_taken = name != "if" or self.stack.pop() != 0
        if not is_taken and middle is None:
            return end + 1
        self.blocks.append((at, len(self.stack), int(kind != NOTHING)))
        return at + 1 if is_taken else middle + 1

    def place(self, offset):
        return self.stack.pop() + offset

    def move(self, name, words):
        """An instruction of memory, a local or a global."""
        if ".load" in name:
            bits, rest = int(name[1:3]), name[8:]
            width = int(rest.rstrip("_su") or bits)
            at = self.place(words[1])
            n = int.from_bytes(self.memory[at : at + width // 8], "little")
            self.stack.append(signed(n, width) % (1 << bits) if rest.endswith("_s") else n)
        elif ".store" in name:
            n, width = self.stack.pop(), int(name[9:] or name[1:3])
            at = self.place(words[1])
            self.memory[at : at + width // 8] = (n % (1 << width)).to_bytes(width // 8, "little")
        elif name in ("memory.copy", "memory.fill"):
            length, second, to = self.stack.pop(), self.stack.pop(), self.stack.pop()
            self.memory[to : to + length] = self.memory[second : second + length] if name == "memory.copy" else bytes([second % 256]) * length
        elif name == "global.set":
            self.top = self.stack.pop()
        elif name == "global.get":
            self.stack.append(self.top)
        elif name == "local.get":
            self.stack.append(self.locals[words[0]])
        else:
            self.locals[words[0]] = self.stack[-1] if name == "local.tee" else self.stack.pop()

    def step(self, at):
        """Runs one instruction; returns where the code goes on."""
        name, *words = self.code[at]
        if name in ("block", "loop", "if"):
            return self.enter(at, name, *words)
        if name in ("br", "br_if", "br_table", "return", "else"):
            levels = {"else": 0, "return": len(self.blocks)}.get(name, words[0] if words else 0)
            if name == "br_table":
                levels = levels[min(self.stack.pop(), len(levels) - 1)]
            return at + 1 if name == "br_if" and self.stack.pop() == 0 else self.branch(levels)
        if name == "end":
            self.blocks = self.blocks[:-1]
        elif name == "call":
            callee = self.module.functions[words[0]]
            arguments = [self.stack.pop() for _ in callee.parameters][::-1]
            self.stack += Run(self.module, words[0], arguments, self.memory, self.top).whole()
        elif name in ("drop", "select"):
            chosen = self.stack.pop() if name == "select" else 0
            other = self.stack.pop()
            self.stack[len(self.stack) - (name == "select") :] = [self.stack[-1] if chosen else other] * (name == "select")
        elif name.endswith(".const"):
            self.stack.append(words[0] % (1 << int(name[1:3])))
        elif name.startswith(("local", "global", "memory")) or ".load" in name or ".store" in name:
            self.move(name, words)
        else:
            kind, _, what = name.partition(".")
            count = 1 if what in ("eqz", "clz", "ctz", "popcnt", "wrap_i64") or what.startswith("extend") else 2
            operands = [self.stack.pop() for _ in range(count)][::-1]
            self.stack.append(compute(what, int(kind[1:]), *operands))
        return at + 1

    def whole(self):
        at = 0
        while at < len(self.code):
            at = self.step(at)
        return self.stack[len(self.stack) - self.results :]


# ---- modules by chance

OF = {I32: "i32", I64: "i64"}
WHOLE = [it for it in BINARY if not it.startswith(("div", "rem"))]
LOADED = {I32: ["load", "load8_s", "load8_u", "load16_s", "load16_u"], I64: ["load", "load8_s", "load16_u", "load16_s", "load32_s", "load32_u"]}
STORED = {I32: ["store", "store8", "store16"], I64: ["store", "store8", "store16", "store32"]}
EDGES = [0, 1, 2, 31, 32, 63, 127, 128, 255, 32767, 32768, 65535, 2**31 - 1, 2**31, 2**32 - 1, 2**32, 2**63 - 1, 2**63, 2**64 - 1]


class Maker:
    """Makes functions of two addresses in memory, of SIZE bytes each, and two numbers."""

    PARAMETERS = [I64, I64, I32, I64]

    def __init__(self, seed):
        self.seed, self.chance, self.module = seed, random.Random(seed), Module(globals=["__stack_pointer", "__memory_base"])

    def any(self, *forms):
        return self.chance.choice(forms)()

    def local(self, kind):
        """A local that may be set: no address, and none that counts rounds."""
        return self.chance.choice([k for k, it in enumerate(self.types) if it == kind and k > 1 and k not in [*self.counters, *self.free]])

    def address(self, depth):
        """An address at which 8 bytes lie in one of the two places, or in the frame, and an offset."""
        place = self.chance.choice([0, 1] + [self.frame] * (self.frame is not None))
        return [("local.get", place), *self.value(I64, depth), ("i64.const", 31), ("i64.and",), ("i64.add",)], self.chance.choice([0, 0, 3, 8, 24])

    def load(self, kind, depth):
        code, offset = self.address(depth)
        return [*code, (f"{OF[kind]}.{self.chance.choice(LOADED[kind])}", 0, offset)]

    def store(self, depth):
        kind = self.chance.choice([I32, I64])
        code, offset = self.address(depth)
        return [*code, *self.value(kind, depth), (f"{OF[kind]}.{self.chance.choice(STORED[kind])}", 0, offset)]

    def constant(self, kind):
        n = self.chance.choice([*EDGES, self.chance.getrandbits(64)])
        bits = 32 if kind == I32 else 64
        return [(f"{OF[kind]}.const", signed(n % (1 << bits), bits))]

    def binary(self, kind, depth):
        between = self.statement(depth) if self.chance.random() < 0.3 else []
        return [*self.value(kind, depth), *between, *self.value(kind, depth), (f"{OF[kind]}.{self.chance.choice(WHOLE)}",)]

    def test(self, depth):
        kind = self.chance.choice([I32, I64])
        name = self.chance.choice(TESTS)
        return [*self.value(kind, depth), *(self.value(kind, depth) if name != "eqz" else []), (f"{OF[kind]}.{name}",)]

    def converted(self, kind, depth):
        if kind == I64 and self.chance.random() < 0.5:
            return [*self.value(I32, depth), (self.chance.choice(["i64.extend_i32_s", "i64.extend_i32_u"]),)]
        if kind == I32 and self.chance.random() < 0.5:
            return [*self.value(I64, depth), ("i32.wrap_i64",)]
        names = [it for it in EXTENSIONS if it.startswith(OF[kind])] + [f"{OF[kind]}.{it}" for it in ("clz", "ctz", "popcnt")]
        return [*self.value(kind, depth), (self.chance.choice(names),)]

    def teed(self, kind, depth):
        k = self.local(kind)
        return [("local.get", k), *self.value(kind, depth), ("local.tee", k), (f"{OF[kind]}.{self.chance.choice(WHOLE)}",)]

    def chosen(self, kind, depth):
        return [*self.value(kind, depth), *self.value(kind, depth), *self.test(depth), ("select",)]

    def result(self, kind, depth):
        """A block that ends with a value, or sooner with another one."""
        if self.chance.random() < 0.5:
            return [*self.test(depth), ("if", kind), *self.value(kind, depth), ("else",), *self.statement(depth), *self.value(kind, depth), ("end",)]
        return [("block", kind), *self.value(kind, depth), *self.test(depth), ("br_if", 0), ("drop",), *self.value(kind, depth), ("end",)]

    def called(self, kind, depth):
        """A call of one of the first two functions, so that calls don't multiply."""
        callees = [k for k, it in enumerate(self.module.functions[:2]) if it.results == [kind]]
        if not callees:
            return self.constant(kind)
        return [("local.get", 1), ("local.get", 0), *self.value(I32, depth), *self.value(I64, depth), ("call", self.chance.choice(callees))]

    def value(self, kind, depth):
        """Code that leaves a number of this type."""
        if depth <= 0:
            return self.any(lambda: self.constant(kind), lambda: [("local.get", self.local(kind))])
        made = [self.binary, self.binary, self.load, self.converted, self.teed, self.chosen, self.result]
        made += [self.called] * (self.chance.random() < 0.2)
        return self.chance.choice(made)(kind, depth - 1) if kind == I64 or self.chance.random() < 0.7 else self.test(depth - 1)

    def set(self, depth):
        kind = self.chance.choice([I32, I64])
        return [*self.value(kind, depth), ("local.set", self.local(kind))]

    def rounds(self, depth):
        """A loop of some rounds."""
        k = next(it for it in self.free if it not in self.counters)
        self.counters.append(k)
        code = [("i32.const", self.chance.randrange(1, 4)), ("local.set", k), ("loop", NOTHING), *self.statement(depth)]
        code += [("local.get", k), ("i32.const", 1), ("i32.sub",), ("local.tee", k), ("br_if", 0), ("end",)]
        self.counters.remove(k)
        return code

    def cases(self, depth):
        """A jump by a number out of three blocks."""
        code = [("block", NOTHING)] * 3 + [*self.value(I32, 0), ("i32.const", 3), ("i32.and",)]
        code.append(("br_table", [self.chance.randrange(3) for _ in range(3)] + [self.chance.randrange(3)]))
        for _ in range(3):
            code += [("end",), *self.statement(depth)]
        return code

    def left(self, depth):
        """A block that is left, with code after that which isn't reached."""
        return [("block", NOTHING), *self.statement(depth), *self.test(0), ("br_if", 0), *self.store(0), ("br", 0), *self.value(I64, 0), ("drop",), ("end",)]

    def conditional(self, depth):
        other = [("else",), *self.statement(depth)] if self.chance.random() < 0.5 else []
        return [*self.test(depth), ("if", NOTHING), *self.statement(depth), *other, ("end",)]

    def moved(self, depth):
        name = self.chance.choice(["memory.copy", "memory.fill"])
        place = [("local.get", self.chance.randrange(2)), ("i64.const", self.chance.randrange(16)), ("i64.add",)]
        second = [("local.get", self.chance.randrange(2)), ("i64.const", self.chance.randrange(16)), ("i64.add",)] if name == "memory.copy" else self.value(I32, depth)
        return [*place, *second, ("i64.const", self.chance.randrange(32)), (name, 0, 0)]

    def ignored(self, depth):
        """A call for what it does to memory."""
        kind = self.chance.choice([I32, I64])
        return [*self.called(kind, depth), ("drop",)]

    def statement(self, depth):
        """Code that leaves nothing."""
        if depth <= 0:
            return self.any(lambda: self.set(0), lambda: self.store(0))
        forms = [self.set, self.set, self.store, self.store, self.conditional, self.left, self.cases, self.moved, self.ignored]
        forms += [self.rounds] * any(it not in self.counters for it in self.free)
        return [*self.chance.choice(forms)(depth - 1), *(self.statement(depth - 1) if self.chance.random() < 0.6 else [])]

    def function(self, depth):
        kind = self.chance.choice([I32, I64])
        locals_ = [I32, I64, I64, I32, I32, I32, I64]
        self.types = [*self.PARAMETERS, *locals_]
        self.frame = 10 if self.chance.random() < 0.5 else None
        self.free, self.counters = [8, 9], [self.frame] * (self.frame is not None)
        code = []
        if self.frame is not None:
            # zeros in it; who calls none may leave the stack pointer as it is
            code = [("global.get", 0), ("i64.const", SIZE), ("i64.sub",), ("local.tee", 10), ("global.set", 0)]
            if not self.module.functions and self.chance.random() < 0.5:
                code = [("global.get", 0), ("local.set", 10), ("local.get", 10), ("i64.const", SIZE), ("i64.sub",), ("local.set", 10)]
            code += [("local.get", 10), ("i32.const", 0), ("i64.const", SIZE), ("memory.fill", 0)]
        code += [*self.statement(depth), *self.statement(depth), *self.value(kind, depth), ("end",)]
        self.module.functions.append(Signature(self.PARAMETERS, [kind]))
        self.module.exports[len(self.module.bodies)] = f"f{self.seed}_{len(self.module.bodies)}"
        self.module.bodies.append(Body(locals_, code))
