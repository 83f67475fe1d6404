"""Writes the functions of a WebAssembly module (wasm_module.py) as C99.

An address is a pointer's number, of 64 bits on any machine; a frame of the module's stack is an array of the C function; the module's
data are a constant array, or a constant struct where they hold addresses; a float is the number of its bits. So the C has no memory of its
own, no state and no runtime but the functions of portable.h, which are also what a module may import. What that doesn't cover is refused:
a frame whose size isn't constant, a global but the stack pointer.

A value on the module's stack is a C expression that is written where it is used. It becomes a constant of its own before a local that is in it
is set, before memory that it reads is written, and before a block begins.
"""

import re
import textwrap
from collections import Counter
from dataclasses import dataclass
from pathlib import Path

from wasm_module import F32, F64, FILLS, FLOAT_BINARY, FLOAT_TESTS, I32, I64, NOTHING, OWN, Refused, expect

BITS = {I32: 32, F32: 32, I64: 64, F64: 64}
OF_BITS = {32: "uint32_t", 64: "uint64_t"}
TYPES = {kind: OF_BITS[bits] for kind, bits in BITS.items()}

TEMPLATE = Path(__file__).with_name("portable.h")

# The bytes below the stack pointer that a function which calls none may use without setting it (LLVM's red zone for WebAssembly).
BELOW = 128

# The longest expression, and the longest line, in characters.
LONG, WIDE = 90, 140

TESTS = {"eq": ("==", "!="), "ne": ("!=", "=="), "lt_u": ("<", ">="), "ge_u": (">=", "<"), "gt_u": (">", "<="), "le_u": ("<=", ">")}
# Signed comparisons as less_s of the operands in order or turned round, and whether it has to be so.
SIGNED = {"lt_s": (False, True), "gt_s": (True, True), "le_s": (True, False), "ge_s": (False, False)}
OPERATORS = {"add": "+", "sub": "-", "mul": "*", "and": "&", "or": "|", "xor": "^"}
SHIFTS = {"shl": "<<", "shr_u": ">>"}
CALLED = ["div_s", "div_u", "rem_s", "rem_u", "shr_s", "rotl", "rotr"]


@dataclass(frozen=True)
class Value:
    text: str
    bits: int
    #: the locals in it
    locals: frozenset = frozenset()
    #: whether it reads memory
    reads: bool = False
    #: whether it stands as an operand without parentheses
    is_atom: bool = True
    #: the number, if it is a constant
    number: int | None = None
    #: of 0 or 1: the condition under which it is 1, and the one under which it is 0
    test: tuple | None = None

    def operand(self):
        return self.text if self.is_atom else f"({self.text})"

    def condition(self):
        return self.test[0] if self.test else self.text

    def is_fixed(self):
        return not self.locals and not self.reads


@dataclass
class Block:
    name: str
    result: Value | None
    #: how many values are below it
    height: int
    label: str | None = None


def constant(number, bits):
    number &= (1 << bits) - 1
    shown = str(number) if number < 100_000 else f"{number:#x}"
    return Value(shown + ("u" if bits == 32 else "ull"), bits, number=number)


def combine(text, bits, *parts, is_atom=True, reads=False, test=None):
    """A value made of others."""
    return Value(text, bits, frozenset().union(*(it.locals for it in parts)), reads or any(it.reads for it in parts), is_atom, None, test)


def tested(test, other, *parts):
    return combine(f"(uint32_t)({test})", 32, *parts, test=(test, other))


def plus(address, offset):
    """An address with an offset, as a C expression."""
    if address.number is not None:
        return constant(address.number + offset, 64).text
    return f"{address.text} + {offset}u" if offset else address.text


def compare(name, bits, a, b):
    if name in TESTS:
        return tested(*(f"{a.operand()} {it} {b.operand()}" for it in TESTS[name]), a, b)
    turned, is_less = SIGNED[name]
    first, second = (b, a) if turned else (a, b)
    test = f"less_s{bits}({first.text}, {second.text})"
    return tested(*((test, f"!{test}") if is_less else (f"!{test}", test)), a, b)


def compare_floats(name, bits, a, b):
    """A number that is none is neither less than another one nor equal to it, so a test can't be turned round."""
    of = f"f{bits}_of"
    test = f"{of}({a.text}) {TESTS.get(name, TESTS.get(f'{name}_u'))[0]} {of}({b.text})"
    return tested(test, f"!({test})", a, b)


def arithmetic(name, bits, a, b):
    if name in SHIFTS:
        count = str(b.number % bits) if b.number is not None else f"({b.operand()} & {bits - 1})"
        return combine(f"{a.operand()} {SHIFTS[name]} {count}", bits, a, b, is_atom=False)
    if name in CALLED:
        return combine(f"{name}{bits}({a.text}, {b.text})", bits, a, b)
    if name == "add" and b.number is not None and b.number >> (bits - 1):
        name, b = "sub", constant(-b.number, bits)
    return combine(f"{a.operand()} {OPERATORS[name]} {b.operand()}", bits, a, b, is_atom=False)


def unary(name, bits, a):
    if name == "eqz":
        test = (a.test[1], a.test[0]) if a.test else (f"{a.operand()} == 0", f"{a.operand()} != 0")
        return tested(*test, a)
    if name.startswith("reinterpret"):
        return a
    if name in ("wrap_i64", "extend_i32_u"):
        return combine(f"({OF_BITS[bits]}){a.operand()}", bits, a)
    if name == "extend_i32_s":
        return combine(f"extend32_64((uint64_t){a.operand()})", 64, a)
    extended = re.fullmatch(r"extend(\d+)_s", name)
    return combine(f"extend{extended[1]}_{bits}({a.text})" if extended else f"{name}{bits}({a.text})", bits, a)


def float_of(name, bits, a, b=None):
    """What makes a float of one number, or of two."""
    sign = constant(1 << (bits - 1), bits)
    if name == "abs":
        return arithmetic("and", bits, a, constant(~sign.number, bits))
    if name == "neg":
        return arithmetic("xor", bits, a, sign)
    if name == "copysign":
        return arithmetic("or", bits, arithmetic("and", bits, a, constant(~sign.number, bits)), arithmetic("and", bits, b, sign))
    if b is not None:
        return combine(f"{name}_f{bits}({a.text}, {b.text})", bits, a, b)
    return a if name.startswith("reinterpret") else combine(f"{name}({a.text})", bits, a)


def load(name, address, offset):
    """`i64.load8_s` and its like: reading as many bits as the name says, and extending them."""
    bits, read = int(name[1:3]), re.fullmatch(r"(?:(\d+)_([su]))?", name[8:])
    width = int(read[1] or bits)
    text = f"ld{width}({plus(address, offset)})"
    if read[1] and read[2] == "s":
        text = f"extend{width}_{bits}({text})"
    elif read[1] and bits == 64:
        text = f"(uint64_t){text}"
    return combine(text, bits, address, reads=True)


class Function:
    """One function's text."""

    def __init__(self, module, number, names):
        self.module, self.index, self.names = module, number, names
        self.signature, self.body = module.functions[number], module.bodies[number]
        self.types = [*self.signature.parameters, *self.body.locals]
        self.lines, self.stack, self.temporaries, self.labels, self.depth = [], [], 0, 0, 1
        self.blocks = [Block("function", None, 0)]
        self.frame = None

    # ---- lines and values

    def emit(self, text):
        margin = "    " * self.depth
        self.lines += textwrap.wrap(text, WIDE, initial_indent=margin, subsequent_indent=margin + "    ", break_long_words=False, break_on_hyphens=False)

    def put_label(self, label):
        self.lines.append(f"{'    ' * (self.depth - 1)}  {label}:;")

    def named(self, value):
        """The value as a constant of its own."""
        self.temporaries += 1
        name = f"t{self.temporaries}"
        self.emit(f"const {OF_BITS[value.bits]} {name} = {value.text};")
        return Value(name, value.bits)

    def push(self, value):
        self.stack.append(self.named(value) if len(value.text) > LONG else value)

    def pop(self):
        expect(len(self.stack) > self.blocks[-1].height, "a value that isn't there")
        return self.stack.pop()

    def settle(self, which):
        """Gives names to those values on the stack, in their order."""
        self.stack = [self.named(it) if which(it) else it for it in self.stack]

    # ---- blocks and branches

    def target(self, levels):
        """The statements of a branch out of so many blocks."""
        if levels == len(self.blocks) - 1:
            return f"return {self.stack[-1].text};" if self.signature.results else "return;"
        block = self.blocks[-1 - levels]
        if block.label is None:
            self.labels += 1
            block.label = f"L{self.labels}"
        jump = f"goto {block.label};"
        if block.name == "loop" or block.result is None:
            return jump
        return f"{block.result.text} = {self.stack[-1].text}; {jump}"

    def begin(self, name, kind):
        condition = self.pop().condition() if name == "if" else None
        self.settle(lambda it: not it.is_fixed())
        result = None
        if kind != NOTHING:
            self.temporaries += 1
            result = Value(f"r{self.temporaries}", BITS[kind])
            self.emit(f"{TYPES[kind]} {result.text} = 0;")
        self.blocks.append(Block(name, result, len(self.stack)))
        if name == "loop":
            self.labels += 1
            self.blocks[-1].label = f"L{self.labels}"
            self.put_label(self.blocks[-1].label)
        if name == "if":
            self.emit(f"if ({condition}) {{")
            self.depth += 1

    def keep_result(self, block, is_reached):
        if is_reached and block.result is not None:
            self.emit(f"{block.result.text} = {self.pop().text};")
        del self.stack[block.height :]

    def turn(self, is_reached):
        """At an `else`."""
        self.keep_result(self.blocks[-1], is_reached)
        self.depth -= 1
        self.emit("} else {")
        self.depth += 1

    def finish(self, is_reached):
        """At an `end`."""
        block = self.blocks[-1]
        if block.name == "function":
            if is_reached and self.signature.results:
                self.emit(f"return {self.pop().text};")
            return
        self.keep_result(block, is_reached)
        self.blocks.pop()
        if block.name == "if":
            self.depth -= 1
            self.emit("}")
        if block.name != "loop" and block.label:
            self.put_label(block.label)
        if block.result is not None:
            self.push(block.result)

    def choose(self, levels):
        """A jump by a number: to one of these blocks, or the last."""
        on, cases = self.pop(), {}
        for number, level in enumerate(levels[:-1]):
            cases.setdefault(level, []).append(number)
        cases.pop(levels[-1], None)
        self.emit(f"switch ({on.text}) {{")
        for level, numbers in cases.items():
            self.emit(" ".join(f"case {it}:" for it in numbers) + f" {self.target(level)}")
        self.emit(f"default: {self.target(levels[-1])}")
        self.emit("}")

    # ---- instructions

    def call(self, number):
        signature = self.module.functions[number]
        arguments = [self.pop() for _ in signature.parameters][::-1]
        self.settle(lambda it: it.reads)
        call = f"{self.names[number]}({', '.join(it.text for it in arguments)})"
        if signature.results:
            self.stack.append(self.named(Value(call, BITS[signature.results[0]])))
        else:
            self.emit(f"{call};")

    def store(self, name, offset):
        value, address = self.pop(), self.pop()
        self.settle(lambda it: it.reads)
        self.emit(f"st{name[9:] or name[1:3]}({plus(address, offset)}, {value.text});")

    def move(self, name):
        """memory.copy and memory.fill."""
        length, second, first = self.pop(), self.pop(), self.pop()
        self.settle(lambda it: it.reads)
        self.emit(f"{'copy' if name == 'memory.copy' else 'fill'}({first.text}, {second.text}, {length.text});")

    def set_local(self, name, k):
        value = self.pop()
        if value.text != self.local(k):
            self.settle(lambda it: k in it.locals)
            self.emit(f"{self.local(k)} = {value.text};")
        if name == "local.tee":
            self.get_local(k)

    def local(self, k):
        return f"a{k}" if k < len(self.signature.parameters) else f"v{k}"

    def get_local(self, k):
        self.stack.append(Value(self.local(k), BITS[self.types[k]], frozenset([k])))

    def get_global(self, k):
        """The place of the data, or of the frame: the stack pointer less a constant."""
        name = self.module.globals[k]
        if name == "__memory_base":
            self.stack.append(Value("DATA", 64))
            return 1
        expect(name == "__stack_pointer" and self.frame is None, f"the global {name}")
        (first, *size), second = self.body.code[self.at + 1 : self.at + 3]
        if (first, second) == ("i64.const", ("i64.sub",)):
            expect(size[0] > 0 and size[0] % 16 == 0, f"a frame of {size[0]} bytes")
            self.frame = size[0]
            self.stack.append(Value("FRAME_AT(frame)", 64))
            return 3
        expect(not {"call", "global.set"} & {it[0] for it in self.body.code}, "a frame whose size isn't constant")
        self.frame = BELOW
        self.stack.append(Value(f"FRAME_AT(frame) + {BELOW}u", 64, is_atom=False))
        return 1

    def set_global(self, k):
        expect(self.module.globals[k] == "__stack_pointer", "a global that is set")
        self.pop()

    def select(self):
        condition, other, value = self.pop(), self.pop(), self.pop()
        text = f"{condition.operand() if not condition.test else '(' + condition.condition() + ')'} ? {value.operand()} : {other.operand()}"
        self.push(combine(text, value.bits, condition, other, value, is_atom=False))

    def numeric(self, name):
        """An instruction that makes a number of one or of two."""
        kind, _, name = name.partition(".")
        bits = int(kind[1:])
        if kind[0] == "f":
            b = self.pop() if name in (*FLOAT_TESTS, "copysign") or f"{kind}.{name}" in FLOAT_BINARY else None
            a = self.pop()
            self.push(compare_floats(name, bits, a, b) if name in FLOAT_TESTS else float_of(name, bits, a, b))
        elif name in TESTS or name in SIGNED:
            b, a = self.pop(), self.pop()
            self.push(compare(name, bits, a, b))
        elif name in OPERATORS or name in SHIFTS or name in CALLED:
            b, a = self.pop(), self.pop()
            self.push(arithmetic(name, bits, a, b))
        else:
            self.push(unary(name, bits, self.pop()))

    def plain(self, name, *words):
        """Writes an instruction that goes on to the next one; returns how many were written."""
        if name == "global.get":
            return self.get_global(*words)
        if ".load" in name:
            self.push(load(name, self.pop(), words[1]))
        elif ".store" in name:
            self.store(name, words[1])
        elif name.endswith(".const"):
            self.stack.append(constant(words[0], int(name[1:3])))
        elif name in ("memory.copy", "memory.fill"):
            self.move(name)
        elif name in ("local.set", "local.tee"):
            self.set_local(name, *words)
        elif name in ("drop", "nop"):
            self.stack = self.stack[:-1] if name == "drop" else self.stack
        else:
            special = {"local.get": self.get_local, "global.set": self.set_global, "call": self.call, "select": self.select}
            special.get(name, lambda *_: self.numeric(name))(*words)
        return 1

    def leave(self, name, *words):
        """Writes an instruction after which nothing is reached."""
        if name == "unreachable":
            self.emit("TRAP();")
        elif name == "br_table":
            self.choose(*words)
        else:
            self.emit(self.target(words[0] if name == "br" else len(self.blocks) - 1))

    def branch_if(self, levels):
        condition, jump = self.pop(), self.target(levels)
        self.emit(f"if ({condition.condition()}) {jump if jump.count(';') == 1 else '{ ' + jump + ' }'}")

    def skip(self):
        """Goes on to the `else` or `end` that ends code which isn't reached."""
        depth = 0
        while depth or self.body.code[self.at][0] not in ("else", "end"):
            name = self.body.code[self.at][0]
            depth += (name in ("block", "loop", "if")) - (name == "end")
            self.at += 1

    def write(self):
        self.at, is_reached = 0, True
        while self.at < len(self.body.code):
            if not is_reached:
                self.skip()
            name, *words = self.body.code[self.at]
            passed, was_reached, is_reached = 1, is_reached, True
            if name in ("block", "loop", "if"):
                self.begin(name, *words)
            elif name == "else":
                self.turn(was_reached)
            elif name == "end":
                self.finish(was_reached)
            elif name == "br_if":
                self.branch_if(*words)
            elif name in ("unreachable", "br", "br_table", "return"):
                self.leave(name, *words)
                is_reached = False
            else:
                passed = self.plain(name, *words)
            self.at += passed
        return self.whole()

    def whole(self):
        """The function with its head and its variables. What isn't read, as a result that is dropped, gets no name."""
        body = "\n".join(self.lines)
        named = Counter(re.findall(r"\bt\d+\b", body))
        body = re.sub(r"const \w+ (t\d+) = ", lambda it: it[0] if named[it[1]] > 1 else "(void)", body)
        lines = [head(self.module, self.index, self.names, True) + " {"]
        if "FRAME_AT(frame)" in body:
            lines.append(f"    FRAME(frame, {self.frame});")
        first = len(self.signature.parameters)
        for bits, name in OF_BITS.items():
            found = [self.local(k) for k, it in enumerate(self.types) if k >= first and BITS[it] == bits and re.search(rf"\bv{k}\b", body)]
            lines += textwrap.wrap(f"{name} " + ", ".join(f"{it} = 0" for it in found) + ";", WIDE, initial_indent="    ", subsequent_indent="        ") if found else []
        lines += [f"    (void){self.local(k)};" for k in range(len(self.types)) if self.is_unread(k, body)]
        return "\n".join([*lines, body, "}"])

    def is_unread(self, k, body):
        """Whether a parameter isn't used, or a local is set and never read: compilers warn of both."""
        name = self.local(k)
        uses, settings = re.findall(rf"\b{name}\b", body), re.findall(rf"^ *{name} = ", body, re.MULTILINE)
        return not uses if k < len(self.signature.parameters) else len(uses) == len(settings) > 0


def head(module, number, names, is_named):
    signature = module.functions[number]
    parameters = [TYPES[it] + f" a{k}" * is_named for k, it in enumerate(signature.parameters)]
    return f"static {TYPES[signature.results[0]] if signature.results else 'void'} {names[number]}({', '.join(parameters) or 'void'})"


def names_of(module):
    """The functions' names in C: an imported one's, an exported one's, or the end of its path with its number."""
    found = dict(enumerate(module.imports))
    for number in range(len(module.imports), len(module.functions)):
        path = module.names.get(number, "")
        while "<" in path:
            path = path[: path.rindex("<")] + path[path.rindex("<") :].partition(">")[2]
        words = re.findall(r"\w+", path)[-2:]
        found[number] = f"code_{module.exports[number]}" if number in module.exports else "_".join([*words, str(number)])
    return found


def contents(module):
    """The bytes of the data: one at least, since an address of no bytes is one too."""
    content = bytearray(max(1, module.size))
    for at, it in module.data:
        expect(at + len(it) <= module.size, "data beyond their end")
        content[at : at + len(it)] = it
    expect(module.alignment <= 4, "data that begin at a multiple of more than 16")
    return content


def in_rows(words):
    return textwrap.wrap(", ".join(words), WIDE - 4, initial_indent="    ", subsequent_indent="    ")


def data(module):
    """The data as an array; or as a struct of arrays, and of addresses, each of which has 8 bytes."""
    content = contents(module)
    if not module.addresses:
        rows = in_rows(map(str, content))
        return ["static const union {", f"    uint8_t bytes[{len(content)}];", "    uint64_t words[2];", "} ALIGNED data = {{", *rows, "}};", ""]
    fields, values, end = [], [], 0
    for at, to in [*sorted(module.addresses.items()), (len(content), None)]:
        expect(at >= end and (at % 8 == 0 or to is None), f"an address at {at} of the data")
        if at > end:
            fields.append(f"uint8_t b{end}[{at - end}];")
            values += [("{" if k == end else "") + str(content[k]) + ("}" if k == at - 1 else "") for k in range(end, at)]
        if to is not None:
            fields.append(f"InData a{at};")
            values.append(f"IN_DATA({to})")
        end = at + 8
    shape = textwrap.wrap(" ".join(fields), WIDE, initial_indent="    ", subsequent_indent="    ")
    return ["static const struct {", *shape, "} ALIGNED data = {", *in_rows(values), "};", ""]


def write(module):
    """Returns the module's functions as C."""
    known = {name for names, _ in parts() for it in names for name in it}
    expect(set(module.imports) <= known, f"the module imports {sorted(set(module.imports) - known)}")
    for number, body in enumerate(module.bodies):
        expect(module.names.get(number) != FILLS or body.code == [("end",)], "data that are filled in")
    names, texts = names_of(module), []
    numbers = [it for it in range(len(module.imports), len(module.functions)) if module.names.get(it) not in OWN]
    for number in numbers:
        try:
            texts.append(Function(module, number, names).write())
        except Refused as error:
            raise Refused(f"{module.names.get(number, number)}: {error}") from error
    heads = [head(module, it, names, False) + ";" for it in numbers]
    array = data(module) if any("DATA" in it for it in texts) else []
    return "\n".join([*array, *heads, "", *(f"{it}\n" for it in texts)])


def parts():
    """The parts of portable.h: what each defines, and its text."""
    for text in TEMPLATE.read_text(encoding="utf-8").split("\n\n")[1:]:
        yield set(re.findall(r"#define (\w+)|^static inline \w+ (\w+)\(", text, re.MULTILINE)), text.strip()


def prelude(code):
    """The parts of portable.h that the code uses, and what these use, in their order."""
    known, wanted = [({a or b for a, b in names}, text) for names, text in parts()], []
    for names, text in reversed(known):
        if any(re.search(rf"\b{it}\b", user) for it in names for user in [code, *wanted]):
            wanted.insert(0, text)
    return "\n\n".join(wanted)
