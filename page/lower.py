"""From WebAssembly with an address space of 64 bits to the same module with one of 32, which every browser has.

Only what addresses, indexes a table, or tells a size of memory is cut to 32 bits, right where it is used: the addresses
of loads and stores, the three operands of memory.copy and memory.fill that are one, that of memory.grow (whose answer,
and that of memory.size, is widened again), and the index of an indirect call. All other arithmetic stays as it is, in
64 bits. A module with anything else that would have to change is refused."""

from dataclasses import dataclass

I32, I64, F32, F64 = 0x7F, 0x7E, 0x7D, 0x7C
WRAP, WIDEN_SIGNED, WIDEN = b"\xa7", b"\xac", b"\xad"
"""The instructions i32.wrap_i64, i64.extend_i32_s and i64.extend_i32_u."""

IS_64 = 4
"""The flag of limits that says that they are of 64 bits."""

STORED = {0x36: I32, 0x37: I64, 0x38: F32, 0x39: F64, 0x3A: I32, 0x3B: I32, 0x3C: I64, 0x3D: I64, 0x3E: I64}
LOADS = range(0x28, 0x36)
BLOCKS = (0x02, 0x03, 0x04)
ONE_INDEX = (0x0C, 0x0D, 0x10, 0x20, 0x21, 0x22, 0x23, 0x24)
"""br, br_if, call, and those that get or set a local or a global."""

PLAIN = {0x00, 0x01, 0x05, 0x0B, 0x0F, 0x1A, 0x1B, *range(0x45, 0xC5)}
"""Instructions with no operand of their own: control, drop and select, and arithmetic."""

BR_TABLE, INDIRECT, SIZE, GROW = 0x0E, 0x11, 0x3F, 0x40
I32_CONST, I64_CONST, F32_CONST, F64_CONST, MORE = 0x41, 0x42, 0x43, 0x44, 0xFC
COPY, FILL = 10, 11
CUSTOM, TABLES, MEMORIES, ELEMENTS, CODE, DATA = 0, 4, 5, 9, 10, 11
MAGIC = b"\0asm\1\0\0\0"


class Unknown(Exception):
    """What of the module isn't known here, in words."""


def unsigned(value):
    """The bytes of an unsigned number."""
    found = bytearray()
    while value > 0x7F:
        found.append(value & 0x7F | 0x80)
        value >>= 7
    found.append(value)
    return bytes(found)


def signed(value):
    """The bytes of a signed number."""
    found = bytearray()
    while not -64 <= value < 64:
        found.append(value & 0x7F | 0x80)
        value >>= 7
    found.append(value & 0x7F)
    return bytes(found)


@dataclass
class Reader:
    """A place in bytes."""

    data: bytes
    at: int = 0

    def byte(self):
        self.at += 1
        return self.data[self.at - 1]

    def take(self, count):
        self.at += count
        return self.data[self.at - count : self.at]

    def unsigned(self):
        value, shift = 0, 0
        while True:
            byte = self.byte()
            value |= (byte & 0x7F) << shift
            shift += 7
            if byte < 0x80:
                return value

    def signed(self):
        start = self.at
        value = self.unsigned()
        sign = 1 << (7 * (self.at - start) - 1)
        return (value ^ sign) - sign

    def skip_number(self):
        while self.byte() >= 0x80:
            pass

    def since(self, start):
        return self.data[start : self.at]


def sections(module):
    """The sections of a module: each one's number and its bytes."""
    if not module.startswith(MAGIC):
        raise Unknown("this is no module")
    reader = Reader(module, len(MAGIC))
    while reader.at < len(module):
        number = reader.byte()
        yield number, reader.take(reader.unsigned())


def limits(reader):
    """Limits of 64 bits, as those of 32."""
    flags = reader.byte()
    if flags not in (IS_64, IS_64 | 1):
        raise Unknown(f"limits with the flags {flags}")
    numbers = [reader.unsigned() for _ in range(1 + (flags & 1))]
    if max(numbers) >= 2**32:
        raise Unknown("limits past 32 bits")
    return bytes([flags & 1]) + b"".join(map(unsigned, numbers))


def tables(data):
    reader = Reader(data)
    count = reader.unsigned()
    return unsigned(count) + b"".join(reader.take(1) + limits(reader) for _ in range(count))


def memories(data):
    reader = Reader(data)
    count = reader.unsigned()
    return unsigned(count) + b"".join(limits(reader) for _ in range(count))


def offset(reader):
    """A constant offset: an i64.const becomes an i32.const of the same number."""
    if reader.byte() != I64_CONST:
        raise Unknown("an offset that is no constant of 64 bits")
    number = reader.signed()
    if not 0 <= number < 2**31 or reader.byte() != 0x0B:
        raise Unknown("an offset past 31 bits, or one that is computed")
    return bytes([I32_CONST]) + signed(number) + b"\x0b"


def elements(data):
    """What fills the table: segments of functions at a constant offset."""
    reader = Reader(data)
    count = reader.unsigned()
    found = [unsigned(count)]
    for _ in range(count):
        if reader.unsigned() != 0:
            raise Unknown("a segment of elements of another kind")
        found += [b"\0", offset(reader)]
        start = reader.at
        for _ in range(reader.unsigned()):
            reader.unsigned()
        found.append(reader.since(start))
    return b"".join(found)


def data_segments(data):
    reader = Reader(data)
    count = reader.unsigned()
    found = [unsigned(count)]
    for _ in range(count):
        if reader.unsigned() != 0:
            raise Unknown("a segment of data of another kind")
        found += [b"\0", offset(reader)]
        start = reader.at
        reader.take(reader.unsigned())
        found.append(reader.since(start))
    return b"".join(found)


class Function:
    """The code of a function as it is written anew: an operand that lies under others is reached by way of locals,
    which are added behind its own, at most two of i64 and one of each other type."""

    def __init__(self, parameters, body):
        self.reader, self.parts, self.added = Reader(body), [], []
        groups = [(self.reader.unsigned(), self.reader.byte()) for _ in range(self.reader.unsigned())]
        self.groups, self.first = groups, parameters + sum(count for count, _ in groups)

    def local(self, kind, which=0):
        """The index of an added local."""
        if (kind, which) not in self.added:
            self.added.append((kind, which))
        return unsigned(self.first + self.added.index((kind, which)))

    def under(self, kind):
        """Cuts the operand that lies under one of this type."""
        local = self.local(kind)
        return b"\x21" + local + WRAP + b"\x20" + local

    def under_two(self, middle):
        """Cuts the operand at the top, and the lowest of three, and the one between where it is an address."""
        top, between = self.local(I64), self.local(middle, 1)
        cut = WRAP if middle == I64 else b""
        return b"\x21" + top + b"\x21" + between + WRAP + b"\x20" + between + cut + b"\x20" + top + WRAP

    def memarg(self):
        """The alignment and the offset of a load or store; an offset past 32 bits is refused."""
        aligned, distance = self.reader.unsigned(), self.reader.unsigned()
        if aligned >= 64 or distance >= 2**32:
            raise Unknown("an access with another memory, or an offset past 32 bits")
        return unsigned(aligned) + unsigned(distance)

    def instruction(self):
        """An instruction as it has to be."""
        reader = self.reader
        start, code = reader.at, reader.byte()
        before, after = b"", b""
        if code in PLAIN:
            pass
        elif code in LOADS or code in STORED:
            rest = self.memarg()
            before = self.under(STORED[code]) if code in STORED else WRAP
            return before + bytes([code]) + rest
        elif code in BLOCKS or code in ONE_INDEX or code in (I32_CONST, I64_CONST):
            reader.skip_number()
        elif code == BR_TABLE:
            for _ in range(reader.unsigned() + 1):
                reader.unsigned()
        elif code == INDIRECT:
            reader.unsigned(), reader.unsigned()
            before = WRAP
        elif code in (SIZE, GROW):
            reader.byte()
            before, after = (b"", WIDEN) if code == SIZE else (WRAP, WIDEN_SIGNED)
        elif code == F32_CONST:
            reader.take(4)
        elif code == F64_CONST:
            reader.take(8)
        elif code == MORE:
            more = reader.unsigned()
            if more in (COPY, FILL):
                before = self.under_two(I64 if more == COPY else I32)
                reader.take(2 if more == COPY else 1)
            elif more > 7:
                raise Unknown(f"the instruction 0xfc {more}")
        else:
            raise Unknown(f"the instruction 0x{code:02x}")
        return before + reader.since(start) + after

    def whole(self):
        parts = []
        while self.reader.at < len(self.reader.data):
            parts.append(self.instruction())
        groups = [*self.groups, *((1, kind) for kind, _ in self.added)]
        head = unsigned(len(groups)) + b"".join(unsigned(count) + bytes([kind]) for count, kind in groups)
        return head + b"".join(parts)


def code(data, parameters):
    """The code of all functions; of each one it must be known how many parameters it has."""
    reader = Reader(data)
    count = reader.unsigned()
    if count != len(parameters):
        raise Unknown("another number of functions than their types tell")
    found = [unsigned(count)]
    for number in parameters:
        body = Function(number, reader.take(reader.unsigned())).whole()
        found += [unsigned(len(body)), body]
    return b"".join(found)


def arities(found):
    """How many parameters each function of the module has that is no import."""
    types, reader = [], Reader(found[1])
    for _ in range(reader.unsigned()):
        if reader.byte() != 0x60:
            raise Unknown("a type that is none of a function")
        types.append(len(reader.take(reader.unsigned())))
        reader.take(reader.unsigned())
    reader = Reader(found[3])
    return [types[reader.unsigned()] for _ in range(reader.unsigned())]


def lowered(module):
    """The module with addresses of 32 bits."""
    found = dict(sections(module))
    changes = {TABLES: tables, MEMORIES: memories, ELEMENTS: elements, DATA: data_segments}
    changes[CODE] = lambda data: code(data, arities(found))
    parts = [MAGIC]
    for number, data in sections(module):
        if number == CUSTOM:
            continue
        data = changes[number](data) if number in changes else data
        parts += [bytes([number]), unsigned(len(data)), data]
    return b"".join(parts)


def imports(module):
    """What a module wants: the module and the name of each import."""
    reader = Reader(dict(sections(module)).get(2, b"\0"))
    for _ in range(reader.unsigned()):
        names = reader.take(reader.unsigned()).decode(), reader.take(reader.unsigned()).decode()
        if reader.byte() != 0:
            raise Unknown(f"the import {'.'.join(names)}, which is no function")
        reader.unsigned()
        yield names
