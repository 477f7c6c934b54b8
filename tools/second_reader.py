"""A second reader of class files, and a second checker of their code, written for comparison alone.

It follows the Java Virtual Machine Specification, SE 8, chapter 4, and the order of faults that docs/CLASS_FILES.md tells. It
is written to be short, not fast.
"""


class Fault(Exception):
    """What is wrong with a file: a name, and a number where it has one."""

    def __init__(self, name, number=None):
        super().__init__(name if number is None else f"{name}({number})")


class Bad(Exception):
    """What is wrong with a method's code."""

    def __init__(self, method, at, kind):
        super().__init__(f"Bad {{ method: {method}, at: {at}, kind: {kind} }}")


class Bytes:
    def __init__(self, data, place=0):
        self.data, self.place, self.start = data, 0, place

    def at(self):
        return self.start + self.place

    def take(self, count):
        if self.place + count > len(self.data):
            raise Fault("Truncated", self.at())
        self.place += count
        return self.data[self.place - count:self.place]

    def number(self, count):
        return int.from_bytes(self.take(count), "big")


def decode(data):
    """The UTF-16 units of modified UTF-8, or None."""
    if data.isascii() and 0 not in data:
        return data.decode("ascii")
    units, place = [], 0
    while place < len(data):
        rest = [byte & 0x3F if byte & 0xC0 == 0x80 else None for byte in data[place + 1:place + 3]]
        first = data[place]
        if 0 < first < 0x80:
            units, place = units + [first], place + 1
        elif first & 0xE0 == 0xC0 and rest[:1] not in ([], [None]):
            unit = (first & 0x1F) << 6 | rest[0]
            if 0 < unit < 0x80:
                return None
            units, place = units + [unit], place + 2
        elif first & 0xF0 == 0xE0 and len(rest) == 2 and None not in rest:
            unit = (first & 0x0F) << 12 | rest[0] << 6 | rest[1]
            if unit < 0x800:
                return None
            units, place = units + [unit], place + 3
        else:
            return None
    return "".join(map(chr, units))


# tag: the sizes of the numbers behind it, and the kinds of entries that they should name
ENTRIES = {
    3: ("Integer", [4], []), 4: ("Float", [4], []), 5: ("Long", [8], []), 6: ("Double", [8], []),
    7: ("Class", [2], ["Utf8"]), 8: ("String", [2], ["Utf8"]), 16: ("MethodType", [2], ["Utf8"]),
    9: ("Fieldref", [2, 2], ["Class", "NameAndType"]), 10: ("Methodref", [2, 2], ["Class", "NameAndType"]),
    11: ("InterfaceMethodref", [2, 2], ["Class", "NameAndType"]), 12: ("NameAndType", [2, 2], ["Utf8", "Utf8"]),
    15: ("MethodHandle", [1, 2], [None, None]), 18: ("InvokeDynamic", [2, 2], [None, "NameAndType"]),
}
WANTED = {name: wanted for name, sizes, wanted in ENTRIES.values()}


def read_pool(data):
    count = data.number(2)
    if count == 0:
        raise Fault("Pool", 0)
    pool, index = {}, 1
    while index < count:
        tag = data.number(1)
        if tag == 1:
            text = decode(data.take(data.number(2)))
            if text is None:
                raise Fault("Pool", index)
            pool[index] = ("Utf8", text)
        elif tag in ENTRIES:
            name, sizes, _ = ENTRIES[tag]
            if tag in (5, 6) and index == count - 1:
                raise Fault("Pool", index)
            pool[index] = (name, *[data.number(size) for size in sizes])
        else:
            raise Fault("Pool", index)
        index += 2 if tag in (5, 6) else 1
    return pool


def read_attributes(data):
    found = []
    for _ in range(data.number(2)):
        place, name = data.at(), data.number(2)
        found.append((place, name, data.take(data.number(4))))
    return found


def read_members(data):
    found = []
    for _ in range(data.number(2)):
        place = data.at()
        found.append((place, data.number(2), data.number(2), data.number(2), read_attributes(data)))
    return found


class Descriptor:
    """A cursor over the text of a descriptor. Its letters can run out, which is a fault like any other but for Float."""

    def __init__(self, text):
        self.text, self.place = text, 0

    def letter(self):
        self.place += 1
        if self.place > len(self.text):
            raise ValueError("open")
        return self.text[self.place - 1]

    def field(self):
        dims, letter = 0, self.letter()
        while letter == "[":
            dims += 1
            if dims > 255:
                raise ValueError("dimensions")
            letter = self.letter()
        if letter in "FD":
            raise OverflowError("float")
        if letter == "L":
            part = ""
            while True:
                letter = self.letter()
                if letter in ";/" and part == "" or letter in ".[":
                    raise ValueError("name")
                if letter == ";":
                    return 1
                part = "" if letter == "/" else part + letter
        if letter not in "BCIJSZ":
            raise ValueError("letter")
        return 2 if letter == "J" and dims == 0 else 1

    def ended(self):
        if self.place != len(self.text):
            raise ValueError("trailing")

    def method(self):
        if self.letter() != "(":
            raise ValueError("bracket")
        slots = 0
        while self.text[self.place:self.place + 1] != ")":
            slots += self.field()
        self.letter()
        if self.text[self.place:self.place + 1] == "V":
            self.letter()
        else:
            self.field()
        self.ended()
        return slots


def slots_of(text):
    """The slots of a method descriptor's parameters, None where it is broken, or "Float"."""
    try:
        return Descriptor(text).method()
    except ValueError:
        return None
    except OverflowError:
        return "Float"


def field_descriptor(text):
    """Whether a field descriptor is whole: True, False or "Float"."""
    try:
        descriptor = Descriptor(text)
        descriptor.field()
        descriptor.ended()
        return True
    except ValueError:
        return False
    except OverflowError:
        return "Float"


class ClassFile:
    def __init__(self, data):
        self.read(Bytes(data))
        self.link()
        self.shape()

    def read(self, data):
        if data.take(4) != b"\xca\xfe\xba\xbe":
            raise Fault("Magic")
        data.number(2)
        self.major = data.number(2)
        if not 45 <= self.major <= 52:
            raise Fault("Version", self.major)
        self.pool = read_pool(data)
        self.place = data.at()
        self.flags, self.this_class, self.super_class = data.number(2), data.number(2), data.number(2)
        self.interfaces = [data.number(2) for _ in range(data.number(2))]
        self.fields = read_members(data)
        self.methods = read_members(data)
        self.attributes = read_attributes(data)
        if data.place < len(data.data):
            raise Fault("Trailing", data.at())

    def kind(self, index):
        return self.pool.get(index, (None,))[0]

    def text(self, index):
        return self.pool[index][1] if self.kind(index) == "Utf8" else None

    def class_name(self, index):
        return self.text(self.pool[index][1]) if self.kind(index) == "Class" else None

    def link(self):
        for index, entry in sorted(self.pool.items()):
            for number, wanted in zip(entry[1:], WANTED.get(entry[0], [])):
                if wanted is not None and self.kind(number) != wanted:
                    raise Fault("Pool", index)

    def shape(self):
        """All faults with their places are gathered, and the lowest is told: at one place Shape before Unsupported."""
        faults = list(self.header_faults())
        faults += self.member_faults(self.fields, self.field_faults)
        faults += self.member_faults(self.methods, self.method_faults)
        faults += [(place, "Shape") for place, name, _ in self.attributes if self.kind(name) != "Utf8"]
        if faults:
            place, name = min(faults)
            raise Fault(name, place)

    def header_faults(self):
        is_object = self.class_name(self.this_class) == "java/lang/Object"
        if self.kind(self.this_class) != "Class":
            yield self.place + 2, "Shape"
        if self.kind(self.super_class) != "Class" and not (self.super_class == 0 and is_object):
            yield self.place + 4, "Shape"
        if self.flags & 0x0200 and self.class_name(self.super_class) != "java/lang/Object":
            yield self.place + 4, "Shape"
        for number, index in enumerate(self.interfaces):
            if self.kind(index) != "Class":
                yield self.place + 8 + 2 * number, "Shape"

    def member_faults(self, members, more):
        seen = set()
        for place, flags, name, descriptor, attributes in members:
            key = (self.text(name), self.text(descriptor))
            if None not in key and key in seen:
                yield place, "Shape"
            seen.add(key)
            for attribute_place, attribute_name, _ in attributes:
                if self.kind(attribute_name) != "Utf8":
                    yield attribute_place, "Shape"
            yield from more(place, flags, self.text(name), self.text(descriptor), attributes)

    def named(self, attributes, name):
        return [(place, content) for place, index, content in attributes if self.text(index) == name]

    def field_faults(self, place, flags, name, descriptor, attributes):
        constants = self.named(attributes, "ConstantValue")
        if len(constants) > 1 or self.flags & 0x0200 and not flags & 0x0008:
            yield place, "Shape"
        if not name or set(name) & set(".;[/"):
            yield place + 2, "Shape"
        verdict = False if descriptor is None else field_descriptor(descriptor)
        if verdict is not True:
            yield place + 4, "Unsupported" if verdict == "Float" else "Shape"
        if flags & 0x0008:
            for at, content in constants:
                kinds = {"Z": "Integer", "B": "Integer", "C": "Integer", "S": "Integer", "I": "Integer", "J": "Long", "Ljava/lang/String;": "String"}
                entry = self.kind(int.from_bytes(content, "big")) if len(content) == 2 else None
                if entry is None or kinds.get(descriptor) != entry:
                    yield at, "Shape"

    def method_faults(self, place, flags, name, descriptor, attributes):
        codes = self.named(attributes, "Code")
        has_none = bool(flags & 0x0500)
        if len(codes) != (0 if has_none else 1):
            yield place, "Shape"
        if self.flags & 0x0200 and codes and name != "<clinit>":
            if self.major < 52:
                yield place, "Unsupported"
            elif flags & 0x0003 not in (0x0001, 0x0002) or flags & 0x0034:
                yield place, "Shape"
        if not name or set(name) & set(".;[/") or name not in ("<init>", "<clinit>") and set(name) & set("<>"):
            yield place + 2, "Shape"
        slots = None if descriptor is None else slots_of(descriptor)
        if slots == "Float":
            yield place + 4, "Unsupported"
        elif slots is None or slots + (0 if flags & 0x0008 else 1) > 255:
            yield place + 4, "Shape"
        for at, content in codes:
            try:
                code = read_code(content, at + 6)
            except Fault:
                yield at, "Shape"
                continue
            for inner, index, _ in code[4]:
                if self.kind(index) != "Utf8":
                    yield inner, "Shape"


def read_code(content, place):
    data = Bytes(content, place)
    max_stack, max_locals = data.number(2), data.number(2)
    code = data.take(data.number(4))
    rows = [tuple(data.number(2) for _ in range(4)) for _ in range(data.number(2))]
    attributes = read_attributes(data)
    if data.place < len(content) or not 1 <= len(code) <= 65535:
        raise Fault("Shape", place)
    return max_stack, max_locals, code, rows, attributes


# ---- the code of a method

def opcodes(*ranges):
    return {op for low, high in ranges for op in range(low, high + 1)}


PLAIN = opcodes((0x00, 0x0A), (0x1A, 0x21), (0x2A, 0x2F), (0x32, 0x35), (0x3B, 0x42), (0x4B, 0x50), (0x53, 0x61), (0x64, 0x65), (0x68, 0x69),
                (0x6C, 0x6D), (0x70, 0x71), (0x74, 0x75), (0x78, 0x83), (0x85, 0x85), (0x88, 0x88), (0x91, 0x94), (0xAC, 0xAD), (0xB0, 0xB1),
                (0xBE, 0xBF), (0xC2, 0xC3))
LOCALS = opcodes((0x15, 0x16), (0x19, 0x19), (0x36, 0x37), (0x3A, 0x3A))
JUMPS = opcodes((0x99, 0xA7), (0xC6, 0xC7))
POOLS = opcodes((0x13, 0x14), (0xB2, 0xB8), (0xBB, 0xBB), (0xBD, 0xBD), (0xC0, 0xC1))
LEFT_OUT = opcodes((0x0B, 0x0F), (0x17, 0x18), (0x22, 0x29), (0x30, 0x31), (0x38, 0x39), (0x43, 0x4A), (0x51, 0x52), (0x62, 0x63), (0x66, 0x67),
                   (0x6A, 0x6B), (0x6E, 0x6F), (0x72, 0x73), (0x76, 0x77), (0x86, 0x87), (0x89, 0x90), (0x95, 0x98), (0xA8, 0xA9), (0xAE, 0xAF),
                   (0xBA, 0xBA), (0xC9, 0xC9))


class CodeFault(Exception):
    """A kind of fault of one instruction."""


def signed(data, at, count):
    if at + count > len(data):
        raise CodeFault("BadOpcode")
    return int.from_bytes(data[at:at + count], "big", signed=True)


def unsigned(data, at, count):
    return signed(data, at, count) % (1 << 8 * count)


def instruction(code, at):
    """The opcode, its operands by name, and the place behind it."""
    op = code[at]
    if op == 0xC4:
        return wide(code, at)
    if op in LEFT_OUT:
        raise CodeFault("Unsupported")
    if op in PLAIN:
        return op, {}, at + 1
    if op == 0x10:
        signed(code, at + 1, 1)
        return op, {}, at + 2
    if op == 0x11:
        signed(code, at + 1, 2)
        return op, {}, at + 3
    if op == 0x12:
        return op, {"index": unsigned(code, at + 1, 1)}, at + 2
    if op in POOLS:
        return op, {"index": unsigned(code, at + 1, 2)}, at + 3
    if op in LOCALS:
        return op, {"local": unsigned(code, at + 1, 1)}, at + 2
    if op == 0x84:
        signed(code, at + 1, 2)
        return op, {"local": unsigned(code, at + 1, 1)}, at + 3
    if op in JUMPS:
        return op, {"targets": [at + signed(code, at + 1, 2)]}, at + 3
    if op == 0xC8:
        return op, {"targets": [at + signed(code, at + 1, 4)]}, at + 5
    if op in (0xAA, 0xAB):
        return switch(code, at, op)
    if op == 0xB9:
        unsigned(code, at + 1, 4)
        return op, {"index": unsigned(code, at + 1, 2), "count": code[at + 3], "last": code[at + 4]}, at + 5
    if op == 0xBC:
        return op, {"kind": unsigned(code, at + 1, 1)}, at + 2
    if op == 0xC5:
        unsigned(code, at + 1, 3)
        return op, {"index": unsigned(code, at + 1, 2), "dims": code[at + 3]}, at + 4
    raise CodeFault("BadOpcode")


def wide(code, at):
    if at + 1 >= len(code):
        raise CodeFault("BadOpcode")
    op = code[at + 1]
    if op in (0x17, 0x18, 0x38, 0x39, 0xA9):
        raise CodeFault("Unsupported")
    if op in LOCALS:
        return op, {"local": unsigned(code, at + 2, 2)}, at + 4
    if op == 0x84:
        unsigned(code, at + 2, 4)
        return op, {"local": unsigned(code, at + 2, 2)}, at + 6
    raise CodeFault("BadOpcode")


def switch(code, at, op):
    place = at + 1
    while place % 4:
        place += 1
    otherwise = at + signed(code, place, 4)
    if op == 0xAA:
        low, high = signed(code, place + 4, 4), signed(code, place + 8, 4)
        if low > high:
            raise CodeFault("BadSwitch")
        end = place + 12 + 4 * (high - low + 1)
        if end > len(code):
            raise CodeFault("BadOpcode")
        return op, {"targets": [otherwise] + [at + signed(code, row, 4) for row in range(place + 12, end, 4)]}, end
    count = signed(code, place + 4, 4)
    if count < 0:
        raise CodeFault("BadSwitch")
    end = place + 8 + 8 * count
    if end > len(code):
        raise CodeFault("BadOpcode")
    keys = [signed(code, row, 4) for row in range(place + 8, end, 8)]
    if any(one >= other for one, other in zip(keys, keys[1:])):
        raise CodeFault("BadSwitch")
    return op, {"targets": [otherwise] + [at + signed(code, row, 4) for row in range(place + 12, end, 8)]}, end


def member_name(file, index):
    """The name and descriptor of the member that an entry leads to."""
    _, name, descriptor = file.pool[file.pool[index][2]]
    return file.text(name), file.text(descriptor)


def has_bad_index(file, op, operands):
    if op == 0xBC:
        return operands["kind"] not in (4, 5, 8, 9, 10, 11)
    if "index" not in operands:
        return False
    index = operands["index"]
    kind = file.kind(index)
    wanted = {0x12: {"Integer", "String", "Class"}, 0x13: {"Integer", "String", "Class"}, 0x14: {"Long"}, 0xB6: {"Methodref"},
              0xB7: {"Methodref", "InterfaceMethodref"}, 0xB8: {"Methodref", "InterfaceMethodref"}, 0xB9: {"InterfaceMethodref"},
              **{field: {"Fieldref"} for field in range(0xB2, 0xB6)}}.get(op, {"Class"})
    if kind not in wanted:
        return True
    if 0xB6 <= op <= 0xB9:
        name, descriptor = member_name(file, index)
        if name.startswith("<") and not (name == "<init>" and op == 0xB7):
            return True
        if op == 0xB9:
            slots = slots_of(descriptor)
            return slots in (None, "Float") or operands["count"] != slots + 1 or operands["last"] != 0
    if op in (0xBB, 0xBD, 0xC5):
        name = file.class_name(index)
        dims = len(name) - len(name.lstrip("["))
        return op == 0xBB and dims > 0 or op == 0xBD and dims >= 255 or op == 0xC5 and not 1 <= operands["dims"] <= dims
    return False


def has_bad_local(op, operands, max_locals):
    local = operands.get("local")
    for first, last, base in ((0x1A, 0x2D, 0x1A), (0x3B, 0x4E, 0x3B)):
        if first <= op <= last:
            local = (op - base) % 4
    if local is None:
        return False
    is_long = op in (0x16, 0x37) or 0x1E <= op <= 0x21 or 0x3F <= op <= 0x42
    return local + (1 if is_long else 0) >= max_locals


def check_code(file, number, flags, descriptor, content):
    max_stack, max_locals, code, rows, _ = read_code(content, 0)
    placed, at = [], 0
    while at < len(code):
        try:
            op, operands, following = instruction(code, at)
        except CodeFault as fault:
            raise Bad(number, at, str(fault)) from None
        placed.append((at, op, operands))
        at = following
    starts = {at for at, _, _ in placed}
    parameters = slots_of(file.text(descriptor)) + (0 if flags & 0x0008 else 1)
    for at, op, operands in placed:
        if not set(operands.get("targets", [])) <= starts:
            raise Bad(number, at, "BadTarget")
        if has_bad_index(file, op, operands):
            raise Bad(number, at, "BadIndex")
        if has_bad_local(op, operands, max_locals) or at == 0 and parameters > max_locals:
            raise Bad(number, at, "BadLocal")
        if at == placed[-1][0] and op not in (0xA7, 0xC8, 0xAA, 0xAB, 0xAC, 0xAD, 0xB0, 0xB1, 0xBF):
            raise Bad(number, at, "OffEnd")
    for row, (start, end, handler, catch_class) in enumerate(rows):
        if (max_stack == 0 or start >= end or start not in starts or handler not in starts or end not in starts | {len(code)}
                or catch_class != 0 and file.kind(catch_class) != "Class"):
            raise Bad(number, row, "BadHandler")


def check(file):
    for number, (_, flags, _, descriptor, attributes) in enumerate(file.methods):
        for _, content in file.named(attributes, "Code"):
            check_code(file, number, flags, descriptor, content)


def verdict(data):
    """What is wrong with a class file or with its code, or `Ok`."""
    try:
        check(ClassFile(data))
    except (Fault, Bad) as fault:
        return str(fault)
    return "Ok"


def places_of(data):
    """The place behind the constant pool, and the places of the flags of the class and of its methods."""
    reader = Bytes(data)
    reader.take(8)
    read_pool(reader)
    body = reader.at()
    reader.take(6)
    reader.take(2 * reader.number(2))
    read_members(reader)
    return body, [body] + [place for place, *_ in read_members(reader)]
