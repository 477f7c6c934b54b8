"""Class files of at most 1,048,576 bytes that are the worst for one of the loops of the reader or of the checks each."""
import struct

MOST = 1_048_576


def u1(n):
    return struct.pack(">B", n)


def u2(n):
    return struct.pack(">H", n)


def u4(n):
    return struct.pack(">I", n)


class Pool:
    def __init__(self):
        self.entries = []
        self.size = 0

    def add(self, entry):
        self.entries.append(entry)
        self.size += len(entry)
        return len(self.entries)

    def text(self, text):
        data = text.encode("ascii") if isinstance(text, str) else text
        return self.add(b"\1" + u2(len(data)) + data)

    def one(self, tag, index):
        return self.add(u1(tag) + u2(index))

    def two(self, tag, one, other):
        return self.add(u1(tag) + u2(one) + u2(other))

    def class_of(self, name):
        return self.one(7, self.text(name))

    def room(self):
        return 65534 - len(self.entries)

    def written(self):
        return u2(len(self.entries) + 1) + b"".join(self.entries)


class File:
    """A class named A, whose super class is java/lang/Object, under construction."""

    def __init__(self):
        self.pool = Pool()
        self.this, self.super = self.pool.class_of("A"), self.pool.class_of("java/lang/Object")
        self.code_name = self.pool.text("Code")
        self.interfaces, self.fields, self.methods, self.attributes = [], [], [], []
        self.size = 26

    def room(self):
        return MOST - self.size - self.pool.size

    def add(self, members, member):
        members.append(member)
        self.size += len(member)

    def field(self, name, descriptor, attributes=b"\0\0"):
        self.add(self.fields, u2(0) + u2(name) + u2(descriptor) + attributes)

    def abstract(self, name, descriptor):
        self.add(self.methods, u2(0x0401) + u2(name) + u2(descriptor) + b"\0\0")

    def method(self, name, descriptor, code, rows=b"", inner=b"\0\0", stack=2, local_count=2):
        content = u2(stack) + u2(local_count) + u4(len(code)) + code + u2(len(rows) // 8) + rows + inner
        self.add(self.methods, u2(0x0008) + u2(name) + u2(descriptor) + u2(1) + u2(self.code_name) + u4(len(content)) + content)

    def written(self):
        data = (b"\xca\xfe\xba\xbe" + u2(0) + u2(52) + self.pool.written() + u2(0x0421) + u2(self.this) + u2(self.super)
                + u2(len(self.interfaces)) + b"".join(map(u2, self.interfaces)) + u2(len(self.fields)) + b"".join(self.fields)
                + u2(len(self.methods)) + b"".join(self.methods) + u2(len(self.attributes)) + b"".join(self.attributes))
        assert len(data) <= MOST, len(data)
        return data


def name_of(number):
    """A name of three letters, another for each number below 140,608."""
    letters = "abcdefghijklmnopqrstuvwxyzABCDEFGHIJKLMNOPQRSTUVWXYZ"
    return letters[number % 52] + letters[number // 52 % 52] + letters[number // 2704]


def different_fields():
    """As many fields with different names as there are indices."""
    file = File()
    descriptor = file.pool.text("I")
    for number in range(file.pool.room()):
        file.field(file.pool.text(name_of(number)), descriptor)
    return file.written()


def different_methods():
    """The same of abstract methods."""
    file = File()
    descriptor = file.pool.text("()V")
    for number in range(file.pool.room()):
        file.abstract(file.pool.text(name_of(number)), descriptor)
    return file.written()


def one_name():
    """Fields that all have one name of 65,535 letters, and different descriptors."""
    file = File()
    name = file.pool.text("n" * 65535)
    while file.pool.room() and file.room() > 24:
        file.field(name, file.pool.text("L" + name_of(len(file.fields)) + ";"))
    return file.written()


def one_descriptor():
    """Abstract methods that all have one descriptor of 65,535 letters, and different names."""
    file = File()
    descriptor = file.pool.text("(L" + "d" * 65530 + ";)V")
    while file.pool.room() and file.room() > 24:
        file.abstract(file.pool.text(name_of(len(file.methods))), descriptor)
    return file.written()


def equal_texts():
    """A constant pool full of equal texts."""
    file = File()
    descriptor = file.pool.text("I")
    first = file.pool.text("a" * 11)
    while file.pool.room() and file.room() > 24:
        file.pool.text("a" * 11)
    file.field(first, descriptor)
    return file.written()


def alike_texts():
    """Texts that differ at their ends alone."""
    file = File()
    while file.room() > 1050:
        file.pool.text("a" * 1000 + name_of(len(file.pool.entries)))
    return file.written()


def many_numbers():
    """The constant pool full of longs."""
    file = File()
    while file.pool.room() >= 2 and len(file.pool.entries) < 65000:
        file.pool.add(b"\5" + bytes(8))
        file.pool.entries.append(b"")
    return file.written()


def deep_descriptors():
    """Fields of 255 dimensions, with different descriptors."""
    file = File()
    name = file.pool.text("f")
    while file.room() > 300:
        file.field(name, file.pool.text("[" * 255 + "L" + name_of(len(file.fields)) + ";"))
    return file.written()


def many_interfaces():
    """As many superinterfaces as there can be."""
    file = File()
    file.interfaces = [file.super] * 65535
    file.size += 131070
    return file.written()


def many_attributes():
    """Attributes with no content, of the class and of its fields."""
    file = File()
    other = file.pool.text("Other")
    empty = u2(other) + u4(0)
    file.attributes = [empty] * 65535
    file.size += 6 * 65535
    descriptor = file.pool.text("I")
    file.field(file.pool.text("f"), descriptor, u2(65535) + empty * 65535)
    return file.written()


def inner_attributes():
    """Attributes with no content, of a method's code."""
    file = File()
    empty = u2(file.pool.text("Other")) + u4(0)
    descriptor = file.pool.text("()V")
    for number in range(2):
        file.method(file.pool.text(name_of(number)), descriptor, b"\xb1", inner=u2(65535) + empty * 65535)
    return file.written()


def full_code(one, last=b"\xb1", prepare=None):
    """Methods whose code is full of one instruction."""
    file = File()
    instruction = one if prepare is None else prepare(file)
    code = instruction * ((65535 - len(last)) // len(instruction)) + last
    descriptor = file.pool.text("()V")
    while file.room() > len(code) + 100:
        file.method(file.pool.text(name_of(len(file.methods))), descriptor, code)
    return file.written()


def nothing_but_nop():
    """Code of the shortest instructions."""
    return full_code(b"\0")


def jumps():
    """Code of jumps to the beginning of the code's next instruction."""
    return full_code(b"\xa7\0\3")


def interface_calls():
    """Calls of one interface method, whose descriptor has 65,535 letters."""
    def prepare(file):
        kind = file.pool.two(12, file.pool.text("m"), file.pool.text("(L" + "d" * 65530 + ";)V"))
        return b"\xb9" + u2(file.pool.two(11, file.this, kind)) + b"\2\0"
    return full_code(None, prepare=prepare)


def deep_arrays():
    """`anewarray` of a class with 254 dimensions."""
    return full_code(None, prepare=lambda file: b"\xbd" + u2(file.pool.class_of("[" * 254 + "I")))


def multi_arrays():
    """`multianewarray` of a class with 255 dimensions."""
    return full_code(None, prepare=lambda file: b"\xc5" + u2(file.pool.class_of("[" * 255 + "I")) + b"\xff")


def table_switches():
    """Switches by position that fill the code."""
    rows = (65535 - 16) // 4
    code = b"\xaa\0\0\0" + u4(0) + u4(0) + u4(rows - 1) + bytes(4 * rows)
    return switches(code)


def key_switches():
    """Switches by key that fill the code."""
    rows = (65535 - 12) // 8
    code = b"\xab\0\0\0" + u4(0) + u4(rows) + b"".join(u4(key) + u4(0) for key in range(rows))
    return switches(code)


def switches(code):
    file = File()
    descriptor = file.pool.text("()V")
    while file.room() > len(code) + 100:
        file.method(file.pool.text(name_of(len(file.methods))), descriptor, code)
    return file.written()


def exception_rows():
    """As many exception rows as fit, in as few methods as can hold them."""
    file = File()
    descriptor = file.pool.text("()V")
    for count in (65535, 65000):
        file.method(file.pool.text(name_of(count)), descriptor, b"\xb1", rows=(u2(0) + u2(1) + u2(0) + u2(0)) * count)
    return file.written()


def short_methods():
    """As many methods as fit, each of one instruction."""
    file = File()
    descriptor = file.pool.text("()V")
    while file.room() > 40:
        file.method(file.pool.text(name_of(len(file.methods))), descriptor, b"\xb1")
    return file.written()


def claims():
    """Short files that claim to be long: each with the fault that it has."""
    head = b"\xca\xfe\xba\xbe" + u2(0) + u2(52)
    body = u2(0x21) + u2(2) + u2(4) + u2(0)
    pool = u2(8) + b"\1\0\1A\7\0\1\1\0\x10java/lang/Object\7\0\3\1\0\4Code\1\0\1m\1\0\3()V"
    yield "a pool count of 65,535", head + u2(65535), "Truncated(10)"
    yield "65,535 fields", head + pool + body + u2(65535), f"Truncated({len(head + pool + body) + 2})"
    start = head + pool + body + u2(0) + u2(1) + u2(8) + u2(6) + u2(7) + u2(1) + u2(5)
    yield "an attribute of 4 GiB", start + b"\xff" * 4, f"Truncated({len(start) + 4})"
    content = u2(1) + u2(1) + u4(65535) + b"\xb1" + u2(0) + u2(0)
    yield "code of 65,535 bytes", start + u4(len(content)) + content + u2(0), f"Shape({len(start) - 2})"
    for dims, expected in ((255, "Ok"), (256, "Shape")):
        field = head + u2(7) + b"\1\0\1A\7\0\1\1\0\x10java/lang/Object\7\0\3\1\0\1f\1" + u2(dims + 1) + b"[" * dims + b"I" + body
        place = f"({len(field) + 2 + 4})" if dims == 256 else ""
        yield f"a field of {dims} dimensions", field + u2(1) + u2(0) + u2(5) + u2(6) + u2(0) + u2(0) + u2(0), expected + place


FILES = [different_fields, different_methods, one_name, one_descriptor, equal_texts, alike_texts, many_numbers, deep_descriptors,
         many_interfaces, many_attributes, inner_attributes, nothing_but_nop, jumps, interface_calls, deep_arrays, multi_arrays,
         table_switches, key_switches, exception_rows, short_methods]
