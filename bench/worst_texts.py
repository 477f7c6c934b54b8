"""Texts of class files, of at most 1,048,576 bytes, that are the worst for one of the loops of the assembler each, with what is told of each:
nothing where a class file is made of it, else the refusal."""
from worst_files import MOST, name_of

HEAD = 'pool 1 utf8 "A"\npool 2 class #1\npool 3 utf8 "java/lang/Object"\npool 4 class #3\n'
CLASS = "class 1057 #2 #4\n"


def filled(before, line, behind="", most=MOST, first=0, last=10 ** 9):
    """A text with lines, made of their numbers, between two others, as many as fit."""
    lines, size = [], len(before) + len(behind)
    for number in range(first, last):
        one = line(number)
        if size + len(one) > most:
            break
        lines.append(one)
        size += len(one)
    return before + "".join(lines) + behind


def pool_entries():
    """A constant pool of as many entries as fit."""
    return filled(HEAD, lambda n: f"pool {n} int 0\n", CLASS, first=5, last=65535), ""


def longs():
    """A constant pool of longs, which take two indices each."""
    return filled(HEAD, lambda n: f"pool {2 * n + 5} long {n}\n", CLASS, last=32765), ""


def one_entry_too_many():
    """Longs, one more than there are indices for."""
    text = filled(HEAD, lambda n: f"pool {2 * n + 5} long {n}\n", last=32766)
    return text + CLASS, f"line {text.count(chr(10))}: pool"


def different_fields():
    """Fields that all have different names, which are appended."""
    return filled("class 1057 A java/lang/Object\n", lambda n: f"field 0 {name_of(n)} I\n", last=65500), ""


def long_beginnings():
    """Fields whose names share long beginnings."""
    return filled("class 1057 A java/lang/Object\n", lambda n: f"field 0 {'n' * 1000}{name_of(n)} I\n"), ""


def waiting_entries():
    """Entries that lead to indices which are not there yet, and names that come to stand at them."""
    entries = filled(HEAD, lambda n: f"pool {n} class #{n + 21000}\n", first=5, last=21005)
    return filled(entries + CLASS, lambda n: f"field 0 {name_of(n)} I\n", last=20999), ""


def different_members():
    """A code of instructions that each name another field."""
    return filled("class 1057 A java/lang/Object\nmethod 9 m ()V\ncode 2 2\n", lambda n: f"getstatic A.{name_of(n)}:I\n", "return\nend\n", last=21800), ""


def different_texts():
    """A code that loads different string constants."""
    return filled("class 1057 A java/lang/Object\nmethod 9 m ()V\ncode 2 2\n", lambda n: f'ldc_w "{name_of(n)}"\n', "return\nend\n", last=21800), ""


def labels():
    """A code of as many labels as fit, with jumps to different ones."""
    text = filled("class 1057 A java/lang/Object\nmethod 9 m ()V\ncode 2 2\n", lambda n: f"{name_of(n)}:\n", last=65000)
    return filled(text, lambda n: f"goto {name_of(3 * n)}\n", "return\nend\n", last=10000), ""


def far_labels():
    """The same, with jumps that are too far for two bytes: the first of them is told."""
    text = filled("class 1057 A java/lang/Object\nmethod 9 m ()V\ncode 2 2\n", lambda n: f"{name_of(n)}:\n", last=65000)
    first = text.count("\n") + 10923 + 1
    return filled(text, lambda n: f"goto {name_of(3 * n)}\n", "return\nend\n", last=21000), f"line {first}: range"


def unknown_labels():
    """Jumps to labels that stand nowhere."""
    text = filled("class 1057 A java/lang/Object\nmethod 9 m ()V\ncode 2 2\n", lambda n: f"goto {name_of(n)}\n", "end\n")
    return text, f"line {text.count(chr(10))}: label"


def full_switches():
    """Switches that fill the code of their methods."""
    def method(number):
        targets = "a " * ((65535 - 16) // 4)
        return f"method 9 {name_of(number)} ()V\ncode 2 2\na:\ntableswitch 0 {targets}default a\nend\n"
    return filled("class 1057 A java/lang/Object\n", method), ""


def wide_switch():
    """One switch that fills the text, and is longer than a code may be."""
    targets = "a " * 500000
    return f"class 1057 A java/lang/Object\nmethod 9 m ()V\ncode 2 2\na:\ntableswitch 0 {targets}default a\nend\n", "class: shape"


def keys():
    """The same by keys."""
    def method(number):
        rows = "".join(f"{key} a " for key in range((65535 - 12) // 8))
        return f"method 9 {name_of(number)} ()V\ncode 2 2\na:\nlookupswitch {rows}default a\nend\n"
    return filled("class 1057 A java/lang/Object\n", method), ""


def escapes():
    """Quoted texts of escapes alone, as long as an entry may be."""
    return filled(HEAD, lambda n: f'pool {n} utf8 "' + "\\\\" * 65535 + '"\n', CLASS, first=5), ""


def one_quoted_text():
    """One quoted text of half a million escapes, which is longer than an entry may be."""
    return HEAD + 'pool 5 utf8 "' + "\\\\" * 524000 + '"\n' + CLASS, "class:"


def catch_rows():
    """As many rows of an exception table as fit."""
    return filled("class 1057 A java/lang/Object\nmethod 9 m ()V\ncode 2 2\nreturn\n", lambda n: "catch @0 @1 @0 any\n", "end\n"), ""


def single_bytes():
    """Codes of single bytes."""
    def method(number):
        return f"method 9 {name_of(number)} ()V\ncode 0 0\n" + "byte 177\n" * 65535 + "end\n"
    return filled("class 1057 A java/lang/Object\n", method), ""


def short_methods():
    """As many methods as fit."""
    return filled("class 1057 A java/lang/Object\n", lambda n: f"method 9 {name_of(n)} ()V\ncode 0 0\nreturn\nend\n"), ""


def empty_lines():
    """Nothing but line feeds."""
    return "\n" * MOST, f"line {MOST}: order"


def one_word():
    """One word."""
    return "a" * MOST, "line 1: word"


def many_tokens():
    """One line of as many tokens as fit."""
    return "class " + "1 " * (MOST // 2 - 3), "line 1: operand"


def long_number():
    """A number of a million digits."""
    return "version 0 " + "9" * (MOST - 10), "line 1: range"


TEXTS = [pool_entries, longs, one_entry_too_many, different_fields, long_beginnings, waiting_entries, different_members, different_texts, labels,
         far_labels, unknown_labels, full_switches, wide_switch, keys, escapes, one_quoted_text, catch_rows, single_bytes, short_methods,
         empty_lines, one_word, many_tokens, long_number]
