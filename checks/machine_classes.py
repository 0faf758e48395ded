"""The classes beside the random methods of checks/machine_as_the_jvm, and a small assembler.

A method is a list of items: instructions, jumps to labels, and the labels. It is assembled twice. The plain form is what the machine
runs. In the logged form, which a JVM runs, each float operation is a call of `Floats`, which does the same and tells of it, and each
monitor instruction is followed by a call of `Log`.
"""
import struct

OBJECT, THROWABLE, RUNTIME = "java/lang/Object", "java/lang/Throwable", "java/lang/RuntimeException"
STRING, CLONEABLE, SERIALIZABLE = "java/lang/String", "java/lang/Cloneable", "java/io/Serializable"
ARITHMETIC, NULL_POINTER = "java/lang/ArithmeticException", "java/lang/NullPointerException"
OUT_OF_BOUNDS, ARRAY_STORE = "java/lang/ArrayIndexOutOfBoundsException", "java/lang/ArrayStoreException"
NEGATIVE_SIZE, CLASS_CAST = "java/lang/NegativeArraySizeException", "java/lang/ClassCastException"
RAISED = [ARITHMETIC, NULL_POINTER, OUT_OF_BOUNDS, ARRAY_STORE, NEGATIVE_SIZE, CLASS_CAST]

# The classes directly above each class.
ABOVE = {
    "Top": [OBJECT, "Face"], "Mid": ["Top"], "Low": ["Mid"], "G": ["Mid"], "X": [RUNTIME], "Y": ["X"], "Face": [OBJECT],
    STRING: [OBJECT, SERIALIZABLE, "java/lang/CharSequence", "java/lang/Comparable"], "java/lang/Class": [OBJECT, SERIALIZABLE],
    THROWABLE: [OBJECT, SERIALIZABLE], "java/lang/Exception": [THROWABLE], RUNTIME: ["java/lang/Exception"],
    "java/lang/IndexOutOfBoundsException": [RUNTIME], OUT_OF_BOUNDS: ["java/lang/IndexOutOfBoundsException"],
    **{name: [RUNTIME] for name in RAISED if name != OUT_OF_BOUNDS},
    CLONEABLE: [OBJECT], SERIALIZABLE: [OBJECT], "java/lang/CharSequence": [OBJECT], "java/lang/Comparable": [OBJECT], OBJECT: [],
}
ARRAYS = ["[I", "[Z", "[B", "[C", "[S", "[J", "[F", "[D", "[LTop;", "[LMid;", f"[L{OBJECT};", "[[I"]
# All classes that an instruction names or an object may be of.
UNIVERSE = [*ABOVE, *ARRAYS, "[[LTop;", "[LFace;", "[LG;", "[LLow;"]
# The objects that there are before a method begins: classes, and arrays with their lengths. The last one is `this`.
POOL = ["Top", "Top", "Mid", "Mid", "Low", "X", "Y", ARITHMETIC, NULL_POINTER, OBJECT, ("[I", 3), ("[Z", 2), ("[B", 2), ("[C", 3), ("[S", 2),
        ("[J", 2), ("[F", 2), ("[D", 2), ("[LTop;", 3), ("[LMid;", 2), (f"[L{OBJECT};", 2), ("[[I", 2), "G"]

# The fields that each class declares, all static ones named s, and all others x: they differ by their descriptors alone.
FIELDS = {
    "Top": ["I", "J", "F", "D", "Z", "B", "C", "S", f"L{OBJECT};", "LTop;", "[I"], "Mid": ["I", "J", "LTop;"], "Low": ["S"], "G": [],
}
STATICS = {
    "Top": ["I", "J", "F", "D", "Z", "B", "C", "S", f"L{OBJECT};", "LMid;"], "Mid": ["I", "D"], "Low": ["Z"], "G": [],
}

# The methods that are called: sort, class, name, parameters, result.
METHODS = [
    ("static", "Log", "s0", [], "V"), ("static", "Log", "s1", ["I"], "I"), ("static", "Log", "s2", ["J", "I"], "J"),
    ("static", "Log", "s3", ["F", "D"], "F"), ("static", "Log", "s4", [f"L{OBJECT};"], f"L{OBJECT};"),
    ("static", "Log", "s5", ["LTop;", "LMid;"], "LTop;"), ("static", "Log", "s6", ["[I", "I"], "[I"),
    ("static", "Log", "s7", ["B", "S", "C", "Z"], "V"), ("static", "Log", "s8", ["D", "J"], "D"),
    ("static", "Log", "s9", [], "Z"), ("static", "Log", "s10", [], "B"), ("static", "Log", "s11", [], "S"),
    ("static", "Log", "s12", [], "C"), ("static", "Log", "s13", ["LMid;"], "LMid;"), ("static", "Log", "s14", [], "[LTop;"),
    ("static", "Log", "s15", [f"L{THROWABLE};"], "LX;"), ("static", "Log", "s16", ["J", "D", "I"], "V"),
    ("static", "Log", "s17", [f"L{OBJECT};", "J"], f"[L{OBJECT};"),
    ("virtual", "Top", "v1", ["I", "J"], "I"), ("virtual", "Top", "v2", [], "LTop;"), ("virtual", "Mid", "v3", ["D"], "D"),
    ("virtual", "Mid", "v4", [f"L{OBJECT};", "F"], "V"), ("virtual", "Top", "v5", ["S"], "J"),
    ("interface", "Face", "i1", ["I", f"L{OBJECT};"], "I"), ("interface", "Face", "i2", ["J"], "J"), ("interface", "Face", "i3", [], "V"),
    ("special", "Mid", "p1", ["I", "D"], "I"), ("special", "Mid", "p2", [], "V"), ("special", "Mid", "p3", ["J"], "LMid;"),
    ("special", "Top", "<init>", [], "V"), ("special", "Top", "<init>", ["I", "J"], "V"), ("special", "Mid", "<init>", [], "V"),
    ("special", "Mid", "<init>", ["D", "LTop;"], "V"), ("special", "Low", "<init>", ["LTop;"], "V"), ("special", "X", "<init>", [], "V"),
    ("special", "X", "<init>", ["I"], "V"), ("special", "Y", "<init>", ["J"], "V"),
]
# Those that invokedynamic calls: name, parameters, result.
DYNAMICS = [("d1", ["I", "J"], "I"), ("d2", [], "J"), ("d3", ["F", "D", "LTop;"], "F"), ("d4", ["D"], "D"),
            ("d5", [f"L{OBJECT};", "I"], f"L{OBJECT};"), ("d6", ["J"], "V"), ("d7", [], "LTop;")]
BOOT = "(Ljava/lang/invoke/MethodHandles$Lookup;Ljava/lang/String;Ljava/lang/invoke/MethodType;)Ljava/lang/invoke/CallSite;"
SORTS = {"virtual": 182, "special": 183, "static": 184, "interface": 185}
CONSTRUCTED = ["Top", "Mid", "Low", "X", "Y"]

# Float operations: what they take, and what they give.
FLOATS = {
    **{98 + 4 * i: ("FF", "F") for i in range(5)}, **{99 + 4 * i: ("DD", "D") for i in range(5)}, 118: ("F", "F"), 119: ("D", "D"),
    134: ("I", "F"), 135: ("I", "D"), 137: ("J", "F"), 138: ("J", "D"), 139: ("F", "I"), 140: ("F", "J"), 141: ("F", "D"),
    142: ("D", "I"), 143: ("D", "J"), 144: ("D", "F"), 149: ("FF", "I"), 150: ("FF", "I"), 151: ("DD", "I"), 152: ("DD", "I"),
}
# What is computed of ints and longs, likewise.
WHOLES = {
    **{96 + 4 * i: ("II", "I") for i in range(5)}, **{97 + 4 * i: ("JJ", "J") for i in range(5)},
    **{120 + 2 * i: ("II", "I") for i in range(6)}, **{121 + 2 * i: ("JJ" if i > 2 else "JI", "J") for i in range(6)},
    116: ("I", "I"), 117: ("J", "J"), 133: ("I", "J"), 136: ("J", "I"), 145: ("I", "I"), 146: ("I", "I"), 147: ("I", "I"), 148: ("JJ", "I"),
}
ELEMENTS = {"I": 0, "J": 1, "F": 2, "D": 3, "Z": 5, "B": 5, "C": 6, "S": 7}
NEWARRAY = {"Z": 4, "C": 5, "F": 6, "D": 7, "B": 8, "S": 9, "I": 10, "J": 11}
INTS = [0, 1, -1, 2, 3, 31, 32, 33, 63, 64, 127, 128, -128, -129, 255, 256, 32767, 32768, -32768, -32769, 65535, 65536, 2**31 - 1, -2**31]
LONGS = [*INTS, 2**31, 2**32, -2**32, 2**63 - 1, -2**63, 2**40 + 5, -2**40 - 7]
FLOAT_BITS = [0, 1 << 31, 0x3F800000, 0xBF800000, 0x40490FDB, 0x7F800000, 0xFF800000, 0x7FC00000, 0x7F7FFFFF, 1, 0x4F000000, 0x5F000000]
DOUBLE_BITS = [0, 1 << 63, 0x3FF0000000000000, 0xBFF0000000000000, 0x400921FB54442D18, 0x7FF0000000000000, 0xFFF0000000000000,
               0x7FF8000000000000, 0x7FEFFFFFFFFFFFFF, 1, 0x41E0000000000000, 0x43E0000000000000]
WORDS = ["a", "bc", "abc"]


def is_reference(of):
    return of not in ("I", "J", "F", "D")


def name_of(descriptor):
    """The type on the stack of what has this descriptor."""
    return "I" if descriptor in "ZBCSI" else descriptor[1:-1] if descriptor[0] == "L" else descriptor


def descriptor_of(name):
    return name if name[0] == "[" or not is_reference(name) else f"L{name};"


def is_below(name, of):
    """Whether a class is another one or below it."""
    if name == of or of == OBJECT:
        return True
    if name[0] == "[":
        if of in (CLONEABLE, SERIALIZABLE):
            return True
        inner, outer = name[1:], of[1:]
        return of[0] == "[" and inner[0] in "[L" and outer[0] in "[L" and is_below(name_of(inner), name_of(outer))
    return any(is_below(above, of) for above in ABOVE.get(name, []))


def holder(table, named, descriptor):
    """The class that declares the field, from the class that is named upwards."""
    while descriptor not in table.get(named, []):
        if named == OBJECT:
            return None
        named = ABOVE[named][0]
    return named


class Pool:
    """The constants of a class file."""

    def __init__(self):
        self.entries, self.places, self.next = [], {}, 1

    def add(self, data, places=1):
        if data not in self.places:
            self.places[data] = self.next
            self.entries.append(data)
            self.next += places
        return self.places[data]

    def text(self, text):
        data = text.encode()
        return self.add(b"\1" + struct.pack(">H", len(data)) + data)

    def pair(self, tag, first, second):
        return self.add(struct.pack(">BHH", tag, first, second))

    def cls(self, name):
        return self.add(struct.pack(">BH", 7, self.text(name)))

    def string(self, text):
        return self.add(struct.pack(">BH", 8, self.text(text)))

    def boot(self):
        """The handle of the method that links dynamic calls."""
        return self.add(struct.pack(">BBH", 15, 6, self.member(10, "Log", "boot", BOOT)))

    def dynamic(self, name, descriptor):
        return self.pair(18, 0, self.pair(12, self.text(name), self.text(descriptor)))

    def method_type(self, descriptor):
        return self.add(struct.pack(">BH", 16, self.text(descriptor)))

    def member(self, tag, owner, name, descriptor):
        return self.pair(tag, self.cls(owner), self.pair(12, self.text(name), self.text(descriptor)))


def class_file(version, pool, name, above, methods):
    """The bytes of a class, with a method for dynamic calls from version 51 on. A method is its flags, name and descriptor, and its code's four parts."""
    this, over, code_name = pool.cls(name), pool.cls(above), pool.text("Code")
    body, tail = b"", b"\0\0"
    if version > 50:
        tail = struct.pack(">HHIHHH", 1, pool.text("BootstrapMethods"), 6, 1, pool.boot(), 0)
    for access, method, descriptor, (stack, slots, code, table) in methods:
        info = struct.pack(">HHI", stack, slots, len(code)) + code + struct.pack(">H", len(table))
        info += b"".join(struct.pack(">HHHH", *row) for row in table) + b"\0\0"
        body += struct.pack(">HHHHHI", access, pool.text(method), pool.text(descriptor), 1, code_name, len(info)) + info
    head = struct.pack(">IHHH", 0xCAFEBABE, 0, version, pool.next) + b"".join(pool.entries)
    return head + struct.pack(">HHHHHH", 0x21, this, over, 0, 0, len(methods)) + body + tail


def logged(item, pool):
    """The item as the JVM runs it."""
    if item[0] == "float":
        takes, gives = FLOATS[item[1]]
        return [("op", 184, struct.pack(">H", pool.member(10, "Floats", f"op{item[1]}", f"({takes}){gives}")))]
    if item[0] == "monitor":
        told = pool.member(10, "Log", "monitor" + str(item[1]), f"(L{OBJECT};)V")
        return [("op", 89, b""), ("op", item[1], b""), ("op", 184, struct.pack(">H", told))]
    return [item]


def plain(item):
    return [("op", item[1], b"")] if item[0] in ("float", "monitor") else [item]


def length(item, at):
    """How many bytes an item takes at an offset."""
    if item[0] == "op":
        return 1 + len(item[2])
    if item[0] == "jump":
        return 5 if item[1] == 200 else 3
    if item[0] == "table":
        return 1 + (3 - at % 4) + 12 + 4 * len(item[3])
    if item[0] == "lookup":
        return 1 + (3 - at % 4) + 8 + 8 * len(item[2])
    return 0


def encoded(item, at, labels):
    if item[0] == "op":
        return bytes([item[1]]) + item[2]
    if item[0] == "jump":
        return struct.pack(">Bi" if item[1] == 200 else ">Bh", item[1], labels[item[2]] - at)
    padding = bytes(3 - at % 4)
    if item[0] == "table":
        _, fallback, low, targets = item
        data = struct.pack(">iii", labels[fallback] - at, low, low + len(targets) - 1)
        return b"\xaa" + padding + data + b"".join(struct.pack(">i", labels[target] - at) for target in targets)
    if item[0] == "lookup":
        _, fallback, cases = item
        data = struct.pack(">ii", labels[fallback] - at, len(cases))
        return b"\xab" + padding + data + b"".join(struct.pack(">ii", key, labels[target] - at) for key, target in cases)
    return b""


def assemble(items, handlers, pool, is_logged):
    """The code, its exception table, and the opcodes by the indexes of the instructions (a wide one with the 196 before it)."""
    flat = [small for item in items for small in (logged(item, pool) if is_logged else plain(item))]
    labels, at, opcodes = {}, 0, []
    for item in flat:
        if item[0] == "label":
            labels[item[1]] = at
        else:
            opcodes.append({"table": 170, "lookup": 171}.get(item[0]) or (item[1] if item[1] != 196 else (196, item[2][0])))
        at += length(item, at)
    code = b""
    for item in flat:
        code += encoded(item, len(code), labels)
    table = [(labels[start], labels[end], labels[target], pool.cls(name) if name else 0) for start, end, target, name in handlers]
    return code, [row for row in table if row[0] < row[1]], opcodes
