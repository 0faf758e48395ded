"""Typed random methods for checks/machine_as_the_jvm.

They are of class version 49, which needs no stack maps, or of version 51 without jumps and handlers, which needs none either.
"""
import struct

from machine_classes import (
    DYNAMICS,
    ARRAYS, CONSTRUCTED, DOUBLE_BITS, ELEMENTS, FIELDS, FLOATS, FLOAT_BITS, INTS, LONGS, METHODS, NEWARRAY, OBJECT, RAISED,
    RUNTIME, SORTS, STATICS, STRING, THROWABLE, UNIVERSE, WHOLES, WORDS, descriptor_of, holder, is_below, is_reference, name_of,
)


class Method:
    """A random method of the class: its flags, descriptor and items."""

    def __init__(self, rng, pool, this, is_straight):
        self.rng, self.pool, self.this, self.is_straight = rng, pool, this, is_straight
        self.items, self.stack, self.most, self.labels, self.marks = [], [], 0, 0, []
        self.is_static = rng.random() < 0.6
        choices = ["I", "J", "F", "D", "Top", "Mid", OBJECT, "[I", "[LTop;", THROWABLE, "X", *rng.sample(ARRAYS, 2)]
        self.params = [rng.choice(choices) for _ in range(rng.randint(1, 5))]
        self.result = rng.choice(["V", "I", "I", "J", "F", "D", "Z", "B", "C", "S", OBJECT, "Top", "[I"])
        self.locals, self.scratch, self.next = [], {}, 0
        if not self.is_static:
            self.new_local("G")
        for of in self.params:
            self.new_local(of)
        if rng.random() < 0.15:
            self.next = 250 + rng.randint(0, 10)
        self.handlers, self.hot = [], []
        self.generate()

    @property
    def descriptor(self):
        params = "".join(descriptor_of(of) for of in self.params)
        return f"({params}){self.result if len(self.result) == 1 and self.result in 'VIJFDZBCS' else descriptor_of(self.result)}"

    # ---- what is emitted

    def new_local(self, of):
        slot = self.next
        self.next += 2 if of in "JD" else 1
        self.locals.append((slot, of))
        return slot

    def label(self):
        self.labels += 1
        return self.labels

    def put(self, *item):
        if item[0] != "label":
            mark = self.label()
            self.items.append(("label", mark))
            self.marks.append(mark)
        self.items.append(item)
        self.most = max(self.most, sum(2 if of in "JD" else 1 for of in self.stack) + 4)

    def pop(self, count=1):
        del self.stack[len(self.stack) - count:]

    def op(self, opcode, data=b"", pops=0, gives=None):
        self.put("op", opcode, data)
        self.pop(pops)
        if gives:
            self.stack.append(gives)
        self.most = max(self.most, sum(2 if of in "JD" else 1 for of in self.stack) + 4)

    def u16(self, n):
        return struct.pack(">H", n)

    def local(self, base, short, slot, of, pops, gives):
        """A load or a store in one of its forms."""
        kind = "IJFD".find(of) if of in "IJFD" else 4
        form = self.rng.random()
        if slot <= 3 and form < 0.6:
            self.op(short + 4 * kind + slot, b"", pops, gives)
        elif slot <= 255 and form < 0.93:
            self.op(base + kind, bytes([slot]), pops, gives)
        else:
            self.op(196, bytes([base + kind]) + self.u16(slot), pops, gives)

    def load(self, slot, of):
        self.local(21, 26, slot, of, 0, of)

    def store(self, slot, of):
        self.local(54, 59, slot, of, 1, None)

    def constant(self, of):
        rng, pool = self.rng, self.pool
        if of == "I":
            self.int_constant(rng.choice(INTS) if rng.random() < 0.6 else rng.randint(-1, 5))
        elif of == "J":
            n = rng.choice(LONGS)
            if n in (0, 1):
                self.op(9 + n, gives="J")
            else:
                self.op(20, self.u16(pool.add(struct.pack(">Bq", 5, n), 2)), gives="J")
        elif of == "F":
            n = rng.randint(0, 2)
            if rng.random() < 0.4:
                self.op(11 + n, gives="F")
            else:
                self.ldc(pool.add(struct.pack(">BI", 4, rng.choice(FLOAT_BITS))), "F")
        elif rng.random() < 0.3:
            self.op(14 + rng.randint(0, 1), gives="D")
        else:
            self.op(20, self.u16(pool.add(struct.pack(">BQ", 6, rng.choice(DOUBLE_BITS)), 2)), gives="D")

    def ldc(self, index, of):
        if index < 256 and self.rng.random() < 0.7:
            self.op(18, bytes([index]), gives=of)
        else:
            self.op(19, self.u16(index), gives=of)

    def int_constant(self, n):
        if -1 <= n <= 5 and self.rng.random() < 0.9:
            self.op(3 + n, gives="I")
        elif -128 <= n < 128 and self.rng.random() < 0.8:
            self.op(16, struct.pack(">b", n), gives="I")
        elif -32768 <= n < 32768 and self.rng.random() < 0.8:
            self.op(17, struct.pack(">h", n), gives="I")
        else:
            self.ldc(self.pool.add(struct.pack(">Bi", 3, n)), "I")

    # ---- values

    def make(self, of, depth):
        """Puts a value of a type, or of one below it, on the stack."""
        if of in ("Z", "B", "C", "S"):
            self.make("I", depth)
            if of == "Z":
                self.int_constant(1)
                self.op(126, pops=2, gives="I")
            else:
                self.op({"B": 145, "C": 146, "S": 147}[of], pops=1, gives="I")
            return
        known = [(slot, name) for slot, name in [*self.locals, *self.scratch.items()]
                 if (name == of if not is_reference(of) else is_reference(name) and is_below(name, of))]
        if known and self.rng.random() < (0.5 if depth > 0 else 0.9):
            self.load(*self.rng.choice(known))
        elif depth <= 0:
            self.simple(of)
        else:
            self.rng.choice(self.makers(of))(of, depth - 1)
        if is_reference(of):
            self.stack[-1] = of

    def target(self, of, depth):
        """A value that is mostly not null."""
        if self.rng.random() < 0.12:
            self.make(of, depth)
            return
        known = [(slot, name) for slot, name in self.locals if is_reference(name) and is_below(name, of)]
        if known and self.rng.random() < 0.8:
            self.load(*self.rng.choice(known))
        elif of[0] == "[":
            self.new_array(of, 0)
        elif of in CONSTRUCTED:
            self.new_object(self.rng.choice([name for name in CONSTRUCTED if is_below(name, of)]), 0)
        else:
            self.make(of, depth)
        self.stack[-1] = of

    def simple(self, of):
        if not is_reference(of):
            self.constant(of)
        elif of[0] == "[" and self.rng.random() < 0.8:
            self.new_array(of, 0)
        elif of in CONSTRUCTED and self.rng.random() < 0.7:
            self.new_object(of, 0)
        elif of == OBJECT and self.rng.random() < 0.5:
            self.load_constant(of, 0)
        else:
            self.op(1, gives=of)

    def makers(self, of):
        makers = [self.of_call, self.of_call, self.of_field, self.of_field, self.of_dynamic if self.is_straight else self.of_choice]
        if not is_reference(of):
            makers += [self.of_whole] * (8 if of in "IJ" else 0) + [self.of_float] * (2 if of in "IJ" else 6)
            makers += [self.of_element, self.of_element, lambda of, depth: self.constant(of)]
            return makers + ([self.of_test, self.of_test, self.of_length] if of == "I" else [])
        makers += [self.of_element, self.of_cast, lambda of, depth: self.simple(of)]
        if of[0] == "[":
            makers += [self.new_array] * 3
        below = [name for name in CONSTRUCTED if is_below(name, of)]
        if below:
            makers += [lambda of, depth: self.new_object(self.rng.choice(below), depth)] * 2
        return makers + ([self.load_constant] if of == OBJECT else [])

    def compute(self, table, of, depth):
        opcode = self.rng.choice([opcode for opcode, (_, gives) in table.items() if gives == of])
        takes = table[opcode][0]
        for kind in takes:
            self.make(kind, depth)
        return opcode, len(takes)

    def of_whole(self, of, depth):
        opcode, pops = self.compute(WHOLES, of, depth)
        self.op(opcode, pops=pops, gives=of)

    def of_float(self, of, depth):
        opcode, pops = self.compute(FLOATS, of, depth)
        self.put("float", opcode)
        self.pop(pops)
        self.stack.append(of)

    def index(self, depth):
        if self.rng.random() < 0.9:
            self.int_constant(self.rng.choice([0] * 10 + [1] * 10 + [2, 2, 3, -1]))
        else:
            self.make("I", depth)
            if self.rng.random() < 0.7:
                self.int_constant(1)
                self.op(126, pops=2, gives="I")

    def of_element(self, of, depth):
        if not is_reference(of):
            array = self.rng.choice([name for name in ARRAYS if name_of(name[1:]) == of])
        else:
            array = self.rng.choice([name for name in ARRAYS if name[1] in "[L" and is_below(name_of(name[1:]), of)] or [f"[L{OBJECT};"])
        self.target(array, depth)
        self.index(depth)
        self.op(46 + ELEMENTS.get(array[1], 4), pops=2, gives=name_of(array[1:]))
        if is_reference(of) and not is_below(name_of(array[1:]), of):
            self.op(192, self.class_data(of), pops=1, gives=of)

    def of_length(self, of, depth):
        self.target(self.rng.choice(ARRAYS), depth)
        self.op(190, pops=1, gives="I")

    def of_test(self, of, depth):
        self.make(self.rng.choice([OBJECT, OBJECT, "Top", "[LTop;"]), depth)
        self.op(193, self.class_data(self.rng.choice(UNIVERSE)), pops=1, gives="I")

    def class_name(self, name):
        return self.this if name == "G" else f"[L{self.this};" if name == "[LG;" else name

    def class_data(self, name):
        return self.u16(self.pool.cls(self.class_name(name)))

    def of_cast(self, of, depth):
        self.make(OBJECT if self.rng.random() < 0.2 else of, depth)
        self.op(192, self.class_data(of), pops=1, gives=of)

    def load_constant(self, of, depth):
        if self.is_straight and self.rng.random() < 0.4:
            self.ldc(self.rng.choice([self.pool.boot, lambda: self.pool.method_type("(IJ)V")])(), OBJECT)
        elif self.rng.random() < 0.6:
            self.ldc(self.pool.string(self.rng.choice(WORDS)), OBJECT)
        else:
            self.ldc(self.pool.cls(self.rng.choice(["Top", "Face", "[I", STRING])), OBJECT)

    def size(self, depth):
        if self.rng.random() < 0.85:
            self.int_constant(self.rng.choice([0, 1, *[2] * 6, *[3] * 10, -1]))
        else:
            self.make("I", depth)
            self.int_constant(3)
            self.op(126, pops=2, gives="I")

    def new_array(self, of, depth):
        if of[1] == "[" and self.rng.random() < 0.6:
            for _ in range(2):
                self.size(depth)
            self.op(197, self.class_data(of) + b"\2", pops=2, gives=of)
            return
        self.size(depth)
        if of[1] in NEWARRAY:
            self.op(188, bytes([NEWARRAY[of[1]]]), pops=1, gives=of)
        elif self.rng.random() < 0.1:
            self.op(197, self.class_data(of) + b"\1", pops=1, gives=of)
        else:
            inner = name_of(of[1:])
            below = [name for name in ("Top", "Mid", "Low", "G", "[I", "Face") if is_below(name, inner)]
            inner = self.rng.choice(below) if below and self.rng.random() < 0.4 else inner
            self.op(189, self.class_data(inner), pops=1, gives=of)

    def new_object(self, of, depth):
        method = self.rng.choice([method for method in METHODS if method[1:3] == (of, "<init>")])
        self.op(187, self.class_data(of), gives=of)
        self.op(89, gives=of)
        self.call(method, depth)

    def call(self, method, depth):
        """Calls a method whose target, if it has one, is on the stack."""
        sort, owner, name, params, result = method
        for of in params:
            self.make(name_of(of) if of not in "ZBCS" else of, depth)
        descriptor = f"({''.join(params)}){result}"
        index = self.pool.member(11 if sort == "interface" else 10, owner, name, descriptor)
        data = self.u16(index)
        if sort == "interface":
            data += bytes([1 + sum(2 if of in "JD" else 1 for of in params), 0])
        pops = len(params) + (sort != "static")
        self.op(SORTS[sort], data, pops, None if result == "V" else name_of(result))

    def targeted(self, method, depth):
        """Calls a method, with its target."""
        if method[0] == "special":
            self.load(0, "G")
        elif method[0] != "static":
            self.target("Top" if method[1] == "Face" else method[1], depth)
        self.call(method, depth)

    def callable(self):
        return [method for method in METHODS if method[2] != "<init>" and not (method[0] == "special" and self.is_static)]

    def of_call(self, of, depth):
        fits = [method for method in self.callable() if method[4] != "V" and (
            name_of(method[4]) == of if not is_reference(of) else is_reference(name_of(method[4])) and is_below(name_of(method[4]), of))]
        if fits:
            self.targeted(self.rng.choice(fits), depth)
        else:
            self.simple(of)

    def of_dynamic(self, of, depth):
        fits = [method for method in DYNAMICS if name_of(method[2]) == of]
        if fits:
            self.dynamic(self.rng.choice(fits), depth)
        else:
            self.simple(of)

    def dynamic(self, method, depth):
        name, params, result = method
        for of in params:
            self.make(name_of(of), depth)
        index = self.pool.dynamic(name, f"({''.join(params)}){result}")
        self.op(186, self.u16(index) + b"\0\0", len(params), None if result == "V" else name_of(result))

    def field(self, of):
        """A field of a type: whether it is static, the class that is named, its name and its descriptor."""
        found = []
        for is_static, table in ((False, FIELDS), (True, STATICS)):
            for named in table:
                for descriptor in {d for ds in table.values() for d in ds}:
                    fits = of is None or name_of(descriptor) == of
                    if fits and holder(table, named, descriptor) and not (named == "G" and self.is_static and not is_static):
                        found.append((is_static, named, "s" if is_static else "x", descriptor))
        return self.rng.choice(sorted(found)) if found else None

    def of_field(self, of, depth):
        found = self.field(of)
        if not found:
            return self.simple(of)
        is_static, named, name, descriptor = found
        if not is_static:
            self.target(named, depth)
        index = self.pool.member(9, self.class_name(named), name, descriptor)
        self.op(178 if is_static else 180, self.u16(index), 0 if is_static else 1, name_of(descriptor))

    def of_choice(self, of, depth):
        """One of two values, by a condition."""
        other, end = self.label(), self.label()
        self.condition(other, depth)
        self.make(of, depth)
        self.put("jump", 167, end)
        self.pop()
        self.items.append(("label", other))
        self.make(of, depth)
        self.items.append(("label", end))

    def condition(self, target, depth):
        """Jumps to a target, or does not."""
        opcode = self.rng.choice([*range(153, 167), 165, 166, 198, 199, 198, 199])
        if opcode in (165, 166, 198, 199):
            for _ in range(2 if opcode < 167 else 1):
                self.make(self.rng.choice([OBJECT, "Top"]), depth)
        else:
            for _ in range(2 if opcode >= 159 else 1):
                self.make("I", depth)
        self.put("jump", opcode, target)
        self.pop(2 if 159 <= opcode <= 166 else 1)

    # ---- statements, which leave the stack as it was

    def consume(self):
        """Takes the value at the top away: it is told, stored or dropped."""
        if self.rng.random() < 0.65:
            self.tell_top()
            return
        elif self.rng.random() < 0.5:
            self.store_top()
            return
        self.drop()

    def tell_top(self):
        """Calls a method with the value at the top."""
        teller = {"I": "s1", "J": "s2", "F": "s3", "D": "s8"}.get(self.stack[-1], "s4")
        self.call_with(next(method for method in METHODS if method[2] == teller))
        self.drop()

    def call_with(self, method):
        """Calls a static method whose first argument is on the stack."""
        _, owner, name, params, result = method
        for of in params[1:]:
            self.make(name_of(of), 0)
        self.op(184, self.u16(self.pool.member(10, owner, name, f"({''.join(params)}){result}")), len(params), name_of(result))

    def drop(self):
        self.op(88 if self.stack[-1] in "JD" else 87, pops=1)

    def store_top(self):
        """Stores the value at the top in a local variable of its type, or in one that has none of its own."""
        of = self.stack[-1]
        fits = [slot for slot, name in self.locals if slot != self.fuel and name != "G"
                and (name == of or is_reference(name) and is_reference(of) and is_below(of, name))]
        if fits and self.rng.random() < 0.6:
            self.store(self.rng.choice(fits), of)
            return
        slot = self.scratch_at + self.rng.randint(0, 4)
        self.scratch.pop(slot + 1, None) if of in "JD" else None
        if self.scratch.get(slot - 1) in ("J", "D"):
            del self.scratch[slot - 1]
        self.store(slot, of)
        self.scratch[slot] = of

    def assign(self):
        slot, of = self.rng.choice([*self.locals, *[(None, of) for of in ("I", "J", "F", "D", OBJECT)]])
        self.make(of if of != "G" else OBJECT, 3)
        self.store_top()

    def increment(self):
        ints = [slot for slot, of in self.locals if of == "I" and slot != self.fuel]
        if not ints:
            return
        slot, by = self.rng.choice(ints), self.rng.choice([1, -1, 5, -128, 127, 1000, -32768, 32767])
        if slot > 255 or not -128 <= by < 128 or self.rng.random() < 0.1:
            self.op(196, b"\x84" + struct.pack(">Hh", slot, by))
        else:
            self.op(132, struct.pack(">Bb", slot, by))

    def tell(self):
        if self.is_straight and self.rng.random() < 0.5:
            method = self.rng.choice(DYNAMICS)
            self.dynamic(method, 2)
            if method[2] != "V":
                self.consume()
            return
        method = self.rng.choice(self.callable())
        self.targeted(method, 2)
        if method[4] != "V":
            self.consume()

    def put_field(self):
        is_static, named, name, descriptor = self.field(None)
        if not is_static:
            self.target(named, 1)
        self.make(name_of(descriptor) if descriptor not in "ZBCS" else descriptor, 2)
        index = self.pool.member(9, self.class_name(named), name, descriptor)
        self.op(179 if is_static else 181, self.u16(index), 1 if is_static else 2)

    def put_element(self):
        array = self.rng.choice([*ARRAYS, "[LTop;", f"[L{OBJECT};", "[LTop;"])
        self.target(array, 1)
        self.index(1)
        of = name_of(array[1:])
        if is_reference(of) and self.rng.random() < 0.6:
            # any reference may be stored, and is tested then
            of = self.rng.choice(["Top", "Mid", "Low", "X", "[I", "[LTop;", OBJECT])
        self.make(of, 2)
        self.op(79 + ELEMENTS.get(array[1], 4), pops=3)

    def echo_element(self):
        """An element is written and read again."""
        array, index = self.rng.choice(ARRAYS), self.rng.choice([0, 0, 1, 1, 1, 2])
        known = [slot for slot, name in self.locals if name == array]
        if known and self.rng.random() < 0.7:
            self.load(self.rng.choice(known), array)
        else:
            self.int_constant(self.rng.choice([2, 3]))
            data = bytes([NEWARRAY[array[1]]]) if array[1] in NEWARRAY else self.class_data(name_of(array[1:]))
            self.op(188 if array[1] in NEWARRAY else 189, data, pops=1, gives=array)
        self.op(89, gives=array)
        self.int_constant(index)
        of = name_of(array[1:])
        if of == "I" and self.rng.random() < 0.7:
            self.int_constant(self.rng.choice(INTS))
        else:
            self.make(of, 1)
        self.op(79 + ELEMENTS.get(array[1], 4), pops=3)
        self.int_constant(index)
        self.op(46 + ELEMENTS.get(array[1], 4), pops=2, gives=of)
        self.tell_top()

    def echo_field(self):
        """Two fields of one name are written and one is read again, each by some class that it can be named in."""
        is_static = self.rng.random() < 0.4
        table, name, owners = (STATICS, "s", ["Top", "Mid", "Low"]) if is_static else (FIELDS, "x", ["Top", "Mid", "Low"])
        slot = self.rng.choice([slot for slot, of in self.locals if is_reference(of) and is_below(of, "Low")] or [None])
        if not is_static and slot is None:
            self.new_object("Low", 0)
            self.stack[-1] = "Low"
            slot = self.scratch_at
            self.scratch = {}
            self.store(slot, "Low")
        fields = sorted((owner, of) for owner in owners for of in {d for ds in table.values() for d in ds} if holder(table, owner, of))
        pair = [self.rng.choice(fields) for _ in range(2)]
        for owner, of in pair:
            if not is_static:
                self.load(slot, "Low")
            if of in ("I", "J") and self.rng.random() < 0.8:
                self.constant(of)
            else:
                self.make(name_of(of) if of not in "ZBCS" else of, 1)
            self.op(179 if is_static else 181, self.u16(self.pool.member(9, owner, name, of)), 1 if is_static else 2)
        others = [(owner, of) for owner, of in fields if of in (pair[0][1], pair[1][1])]
        for owner, of in [pair[0], self.rng.choice(others)]:
            if not is_static:
                self.load(slot, "Low")
            self.op(178 if is_static else 180, self.u16(self.pool.member(9, owner, name, of)), 0 if is_static else 1, name_of(of))
            self.tell_top()

    def shuffle(self):
        """Values on the stack are turned round, and then taken away one by one."""
        bottom = len(self.stack)
        for _ in range(self.rng.randint(2, 4)):
            self.make(self.rng.choice(["I", "I", "I", "J", "J", "F", "D", OBJECT, "Top"]), 1)
        for _ in range(self.rng.randint(1, 3)):
            forms = self.shuffles(self.stack[bottom:])
            if not forms:
                break
            opcode, cut, new = self.rng.choice(forms)
            self.put("op", opcode, b"")
            self.stack[len(self.stack) - cut:] = new
            self.most = max(self.most, sum(2 if of in "JD" else 1 for of in self.stack) + 4)
        while len(self.stack) > bottom:
            if self.rng.random() < 0.1 and len(self.stack) - bottom > 1 and self.stack[-1] not in "JD" and self.stack[-2] not in "JD":
                self.op(88, pops=2)
            else:
                self.consume()

    def shuffles(self, stack):
        """The stack instructions that fit: opcode, how many values at the top they change, and to what."""
        wide = [of in "JD" for of in reversed(stack)] + [None] * 4
        a, b, c, d = ([*reversed(stack)] + [None] * 4)[:4]
        small = [x is False for x in wide]
        forms = []
        if small[0]:
            forms.append((89, 1, [a, a]))
            if small[1]:
                forms += [(90, 2, [a, b, a]), (92, 2, [b, a, b, a]), (95, 2, [a, b])] * 2
                if small[2]:
                    forms += [(91, 3, [a, c, b, a]), (93, 3, [b, a, c, b, a])] * 2
                    if small[3]:
                        forms += [(94, 4, [b, a, d, c, b, a])] * 3
                if wide[2]:
                    forms += [(94, 3, [b, a, c, b, a])] * 3
            if wide[1]:
                forms += [(91, 2, [a, b, a])] * 3
        elif wide[0]:
            forms.append((92, 1, [a, a]))
            if small[1]:
                forms += [(93, 2, [a, b, a])] * 3
                if small[2]:
                    forms += [(94, 3, [a, c, b, a])] * 3
            if wide[1]:
                forms += [(94, 2, [a, b, a])] * 3
        return forms

    def monitor(self):
        """A monitor that is entered and left, with nothing between that throws."""
        slot = self.rng.choice([slot for slot, of in self.locals if is_reference(of)] or [None])
        if slot is None:
            return
        self.load(slot, OBJECT)
        self.put("monitor", 194)
        self.pop()
        for _ in range(self.rng.randint(0, 2)):
            self.increment()
        self.load(slot, OBJECT)
        self.put("monitor", 195)
        self.pop()

    def throw_sometimes(self):
        other = self.label()
        self.condition(other, 1)
        self.throw()
        self.items.append(("label", other))

    def throw(self):
        self.make(self.rng.choice([THROWABLE, "X", "X", RUNTIME]), 2)
        self.hot.append(len(self.marks))
        self.op(191, pops=1)

    def fail(self):
        """An instruction that throws of itself."""
        form = self.rng.randint(0, 3)
        if form == 0:
            self.make(self.rng.choice("IJ"), 1)
            self.op(133, pops=1, gives="J") if self.stack[-1] == "I" else None
            self.op(9, gives="J")
            self.hot.append(len(self.marks))
            self.op(self.rng.choice([109, 113]), pops=2, gives="J")
        elif form == 1:
            self.make("I", 1)
            self.int_constant(0)
            self.hot.append(len(self.marks))
            self.op(self.rng.choice([108, 112]), pops=2, gives="I")
        elif form == 2:
            self.op(1, gives="Top")
            self.hot.append(len(self.marks))
            self.op(180, self.u16(self.pool.member(9, "Top", "x", "J")), 1, "J")
        else:
            self.make(OBJECT, 1)
            self.hot.append(len(self.marks))
            self.op(192, self.class_data("X"), pops=1, gives="X")
        self.consume()

    def fail_sometimes(self):
        """It is behind a condition, or the method goes on in a handler."""
        other = self.label()
        self.condition(other, 1)
        self.scratch = {}
        self.fail()
        self.scratch = {}
        self.items.append(("label", other))

    def nothing(self):
        self.op(0)

    def statement(self):
        kinds = [self.assign] * 6 + [self.tell] * 3 + [self.put_field] * 2 + [self.put_element] * 3 + [self.shuffle] * 4
        kinds += [self.echo_element] * 3 + [self.echo_field] * 3 + [self.increment] * 2 + [self.monitor, self.nothing]
        kinds += [self.throw_sometimes] * 2 + [self.fail_sometimes] * 2 if not self.is_straight else []
        self.rng.choice(kinds)()

    # ---- blocks

    def begin(self):
        """The local variables are given values."""
        self.fuel = self.new_local("I")
        kinds = ["I", "I", "J", "J", "F", "D", OBJECT, "Top", "Top", "Mid", THROWABLE, "X", *self.rng.sample(ARRAYS, 3)]
        self.int_constant(self.rng.randint(4, 20))
        self.store(self.fuel, "I")
        for of in self.rng.sample(kinds, self.rng.randint(5, 9)):
            known = [(slot, name) for slot, name in self.locals if is_reference(of) and is_reference(name) and is_below(name, of)]
            if known and self.rng.random() < 0.7:
                self.load(*self.rng.choice(known))
            else:
                self.simple(of)
            slot = self.new_local(of)
            self.store(slot, of)
        self.scratch_at = self.next
        self.slots = self.next + 7

    def finish(self):
        if self.result == "V":
            self.op(177)
        else:
            self.make(self.result, 2)
            kind = name_of(self.result) if len(self.result) == 1 else OBJECT
            self.op(172 + ("IJFD".find(kind) if kind in ("I", "J", "F", "D") else 4), pops=1)

    def fitting(self, block):
        """The blocks that take the same values as this one."""
        return [other for other in range(1, len(self.entries)) if self.entries[other] == self.entries[block]]

    def give(self, block):
        for of in self.entries[block]:
            self.make(of, 1)

    def go(self, block):
        self.give(block)
        self.put("jump", 200 if self.rng.random() < 0.2 else 167, self.starts[block])
        self.pop(len(self.entries[block]))

    def switch(self):
        block = self.rng.randrange(1, len(self.entries))
        self.give(block)
        low = self.rng.choice([0, 1, -1, -2, 5, -2**31, 2**31 - 4])
        if self.rng.random() < 0.5:
            self.make("I", 2)
            self.int_constant(3)
            self.op(126, pops=2, gives="I")
            if low:
                self.int_constant(low)
                self.op(96, pops=2, gives="I")
        else:
            self.int_constant(low + self.rng.randint(0, 3))
        fits = self.fitting(block)
        targets = [self.starts[self.rng.choice(fits)] for _ in range(self.rng.randint(1, 3))]
        fallback = self.starts[self.rng.choice(fits)]
        if self.rng.random() < 0.5:
            self.put("table", fallback, low, targets)
        else:
            keys = self.rng.sample([low, low + 1, low + 2, low + 3, 77], len(targets))
            self.put("lookup", fallback, sorted(zip(keys, targets)))
        self.pop(1 + len(self.entries[block]))

    def leave(self, block):
        """The last instructions of a block."""
        form = self.rng.random()
        if form < 0.2 or block == len(self.entries) - 1:
            self.finish()
        elif form < 0.35:
            self.switch()
        elif form < 0.42:
            self.throw()
        else:
            if form < 0.8:
                target = self.rng.randrange(1, len(self.entries))
                self.give(target)
                self.condition(self.starts[target], 2)
                for _ in self.entries[target]:
                    self.consume()
            self.go(self.rng.choice([block + 1, block + 1, self.rng.randrange(1, len(self.entries))]))

    def generate(self):
        rng = self.rng
        self.begin()
        if self.is_straight:
            for _ in range(rng.randint(2, 8)):
                self.statement()
            self.finish()
            return
        self.marks, self.hot = [], []
        count = rng.randint(3, 6)
        kinds = ["I", "J", "F", "D", OBJECT, "Top", "[I"]
        self.entries = [[], *([rng.choice(kinds) for _ in range(rng.choice([0, 0, 0, 1, 2]))] for _ in range(count - 1))]
        caught = rng.randint(1, 3)
        self.entries += [[rng.choice([THROWABLE, THROWABLE, RUNTIME, "X"])] for _ in range(caught)] + [[]]
        self.starts, outs = [self.label() for _ in self.entries], []
        for block, entry in enumerate(self.entries):
            self.items.append(("label", self.starts[block]))
            self.stack, self.scratch = list(entry), {}
            if block:
                self.guard(outs, block)
            while self.stack:
                self.consume()
            for _ in range(rng.randint(1, 4)):
                self.statement()
            self.leave(block)
        end = self.label()
        self.items.append(("label", end))
        self.marks.append(end)
        for out, block in outs:
            self.items.append(("label", out))
            self.stack = list(self.entries[block])
            while self.stack:
                self.drop()
            self.scratch = {}
            self.simple_finish()
        self.catch(range(count, count + caught))

    def simple_finish(self):
        if self.result == "V":
            self.op(177)
        elif len(self.result) == 1 and self.result in "IZBCS":
            self.int_constant(1)
            self.op(172, pops=1)
        else:
            of = self.result if self.result in ("J", "F", "D") else OBJECT
            self.constant(of) if of != OBJECT else self.op(1, gives=OBJECT)
            self.op(172 + ("JFD".find(of) + 1 if of != OBJECT else 4), pops=1)

    def guard(self, outs, block):
        """A count goes down, and the method is left where it is used up: so each method ends."""
        out = self.label()
        outs.append((out, block))
        if self.fuel > 255:
            self.op(196, b"\x84" + struct.pack(">Hh", self.fuel, -1))
        else:
            self.op(132, struct.pack(">Bb", self.fuel, -1))
        self.load(self.fuel, "I")
        self.put("jump", 158, out)
        self.pop()

    def catch(self, blocks):
        """Handlers of random ranges and classes, and mostly one of all behind them."""
        names = [None, None, THROWABLE, RUNTIME, "X", "Y", *RAISED, "java/lang/IndexOutOfBoundsException"]
        for _ in range(self.rng.randint(1, 5)):
            start, end = sorted(self.rng.sample(range(len(self.marks)), 2))
            if self.rng.random() < 0.3:
                start, end = self.rng.randint(0, len(self.marks) // 3), self.rng.randint(len(self.marks) // 2, len(self.marks) - 1)
            self.handler(start, end, self.rng.choice(list(blocks)), names)
        # some begin or end at what throws, or right behind it
        for _ in range(min(len(self.hot), 4)):
            at = self.rng.choice(self.hot)
            start, end = self.rng.choice([(at, at + 1), (at + 1, at + 9), (at - 9, at), (at - 9, at), (at, at + 9), (at - 9, at + 1)])
            start, end = max(start, 0), min(end, len(self.marks) - 1)
            if start < end:
                self.handler(start, end, self.rng.choice(list(blocks)), names)
        self.rng.shuffle(self.handlers)
        if self.rng.random() < 0.75:
            self.handler(0, len(self.marks) - 1, self.rng.choice(list(blocks)), [None, THROWABLE])
            self.handler(0, len(self.marks) - 1, self.rng.choice(list(blocks)), [RUNTIME])

    def handler(self, start, end, block, names):
        fits = [name for name in names if is_below(name or THROWABLE, self.entries[block][0])]
        if fits:
            self.handlers.append((self.marks[start], self.marks[end], self.starts[block], self.rng.choice(fits)))
