"""Makes class files from instructions in words, also such as no compiler makes.

A line of code is `label:`, or an instruction with its operand: `bipush -5`, `iinc 1 3`, `goto again`, `ldc "text"`, `ldc2_w 5L`,
`getstatic a/B.c:I`, `invokevirtual a/B.c:(I)V`, `new a/B`, `newarray 10`, `multianewarray [[I 2`, `wide iload 1`, `lookupswitch 1:one 5:five else`.
"""
import shlex
import struct

PLAIN = {
    "nop": 0x00, "aconst_null": 0x01, "iconst_m1": 0x02, "iconst_0": 0x03, "iconst_1": 0x04, "iconst_2": 0x05, "iconst_3": 0x06, "iconst_4": 0x07,
    "iconst_5": 0x08, "lconst_0": 0x09, "lconst_1": 0x0a, "iaload": 0x2e, "laload": 0x2f, "aaload": 0x32, "baload": 0x33, "caload": 0x34,
    "saload": 0x35, "iastore": 0x4f, "lastore": 0x50, "aastore": 0x53, "bastore": 0x54, "castore": 0x55, "sastore": 0x56, "pop": 0x57,
    "pop2": 0x58, "dup": 0x59, "dup_x1": 0x5a, "dup_x2": 0x5b, "dup2": 0x5c, "dup2_x1": 0x5d, "dup2_x2": 0x5e, "swap": 0x5f, "iadd": 0x60,
    "ladd": 0x61, "isub": 0x64, "lsub": 0x65, "imul": 0x68, "lmul": 0x69, "idiv": 0x6c, "ldiv": 0x6d, "irem": 0x70, "lrem": 0x71,
    "ineg": 0x74, "lneg": 0x75, "ishl": 0x78, "lshl": 0x79, "ishr": 0x7a, "lshr": 0x7b, "iushr": 0x7c, "lushr": 0x7d, "iand": 0x7e,
    "land": 0x7f, "ior": 0x80, "lor": 0x81, "ixor": 0x82, "lxor": 0x83, "i2l": 0x85, "l2i": 0x88, "i2b": 0x91, "i2c": 0x92, "i2s": 0x93,
    "lcmp": 0x94, "ireturn": 0xac, "lreturn": 0xad, "areturn": 0xb0, "return": 0xb1, "arraylength": 0xbe, "athrow": 0xbf,
    "monitorenter": 0xc2, "fconst_0": 0x0b, "iload_0": 0x1a,
}
LOCAL = {"iload": 0x15, "lload": 0x16, "aload": 0x19, "istore": 0x36, "lstore": 0x37, "astore": 0x3a}
JUMP = {"ifeq": 0x99, "ifne": 0x9a, "iflt": 0x9b, "ifge": 0x9c, "ifgt": 0x9d, "ifle": 0x9e, "if_icmpeq": 0x9f, "if_icmpne": 0xa0, "if_icmplt": 0xa1,
        "if_icmpge": 0xa2, "if_icmpgt": 0xa3, "if_icmple": 0xa4, "if_acmpeq": 0xa5, "if_acmpne": 0xa6, "goto": 0xa7, "ifnull": 0xc6,
        "ifnonnull": 0xc7}
MEMBER = {"getstatic": 0xb2, "putstatic": 0xb3, "getfield": 0xb4, "putfield": 0xb5, "invokevirtual": 0xb6, "invokespecial": 0xb7,
          "invokestatic": 0xb8, "invokeinterface": 0xb9}
CLASS = {"new": 0xbb, "anewarray": 0xbd, "checkcast": 0xc0, "instanceof": 0xc1}


def units(descriptor):
    """How many units the arguments of a method take."""
    count, at = 0, 1
    while descriptor[at] != ")":
        is_array = descriptor[at] == "["
        while descriptor[at] == "[":
            at += 1
        count += 2 if descriptor[at] == "J" and not is_array else 1
        at = descriptor.index(";", at) + 1 if descriptor[at] == "L" else at + 1
    return count


class Pool:
    def __init__(self):
        self.entries, self.count, self.bytes = {}, 1, b""

    def add(self, entry, size=1):
        if entry not in self.entries:
            self.entries[entry] = self.count
            self.bytes += entry
            self.count += size
        return self.entries[entry]

    def text(self, text):
        data = text.encode("utf-8")
        return self.add(b"\x01" + struct.pack(">H", len(data)) + data)

    def class_(self, name):
        return self.add(b"\x07" + struct.pack(">H", self.text(name)))

    def string(self, text):
        return self.add(b"\x08" + struct.pack(">H", self.text(text)))

    def member(self, tag, text):
        owner, rest = text.split(".", 1)
        name, descriptor = rest.split(":", 1)
        pair = self.add(b"\x0c" + struct.pack(">HH", self.text(name), self.text(descriptor)))
        return self.add(bytes([tag]) + struct.pack(">HH", self.class_(owner), pair))

    def constant(self, word):
        if word.startswith('"'):
            return self.string(word[1:-1])
        if word.endswith("L"):
            return self.add(b"\x05" + struct.pack(">q", int(word[:-1])), 2)
        if word.startswith("class:"):
            return self.class_(word[6:])
        return self.add(b"\x03" + struct.pack(">i", int(word)))


class Assembly:
    """One class. Flags are those of JVMS 4.1, 4.5 and 4.6."""

    def __init__(self, name, superclass="java/lang/Object", flags=0x21, interfaces=()):
        self.name, self.pool, self.flags = name, Pool(), flags
        self.superclass, self.interfaces = superclass, interfaces
        self.fields, self.methods, self.used = [], [], set()
        for text in ("Code", "StackMapTable"):
            self.pool.text(text)

    def field(self, name, descriptor, flags=0x9):
        self.fields.append(struct.pack(">HHHH", flags, self.pool.text(name), self.pool.text(descriptor), 0))
        return self

    def method(self, name, descriptor, code=None, flags=0x9, stack=8, locals=8, handlers=(), frames=()):
        head = struct.pack(">HHH", flags, self.pool.text(name), self.pool.text(descriptor))
        if code is None:
            self.methods.append(head + b"\x00\x00")
            return self
        text, places = self.code(code)
        rows = b"".join(struct.pack(">HHHH", places[from_], places[to], places[at], self.pool.class_(kind) if kind else 0)
                        for from_, to, at, kind in handlers)
        table = self.frames(frames, places)
        body = (struct.pack(">HHI", stack, locals, len(text)) + text + struct.pack(">H", len(handlers)) + rows
                + (b"\x00\x01" + struct.pack(">HI", self.pool.text("StackMapTable"), len(table)) + table if frames else b"\x00\x00"))
        self.methods.append(head + b"\x00\x01" + struct.pack(">HI", self.pool.text("Code"), len(body)) + body)
        return self

    def constructor(self):
        return self.method("<init>", "()V", f"aload 0\ninvokespecial {self.superclass}.<init>:()V\nreturn", flags=1)

    def main(self, code, **more):
        return self.method("main", "([Ljava/lang/String;)V", code, **more)

    def frames(self, frames, places):
        """Full frames: a label, the items of the locals and of the stack, each `I`, `J`, `T` or the name of a class."""
        out, last = struct.pack(">H", len(frames)), -1
        for label, locals_, stack in frames:
            out += b"\xff" + struct.pack(">H", places[label] - last - 1)
            last = places[label]
            for items in (locals_, stack):
                out += struct.pack(">H", len(items)) + b"".join(map(self.item, items))
        return out

    def item(self, word):
        plain = {"T": 0, "I": 1, "J": 4}
        return bytes([plain[word]]) if word in plain else b"\x07" + struct.pack(">H", self.pool.class_(word))

    def code(self, lines):
        words = [shlex.split(line, posix=False) for line in lines.strip().splitlines()]
        words = [line for line in words if line]
        places, at = {}, 0
        for line in words:
            if line[0].endswith(":") and len(line) == 1:
                places[line[0][:-1]] = at
            else:
                at += len(self.instruction(line, at, None))
        places["end"] = at
        out = b""
        for line in words:
            if not (line[0].endswith(":") and len(line) == 1):
                out += self.instruction(line, len(out), places)
        return out, places

    def instruction(self, line, at, places):
        op, rest = line[0], line[1:]
        text = self.encoded(op, rest, at, places)
        self.used.add(text[0])
        return text

    def encoded(self, op, rest, at, places):
        to = (lambda label: places[label] - at) if places else (lambda label: 0)
        if op in PLAIN:
            return bytes([PLAIN[op]])
        if op == "bipush":
            return b"\x10" + struct.pack(">b", int(rest[0]))
        if op == "sipush":
            return b"\x11" + struct.pack(">h", int(rest[0]))
        if op == "ldc":
            return b"\x12" + bytes([self.pool.constant(rest[0])])
        if op in ("ldc_w", "ldc2_w"):
            return bytes([0x13 if op == "ldc_w" else 0x14]) + struct.pack(">H", self.pool.constant(rest[0]))
        if op == "wide":
            inner = rest[0]
            self.used.add(0x84 if inner == "iinc" else LOCAL[inner])
            if inner == "iinc":
                return b"\xc4\x84" + struct.pack(">Hh", int(rest[1]), int(rest[2]))
            return b"\xc4" + bytes([LOCAL[inner]]) + struct.pack(">H", int(rest[1]))
        if op == "iinc":
            return b"\x84" + struct.pack(">Bb", int(rest[0]), int(rest[1]))
        if op in LOCAL:
            return bytes([LOCAL[op], int(rest[0])])
        if op == "newarray":
            return bytes([0xbc, int(rest[0])])
        if op in JUMP:
            return bytes([JUMP[op]]) + struct.pack(">h", to(rest[0]))
        if op == "lookupswitch":
            cases = [word.split(":") for word in rest[:-1]]
            out = b"\xab" + bytes(3 - at % 4) + struct.pack(">ii", to(rest[-1]), len(cases))
            return out + b"".join(struct.pack(">ii", int(key), to(label)) for key, label in cases)
        if op in CLASS:
            return bytes([CLASS[op]]) + struct.pack(">H", self.pool.class_(rest[0]))
        if op == "multianewarray":
            return b"\xc5" + struct.pack(">HB", self.pool.class_(rest[0]), int(rest[1]))
        tag = 9 if MEMBER[op] <= 0xb5 else 11 if op == "invokeinterface" else 10
        out = bytes([MEMBER[op]]) + struct.pack(">H", self.pool.member(tag, rest[0]))
        return out + bytes([1 + units(rest[0].split(":", 1)[1]), 0]) if op == "invokeinterface" else out

    def bytes(self):
        this = self.pool.class_(self.name)
        above = self.pool.class_(self.superclass) if self.superclass else 0
        faces = [self.pool.class_(name) for name in self.interfaces]
        return (struct.pack(">IHHH", 0xcafebabe, 0, 51, self.pool.count) + self.pool.bytes + struct.pack(">HHH", self.flags, this, above)
                + struct.pack(f">H{len(faces)}H", len(faces), *faces) + struct.pack(">H", len(self.fields)) + b"".join(self.fields)
                + struct.pack(">H", len(self.methods)) + b"".join(self.methods) + b"\x00\x00")
