"""Classes of straight code that is drawn by lot, the same at each call: numbers of all sizes, all forms of the stack's instructions, locals, arrays
of each type, static fields and calls. Each method ends with one number made of all that it left, or with an exception of the machine."""
import random

from assemble import Assembly

INTS = [0, 1, -1, 2, 5, 7, 31, 32, 33, 63, 64, 127, -128, 255, 256, 32767, -32768, 65535, 65536, 46341, 2147483647, -2147483648, -2147483647, 123456789]
LONGS = [0, 1, -1, 3, 63, 4294967295, 4294967296, -4294967297, 3037000500, 9223372036854775807, -9223372036854775808, 1234567890123456789]
INT_PAIRS = ["iadd", "isub", "imul", "iand", "ior", "ixor", "ishl", "ishr", "iushr", "idiv", "irem"]
LONG_PAIRS = ["ladd", "lsub", "lmul", "land", "lor", "lxor", "ldiv", "lrem"]
ARRAYS = {"I": (10, "ia", "I"), "J": (11, "la", "J"), "B": (8, "ba", "I"), "Z": (4, "ba", "I"), "C": (5, "ca", "I"), "S": (9, "sa", "I")}
LOCALS = 40
ROOM = 24
FAULTS = ["Arithmetic", "ArrayIndexOutOfBounds", "NegativeArraySize", "NullPointer"]


class Method:
    """Code that is being drawn: the types on the stack from the bottom, and those of the locals. A type is I, J, N or an array's, as [I."""

    def __init__(self, lot):
        self.lot, self.lines, self.stack, self.locals = lot, [], [], {}

    def units(self, types):
        return sum(2 if one == "J" else 1 for one in types)

    def add(self, line, takes=0, gives=()):
        self.lines.append(line)
        del self.stack[len(self.stack) - takes:]
        self.stack += gives

    def top(self, *wanted):
        return len(self.stack) >= len(wanted) and all(one in kinds for one, kinds in zip(self.stack[-len(wanted):], wanted))

    def push_int(self, number):
        if -1 <= number <= 5:
            self.add("iconst_m1" if number < 0 else f"iconst_{number}", 0, ["I"])
        elif -128 <= number < 128:
            self.add(f"bipush {number}", 0, ["I"])
        elif -32768 <= number < 32768:
            self.add(f"sipush {number}", 0, ["I"])
        else:
            self.add(f"ldc_w {number}", 0, ["I"])

    def push(self):
        if self.lot.random() < 0.5:
            self.push_int(self.lot.choice(INTS) if self.lot.random() < 0.7 else self.lot.randrange(-2**31, 2**31))
        else:
            number = self.lot.choice(LONGS) if self.lot.random() < 0.7 else self.lot.randrange(-2**63, 2**63)
            self.add(f"lconst_{number}" if number in (0, 1) else f"ldc2_w {number}L", 0, ["J"])

    def array(self):
        """An array of few elements, or null, into a local."""
        kind = self.lot.choice("IJBZCS")
        self.push_int(self.lot.choice([0, 3, 4, 4, 5, 5, 6]) if self.lot.random() < 0.99 else -2)
        self.add(f"newarray {ARRAYS[kind][0]}", 1, ["[" + kind])
        if self.lot.random() < 0.02:
            self.add("pop", 1)
            self.add("aconst_null", 0, ["[" + kind])
        self.store()

    def store(self):
        """The topmost value into a local, over whatever is there."""
        kind = self.stack[-1]
        at = self.lot.randrange(LOCALS - 1)
        for gone in [at] + ([at + 1] if kind == "J" else []):
            self.locals.pop(gone, None)
        if self.locals.get(at - 1) == "J":
            del self.locals[at - 1]
        self.locals[at] = kind
        self.add(f"{'i' if kind == 'I' else 'l' if kind == 'J' else 'a'}store {at}", 1)

    def load(self, at):
        kind = self.locals[at]
        self.add(f"{'i' if kind == 'I' else 'l' if kind == 'J' else 'a'}load {at}", 0, [kind])

    def element(self):
        arrays = [at for at, kind in self.locals.items() if kind[0] == "["]
        if not arrays:
            return self.array()
        at = self.lot.choice(arrays)
        _, word, kind = ARRAYS[self.locals[at][1]]
        if self.top(kind) and self.lot.random() < 0.6:
            self.add("dup2" if kind == "J" else "dup", 0, [kind])
            self.load(at)
            self.push_int(self.lot.choice([0, 0, 1, 1, 2, 2, 5 if self.lot.random() < 0.1 else 2]))
            self.add("dup2_x2" if kind == "J" else "dup2_x1")
            self.add("pop2")
            self.add(f"{word}store", 3)
        else:
            self.load(at)
            if self.lot.random() < 0.3:
                self.add("arraylength", 1, ["I"])
            else:
                self.push_int(self.lot.choice([0, 0, 1, 1, 2, 2, -1 if self.lot.random() < 0.1 else 2]))
                self.add(f"{word}load", 2, [kind])

    def form(self):
        """One of the stack's forms that fits what stands there."""
        one = lambda n: len(self.stack) >= n and "J" not in self.stack[-n:]
        forms = []
        s = self.stack
        if one(1):
            forms += [("dup", 1, s[-1:] * 2)]
        if one(2):
            forms += [("swap", 2, s[-1:] + s[-2:-1]), ("dup_x1", 2, s[-1:] + s[-2:]), ("dup2", 2, s[-2:] * 2)]
        if one(3):
            forms += [("dup_x2", 3, s[-1:] + s[-3:]), ("dup2_x1", 3, s[-2:] + s[-3:]), ("pop2", 2, [])]
        if one(4):
            forms += [("dup2_x2", 4, s[-2:] + s[-4:])]
        if self.top("J"):
            forms += [("dup2", 1, s[-1:] * 2)]
        if len(s) > 1 and s[-1] == "J" and s[-2] != "J":
            forms += [("dup2_x1", 2, s[-1:] + s[-2:])]
        if len(s) > 1 and s[-1] != "J" and s[-2] == "J":
            forms += [("dup_x2", 2, s[-1:] + s[-2:])]
        if self.top("J", "J"):
            forms += [("dup2_x2", 2, s[-1:] + s[-2:])]
        if len(s) > 2 and s[-1] == "J" and s[-2] != "J" and s[-3] != "J":
            forms += [("dup2_x2", 3, s[-1:] + s[-3:])]
        if len(s) > 2 and s[-3] == "J" and "J" not in s[-2:]:
            forms += [("dup2_x2", 3, s[-2:] + s[-3:])]
        if forms:
            self.add(*self.lot.choice(forms))

    def act(self):
        choice = self.lot.random()
        if self.units(self.stack) > ROOM - 8:
            self.fold()
        elif choice < 0.2 or not self.stack:
            self.push()
        elif choice < 0.3 and self.locals:
            self.load(self.lot.choice(sorted(self.locals)))
        elif choice < 0.4:
            self.store()
        elif choice < 0.5:
            self.element()
        elif choice < 0.6:
            self.form()
        elif choice < 0.64 and "I" in self.locals.values():
            self.add(f"iinc {self.lot.choice([at for at in sorted(self.locals) if self.locals[at] == 'I'])} {self.lot.randrange(-128, 128)}")
        elif choice < 0.68 and self.top("I", "J", "I"):
            self.add("invokestatic Main.mix:(IJI)J", 3, ["J"])
        elif choice < 0.7 and self.top("IJ"):
            kind = self.stack[-1]
            self.add(f"putstatic Main.{'i' if kind == 'I' else 'j'}:{kind}", 1)
            self.add("getstatic Main.i:I", 0, ["I"])
        else:
            self.number()

    def number(self):
        """An instruction on the numbers on top."""
        lot = self.lot
        if self.top("I", "I"):
            self.add(lot.choice(INT_PAIRS), 2, ["I"])
        elif self.top("J", "J"):
            self.add("lcmp", 2, ["I"]) if lot.random() < 0.15 else self.add(lot.choice(LONG_PAIRS), 2, ["J"])
        elif self.top("J", "I"):
            self.add(lot.choice(["lshl", "lshr", "lushr"]), 2, ["J"])
        elif self.top("I"):
            self.add(*lot.choice([("ineg", 1, ["I"]), ("i2l", 1, ["J"]), ("i2b", 1, ["I"]), ("i2c", 1, ["I"]), ("i2s", 1, ["I"])]))
        elif self.top("J"):
            self.add(*lot.choice([("lneg", 1, ["J"]), ("l2i", 1, ["I"])]))
        else:
            self.add(f"instanceof {lot.choice(['[I', '[J', '[B', 'java/lang/Object', '[Ljava/lang/Object;'])}", 1, ["I"])

    def fold(self):
        """All that stands on the stack as one long."""
        while self.stack != ["J"]:
            if not self.stack:
                self.add("lconst_1", 0, ["J"])
            elif self.stack[-1] == "I":
                self.add("i2l", 1, ["J"])
            elif self.stack[-1] == "J" and len(self.stack) > 1:
                below = self.stack[-2]
                if below == "J":
                    self.add("lxor", 2, ["J"])
                else:
                    self.add("dup2_x1", 2, ["J", below, "J"])
                    self.add("pop2", 1)
                    self.add("pop", 1) if below != "I" else self.add("i2l", 1, ["J"])
                    if below == "I":
                        self.add("ldc2_w 1000003L", 0, ["J"])
                        self.add("lmul", 2, ["J"])
                        self.add("ladd", 2, ["J"])
            else:
                self.add("pop", 1)

    def code(self, length):
        for _ in range(length):
            self.act()
        for at in sorted(self.locals):
            if self.units(self.stack) > ROOM - 4:
                self.fold()
            self.load(at)
        self.fold()
        return "\n".join(self.lines) + "\nlreturn"


def drawn(seed, methods=60, length=60):
    """The class Main of so many methods, each of which main calls and shows."""
    lot = random.Random(seed)
    main = Assembly("Main").field("i", "I").field("j", "J")
    main.method("mix", "(IJI)J", "iload 0\ni2l\nlload 1\nldc2_w 31L\nlmul\nladd\niload 3\niconst_5\nishl\ni2l\nlxor\nlreturn", stack=6, locals=4)
    main.method("show", "(J)V", "getstatic java/lang/System.out:Ljava/io/PrintStream;\nlload 0\ninvokevirtual java/io/PrintStream.println:(J)V\nreturn", stack=3, locals=2)
    calls = ""
    for number in range(methods):
        main.method(f"m{number}", "()J", Method(lot).code(length), stack=ROOM + 8, locals=LOCALS + 1)
        ends = "".join(f"at{n}:\npop\nldc2_w {-1000 - n}L\ninvokestatic Main.show:(J)V\nreturn\n" for n in range(len(FAULTS)))
        main.method(f"c{number}", "()V", f"from:\ninvokestatic Main.m{number}:()J\nto:\ninvokestatic Main.show:(J)V\nreturn\n{ends}", stack=2, locals=0,
                    handlers=[("from", "to", f"at{n}", kind(name)) for n, name in enumerate(FAULTS)],
                    frames=[(f"at{n}", [], [kind(name)]) for n, name in enumerate(FAULTS)])
        calls += f"invokestatic Main.c{number}:()V\n"
    return main.main(calls + "return", stack=0, locals=1)


def kind(name):
    return f"java/lang/{name}{'Size' if name == 'NegativeArray' else ''}Exception"
