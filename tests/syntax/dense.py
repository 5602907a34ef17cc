"""Dense expressions of any size: fields whose values are chains of operators of all levels, with operands of one or two letters, calls, indices, fields, casts, creations,
conditionals and parentheses."""
import random
import string

OPERATORS = "|| && | ^ & == != < > <= >= << >> >>> + - * / %".split()
KEYWORDS = ("do", "if")


class Writer:
    def __init__(self, seed, space):
        self.lot, self.space = random.Random(seed), space

    def name(self):
        while True:
            found = "".join(self.lot.choice(string.ascii_lowercase) for _ in range(self.lot.choice((1, 2))))
            if found not in KEYWORDS:
                return found

    def operand(self, depth):
        name, turn = self.name(), self.lot.random()
        if turn < 0.62 or depth == 3:
            return name
        part = lambda length=1: self.chain(depth + 1, length)
        forms = (
            lambda: name + "(" + ",".join(part() for _ in range(self.lot.randrange(3))) + ")",
            lambda: "(" + part(3) + ")",
            lambda: "(int)" + name,
            lambda: ("" if self.space else " ") + "-" + name,
            lambda: "!" + name,
            lambda: "~" + name,
            lambda: name + "[" + part(2) + "]",
            lambda: name + "." + self.name(),
            lambda: "new A(" + part() + ")",
            lambda: "(" + name + "?" + part() + ":" + part() + ")",
            lambda: str(self.lot.randrange(100)),
        )
        return self.lot.choice(forms)()

    def chain(self, depth, length):
        links = (self.space + self.lot.choice(OPERATORS) + self.space + self.operand(depth) for _ in range(length - 1))
        return self.operand(depth) + "".join(links)


def source(size, space):
    """The source, with so much space around each operator; where there is none, one stands where two signs would become one."""
    writer, lines, length, count = Writer(1, space), ["class A {}", "class Main {"], 24, 0
    while length < size:
        lines.append("int f%d=%s;" % (count, writer.chain(0, 40)))
        length += len(lines[-1]) + 1
        count += 1
    return "\n".join([*lines, "}", ""])
