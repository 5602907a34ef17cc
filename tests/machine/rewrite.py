"""Rewrites what javac makes so that it stays in javag's profile: no short forms of instructions, no tables of switches, and no
attribute but Code, StackMapTable and InnerClasses."""
import os
import sys

sys.path.insert(0, os.path.join(os.path.dirname(os.path.abspath(__file__)), "..", "classfiles"))
from widen import instructions, pool_of, u2, u4, widened

KEPT = {b"Code", b"StackMapTable", b"InnerClasses"}


class Pool:
    """What the entries of a constant pool mean."""

    def __init__(self, data):
        self.texts, self.end = pool_of(data)
        self.classes, self.pairs, self.members = {}, {}, {}
        at, number, count = 10, 1, u2(data, 8)
        while number < count:
            tag = data[at]
            if tag == 7:
                self.classes[number] = u2(data, at + 1)
            elif tag == 12:
                self.pairs[number] = u2(data, at + 1), u2(data, at + 3)
            elif tag in (9, 10, 11):
                self.members[number] = u2(data, at + 1), u2(data, at + 3)
            at += 3 + u2(data, at + 1) if tag == 1 else {5: 9, 6: 9, 7: 3, 8: 3}.get(tag, 5)
            number += 2 if tag in (5, 6) else 1

    def class_names(self):
        return {self.texts[name].decode("utf-8", "replace") for name in self.classes.values()}

    def member(self, number):
        """The names of the class and of the member."""
        class_, pair = self.members[number]
        return self.texts[self.classes[class_]].decode(), self.texts[self.pairs[pair][0]].decode()


class Class:
    """A class file without the attributes that the profile lacks, and what is found on the way."""

    def __init__(self, data):
        self.pool = Pool(data)
        self.constants, self.opcodes, self.static_reads = set(), set(), set()
        at = self.pool.end
        self.name = self.pool.texts[self.pool.classes[u2(data, at + 2)]].decode()
        at += 8 + 2 * u2(data, at + 6)
        out = data[:at]
        for is_method in (False, True):
            count, at = u2(data, at), at + 2
            out += data[at - 2:at]
            for _ in range(count):
                flags, name = u2(data, at), self.pool.texts[u2(data, at + 2)].decode()
                out += data[at:at + 6]
                content, at = self.attributes(data, at + 6)
                out += content
                if not is_method and flags & 8 and self.last_had_constant:
                    self.constants.add((self.name, name))
        content, at = self.attributes(data, at)
        self.bytes = widened(out + content)

    def attributes(self, data, at):
        kept, count, at = [], u2(data, at), at + 2
        self.last_had_constant = False
        for _ in range(count):
            name, content = self.pool.texts[u2(data, at)], data[at + 6:at + 6 + u4(data, at + 2)]
            self.last_had_constant |= name == b"ConstantValue"
            if name == b"Code":
                content = self.code(content)
            if name in KEPT:
                kept.append(data[at:at + 2] + len(content).to_bytes(4, "big") + content)
            at += 6 + u4(data, at + 2)
        return len(kept).to_bytes(2, "big") + b"".join(kept), at

    def code(self, data):
        size = u4(data, 4)
        for _, text in instructions(data[8:8 + size]):
            self.opcodes.add(text[0])
            if text[0] == 0xb2:
                self.static_reads.add(self.pool.member(u2(text, 1)))
        at = 8 + size
        at += 2 + 8 * u2(data, at)
        content, _ = self.attributes(data, at)
        return data[:at] + content
