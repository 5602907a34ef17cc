"""Rewrites a class file so that it has no short forms of instructions (`aload_0` becomes `aload 0`), which the profile lacks.

Offsets in jumps, switches, exception tables and frames move along. It knows the instructions that `javac` makes of programs
without float and double.
"""
import struct

LOADS = {0x1a: 0x15, 0x1e: 0x16, 0x2a: 0x19}
STORES = {0x3b: 0x36, 0x3f: 0x37, 0x4b: 0x3a}
ONE = {0x10, 0x12, 0x15, 0x16, 0x19, 0x36, 0x37, 0x3a, 0xbc}
TWO = {0x11, 0x13, 0x14, 0x84, 0xb2, 0xb3, 0xb4, 0xb5, 0xb6, 0xb7, 0xb8, 0xbb, 0xbd, 0xc0, 0xc1}
JUMPS = set(range(0x99, 0xa8)) | {0xc6, 0xc7}


def u2(data, at):
    return struct.unpack_from(">H", data, at)[0]


def u4(data, at):
    return struct.unpack_from(">I", data, at)[0]


def s2(data, at):
    return struct.unpack_from(">h", data, at)[0]


def s4(data, at):
    return struct.unpack_from(">i", data, at)[0]


def pool_of(data):
    """The texts of the pool by number, and the place behind it."""
    texts = {}
    count, at, number = u2(data, 8), 10, 1
    while number < count:
        tag = data[at]
        if tag == 1:
            size = u2(data, at + 1)
            texts[number] = data[at + 3:at + 3 + size]
            at += 3 + size
        else:
            at += {3: 5, 4: 5, 5: 9, 6: 9, 7: 3, 8: 3}.get(tag, 5)
        number += 2 if tag in (5, 6) else 1
    return texts, at


def short_of(code):
    """The long form of a short one, and its variable."""
    for first, long_form in list(LOADS.items()) + list(STORES.items()):
        if first <= code < first + 4:
            return long_form, code - first
    return None


def instructions(code):
    """Pairs of a place and the bytes of the instruction there."""
    at = 0
    while at < len(code):
        op = code[at]
        if op == 0xab:
            rows = at + 4 - at % 4
            size = rows + 8 + 8 * u4(code, rows + 4) - at
        elif op == 0xaa:
            rows = at + 4 - at % 4
            size = rows + 12 + 4 * (s4(code, rows + 8) - s4(code, rows + 4) + 1) - at
        elif op == 0xc4:
            size = 6 if code[at + 1] == 0x84 else 4
        elif op in ONE:
            size = 2
        elif op in TWO or op in JUMPS:
            size = 3
        elif op == 0xc5:
            size = 4
        elif op == 0xb9:
            size = 5
        else:
            size = 1
        yield at, code[at:at + size]
        at += size


def cases_of(at, text):
    """The default target and the cases of a switch."""
    rows = 4 - at % 4
    if text[0] == 0xab:
        count = u4(text, rows + 4)
        cases = [(s4(text, rows + 8 + 8 * n), at + s4(text, rows + 12 + 8 * n)) for n in range(count)]
    else:
        low, high = s4(text, rows + 4), s4(text, rows + 8)
        cases = [(low + n, at + s4(text, rows + 12 + 4 * n)) for n in range(high - low + 1)]
    return at + s4(text, rows), cases


def long_size(at, text, place):
    """The size of the long form of an instruction of `place`, where it stands at `at`."""
    if short_of(text[0]):
        return 2
    if text[0] in (0xaa, 0xab):
        return 4 - at % 4 + 8 + 8 * len(cases_of(place, text)[1])
    return len(text)


def long_form(at, text, place, moved):
    short = short_of(text[0])
    if short:
        return bytes(short)
    if text[0] in JUMPS:
        return bytes([text[0]]) + struct.pack(">h", moved[place + s2(text, 1)] - at)
    if text[0] in (0xaa, 0xab):
        otherwise, cases = cases_of(place, text)
        out = bytes([0xab]) + bytes(3 - at % 4) + struct.pack(">ii", moved[otherwise] - at, len(cases))
        return out + b"".join(struct.pack(">ii", key, moved[to] - at) for key, to in cases)
    return text


def item_at(data, at, moved):
    tag = data[at]
    if tag == 7:
        return data[at:at + 3], at + 3
    if tag == 8:
        return bytes([8]) + struct.pack(">H", moved[u2(data, at + 1)]), at + 3
    return bytes([tag]), at + 1


def items_at(data, at, count, moved):
    out = b""
    for _ in range(count):
        item, at = item_at(data, at, moved)
        out += item
    return out, at


def frames_moved(data, moved):
    """The content of StackMapTable with its places moved; no delta stays in a tag but where it fits."""
    out, at, before, last = data[:2], 2, -1, -1
    for _ in range(u2(data, 0)):
        tag = data[at]
        at += 1
        if tag < 128:
            delta = tag % 64
        else:
            delta, at = u2(data, at), at + 2
        before += delta + 1
        gap = moved[before] - last - 1
        last = moved[before]
        wide = struct.pack(">H", gap)
        if tag < 64 or tag == 251:
            out += bytes([gap]) if gap < 64 else bytes([251]) + wide
        elif tag < 128 or tag == 247:
            item, at = item_at(data, at, moved)
            out += (bytes([64 + gap]) if gap < 64 else bytes([247]) + wide) + item
        elif tag < 251:
            out += bytes([tag]) + wide
        elif tag < 255:
            items, at = items_at(data, at, tag - 251, moved)
            out += bytes([tag]) + wide + items
        else:
            locals_, at = items_at(data, at + 2, u2(data, at), moved), at
            count = data[at:at + 2]
            items, at = locals_
            stack_count = data[at:at + 2]
            stack, at = items_at(data, at + 2, u2(data, at), moved)
            out += bytes([255]) + wide + count + items + stack_count + stack
    return out


def code_moved(data, texts):
    """The content of a Code attribute in long forms."""
    size = u4(data, 4)
    code = data[8:8 + size]
    listed = list(instructions(code))
    moved, at = {}, 0
    for place, text in listed:
        moved[place] = at
        at += long_size(at, text, place)
    moved[size] = at
    made = b"".join(long_form(moved[place], text, place, moved) for place, text in listed)
    out = data[:4] + struct.pack(">I", len(made)) + made
    rows = 8 + size
    out += data[rows:rows + 2]
    at = rows + 2
    for _ in range(u2(data, rows)):
        out += b"".join(struct.pack(">H", moved[u2(data, at + 2 * n)]) for n in range(3)) + data[at + 6:at + 8]
        at += 8
    out += data[at:at + 2]
    count, at = u2(data, at), at + 2
    for _ in range(count):
        name, content = texts[u2(data, at)], data[at + 6:at + 6 + u4(data, at + 2)]
        if name == b"StackMapTable":
            content = frames_moved(content, moved)
        out += data[at:at + 2] + struct.pack(">I", len(content)) + content
        at += 6 + u4(data, at + 2)
    return out


def widened(data):
    """The class file in long forms. What stands in it besides is kept."""
    texts, at = pool_of(data)
    at += 8 + 2 * u2(data, at + 6)
    out = data[:at]
    for _ in range(2):
        count = u2(data, at)
        out, at = out + data[at:at + 2], at + 2
        for _ in range(count):
            attributes = u2(data, at + 6)
            out, at = out + data[at:at + 8], at + 8
            for _ in range(attributes):
                content = data[at + 6:at + 6 + u4(data, at + 2)]
                if texts[u2(data, at)] == b"Code":
                    content = code_moved(content, texts)
                out += data[at:at + 2] + struct.pack(">I", len(content)) + content
                at += 6 + u4(data, at + 2)
    return out + data[at:]
