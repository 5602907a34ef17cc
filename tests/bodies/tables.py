"""The tables of operators, conversions and conditionals over some thirty types, read from JLS SE 7 and javag's profile once more, as statements with a verdict.

`statements()` gives for each its text and the rule that it breaks, or 0. `javac` judges them in `run`; where it is to judge otherwise stands in `explained`.
"""
PRIMS = ["byte", "short", "char", "int", "long", "boolean"]
BOXES = {"byte": "Byte", "short": "Short", "char": "Character", "int": "Integer", "long": "Long", "boolean": "Boolean"}
UNBOXED = {box: prim for prim, box in BOXES.items()}
# type variables, by their bounds
VARS = {"T": "Object", "U": "Number", "V": "Integer", "W": "Boolean", "S": "String"}
# the direct supertypes of classes
SUPERS = {"Byte": ["Number", "Comparable<Byte>"], "Short": ["Number", "Comparable<Short>"], "Integer": ["Number", "Comparable<Integer>"], "Long": ["Number", "Comparable<Long>"],
          "Character": ["Comparable<Character>"], "Boolean": ["Comparable<Boolean>"], "String": ["Comparable<String>"], "Comparable<Integer>": ["Comparable<?>"],
          "Comparable<String>": ["Comparable<?>"], "Number": [], "B": ["I"], "D": ["B"], "I": [], "F": [], "Comparable<?>": [], "List<String>": ["List<?>"], "List<Integer>": ["List<?>"], "List<?>": []}
FINAL = set(UNBOXED) | {"String", "F"}
INTERFACES = {"I", "Comparable<Integer>", "Comparable<String>", "Comparable<?>", "List<String>", "List<Integer>", "List<?>"}
ARRAYS = {"int[]": "int", "long[]": "long", "Integer[]": "Integer", "Number[]": "Number", "Object[]": "Object"}
TYPES = PRIMS + list(UNBOXED) + ["String", "Object", "Number", "Comparable<Integer>", "Comparable<String>", "Comparable<?>", "B", "D", "I", "F", "List<String>", "List<Integer>", "List<?>"] \
    + list(ARRAYS) + list(VARS) + ["null"]
HEAD = ["import java.util.List;", "interface I { }", "class B implements I { }", "class D extends B { }", "final class F { }",
        "class G<X> { X v; X get() { return v; } void set(X x) { } X[] all() { return null; } }", "class H<X extends Number> extends G<X> { }",
        "class A<T, U extends Number, V extends Integer, W extends Boolean, S extends String> {", "    boolean yes;", "    static <X> X first(List<X> l) { return null; }", "    static <X> void into(List<? super X> l, X x) { }"]
# what G, H or List has as its argument: the types above what is read, and the type below it, from which values are stored
ARGUMENTS = {"": (["Object"], "Object"), "<?>": (["Object"], None), "<? extends Number>": (["Number"], None), "<? extends Integer>": (["Integer"], None), "<? super Integer>": (["Object"], "Integer"),
             "<Integer>": (["Integer"], "Integer"), "<String>": (["String"], "String"), "<? extends Comparable<?>>": (["Comparable<?>"], None), "<T>": (["T"], "T"), "<? extends U>": (["U"], None),
             "<? super V>": (["Object"], "V"), "<? extends int[]>": (["int[]"], None), "<int[]>": (["int[]"], "int[]"), "<? super String>": (["Object"], "String")}
# .. behind H, whose parameter has the bound Number
BOUNDED = ["", "<?>", "<? extends Integer>", "<? extends Comparable<?>>", "<Integer>", "<? super Integer>"]
# constants: text, type and value
CONSTANTS = [("5", "int", 5), ("200", "int", 200), ("-1", "int", -1), ("70000", "int", 70000), ("'a'", "char", 97), ("(byte) 7", "byte", 7), ("(short) 300", "short", 300), ("6L", "long", 6)]
RANGES = {"byte": (-128, 127), "short": (-32768, 32767), "char": (0, 65535)}
WIDER = {"byte": ["short", "int", "long"], "short": ["int", "long"], "char": ["int", "long"], "int": ["long"], "long": [], "boolean": []}


def field(kind):
    """A variable of a type."""
    return "null" if kind == "null" else "f" + "".join(sign if sign.isalnum() else "_" for sign in kind)


# subtyping and conversions

def above(kind):
    """All types of the table above a reference type."""
    found = [kind]
    for one in found:
        found += [up for up in ([VARS[one]] if one in VARS else SUPERS.get(one, [])) if up not in found]
        if one.startswith("Comparable<") and "Comparable<?>" not in found:
            found.append("Comparable<?>")
    return found


def is_below(low, high):
    if low == "null" or low == high or high == "Object":
        return True
    if low in ARRAYS:
        return high in ARRAYS and ARRAYS[low] not in PRIMS and ARRAYS[high] not in PRIMS and is_below(ARRAYS[low], ARRAYS[high])
    return high in above(low)


def unboxed(kind):
    """The primitive type of an operand."""
    if kind in PRIMS:
        return kind
    return next((UNBOXED[up] for up in above(kind) if up in UNBOXED), None) if kind not in ("null", *ARRAYS) else None


def is_numeric(prim):
    return prim not in (None, "boolean")


def widens(low, high):
    return low == high or high in WIDER[low]


def narrows(constant, low, prim):
    return constant is not None and low in ("byte", "short", "char", "int") and prim in RANGES and RANGES[prim][0] <= constant <= RANGES[prim][1]


def invoked(low, high, constant=None):
    """Method invocation conversion; of a constant, assignment conversion."""
    if low in PRIMS and high in PRIMS:
        return widens(low, high) or narrows(constant, low, high)
    if low in PRIMS:
        return is_below(BOXES[low], high) or high in UNBOXED and narrows(constant, low, UNBOXED[high])
    if high in PRIMS:
        return unboxed(low) is not None and widens(unboxed(low), high)
    return is_below(low, high)


def bound(kind):
    return VARS.get(kind, kind)


def argument(kind):
    """The one argument that a type has as Comparable or List, if it has one."""
    for up in above(kind):
        if "<" in up and "?" not in up:
            return up.split("<")
    return None


def is_legal(low, high):
    """A cast of references (JLS 5.5.1)."""
    low, high = bound(low), bound(high)
    if is_below(low, high) or is_below(high, low):
        return True
    if low in ARRAYS or high in ARRAYS:
        if low in ARRAYS and high in ARRAYS and ARRAYS[low] not in PRIMS and ARRAYS[high] not in PRIMS:
            return is_legal(ARRAYS[low], ARRAYS[high])
        return False
    one, other = argument(low), argument(high)
    if one and other and one[0] == other[0] and one[1] != other[1]:
        return False
    return low in INTERFACES and high not in FINAL or high in INTERFACES and low not in FINAL


def casts(low, high):
    if low in PRIMS and high in PRIMS:
        return low == high or is_numeric(low) and is_numeric(high)
    if low in PRIMS:
        return is_below(BOXES[low], high)
    if high in PRIMS:
        prim = unboxed(low)
        # no box is below the capture of Comparable<?>
        return prim is not None and widens(prim, high) or low not in ("null", "Comparable<?>") and is_below(BOXES[high], bound(low))
    return is_legal(low, high)


# operators: the type of the result, or None

def promoted(one, other="int"):
    return "long" if "long" in (one, other) else "int"


def result(sign, left, right):
    one, other = unboxed(left), unboxed(right)
    numeric = is_numeric(one) and is_numeric(other)
    boolean = one == other == "boolean"
    if sign == "+" and "String" in (left, right):
        return "String"
    if sign in ("+", "*"):
        return promoted(one, other) if numeric else None
    if sign == "<<":
        return promoted(one) if numeric else None
    if sign == "<":
        return "boolean" if numeric else None
    if sign == "&":
        return "boolean" if boolean else promoted(one, other) if numeric else None
    if sign == "&&":
        return "boolean" if boolean else None
    if left in PRIMS or right in PRIMS:
        return "boolean" if numeric or boolean else None
    return "boolean" if is_legal(left, right) or is_legal(right, left) else None


def exact(kind):
    return kind if kind in PRIMS else UNBOXED.get(kind)


def compound(sign, left, right):
    """Whether `left op= right` is taken."""
    made = result(sign, left, right)
    if made == "String":
        return is_below("String", left)
    return made is not None and exact(left) is not None and casts(made, left)


# conditionals

def is_taken_by(branches, high):
    """Whether a conditional of two branches, each a type and a constant or None, is assigned to a type."""
    (one, first), (other, second) = branches
    kind = conditional(one, first, other, second)
    if kind is not None:
        return invoked(kind, high)
    # a least upper bound
    boxes = [BOXES.get(branch, branch) for branch in (one, other)]
    if high in PRIMS:
        known = [box for box in boxes if box != "null"]
        return len(known) == 1 and invoked(known[0], high) or len(known) == 2 and any(box in UNBOXED and all(is_below(branch, box) for branch in known) and invoked(box, high) for box in UNBOXED)
    return all(is_below(box, high) for box in boxes)


def conditional(one, first, other, second):
    if one == other:
        return one
    for low, high in ((one, other), (other, one)):
        if low in PRIMS and BOXES[low] == high:
            return low
        if low == "null" and high not in PRIMS:
            return high
    left, right = unboxed(one), unboxed(other)
    if not (is_numeric(left) and is_numeric(right)):
        return None
    if {left, right} == {"byte", "short"}:
        return "short"
    if other == "int" and narrows(second, "int", left):
        return left
    if one == "int" and narrows(first, "int", right):
        return right
    return left if left == right else promoted(left, right)


# all statements

def plain():
    for low in TYPES:
        for sign in ("-", "~"):
            yield "Object o = %s%s;" % (sign, field(low)), 609 if not is_numeric(unboxed(low)) else 0
        yield "Object o = !%s;" % field(low), 0 if unboxed(low) == "boolean" else 609
        if low != "null":
            yield "%s++;" % field(low), 0 if is_numeric(exact(low)) else 609
            yield "--%s;" % field(low), 0 if is_numeric(exact(low)) else 609
        yield "if (%s) { }" % field(low), 0 if invoked(low, "boolean") else 607
        yield "Object o = new int[%s];" % field(low), 0 if invoked(low, "int") else 607
        yield "for (Object o : %s) { }" % field(low), 0 if low in ARRAYS or low.startswith("List") else 617
        yield "Object o = %s[0];" % field(low), 0 if low in ARRAYS else 617


def of_two():
    for low in TYPES:
        for high in TYPES:
            for sign in ("+", "*", "<<", "<", "&", "&&", "=="):
                yield "Object o = %s %s %s;" % (field(low), sign, field(high)), 0 if result(sign, low, high) else 609
            if high == "null":
                continue
            yield "Object o = (%s) %s;" % (high, field(low)), 0 if casts(low, high) else 608
            yield "%s = %s;" % (field(high), field(low)), 0 if invoked(low, high) else 607
            for sign in ("+", "*", "<<", "&"):
                yield "%s %s= %s;" % (field(high), sign, field(low)), 0 if compound(sign, high, low) else 609


def of_constants():
    targets = PRIMS + list(UNBOXED) + ["String", "Object", "Number", "Comparable<Integer>", "V"]
    branches = [(field(kind), kind, None) for kind in PRIMS + list(UNBOXED) + ["String", "Object", "Number", "V", "W", "null"]] + CONSTANTS
    for high in targets:
        for text, kind, value in CONSTANTS:
            yield "%s = %s;" % (field(high), text), 0 if invoked(kind, high, value) else 607
        for one, low, first in branches:
            for other, right, second in branches:
                yield "%s = yes ? %s : %s;" % (field(high), one, other), 0 if is_taken_by([(low, first), (right, second)], high) else 607
    for kind in ("byte", "short", "char", "int", "Byte", "Short", "Character", "Integer"):
        for text, low, value in CONSTANTS:
            yield "switch (%s) { case %s: }" % (field(kind), text), 0 if invoked(low, kind, value) else 607


def generic_types():
    """Each parameterized or raw type, with the types above what is read of it, and the one below."""
    for argument, (uppers, lower) in ARGUMENTS.items():
        yield "G" + argument, uppers, lower
        yield "List" + argument, uppers, lower
        if argument in BOUNDED:
            # behind the raw H its superclass is raw too (JLS 4.8)
            yield "H" + argument, uppers + ["Number"] * (argument != ""), lower


def of_arguments():
    values = [(field(kind), kind, None) for kind in TYPES] + CONSTANTS
    for kind, uppers, lower in generic_types():
        it = field("g" + kind)
        if kind.startswith("List"):
            for high in TYPES:
                if high != "null":
                    taken = any(invoked(up, high) for up in uppers)
                    yield "for (%s q : %s) { }" % (high, it), 0 if taken else 607
                    yield "%s = %s.get(0);" % (field(high), it), 0 if taken else 607
                    yield "%s = first(%s);" % (field(high), it), 0 if taken else 607
            continue
        for high in TYPES:
            if high != "null":
                for text in (".v", ".get()", ".all()[0]"):
                    yield "%s = %s%s;" % (field(high), it, text), 0 if any(invoked(up, high) for up in uppers) else 607
        for text, low, value in values:
            yield "%s.v = %s;" % (it, text), 0 if low == "null" or lower and invoked(low, lower, value) else 607
            yield "%s.set(%s);" % (it, text), 0 if low == "null" or lower and invoked(low, lower) else 604


def statements():
    yield from plain()
    yield from of_two()
    yield from of_constants()
    yield from of_arguments()


def lines():
    """The class with a method for each statement, a line each, and the lines of the statements with their rules."""
    made = HEAD + ["    %s %s;" % (kind, field(kind)) for kind in TYPES if kind != "null"] + ["    %s %s;" % (kind, field("g" + kind)) for kind, _, _ in generic_types()]
    rules = {}
    for number, (text, rule) in enumerate(statements()):
        made.append("    void m%d() { %s }" % (number, text))
        rules[len(made)] = rule
    return made + ["}"], rules


def statement_in(line):
    """The statement of a line."""
    return line.split("{ ", 1)[1][:-len(" }")]


# ---- where javac is to judge otherwise

def explained(text, rule):
    """Why javac takes a statement that breaks a rule, or None: an increment of a variable below a box, which is none of a primitive type or exactly its class, and a String that is added to a type variable."""
    variables = {field(kind) for kind in VARS}
    if rule == 609 and (text.endswith("++;") or text.startswith("--")) and text.strip("+-;") in variables:
        return "an increment of a type variable"
    if rule == 609 and "+=" in text and text.split(" ")[0] in variables:
        return "a String into a type variable"
    return None
