"""What names and calls mean in classes that are drawn by lot: fields, member types and methods of a few names, static, private, inherited and hidden, with the rule that each use of them breaks.

The rules stand here once more, as JLS SE 7 has them (6.3 to 6.6, 8.2 to 8.5, 15.11, 15.12), in javag's profile: a private member of a superclass, or of a type variable's bound, is no member (603).
"""

FIELDS = ["x", "y", "P", "Q"]
PARAMS = ["int", "String", "Object"]
ARGUMENTS = [("1", "int"), ('"s"', "String"), ("o", "Object")]


class Type:
    """A class or interface: its name, the class round it, its supertypes, and its members."""

    def __init__(self, name, outer=None, is_private=False, is_interface=False):
        self.name, self.outer, self.is_private, self.is_interface = name, outer, is_private, is_interface
        self.above = []
        # name: type ("int" or a class), whether it is static, whether it is private
        self.fields = {}
        # parameter: whether it is static, whether it is private
        self.methods = {}
        self.nested = {}

    @property
    def path(self):
        return (self.outer.path + "." if self.outer else "") + self.name

    @property
    def top(self):
        return self.outer.top if self.outer else self

    def round(self):
        return [self] + (self.outer.round() if self.outer else [])

    def field(self, name):
        """The fields of a name that are members: the owner and the field."""
        if name in self.fields:
            return [(self, self.fields[name])]
        found = []
        for up in self.above:
            found += [one for one in up.field(name) if not one[1][2] and one not in found]
        return found

    def members(self):
        """The methods `m`, by their parameters: the owner and the method."""
        found = {}
        for up in reversed(self.above):
            found.update({param: one for param, one in up.members().items() if not one[1][1]})
        found.update({param: (self, method) for param, method in self.methods.items()})
        return found

    def member_type(self, name):
        if name in self.nested:
            return self.nested[name]
        for up in self.above:
            found = up.member_type(name)
            if found and not found.is_private:
                return found
        return None

    def is_open_from(self, place):
        return not self.is_private or place.top is self.top


class Broken(Exception):
    """A rule that is broken."""


class Value:
    """A value of some types, of which a type variable's members come from several, and then from other classes."""

    def __init__(self, types, is_variable=False):
        self.types, self.is_variable = types, is_variable


INT = Value(["int"])


class Place:
    """A place in a body: its class, its locals, and the rule that a use of the instance breaks: 611 in a static place, 620 before there is one, or None; in an initialiser `later` are the fields that are declared
    behind it, and static or not as it is itself."""

    def __init__(self, types, at, instance, local, later=()):
        self.types, self.at, self.instance, self.local, self.later = types, at, instance, local, later

    # names

    def find_type(self, name):
        for one in self.at.round():
            found = one.member_type(name)
            if found:
                return found
        return self.types.get(name)

    def simple(self, name):
        if name in self.local:
            return self.local[name]
        for one in self.at.round():
            found = one.field(name)
            if len(found) > 1:
                raise Broken(622)
            if found:
                self.ask_instance(one, found[0][1][1])
                if found[0][0] is self.at and name in self.later:
                    raise Broken(626)
                return self.value(found[0][1][0])
        return self.find_type(name)

    def ask_instance(self, one, is_static):
        """A member of a class round the place, by its simple name."""
        if not is_static and one is not self.at:
            raise Broken(611)
        if not is_static and self.instance:
            raise Broken(self.instance)

    @staticmethod
    def value(kind):
        return INT if kind == "int" else Value([kind])

    def start(self, name):
        if name in ("this", "super"):
            if self.instance:
                raise Broken(self.instance)
            return Value([self.at if name == "this" else self.at.above[0] if self.at.above else None])
        return self.simple(name)

    def found_in(self, before, name):
        """The field of a value."""
        found = []
        for kind in before.types:
            found += [one for one in (kind.field(name) if isinstance(kind, Type) else []) if one not in found and not (before.is_variable and one[1][2])]
        return found

    def is_closed(self, before):
        return len(before.types) == 1 and isinstance(before.types[0], Type) and not before.types[0].is_open_from(self.at)

    def behind(self, before, name, is_last):
        if before is None:
            raise Broken(602)
        if isinstance(before, Type):
            found = before.field(name)
            if not found:
                inner = None if is_last else before.member_type(name)
                if inner is None:
                    raise Broken(603)
                if not inner.is_open_from(self.at):
                    raise Broken(618)
                return inner
            if len(found) == 1 and not found[0][1][1]:
                raise Broken(611)
            is_closed = not before.is_open_from(self.at)
        else:
            found = self.found_in(before, name)
            is_closed = self.is_closed(before)
        if not found:
            raise Broken(603)
        if len(found) > 1:
            raise Broken(622)
        owner, (kind, _, is_private) = found[0]
        if is_closed or is_private and owner.top is not self.at.top:
            raise Broken(618)
        return self.value(kind)

    # calls

    def choose(self, found, kind, is_closed):
        if not found:
            raise Broken(603)
        known = {param: one for param, one in found.items() if not is_closed and not (one[1][1] and one[0].top is not self.at.top)}
        if not known:
            raise Broken(618)
        for param in [kind, "Object"]:
            if param in known:
                return known[param]
        raise Broken(604)

    def call_here(self, kind):
        for one in self.at.round():
            if one.members():
                self.ask_instance(one, self.choose(one.members(), kind, False)[1][0])
                return INT
        raise Broken(603)

    def call(self, before, kind):
        if before is None:
            raise Broken(602)
        if isinstance(before, Type):
            if not self.choose(before.members(), kind, not before.is_open_from(self.at))[1][0]:
                raise Broken(611)
            return INT
        found = {}
        for one in before.types:
            found.update({param: method for param, method in (one.members() if isinstance(one, Type) else {}).items() if not (before.is_variable and method[1][1])})
        self.choose(found, kind, self.is_closed(before))
        return INT

    # uses: the parts of a name, and the type of the argument of a call at its end, or None

    def meaning(self, parts, kind):
        names = parts if kind is None else parts[:-1]
        if not names:
            return self.call_here(kind)
        before = self.start(names[0])
        for at, name in enumerate(names[1:], 1):
            before = self.behind(before, name, kind is None and at == len(names) - 1)
        if kind is not None:
            return self.call(before, kind)
        if not isinstance(before, Value):
            raise Broken(602)
        return before

    def rule(self, parts, kind):
        try:
            self.meaning(parts, kind)
        except Broken as broken:
            return broken.args[0]
        return 0


class Drawing:
    """The lines of a program, and the rule of each line that is a use of a name."""

    def __init__(self, lot):
        self.lot = lot
        self.types = {}
        self.lines = []
        self.rules = {}
        self.statics = {param: lot.random() < 0.5 for param in PARAMS}
        self.draw()
        for one in list(self.types.values()):
            self.write(one, "")

    # classes

    def fields_of(self, one):
        for name in FIELDS:
            if self.lot.random() < 0.35:
                kind = "int" if one.is_interface or self.lot.random() < 0.5 else self.lot.choice([up for up in self.types.values() if not up.is_interface] or ["int"])
                one.fields[name] = (kind, one.is_interface or self.lot.random() < 0.5, not one.is_interface and self.lot.random() < 0.3)

    def methods_of(self, one):
        for param in PARAMS:
            if self.lot.random() < 0.35:
                inherited = param in one.members()
                is_private = not inherited and self.lot.random() < 0.3
                one.methods[param] = (self.lot.random() < 0.5 if is_private else self.statics[param], is_private)

    def draw(self):
        lot = self.lot
        for number in range(2):
            one = Type("I%d" % number, is_interface=True)
            one.above = [up for up in self.types.values() if lot.random() < 0.3]
            self.fields_of(one)
            self.types[one.name] = one
        for number in range(4):
            one = Type("K%d" % number)
            classes = [up for up in self.types.values() if not up.is_interface]
            one.above = [lot.choice(classes)] if classes and lot.random() < 0.6 else []
            one.above += [up for up in self.types.values() if up.is_interface and lot.random() < 0.25]
            self.fields_of(one)
            self.methods_of(one)
            for name in ("P", "Q"):
                if lot.random() < 0.4:
                    inner = Type(name, one, lot.random() < 0.4)
                    inner.above = [lot.choice(classes)] if classes and lot.random() < 0.5 else []
                    self.fields_of(inner)
                    self.methods_of(inner)
                    one.nested[name] = inner
            self.types[one.name] = one

    # text

    def write(self, one, indent):
        up = [kind for kind in one.above if not kind.is_interface]
        faces = [kind for kind in one.above if kind.is_interface]
        head = "interface " + one.name if one.is_interface else ("private " if one.is_private else "") + ("static " if one.outer else "") + "class " + one.name
        if up:
            head += " extends " + up[0].name
        if faces:
            head += (" extends " if one.is_interface else " implements ") + ", ".join(kind.name for kind in faces)
        self.lines.append(indent + head + " {")
        later = set() if one.is_interface else {name for name in one.fields if self.lot.random() < 0.5}
        self.declare(one, indent + "    ", [name for name in one.fields if name not in later])
        if not one.is_interface:
            self.initialisers(one, indent + "    ", later)
            self.constructors(one, indent + "    ")
        self.declare(one, indent + "    ", later)
        for param, (is_static, is_private) in one.methods.items():
            self.lines.append("%s    %s%sint m(%s a) { return 1; }" % (indent, "private " if is_private else "", "static " if is_static else "", param))
        for inner in one.nested.values():
            self.write(inner, indent + "    ")
        if not one.is_interface:
            self.uses(one, indent + "    ", False)
            self.uses(one, indent + "    ", True)
        self.lines.append(indent + "}")

    def declare(self, one, indent, fields):
        for name in sorted(fields):
            kind, is_static, is_private = one.fields[name]
            words = "" if one.is_interface else ("private " if is_private else "") + ("static " if is_static else "")
            self.lines.append("%s%s%s %s%s;" % (indent, words, kind if kind == "int" else kind.name, name, " = 1" if one.is_interface else ""))

    def use(self, place, starts, before, behind):
        """A line with a use of a name."""
        lot = self.lot
        parts = [lot.choice(starts)] + [lot.choice(FIELDS) for _ in range(lot.choice([0, 0, 1, 1, 1, 2]))]
        text, kind = "", None
        if lot.random() < 0.4:
            argument, kind = lot.choice(ARGUMENTS if "o" in place.local else ARGUMENTS[:2])
            text = "(%s)" % argument
            parts = parts + ["m"] if lot.random() < 0.75 else ["m"]
        if parts[0] == "super" and (len(parts) == 1 or not place.at.above or place.at.above[0].is_interface):
            return
        self.lines.append(before + ".".join(parts) + text + behind)
        self.rules[len(self.lines)] = place.rule(parts, kind)

    def initialisers(self, one, indent, later):
        for is_static in (False, True):
            place = Place(self.types, one, 611 if is_static else None, {}, {name for name in later if one.fields[name][1] == is_static})
            for number in range(6):
                self.use(place, list(self.types) + FIELDS * 2 + ["this", "super"], "%s%sObject %s%d = " % (indent, "static " if is_static else "", "s" if is_static else "f", number), ";")

    def constructors(self, one, indent):
        self.lines.append("%s%s() { }" % (indent, one.name))
        self.lines.append("%s%s(Object o) { }" % (indent, one.name))
        place = Place(self.types, one, 620, {"a": INT})
        for number in range(6):
            self.use(place, ["a"] + list(self.types) + FIELDS * 2 + ["this", "super"], "%s%s(int a, int%s b) { this((Object) " % (indent, one.name, "[]" * number), "); }")

    def uses(self, one, indent, is_static):
        lot = self.lot
        classes = [kind for kind in self.types.values() if not kind.is_interface]
        faces = [kind for kind in self.types.values() if kind.is_interface]
        bound, face = lot.choice(classes), lot.choice(faces)
        local = {"o": Value(["Object"]), "t": Value([bound], True), "u": Value([bound, face], True)}
        params = ["Object o", "T t", "U u"]
        for name in lot.sample(["a", "b", "x", "P", "K1"], 3):
            kind = lot.choice(classes + ["int"])
            local[name] = INT if kind == "int" else Value([kind])
            params.append("%s %s" % (kind if kind == "int" else kind.name, name))
        words = "static " if is_static else ""
        self.lines.append("%s%s<T extends %s, U extends %s & %s> void %s(%s) {" % (indent, words, bound.name, bound.name, face.name, "s" if is_static else "i", ", ".join(params)))
        place = Place(self.types, one, 611 if is_static else None, local)
        for _ in range(14):
            self.use(place, list(local) + list(self.types) + FIELDS + ["this", "super", "nowhere"], indent + "    o = ", ";")
        self.lines.append(indent + "}")

    def without(self, kept):
        """The lines without the uses that break a rule, but for the one at a line that is kept."""
        return [line for at, line in enumerate(self.lines, 1) if not self.rules.get(at) or at == kept]


# ---- where javac judges otherwise

def explained(rule, sorts):
    """Whether that is so of a use: javac chooses a private method of a type variable's bound, and then refuses it; and behind a class it passes by a field that isn't accessible, and takes a member type of the name
    (JLS 6.5.2 asks for the field alone)."""
    return rule == 0 and sorts == ["report.access"] or rule in (611, 618) and not sorts
