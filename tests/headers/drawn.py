"""Classes and interfaces that are drawn by lot, with methods that often have the signature of one above, or its erasure, or nearly."""
from model import OBJECT, Class, Method, Table, subst

STRING, INTEGER, NUMBER = ("class", "String", []), ("class", "Integer", []), ("class", "Number", [])
THROWN = ["Exception", "IOException", "RuntimeException", "Error", "Throwable", "FileNotFoundException"]
# what stands before the classes, by their superclasses
GIVEN = {
    "Object": None, "String": "Object", "Number": "Object", "Integer": "Number", "Throwable": "Object", "Exception": "Throwable", "Error": "Throwable",
    "RuntimeException": "Exception", "IOException": "Exception", "FileNotFoundException": "IOException",
}
HEAD = ["import java.io.*;", "class G<T> { }", "class H<T> extends G<T> { }", "interface P { }", "interface Q { }"]
FIRST, SECOND = ("class", "P", []), ("class", "Q", [])


def given():
    table = Table()
    for name, above in GIVEN.items():
        table.classes[name] = Class(name, 0, [], [("class", above, [])] if above else [])
    table.bounds.update({"G.T": [OBJECT], "H.T": [OBJECT]})
    table.classes["G"] = Class("G", 0, ["G.T"], [OBJECT])
    table.classes["H"] = Class("H", 0, ["H.T"], [("class", "G", [("exact", ("var", "H.T"))])])
    for name in "PQ":
        table.classes[name] = Class(name, 0, [], [OBJECT], True, True)
    return table


def written(ty):
    if ty is None:
        return "void"
    if ty[0] == "array":
        return written(ty[1]) + "[]"
    if ty[0] == "class" and ty[2]:
        args = ("?" if arg[0] == "any" else ("? extends " if arg[0] == "extends" else "") + written(arg[1]) for arg in ty[2])
        return "%s<%s>" % (ty[1], ", ".join(args))
    return ty[1].split(".")[-1]


class Drawing:
    """A program: its table, the names of its classes, and its lines."""

    def __init__(self, lot):
        self.lot = lot
        self.table = given()
        self.names = []
        self.lines = list(HEAD)
        for number in range(lot.randint(2, 4)):
            self.add_class("C%d" % number)

    def type(self, variables, is_element=False):
        roll = self.lot.random()
        if roll < 0.35:
            return self.lot.choice([OBJECT, STRING, INTEGER, NUMBER])
        if roll < 0.55 and variables:
            return ("var", self.lot.choice(variables))
        if roll < 0.62 and not is_element:
            return ("prim", self.lot.choice(["int", "long"]))
        if roll < 0.68 and not is_element:
            return ("array", self.type(variables, True))
        if roll < 0.76:
            return ("raw", self.lot.choice("GH"))
        part = self.lot.choice([OBJECT, STRING, INTEGER] + [("var", name) for name in variables])
        arg = self.lot.choice([("exact", part), ("exact", part), ("exact", part), ("extends", STRING), ("any",)])
        return ("class", self.lot.choice("GH"), [arg])

    # ---- classes

    def supertype(self, name, variables):
        if not self.table.classes[name].variables:
            return ("class", name, [])
        if self.lot.random() < 0.15:
            return ("raw", name)
        bound = self.table.bounds[self.table.classes[name].variables[0]][0]
        fitting = [INTEGER] if bound == NUMBER else [OBJECT, STRING, INTEGER]
        fitting += [("var", one) for one in variables if bound == OBJECT or self.table.bounds[one][0] == NUMBER]
        return ("class", name, [("exact", self.lot.choice(fitting))])

    def supertypes(self, is_interface, variables):
        found = []
        for name in self.lot.sample(self.names, len(self.names))[:3]:
            is_class = not self.table.classes[name].is_interface
            has_class = any(not self.table.classes[one[1]].is_interface for one in found)
            if (is_class and (is_interface or has_class)) or (found and self.lot.random() < 0.3):
                continue
            found.append(self.supertype(name, variables))
        return found

    def add_class(self, name):
        is_interface = self.lot.random() < 0.5
        variables = []
        if self.lot.random() < 0.4:
            variables = [name + ".T"]
            self.table.bounds[name + ".T"] = [self.lot.choice([OBJECT, OBJECT, NUMBER])]
        supers = self.supertypes(is_interface, variables)
        classes = [one for one in supers if not self.table.classes[one[1]].is_interface]
        interfaces = [one for one in supers if self.table.classes[one[1]].is_interface]
        if not classes and not is_interface and self.lot.random() < 0.08:
            classes = [("class", self.lot.choice(["Exception", "Error"]), [])]
        is_abstract = is_interface or self.lot.random() < 0.6
        one = Class(name, len(self.lines) + 1, variables, (classes or [OBJECT]) + interfaces, is_interface, is_abstract)
        self.table.classes[name] = one
        self.lines.append(self.head(one, classes, interfaces))
        for _ in range(self.lot.randint(0, 2)):
            self.add_method(one)
        self.lines.append("}")
        self.names.append(name)

    def head(self, one, classes, interfaces):
        words = "interface " if one.is_interface else "abstract class " if one.is_abstract else "class "
        line = words + one.name + "".join("<T extends %s>" % written(self.table.bounds[name][0]) for name in one.variables)
        line += "".join(" extends " + written(ty) for ty in classes)
        if interfaces:
            line += (" extends " if one.is_interface else " implements ") + ", ".join(written(ty) for ty in interfaces)
        return line + " {"

    # ---- methods

    def bounds(self, method, outer):
        """Those of a method's type parameter."""
        lot = self.lot
        if lot.random() < 0.5:
            return [lot.choice([OBJECT, NUMBER] + [("var", name) for name in outer] * 2)]
        own = ("class", "G", [("exact", ("var", "m%d.X" % method.number))])
        wide = [[FIRST], [FIRST, SECOND], [FIRST, SECOND], [SECOND, FIRST], [NUMBER, FIRST], [own], [("raw", "G")], [("class", "H", [("any",)])]]
        return lot.choice(wide + [[("class", "G", [("exact", ("var", name))])] for name in outer])

    def variable_of(self, method, bound):
        name = "m%d.X" % method.number
        self.table.bounds[name] = bound
        method.variables = [name]
        return ("var", name)

    def add_method(self, one):
        lot = self.lot
        method = Method(len(self.table.methods), one.name, lot.choice("mn"), len(self.lines) + 1, [])
        method.is_static = not one.is_interface and lot.random() < 0.1
        outer = [] if method.is_static else one.variables
        if lot.random() < 0.3:
            self.variable_of(method, self.bounds(method, outer))
        method.params = [self.type(method.variables + outer) for _ in range(lot.choice([0, 1, 1]))]
        method.result = lot.choice([None, None, self.type(method.variables + outer), ("class", "G", [("exact", lot.choice([STRING, INTEGER]))])])
        method.thrown = [("class", lot.choice(THROWN), [])] if lot.random() < 0.2 else []
        method.access = "public" if one.is_interface or lot.random() < 0.7 else lot.choice(["", "protected", "private", "public"])
        above = [other for other in self.table.methods if any(self.table.view(other.owner, ty) for ty in one.supers)]
        if above and lot.random() < 0.8:
            self.follow(method, one, lot.choice(above))
        if lot.random() < 0.2:
            method.result = lot.choice([None, OBJECT, STRING, INTEGER, NUMBER, self.type(method.variables + outer)])
        self.finish(method, one)
        self.table.methods.append(method)
        self.lines.append(self.method_line(method, one))

    def follow(self, method, one, other):
        """Takes the signature of a method above, as the class has it, or its erasure."""
        view = next(view for view in (self.table.view(other.owner, ty) for ty in one.supers) if view)
        method.name = other.name
        roll = self.lot.random()
        if roll > 0.85 or (method.is_static and one.variables):
            return
        put = self.table.plain if view[0] == "raw" else lambda ty: subst(self.table.classes[other.owner].variables, [arg[1] for arg in view[2]], ty)
        if roll > 0.65:
            put, method.variables = (lambda ty: self.table.plain(ty)) if self.lot.random() < 0.5 else (lambda ty, first=put: self.table.plain(first(ty))), []
        elif view[0] == "raw" or not other.variables:
            method.variables = []
        else:
            fresh = self.variable_of(method, [OBJECT])
            put = lambda ty, first=put: subst(other.variables, [fresh], first(ty))
            bounds = [put(bound) for bound in self.table.bounds[other.variables[0]]]
            if self.lot.random() < 0.7 and all(bound in (FIRST, SECOND) for bound in bounds):
                bounds.reverse()
            self.table.bounds[method.variables[0]] = bounds
        method.params = [put(ty) for ty in other.params]
        method.result = other.result and self.nearly(put(other.result), method.variables)
        if self.lot.random() < 0.75:
            method.thrown = list(other.thrown)
        if self.lot.random() < 0.8:
            method.access = other.access

    def nearly(self, ty, variables):
        """A result, or of a type with arguments one that may stand for it: raw, below it, with wildcards, or of a type parameter."""
        if ty[0] != "class" or not ty[2] or self.lot.random() < 0.4:
            return ty
        below = [("raw", "G"), ("raw", "H"), ("class", "H", ty[2]), ("class", "H", [("any",)]), ("class", "H", [("extends", STRING)]), ("class", ty[1], [("any",)])]
        return self.lot.choice(below + [("var", name) for name in variables])

    def finish(self, method, one):
        lot = self.lot
        if one.is_interface:
            method.access = "public"
        method.is_final = not one.is_interface and lot.random() < 0.06
        may_be_abstract = one.is_abstract and not method.is_static and not method.is_final and method.access != "private"
        method.is_abstract = one.is_interface or (may_be_abstract and lot.random() < 0.45)
        method.has_body = not method.is_abstract
        if lot.random() < 0.002:
            method.has_body = not method.has_body
        method.says_override = method.access != "private" and not method.is_static and lot.random() < 0.04

    def method_line(self, method, one):
        words = ["@Override"] if method.says_override else []
        if not one.is_interface:
            marks = [(method.is_static, "static"), (method.is_final, "final"), (method.is_abstract, "abstract")]
            words += [method.access] * bool(method.access) + [word for is_so, word in marks if is_so]
        words += ["<X extends %s>" % " & ".join(written(bound) for bound in self.table.bounds[name]) for name in method.variables]
        params = ", ".join("%s p%d" % (written(ty), at) for at, ty in enumerate(method.params))
        line = " ".join(words + ["%s %s(%s)" % (written(method.result), method.name, params)])
        if method.thrown:
            line += " throws " + ", ".join(written(ty) for ty in method.thrown)
        value = "" if method.result is None else " return %s;" % ("0" if method.result[0] == "prim" else "null")
        return line + (" {%s }" % value if method.has_body else ";")
