"""Programs of declarations that are drawn by lot, the same at each call: nested classes and interfaces of few names, with type parameters, supertypes,
fields, methods and imports. `run` takes out the lines that javac refuses until it takes what is left, changes one line, and compares what javac and
the program say of that."""
import re

NAMES = ["A", "B", "C", "M", "T"]
PARAMETERS = ["T", "U", "M"]
HEAD = re.compile(r"\s*(?:(?:private|static) )*(?:class|interface) ")


class Drawn:
    """The lines of each source of a program."""

    def __init__(self, sources):
        self.sources = sources

    def texts(self):
        return {"F%d.java" % number: "\n".join(lines) + "\n" for number, lines in enumerate(self.sources)}

    def without(self, errors):
        """The program without the lines of these errors, each a source and a line from 1. Of a head its supertypes are taken out, in the lines behind."""
        sources = [list(lines) for lines in self.sources]
        for source, line in errors:
            lines = sources[source]
            if HEAD.match(lines[line - 1]):
                lines[line] = ""
                lines[line + 1] = ""
            else:
                lines[line - 1] = ""
        return Drawn(sources)


class Drawing:
    def __init__(self, lot):
        self.lot = lot

    def name(self):
        return self.lot.choice(NAMES)

    def type(self, variables):
        """A name of one to three parts, or a type parameter."""
        chance = self.lot.random()
        if chance < 0.2 and variables:
            return self.lot.choice(variables)
        parts = 1 if chance < 0.5 else 2 if chance < 0.85 else 3
        first = ["p"] if self.lot.random() < 0.15 else []
        return ".".join(first + [self.name() for _ in range(parts)])

    def types(self, variables):
        return ", ".join(self.type(variables) for _ in range(self.lot.choice([1, 1, 2])))

    def supertypes(self, is_interface, variables):
        """Two lines: what the type extends and what it implements."""
        extends = self.lot.random() < 0.5
        implements = not is_interface and self.lot.random() < 0.4
        first = "extends " + (self.types(variables) if is_interface else self.type(variables))
        return [first if extends else "", "implements " + self.types(variables) if implements else ""]

    def fields(self, is_interface, variables):
        for number in range(self.lot.choice([0, 1, 1, 2])):
            is_static = not is_interface and self.lot.random() < 0.3
            yield "%s%s f%d = null;" % ("static " if is_static else "", self.type(variables), number)
        if not is_interface and self.lot.random() < 0.3:
            own = self.lot.choice(["", "<T> ", "<M> "])
            yield "%s%svoid m(%s it) { %s local; }" % (self.lot.choice(["", "static "]), own, self.type(variables), self.type(variables))

    def declaration(self, round_it, beside, inside_interface, variables):
        """The name and the lines of a type, named unlike those round it and beside it."""
        name = self.lot.choice([one for one in NAMES if one not in round_it + beside])
        depth = len(round_it)
        is_interface = self.lot.random() < 0.4
        words = "private " if depth and not inside_interface and self.lot.random() < 0.3 else ""
        words += "static " if depth and not is_interface and not inside_interface else ""
        own = [self.lot.choice(PARAMETERS)] if self.lot.random() < 0.3 else []
        seen = own + variables
        lines = [words + ("interface " if is_interface else "class ") + name + "".join("<%s>" % one for one in own)] + self.supertypes(is_interface, seen) + ["{"]
        members = []
        for _ in range(self.lot.choice([0, 1, 1, 2]) if depth < 2 else 0):
            member, more = self.declaration(round_it + [name], members, is_interface, seen)
            members.append(member)
            lines += more
        return name, lines + list(self.fields(is_interface, seen)) + ["}"]

    def imported(self):
        return "import p.%s%s;" % (self.name(), self.lot.choice(["", ".*", "." + self.name(), "." + self.name() + ".*"]))

    def program(self):
        sources = []
        names = []
        for _ in range(2):
            lines = ["package p;"] + [self.imported() for _ in range(self.lot.choice([0, 1, 2]))]
            for _ in range(self.lot.choice([1, 2])):
                name, more = self.declaration([], names, False, [])
                names.append(name)
                lines += more
            sources.append(lines)
        return Drawn(sources)

    def changed(self, drawn):
        """The program with one line more, or with another supertype."""
        sources = [list(lines) for lines in drawn.sources]
        lines = self.lot.choice(sources)
        heads = [number for number, line in enumerate(lines) if HEAD.match(line)]
        at = self.lot.choice(heads)
        is_interface = "interface " in lines[at]
        chance = self.lot.random()
        if chance < 0.5:
            lines.insert(at + 4, "%s%s g = null;" % (self.lot.choice(["", "static "]), self.type(PARAMETERS)))
        elif chance < 0.9:
            words = "extends " if is_interface else self.lot.choice(["extends ", "implements "])
            lines[at + (2 if words == "implements " else 1)] = words + self.type(PARAMETERS)
        else:
            lines.insert(1, self.imported())
        return Drawn(sources)
