"""The definitions of crates/jc_overriding and crates/jc_header_rules once more, as functions of a small table of classes. They stand here to be judged by javac
(`run`) as long as no program answers by the definitions themselves, and have to be kept as those are.

A type is a tuple: ('prim', NAME), ('class', NAME, [ARGUMENT ..]), ('raw', NAME), ('array', TYPE) or ('var', NAME); an argument is ('exact', TYPE), ('any',) or ('extends', TYPE).
"""
import itertools
from dataclasses import dataclass, field

OBJECT = ("class", "Object", [])
OPENNESS = {"public": 3, "protected": 2, "": 1, "private": 0}
# views and questions end within so many steps: the programs have few classes
STEPS = 20
DEPTH = 12


@dataclass
class Method:
    number: int
    owner: str
    name: str
    line: int
    params: list
    result: tuple = None
    thrown: list = field(default_factory=list)
    variables: list = field(default_factory=list)
    access: str = "public"
    is_static: bool = False
    is_final: bool = False
    is_abstract: bool = False
    has_body: bool = True
    says_override: bool = False


@dataclass
class Class:
    name: str
    line: int
    variables: list
    supers: list
    is_interface: bool = False
    is_abstract: bool = False


@dataclass
class View:
    """A method as a type has it."""

    method: Method
    variables: list
    bounds: list
    params: list
    result: tuple
    thrown: list


def subst(variables, by, ty):
    kind = ty[0]
    if kind == "var":
        return dict(zip(reversed(variables), reversed(by))).get(ty[1], ty)
    if kind == "class":
        return ("class", ty[1], [arg if arg[0] == "any" else (arg[0], subst(variables, by, arg[1])) for arg in ty[2]])
    if kind == "array":
        return ("array", subst(variables, by, ty[1]))
    return ty


def same_bounds(mine, theirs):
    """The bounds of one type parameter, in any order (JLS 4.4)."""
    return all(bound in theirs for bound in mine) and all(bound in mine for bound in theirs)


class Table:
    def __init__(self):
        self.classes = {}
        self.methods = []
        self.bounds = {}
        self.fresh = itertools.count()

    # ---- erasure and views (JLS 4.6, 4.8)

    def plain(self, ty):
        """The erasure of a type, a generic class raw."""
        if ty[0] == "var":
            return self.plain(self.bounds[ty[1]][0])
        if ty[0] in ("class", "raw"):
            return ("raw", ty[1]) if self.classes[ty[1]].variables else ("class", ty[1], [])
        if ty[0] == "array":
            return ("array", self.plain(ty[1]))
        return ty

    def supers(self, ty):
        if ty[0] == "class" and len(ty[2]) == len(self.classes[ty[1]].variables):
            by = [arg[1] for arg in ty[2]]
            return [subst(self.classes[ty[1]].variables, by, above) for above in self.classes[ty[1]].supers]
        if ty[0] in ("class", "raw"):
            return [self.plain(above) for above in self.classes[ty[1]].supers]
        return []

    def view(self, name, ty, steps=STEPS):
        if steps == 0:
            return None
        if ty[0] in ("class", "raw") and ty[1] == name:
            return ty
        found = (self.view(name, above, steps - 1) for above in self.supers(ty))
        return next((ty for ty in found if ty is not None), None)

    def captured(self, ty):
        """A type with fresh variables for its wildcards, whose bounds are those of the wildcards alone."""
        if ty[0] != "class":
            return ty
        return ("class", ty[1], [arg if arg[0] == "exact" else ("exact", self.variable_within(arg)) for arg in ty[2]])

    def variable_within(self, arg):
        name = "?%d" % next(self.fresh)
        self.bounds[name] = [arg[1], OBJECT] if arg[0] == "extends" else [OBJECT]
        return ("var", name)

    def captured_view(self, name, ty):
        if ty[0] in ("class", "raw") and ty[1] == name:
            return ty
        return self.view(name, self.captured(ty))

    def view_as_it_stands(self, name, ty):
        """The supertype of that class, of a type variable by its bounds."""
        if ty[0] != "var":
            return self.captured_view(name, ty)
        found = (self.view_as_it_stands(name, bound) for bound in self.bounds[ty[1]])
        return next((view for view in found if view is not None), None)

    def own_type(self, name):
        return ("class", name, [("exact", ("var", variable)) for variable in self.classes[name].variables])

    def is_within(self, above, name):
        return self.view(above, self.own_type(name)) is not None

    # ---- subtyping, as far as results ask it (JLS 4.10)

    def below(self, lower, upper, depth=0):
        if lower == upper or (upper == OBJECT and lower[0] != "prim"):
            return True
        if depth > DEPTH:
            return False
        if lower[0] == "var":
            return any(self.below(bound, upper, depth + 1) for bound in self.bounds[lower[1]])
        if lower[0] == "array":
            if upper[0] != "array" or "prim" in (lower[1][0], upper[1][0]):
                return False
            return self.below(lower[1], upper[1], depth + 1)
        return lower[0] in ("class", "raw") and upper[0] in ("class", "raw") and self.class_below(lower, upper, depth)

    def class_below(self, lower, upper, depth):
        view = self.captured_view(upper[1], lower)
        if view is None or upper[0] == "raw":
            return view is not None
        if view[0] == "raw" or len(view[2]) != len(upper[2]):
            return not upper[2]
        return all(self.contains(outer, inner, depth + 1) for inner, outer in zip(view[2], upper[2]))

    def contains(self, outer, inner, depth):
        if inner == outer or outer[0] == "any":
            return True
        if outer[0] != "extends":
            return False
        return outer[1] == OBJECT or (inner[0] in ("exact", "extends") and self.below(inner[1], outer[1], depth))

    # ---- methods as types have them (JLS 8.4.2)

    def viewed(self, method, variables, by):
        put = lambda ty: subst(variables, by, ty)
        bounds = [[put(bound) for bound in self.bounds[name]] for name in method.variables]
        return View(method, method.variables, bounds, [put(ty) for ty in method.params], method.result and put(method.result), [put(ty) for ty in method.thrown])

    def declared(self, method):
        return self.viewed(method, [], [])

    def class_view(self, name, method):
        view = self.view(method.owner, self.own_type(name))
        if view is None:
            return None
        if method.is_static:
            return self.declared(method)
        if view[0] == "class":
            return self.viewed(method, self.classes[method.owner].variables, [arg[1] for arg in view[2]])
        return View(method, [], [], [self.plain(ty) for ty in method.params], method.result and self.plain(method.result), [self.plain(ty) for ty in method.thrown])

    def leftmost(self, view, ty, steps):
        if steps and ty[0] == "var" and ty[1] in view.variables:
            return self.leftmost(view, view.bounds[view.variables.index(ty[1])][0], steps - 1)
        if ty[0] == "array":
            return ("array", self.leftmost(view, ty[1], steps))
        return ty

    def erased_in(self, view, ty):
        return self.plain(self.leftmost(view, ty, len(view.variables) + 1))

    def adapted(self, one, other, ty):
        return subst(other.variables, [("var", name) for name in one.variables], ty)

    def same_signature(self, one, other):
        put = lambda ty: self.adapted(one, other, ty)
        return (
            len(one.variables) == len(other.variables)
            and all(same_bounds(mine, [put(bound) for bound in theirs]) for mine, theirs in zip(one.bounds, other.bounds))
            and one.params == [put(ty) for ty in other.params]
        )

    def subsignature(self, one, other):
        if one.method.name != other.method.name:
            return False
        is_erasure = not one.variables and one.params == [self.erased_in(other, ty) for ty in other.params]
        return self.same_signature(one, other) or is_erasure

    def equivalent(self, one, other):
        return self.subsignature(one, other) or self.subsignature(other, one)

    # ---- overriding and members (JLS 8.4.8)

    def is_above(self, name, above):
        return name != above and self.is_within(above, name)

    def replaces_in(self, name, one, other):
        """Whether the signature of one is a subsignature of the other's, as the class has both, and the other could be inherited."""
        if not self.is_above(one.owner, other.owner) or other.access == "private":
            return False
        mine, theirs = self.class_view(name, one), self.class_view(name, other)
        return mine is not None and theirs is not None and self.subsignature(mine, theirs)

    def overrides(self, one, other):
        return not one.is_static and not other.is_static and self.replaces_in(one.owner, one, other)

    def hides(self, one, other):
        return one.is_static and other.is_static and self.replaces_in(one.owner, one, other)

    def replaces(self, one, other):
        return self.overrides(one, other) or self.hides(one, other)

    def candidates(self, name):
        views = (self.class_view(name, method) for method in self.methods if method.owner == name or method.access != "private")
        return [view for view in views if view is not None]

    def remaining(self, views):
        return [view for view in views if not any(self.replaces(other.method, view.method) for other in views)]

    def stands_for(self, name, one, other):
        if one is other:
            return True
        if one.is_static or other.is_static or "private" in (other.access, one.access if one.owner != name else ""):
            return False
        mine, theirs = self.class_view(name, one), self.class_view(name, other)
        return mine is not None and theirs is not None and self.subsignature(mine, theirs)

    def select(self, name, method):
        at = name
        while at is not None:
            found = [one for one in self.methods if one.owner == at and self.stands_for(name, one, method)]
            if found:
                return next((one for one in found if not one.is_abstract), None)
            at = self.classes[at].supers[0][1] if self.classes[at].supers else None
        return None
