"""The broken rules of headers (501 to 514) and of clashes (801), each with its line, by the definitions of crates/jc_header_rules."""
from model import OPENNESS


class Results:
    """Whether a result also fits by being the erasure of the other one (JLS 8.4.5), which javac doesn't take."""

    erasure_fits = True


def result_fits(table, one, other):
    mine, theirs = one.result, other.result
    if mine is None or theirs is None:
        return mine is None and theirs is None
    if "prim" in (mine[0], theirs[0]):
        return mine == theirs
    adapted = table.adapted(one, other, theirs)
    is_erasure = Results.erasure_fits and mine == table.erased_in(other, theirs)
    return is_erasure or converts_unchecked(table, mine, adapted) or table.below(mine, adapted)


def converts_unchecked(table, lower, upper):
    if upper[0] == "array":
        return lower[0] == "array" and class_converts(table, lower[1], upper[1])
    return class_converts(table, lower, upper)


def class_converts(table, lower, upper):
    if upper[0] != "class" or lower[0] not in ("class", "raw", "var"):
        return False
    view = table.view_as_it_stands(upper[1], lower)
    return view is not None and view[0] == "raw" and bool(table.classes[view[1]].variables)


def thrown_class(table, view, ty):
    return table.erased_in(view, ty)[1]


def is_unchecked(table, name):
    return table.is_within("RuntimeException", name) or table.is_within("Error", name)


def thrown_fits(table, one, other):
    def fits(ty):
        name = thrown_class(table, one, ty)
        return is_unchecked(table, name) or any(table.is_within(thrown_class(table, other, above), name) for above in other.thrown)

    return all(fits(ty) for ty in one.thrown)


def is_weaker(one, other):
    return OPENNESS[one.access] < OPENNESS[other.access]


def pair_rules(table, method, other):
    """The rules that a method breaks beside another one."""
    broken = set()
    if other.number < method.number and other.owner == method.owner and table.equivalent(table.declared(method), table.declared(other)):
        broken.add(503)
    if method.is_static != other.is_static and table.replaces_in(method.owner, method, other):
        broken.add(505)
    if table.replaces(method, other):
        mine, theirs = table.class_view(method.owner, method), table.class_view(method.owner, other)
        broken |= {504} if other.is_final else set()
        broken |= {506} if is_weaker(method, other) else set()
        broken |= set() if result_fits(table, mine, theirs) else {507}
        broken |= set() if thrown_fits(table, mine, theirs) else {508}
    return broken


def method_rules(table, method):
    broken = set().union(*(pair_rules(table, method, other) for other in table.methods))
    if method.says_override and not any(table.overrides(method, other) for other in table.methods):
        broken.add(510)
    if not all(table.is_within("Throwable", thrown_class(table, table.declared(method), ty)) for ty in method.thrown):
        broken.add(513)
    if method.is_abstract == method.has_body:
        broken.add(514)
    return broken


def all_above(table, ty, steps=8):
    if steps == 0:
        return []
    return [found for above in table.supers(ty) for found in [above] + all_above(table, above, steps - 1)]


def has_conflict(table, name):
    above = all_above(table, table.own_type(name))
    return any(one[1] == other[1] and one != other for one in above for other in above)


def leaves_open(table, name):
    def is_member(method):
        return method.owner == name or (table.is_above(name, method.owner) and method.access != "private")

    def is_inherited(method):
        return is_member(method) and not any(is_member(other) and table.overrides(other, method) for other in table.methods)

    return any(method.is_abstract and not method.is_static and is_inherited(method) and table.select(name, method) is None for method in table.methods)


def disagree(table, name, members):
    """Rule 511: inherited methods of one signature that don't agree."""

    def meeting(view):
        return [other for other in members if other is not view and name not in (view.method.owner, other.method.owner) and table.equivalent(view, other)]

    def fits_all(view):
        return all(result_fits(table, view, other) for other in meeting(view))

    for view in members:
        others = meeting(view)
        if view.method.is_abstract:
            if not any(not other.method.is_abstract for other in others) and not any(fits_all(one) for one in [view] + others):
                return True
        elif others and (not fits_all(view) or any(body_disagrees(table, view, other) for other in others)):
            return True
    return False


def body_disagrees(table, view, other):
    if not other.method.is_abstract or view.method.is_static:
        return True
    return is_weaker(view.method, other.method) or not thrown_fits(table, view, other)


def erasures(table, method):
    """Those of a method, and of what it overrides or hides, directly or indirectly."""
    found = [method]
    for one in found:
        found += [other for other in table.methods if other not in found and table.replaces(one, other)]
    return [[table.plain(ty) for ty in one.params] for one in found]


def clashes(table, name, members, view, other):
    if view.method is other.method or view.method.name != other.method.name or table.subsignature(view, other):
        return False
    is_member = any(one.method is other.method for one in members)
    stands = view.method.is_abstract or not other.method.is_abstract
    if view.method.owner != name and is_member and table.subsignature(other, view) and stands:
        return False
    return any(erasure in erasures(table, other.method) for erasure in erasures(table, view.method))


def clash_line(table, name, method, other):
    mine, theirs = method.owner == name, other.owner == name
    if mine and theirs:
        return max(method.line, other.line)
    if mine or theirs:
        return method.line if mine else other.line
    over = [one.line for one in table.methods if one.owner == name and table.replaces(one, other)]
    return min(over, default=table.classes[name].line)


def class_rules(table, name, members):
    broken = set()
    one = table.classes[name]
    if one.variables and table.is_within("Throwable", name):
        broken.add(501)
    if has_conflict(table, name):
        broken.add(502)
    if not one.is_abstract and not one.is_interface and leaves_open(table, name):
        broken.add(509)
    if disagree(table, name, members):
        broken.add(511)
    return broken


def broken_rules(table, names):
    """Pairs of a line and a rule, of these classes."""
    found = {(method.line, rule) for method in table.methods for rule in method_rules(table, method)}
    for name in names:
        everything = table.candidates(name)
        members = table.remaining(everything)
        found |= {(table.classes[name].line, rule) for rule in class_rules(table, name, members)}
        for view in members:
            for other in everything:
                if clashes(table, name, members, view, other):
                    found.add((clash_line(table, name, view.method, other.method), 801))
    return found


def rests_on_an_erasure(table, names):
    """Whether a program that breaks no rule would break one if no result fitted by being the other one's erasure."""
    Results.erasure_fits = False
    try:
        return bool(broken_rules(table, names))
    finally:
        Results.erasure_fits = True
