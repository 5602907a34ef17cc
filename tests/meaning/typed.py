#!/usr/bin/env python3
"""Writes the typed program of a small Java source in the plain text form that jc_eval reads.

The source has no overloads but by the number of arguments or by plain types. Its classes and methods may have type parameters, no two of
one name; a wildcard stands for its bound, and a method's type arguments are those of the first parameters that tell them. Where a result or a
field of a type parameter's type is used as another class, a guard stands. The library in lib.java goes before it.

Lines at the head of a source: `// captures` makes a captured variable of each argument that is a wildcard, which `CAP0` and so on name in the order of
evaluation; `// without: STEP, ..` leaves these steps out wherever they would stand. Usage: typed.py SOURCE [UNITS]"""
import re, sys, os

PRIMS = {'boolean': 'Z', 'byte': 'B', 'short': 'S', 'char': 'C', 'int': 'I', 'long': 'J'}
RANK = ['B', 'S', 'C', 'I', 'J']
BOX = {'Integer': 'I', 'Long': 'J', 'Boolean': 'Z', 'Character': 'C'}
TOKEN = re.compile(r'\s*(?://[^\n]*\n\s*|/\*.*?\*/\s*)*(>>>=|<<=|>>=|>>>|<<|>>|\+\+|--|&&|\|\||==|!=|<=|>=|[-+*/%&|^]=|[A-Za-z_$][\w$]*|0x[0-9a-fA-F]+[lL]?|\d+[lL]?|"(?:\\.|[^"\\])*"|\'(?:\\.|[^\'\\])*\'|[^\s])', re.S)
ESC = {'n': 10, 't': 9, 'r': 13, '0': 0, '\\': 92, "'": 39, '"': 34}


def unescape(s):
    out, i = [], 0
    while i < len(s):
        if s[i] == '\\':
            out.append(ESC[s[i + 1]]); i += 2
        else:
            out.append(ord(s[i])); i += 1
    return out


class Unchecked(str):
    """A raw type that a creation has by an unchecked conversion, though its object keeps the arguments that were inferred."""


class Guarded(str):
    """A type that what was read has only where its class is tested."""


def split(args):
    """The type arguments between commas that stand in none of them."""
    out, depth = [''], 0
    for c in args:
        depth += (c == '<') - (c == '>')
        if c == ',' and depth == 0: out.append('')
        else: out[-1] += c
    return out


def base(t): return t.split('<')[0]


def args_of(t): return split(t[t.index('<') + 1:-1]) if '<' in t else []


class Varying(str):
    """The type of a parameter for any number of arguments."""


class Cls:
    def __init__(self, name, kind, sup, ifs, vars=()):
        self.name, self.kind, self.sup, self.ifs, self.vars = name, kind, sup, ifs, list(vars)
        self.fields, self.methods, self.inits, self.sinits = [], [], [], []


class Fld:
    def __init__(self, cls, name, ty, static, final, init):
        self.cls, self.name, self.ty, self.static, self.final, self.init = cls, name, ty, static, final, init
        self.const = None


class Meth:
    def __init__(self, cls, name, kind, static, params, result, body, native, vars=()):
        self.cls, self.name, self.kind, self.static, self.params, self.result, self.body, self.native, self.private = cls, name, kind, static, params, result, body, native, False
        self.vars = list(vars)


class Parser:
    def __init__(self, text):
        self.t = TOKEN.findall(text + '\n'); self.i = 0

    def peek(self, k=0):
        return self.t[self.i + k] if self.i + k < len(self.t) else ''

    def take(self, w=None):
        x = self.peek()
        if w is not None and x != w:
            raise SyntaxError(f'{w} wanted, {x} found at {self.t[max(0, self.i - 8):self.i + 4]}')
        self.i += 1
        return x

    def got(self, w):
        if self.peek() == w:
            self.i += 1
            return True
        return False

    def type(self):
        t = self.take()
        while self.peek() == '.' and self.peek(1)[:1].isupper():
            self.take(); t = self.take()
        if self.peek() == '<': t += self.type_args()
        while self.peek() == '[' and self.peek(1) == ']':
            self.take(); self.take(); t += '[]'
        return t

    def type_args(self):
        self.take('<'); out = []
        while not self.closed():
            if self.got('?'):
                kind = self.take() if self.peek() in ('extends', 'super') else ''
                out.append(f'?{kind[:1]}{self.type()}' if kind else '?')
            else: out.append(self.type())
            self.got(',')
        return f'<{",".join(out)}>'

    def closed(self):
        """whether type arguments end here; of `>>` the first sign is taken"""
        if self.peek() in ('>>', '>>>'): self.t[self.i:self.i + 1] = ['>'] * len(self.peek())
        return self.got('>')

    def vars(self):
        """Type parameters with their bounds, if some stand here."""
        out = []
        if self.got('<'):
            while not self.got('>'):
                n = self.take(); bounds = ['Object']
                if self.got('extends'):
                    bounds = [self.type()]
                    while self.got('&'): bounds.append(self.type())
                out.append((n, bounds)); self.got(',')
        return out

    def mods(self):
        m = set()
        while self.peek() in ('public', 'private', 'protected', 'static', 'final', 'abstract', 'native', 'synchronized'):
            m.add(self.take())
        return m

    def unit(self):
        out = []
        while self.peek() == 'import':
            while self.take() != ';':
                pass
        while self.peek():
            self.mods()
            kind = self.take(); name = self.take(); sup, ifs = None, []
            vars = self.vars()
            if self.got('extends'):
                sup = self.type()
                if kind == 'interface':
                    ifs.append(sup); sup = None
                    while self.got(','): ifs.append(self.type())
            if self.got('implements'):
                ifs.append(self.type())
                while self.got(','): ifs.append(self.type())
            c = Cls(name, kind, sup, ifs, vars); self.take('{')
            while not self.got('}'):
                self.member(c)
            out.append(c)
        return out

    def member(self, c):
        if self.got(';'): return
        m = self.mods()
        if self.peek() == '{':
            (c.sinits if 'static' in m else c.inits).append(('block', self.block())); return
        if self.peek() == c.name and self.peek(1) == '(':
            self.take(); ps = self.params()
            while self.peek() != '{': self.take()
            c.methods.append(Meth(c, '<init>', 'c', False, ps, 'void', self.block(), False)); return
        vars = self.vars(); ty = self.type(); name = self.take()
        if self.peek() == '(':
            ps = self.params()
            while self.peek() not in ('{', ';'): self.take()
            body = None if self.got(';') else self.block()
            c.methods.append(Meth(c, name, 'm', 'static' in m, ps, ty, body, 'native' in m, vars)); c.methods[-1].private = 'private' in m; return
        while True:
            init = None
            if self.got('='): init = self.array_init(ty) if self.peek() == '{' else self.expr()
            st = 'static' in m or c.kind == 'interface'
            f = Fld(c, name, ty, st, 'final' in m or c.kind == 'interface', init)
            c.fields.append(f)
            if init is not None: (c.sinits if st else c.inits).append(('field', f))
            if not self.got(','): break
            name = self.take()
        self.take(';')

    def params(self):
        self.take('('); ps = []
        while not self.got(')'):
            self.mods(); t = self.type()
            if self.peek() == '.':
                for _ in range(3): self.take('.')
                t = Varying(t + '[]')
            n = self.take()
            ps.append((t, n)); self.got(',')
        return ps

    def block(self):
        self.take('{'); ss = []
        while not self.got('}'): ss.append(self.stmt())
        return ss

    def is_decl(self):
        if self.peek() == 'final': return True
        t = self.peek()
        if not re.match(r'[A-Za-z_]', t) or t in ('return', 'new', 'throw', 'this', 'super', 'instanceof', 'else', 'case'): return False
        k = 1
        if self.peek(k) == '<':
            while re.match(r'[A-Za-z_<>,?\[\]&]', self.peek(k)) and not (self.peek(k - 1)[-1:] in '>]' and re.match(r'[A-Za-z_]', self.peek(k))): k += 1
            if self.peek(k - 1)[-1:] not in ('>', ']'): return False
        while self.peek(k) == '[' and self.peek(k + 1) == ']': k += 2
        return bool(re.match(r'[A-Za-z_]', self.peek(k))) and self.peek(k) != 'instanceof'

    def decls(self):
        self.mods(); ty = self.type(); out = []
        while True:
            n = self.take(); init = None
            if self.got('='): init = self.array_init(ty) if self.peek() == '{' else self.expr()
            out.append((ty, n, init))
            if not self.got(','): return out

    def stmt(self):
        p = self.peek()
        if p == '{': return ('block', self.block())
        if self.got(';'): return ('empty',)
        if self.got('if'):
            self.take('('); c = self.expr(); self.take(')'); a = self.stmt()
            return ('if', c, a, self.stmt() if self.got('else') else None)
        if self.got('while'):
            self.take('('); c = self.expr(); self.take(')'); return ('while', c, self.stmt())
        if self.got('do'):
            b = self.stmt(); self.take('while'); self.take('('); c = self.expr(); self.take(')'); self.take(';'); return ('do', b, c)
        if self.got('for'):
            self.take('(')
            if self.is_decl():
                save = self.i; self.mods(); ty = self.type(); n = self.take()
                if self.got(':'):
                    e = self.expr(); self.take(')'); return ('foreach', ty, n, e, self.stmt())
                self.i = save; init = ('decl', self.decls())
            else: init = ('exprs', self.exprs(';'))
            self.take(';'); c = None if self.peek() == ';' else self.expr(); self.take(';'); u = self.exprs(')'); self.take(')')
            return ('for', init, c, u, self.stmt())
        if self.got('switch'):
            self.take('('); e = self.expr(); self.take(')'); self.take('{'); cases, ss = [], []
            while not self.got('}'):
                if self.got('case'): cases.append((self.expr(), len(ss))); self.take(':')
                elif self.got('default'): cases.append((None, len(ss))); self.take(':')
                else: ss.append(self.stmt())
            return ('switch', e, cases, ss)
        if self.got('return'):
            e = None if self.peek() == ';' else self.expr(); self.take(';'); return ('return', e)
        if p in ('break', 'continue'):
            self.take(); l = None if self.peek() == ';' else self.take(); self.take(';'); return (p, l)
        if self.got('throw'):
            e = self.expr(); self.take(';'); return ('throw', e)
        if self.got('try'):
            b = self.block(); cs = []
            while self.got('catch'):
                self.take('('); self.mods(); ts = [self.type()]
                while self.got('|'): ts.append(self.type())
                n = self.take(); self.take(')'); cs.append((ts, n, self.block()))
            return ('try', b, cs, self.block() if self.got('finally') else None)
        if re.match(r'[A-Za-z_]\w*$', p) and self.peek(1) == ':':
            self.take(); self.take(); return ('label', p, self.stmt())
        if p in ('this', 'super') and self.peek(1) == '(':
            self.take(); a = self.args(); self.take(';'); return ('construct', p, a)
        if self.is_decl():
            d = self.decls(); self.take(';'); return ('decl', d)
        e = self.expr(); self.take(';'); return ('effect', e)

    def exprs(self, end):
        out = []
        while self.peek() != end:
            out.append(self.expr()); self.got(',')
        return out

    def args(self):
        self.take('('); out = self.exprs(')'); self.take(')'); return out

    def array_init(self, ty):
        self.take('{'); out = []
        while not self.got('}'):
            out.append(self.array_init(ty[:-2]) if self.peek() == '{' else self.expr()); self.got(',')
        return ('arrayof', ty, out)

    def expr(self):
        l = self.cond(); p = self.peek()
        if p == '=': self.take(); return ('assign', l, self.expr())
        if p in ('+=', '-=', '*=', '/=', '%=', '&=', '|=', '^=', '<<=', '>>=', '>>>='):
            self.take(); return ('compound', p[:-1], l, self.expr())
        return l

    def cond(self):
        c = self.binary(0)
        if self.got('?'):
            a = self.expr(); self.take(':'); return ('cond', c, a, self.cond())
        return c
    LEVELS = [['||'], ['&&'], ['|'], ['^'], ['&'], ['==', '!='], ['<', '>', '<=', '>=', 'instanceof'], ['<<', '>>', '>>>'], ['+', '-'], ['*', '/', '%']]

    def binary(self, k):
        if k == len(self.LEVELS): return self.unary()
        l = self.binary(k + 1)
        while self.peek() in self.LEVELS[k]:
            o = self.take()
            l = ('is', l, self.type()) if o == 'instanceof' else ('bin', o, l, self.binary(k + 1))
        return l

    def unary(self):
        p = self.peek()
        if p in ('++', '--'): self.take(); return ('inc', p, True, self.unary())
        if p == '-' and re.match(r'\d', self.peek(1)):
            self.take(); t = self.take(); return ('lit', 'J' if t[-1] in 'lL' else 'I', -int(t.rstrip('lL'), 0))
        if p in ('-', '+', '!', '~'): self.take(); return ('pre', p, self.unary())
        if p == '(':
            k = 2
            while self.peek(k) == '[' and self.peek(k + 1) == ']': k += 2
            if self.peek(k) == ')' and (self.peek(1) in PRIMS or (re.match(r'[A-Z]', self.peek(1)) and re.match(r'[A-Za-z_("\'0-9!~]', self.peek(k + 1)))):
                self.take(); t = self.type(); self.take(')'); return ('cast', t, self.unary())
        return self.postfix(self.primary())

    def primary(self):
        t = self.take()
        if t == '(': e = self.expr(); self.take(')'); return e
        if t == 'new':
            ty = self.take()
            while self.peek() == '.': self.take(); ty = self.take()
            if self.peek() == '<': ty += self.type_args()
            if self.peek() == '[':
                dims, more = [], 0
                while self.peek() == '[':
                    self.take()
                    if self.got(']'): more += 1
                    else: dims.append(self.expr()); self.take(']')
                full = ty + '[]' * (len(dims) + more)
                if not dims: return self.array_init(full)
                return ('newarray', full, dims)
            return ('new', ty, self.args())
        if t in ('true', 'false'): return ('lit', 'Z', int(t == 'true'))
        if t == 'null': return ('null',)
        if t == 'this': return ('this',)
        if t == 'super':
            self.take('.'); n = self.take(); return ('call', ('super',), n, self.args())
        if t[0] == '"': return ('str', unescape(t[1:-1]))
        if t[0] == "'": return ('lit', 'C', unescape(t[1:-1])[0])
        if t[0].isdigit():
            v = int(t.rstrip('lL'), 0)
            return ('lit', 'J' if t[-1] in 'lL' and not t.startswith('0x') or t[-1] in 'lL' else 'I', v)
        if self.peek() == '(': return ('call', None, t, self.args())
        return ('name', t)

    def postfix(self, e):
        while True:
            if self.got('.'):
                n = self.take()
                e = ('call', e, n, self.args()) if self.peek() == '(' else ('get', e, n)
            elif self.peek() == '[':
                self.take(); i = self.expr(); self.take(']'); e = ('elem', e, i)
            elif self.peek() in ('++', '--'): e = ('inc', self.take(), False, e)
            else: return e


def is_captured(t): return re.fullmatch(r'CAP\d+', t) is not None


class Program:
    captured, bound, has_captures, without = 0, {}, False, ()

    def __init__(self, classes):
        self.cs = classes; self.by = {c.name: c for c in classes}
        for c in classes:
            if c.kind == 'class' and c.sup is None and c.name != 'Object': c.sup = 'Object'
            if c.kind == 'class' and not any(m.kind == 'c' for m in c.methods):
                c.methods.append(Meth(c, '<init>', 'c', False, [], 'void', [], False))
            if c.sinits: c.methods.append(Meth(c, '<clinit>', 'i', True, [], 'void', [], False))
        self.fs = [f for c in classes for f in c.fields]; self.ms = [m for c in classes for m in c.methods]
        self.vars = {}
        for i, c in enumerate(classes):
            for n, bounds in c.vars: self.variable(n, bounds, f'c {i}')
        for i, m in enumerate(self.ms):
            for n, bounds in m.vars: self.variable(n, bounds, f'm {i}')
        for i, c in enumerate(classes): c.id = i
        for i, f in enumerate(self.fs): f.id = i
        for i, m in enumerate(self.ms): m.id = i

    def ty(self, t):
        if t.endswith('[]'): return self.ty(t[:-2]) + ',['
        if t[:1] == '?': return {'': '?', 'e': f'{self.ty(t[2:])},+', 's': f'{self.ty(t[2:])},-'}[t[1:2]] if len(t) > 1 else '?'
        if t in self.vars: return f'v{self.vars[t][0]}'
        if is_captured(t): return f'x{t[3:]}'
        if '<' in t: return ','.join([self.ty(a) for a in args_of(t)] + [f'k{self.by[base(t)].id}/{len(args_of(t))}'])
        if t in self.by and self.by[t].vars: return f'r{self.by[t].id}'
        return PRIMS.get(t) or (f'k{self.by[t].id}/0' if t in self.by else 'N')

    # ---- type parameters
    def variable(self, n, bounds, owner):
        if n in self.vars: raise SyntaxError(f'two type parameters {n}')
        self.vars[n] = (len(self.vars), bounds, owner)

    def erase(self, t):
        if t.endswith('[]'): return self.erase(t[:-2]) + '[]'
        if is_captured(t): return self.erase(self.bound[t])
        return self.erase(self.vars[t][1][0]) if t in self.vars else base(t)

    def subst(self, t, by):
        """A type with these for its type parameters; a wildcard that stands alone for its bound."""
        if t.endswith('[]'): return self.subst(t[:-2], by) + '[]'
        if t in by: return by[t][2:] if by[t][:2] == '?e' else self.erase(t) if by[t][:1] == '?' else by[t]
        if '<' in t: return f'{base(t)}<{",".join(by.get(a, a) if a in by else self.subst(a, by) for a in args_of(t))}>'
        return t

    def by_view(self, t, owner):
        """What stands for the type parameters of a class above a type, or None where the type is raw there."""
        if t in self.vars: return self.by_view(self.vars[t][1][0], owner)
        if is_captured(t): return self.by_view(self.bound[t], owner)
        c = self.by.get(base(t))
        if c is None: return {}
        by = dict(zip([n for n, _ in c.vars], args_of(t)))
        if c.name == owner: return None if c.vars and not by else by
        for s in ([c.sup] if c.sup else []) + c.ifs:
            if owner in self.supers(base(s)): return self.by_view(self.erase(s) if c.vars and not by else self.subst(s, by), owner)
        return {}

    def seen(self, t, declared, owner):
        """A declared type as a type has it, guarded where its erasure is another one."""
        by = self.by_view(t, owner)
        if by is None: return self.erase(declared)
        return self.guarded(declared, self.subst(declared, by))

    def guarded(self, declared, seen): return seen if self.below(self.erase(declared), self.erase(seen)) else Guarded(seen)

    def supers(self, n):
        n = base(n); c = self.by[n]; out = [n]
        for s in ([c.sup] if c.sup else []) + c.ifs:
            for x in self.supers(s):
                if x not in out: out.append(x)
        if 'Object' not in out: out.append('Object')
        return out

    def below(self, a, b):
        a, b = self.erase(a), self.erase(b)
        if a == b or b == 'Object' and a not in PRIMS: return True
        if a == 'null': return b not in PRIMS
        if a in PRIMS or b in PRIMS: return False
        if a.endswith('[]') and b.endswith('[]'): return self.below(a[:-2], b[:-2])
        return a in self.by and b in self.by and b in self.supers(a)

    def field(self, n, name):
        n = self.erase(n)
        for k in self.supers(n):
            for f in self.by[k].fields:
                if f.name == name: return f

    def methods(self, n, name, count):
        out, n = [], self.erase(n)
        for k in (self.supers(n) if n in self.by else ['Object']):
            for m in self.by[k].methods:
                if m.name == name and len(m.params) == count and (name != '<init>' or k == n): out.append(m)
        return out

    def select(self, n, name, types):
        ms = self.methods(n, name, len(types))
        for phase in (0, 1):
            ok = [m for m in ms if all(self.fits(a, p[0], phase) for a, p in zip(types, m.params))]
            best = [m for m in ok if all(all(self.fits(p[0], q[0], 0) for p, q in zip(m.params, o.params)) for o in ok)]
            if best: return best[0]
        for m in self.varying(n, name):
            if len(types) >= len(m.params) - 1: return m
        raise TypeError(f'no {name} in {n} for {types}')

    def varying(self, n, name): return [m for k in self.supers(self.erase(n)) for m in self.by[k].methods if m.name == name and m.params and isinstance(m.params[-1][0], Varying)]

    def fits(self, a, b, phase):
        if a in PRIMS and b in PRIMS:
            x, y = PRIMS[a], PRIMS[b]
            return x == y or x in RANK and y in RANK and RANK.index(x) < RANK.index(y) and y != 'C' and not (x == 'C' and y == 'S')
        if self.below(a, b): return True
        if phase and a in PRIMS: return any(BOX.get(k) == PRIMS[a] and self.below(k, b) for k in BOX)
        if phase and a in BOX: return b in PRIMS and self.fits({v: k for k, v in PRIMS.items()}[BOX[a]], b, 0)
        return False


NAMES = {v: k for k, v in PRIMS.items()}


class Body:
    """One method's arena."""

    def __init__(self, P, m):
        self.P, self.m, self.c = P, m, m.cls
        self.lines, self.locals, self.scope, self.targets = [], [], [{}], []
        P.captured, P.bound = 0, {}
        self.next_target = 1
        self.none = {k: None for k in ('types', 'steps', 'captures', 'ops', 'cases', 'operands', 'links', 'declared', 'stmts', 'arms', 'catches', 'names', 'places')}
        self.own = m.cls.name + (f'<{",".join(n for n, _ in m.cls.vars)}>' if m.cls.vars else '')
        if not m.static: self.local('this', self.own)
        for t, n in m.params: self.local(n, t)

    def local(self, n, t):
        self.scope[-1][n] = (len(self.locals), t); self.locals.append(t)
        return len(self.locals) - 1

    def find(self, n):
        for s in reversed(self.scope):
            if n in s: return s[n]

    def node(self, line):
        self.lines.append(line); return len(self.lines) - 1

    def empty(self, k):
        if self.none[k] is None: self.none[k] = self.node(f'{k} E')
        return self.none[k]

    def list(self, k, xs):
        at = self.empty(k)
        for x in xs: at = self.node(f'{k} {at} {x}')
        return at

    def steps(self, ss): return self.list('steps', [s for s in ss if s not in self.P.without])

    def type(self, t): return self.node('type ' + self.P.ty(t))

    def e(self, form, t='null'):
        return self.node(f'expr {self.type(t)} {self.empty("captures")} {form}')

    def op(self, of, ss=()): return self.node(f'operand {of} {self.steps(ss)}')

    def guard(self, a, t):
        """the test of a guarded type that is used as type t"""
        if isinstance(a, Unchecked): return [f'up {self.type(str(a))}']
        return [f'test read {self.P.ty(self.P.erase(a))}'] if isinstance(a, Guarded) and self.P.erase(t) != 'Object' else []

    def used(self, at, t): return self.op(at, self.guard(t, t))

    def operands(self, xs): return self.list('operands', xs)

    # ---- conversions
    def conv(self, a, b):
        """steps from type a to type b"""
        if a == b or a == 'null' or a == 'void': return []
        if a in PRIMS and b in PRIMS:
            return ['widen ' + PRIMS[b]] if self.P.fits(a, b, 0) else ['narrow ' + PRIMS[b]]
        if a in PRIMS: return ['box ' + PRIMS[a]]
        if b in PRIMS:
            a = self.P.erase(a); p = NAMES[BOX[a]]
            return ['unbox ' + BOX[a]] + self.conv(p, b)
        return []

    def to(self, x, t):
        at, a = self.expr(x)
        return self.op(at, self.guard(a, a if t in PRIMS else t) + self.conv(str(a), t))

    def unboxed(self, t): return NAMES[BOX[t]] if t in BOX else t

    def promoted(self, t):
        t = self.unboxed(t)
        return 'int' if t in ('byte', 'short', 'char') else t

    def both(self, a, b):
        a, b = self.promoted(a), self.promoted(b)
        return 'long' if 'long' in (a, b) else a

    # ---- constants
    def const(self, x):
        """the value of a constant expression, or None"""
        k = x[0]
        if k == 'lit': return (NAMES[x[1]], x[2])
        if k == 'str': return ('String', x[1])
        if k == 'name':
            if self.find(x[1]): return None
            f = self.P.field(self.c.name, x[1]); return self.field_const(f) if f else None
        if k == 'get' and x[1][0] == 'name' and x[1][1] in self.P.by and not self.find(x[1][1]):
            f = self.P.field(x[1][1], x[2]); return self.field_const(f) if f else None
        if k == 'bin' and x[1] == '+':
            a, b = self.const(x[2]), self.const(x[3])
            if a and b and a[0] == b[0] and a[0] in ('String', 'int'): return (a[0], a[1] + b[1])
        return None

    def field_const(self, f):
        if not f.final or f.init is None or f.init[0] not in ('lit', 'str') or f.ty not in PRIMS and f.ty != 'String': return None
        return (f.ty, f.init[2] if f.init[0] == 'lit' else f.init[1])

    def constant(self, c):
        t, v = c
        n = self.node('text ' + ' '.join(map(str, v)) if t == 'String' else f'number {PRIMS[t]} {v}')
        return self.e(f'const {self.empty("operands")} {n} {self.empty("names")} {self.empty("places")}', t), t

    # ---- expressions
    def expr(self, x):
        c = self.const(x)
        if c: return self.constant(c)
        at, t = getattr(self, 'x_' + x[0])(*x[1:])
        return self.captured(at, t) if self.P.has_captures and x[0] not in ('compound', 'inc', 'new', 'arrayof', 'newarray', 'node') else (at, t)

    def captured(self, at, t):
        """the expression that was made last, with a captured variable for each wildcard among its type's arguments"""
        if t.endswith('[]') or not any(a[:1] == '?' for a in args_of(t)): return at, t
        form = self.lines.pop().split(' ', 3)[3]
        k, args = self.P.by[base(t)], args_of(t)
        by = {n: a if a[:1] != '?' else f'CAP{self.P.captured + sum(b[:1] == "?" for b in args[:i])}' for i, ((n, _), a) in enumerate(zip(k.vars, args))}
        list = self.empty('captures')
        for i, ((n, bounds), a) in enumerate(zip(k.vars, args)):
            if a[:1] == '?':
                list = self.node(f'captures {list} {self.P.captured} {k.id} {i}')
                self.P.bound[by[n]] = a[2:] if a[:2] == '?e' else self.P.subst(bounds[0], by)
                self.P.captured += 1
        seen = type(t)(f'{base(t)}<{",".join(by.values())}>')
        return self.node(f'expr {self.type(seen)} {list} {form}'), seen

    def x_node(self, at, t): return at, t

    def x_null(self): return self.e('null'), 'null'

    def x_this(self): return self.e('this', self.own), self.own

    def x_name(self, n):
        l = self.find(n)
        if l: return self.e(f'local {l[0]}', l[1]), l[1]
        f = self.P.field(self.c.name, n)
        if not f: raise NameError(n)
        if f.static: return self.e(f'static {self.empty("operands")} {f.id} simple', f.ty), f.ty
        t = self.P.seen(self.own, f.ty, f.cls.name)
        return self.e(f'field {self.op(self.e("this", self.own))} {f.id}', t), t

    def is_class(self, x): return x is not None and x[0] == 'name' and not self.find(x[1]) and x[1] in self.P.by and not self.P.field(self.c.name, x[1])

    def x_get(self, of, n):
        if self.is_class(of):
            f = self.P.field(of[1], n)
            return self.e(f'static {self.empty("operands")} {f.id}', f.ty), f.ty
        at, t = self.expr(of)
        if t.endswith('[]'): return self.e(f'length {self.op(at)}', 'int'), 'int'
        f = self.P.field(t, n)
        if f.static: return self.e(f'static {self.operands([self.op(at)])} {f.id}', f.ty), f.ty
        seen = self.P.seen(t, f.ty, f.cls.name)
        return self.e(f'field {self.used(at, t)} {f.id}', seen), seen

    def x_elem(self, a, i):
        at, t = self.expr(a)
        a = self.op(at)
        return self.e(f'element {a} {self.to(i, "int")}', t[:-2]), t[:-2]

    def x_pre(self, o, x):
        at, t = self.expr(x)
        p = self.promoted(t)
        ops = self.node(f'ops {self.empty("ops")} {({"-": "n", "+": "p"}).get(o, o)}')
        return self.e(f'prefix {ops} {self.op(at, self.guard(t, t) + self.conv(t, p))}', p), p

    def x_cast(self, t, x):
        at, a = self.expr(x)
        ss = self.conv(a, t)
        if t not in PRIMS and a not in PRIMS and not self.P.below(a, t): ss = ss + ['test cast ' + self.P.ty(t)]
        return self.e(f'cast {self.op(at)} {self.type(t)} {self.steps(ss)}', t), t

    def x_is(self, x, t):
        at, a = self.expr(x)
        return self.e(f'instanceof {self.op(at)} {self.P.ty(t)}', 'boolean'), 'boolean'

    def printed(self, t):
        if t in ('byte', 'short', 'int'): return 'I'
        return PRIMS.get(t, 'R')

    def join(self, o, a, b):
        """joint words, steps of both operands, result"""
        if o == '+' and (a == 'String' or b == 'String'):
            return f'cat {self.printed(a)} {self.printed(b)}', self.guard(a, a) if a == 'String' else [], self.guard(b, b) if b == 'String' else [], 'String'
        if o in ('<<', '>>', '>>>'):
            p, q = self.promoted(a), self.promoted(b)
            return f'{o} . .', self.guard(a, a) + self.conv(a, p), self.guard(b, b) + self.conv(b, q), p
        if o in ('==', '!=') and not (a in PRIMS or b in PRIMS): return f'{o} . .', [], [], 'boolean'
        if self.unboxed(a) == 'boolean': return f'{o} . .', self.guard(a, a) + self.conv(a, 'boolean'), self.guard(b, b) + self.conv(b, 'boolean'), 'boolean'
        p = self.both(a, b)
        return f'{o} . .', self.guard(a, a) + self.conv(a, p), self.guard(b, b) + self.conv(b, p), 'boolean' if o in ('<', '>', '<=', '>=', '==', '!=') else p

    def flat(self, x, level):
        if x[0] == 'bin' and x[1] in level and not self.const(x): return self.flat(x[2], level) + [(x[1], x[3])]
        return [(None, x)]

    def x_bin(self, o, l, r):
        if o in ('&&', '||'):
            xs = [y for _, y in self.flat(('bin', o, l, r), [o])]
            first = self.to(xs[0], 'boolean')
            since = self.P.captured
            others = [self.to(y, 'boolean') for y in xs[1:]]
            return self.e(f'{"all" if o == "&&" else "any"} {self.operands([first] + others)} {since} {self.P.captured}', 'boolean'), 'boolean'
        level = next(v for v in Parser.LEVELS if o in v)
        xs = self.flat(('bin', o, l, r), level)
        at, t = self.expr(xs[0][1])
        first, links = self.op(at), self.empty('links')
        for (k, y) in xs[1:]:
            yat, u = self.expr(y)
            j, ls, rs, t2 = self.join(k, t, u)
            lsteps = self.steps(ls)
            right = self.op(yat, rs)
            links = self.node(f'links {links} {j} {lsteps} {right}')
            t = t2
        return self.e(f'chain {first} {links}', t), t

    def x_cond(self, c, a, b):
        test = self.to(c, 'boolean')
        since = self.P.captured
        aat, s = self.expr(a); bat, t = self.expr(b)
        if s in PRIMS and t in PRIMS or s in BOX and t in PRIMS or s in PRIMS and t in BOX:
            x, y = self.const(a), self.const(b)
            p = self.unboxed(s) if self.unboxed(s) == self.unboxed(t) else 'char' if (s, t) == ('char', 'int') and y or (s, t) == ('int', 'char') and x else self.both(s, t)
        elif s == 'null': p = t
        elif t == 'null' or self.P.below(t, s): p = s
        elif self.P.below(s, t): p = t
        else: p = 'Object'
        return self.e(f'conditional {test} {self.op(aat, self.conv(s, p))} {self.op(bat, self.conv(t, p))} {since} {self.P.captured}', p), p

    def var(self, x):
        if x[0] == 'name':
            l = self.find(x[1])
            if l: return self.node(f'variable local {l[0]}'), l[1]
            f = self.P.field(self.c.name, x[1])
            if f.static: return self.node(f'variable static {self.empty("operands")} {f.id} simple'), f.ty
            return self.node(f'variable field {self.op(self.e("this"))} {f.id}'), f.ty
        if x[0] == 'get':
            if self.is_class(x[1]):
                f = self.P.field(x[1][1], x[2]); return self.node(f'variable static {self.empty("operands")} {f.id}'), f.ty
            at, t = self.expr(x[1]); f = self.P.field(t, x[2])
            if f.static: return self.node(f'variable static {self.operands([self.op(at)])} {f.id}'), f.ty
            return self.node(f'variable field {self.used(at, t)} {f.id}'), str(self.P.seen(t, f.ty, f.cls.name))
        at, t = self.expr(x[1]); a = self.op(at)
        return self.node(f'variable element {a} {self.to(x[2], "int")}'), t[:-2]

    def x_assign(self, l, r):
        v, t = self.var(l)
        value = self.to(r, t)
        return self.e(f'assign {v} {value} {self.steps(self.store_guard(l, r))}', t), t

    def store_guard(self, l, r):
        """the test at the store into a field whose declared type has another erasure than the value"""
        if l[0] != 'get' or self.is_class(l[1]): return []
        of, value = self.types([l[1], r])
        f = self.P.field(of, l[2])
        return [f'test use {self.P.ty(self.P.erase(f.ty))}'] if value in self.P.vars and not self.P.below(value, self.P.erase(f.ty)) else []

    def x_compound(self, o, l, r):
        v, t = self.var(l)
        rat, u = self.expr(r)
        j, ls, rs, p = self.join(o, t, u)
        into = self.conv(p, t) if not (t in BOX) else self.conv(p, NAMES[BOX[t]]) + ['box ' + BOX[t]]
        return self.e(f'compound {v} {j} {self.steps(ls)} {self.op(rat, rs)} {self.steps(into)}', t), t

    def x_inc(self, o, pre, l):
        v, t = self.var(l)
        p = self.promoted(t)
        into = self.conv(p, self.unboxed(t)) + (['box ' + BOX[t]] if t in BOX else [])
        return self.e(f'change {v} {o} {self.steps(self.conv(t, p))} {self.steps(into)} {"prefix" if pre else "postfix"}', t), t

    def arguments(self, m, xs): return self.operands([self.to(x, p[0]) for x, p in zip(xs, m.params)])

    def types(self, xs):
        save = (list(self.lines), dict(self.none), self.P.captured)
        ts = [self.expr(x)[1] for x in xs]
        self.lines, self.none, self.P.captured = save
        return ts

    def x_call(self, of, n, xs):
        if of and of[0] == 'get' and of[1] == ('name', 'System') and of[2] == 'out':
            t = self.types(xs)[0] if xs else 'String'
            x = xs[0] if xs else ('str', [])
            m = self.P.select('Lib', n, ['String'])
            if t == 'char[]': raise TypeError('char[]')
            if t != 'String': x = ('call', ('name', 'String'), 'valueOf', [x])
            elif x[0] != 'str': x = ('bin', '+', ('str', []), x)
            return self.e(f'call static {self.empty("operands")} {m.id} {self.empty("types")} {self.operands([self.to(x, "String")])} {self.empty("types")} .', 'void'), 'void'
        if of and of == ('name', 'System') and n == 'exit': of = ('name', 'Lib')
        ts = self.types(xs)
        if of is None:
            m = self.P.select(self.c.name, n, ts)
            r = self.empty('operands') if m.static else self.operands([self.op(self.e('this', self.c.name))])
            kind = 'static' if m.static else 'direct' if m.private else 'virtual'
        elif of == ('super',):
            m = self.P.select(self.c.sup, n, ts); r = self.operands([self.op(self.e('this'))]); kind = 'direct'
        elif self.is_class(of):
            m = self.P.select(of[1], n, ts); r = self.empty('operands'); kind = 'static'
        else:
            at, t = self.expr(of)
            further = self.further_bound(t, n, len(xs))
            at = self.op(at, [f'test use {self.P.ty(self.P.erase(further))}']) if further else self.used(at, t)
            t = further or t
            m = self.P.select(t if not t.endswith('[]') else 'Object', n, ts); r = self.operands([at]); kind = 'static' if m.static else 'virtual'
            return self.called(kind, r, m, xs, ts, t)
        return self.called(kind, r, m, xs, ts, self.own)

    def further_bound(self, t, n, count):
        """the bound behind the first one that has a method, where the first has none"""
        if t not in self.P.vars or self.P.methods(t, n, count): return None
        return next((b for b in self.P.vars[t][1][1:] if self.P.methods(b, n, count)), None)

    def called(self, kind, r, m, xs, ts, t):
        xs, ts = self.varied(m, xs, ts)
        by = {} if m.static or m.cls.name not in self.P.by or t.endswith('[]') else self.P.by_view(t, m.cls.name)
        raw = by is None
        by = dict(by or {})
        given = [self.inferred(n, m, ts) for n, _ in m.vars]
        by.update(zip((n for n, _ in m.vars), given))
        see = self.P.erase if raw else lambda d: self.P.subst(d, by)
        result = see(m.result) if raw or m.result == 'void' else self.P.guarded(m.result, see(m.result))
        types = self.list('types', [] if raw else [self.type(g) for g in given])
        args = self.operands([self.to(x, see(p[0])) for x, p in zip(xs, m.params)])
        return self.e(f'call {kind} {r} {m.id} {types} {args} {self.empty("types")} {"raw" if raw else "."}', result), result

    def varied(self, m, xs, ts):
        """the arguments of a call, those for any number of them as one array of the erased type"""
        if not m.params or not isinstance(m.params[-1][0], Varying) or len(ts) == len(m.params) and self.P.fits(ts[-1], m.params[-1][0], 0): return xs, ts
        before, of = len(m.params) - 1, self.P.erase(m.params[-1][0])
        at = self.e(f'arrayof {self.operands([self.to(x, of[:-2]) for x in xs[before:]])}', of)
        return xs[:before] + [('node', at, of)], ts[:before] + [of]

    def inferred(self, n, m, ts):
        for t, (declared, _) in zip(ts, m.params):
            if declared == n: return {v: k for k, v in BOX.items()}[PRIMS[t]] if t in PRIMS else str(t)
            for d, a in zip(args_of(declared), args_of(t)):
                if d == n: return a
        return 'Object'

    def x_new(self, t, xs):
        ts = self.types(xs)
        m = self.P.select(t, '<init>', ts)
        is_unchecked = t.endswith('<>') and any('<' in p[0] and '<' not in a and self.P.by.get(a) and self.P.by[a].vars for a, p in zip(ts, m.params))
        args = lambda see: self.operands([self.to(x, see(p[0])) for x, p in zip(xs, m.params)])
        if t.endswith('<>'):
            save = (list(self.lines), dict(self.none), self.P.captured); args(str)
            t = f'{base(t)}<{",".join(self.inferred(n, m, ts) for n, _ in m.cls.vars)}>'
            self.lines, self.none, self.P.captured = save
        by = self.P.by_view(t, base(t))
        given = args(self.P.erase if by is None else lambda d: self.P.subst(d, by))
        return self.e(f'new {m.id} {given} {self.empty("types")} {"raw" if by is None else "."}', t), Unchecked(base(t)) if is_unchecked else t

    def x_newarray(self, t, ds): return self.e(f'newarray {self.operands([self.to(d, "int") for d in ds])}', t), t

    def x_arrayof(self, t, xs): return self.e(f'arrayof {self.operands([self.to(x, t[:-2]) for x in xs])}', t), t

    # ---- statements
    def s(self, form): return self.node('stmt ' + form)

    def block(self, ss):
        self.scope.append({}); out = [self.stmt(x) for x in ss]; self.scope.pop()
        return self.s(f'block {self.list("stmts", out)}')

    def stmt(self, x): return getattr(self, 's_' + x[0])(*x[1:])

    def s_block(self, ss): return self.block(ss)

    def s_empty(self): return self.s('empty')

    def s_decl(self, ds): return self.s(f'locals {self.declared(ds)}')

    def declared(self, ds):
        at = self.empty('declared')
        for t, n, init in ds:
            k = self.local(n, t)
            v = self.empty('operands') if init is None else self.operands([self.to(init, t)])
            at = self.node(f'declared {at} {k} {v}')
        return at

    def s_effect(self, e): return self.s(f'effect {self.op(self.expr(e)[0])}')

    def s_if(self, c, a, b):
        arms = self.node(f'arms {self.empty("arms")} {self.to(c, "boolean")} {self.stmt(a)}')
        while b is not None and b[0] == 'if':
            arms = self.node(f'arms {arms} {self.to(b[1], "boolean")} {self.stmt(b[2])}'); b = b[3]
        other = self.list('stmts', [] if b is None else [self.stmt(b)])
        return self.s(f'if {arms} {other}')

    def loop(self, kind, make, label=None):
        n = self.next_target; self.next_target += 1
        names = self.pending; self.pending = []
        self.targets.append((kind, n, names)); out = make(n); self.targets.pop()
        return out
    pending = []

    def s_while(self, c, b):
        def make(n):
            t = self.to(c, 'boolean'); return self.s(f'while {n} {t} {self.stmt(b)}')
        return self.loop('loop', make)

    def s_do(self, b, c):
        def make(n):
            body = self.stmt(b); return self.s(f'do {n} {body} {self.to(c, "boolean")}')
        return self.loop('loop', make)

    def s_for(self, init, c, u, b):
        def make(n):
            self.scope.append({})
            d = self.declared(init[1]) if init[0] == 'decl' else self.empty('declared')
            before = self.operands([self.op(self.expr(e)[0]) for e in init[1]]) if init[0] == 'exprs' else self.empty('operands')
            t = self.operands([] if c is None else [self.to(c, 'boolean')])
            up = self.operands([self.op(self.expr(e)[0]) for e in u]); body = self.stmt(b); self.scope.pop()
            return self.s(f'for {n} {d} {before} {t} {up} {body}')
        return self.loop('loop', make)

    def s_foreach(self, ty, name, e, b):
        def make(n):
            at, t = self.expr(e); of = self.op(at); self.scope.append({}); k = self.local(name, ty); body = self.stmt(b); self.scope.pop()
            el = t[:-2]
            return self.s(f'forarray {n} {of} {self.type(el)} {self.empty("captures")} {self.steps(self.conv(el, ty))} {k} {body}')
        return self.loop('loop', make)

    def s_switch(self, e, cases, ss):
        def make(n):
            v = self.to(e, 'int'); self.scope.append({}); body = self.list('stmts', [self.stmt(x) for x in ss]); self.scope.pop()
            cs = []
            for k, skips in cases:
                key = 'default' if k is None else self.const(k)[1]
                cs.append(f'{key} {skips} {self.empty("names")}')
            return self.s(f'switch {n} {v} {self.list("cases", cs)} {body}')
        return self.loop('switch', make)

    def s_label(self, name, b):
        if b[0] in ('while', 'do', 'for', 'foreach', 'switch'):
            self.pending = self.pending + [name]; return self.stmt(b)
        n = self.next_target; self.next_target += 1
        self.targets.append(('label', n, [name])); body = self.stmt(b); self.targets.pop()
        return self.s(f'labelled {n} {body}')

    def s_break(self, l):
        for k, n, names in reversed(self.targets):
            if l in names if l else k in ('loop', 'switch'): return self.s(f'break {n}')

    def s_continue(self, l):
        for k, n, names in reversed(self.targets):
            if k == 'loop' and (l is None or l in names): return self.s(f'continue {n}')

    def s_return(self, e): return self.s(f'return {self.operands([] if e is None else [self.to(e, self.m.result)])}')

    def s_throw(self, e): return self.s(f'throw {self.op(self.expr(e)[0])}')

    def s_try(self, b, cs, last):
        body = self.block(b); at = self.empty('catches')
        for ts, n, cb in cs:
            self.scope.append({}); k = self.local(n, ts[0] if len(ts) == 1 else 'Throwable'); c = self.block(cb); self.scope.pop()
            at = self.node(f'catches {at} {k} {self.list("types", [self.type(t) for t in ts])} {c}')
        return self.s(f'try {body} {at} {self.list("stmts", [] if last is None else [self.block(last)])}')

    def s_construct(self, which, xs):
        m = self.P.select(self.c.name if which == 'this' else self.c.sup, '<init>', self.types(xs))
        return self.s(f'construct {m.id} {self.arguments(m, xs)} {self.empty("types")} .')

    def initialisers(self, xs):
        out = []
        for k, x in xs:
            if k == 'block': out.append(self.block(x))
            elif not (x.static and self.field_const(x)): out.append(self.s(f'initialise {x.id} {self.to(x.init, x.ty)}'))
        return self.list('stmts', out)

    def local_types(self): return ';'.join(self.P.ty(t) for t in self.locals) or '.'

    def write(self):
        m, c = self.m, self.c
        if m.body is None: return f'body {self.local_types()} 0\nend'
        body, calls, inits = list(m.body), [], self.empty('stmts')
        if m.kind == 'c':
            if body and body[0][0] == 'construct':
                calls = [self.stmt(body[0])]; this = body[0][1] == 'this'; body = body[1:]
            else:
                this = False
                if c.sup: calls = [self.s_construct('super', [])]
            if not this: inits = self.initialisers(c.inits)
        if m.kind == 'i': inits = self.initialisers(c.sinits)
        call = self.list('stmts', calls); rest = self.block(body)
        return f'body {self.local_types()} {self.P.captured} {call} {inits} {rest}\n' + '\n'.join(self.lines) + '\nend'


def first(P, vars): return f'{P.vars[vars[0][0]][0]} {len(vars)}' if vars else '0 0'


def stands_for(P, c, own, m):
    """Whether two methods have the same parameters in a class, or the first one's are the erasure of the other's."""
    def seen(method):
        by = P.by_view(c.name + (f'<{",".join(n for n, _ in c.vars)}>' if c.vars else ''), method.cls.name)
        return [P.erase(p[0]) if by is None else P.subst(p[0], by) for p in method.params]
    return [P.erase(t) for t in seen(own)] == [P.erase(t) for t in seen(m)]


def write(source, units):
    here = os.path.dirname(os.path.abspath(__file__))
    with open(source, encoding='utf-8') as it: text = it.read()
    classes = Parser(open(os.path.join(here, 'lib.java')).read()).unit() + Parser(text).unit()
    P = Program(classes); out = []
    P.has_captures = bool(re.match(r'(//.*\n)*// captures\n', text))
    P.without = [step for line in re.findall(r'^// without: (.*)$', text, re.M) for step in line.split(', ')]
    for c in classes:
        sups = ([c.sup] if c.sup else (['Object'] if c.kind == 'interface' else [])) + c.ifs
        lib = c.name in ('Lib',)
        binary = 'java.lang.' + c.name if classes.index(c) < LIBS(classes) else c.name
        out.append(f'class {binary} {"i" if c.kind == "interface" else "c"} {";".join(P.ty(s) for s in sups) or "."} {first(P, c.vars)}')
    for n, (_, bounds, owner) in P.vars.items(): out.append(f'variable-of {owner} {";".join(P.ty(b) for b in bounds)}')
    for f in P.fs: out.append(f'field-of {f.cls.id} {f.name} {"s" if f.static else "i"} {P.ty(f.ty)}')
    for m in P.ms:
        out.append(f'method-of {m.cls.id} {m.name} {m.kind} {"s" if m.static else "i"} {";".join(P.ty(p[0]) for p in m.params) or "."} {P.ty(m.result) if m.result != "void" else "."} {first(P, m.vars)}')
    for c in classes:
        if c.kind != 'class': continue
        for s in P.supers(c.name):
            for m in P.by[s].methods:
                if m.kind == 'm' and not m.static:
                    for own in P.methods(c.name, m.name, len(m.params)):
                        if own.cls.kind == 'class' and stands_for(P, c, own, m) and (own.body is not None or own.native):
                            out.append(f'select {c.id} {m.id} {own.id}'); break
    C = lambda n: P.by[n].id
    M = lambda n, k, ts: P.select(n, k, ts).id
    bx = lambda n, p: [C(n), M(n, 'valueOf', [p]), M(n, p + 'Value', [])]
    no = 999999
    known = [C('String'), P.field('String', 'chars').id] + [M('String', 'valueOf', [t]) for t in ('boolean', 'char', 'int', 'long', 'Object')] + [M('String', 'concat', ['String'])]
    known += bx('Boolean', 'boolean') + [no] * 6 + bx('Character', 'char') + bx('Integer', 'int') + bx('Long', 'long') + [no] * 3
    known += [C(n) for n in ('Error', 'ArithmeticException', 'ArrayStoreException', 'ClassCastException', 'NegativeArraySizeException', 'NullPointerException', 'ArrayIndexOutOfBoundsException', 'ExceptionInInitializerError', 'NoClassDefFoundError')]
    known += [M('Object', 'hashCode', []), M('Object', 'className', []), M('Throwable', 'thrownName', []), M('Lib', 'put', ['int']), M('Lib', 'read', []), M('Lib', 'exit', ['int'])]
    out.append('known ' + ' '.join(map(str, known)))
    for m in P.ms: out.append(Body(P, m).write())
    main = P.select('Main', 'main', ['String[]'])
    out.append(f'run {main.id} {units} main')
    return '\n'.join(out) + '\n'


def LIBS(classes): return next((i for i, c in enumerate(classes) if c.name == 'Character'), 0) + 1


if __name__ == '__main__':
    sys.stdout.write(write(sys.argv[1], int(sys.argv[2]) if len(sys.argv) > 2 else 1000000))
