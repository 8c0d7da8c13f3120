"""The modules of a definition with all that they import, and every name in them resolved: what is left is a small language of calls,
constructors, records, functions and case distinctions, from which compare/antt.py makes Python.

Expressions: ("var", v), ("num", k), ("fref", function), ("call", function, args), ("nat", native, args), ("con", constructor, args),
("cond", c, a, b), ("and", a, b), ("or", a, b), ("app", f, args), ("proj", e, field), ("lam", vars, e), ("let", v, e, e),
("rec", fields, values), ("case", e, arms). Patterns: ("any",), ("bind", v), ("is", constructor, patterns), ("eq", k). Every variable
is a number of its own."""
import itertools
import os
import re

from compare.antt_library import FIXITY, LIBRARY, TYPE, Constructor, Lazy, Native
from compare.antt_parse import AnttError, Param, read_module

CRATE = re.compile(r"Rattle\.(\w+)\.specs\.(.+)")
fresh = itertools.count()


class Function:
    """A function of the text; `inline` is its parameters and body where it only chooses between two arms."""

    def __init__(self, name, module, arity):
        self.name, self.module, self.arity = name, module, arity
        self.rows = None
        self.inline = None
        self.busy = False

    def __repr__(self):
        return f"{self.module.path}: {self.name}"


def without_comments(text):
    return re.sub(r"//[^\n]*", "", text)


def enum_of(text, name, path):
    """The constructors of an enum declared in a Rattle source."""
    match = re.search(rf"pub enum {name} \{{(.*?)\n\}}", without_comments(text), re.S)
    if match is None:
        raise AnttError(f"{path}: no enum {name}")
    out = []
    for variant, payload in re.findall(r"(\w+)\s*(?:\(([^)]*)\))?\s*(?:=\s*\d+\s*)?(?:,|$)", match.group(1)):
        types = [t.strip() for t in payload.split(",") if t.strip()]
        out.append(Constructor(variant, len(types), params=tuple(Param(None, t) for t in types)))
    return siblings(name, out)


def siblings(owner, constructors):
    for c in constructors:
        c.owner, c.others = owner, len(constructors)
    return constructors


# ---- modules
class Loader:
    """Modules by their path in `use` lines. `specs` is the folder of the model's definitions."""

    def __init__(self, top, specs):
        self.top, self.specs = top, specs
        self.modules, self.scopes, self.enums, self.records, self.fields = {}, {}, {}, {}, {}

    def file_of(self, crate, rest):
        folder = self.specs if crate == "model" else os.path.join(self.top, "crates", crate, "specs")
        return os.path.join(folder, *rest.split(".")) + ".antt"

    def all_model(self):
        """Every module of the model's folder."""
        for folder, _, names in sorted(os.walk(self.specs)):
            inner = os.path.relpath(folder, self.specs)
            for name in sorted(names):
                if name.endswith(".antt") and name != "Lib.antt":
                    parts = ([] if inner == "." else inner.split(os.sep)) + [name[: -len(".antt")]]
                    self.names("Rattle.model.specs." + ".".join(parts))

    def names(self, path):
        """What a module offers: name -> what it is."""
        if path in LIBRARY:
            return LIBRARY[path]
        match = CRATE.fullmatch(path)
        if match is None:
            raise AnttError(f"the module {path} is neither a definition nor in the library's table")
        crate, rest = match.groups()
        if rest.startswith("declared."):
            return self.declared(crate, rest.split(".")[1:])
        return self.module(self.file_of(crate, rest))

    def declared(self, crate, parts):
        variants = parts[-1] == "TheVariants"
        *folders, name = parts[:-1] if variants else parts
        path = os.path.join(self.top, "crates", crate, "src", *folders) + ".rt"
        if (path, name) not in self.enums:
            with open(path, encoding="utf-8") as f:
                self.enums[path, name] = enum_of(f.read(), name, path)
        return {c.name: c for c in self.enums[path, name]} if variants else {name: TYPE}

    def module(self, path):
        if path not in self.modules:
            try:
                with open(path, encoding="utf-8") as f:
                    found = read_module(f.read(), path, FIXITY)
            except OSError as why:
                raise AnttError(f"{path}: {why.strerror}")
            self.modules[path] = self.own_names(found)
            self.scopes[path] = self.scope(found)
        return self.modules[path]

    def own_names(self, m):
        own = {name: TYPE for name in [*m.types, *m.data, *m.records]}
        for owner, constructors in m.data.items():
            made = siblings(owner, [Constructor(c.name, len(c.params), params=c.params) for c in constructors])
            own.update({c.name: c for c in made})
        for name, clauses in m.clauses.items():
            own[name] = Function(name, m, len(clauses[0][0]))
        for name, fields in m.records.items():
            self.fields[name] = self.records.setdefault(frozenset(fields), tuple(fields))
        return own

    def scope(self, m):
        out = {}
        for path, names in m.uses:
            offered = self.names(path)
            for name, here in names or []:
                if name not in offered:
                    raise AnttError(f"{m.path}: {path} has no {name} that can be run")
                out[here] = offered[name]
        out.update(self.modules[m.path])
        return out


# ---- names resolved
def atomic(e):
    return e[0] in ("var", "num", "fref") or e[0] in ("con", "call") and not e[2]


def lets(pairs, body):
    for v, e in reversed(pairs):
        body = ("let", v, e, body)
    return body


class Resolver:
    """The expressions of one module."""

    def __init__(self, loader, module):
        self.loader, self.path, self.scope = loader, module.path, loader.scopes[module.path]

    def expr(self, e, env):
        return getattr(self, "on_" + e[0])(e, env)

    def exprs(self, many, env):
        return [self.expr(e, env) for e in many]

    def on_name(self, e, env):
        return ("var", env[e[1]]) if e[1] in env else self.apply(self.entity(e[1]), [])

    def entity(self, name):
        found = self.scope.get(name)
        if found is None:
            raise AnttError(f"{self.path}: {name} is neither defined nor imported")
        if found is TYPE:
            raise AnttError(f"{self.path}: {name} is a type and cannot be run")
        return found

    def on_num(self, e, env):
        return e

    def on_app(self, e, env):
        args = self.exprs(e[2], env)
        if e[1][0] == "name" and e[1][1] not in env:
            return self.apply(self.entity(e[1][1]), args)
        return apply_value(self.expr(e[1], env), args)

    def on_proj(self, e, env):
        return ("proj", self.expr(e[1], env), e[2])

    def on_lam(self, e, env):
        names = {n: next(fresh) for n in e[1]}
        return ("lam", list(names.values()), self.expr(e[2], {**env, **names}))

    def on_let(self, e, env):
        v = next(fresh)
        return ("let", v, self.expr(e[2], env), self.expr(e[3], {**env, e[1]: v}))

    def on_record(self, e, env):
        given = dict(e[1])
        fields = self.loader.records.get(frozenset(given))
        if fields is None:
            raise AnttError(f"{self.path}: no record has exactly the fields {', '.join(given)}")
        return ("rec", fields, [self.expr(given[f], env) for f in fields])

    def on_elim(self, e, env):
        arms = []
        for pattern, body in e[2]:
            inner = dict(env)
            arms.append((self.pattern(pattern, inner), self.expr(body, inner)))
        return ("case", self.expr(e[1], env), arms)

    # ---- patterns
    def pattern(self, p, env):
        """The pattern; its variables go into env."""
        if p[0] == "num":
            return ("eq", p[1])
        head, args = (p[1], p[2]) if p[0] == "app" else (p, [])
        if head[0] != "name":
            raise AnttError(f"{self.path}: a pattern that is not understood")
        found = self.scope.get(head[1])
        if isinstance(found, Constructor):
            if len(args) != found.arity:
                raise AnttError(f"{self.path}: {found.name} takes {found.arity} arguments in a pattern")
            return ("is", found, [self.pattern(a, env) for a in args])
        if args:
            raise AnttError(f"{self.path}: {head[1]} is no constructor")
        if head[1] == "_":
            return ("any",)
        env[head[1]] = next(fresh)
        return ("bind", env[head[1]])

    def rows(self, function):
        """The clauses of a function: patterns and body."""
        out = []
        for patterns, body in function.module.clauses[function.name]:
            if len(patterns) != function.arity:
                raise AnttError(f"{function}: clauses of different length")
            env = {}
            row = [self.pattern(p, env) for p in patterns]
            out.append((row, self.expr(body, env)))
        return out

    # ---- application
    def apply(self, what, args):
        if len(args) < what.arity:
            return self.partial(what, args)
        first, rest = args[: what.arity], args[what.arity :]
        return apply_value(self.saturated(what, first), rest)

    def partial(self, what, args):
        """A function that waits for the arguments that are missing; those given are computed once."""
        if not args and isinstance(what, Function):
            return ("fref", what)
        kept = [(None, a) if atomic(a) else (next(fresh), a) for a in args]
        given = [a if v is None else ("var", v) for v, a in kept]
        more = [next(fresh) for _ in range(what.arity - len(args))]
        lam = ("lam", more, self.saturated(what, given + [("var", v) for v in more]))
        return lets([(v, a) for v, a in kept if v is not None], lam)

    def saturated(self, what, args):
        if isinstance(what, Constructor):
            return ("con", what, args)
        if isinstance(what, Native):
            return ("nat", what, args)
        if isinstance(what, Lazy):
            return (what.name, *args)
        ready(self.loader, what)
        return ("call", what, args) if what.inline is None else inlined(*what.inline, args)


def ready(loader, function):
    """Its clauses resolved; a function that is being resolved calls itself."""
    if function.rows is None and not function.busy:
        function.busy = True
        function.rows = Resolver(loader, function.module).rows(function)
        function.inline = choice(function)
        function.busy = False


# ---- functions that only choose
def is_truth(p, name):
    return p[0] == "is" and p[1].native == name


def choice(function):
    """Parameters and body of a function with one clause for true and one for false, and variables elsewhere."""
    rows = function.rows
    if len(rows) != 2 or mentions(rows, function):
        return None
    columns = [k for k in range(function.arity) if any(p[k][0] != "bind" for p, _ in rows)]
    if len(columns) != 1 or {r[columns[0]][1].native if r[columns[0]][0] == "is" else None for r, _ in rows} != {"true", "false"}:
        return None
    column = columns[0]
    params = [next(fresh) for _ in range(function.arity)]
    arms = {}
    for row, body in rows:
        renamed = {p[1]: ("var", v) for p, v in zip(row, params) if p[0] == "bind"}
        arms[row[column][1].native] = copied(body, renamed)
    return params, ("cond", ("var", params[column]), arms["true"], arms["false"])


def parts(e):
    """The expressions right under one."""
    kind = e[0]
    if kind in ("call", "nat", "con", "rec"):
        return e[2]
    if kind == "app":
        return [e[1], *e[2]]
    if kind in ("cond", "and", "or"):
        return e[1:]
    if kind == "case":
        return [e[1], *(body for _, body in e[2])]
    return {"proj": e[1:2], "lam": e[2:3], "let": e[2:4]}.get(kind, ())


def walk(e):
    yield e
    for part in parts(e):
        yield from walk(part)


def mentions(rows, function):
    return any(e[0] in ("call", "fref") and e[1] is function for _, body in rows for e in walk(body))


def uses(e, v):
    return sum(1 for x in walk(e) if x == ("var", v))


def rebuilt(e, f):
    """The expression with f of each part."""
    kind = e[0]
    if kind in ("call", "nat", "con", "rec"):
        return (kind, e[1], [f(a) for a in e[2]])
    if kind == "app":
        return apply_value(f(e[1]), [f(a) for a in e[2]])
    if kind in ("cond", "and", "or"):
        return (kind, *(f(a) for a in e[1:]))
    return ("proj", f(e[1]), e[2]) if kind == "proj" else e


def renamed_pattern(p, new):
    if p[0] == "bind":
        new[p[1]] = ("var", next(fresh))
        return ("bind", new[p[1]][1])
    return ("is", p[1], [renamed_pattern(q, new) for q in p[2]]) if p[0] == "is" else p


def copied(e, new):
    """A copy with variables of its own, and `new` in place of those that it names."""
    kind = e[0]
    if kind == "var":
        return new.get(e[1], e)
    if kind == "lam":
        own = {v: ("var", next(fresh)) for v in e[1]}
        return ("lam", [own[v][1] for v in e[1]], copied(e[2], {**new, **own}))
    if kind == "let":
        v = next(fresh)
        return ("let", v, copied(e[2], new), copied(e[3], {**new, e[1]: ("var", v)}))
    if kind == "case":
        arms = []
        for p, body in e[2]:
            inner = dict(new)
            arms.append((renamed_pattern(p, inner), copied(body, inner)))
        return ("case", copied(e[1], new), arms)
    return rebuilt(e, lambda part: copied(part, new))


def inlined(params, body, args):
    """The body with the arguments in place: one that is computed is computed once."""
    new, kept = {}, []
    for v, a in zip(params, args):
        if atomic(a) or uses(body, v) <= 1 and (a[0] == "lam" or body[1] == ("var", v)):
            new[v] = a
        else:
            kept.append((next(fresh), a))
            new[v] = ("var", kept[-1][0])
    return lets(kept, copied(body, new))


def apply_value(f, args):
    if not args:
        return f
    if f[0] == "lam":
        now, later = f[1][: len(args)], f[1][len(args) :]
        body = ("lam", later, f[2]) if later else f[2]
        return apply_value(inlined(now, body, args[: len(now)]), args[len(now) :])
    if f[0] == "app":
        return apply_value(f[1], f[2] + args)
    if f[0] == "fref" and len(args) >= f[1].arity:
        return apply_value(("call", f[1], args[: f[1].arity]), args[f[1].arity :])
    return ("app", f, args)
