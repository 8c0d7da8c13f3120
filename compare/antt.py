"""An interpreter of the subset of antt in which the definitions are written: the functions of the text become Python functions.

The language is total and pure, so the order of evaluation is free. Arguments are computed before a call; `cond`, `◌&&◌`, `◌||◌`, `elim` and
clauses compute only the arm that is taken. A function value takes one argument at a time. A call in tail position is a loop, and so
is one under `◌∷◌`, `◌++◌`, `◌+◌` or `suc`, with what stands before it kept in `acc`. A list that a function takes apart is passed on
with the place where its rest begins, so that the rest is copied only where it is used as a whole."""
import ctypes
import os
import re
import sys
import threading

from compare.antt_library import NATIVES, Constructor
from compare.antt_load import Function, Loader, ready, walk
from compare.antt_parse import AnttError
from compare.spelling import plain

TOP = os.path.dirname(os.path.dirname(os.path.abspath(__file__)))
SPECS = os.path.join(TOP, "crates", "model", "specs")
STACK = 512 * 1024 * 1024
DEPTH = 10**6


def mangled(name):
    return re.sub(r"\W", lambda m: f"_{ord(m.group()):x}_", name)


class TooLong(Exception):
    """No value in the time that was given."""


def stop(thread):
    """Ends a thread of Python code: what it computes has taken too long."""
    ctypes.pythonapi.PyThreadState_SetAsyncExc(ctypes.c_ulong(thread.ident), ctypes.py_object(TooLong))
    thread.join()


def with_deep_stack(f, seconds=None):
    """The value of f(), run where calls may nest as deep as the lists of a definition are long. TooLong where there is none in time."""
    out = []

    def run():
        try:
            out.append((f(), None))
        except BaseException as why:
            out.append((None, why))

    sys.setrecursionlimit(DEPTH)
    threading.stack_size(STACK)
    thread = threading.Thread(target=run)
    thread.start()
    thread.join(seconds)
    if thread.is_alive():
        stop(thread)
    value, why = out[0]
    if why is not None:
        raise why
    return value


# ---- how a function calls itself
def tails(e, function):
    """The calls of itself with which an expression ends: "call", or "list" and "num" where something is put before."""
    kind = e[0]
    if kind == "call" and e[1] is function:
        return {"call"}
    if kind == "let":
        return tails(e[3], function)
    if kind == "cond":
        return tails(e[2], function) | tails(e[3], function)
    if kind == "case":
        return set().union(*(tails(body, function) for _, body in e[2]))
    if kind in ("and", "or"):
        return tails(e[2], function)
    before = put_before(e)
    if before is None:
        return set()
    inner = tails(before[2], function)
    return inner | {before[0]} if inner else set()


def put_before(e):
    """What an expression puts before another: "list" or "num", how Python adds it, and the other."""
    if e[0] == "con" and e[1].native == "cons":
        return "list", ("append", e[2][0]), e[2][1]
    if e[0] == "con" and e[1].native == "suc":
        return "num", ("+=", ("num", 1)), e[2][0]
    if e[0] == "nat" and e[1].name == "◌++◌":
        return "list", ("+=", e[2][0]), e[2][1]
    if e[0] == "nat" and e[1].name == "◌+◌":
        return "num", ("+=", e[2][0]), e[2][1]
    return None


def tail_of(p):
    """The variable of the rest in a pattern x ∷ xs."""
    return p[2][1][1] if p[0] == "is" and p[1].native == "cons" and p[2][1][0] == "bind" else None


def offset_columns(function):
    """The arguments that a function takes apart and whose rest it hands to itself."""
    out = set()
    for row, body in function.rows:
        rests = {tail_of(p): k for k, p in enumerate(row) if tail_of(p) is not None}
        for e in walk(body):
            if e[0] == "call" and e[1] is function:
                out |= {k for k, a in enumerate(e[2]) if a[0] == "var" and rests.get(a[1]) == k}
    return out


# ---- Python text
class Coder:
    """The Python text of one function."""

    def __init__(self, program, function):
        self.program, self.function = program, function
        self.lines, self.env, self.locals, self.count, self.depth = [], {}, [], 0, 0
        ends = set().union(*(tails(body, function) for _, body in function.rows))
        kinds = ends - {"call"}
        self.acc = kinds.pop() if len(kinds) == 1 else None
        self.loop = bool(ends) if self.acc or not kinds else "call" in ends

    def name(self, base="v"):
        self.count += 1
        out = f"{base}{self.count}"
        if self.depth == 0:
            self.locals.append(out)
        return out

    def put(self, indent, text):
        self.lines.append("    " * indent + text)

    def source(self):
        f = self.function
        params = [self.name("p") for _ in range(f.arity)]
        places = {k: self.name("o") for k in sorted(f.offsets)}
        self.params = [w for k, p in enumerate(params) for w in ([p, places[k]] if k in places else [p])]
        self.put(0, f"def {f.py}({', '.join(self.params)}):")
        if self.acc:
            self.put(1, "acc = []" if self.acc == "list" else "acc = 0")
        indent = 1
        if self.loop:
            self.put(1, "while True:")
            indent = 2
        self.clauses([(p, places.get(k)) for k, p in enumerate(params)], f.rows, indent)
        return "\n".join(self.lines)

    def clauses(self, values, rows, indent):
        for number, (row, body) in enumerate(rows):
            tests, binds = [], []
            for (value, place), p in zip(values, row):
                self.match(p, value, place, tests, binds)
            inner = indent
            if tests and not (number == len(rows) - 1 and covers(rows)):
                self.put(indent, f"if {' and '.join(tests)}:")
                inner += 1
            used = {e[1] for e in walk(body) if e[0] == "var"}
            for v, text in binds:
                if v in used:
                    self.bind(v, text, inner)
            self.give(body, inner)
            if inner == indent:
                return
        self.put(indent, f"stuck({repr(repr(self.function))})")

    def bind(self, v, text, indent):
        if isinstance(text, str) and not text.isidentifier():
            name = self.name()
            self.put(indent, f"{name} = {text}")
            text = name
        self.env[v] = text

    def match(self, p, value, place, tests, binds):
        """The tests of a pattern, and what its variables stand for. `place` is where a list begins, if not at its start."""
        if p[0] == "bind":
            binds.append((p[1], (value, place, 0) if place else value))
        elif p[0] == "eq":
            tests.append(f"{value} == {p[1]}")
        elif p[0] == "is":
            self.match_con(p[1], p[2], value, place, tests, binds)

    def match_con(self, c, inner, value, place, tests, binds):
        if c.native in ("true", "false"):
            tests.append(value if c.native == "true" else f"not {value}")
        elif c.native in ("zero", "suc"):
            self.match_number(c, inner, value, tests, binds)
        elif c.native in ("nil", "cons"):
            at = place or "0"
            tests.append(f"{'not ' if c.native == 'nil' else ''}{f'{place} < len({value})' if place else f'len({value}) > 0'}")
            if c.native == "cons":
                self.match(inner[0], f"{value}[{at}]", None, tests, binds)
                self.match_rest(inner[1], value, at, binds)
        else:
            tests.append(f"{value}[0] is {self.program.tag(c)}" if c.arity else f"{value} is {self.program.constant(c)}")
            for k, q in enumerate(inner):
                self.match(q, f"{value}[{k + 1}]", None, tests, binds)

    def match_rest(self, p, value, at, binds):
        if p[0] == "bind":
            binds.append((p[1], (value, at, 1)))
        elif p[0] != "any":
            raise AnttError(f"{self.function}: a pattern within the rest of a list")

    def match_number(self, c, inner, value, tests, binds):
        many = 0
        while c.native == "suc":
            many += 1
            p = inner[0]
            if p[0] != "is":
                tests.append(f"{value} >= {many}")
                if p[0] == "bind":
                    binds.append((p[1], f"{value} - {many}"))
                return
            c, inner = p[1], p[2]
        tests.append(f"{value} == {many}")

    # ---- statements
    def give(self, e, indent):
        """The statements that return an expression."""
        kind = e[0]
        if kind == "let":
            self.bind(e[1], self.ex(e[2]), indent)
            self.give(e[3], indent)
        elif kind == "cond":
            self.put(indent, f"if {self.ex(e[1])}:")
            self.give(e[2], indent + 1)
            self.give(e[3], indent)
        elif kind == "case":
            value = self.name()
            self.put(indent, f"{value} = {self.ex(e[1])}")
            self.clauses([(value, None)], [([p], body) for p, body in e[2]], indent)
        elif kind in ("and", "or") and self.loop and tails(e, self.function):
            self.put(indent, f"if {'not ' if kind == 'and' else ''}{self.ex(e[1])}:")
            self.put(indent + 1, f"return {kind == 'or'}")
            self.give(e[2], indent)
        else:
            self.give_end(e, indent)

    def give_end(self, e, indent):
        before = put_before(e)
        if self.loop and e[0] == "call" and e[1] is self.function:
            if self.params:
                self.put(indent, f"{', '.join(self.params)} = {', '.join(self.arguments(e))}")
            self.put(indent, "continue")
        elif self.acc and before and before[0] == self.acc:
            (how, what), rest = before[1], before[2]
            self.put(indent, f"acc.append({self.ex(what)})" if how == "append" else f"acc += {self.ex(what)}")
            self.give(rest, indent)
        elif self.acc and e[0] == "con" and e[1].native in ("nil", "zero"):
            self.put(indent, "return acc")
        elif self.acc:
            self.put(indent, f"acc += {self.ex(e)}")
            self.put(indent, "return acc")
        else:
            self.put(indent, f"return {self.ex(e)}")

    # ---- expressions
    def ex(self, e):
        return getattr(self, "ex_" + e[0])(e)

    def ex_var(self, e):
        found = self.env[e[1]]
        if isinstance(found, str):
            return found
        value, at, more = found
        return f"{value}[{place_text(at, more)}:]"

    def ex_num(self, e):
        return str(e[1])

    def ex_fref(self, e):
        return self.program.curried(e[1])

    def ex_call(self, e):
        f = e[1]
        self.program.need(f)
        if f.arity == 0:
            return f.py
        return f"{f.py}({', '.join(self.arguments(e))})"

    def arguments(self, e):
        out = []
        for k, a in enumerate(e[2]):
            if k not in e[1].offsets:
                out.append(self.ex(a))
                continue
            found = self.env[a[1]] if a[0] == "var" else None
            out += [found[0], place_text(*found[1:])] if isinstance(found, tuple) else [self.ex(a), "0"]
        return out

    def ex_nat(self, e):
        return e[1].text.format(*map(self.ex, e[2]))

    def ex_con(self, e):
        c = e[1]
        plain = {"true": "True", "false": "False", "zero": "0", "nil": "[]"}.get(c.native)
        if plain:
            return plain
        args = [self.ex(a) for a in e[2]]
        if c.native == "suc":
            return f"({args[0]} + 1)"
        if c.native == "cons":
            return self.list_text(args, e[2][1])
        return f"({', '.join([self.program.tag(c), *args])})" if args else self.program.constant(c)

    def list_text(self, args, rest):
        """x ∷ xs, a list of more elements where xs is one written out."""
        first, more = args
        if more == "[]":
            return f"[{first}]"
        return f"[{first}, {more[1:]}" if rest[0] == "con" else f"[{first}, *{more}]"

    def ex_cond(self, e):
        return f"({self.ex(e[2])} if {self.ex(e[1])} else {self.ex(e[3])})"

    def ex_and(self, e):
        return f"({self.ex(e[1])} and {self.ex(e[2])})"

    def ex_or(self, e):
        return f"({self.ex(e[1])} or {self.ex(e[2])})"

    def ex_app(self, e):
        return self.ex(e[1]) + "".join(f"({self.ex(a)})" for a in e[2])

    def ex_proj(self, e):
        return f"{self.ex(e[1])}.{self.program.field(e[2])}"

    def ex_rec(self, e):
        return f"{self.program.record(e[1])}({', '.join(map(self.ex, e[2]))})"

    def ex_let(self, e):
        value = self.ex(e[2])
        if value.isidentifier():
            self.env[e[1]] = value
            return self.ex(e[3])
        self.env[e[1]] = name = self.name()
        return f"({name} := {value}, {self.ex(e[3])})[1]"

    def ex_case(self, e):
        value, arms = self.name(), []
        for number, (p, body) in enumerate(e[2]):
            tests, binds, texts = [], [], []
            self.match(p, value, None, tests, binds)
            for v, text in binds:
                self.env[v] = name = self.name()
                texts.append(f"{name} := " + (text if isinstance(text, str) else f"{text[0]}[{place_text(*text[1:])}:]"))
            body = f"({', '.join(f'({t})' for t in texts)}, {self.ex(body)})[-1]" if texts else self.ex(body)
            last = number == len(e[2]) - 1 and covers([([q], None) for q, _ in e[2]])
            arms.append(f"{body}" if last or not tests else f"{body} if {' and '.join(tests)} else ")
        end = f"stuck({repr(repr(self.function))})" if arms[-1].endswith(" else ") else ""
        return f"(({value} := {self.ex(e[1])}), {''.join(arms)}{end})[1]"

    def ex_lam(self, e):
        self.depth += 1
        names = [self.name() for _ in e[1]]
        self.env.update(zip(e[1], names))
        body = self.ex(e[2])
        self.depth -= 1
        kept = ""
        if self.loop and self.depth == 0:
            words = set(re.findall(r"\w+", body))
            kept = "".join(f", {v}={v}" for v in self.locals if v in words)
        head, *more = names
        return f"(lambda {head}{kept}: {''.join(f'lambda {v}: ' for v in more)}{body})"


def place_text(at, more):
    return at if not more else f"{at} + {more}" if at != "0" else str(more)


def covers(rows):
    """Each constructor of one column has its row, with variables alone inside and elsewhere: the last row needs no test."""
    columns = [k for k in range(len(rows[0][0])) if any(row[k][0] not in ("bind", "any") for row, _ in rows)]
    if len(columns) != 1 or any(row[columns[0]][0] != "is" for row, _ in rows):
        return False
    heads = [row[columns[0]] for row, _ in rows]
    if any(q[0] not in ("bind", "any") for p in heads for q in p[2]):
        return False
    return len({id(p[1]) for p in heads}) == len(heads) == heads[0][1].others


# ---- the program
class Program:
    """The definitions of a folder, ready to be called. `need` names the functions that are wanted; what they use comes with them."""

    def __init__(self, specs=SPECS, wanted=(), also=(), top=TOP):
        sys.setrecursionlimit(DEPTH)
        self.loader = Loader(top, os.path.abspath(specs))
        self.loader.all_model()
        for path in also:
            self.loader.names(path)
        self.globals = dict(NATIVES)
        self.sources, self.made, self.constants = [], set(), []
        self.functions = {name: self.find(name, Function) for name in wanted}
        for function in self.functions.values():
            self.need(function)
        self.text = "\n".join(self.sources)
        exec(compile(self.text, "definition", "exec"), self.globals)
        for function in self.constants:
            self.globals[function.py] = self.globals[function.py]()

    def find(self, name, kind):
        """The one entity of this name, in any spelling, that some loaded module defines."""
        found = [what for m in self.loader.modules.values() for own, what in m.items() if isinstance(what, kind) and plain(own) == plain(name)]
        if len(found) != 1:
            raise AnttError(f"{name}: {len(found)} definitions of this name where one is needed")
        return found[0]

    def need(self, function):
        if function in self.made:
            return
        self.made.add(function)
        ready(self.loader, function)
        function.offsets = offset_columns(function)
        function.py = f"d{len(self.made)}_{mangled(function.name)}"
        self.sources.append(Coder(self, function).source())
        if function.arity == 0:
            self.constants.append(function)

    def curried(self, function):
        """A function as a value."""
        self.need(function)
        if function.arity == 0:
            return function.py
        name = f"c_{function.py}"
        if name not in self.globals:
            self.globals[name] = None
            params = [f"a{k}" for k in range(function.arity)]
            args = ", ".join(f"{p}, 0" if k in function.offsets else p for k, p in enumerate(params))
            self.sources.append(f"{name} = {''.join(f'lambda {p}: ' for p in params)}{function.py}({args})")
        return name

    def tag(self, c):
        name = f"t{id(c)}"
        self.globals[name] = tag_of(c)
        return name

    def constant(self, c):
        name = f"k{id(c)}"
        self.globals[name] = value_of(c)
        return name

    def field(self, name):
        return "f_" + mangled(name)

    def record(self, fields):
        name = "R_" + "_".join(map(mangled, fields))
        if name not in self.globals:
            slots = [self.field(f) for f in fields]
            text = f"class {name}:\n    __slots__ = {slots}\n    def __init__(self, {', '.join(slots)}):\n"
            exec(text + "".join(f"        self.{s} = {s}\n" for s in slots), self.globals)
        return name

    # ---- for a caller
    def call(self, name, *args):
        """A wanted function of all its arguments."""
        function = self.functions[name]
        places = [x for k, a in enumerate(args) for x in ((a, 0) if k in function.offsets else (a,))]
        return self.globals[function.py](*places)

    def data(self, type_name):
        """The constructors of a data type of the text; none where it is no such type."""
        return [c for m in self.loader.modules.values() for c in m.values() if isinstance(c, Constructor) and c.owner == type_name]

    def fields(self, type_name):
        """The fields of a record of the text; none where it is no record."""
        return self.loader.fields.get(type_name, ())

    def make(self, fields, values):
        """A record of these fields."""
        return self.globals[self.record(fields)](*(values[f] for f in fields))

    def get(self, value, field):
        return getattr(value, self.field(field))


def tag_of(c):
    """What tells a value of this constructor: the constructor's own name, for those of the library a plain word."""
    return c.name if c.owner is None else c


def value_of(c, *args):
    if not hasattr(c, "value"):
        c.value = (tag_of(c),)
    return (tag_of(c), *args) if args else c.value
